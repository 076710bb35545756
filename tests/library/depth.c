/*
 * Each call on a stack of so many KB, below which nothing may be touched:  depth KB MAP SCEN PLAN PROGRAM HOLDS
 * Prints the name of each call that came back, and its status. One that needs more ends the process by a signal.
 */
#define _GNU_SOURCE
#include "calls.h"
#include <sys/mman.h>
#include <ucontext.h>

enum { SHUT = 1 << 20 };

static ucontext_t caller, called;
static struct lent lent;
static int call;
static uint32_t status;

static void run(void) { status = make(call, &lent); }

int main(int words, char **word)
{
    if (words != 7)
        return 2;
    size_t size = (size_t)atoi(word[1]) * 1024;
    read_inputs(word + 2);
    uint8_t *stack = mmap(NULL, SHUT + size, PROT_READ | PROT_WRITE, MAP_PRIVATE | MAP_ANONYMOUS, -1, 0);
    if (stack == MAP_FAILED || mprotect(stack, SHUT, PROT_NONE))
        return 2;
    for (call = 0; call < CALLS; call++) {
        if (getcontext(&called))
            return 2;
        called.uc_stack.ss_sp = stack + SHUT;
        called.uc_stack.ss_size = size;
        called.uc_link = &caller;
        makecontext(&called, run, 0);
        if (swapcontext(&caller, &called))
            return 2;
        printf("%s %u\n", call_names[call], status);
        fflush(stdout);
    }
    return 0;
}
