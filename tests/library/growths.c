/*
 * Each growth of each call refused in turn:  growths MAP SCEN PLAN PROGRAM HOLDS
 * A call whose growth is refused fails for want of memory, and what it was lent is as before. Link with --wrap=malloc
 * and --wrap=realloc, through which libfleet asks for memory.
 */
#include "blocks.h"
#include "calls.h"

static long growths, refuse;

void *__real_malloc(size_t size);
void *__real_realloc(void *old, size_t size);

static int is_refused(void) { return ++growths == refuse; }

void *__wrap_malloc(size_t size) { return is_refused() ? NULL : note(__real_malloc(size), size); }

void *__wrap_realloc(void *old, size_t size)
{
    return is_growth(old, size) && is_refused() ? NULL : note(__real_realloc(old, size), size);
}

/* Whether two were lent the same and have the same. */
static int is_same(const struct lent *a, const struct lent *b)
{
    return memcmp(a->out, b->out, MOST) == 0 && a->length == b->length
        && memcmp(a->numbers, b->numbers, sizeof a->numbers) == 0 && memcmp(&a->fault, &b->fault, sizeof a->fault) == 0;
}

int main(int words, char **word)
{
    static struct lent before, due, got, failed;
    const struct fleet_fault memory = {FLEET_MEMORY, 1, 0, {0}};
    if (words != 6)
        return 2;
    read_inputs(word + 1);
    memset(&before, 85, sizeof before);
    failed = before;
    failed.fault = memory;
    for (int call = 0; call < CALLS; call++) {
        long all, lacking = 0;
        refuse = growths = 0;
        due = before;
        if (make(call, &due) != FLEET_DONE)
            return printf("%s refuses\n", call_names[call]), 1;
        all = growths;
        for (long n = 1; n <= all; n++) {
            refuse = n, growths = 0;
            got = before;
            uint32_t status = make(call, &got);
            refuse = 0;
            if (status == FLEET_FAILED && is_same(&got, &failed))
                lacking++;
            else if (status != FLEET_DONE || !is_same(&got, &due))
                return printf("%s, growth %ld of %ld: status %u\n", call_names[call], n, all, status), 1;
        }
        if (lacking < 5 || all != lacking)
            return printf("%s: memory lacked in %ld of %ld\n", call_names[call], lacking, all), 1;
        printf("%s: each growth\n", call_names[call]);
    }
    return 0;
}
