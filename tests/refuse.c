// Refuses one growth of a program. With LD_PRELOAD naming this library, the growth of that number in the variable
// REFUSE fails, counted from 1, and the file named by GROWTHS, if any, gets how many were asked for. A block that is
// made smaller is no growth.
#define _GNU_SOURCE
#include "counts.h"
#include "library/blocks.h"
#include <dlfcn.h>
#include <errno.h>

static long growths;

// Whether this growth is the one that is refused.
static int is_refused(void)
{
    const char *number = getenv("REFUSE");
    growths++;
    if (!number || growths != atol(number))
        return 0;
    errno = ENOMEM;
    return 1;
}

void *malloc(size_t size)
{
    static void *(*next)(size_t);
    if (!next)
        next = (void *(*)(size_t))dlsym(RTLD_NEXT, "malloc");
    return is_refused() ? NULL : note(next(size), size);
}

void *realloc(void *old, size_t size)
{
    static void *(*next)(void *, size_t);
    if (!next)
        next = (void *(*)(void *, size_t))dlsym(RTLD_NEXT, "realloc");
    return is_growth(old, size) && is_refused() ? NULL : note(next(old, size), size);
}

__attribute__((destructor)) static void tell(void)
{
    tell_count("GROWTHS", growths);
}
