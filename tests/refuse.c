// Refuses one allocation of the program that it is loaded into: the one whose number REFUSE has, counted from 1. It writes a
// byte to the descriptor REFUSE_SIGNALS once it did. As the program ends it writes how many allocations were asked for, in decimal,
// to the descriptor REFUSE_COUNTS.
#include "libc.h"

static long before = -1;
static long asked;

__attribute__((destructor)) static void count(void) {
    const char *counts = getenv("REFUSE_COUNTS");
    long all = asked;
    if (counts && dprintf(atoi(counts), "%ld", all) < 0)
        abort();
}

static int refuses(void) {
    asked++;
    if (before < 0) {
        const char *number = getenv("REFUSE");
        before = number ? atol(number) : 0;
    }
    if (before == 0 || --before > 0)
        return 0;
    const char *signals = getenv("REFUSE_SIGNALS");
    if (signals && write(atoi(signals), "x", 1) < 0)
        abort();
    errno = ENOMEM;
    return 1;
}

void *malloc(size_t size) {
    static void *(*next)(size_t);
    if (!next)
        next = (void *(*)(size_t))dlsym(RTLD_NEXT, "malloc");
    return refuses() ? NULL : next(size);
}

void *realloc(void *old, size_t size) {
    static void *(*next)(void *, size_t);
    if (!next)
        next = (void *(*)(void *, size_t))dlsym(RTLD_NEXT, "realloc");
    return refuses() ? NULL : next(old, size);
}
