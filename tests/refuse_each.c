// Loaded into the tests of cap_refusal_tests: refuses each allocation between two marks, one at a time.
//
// A mark is an allocation of a size that nothing else has. Between BEGIN and END each allocation forks. The copy is refused
// it and goes on to RIGHT, where it ends well. This process waits for the copy, ends where the copy didn't end well, and
// goes on with memory. LACKED says that a call answered that memory ran out: a process that was refused nothing ends there.
// For each refusal an `r` is written to the descriptor that REFUSALS names, and for each that was answered so an `a`.
#include "libc.h"

enum { BEGIN = 77771, END = 77773, LACKED = 77775, RIGHT = 77777 };

static int between, was_refused;
static long allocations;

static void end(const char *why) {
    between = 0;
    dprintf(2, "at allocation %ld between marks: %s\n", allocations, why);
    _exit(97);
}

static void count(const char *what) {
    const char *refusals = getenv("REFUSALS");
    if (refusals && write(atoi(refusals), what, 1) != 1)
        end("the refusal couldn't be counted");
}

static void look_at_mark(size_t size) {
    if (size == BEGIN && !was_refused)
        between = 1;
    else if (size == END)
        between = 0;
    else if (size == LACKED && !was_refused)
        end("the call answers that memory ran out, and none was refused");
    else if (size == LACKED)
        count("a");
    else if (size == RIGHT && was_refused)
        _exit(0);
}

static int refuses(size_t size) {
    look_at_mark(size);
    if (!between || size == BEGIN)
        return 0;
    allocations++;
    pid_t copy = fork();
    if (copy < 0)
        end("no copy could be made");
    if (copy == 0) {
        between = 0;
        was_refused = 1;
        errno = ENOMEM;
        return 1;
    }
    int status;
    if (waitpid(copy, &status, 0) < 0 || status != 0)
        end("the copy that was refused it didn't end well");
    count("r");
    return 0;
}

void *malloc(size_t size) {
    static void *(*next)(size_t);
    if (!next)
        next = (void *(*)(size_t))dlsym(RTLD_NEXT, "malloc");
    return refuses(size) ? NULL : next(size);
}

void *realloc(void *old, size_t size) {
    static void *(*next)(void *, size_t);
    if (!next)
        next = (void *(*)(void *, size_t))dlsym(RTLD_NEXT, "realloc");
    return refuses(size) ? NULL : next(old, size);
}
