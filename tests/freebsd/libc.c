/* A C library of just what capcheck.o and system.c ask for, by FreeBSD/amd64's system calls. It is for a test alone. */
#include "libc.h"
#undef BOTH
#undef OWN

int error;
int main(int, char **);

/* FreeBSD starts a program with rdi at its arguments, and rsp below them. */
__asm__(".globl _start\n_start:\n\txorl %ebp, %ebp\n\tandq $-16, %rsp\n\tcall start\n\tud2\n");

/* A call that fails sets the carry flag, and rax to errno. Of what a function may spoil it keeps rdi and rsi alone. */
static long call(long number, long a, long b, long c, long d, long e, long f)
{
    register long rdi __asm__("rdi") = a, rsi __asm__("rsi") = b, rdx __asm__("rdx") = c;
    register long r10 __asm__("r10") = d, r8 __asm__("r8") = e, r9 __asm__("r9") = f;
    unsigned char fails;

    __asm__ volatile("syscall\n\tsetc %1"
                     : "+a"(number), "=q"(fails), "+r"(rdx), "+r"(r10), "+r"(r8), "+r"(r9)
                     : "r"(rdi), "r"(rsi)
                     : "rcx", "r11", "memory", "cc");
    if (!fails)
        return number;
    error = (int)number;
    return -1;
}

__attribute__((noreturn, used)) void start(long *at)
{
    call(1, main((int)at[0], (char **)(at + 1)), 0, 0, 0, 0, 0);
    __builtin_trap();
}

ssize_t read(int fd, void *at, size_t n) { return call(3, fd, (long)at, (long)n, 0, 0, 0); }
ssize_t write(int fd, const void *at, size_t n) { return call(4, fd, (long)at, (long)n, 0, 0, 0); }
int open(const char *path, int flags, ...) { return (int)call(5, (long)path, flags, 0, 0, 0, 0); }
int close(int fd) { return (int)call(6, fd, 0, 0, 0, 0, 0); }
off_t lseek(int fd, off_t by, int whence) { return call(478, fd, by, whence, 0, 0, 0); }

int isatty(int fd)
{
    char termios[44];
    return call(54, fd, 0x402c7413, (long)termios, 0, 0, 0) == 0; /* TIOCGETA */
}

void (*signal(int number, void (*handler)(int)))(int)
{
    struct { void (*handler)(int); int flags; uint32_t mask[4]; } new = {handler, 2, {0}}, old;
    return call(416, number, (long)&new, (long)&old, 0, 0, 0) < 0 ? SIG_ERR : old.handler;
}

void *memcpy(void *to, const void *from, size_t n)
{
    void *at = to;
    __asm__ volatile("rep movsb" : "+D"(at), "+S"(from), "+c"(n) : : "memory");
    return to;
}

void *memmove(void *to, const void *from, size_t n)
{
    if ((uintptr_t)to - (uintptr_t)from >= n)
        return memcpy(to, from, n);
    for (volatile char *at = to; n-- > 0;)
        at[n] = ((const char *)from)[n];
    return to;
}

void *memset(void *to, int byte, size_t n)
{
    void *at = to;
    __asm__ volatile("rep stosb" : "+D"(at), "+c"(n) : "a"(byte) : "memory");
    return to;
}

size_t strlen(const char *text)
{
    size_t n = 0;
    while (((const volatile char *)text)[n] != 0)
        n++;
    return n;
}

static const char *text_of(int number)
{
    switch (number) {
#define BOTH(name, number, text) case number: return text;
#define OWN(name, number, text) case number: return text;
#include "errors.h"
    }
    return "Unknown error";
}

int strerror_r(int number, char *to, size_t size)
{
    const char *text = text_of(number);
    if (strlen(text) >= size)
        return ERANGE;
    memcpy(to, text, strlen(text) + 1);
    return 0;
}

/* Before a block stands its size, in 16 bytes: a power of two, kept in lists, or whole pages where it is large. */
enum { LARGE = 1 << 17, TAKEN = 1 << 20 };
static void *lists[18];
static char *rest, *end;

static size_t block(size_t n)
{
    size_t size = 32;
    if (n > (size_t)1 << 46)
        return 0;
    if (n + 16 > LARGE)
        return (n + 16 + 4095) & ~(size_t)4095;
    while (size < n + 16)
        size *= 2;
    return size;
}

static void *pages(size_t n)
{
    long at = n == 0 ? -1 : call(477, 0, (long)n, 3, 0x1002, -1, 0); /* mmap, private and of no file */
    return at == -1 ? NULL : (void *)at;
}

static size_t *small(size_t size)
{
    void **list = &lists[__builtin_ctzl(size)], *at = *list;

    if (at != NULL) {
        *list = ((void **)at)[2];
        return at;
    }
    if ((size_t)(end - rest) < size) {
        char *more = pages(TAKEN);
        if (more == NULL)
            return NULL;
        rest = more, end = more + TAKEN;
    }
    rest += size;
    return (size_t *)(rest - size);
}

void *malloc(size_t n)
{
    size_t size = block(n), *at = size == 0 || size > LARGE ? pages(size) : small(size);
    if (at == NULL) {
        error = ENOMEM;
        return NULL;
    }
    *at = size;
    return at + 2;
}

void free(void *it)
{
    size_t *at = (size_t *)it - 2;
    if (it != NULL && *at > LARGE) {
        call(73, (long)at, (long)*at, 0, 0, 0, 0); /* munmap */
    } else if (it != NULL) {
        void **list = &lists[__builtin_ctzl(*at)];
        *(void **)it = *list;
        *list = at;
    }
}

void *realloc(void *it, size_t n)
{
    size_t before = it == NULL ? 0 : ((size_t *)it)[-2];
    void *new;

    if (before != 0 && block(n) == before)
        return it;
    new = malloc(n);
    if (new != NULL && before != 0) {
        memcpy(new, it, n < before - 16 ? n : before - 16);
        free(it);
    }
    return new;
}
