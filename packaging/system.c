/*
 * Between capcheck.o, the proved object of capcheck, and a POSIX system for amd64 whose programs are ELF:
 *
 *     cc -O2 -o capcheck capcheck.o system.c
 *
 * The object is compiled for Linux: it hands over Linux's numbers of flags, signals and errors, and reads errno by
 * them. This file turns them into the numbers of the system that it is compiled on, by their names in its headers, and
 * back. A name that begins with capcheck_ was another one in the object, as system.syms says.
 *
 * Nothing here is proved: whoever runs capcheck trusts these lines, as the C library below them. They are plain C99.
 */

#define _XOPEN_SOURCE 700 /* POSIX.1-2008, whose strerror_r answers a number */

#include <cpuid.h>
#include <errno.h>
#include <fcntl.h>
#include <limits.h>
#include <signal.h>
#include <stdint.h>
#include <stdlib.h>
#include <string.h>
#include <unistd.h>

typedef char is_64_bits_wide[sizeof(void *) == 8 && sizeof(size_t) == 8 && sizeof(off_t) == 8 ? 1 : -1];

/* Linux's numbers on x86-64, as they stand in the object. */
enum { LINUX_SIG_IGN = 1, LINUX_SIGPIPE = 13, LINUX_O_NOCTTY = 0x100, LINUX_O_CLOEXEC = 0x80000 };

/* Those of the errors that the object tells apart, each with the number here. */
static const struct { int on_linux, here; } ERRORS[] = {
    {1, EPERM}, {2, ENOENT}, {4, EINTR}, {7, E2BIG}, {11, EAGAIN}, {12, ENOMEM}, {13, EACCES}, {16, EBUSY},
    {17, EEXIST}, {18, EXDEV}, {20, ENOTDIR}, {21, EISDIR}, {22, EINVAL}, {26, ETXTBSY}, {27, EFBIG},
    {28, ENOSPC}, {29, ESPIPE}, {30, EROFS}, {31, EMLINK}, {32, EPIPE}, {35, EDEADLK}, {36, ENAMETOOLONG},
    {38, ENOSYS}, {39, ENOTEMPTY}, {40, ELOOP}, {95, EOPNOTSUPP}, {95, ENOTSUP}, {98, EADDRINUSE},
    {99, EADDRNOTAVAIL}, {100, ENETDOWN}, {101, ENETUNREACH}, {103, ECONNABORTED}, {104, ECONNRESET},
    {107, ENOTCONN}, {110, ETIMEDOUT}, {111, ECONNREFUSED}, {113, EHOSTUNREACH}, {115, EINPROGRESS},
    {116, ESTALE}, {122, EDQUOT},
};
enum { ERROR_COUNT = sizeof ERRORS / sizeof ERRORS[0] };

/*
 * What the object sees of one of the system's errors: Linux's number where it tells that error apart. Of any other it
 * shows the number alone, so it sees the system's own, but below 0 where Linux has a known error of that number.
 */
static int errno_of_object(int number)
{
    int means_other = 0;

    for (int i = 0; i < ERROR_COUNT; i++) {
        if (ERRORS[i].here == number)
            return ERRORS[i].on_linux;
        means_other = means_other || ERRORS[i].on_linux == number;
    }
    return means_other ? -number : number;
}

/* The way back, for what the object saw, and for what it sets errno to. */
static int errno_here(int number)
{
    for (int i = 0; i < ERROR_COUNT; i++)
        if (ERRORS[i].on_linux == number)
            return ERRORS[i].here;
    return number < 0 ? -number : number;
}

int32_t rattle_errno(void) { return errno_of_object(errno); }
void rattle_set_errno(int32_t number) { errno = errno_here(number); }

int32_t capcheck_strerror(int32_t number, char *text, size_t size)
{
    memset(text, 0, size);
    return strerror_r(errno_here(number), text, size);
}

/* The ABI returns this in rax and rdx. Where memory ran out, `at` points to something all the same. */
struct allocated { int64_t is_there; void *at; };

static struct allocated allocated(void *at)
{
    static char none;
    return (struct allocated){at != NULL, at != NULL ? at : &none};
}

/* The object asks for no bytes, or for at least as many as their alignment: malloc aligns what is so large. */
struct allocated rattle_alloc(size_t size, size_t alignment)
{
    return allocated(malloc(size != 0 ? size : alignment));
}

struct allocated rattle_realloc(void *at, size_t old_size, size_t size, size_t alignment)
{
    (void)old_size;
    return allocated(realloc(at, size != 0 ? size : alignment));
}

void rattle_dealloc(void *at) { free(at); }

/* A file is only opened to read it, and always so. */
int32_t capcheck_open(const char *path, int32_t flags)
{
    if (flags != (LINUX_O_CLOEXEC | LINUX_O_NOCTTY)) {
        errno = EINVAL;
        return -1;
    }
    return open(path, O_RDONLY | O_CLOEXEC | O_NOCTTY);
}

/* Where more than INT_MAX bytes are asked for at once, Linux handles some of them. FreeBSD refuses the call. */
ssize_t capcheck_read(int32_t fd, void *bytes, size_t size)
{
    return read(fd, bytes, size < INT_MAX ? size : INT_MAX);
}

ssize_t capcheck_write(int32_t fd, const void *bytes, size_t size)
{
    return write(fd, bytes, size < INT_MAX ? size : INT_MAX);
}

/* As it starts the object ignores SIGPIPE, so that writing to a closed pipe fails. It asks for no other signal. */
int64_t capcheck_signal(int32_t number, int64_t handler)
{
    return number == LINUX_SIGPIPE && handler == LINUX_SIG_IGN && signal(SIGPIPE, SIG_IGN) != SIG_ERR ? 0 : -1;
}

/*
 * An object for x86-64-v2 looks first whether the processor has what it uses, and complains and ends where it hasn't.
 * Words 4 to 7 of an answer are eax to edx of CPUID: at index 0 of leaf 1, at index 2 of leaf 80000001h. At any other
 * index are features above v2: all are answered as missing, so that an object that uses them ends too.
 */
const uint32_t *capcheck_cpuid(uint32_t index)
{
    static uint32_t words[3][8];
    uint32_t *to = words[index < 3 ? index : 1];

    if (index == 0 || index == 2)
        __get_cpuid(index == 0 ? 1 : 0x80000001, &to[4], &to[5], &to[6], &to[7]);
    return to;
}

ssize_t capcheck_complain(int32_t fd, const void *bytes, size_t size)
{
    return write(fd, bytes, size);
}

static char **arguments;
static size_t argument_count;

/* Copies an argument without the 0 at its end, and answers its length: -1 where there is none, -2 where it is cut. */
int64_t rattle_arg(size_t index, char *to, size_t size)
{
    if (index >= argument_count || arguments[index] == NULL)
        return -1;
    size_t length = strlen(arguments[index]);
    memcpy(to, arguments[index], length < size ? length : size);
    return length <= size ? (int64_t)length : -2;
}

int32_t capcheck_main(void); /* main of the object */

int main(int argc, char **argv)
{
    arguments = argv;
    argument_count = argc > 0 ? (size_t)argc : 0;
    return capcheck_main();
}
