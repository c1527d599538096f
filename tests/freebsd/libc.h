/* What FreeBSD's headers for amd64 say of what system.c and libc.c use. The test makes each header lead here. */
#pragma once
#define NULL ((void *)0)
#define INT_MAX 0x7fffffff
#define O_RDONLY 0
#define O_NOCTTY 0x8000
#define O_CLOEXEC 0x100000
#define SIGPIPE 13
#define SIG_IGN ((void (*)(int))1)
#define SIG_ERR ((void (*)(int))-1)

typedef int int32_t;
typedef unsigned int uint32_t;
typedef long int64_t, ssize_t, off_t;
typedef unsigned long size_t, uintptr_t;

enum {
#define BOTH(name, number, text) name = number,
#define OWN(name, number, text) name = number,
#include "errors.h"
    ENOTSUP = EOPNOTSUPP
};
extern int error;
#define errno error
void *malloc(size_t);
void *realloc(void *, size_t);
void free(void *);
void *memcpy(void *, const void *, size_t);
void *memmove(void *, const void *, size_t);
void *memset(void *, int, size_t);
size_t strlen(const char *);
int strerror_r(int, char *, size_t);
int open(const char *, int, ...);
int close(int);
int isatty(int);
ssize_t read(int, void *, size_t);
ssize_t write(int, const void *, size_t);
off_t lseek(int, off_t, int);
void (*signal(int, void (*)(int)))(int);

static inline int __get_cpuid(unsigned leaf, unsigned *a, unsigned *b, unsigned *c, unsigned *d)
{
    __asm__("cpuid" : "=a"(*a), "=b"(*b), "=c"(*c), "=d"(*d) : "a"(leaf), "c"(0));
    return 1;
}
