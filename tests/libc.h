// What the sources beside this use of the C library, for a compiler without headers, as the clang of the Rattle kit.
#define NULL ((void *)0)
#define RTLD_NEXT ((void *)-1)
#define EIO 5
#define ENOMEM 12
#define errno (*__errno_location())

typedef unsigned long size_t;
typedef long ssize_t;
typedef int pid_t;

int *__errno_location(void);
void *dlsym(void *library, const char *name);
char *getenv(const char *name);
int atoi(const char *text);
long atol(const char *text);
int dprintf(int to, const char *format, ...);
ssize_t write(int to, const void *from, size_t most);
pid_t fork(void);
pid_t waitpid(pid_t process, int *status, int options);
void abort(void);
void _exit(int status);
