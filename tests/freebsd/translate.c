/*
 * Runs a static program for FreeBSD/amd64 under Linux, as far as capcheck needs it, for a test:
 *
 *     cc -O2 -DPROGRAM='"/path/of/the/program"' -o capcheck translate.c
 *
 * It starts the program as FreeBSD does, and stops it at each system call: number, flags and structures become Linux's,
 * and the result FreeBSD's. Registers that FreeBSD doesn't keep are spoilt. The program is ended at anything else that it
 * does, with a sentence and status 99. Status 98: no process may be traced here.
 */
#define _GNU_SOURCE
#include <errno.h>
#include <fcntl.h>
#include <signal.h>
#include <stdio.h>
#include <stdlib.h>
#include <sys/ptrace.h>
#include <sys/syscall.h>
#include <sys/user.h>
#include <sys/wait.h>
#include <unistd.h>

static pid_t child;

static void stop(const char *what, unsigned long long number)
{
    fprintf(stderr, "translate: the program uses %s %#llx\n", what, number);
    kill(child, SIGKILL);
    exit(99);
}

static int freebsd_errno(int number)
{
    switch (number) {
#define BOTH(name, number, text) case name: return number;
#define OWN(name, number, text)
#include "errors.h"
    }
    stop("a device that fails as no device of FreeBSD does, with", (unsigned)number);
    return 0;
}

static int linux_open_flags(unsigned long long flags)
{
    static const struct { unsigned freebsd; int on_linux; } FLAGS[] = {
        {1, O_WRONLY}, {2, O_RDWR}, {4, O_NONBLOCK}, {8, O_APPEND}, {0x100, O_NOFOLLOW}, {0x200, O_CREAT},
        {0x400, O_TRUNC}, {0x800, O_EXCL}, {0x8000, O_NOCTTY}, {0x20000, O_DIRECTORY}, {0x80000, 0}, {0x100000, O_CLOEXEC},
    };
    int to = 0;

    for (size_t i = 0; i < sizeof FLAGS / sizeof *FLAGS; i++)
        if (flags & FLAGS[i].freebsd) {
            to |= FLAGS[i].on_linux;
            flags &= ~(unsigned long long)FLAGS[i].freebsd;
        }
    if (flags != 0)
        stop("flags of open", flags);
    return to;
}

/* FreeBSD has the handler, flags of 4 bytes and the mask; Linux the handler, flags of 8, a restorer and the mask. */
static void make_sigaction(struct user_regs_struct *regs)
{
    unsigned long to = (regs->rsp - 512) & ~15ul, words[4] = {0}; /* below what the program may use of its stack */

    errno = 0;
    words[0] = (unsigned long)ptrace(PTRACE_PEEKDATA, child, regs->rsi, 0);
    if (errno != 0 || words[0] > 1 || regs->rdi != 13)
        stop("a handler of a signal, or another signal than 13:", words[0]);
    for (int i = 0; i < 4; i++)
        ptrace(PTRACE_POKEDATA, child, to + 8ul * (unsigned long)i, words[i]);
    regs->rsi = to;
    regs->rdx = to + 64;
    regs->r10 = 8;
}

static void enter(struct user_regs_struct *regs)
{
    switch (regs->orig_rax) {
    case 1: regs->orig_rax = SYS_exit_group; break;
    case 3: regs->orig_rax = SYS_read; break;
    case 4: regs->orig_rax = SYS_write; break;
    case 5: regs->orig_rax = SYS_open; regs->rsi = (unsigned)linux_open_flags(regs->rsi); break;
    case 6: regs->orig_rax = SYS_close; break;
    case 54:
        if (regs->rsi != 0x402c7413)
            stop("ioctl", regs->rsi);
        regs->orig_rax = SYS_ioctl;
        regs->rsi = 0x5401; /* TCGETS */
        break;
    case 73: regs->orig_rax = SYS_munmap; break;
    case 416: regs->orig_rax = SYS_rt_sigaction; make_sigaction(regs); break;
    case 477:
        if (regs->r10 != 0x1002)
            stop("flags of mmap", regs->r10);
        regs->orig_rax = SYS_mmap;
        regs->r10 = 0x22;
        break;
    case 478: regs->orig_rax = SYS_lseek; break;
    default: stop("system call", regs->orig_rax);
    }
}

static void leave(struct user_regs_struct *regs, const struct user_regs_struct *before)
{
    const long result = (long)regs->rax;
    const int fails = result < 0 && result >= -4095;
    regs->rdi = before->rdi, regs->rsi = before->rsi;
    regs->rdx = regs->r8 = regs->r9 = regs->r10 = regs->rcx = regs->r11 = 0x5a5a5a5a5a5a5a5a;
    regs->rax = fails ? (unsigned long long)freebsd_errno((int)-result) : regs->rax;
    regs->eflags = fails ? regs->eflags | 1 : regs->eflags & ~1ull;
}

/* FreeBSD hands the place of the arguments over in rdi, and aligns the stack. */
static void begin(void)
{
    struct user_regs_struct regs;
    ptrace(PTRACE_SETOPTIONS, child, 0, PTRACE_O_TRACESYSGOOD | PTRACE_O_EXITKILL);
    ptrace(PTRACE_GETREGS, child, 0, &regs);
    regs.rdi = regs.rsp;
    regs.rsp = ((regs.rsp - 8) & ~15ull) + 8;
    ptrace(PTRACE_SETREGS, child, 0, &regs);
}

static int end(int status)
{
    if (WIFEXITED(status))
        return WEXITSTATUS(status);
    signal(WTERMSIG(status), SIG_DFL);
    raise(WTERMSIG(status));
    return 97;
}

static void translate(int is_inside)
{
    static struct user_regs_struct before;
    struct user_regs_struct regs;
    ptrace(PTRACE_GETREGS, child, 0, &regs);
    if (is_inside) {
        leave(&regs, &before);
    } else {
        before = regs;
        enter(&regs);
    }
    ptrace(PTRACE_SETREGS, child, 0, &regs);
}

int main(int argc, char **argv)
{
    int status, has_begun = 0, is_inside = 0;
    (void)argc;
    child = fork();
    if (child == 0) {
        if (ptrace(PTRACE_TRACEME, 0, 0, 0) != 0)
            _exit(98);
        execv(PROGRAM, argv);
        _exit(99);
    }
    close(0), close(1); /* they are the program's alone, and end with it */
    while (waitpid(child, &status, 0) == child && WIFSTOPPED(status)) {
        int passed_on = 0;
        if (!has_begun) {
            has_begun = 1;
            begin();
        } else if (WSTOPSIG(status) == (SIGTRAP | 0x80)) {
            translate(is_inside);
            is_inside = !is_inside;
        } else {
            passed_on = WSTOPSIG(status);
        }
        ptrace(PTRACE_SYSCALL, child, 0, passed_on);
    }
    return end(status);
}
