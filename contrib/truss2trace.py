#!/usr/bin/env python3
"""Makes a trace for capcheck out of a recording that FreeBSD's truss(1) wrote: truss -f -o RECORDING COMMAND

Each call that capcheck has a form for is written by that form, each other call unchanged where its arguments can be
spelled. What a kernel demands beside that becomes @uses and @global, what the trace can't show @foreign, a process's
end @exit, and --start gives the first process its descriptors. The line of a fork is moved before the first line of its
child. docs/RECORDING.md has the rules.

Exit status: 0 where every line was read, 1 where some were not (standard error says which), 2 where it ended early or
nothing was read. Of a recording that can't be read comes a trace that capcheck refuses.
"""

import argparse
import collections
import functools
import itertools
import re
import sys
import time
import typing

VERSION = "0.2.0"  # that of capcheck
EXAMPLE = """\
example:
  truss -f -o tally.truss ./tally access.log
  truss2trace --start 0,1,2 -o tally.trace tally.truss
  capcheck check tally.trace

status: 0 all lines were read; 1 some were not; 2 it ended early, or nothing was read
"""
LONGEST = 1024  # bytes in a line of a trace
LAST_PID = 99_999
LAST_DESCRIPTOR = 1_048_575
MOST_LINES = 1_000_000
LAST_ERRNO = 65_535
NOT_CAPABLE = 93
MOST_NOTES = 10  # of a kind
MOST_NAMES = 12  # of calls that aren't judged, in a trace's first line
LONGEST_QUOTE = 80


class LeftOut(Exception):
    """The call is read, and a trace has no line for it."""


class TooLong(LeftOut):
    """Its line would be too long. Its arguments in the trace's spelling are kept."""

    def __init__(self, words):
        super().__init__("a line of more than 1,024 bytes")
        self.words = words


class Strange(Exception):
    """The line isn't one of truss's, as far as is known here."""


class Refused(Exception):
    """No trace comes of the recording."""


# How truss's lines look. -f puts the process before them, -H the thread, -d and -D times.

PREFIX = re.compile(r"(?: *([0-9]{1,9})(?: +([0-9]{1,9}))?: )?(?:[0-9]+\.[0-9]{9} ){0,2}(.*)", re.S)
START = r"(?:compat[0-9]*\.|freebsd[0-9]+_)?([a-z_][a-z0-9_]*|#[0-9]+)\("
ANSWERED = re.compile(
    START + r"(.*)\)[ \t]*(?:= (-?[0-9]{1,20}) \(0x[0-9a-f]+\)|ERR#([0-9]{1,9}) '.*'|(ERESTART|EJUSTRETURN))", re.S
)
UNANSWERED = re.compile(START + r".*\)[ \t]*", re.S)
ENDED = re.compile(r"process (?:exit, rval = [0-9]+|killed, signal = [0-9]+.*)")
EVENT = re.compile(r"<.*>|SIGNAL [0-9]+.*", re.S)
FORK = re.compile(START + r".*\)[ \t]*= ([0-9]{1,9}) \(0x[0-9a-f]+\)", re.S)
FORKS = {"fork", "vfork", "pdfork", "rfork"}
ENDS = {"exit", "_exit", "thr_exit", "abort2", "reboot"}  # these never answer
EXECS = {"execve", "fexecve"}


# Parts of a line

FLAG = re.compile(r"[A-Z][A-Z0-9_]*")
ESCAPE = re.compile(r"\\(?:([\\abfnrtvs\"])|M-([!-~])|M\^([?-_])|\^([?-_])|([0-7]{1,3}))")
PLAIN = re.compile(r"[ !#-\[\]-~]*")  # bytes that a path spells by themselves
SHORT = {"\\": 92, "a": 7, "b": 8, "f": 12, "n": 10, "r": 13, "t": 9, "v": 11, "s": 32, '"': 34}


def parted(line, default):
    """The process of a line, its thread and what follows. A number that no process has is a thread's: truss -H without -f."""
    first, second, rest = PREFIX.fullmatch(line).groups()
    if first and not second and int(first) > LAST_PID:
        first, second = None, first
    return int(first) if first else default, second, rest


def integer(text):
    """A number as truss writes it; a call that it doesn't know has its arguments in hexadecimal."""
    if re.fullmatch(r"-?[0-9]{1,19}", text):
        return int(text)
    if not re.fullmatch(r"0x[0-9a-f]{1,16}", text):
        raise Strange("a number in an unknown form")
    value = int(text, 16)
    if value >= 1 << 63:
        return value - (1 << 64)
    return value - (1 << 32) if 1 << 31 <= value < 1 << 32 else value


def descriptor(text):
    value = integer(text)
    if not 0 <= value <= LAST_DESCRIPTOR:
        raise LeftOut("a descriptor out of range")
    return value


def directory(text):
    """A descriptor's number, or None for the current directory."""
    return None if text == "AT_FDCWD" or integer(text) == -100 else descriptor(text)


@functools.lru_cache(maxsize=4096)
def flags(text):
    """Names with bars between them. A number that is left over becomes a name that no rule knows."""
    names = []
    for word in text.split("|"):
        word = re.sub(r"\([0-9]+\)$", "", word)  # MAP_ALIGNED(21)
        if FLAG.fullmatch(word):
            names.append(word)
        elif integer(word):
            names.append(f"OTHER_{integer(word) & 0xFFFFFFFFFFFFFFFF:X}")
    return "|".join(names) or "0"


def unescaped(found):
    """The byte of an escape of vis(3)."""
    short, meta, meta_control, control, octal = found.groups()
    if short:
        return chr(SHORT[short])
    if octal:
        return chr(int(octal, 8) & 255)
    if meta:
        return chr(ord(meta) | 128)
    return chr((ord(meta_control or control) ^ 64) | (128 if meta_control else 0))


def path(text):
    """A path in a trace's spelling."""
    if PLAIN.fullmatch(text):
        return f'"{text}"'
    text = ESCAPE.sub(unescaped, text)
    if "\0" in text:
        raise Strange("a path with byte 0")
    spelled = "".join(
        "\\" + byte if byte in '"\\' else byte if " " <= byte <= "~" else f"\\x{ord(byte):02x}" for byte in text
    )
    return f'"{spelled}"'


def fitting(pattern, args):
    found = re.fullmatch(pattern, args, re.S)
    if not found:
        raise Strange("arguments in an unknown form")
    return found.groups()


def fitting_paths(pattern, args):
    """The rules look no further than a path's first byte, so one that truss cut short keeps its dots: "/a/lon..."."""
    return fitting(pattern, re.sub(r'"\.\.\.(?=,|$)', '..."', args))


# Rights. truss names each set of rights that the descriptor keeps, single ones and those that stand for several.

RIGHTS = """READ WRITE SEEK MMAP MMAP_X CREATE FEXECVE FSYNC FTRUNCATE LOOKUP FCHDIR FCHFLAGS FCHMOD FCHOWN FCNTL FLOCK
FPATHCONF FSCK FSTAT FSTATFS FUTIMES LINKAT_TARGET MKDIRAT MKFIFOAT MKNODAT RENAMEAT_SOURCE SYMLINKAT UNLINKAT ACCEPT BIND
CONNECT GETPEERNAME GETSOCKNAME GETSOCKOPT LISTEN PEELOFF SETSOCKOPT SHUTDOWN BINDAT CONNECTAT LINKAT_SOURCE RENAMEAT_TARGET
MAC_GET MAC_SET SEM_GETVALUE SEM_POST SEM_WAIT EVENT KQUEUE_EVENT IOCTL TTYHOOK PDGETPID PDWAIT PDKILL EXTATTR_DELETE
EXTATTR_GET EXTATTR_LIST EXTATTR_SET ACL_CHECK ACL_DELETE ACL_GET ACL_SET KQUEUE_CHANGE""".split()

SEVERAL = {
    "MMAP_X": "MMAP SEEK MMAP_X", "PREAD": "READ SEEK", "PWRITE": "WRITE SEEK", "RECV": "READ", "SEND": "WRITE",
    "MMAP_R": "MMAP SEEK READ", "MMAP_W": "MMAP SEEK WRITE", "MMAP_RW": "MMAP SEEK READ WRITE",
    "MMAP_RX": "MMAP SEEK READ MMAP_X", "MMAP_WX": "MMAP SEEK WRITE MMAP_X", "MMAP_RWX": "MMAP SEEK READ WRITE MMAP_X",
    "FSTATAT": "LOOKUP FSTAT", "FCHMODAT": "LOOKUP FCHMOD", "FCHOWNAT": "LOOKUP FCHOWN", "CHFLAGSAT": "LOOKUP FCHFLAGS",
    "FUTIMESAT": "LOOKUP FUTIMES", "KQUEUE": "KQUEUE_CHANGE KQUEUE_EVENT",
    "SOCK_CLIENT": "CONNECT GETPEERNAME GETSOCKNAME GETSOCKOPT PEELOFF READ WRITE SETSOCKOPT SHUTDOWN",
    "SOCK_SERVER": "ACCEPT BIND GETPEERNAME GETSOCKNAME GETSOCKOPT LISTEN PEELOFF READ WRITE SETSOCKOPT SHUTDOWN",
}
SEVERAL.update({
    name: f"{name} LOOKUP" for name in RIGHTS if name.endswith(("AT", "AT_SOURCE", "AT_TARGET")) and name != "FSTAT"
})
NEEDLESS = {"FCHROOT", "INOTIFY_ADD", "INOTIFY_RM"}  # capcheck has no name for them, and no call with a form needs them


def rights(args):
    """The rights of cap_rights_limit: { CAP_READ,CAP_SEEK }"""
    inside = re.fullmatch(r"\{ *(.*?) *\}", args)
    if not inside:
        raise LeftOut("rights that truss didn't show")
    names = [name.strip() for name in re.split(r"[,|]", inside[1])] if inside[1] else []
    held = set()
    for name in names:
        name = name.removeprefix("CAP_")
        if name in SEVERAL:
            held.update(SEVERAL[name].split())
        elif name in RIGHTS:
            held.add(name)
        elif name == "SEEK_TELL":
            if "CAP_SEEK" not in names:
                raise LeftOut("CAP_SEEK_TELL without CAP_SEEK")
        elif name not in NEEDLESS:
            raise LeftOut("a right without a name here")
    return spelled_rights(held)


def spelled_rights(held):
    return "|".join(f"CAP_{name}" for name in RIGHTS if name in held) or "NONE"


# Forms: each takes truss's arguments and answers ours, and the descriptors that the call uses.


def used(*parts):
    return [part for part in parts if part is not None]


def place(part):
    return "AT_FDCWD" if part is None else str(part)


def one_descriptor(args, _):
    fd = descriptor(args.split(",", 1)[0])
    return [str(fd)], [fd]


def closefrom(args, _):
    """It needs no descriptor to be open."""
    return [str(descriptor(args))], []


def last_flags(args, _):
    fd = descriptor(args.split(",", 1)[0])
    return [str(fd), flags(args.rsplit(",", 1)[1] if "," in args else "")], [fd]


def two_descriptors(args, _):
    old, new = (descriptor(part) for part in fitting(r"([^,]*),([^,]*)", args))
    return [str(old), str(new)], [old]


DATA = r"([^,]*),(?:\"(?:.*)\"(?:\.\.\.)?|0x[0-9a-f]+|NULL),[^,]*,[^,]*,(.*),([^,]*)"


def sendto(args, errno):
    first, address, length = fitting(DATA, args)
    fd = descriptor(first)
    empty = address in ("NULL", "0x0") or length in ("0", "0x0")
    return [str(fd)] if empty else [str(fd), "DEST"], [fd]


def sendmsg(args, errno):
    """Where the message's header isn't shown, the form is the one that less can be found against."""
    first, header = fitting(r"([^,]*),(.*)", args)
    fd = descriptor(first)
    shown = header.startswith("{")
    to = not re.match(r"\{ ?(?:NULL|0x0)[,}]", header) if shown else errno == NOT_CAPABLE
    return [str(fd), "DEST"] if to else [str(fd)], [fd]


COMMANDS_WITHOUT = {"F_GETFD", "F_GETFL", "F_SETFL", "F_GETOWN", "F_SETOWN", "F_GETLK", "F_SETLK", "F_SETLKW", "F_RDAHEAD",
                    "F_READAHEAD", "F_ADD_SEALS", "F_GET_SEALS", "F_ISUNIONSTACK", "F_KINFO", "F_SETLK_REMOTE", "F_OGETLK",
                    "F_OSETLK", "F_OSETLKW", "F_CANCEL", "F_UNLCK", "F_UNLCKSYS"}  # these make no descriptor


def fcntl(args, _):
    parts = args.split(",", 2)
    fd = descriptor(parts[0])
    command = flags(parts[1]) if len(parts) > 1 else "0"
    if not FLAG.fullmatch(command):
        raise Strange("arguments in an unknown form")
    third = parts[2] if len(parts) > 2 else ""
    if command in ("F_DUP2FD", "F_DUP2FD_CLOEXEC"):
        return [str(fd), command, str(descriptor(third))], [fd]
    if command == "F_SETFD":
        return [str(fd), command, "FD_CLOEXEC" if third in ("1", "0x1") else flags(third or "0")], [fd]
    return [str(fd), command], [fd]


def mmap(args, _):
    parts = args.split(",")
    if len(parts) < 5:
        raise Strange("arguments in an unknown form")
    fd = descriptor(parts[4])
    return [str(fd), flags(parts[2]), flags(parts[3])], [fd]


def limit(args, _):
    first, second = fitting(r"([^,]*),(.*)", args)
    fd = descriptor(first)
    return [str(fd), rights(second)], [fd]


def open_(args, _):
    name, mode = fitting_paths(r'"(.*)",([^",]*)(?:,[^",]*)?', args)
    return [path(name), flags(mode)], []


def one_path(args, _):
    return [path(fitting_paths(r'"(.*?)"(?:,.*)?', args)[0])], []


def two_paths(args, _):
    old, new = fitting_paths(r'"(.*?)","(.*)"', args)
    return [path(old), path(new)], []


ACCESS = {"O_RDONLY", "O_WRONLY", "O_RDWR", "O_EXEC", "O_SEARCH", "O_PATH"}


def openat(args, _):
    where, name, mode = fitting_paths(r'([^,]*),"(.*)",([^",]*)(?:,[^",]*)?', args)
    at = directory(where)
    names = flags(mode).split("|")
    if not ACCESS.intersection(names):
        raise LeftOut("openat with an unknown access")
    if "O_DIRECTORY" in names:  # one bit has both names, and of a directory it means this one
        names = ["O_SEARCH" if each == "O_EXEC" else each for each in names]
    return [place(at), path(name), "|".join(names)], used(at)


def at_path(args, _):
    where, name = fitting_paths(r'([^,]*),"(.*?)"(?:,.*)?', args)
    at = directory(where)
    return [place(at), path(name)], used(at)


def at_path_flags(args, _):
    where, name, mode = fitting_paths(r'([^,]*),"(.*)"(?:,[^"]*)?,([^",{}]*)', args)
    at = directory(where)
    return [place(at), path(name), flags(mode)], used(at)


def symlinkat(args, _):
    target, where, name = fitting_paths(r'"(.*)",([^",]*),"(.*)"', args)
    at = directory(where)
    return [path(target), place(at), path(name)], used(at)


def at_two_paths(args, _):
    where, name, other, target = fitting_paths(r'([^,]*),"(.*)",([^",]*),"(.*)"', args)
    at, to = directory(where), directory(other)
    return [place(at), path(name), place(to), path(target)], used(at, to)


def linkat(args, errno):
    paths, mode = fitting(r"(.*),([^,\"]*)", args)
    words, uses = at_two_paths(paths, errno)
    return words + [flags(mode)], uses


def socket(args, _):
    parts = args.split(",")
    if len(parts) < 3:
        raise Strange("arguments in an unknown form")
    return [flags(f"{parts[0]}|{parts[1]}")], []


def pipe2(args, _):
    return [flags(fitting(r"(?:\{.*\}|[^,]*),([^,]*)", args)[0])], []


def nothing(args, _):
    return [], []


READERS = (
    # tools/calls.py: readers
    ("""read readv recvfrom recvmsg pread preadv write writev pwrite pwritev lseek fstat fstatfs fsync fdatasync
        ftruncate fchmod fchown fchflags fchdir flock fpathconf futimes futimens ioctl accept bind connect listen
        shutdown getpeername getsockname getsockopt setsockopt fexecve close closefrom dup cap_ioctls_limit
        cap_fcntls_limit""", one_descriptor),
    ("""execve access chdir chflags chmod chown lchown lstat mkdir mkfifo mknod readlink rmdir stat statfs truncate
        unlink""", one_path),
    ("link rename symlink", two_paths),
    ("mkdirat mkfifoat mknodat readlinkat futimesat", at_path),
    ("openat unlinkat fstatat fchmodat fchownat chflagsat utimensat", at_path_flags),
    ("pipe kqueue shm_open mq_open fhopen fork vfork pdfork cap_enter", nothing),
    # end
)
FORMS = {
    **{name: reader for names, reader in READERS for name in names.split()},
    "sendto": sendto, "sendmsg": sendmsg, "accept4": last_flags, "dup2": two_descriptors, "fcntl": fcntl, "mmap": mmap,
    "cap_rights_limit": limit, "closefrom": closefrom, "open": open_, "openat": openat, "symlinkat": symlinkat,
    "renameat": at_two_paths, "linkat": linkat, "socket": socket, "socketpair": socket, "pipe2": pipe2,
}

LIMITS = {"cap_rights_limit", "cap_ioctls_limit", "cap_fcntls_limit"}

# Calls that answer 0, a descriptor with the lowest free number, or two descriptors; and those at a directory.
# tools/calls.py: answers
ZERO = set("fexecve close closefrom cap_ioctls_limit cap_fcntls_limit cap_rights_limit execve cap_enter".split())
MADE = set("accept dup accept4 open openat socket kqueue shm_open mq_open fhopen".split())
PAIRS = set("socketpair pipe2 pipe".split())
AT_CALLS = set("""mkdirat mkfifoat mknodat readlinkat futimesat openat unlinkat fstatat fchmodat fchownat chflagsat
    utimensat symlinkat renameat linkat""".split())
# end

SECOND = {"dup2", "F_DUP2FD", "F_DUP2FD_CLOEXEC"}
COPIES = {"dup", "F_DUPFD", "F_DUPFD_CLOEXEC"}
COPYING = COPIES | SECOND

# Calls without a form whose answer is a descriptor.
OTHERS_MADE = set("kqueuex shm_open2 posix_openpt sctp_peeloff timerfd_create inotify_init1 __specialfd fcntl".split())

# Families of ioctl that make no descriptor: terminals, files, sockets, bpf, disks, tapes, CDs, cryptodev's sessions, consoles,
# sound, pulses. Any other command may make some.
IOCTL = re.compile("(?:TIOC|FIO|SIOC|BIOC|DIOC|MTIOC|CDIOC|CIOC|CONS_|KD|VT_|SNDCTL_|SOUND_|PPS_)[A-Z0-9_]*")

# What a kernel demands of a call that succeeded. tests/kernel.tsv says where each line is from; what that has from
# memory is untested on FreeBSD. A line has the arguments of its calls, the rights that are needed of a descriptor
# among them (a star is the call's name; where none is named it has to be open), and where capability mode forbids the
# calls. RULES is what capcheck's rules say themselves, by any name of a right. NEEDS is the rest, by single rights,
# with the first and the last kernel and how sure it is: SURE is 0.95 or more there, MIDDLE 0.80 or more, and SILENT
# what a kernel refuses without an error.

SURE, MIDDLE, SILENT, RULED = "sure", "middle", "silent", "by capcheck's rules"
KERNELS = (12, 13, 14, 15)  # 12.2, 13.2-p4, 14.0, 15.0
KERNEL = 14  # where none is named

RULES = (
    # tools/calls.py: demands
    ("FD,..", "FD:READ", "", "read readv recvfrom recvmsg"),
    ("FD,..", "FD:PREAD", "", "pread preadv"),
    ("FD,..", "FD:WRITE", "", "write writev"),
    ("FD,..", "FD:PWRITE", "", "pwrite pwritev"),
    ("FD,..", "FD:SEEK", "", "lseek"),
    ("FD,..", "FD:*", "", """fstat fstatfs ftruncate fchmod fchown fchflags fchdir flock fpathconf ioctl bind connect
        listen shutdown getpeername getsockname getsockopt setsockopt fexecve"""),
    ("FD,..", "FD:FSYNC", "", "fsync fdatasync"),
    ("FD,..", "FD:FUTIMES", "", "futimes futimens"),
    ("FD,..", "FD:ACCEPT", "", "accept accept4"),
    ("FD,..", "FD:", "", "close dup cap_ioctls_limit cap_fcntls_limit dup2"),
    ("DIR,PATH,..", "DIR:*", "AT_FDCWD", "mkdirat mkfifoat mknodat unlinkat fstatat fchmodat fchownat chflagsat"),
    ("DIR,PATH,..", "DIR:LOOKUP", "AT_FDCWD", "readlinkat"),
    ("DIR,PATH,..", "DIR:FUTIMESAT", "AT_FDCWD", "futimesat utimensat"),
    ("PATH,..", "", "forbidden", """open execve access chdir chflags chmod chown lchown lstat mkdir mkfifo mknod
        readlink rmdir stat statfs truncate unlink link rename symlink"""),
    # end
    ("FD,DEST", "FD:WRITE; FD:CONNECT if DEST", "", "sendto sendmsg"),
    ("FD,PROT,FLAGS", "FD:MMAP; FD:READ SEEK if PROT_READ; FD:MMAP_X SEEK if PROT_EXEC; FD:WRITE SEEK if writable", "",
     "mmap"),
    ("FD,FLAGS", "FD: if F_DUPFD F_DUPFD_CLOEXEC F_DUP2FD F_DUP2FD_CLOEXEC F_GETFD F_SETFD", "", "fcntl"),
    ("FD,FLAGS", "FD:FLOCK if F_GETLK F_SETLK F_SETLKW; FD:FCNTL if F_GETFL F_SETFL F_GETOWN F_SETOWN", "", "fcntl"),
    ("DIR,PATH,FLAGS", "DIR:LOOKUP; DIR:READ if reads; DIR:WRITE if writes; DIR:FEXECVE if executes", "AT_FDCWD",
     "openat"),
    ("DIR,PATH,FLAGS", "DIR:CREATE if O_CREAT; DIR:FTRUNCATE if O_TRUNC; DIR:FSYNC if O_SYNC O_FSYNC; "
     "DIR:FLOCK if O_EXLOCK O_SHLOCK", "", "openat"),
    ("TARGET,DIR,PATH", "DIR:* LOOKUP", "AT_FDCWD", "symlinkat"),
    ("DIR,PATH,TO,NAME,..", "DIR:LINKAT_SOURCE LOOKUP; TO:LINKAT_TARGET LOOKUP", "AT_FDCWD", "linkat"),
    ("DIR,PATH,TO,NAME", "DIR:RENAMEAT_SOURCE LOOKUP; TO:RENAMEAT_TARGET LOOKUP", "AT_FDCWD", "renameat"),
)
NEEDS = (
    ("DIR,PATH,FLAGS", "DIR:SEEK if overwrites", "", 12, 15, SURE, "openat"),
    ("DIR,PATH,TO,NAME", "TO:UNLINKAT if there", "", 12, 15, SURE, "renameat"),
    ("FD,FLAGS", "FD:FLOCK if F_SETLK_REMOTE", "", 12, 15, SURE, "fcntl"),
    ("FD,FLAGS", "FD:FLOCK if F_OGETLK F_OSETLK F_OSETLKW", "", 12, 15, MIDDLE, "fcntl"),
    ("FD,FLAGS", "FD: if F_RDAHEAD F_READAHEAD F_ADD_SEALS F_GET_SEALS F_ISUNIONSTACK F_KINFO", "", 12, 15, MIDDLE,
     "fcntl"),
    ("POLLED", "FD:EVENT", "", 12, 15, SILENT, "poll ppoll"),
    ("SELECTED", "FD:EVENT", "", 12, 15, SURE, "select pselect"),
    ("CHANGED", "KQ:KQUEUE_CHANGE if N; KQ:KQUEUE_EVENT if M; FD:EVENT", "", 12, 15, SURE, "kevent"),
    ("FD,..", "FD:READ", "", 12, 15, SURE, "getdirentries getdents"),
    ("FD,S,..", "FD:READ SEEK; S:WRITE", "", 12, 15, SURE, "sendfile"),
    ("IN,INOFF,OUT,OUTOFF,..", "IN:READ; OUT:WRITE; IN:SEEK if INOFF; OUT:SEEK if OUTOFF", "", 13, 15, SURE,
     "copy_file_range"),
    ("FD,..", "FD:WRITE SEEK", "", 12, 15, MIDDLE, "posix_fallocate"),
    ("FD,..", "FD:WRITE SEEK", "", 14, 15, MIDDLE, "fspacectl"),
    ("DIR,PATH,..", "DIR:FSTAT LOOKUP", "AT_FDCWD", 12, 15, SURE, "faccessat"),
    ("DIR,PATH,FD,..", "DIR:UNLINKAT LOOKUP; FD: if given", "AT_FDCWD", 13, 15, SURE, "funlinkat"),
    ("DIR,S,..", "DIR:* LOOKUP; S:BIND", "AT_FDCWD", 12, 15, SURE, "bindat"),
    ("DIR,S,..", "DIR:* LOOKUP; S:CONNECT", "AT_FDCWD", 12, 15, SURE, "connectat"),
    ("FD,..", "FD:*", "", 12, 15, SURE, """pdgetpid pdkill sctp_peeloff extattr_get_fd extattr_set_fd extattr_delete_fd
     extattr_list_fd __acl_get_fd __acl_set_fd __acl_delete_fd __mac_get_fd __mac_set_fd"""),
    ("FD,..", "FD:ACL_CHECK", "", 12, 15, SURE, "__acl_aclcheck_fd"),
    ("S,DATA,LEN,TO,TOLEN,..", "S:WRITE; S:CONNECT if TO", "", 12, 15, MIDDLE,
     "sctp_generic_sendmsg sctp_generic_sendmsg_iov"),
    ("S,..", "S:READ", "", 12, 15, MIDDLE, "sctp_generic_recvmsg"),
    ("MQ,..", "MQ:WRITE", "", 12, 15, MIDDLE, "kmq_timedsend"),
    ("MQ,..", "MQ:READ", "", 12, 15, MIDDLE, "kmq_timedreceive"),
    ("FD,..", "FD:", "", 12, 15, MIDDLE, "aio_cancel cap_rights_get cap_ioctls_get cap_fcntls_get"),
    ("VERSION,FD,..", "FD:", "", 12, 15, MIDDLE, "__cap_rights_get"),
    ("DIR,..", "DIR:LOOKUP", "forbidden", 12, 15, MIDDLE, "getfhat"),

    ("..", "", "forbidden", 12, 15, SURE, "bind connect fhopen"),
    ("..", "", "forbidden", 12, 15, MIDDLE, "fchdir mq_open kmq_open"),
    ("FD,DEST", "", "with a destination", 12, 15, SURE, "sendto sendmsg"),
    ("SHM,..", "", "with a name", 12, 15, SURE, "shm_open shm_open2"),
    ("PID,..", "", "another process", 12, 15, SURE, "kill"),
    ("LEVEL,WHICH,ID,..", "", "another's processors", 12, 15, SURE,
     "cpuset_getaffinity cpuset_setaffinity cpuset_getdomain cpuset_setdomain"),
    ("DOMAIN,TYPE,..", "", "other sockets", 13, 15, MIDDLE, "socket socketpair"),
    ("FD,COMMAND,..", "", "network configuration", 13, 15, MIDDLE, "ioctl"),
    ("FDP,FLAGS", "", "as a daemon", 12, 15, MIDDLE, "pdfork"),
    ("..", "", "forbidden", 12, 14, MIDDLE, "wait4 wait6"),
    ("..", "", "forbidden", 13, 15, MIDDLE, "shm_rename"),
    ("..", "", "forbidden", 12, 15, MIDDLE, """__getcwd __mac_execve cpuset cpuset_getid cpuset_setid
     ffclock_setestimate gssd_syscall kmq_unlink ksem_init ksem_open ksem_unlink msgsys nlm_syscall rctl_add_rule
     rctl_get_limits rctl_get_racct rctl_get_rules rctl_remove_rule rpctls_syscall semsys setlogin setloginclass shmsys
     thr_kill2"""),
    ("..", "", "forbidden", 12, 15, SURE, """__acl_aclcheck_file __acl_aclcheck_link __acl_delete_file __acl_delete_link
     __acl_get_file __acl_get_link __acl_set_file __acl_set_link __mac_get_file __mac_get_link __mac_get_pid
     __mac_set_file __mac_set_link __semctl acct adjtime audit auditctl auditon chroot clock_settime eaccess
     extattr_delete_file extattr_delete_link extattr_get_file extattr_get_link extattr_list_file extattr_list_link
     extattr_set_file extattr_set_link extattrctl fhlink fhlinkat fhreadlink fhstat fhstatfs getfh getfsstat jail
     jail_attach jail_get jail_remove jail_set kenv kldfind kldfirstmod kldload kldnext kldstat kldsym kldunload
     kldunloadf ktrace lchflags lchmod lgetfh lpathconf lutimes modfind modfnext modnext modstat mount msgctl msgget
     msgrcv msgsnd nfssvc nmount ntp_adjtime pathconf ptrace quotactl reboot revoke semget semop settimeofday shm_unlink
     shmat shmctl shmdt shmget swapoff swapon undelete unmount utimes"""),
)
DEMANDED = {name for *_, calls in NEEDS for name in calls.split()}

# Calls without a form that need no right and are allowed in capability mode.
FREE = set(
    """__cap_rights_get __mac_get_proc __mac_set_proc _umtx_op abort2 aio_error aio_return aio_suspend aio_waitcomplete
    break cap_fcntls_get cap_getmode cap_ioctls_get cap_rights_get clock_getres clock_gettime clock_nanosleep
    close_range exit getaudit getaudit_addr getauid getcontext getdtablesize getegid geteuid getgid getgroups getitimer
    getlogin getloginclass getpgid getpgrp getpid getppid getpriority getrandom getresgid getresuid getrlimit getrusage
    getsid gettimeofday getuid issetugid kqueuex ktimer_create ktimer_delete ktimer_getoverrun ktimer_gettime
    ktimer_settime madvise mincore minherit mlock mlockall mprotect msync munlock munlockall munmap nanosleep
    ntp_gettime obreak profil rtprio rtprio_thread sbrk sched_get_priority_max sched_get_priority_min sched_getparam
    sched_getscheduler sched_rr_get_interval sched_setparam sched_setscheduler sched_yield setaudit setaudit_addr
    setauid setcontext setegid seteuid setgid setitimer setpriority setregid setresgid setresuid setreuid setrlimit
    setsid setuid sigaction sigaltstack sigfastblock sigpending sigprocmask sigreturn sigsuspend sigtimedwait sigwait
    sigwaitinfo sync sysarch thr_create thr_kill thr_new thr_self thr_set_name thr_exit thr_suspend thr_wake umask
    utrace uuidgen yield""".split()
)

# Calls without a form that make no descriptor. After any other call that isn't known here some descriptors may be new.
NEUTRAL = FREE | DEMANDED - set(
    """__mac_execve gssd_syscall jail jail_get jail_set ksem_init ksem_open nfssvc nlm_syscall reboot rpctls_syscall
    shmsys""".split()
) | set(
    """__getlogin __setugid __sysctl __sysctlbyname aio_fsync aio_mlock aio_read aio_readv aio_write aio_writev
    clock_getcpuclockid2 fchroot ffclock_getcounter ffclock_getestimate getrlimitusage gettid inotify_add_watch_at
    inotify_rm_watch kcmp killpg kmq_notify kmq_setattr ksem_close ksem_destroy ksem_getvalue ksem_post ksem_timedwait
    ksem_trywait ksem_wait lio_listio membarrier nfstat nlstat nstat pdwait posix_fadvise procctl sched_getcpu semctl
    setcred setfib setgroups setpgid sigqueue swapcontext sysctl thr_sleep""".split()
)

# Calls with a form whose rule is a part of the kernel's.
IN_PART = {"bind", "connect", "shm_open", "mq_open", "fhopen"}

# What is known of a descriptor at the end of the lines so far, and of the flag that has an exec close it. KEPT and CLOSES stand
# for one whose rights the trace may know. The trace knows nothing of OPEN, LOOSE and UNKNOWN, unless a limit says something.

KEPT = "open, not closed by an exec"
CLOSES = "open, closed by an exec"
OPEN = "open, perhaps closed by an exec"
LOOSE = "open, closed by an exec, of unknown rights"
UNKNOWN = "open or closed"
CLOSED = "closed"
AFTER_EXEC = {CLOSES: CLOSED, LOOSE: CLOSED, OPEN: UNKNOWN}


class Line(typing.NamedTuple):
    """A line of a trace. That of a call that is left out has no text."""

    pid: int
    name: str
    words: list
    text: str
    number: int = 0  # the line of the recording
    answer: int = None
    errno: int = None
    uses: list = ()  # descriptors
    demand: object = None  # a Demand, where the call demands more than its line says
    message: object = None  # that sendmsg sent, or that @foreign received as a pair with the descriptor's place in it


class Message:
    """Descriptors that were sent."""

    def __init__(self, fds):
        self.fds = fds


def foreign_line(pid, fd, message=None):
    return Line(pid, "@foreign", [str(fd)], f"{pid} @foreign({fd})", message=message)


def flag_line(pid, fd, closes=False):
    words = [str(fd), "F_SETFD", "FD_CLOEXEC" if closes else "0"]
    return Line(pid, "fcntl", words, f"{pid} fcntl({','.join(words)}) RET 0", answer=0, uses=[fd])


class Place:
    """A place in the trace for a line about each descriptor for which later lines ask for one."""

    def __init__(self, pid, line):
        self.pid, self.line, self.fds = pid, line, set()

    def lines(self):
        return [self.line(self.pid, fd) for fd in sorted(self.fds)]


class Process:
    """What the lines written so far show of a process's descriptors."""

    def __init__(self, closed_from=LAST_DESCRIPTOR + 1):
        self.shown = {}  # descriptor: one of the words above, or the place where it becomes foreign if it is used
        self.closed_from = closed_from  # of the other descriptors, these and all above are closed
        self.doubt, self.doubt_from = None, LAST_DESCRIPTOR + 1  # of the rest, these and all above have that place
        self.shared = False  # whether another process shares the table of descriptors
        self.thread, self.threads = None, False  # the number of the thread that was seen last, and whether there are several
        self.queues = set()  # descriptors of kqueue, which a child doesn't have
        self.late = set()  # descriptors that were made while they were open: the line of a close comes too late
        self.execs = []  # the places before its execs
        self.made_after = {}  # descriptor: how many of these execs were before it was made
        self.open_below = 0  # all below are open, since a call that takes the lowest free number took this one
        self.hidden_after = 0  # how many of these execs were before a call made descriptors whose numbers aren't shown
        self.sure_below = LAST_DESCRIPTOR + 1  # it made none of those below

    def copy(self):
        other = Process(self.closed_from)
        other.shown, other.made_after, other.execs = dict(self.shown), dict(self.made_after), list(self.execs)
        other.doubt, other.doubt_from, other.open_below = self.doubt, self.doubt_from, self.open_below
        other.hidden_after, other.sure_below = self.hidden_after, self.sure_below
        return other

    def state(self, fd):
        if fd in self.shown:
            return self.shown[fd]
        if fd >= self.closed_from:
            return CLOSED
        return self.doubt if fd >= self.doubt_from else UNKNOWN

    def is_held(self, fd):
        return self.state(fd) in (KEPT, CLOSES)

    def is_open(self, fd):
        return self.state(fd) in (KEPT, CLOSES, OPEN, LOOSE)

    def set(self, fd, state):
        """The descriptor is a new one."""
        self.shown[fd] = state
        self.queues.discard(fd)
        self.made_after[fd] = len(self.execs)

    def made(self, fd, state):
        """A call has made it that takes a free number."""
        if self.is_open(fd) and not self.shared:
            self.late.add(fd)
        self.set(fd, state)

    def used(self, fd):
        """A call on it succeeded, so it was open at each exec since it was made, and its flag was clear there."""
        state = self.state(fd)
        if self.execs and not self.shared and state not in (KEPT, CLOSES, LOOSE, CLOSED):
            after = max(self.made_after.get(fd, 0), self.hidden_after if fd >= self.sure_below else 0)
            for at in range(len(self.execs) - 1, after - 1, -1):
                if fd in self.execs[at].fds:
                    break
                self.execs[at].fds.add(fd)
        if state is UNKNOWN:
            self.shown[fd] = OPEN

    def flagged(self, fd, closes):
        """Its close-on-exec flag was set or cleared."""
        if self.state(fd) is not CLOSED:
            self.shown[fd] = state_of(self.is_held(fd), closes)

    def close(self, fd):
        self.shown[fd] = CLOSED
        self.queues.discard(fd)
        self.open_below = min(self.open_below, fd)

    def close_above(self, least, most=LAST_DESCRIPTOR):
        for fd in self.shown:
            if least <= fd <= most:
                self.shown[fd] = CLOSED
                self.queues.discard(fd)
        if most >= LAST_DESCRIPTOR:
            self.closed_from = min(self.closed_from, least)
        self.open_below = min(self.open_below, least)

    def exec(self, place):
        """`place` is the one before the exec's line, where the exec has one."""
        self.shown = {fd: AFTER_EXEC.get(state, state) for fd, state in self.shown.items()}
        self.thread, self.threads, self.late, self.open_below = None, False, set(), 0
        if place:
            self.execs.append(place)

    def hide(self, place):
        """Descriptors were made whose numbers aren't shown: each that is closed here may be open from here on."""
        for fd, state in self.shown.items():
            if state is CLOSED:
                self.shown[fd] = place
        if self.closed_from <= LAST_DESCRIPTOR:
            self.doubt, self.doubt_from = place, min(self.doubt_from, self.closed_from)
            self.closed_from = LAST_DESCRIPTOR + 1
        self.hidden_after, self.sure_below = len(self.execs), min(self.sure_below, self.open_below)

    def is_forgotten(self):
        return not (self.shown or self.execs or self.doubt_from or self.closed_from <= LAST_DESCRIPTOR)

    def forget(self, place):
        """Each descriptor may be another one from here on than the trace shows."""
        self.shown, self.late, self.execs, self.made_after = {}, set(), [], {}
        self.closed_from = self.open_below = 0
        self.hide(place)


def state_of(held, closes):
    return (CLOSES if closes else KEPT) if held else LOOSE if closes else OPEN


class Converter:
    """Takes a recording line by line, and keeps the trace's lines in `steps`, with places between them."""

    def __init__(self, notes, start=None, kernel=None, failed=False):
        self.steps = []
        self.notes = notes
        self.start = start
        self.kernel, self.failed = kernel, failed
        self.begin = None  # the place after @start
        self.processes = {}
        self.number = 0  # the line of the recording
        self.calls = 0  # how many of the recording's calls were written
        self.unjudged = collections.Counter()  # by name: a kernel may refuse them, and nothing says what it demands
        self.first = None  # the first line with one of these
        self.messages = []  # those with descriptors that were sent and not yet received
        self.status = 0

    def lines(self):
        for step in self.steps:
            if isinstance(step, Place):
                yield from step.lines()
            else:
                yield step

    def trace(self):
        """The trace's lines."""
        if self.kernel:
            return Follower(self.kernel, self.notes).trace(list(self.lines()))
        return (line.text for line in self.lines() if line.text)

    def heading(self):
        """The comment at the trace's beginning."""
        if not self.kernel:
            return "# no kernel's needs"
        return unjudged_comment(f"# kernel {self.kernel}", self.unjudged, self.first)

    def place(self, pid, line=foreign_line):
        self.steps.append(Place(pid, line))
        return self.steps[-1]

    def foreign(self, pid, process, fd, message=None):
        """Nothing is known of it from here on, but that it is open."""
        self.steps.append(foreign_line(pid, fd, message))
        process.shown[fd] = OPEN

    def made(self, pid, process, fd, message=None):
        """A call has made it that doesn't say so."""
        if 0 <= fd <= LAST_DESCRIPTOR:
            process.made(fd, OPEN)
            self.foreign(pid, process, fd, message)

    def flag(self, pid, process, fd, closes):
        """A close-on-exec flag that another call than fcntl has changed."""
        self.steps.append(flag_line(pid, fd, closes))
        process.flagged(fd, closes)

    def hide(self, pid, process):
        process.hide(self.place(pid))

    def forget(self, pid, process):
        if not process.is_forgotten():
            process.forget(self.place(pid))

    def forget_all(self):
        for pid, process in self.processes.items():
            self.forget(pid, process)

    # ---- The lines of a recording

    def line(self, pid, thread, rest):
        """One line of the recording, in its parts."""
        if not 1 <= pid <= LAST_PID:
            raise Strange("a process number out of range")
        if self.start is not None and not self.begin:
            words = [str(fd) for fd in self.start]
            self.steps.append(Line(pid, "@start", words, f"{pid} @start({','.join(words)})"))
            self.begin = self.place(pid, flag_line)
            self.processes[pid] = Process(closed_from=0)
            self.processes[pid].shown = {fd: KEPT for fd in self.start}
        if rest[:1] == "p" and ENDED.fullmatch(rest):
            self.processes.pop(pid, None)
            self.steps.append(Line(pid, "@exit", [], f"{pid} @exit()"))
            return
        process = self.processes.get(pid)
        if not process:
            process = self.processes[pid] = Process()
        if thread and process.thread != thread:
            process.threads = process.threads or process.thread is not None
            process.thread = thread
        if rest[:1] not in ("<", "S") or not EVENT.fullmatch(rest):
            self.answer(pid, process, rest)

    def answer(self, pid, process, rest):
        """A line that should be a call's."""
        found = ANSWERED.fullmatch(rest)
        if not found:
            found = UNANSWERED.fullmatch(rest)
            if found and found[1] in ENDS:
                raise LeftOut("the call never answers")
            self.forget(pid, process)
            raise Strange("a call without an answer" if found else "neither a call nor an event")
        name, args, answer, errno, word = found.groups()
        if word == "ERESTART":
            raise LeftOut("the call is begun anew")
        if word and name not in EXECS:  # these go on in the new program
            raise LeftOut("the call goes back without an answer")
        errno = int(errno) if errno else None
        answer = None if errno is not None else int(answer or 0)
        if errno is not None and not 1 <= errno <= LAST_ERRNO:
            self.forget(pid, process)
            raise Strange("an errno out of range")
        if answer is not None and not -(1 << 63) <= answer < 1 << 64:
            self.forget(pid, process)
            raise Strange("an answer out of range")
        self.call(pid, process, name, args, answer, errno)

    def call(self, pid, process, name, args, answer, errno):
        """A call with its answer or its errno; the other one of the two is None."""
        written, told = renamed(name, args, answer)
        try:
            text, words, uses = spelled(pid, written, told, answer, errno)
        except (LeftOut, Strange) as why:
            self.unwritten(pid, process, (name, written), (args, told), answer, errno, why)
            raise
        demand = self.demanded(pid, (name, written), args, words, answer, errno)
        message = self.sent(written, args, answer)
        self.calls += 1
        more = message.fds if message else demand.descriptors() if demand else []
        if answer is not None or errno == NOT_CAPABLE or demand:
            for fd in [*uses, *(fd for fd in more if fd not in uses)]:
                self.explain(pid, process, fd)
        place = self.place(pid, flag_line) if written in EXECS and answer is not None else None
        self.steps.append(Line(pid, written, words, text, self.number, answer, errno, uses, demand, message))
        for fd in more if not demand or demand.outcome != "refused" else ():
            process.used(fd)
        if answer is not None:
            for fd in uses:
                process.used(fd)
            self.effect(pid, process, written, told, words, answer, place)
            if name != written and name == "pdfork":
                self.hidden_fork(pid, process, answer)
        elif written == "close" and errno != 9:
            process.shown[int(words[0])] = UNKNOWN

    def unwritten(self, pid, process, names, args, answer, errno, why):
        """A call that a trace has no line for may have needs, and something made."""
        is_form, words = names[1] in FORMS, getattr(why, "words", None)
        if isinstance(why, Strange) or is_form and words is None:
            self.count(names[0], [], answer, names[0] not in DEMANDED or not self.kernel)
        else:
            demand = self.demanded(pid, names, args[0], words, answer, errno, ruled=is_form)
            if demand:
                for fd in demand.descriptors():
                    self.explain(pid, process, fd)
                    if demand.outcome != "refused":
                        process.used(fd)
                self.steps.append(Line(pid, names[1], words or [], None, self.number, answer, errno, [], demand))
        if answer is not None:
            self.left_out(pid, process, names[1], args[1], answer, isinstance(why, Strange))

    # ---- What a kernel demands

    def demanded(self, pid, names, args, words, answer, errno, ruled=False):
        """What a call demands beside its line, or all that it demands; and it is counted where that isn't known."""
        name, written = names
        is_known, demand, outcome = name in DEMANDED and bool(self.kernel), None, self.outcome(name, answer, errno)
        ruled = ruled or bool(outcome) and answer is None
        asked = written if written in ("mkfifoat", "fcntl") else name
        if outcome and (ruled or asked in beyond(self.kernel)):
            spelled_words = tuple(words) if written in FORMS and words is not None else None
            more = {"pid": pid} if name in OF_PROCESSES else {"answer": answer} if name == "kevent" else {}
            try:
                demand = demand_of(self.kernel, asked, args, spelled_words, outcome, ruled, **more)
            except (Strange, LeftOut):
                is_known = False
        self.count(name, words or [], answer, not is_known)
        if name in ("open", "openat") and written == "fcntl" and self.kernel:  # of a device that copies a descriptor
            return Demand("used", [], SURE)
        if demand and outcome != "used":
            demand = demand._replace(mode="", leaves=[])
        return demand if demand and (demand.needs or demand.mode) else None

    def outcome(self, name, answer, errno):
        """How a call's needs are said, or nothing where they aren't."""
        if not self.kernel:
            return ""
        if answer is not None or errno == IN_PROGRESS and name in ("connect", "connectat"):
            return "used"
        if errno == NOT_CAPABLE and name not in FORMS:
            return "refused"
        return "failed" if self.failed and errno in FAILED_LATE else ""

    def count(self, name, words, answer, is_unknown):
        """Counts a call that a kernel may refuse by Capsicum's rules, if nothing in the trace says what it demands."""
        is_formless = name not in FORMS and name not in FREE
        if self.kernel:
            counts = answer is not None and is_unknown and (is_formless or name in DEMANDED - FREE or name == "vfork")
        else:
            counts = is_formless or name in IN_PART or words[-1:] == ["DEST"]
        if counts:
            self.unjudged[name] += 1
            self.first = min(self.first or self.number, self.number)

    def sent(self, name, args, answer):
        """The descriptors of a message that was sent."""
        if name == "sendmsg" and answer is not None and self.kernel:
            fds = listed_rights(args)
            if fds and max(fds) <= LAST_DESCRIPTOR:
                self.messages.append(Message(fds))
                return self.messages[-1]
        return None

    def explain(self, pid, process, fd):
        """A call shows the descriptor to be open."""
        state = process.state(fd)
        if process.shared:
            self.foreign(pid, process, fd)
        elif isinstance(state, Place):
            state.fds.add(fd)
            process.shown[fd] = OPEN

    # ---- What calls have done

    def effect(self, pid, process, name, args, words, answer, place):
        """What a call that is written has done."""
        what = words[1] if name == "fcntl" else name
        if name in EXECS:
            if self.begin:
                self.begin.fds.update(self.start)
            process.exec(place)
        elif name == "close":
            self.closed(pid, process, int(words[0]))
        elif name == "closefrom":
            self.closed_above(pid, process, int(words[0]))
        elif name in LIMITS:
            if process.state(int(words[0])) in (CLOSED, UNKNOWN):
                process.shown[int(words[0])] = OPEN
        elif what == "F_SETFD":
            process.flagged(int(words[0]), "FD_CLOEXEC" in words[2].split("|"))
        elif name in MADE or what in COPYING:
            self.opened(process, name, what, words, answer)
        elif name in PAIRS:
            for fd in shown_pair(args):
                process.made(fd, state_of(True, "CLOEXEC" in "".join(words)))
        elif name in FORKS and name in FORMS:
            self.forked(process, name, args, answer)
        else:
            self.made_unseen(pid, process, name, args, answer, what)

    def closed(self, pid, process, fd):
        process.close(fd)
        if fd in process.late:
            process.late.remove(fd)
            self.foreign(pid, process, fd)
        elif process.threads:  # another thread's call on it may have been before
            process.shown[fd] = self.place(pid)

    def closed_above(self, pid, process, least, most=LAST_DESCRIPTOR):
        process.close_above(least, most)
        if process.threads:
            self.hide(pid, process)

    def opened(self, process, name, what, words, made):
        """A descriptor was made, and the call's form shows it."""
        state = state_of(makes_held(process, what, words), "CLOEXEC" in what + "".join(words[-1:]))
        if what in SECOND and words[0] == words[-1]:
            process.shown[made] = OPEN if what == "F_DUP2FD_CLOEXEC" else process.state(made)
            return
        queue = what == "kqueue" or what in COPYING and int(words[0]) in process.queues
        if what in SECOND:
            process.set(made, state)
        else:
            process.made(made, state)
        if name in MADE:
            process.open_below = max(process.open_below, made)
        if queue:
            process.queues.add(made)

    def forked(self, process, name, args, answer):
        if answer:
            child = self.processes[answer] = process.copy()
            place = self.place(answer)
            for fd in process.queues:
                child.set(fd, place)
            child.open_below = min(process.queues | {child.open_below})
            if process.shared or process.threads:
                child.forget(place)
        if name == "pdfork":
            for each in (process, self.processes.get(answer)):
                if each:
                    each.made(shown_descriptor(args), OPEN)

    def hidden_fork(self, pid, process, answer):
        """A pdfork whose descriptor isn't shown."""
        self.hide(pid, process)
        if answer:
            self.hide(answer, self.processes[answer])

    def made_unseen(self, pid, process, name, args, answer, what):
        """Descriptors that no form shows."""
        if name == "recvmsg":
            self.received(pid, process, args)
        elif name == "ioctl":
            self.controlled(pid, process, args)
        elif name == "_umtx_op":
            if makes_shared_memory(args):
                self.made(pid, process, answer)
        elif name in OTHERS_MADE:
            if name != "fcntl" or what not in COMMANDS_WITHOUT:
                self.made(pid, process, answer)
        elif name == "rfork" and not set(re.split(r"\W", args)) & {"RFFDG", "RFCFDG"} and answer > 0:
            child = self.processes[answer] = Process()
            process.shared = child.shared = True
        elif name == "close_range":
            self.closed_range(pid, process, args)
        elif name in ("thr_new", "thr_create"):
            process.threads = True
        elif name == "__mac_execve":
            self.forget(pid, process)
        elif name not in FORMS and name not in NEUTRAL:
            self.hide(pid, process)

    def received(self, pid, process, args):
        """Descriptors that came in a message."""
        listed = listed_rights(args)
        message = next((message for message in self.messages if len(message.fds) == len(listed or ())), None)
        if message:
            self.messages.remove(message)
        for at, fd in enumerate(listed or ()):
            self.made(pid, process, fd, message and (message, at))
        if "SCM_RIGHTS" in args and listed is None or not re.search(r",\{.*\},[^,]*$", args, re.S):
            self.hide(pid, process)

    def controlled(self, pid, process, args):
        """An ioctl."""
        parts = args.split(",")
        command = parts[1] if len(parts) > 1 else ""
        if command in ("FIOCLEX", "FIONCLEX"):
            self.flag(pid, process, descriptor(parts[0]), command == "FIOCLEX")
        elif not IOCTL.fullmatch(command):
            self.hide(pid, process)

    def closed_range(self, pid, process, args):
        """A close_range that isn't written as closefrom."""
        try:
            least, most, mode = args.split(",")
            least, most, mode = integer(least), integer(most) & 0xFFFFFFFF, flags(mode)
        except (Strange, ValueError):
            mode = None
        if mode == "0":
            self.closed_above(pid, process, least, most)
        elif mode in ("CLOSE_RANGE_CLOEXEC", "OTHER_4"):
            place = self.place(pid)
            for fd in sorted(process.shown):
                if least <= fd <= most and process.is_open(fd):
                    self.flag(pid, process, fd, True)
                elif least <= fd <= most and process.state(fd) is UNKNOWN:  # the trace may know that it came through an exec
                    process.shown[fd] = place
        else:
            self.forget(pid, process)

    def left_out(self, pid, process, name, args, answer, strange):
        """A call that can't be written: what it made or changed is unknown."""
        if strange:
            self.forget(pid, process)
        first, _, rest = args.partition(",")
        limits = name in LIMITS or name == "close" or name == "fcntl" and rest.startswith("F_SETFD")
        if limits and re.fullmatch("[0-9]{1,7}", first) and int(first) <= LAST_DESCRIPTOR:
            self.foreign(pid, process, int(first))
        elif name in MADE or name in SECOND or name == "fcntl" and rest.split(",")[0] not in COMMANDS_WITHOUT:
            self.made(pid, process, answer)
        elif name in PAIRS:
            for fd in shown_pair(args):
                self.made(pid, process, fd)
            if not shown_pair(args):
                self.hide(pid, process)
        if name in ("fork", "vfork", "pdfork", "cap_enter"):
            self.forget(pid, process)
        elif name in EXECS:
            process.exec(None)
        elif name != "fcntl" and name != "ioctl":
            self.made_unseen(pid, process, name, args, answer, "")


def makes_held(process, what, words):
    """Whether the trace may know the rights of the descriptor that a call has made."""
    if what == "openat" and words[0] == "AT_FDCWD":
        return words[1] != '""'
    if what == "openat":
        return words[1][1] not in '/"' and process.is_held(int(words[0]))
    if what in COPYING:
        return process.is_held(int(words[0]))
    return what in ("open", "socket")


def makes_shared_memory(args):
    """Whether an _umtx_op answers a descriptor: UMTX_OP_SHM does, unless it asks about shared memory or removes it."""
    parts = args.split(",")
    if len(parts) < 3:
        return True
    number = int(parts[1], 16) & 0xFFFFFF if re.fullmatch("0x[0-9a-f]{1,16}", parts[1]) else 0
    shared = "UMTX_OP_SHM" in parts[1].split("|") or number == 25
    return shared and parts[2] not in ("0x4", "0x8", "4", "8", "UMTX_SHM_DESTROY", "UMTX_SHM_ALIVE")


def listed_rights(args):
    """The descriptors of a message, where truss shows them: {level=SOL_SOCKET,type=SCM_RIGHTS,data={5,6}}"""
    lists = re.findall(r"SCM_RIGHTS,data=\{? ?([0-9, ]*?) ?\}", args)
    return [int(fd) for fd in re.findall(r"[0-9]{1,9}", ",".join(lists))] if lists else None


def shown_pair(args):
    """The two descriptors of a pipe, where truss shows them: { 3, 4 }"""
    found = re.search(r"[{\[] ?([0-9]{1,7}), ?([0-9]{1,7}) ?[}\]]", args)
    pair = [int(found[1]), int(found[2])] if found else []
    return pair if all(fd <= LAST_DESCRIPTOR for fd in pair) else []


def shown_descriptor(args):
    """The descriptor of pdfork's process, where truss shows it: { 5 }"""
    found = re.match(r"[{\[] ?([0-9]{1,7}) ?[}\]]", args)
    return int(found[1]) if found and int(found[1]) <= LAST_DESCRIPTOR else None


COPIED = re.compile(r'(?:[^",]*,)?"/+dev/+(?:(stdin|stdout|stderr)|fd/+(0|[1-9][0-9]{0,8}))",([^",]*)(?:,[^",]*)?')


FIFO = re.compile(r",(?:0?01[0-7]{4}|0x1[0-9a-f]{3}|S_IFIFO\|[^,]*),[^,]*$")


def renamed(name, args, answer):
    """Some calls that succeeded are another one by a new name, or with these arguments."""
    if name == "kmq_open":
        return "mq_open", args
    if name == "mknodat" and FIFO.search(args):
        return "mkfifoat", args
    if name == "pdfork" and answer is not None and shown_descriptor(args) is None:
        return "fork", ""
    if name in ("open", "openat") and answer is not None:
        found = COPIED.fullmatch(args)
        if found:
            number = found[2] or ("stdin", "stdout", "stderr").index(found[1])
            return "fcntl", f"{number},{'F_DUPFD_CLOEXEC' if 'O_CLOEXEC' in found[3].split('|') else 'F_DUPFD'}"
    if name == "close_range" and answer == 0:
        found = re.fullmatch(r"(0|[1-9][0-9]*),(?:4294967295|-1|0xffffffff),(?:0|0x0)", args)
        if found and int(found[1]) <= LAST_DESCRIPTOR:
            return "closefrom", found[1]
    if name == "rfork" and answer:
        names = set(args.split("|"))
        if answer > 0 and ("RFSPAWN" in names or "RFPROC" in names and "RFFDG" in names):
            return "vfork", ""
    return name, args


def spelled(pid, name, args, answer, errno):
    """A call's line, its arguments and the descriptors that it uses."""
    form = FORMS.get(name)
    if name.startswith("#"):
        raise LeftOut("a call without a name")
    if form:
        words, uses = form(args, errno)
    elif "(" in args or ")" in args:
        raise LeftOut("arguments with brackets")
    else:
        words, uses = [args], []
    if errno is not None:
        result = f"-1 errno {errno}"
    else:
        result = spelled_answer(name, args, words, answer)
    text = f"{pid} {name}({','.join(words)}) RET {result}"
    if len(text) > LONGEST:
        raise TooLong(words)
    return text, words, uses


def spelled_answer(name, args, words, answer):
    what = words[1] if name == "fcntl" else name
    if name in PAIRS:
        pair = shown_pair(args)
        if not pair:
            raise LeftOut("descriptors that truss didn't show")
        return f"{pair[0]},{pair[1]}"
    if name in ZERO and answer != 0 or what in SECOND and str(answer) != words[-1]:
        raise Strange("an answer that the call doesn't give")
    if name in MADE or what in COPIES:
        descriptor(str(answer))
    if name in ("fork", "vfork", "pdfork"):
        if not 0 <= answer <= LAST_PID:
            raise Strange("an answer that the call doesn't give")
        if name == "pdfork":
            return f"{answer},{shown_descriptor(args)}"
    return str(answer if answer >= 0 else answer + (1 << 64))


# What a call needs, by the table

NULL = {"NULL", "0x0", "0"}
# kevent's filters of descriptors
WATCHED = {"EVFILT_READ", "EVFILT_WRITE", "EVFILT_VNODE", "EVFILT_PROCDESC", "EVFILT_EMPTY"}
CHANGE = re.compile(r" ([^, ]+),([^, ]+),([^, ]+),([^ ]*),([^, ]+),([^, ]+)(?= |$)")
FAILED_LATE = {2, 4, 17, 35, 37, 57}  # a kernel answers these only after it has looked at the rights
IN_PROGRESS = 36
REFUSED, UNSHOWN = "refused", "unshown"  # of a refused change of kevent; of a name that may not have been there
EVERY = frozenset(RIGHTS) | {"ALL"}  # of a descriptor that was never limited


class Row(typing.NamedTuple):
    """A line of the table, for one of its calls."""

    names: list
    parts: list  # each an argument, rights, and when they are needed
    mode: str
    kind: str


class Need(typing.NamedTuple):
    fd: int
    rights: frozenset
    kind: str
    path: str = None  # it is sure where an earlier line found this name in the directory


class Demand(typing.NamedTuple):
    """What a call needs beside what its own line says."""

    outcome: str  # "used" of a call that succeeded, "refused" or "failed"
    needs: list
    mode: str  # how sure it is that capability mode forbids the call; empty where it doesn't
    leaves: list = []  # directories that a path left

    def descriptors(self):
        return sorted({need.fd for need in self.needs} | set(self.leaves))


def right_of(name):
    """The right that has a call's name."""
    return re.sub("^__|^sctp_|_fd$", "", name).upper()


def singles(names):
    """The single rights that names stand for."""
    return frozenset().union(*(SEVERAL.get(name, name).split() for name in names))


def part_of(text, name, kind):
    """An argument, the rights that are needed of it, and when: FD:READ SEEK if PROT_READ"""
    operand, _, rest = text.partition(":")
    rights, _, when = rest.partition("if ")
    names = frozenset(rights.replace("*", right_of(name)).split())
    return operand, singles(names) if kind == RULED else names, when


@functools.cache
def rows_of(kernel):
    """The table for a kernel: the rows of each call."""
    rows = collections.defaultdict(list)
    ruled = [(arguments, rights, mode, 12, 15, RULED, calls) for arguments, rights, mode, calls in RULES]
    for arguments, rights, mode, first, last, kind, calls in [*ruled, *NEEDS]:
        for name in calls.split() if first <= kernel <= last else ():
            parts = [part_of(text, name, kind) for text in rights.split("; ") if text]
            rows[name].append(Row(arguments.split(","), parts, mode, kind))
    return dict(rows)


@functools.cache
def beyond(kernel):
    """The calls that demand more than capcheck's rules say, or that a path can lead elsewhere."""
    rows = rows_of(kernel).items()
    return {name for name, them in rows if any(row.kind != RULED or row.mode == "AT_FDCWD" for row in them)}


def fields(args):
    """truss's arguments: what is between commas outside quotes and brackets."""
    found, begin, depth, quoted, skipped = [], 0, 0, False, False
    for place, byte in enumerate(args):
        if skipped or quoted and byte not in '\\"':
            skipped = False
        elif byte == "\\":
            skipped = quoted
        elif byte == '"':
            quoted = not quoted
        elif byte in "{[":
            depth += 1
        elif byte in "}]":
            depth -= 1
        elif byte == "," and not depth:
            found.append(args[begin:place])
            begin = place + 1
    return found + [args[begin:]]


def numbers(text):
    """The descriptors in a set: { 3 5 }"""
    inside = re.fullmatch(r"\{((?: [0-9]{1,7})*) \}", text)
    if text not in NULL and not inside:
        raise Strange("descriptors in an unknown form")
    return [descriptor(word) for word in inside[1].split()] if inside else []


def polled(words):
    """The descriptors of poll. A negative one is skipped."""
    inside = re.fullmatch(r"\{((?: -?[0-9]{1,10}/[^ ]+)*) \}", words[0])
    listed = inside[1].split() if inside else []
    if len(listed) != integer(words[1]):
        raise Strange("descriptors in an unknown form")
    return {"FD": [descriptor(word.split("/")[0]) for word in listed if word[0] != "-"]}


def selected(words):
    return {"FD": sorted({fd for word in words[1:4] for fd in numbers(word)})}


def events(text, most):
    """The changes or events of kevent, each with ident, filter, flags and data."""
    inside = re.fullmatch(r"\{(.*) \}", text)
    found = CHANGE.findall(inside[1]) if inside else []
    if len(found) != most or inside and not CHANGE.sub("", inside[1]) == "":
        raise Strange("events in an unknown form")
    return [(ident, kind, names.split("|"), data) for ident, kind, names, _, data, _ in found]


def changed(words, answer):
    """The queue, the counts and the descriptors of a kevent's changes. A refused change may be told as an event."""
    change, most = integer(words[2]), integer(words[4])
    told = events(words[3], answer) if change > 0 and most > 0 and answer else []
    wrong = {(ident, kind): integer(data) for ident, kind, names, data in told if "EV_ERROR" in names}
    changes = [each[:2] for each in events(words[1], change) if each[1] in WATCHED] if change > 0 else []
    right, refused = (sorted({descriptor(each[0]) for each in changes if wrong.get(each, 0) == errno})
                      for errno in (0, NOT_CAPABLE))
    return {"KQ": words[0], "N": str(change), "M": str(most), "FD": right, "REFUSED": refused}


ACCESSES = {"O_PATH": "", "O_SEARCH": "", "O_EXEC": "executes", "O_RDWR": "reads writes", "O_WRONLY": "writes"}


def access(given):
    """Which access to a file openat asked for."""
    names = given["FLAGS"].split("|")
    return next((words for name, words in ACCESSES.items() if name in names), "reads")


def overwrites(given):
    return "writes" in access(given) and not {"O_APPEND", "O_TRUNC"} & set(given["FLAGS"].split("|"))


WHEN = {
    "": lambda given: True, "there": lambda given: True, "DEST": lambda given: "DEST" in given,
    "writable": lambda given: "PROT_WRITE" in given["PROT"].split("|") and "MAP_SHARED" in given["FLAGS"].split("|"),
    "reads": lambda given: "reads" in access(given), "writes": lambda given: "writes" in access(given),
    "executes": lambda given: "executes" in access(given), "overwrites": overwrites,
    "given": lambda given: given["FD"] not in ("FD_NONE", "-200", "0xffffff38"),
}
for word in ("N", "M", "INOFF", "OUTOFF", "TO"):
    WHEN[word] = lambda given, word=word: given[word] not in NULL


def is_needed(when, given):
    if when in WHEN:
        return WHEN[when](given)
    return bool(set(when.split()) & set(f"{given.get('PROT', '')}|{given['FLAGS']}".split("|")))


def is_relative(name):
    return name[:1] == '"' and name[1:2] not in ('"', "/")


def leaves(name):
    """Whether a relative path goes above the directory where it begins."""
    depth = 0 if is_relative(name) else len(name)
    for part in name.strip('"').split("/"):
        depth += 0 if part in ("", ".") else -1 if part == ".." else 1
        if depth < 0:
            return True
    return False


def places(given):
    """The directories of a call, each None or a descriptor, with their paths."""
    pairs = [(directory(given["DIR"]), given.get("PATH"))] if "DIR" in given else []
    return pairs + [(directory(given["TO"]), given["NAME"])] if "NAME" in given and "TO" in given else pairs


def operand_of(operand, given):
    """The descriptors that an argument names, and the path below it."""
    value = given[operand]
    if isinstance(value, list):
        return value, None
    if operand in ("DIR", "TO"):
        at, name = directory(value), given.get("PATH" if operand == "DIR" else "NAME")
        return ([] if at is None or name and not is_relative(name) else [at]), name
    return [descriptor(value)], None


def needs_of(row, given):
    """The needs of a call by one row of the table."""
    found = []
    for operand, rights, when in row.parts:
        if is_needed(when, given):
            them, name = operand_of(operand, given)
            kind = MIDDLE if row.kind == SURE and operand == "FD" and given.get("M", "0") not in NULL else row.kind
            found += [Need(fd, rights, kind, name if when == "there" else None) for fd in them]
    return found


# Where capability mode forbids a call

SOCKETS = {"SOCK_STREAM", "SOCK_DGRAM", "SOCK_SEQPACKET"}
OF_SOCKETS = {f"SIOC{word}" for word in "ATMARK SPGRP GPGRP SHIWAT GHIWAT SLOWAT GLOWAT".split()}  # no configuration


def is_global(given, _):
    return any(at is None and name != '""' or name and name[:2] == '"/' for at, name in places(given))


def is_other_socket(given, _):
    kind, domain = flags(given["TYPE"]).split("|"), given["DOMAIN"][3:]
    return domain not in ("LOCAL", "UNIX") and not (domain in ("INET", "INET6") and SOCKETS & set(kind))


def is_of_others(given, pid):
    """cpuset_getaffinity and the like: of another process, as far as the arguments show."""
    is_thread, is_process = given["WHICH"] in ("CPU_WHICH_TID", "0x1"), given["WHICH"] in ("CPU_WHICH_PID", "0x2")
    if given["LEVEL"] not in ("CPU_LEVEL_WHICH", "0x3") or not (is_thread or is_process):
        return True
    is_other = integer(given["ID"]) not in (-1, pid)
    if is_other and is_thread:
        raise Strange("a thread that may be of this process")
    return is_other


def is_named(given, _):
    if given["SHM"][:1] != '"' and given["SHM"] not in ("SHM_ANON", "0x1"):
        raise Strange("a name in an unknown form")
    return given["SHM"][0] == '"'


OF_PROCESSES = set("kill cpuset_getaffinity cpuset_setaffinity cpuset_getdomain cpuset_setdomain".split())
MODES = {
    "": lambda given, _: False,
    "forbidden": lambda given, _: True,
    "AT_FDCWD": is_global,
    "with a destination": lambda given, _: "DEST" in given,
    "with a name": is_named,
    "another process": lambda given, pid: integer(given["PID"]) != pid,
    "another's processors": is_of_others,
    "other sockets": is_other_socket,
    "network configuration": lambda given, _: given["COMMAND"][:4] == "SIOC" and given["COMMAND"] not in OF_SOCKETS,
    "as a daemon": lambda given, _: bool({"PD_DAEMON", "OTHER_1", "OTHER_3"} & set(flags(given["FLAGS"]).split("|"))),
}
READERS = {"POLLED": lambda words, _: polled(words), "SELECTED": lambda words, _: selected(words), "CHANGED": changed}
UNSPELLED = {"SHM", "DOMAIN", "COMMAND", "FDP"}  # arguments that the call's form in a trace lacks


def given_to(row, args, words, answer):
    """The arguments of a call by the names of a row. `words` are those of its form, where it has one."""
    if words is None or UNSPELLED & set(row.names):
        words = fields(args)
    if row.names[0] in READERS:
        return READERS[row.names[0]](words, answer)
    return {name: word.strip() for name, word in zip(row.names, words)}


@functools.lru_cache(maxsize=4096)
def demand_of(kernel, name, args, words, outcome, ruled, pid=0, answer=0):
    """What a call demands, with what capcheck's rules say or without. Few depend on the process or the answer."""
    needs, mode, left = [], "", []
    for row in rows_of(kernel).get(name, ()):
        try:
            given = given_to(row, args, words, answer)
            if row.mode == "AT_FDCWD":
                left += [at for at, name in places(given) if at is not None and name and leaves(name)]
            if row.kind != RULED or ruled:
                needs += needs_of(row, given)
                needs += [Need(fd, frozenset(["EVENT"]), REFUSED) for fd in given.get("REFUSED", ())]
                if MODES[row.mode](given, pid):
                    mode = MIDDLE if row.kind == MIDDLE and mode != SURE else SURE
        except (KeyError, IndexError) as why:
            raise Strange("arguments in an unknown form") from why
    return Demand(outcome, needs, SURE if left else mode, left)


@functools.lru_cache(maxsize=4096)
def ruled_needs(kernel, name, words):
    """What the line of a call needs by capcheck's rules."""
    rows = [row for row in rows_of(kernel).get(name, ()) if row.kind == RULED]
    return [need for row in rows for need in needs_of(row, given_to(row, "", words, 0))]


# What the trace shows where a call demands something


class Made:
    """A line that made a descriptor, and the one that made what it comes from."""

    __slots__ = ("at", "pid", "fd", "parent", "accepted", "received", "file", "is_foreign")

    def __init__(self, at, pid, fd, parent=None, accepted=None, received=None, same_file=False):
        self.at, self.pid, self.fd, self.parent, self.is_foreign = at, pid, fd, parent, False
        self.accepted = accepted or parent and parent.accepted  # the copy that accept made
        self.received = received or parent and parent.received  # the descriptor that was sent
        self.file = parent.file if parent and same_file else self


class Cell(typing.NamedTuple):
    """What is known of a descriptor: its rights, whether an exec closes it (None: unsure), the line that changed it
    last, and where it comes from. Without rights it may be closed, or open with any."""

    rights: frozenset = None
    closes: bool = None
    touched: int = -1
    made: Made = None

    def lacks(self, rights):
        """What is missing of these rights for sure."""
        return frozenset() if self.rights is None else singles(rights) - self.rights


GONE = Cell(frozenset())


class Known:
    """What is known of a process."""

    def __init__(self, at, others=Cell(), inside=False):
        self.at, self.cells, self.others, self.end, self.inside = at, {}, others, LAST_DESCRIPTOR + 1, inside

    def cell(self, fd):
        return self.cells.get(fd) or (GONE if fd >= self.end else self.others)

    def copy(self, at):
        other = Known(at, self.others, self.inside)
        other.cells, other.end = dict(self.cells), self.end
        return other

    def exec(self, at):
        self.at = at
        for fd, cell in self.cells.items():
            if cell is not GONE and cell.rights is not None:
                self.cells[fd] = GONE if cell.closes else cell if cell.closes is False else cell._replace(rights=None)

    def close_from(self, least):
        self.cells = {fd: cell for fd, cell in self.cells.items() if fd < least}
        self.end = min(self.end, least)


class Copy:
    """The line after accept: the new descriptor has the listener's rights."""

    def __init__(self, text, listener, rights):
        self.text, self.listener, self.rights, self.is_dropped = text, listener, rights, False


class Sent:
    """A descriptor that was sent, and what the lines of who received it need of it."""

    def __init__(self, at, fd, cell, since):
        self.at, self.fd, self.cell, self.since, self.rights = at, fd, cell, since, frozenset()


class Follower:
    """Follows a trace's lines as capcheck does in profile 2, which finds most, and puts markers of needs after them."""

    def __init__(self, kernel, notes):
        self.kernel, self.notes = kernel, notes
        self.known = {}  # processes
        self.uses, self.refused = {}, {}  # by line and descriptor: the rights, with the line that changed it last
        self.globals, self.copies, self.foreign = set(), {}, {}  # by line
        self.messages, self.names = {}, {}  # who sent; names that were found, with their directories

    def trace(self, lines):
        for at, line in enumerate(lines):
            self.line(at, line)
        self.deliver(lines)
        self.drop_earlier(lines)
        for at, line in enumerate(lines):
            if line.text:
                yield line.text
            yield from self.after(at, line.pid)

    def after(self, at, pid):
        """The lines that are written after this one."""
        for word, marked in (("uses", self.uses), ("refused", self.refused)):
            for fd, (rights, _) in sorted(marked.get(at, {}).items()):
                yield f"{pid} @{word}({fd},{spelled_rights(rights)})"
        if at in self.globals:
            yield f"{pid} @global()"
        if at in self.copies and not self.copies[at].is_dropped:
            yield self.copies[at].text
        for fd in sorted(self.foreign.get(at, ())):
            yield f"{pid} @foreign({fd})"

    def line(self, at, line):
        process = self.known.get(line.pid)
        if not process:
            process = self.known[line.pid] = Known(at)
        if line.answer is not None or line.demand and line.demand.outcome != "refused":
            self.look_back(process, line)
        if line.demand:
            self.demand(at, process, line, line.demand)
        self.follow(at, process, line)

    # ---- Needs

    def look_back(self, process, line):
        """What a call that succeeded shows of an accepted descriptor, and what any needs of one that came in a message."""
        is_done = line.answer is not None
        watched = [fd for fd in line.uses if (made := process.cell(fd).made) and (made.accepted or made.received)]
        for fd in watched if is_done else ():
            self.came(process.cell(fd), self.ruled(line, fd), line)
        for need in line.demand.needs if line.demand else ():
            made = process.cell(need.fd).made
            shows = made and made.accepted and is_done and need.kind in (SURE, RULED)
            if made and need.kind != REFUSED and (made.received or shows):
                self.came(process.cell(need.fd), need.rights, line)

    def ruled(self, line, fd):
        """What a line needs of a descriptor by capcheck's rules."""
        if line.name == "cap_rights_limit":
            return rights_in(line.words[1])
        needs = ruled_needs(self.kernel, line.name, tuple(line.words))
        return frozenset().union(*(need.rights for need in needs if need.fd == fd))

    def came(self, cell, rights, line):
        copy, sent = cell.made.accepted, cell.made.received
        if copy and not copy.is_dropped and copy.rights is not None and not rights <= copy.rights:
            copy.is_dropped = True
            lacks = f"the listener {copy.listener} lacks {spelled_rights(rights - copy.rights)}"
            self.against(line, f"succeeded, though {lacks}: nothing is known of the accepted descriptor")
        while sent and not rights <= sent.rights:
            sent.rights |= rights
            sent = sent.cell.made and sent.cell.made.received

    def demand(self, at, process, line, demand):
        for need in demand.needs:
            self.need(at, process, line, need, demand.outcome)
        if demand.mode == MIDDLE and process.inside:
            self.against(line, f"succeeded in capability mode{self.other_kernel(line.name)}")
        elif demand.mode:
            self.globals.add(at)
        for fd in demand.leaves:
            self.left(process.cell(fd), line)

    def other_kernel(self, name):
        """A kernel whose table has fewer rows of a call."""
        rows = len(rows_of(self.kernel)[name])
        fewer = [kernel for kernel in KERNELS if len(rows_of(kernel).get(name, ())) < rows]
        return f": --kernel {fewer[-1]}?" if fewer else ", which a kernel refuses as far as is known"

    def need(self, at, process, line, need, outcome):
        """One need: it is written where it is sure, and else where it can't be a finding."""
        cell, kind = process.cell(need.fd), need.kind
        if need.path and self.file_of(line.pid, need.fd) not in self.names.get(need.path, ()):
            kind = UNSHOWN
        lacks, since = cell.lacks(need.rights), (line.pid, process.at, cell.touched)
        is_sure = outcome == "used" and kind in (SURE, RULED)
        is_refused = outcome == "refused" or kind == REFUSED
        if is_sure or cell is not GONE and not lacks and not is_refused:
            self.mark(self.uses, at, need.fd, need.rights, since)
        elif lacks and cell is not GONE and (is_refused or outcome == "used" and kind == SILENT):
            self.mark(self.refused, at, need.fd, lacks, since)
        elif lacks and cell is not GONE and outcome == "used" and kind == MIDDLE:
            self.against(line, f"succeeded without {spelled_rights(lacks)} of descriptor {need.fd}")

    def against(self, line, text):
        """A call succeeded that the table says a kernel refuses."""
        self.notes.against(line.number, f"{line.name} {text}")

    def mark(self, marked, at, fd, rights, since):
        others, _ = marked.setdefault(at, {}).get(fd, (frozenset(), since))
        marked[at][fd] = others | rights, since

    def left(self, cell, line):
        """A path led out of a directory, which a kernel allows only where that was never limited."""
        if cell.rights is not None and cell is not GONE and "ALL" not in cell.rights:
            self.against(line, "succeeded by a path that leaves a limited directory")
            return
        made = cell.made
        while made and not made.is_foreign:
            made.is_foreign = True
            self.foreign.setdefault(made.at, set()).add(made.fd)
            made = made.parent

    def deliver(self, lines):
        """The needs of descriptors that were sent in messages."""
        for sent in itertools.chain.from_iterable(self.messages.values()):
            lacks = sent.cell.lacks(sent.rights)
            if sent.rights and not lacks and sent.cell is not GONE:
                self.mark(self.uses, sent.at, sent.fd, sent.rights, sent.since)
            elif lacks:
                what = f"descriptor {sent.fd} without {spelled_rights(lacks)}, which who received it used"
                self.against(lines[sent.at], f"sent {what}: perhaps another message")

    def drop_earlier(self, lines):
        """Of the same uses of a descriptor that nothing changed in between, the last one is written."""
        later = set()
        for at in range(len(lines) - 1, -1, -1):
            for fd, use in list(self.uses.get(at, {}).items()):
                if (fd, use) in later:
                    del self.uses[at][fd]
                later.add((fd, use))

    # ---- What lines do

    def follow(self, at, process, line):
        """What is known after a line."""
        pid, name, words = line.pid, line.name, line.words
        if name == "@start":
            process = self.known[pid] = Known(at, GONE)
            process.cells = {int(fd): Cell(EVERY, None, at, Made(at, pid, int(fd))) for fd in words}
        elif name == "@exit":
            del self.known[pid]
        elif name == "@foreign":
            self.made_foreign(at, process, pid, int(words[0]), line.message)
        elif name == "close" and line.errno not in (None, 9):
            process.cells[int(words[0])] = Cell(touched=at)
        elif line.answer is not None and line.text:
            self.succeeded(at, process, line, words[1] if name == "fcntl" else name)

    def made_foreign(self, at, process, pid, fd, message):
        sent = self.messages[message[0]][message[1]] if message else None
        made = Made(at, pid, fd, sent and sent.cell.made, received=sent, same_file=True)
        made.is_foreign = not made.parent
        process.cells[fd] = Cell(touched=at, made=made)

    def succeeded(self, at, process, line, what):
        """A call that succeeded; an fcntl by its command."""
        pid, words, fd = line.pid, line.words, int(line.words[0]) if line.uses and line.words[0].isdigit() else None
        if what == "close":
            process.cells[fd] = GONE
        elif what == "closefrom":
            process.close_from(int(words[0]))
        elif what in EXECS:
            process.exec(at)
        elif what == "cap_enter":
            process.inside = True
        elif what in LIMITS:
            asked = rights_in(words[1]) if what == "cap_rights_limit" else None
            process.cells[fd] = limited(process.cell(fd), at, asked)
        elif what == "F_SETFD":
            process.cells[fd] = flagged(process.cell(fd), at, words[2].split("|"))
        elif what in FORKS and what in FORMS and line.answer:
            self.known[line.answer] = process.copy(at)
        elif what == "sendmsg" and line.message:
            self.messages[line.message] = [self.sent(at, process, pid, each) for each in line.message.fds]
        elif what in COPYING or what in MADE or what in PAIRS:
            self.opened(at, process, line, what, fd)
        self.name(pid, line)

    def sent(self, at, process, pid, fd):
        cell = process.cell(fd)
        return Sent(at, fd, cell, (pid, process.at, cell.touched))

    def opened(self, at, process, line, what, fd):
        pid, words = line.pid, line.words
        closes = "CLOEXEC" in what + "".join(words[-1:])
        if what in PAIRS:
            for each in map(int, line.text.rsplit(" ", 1)[1].split(",")):
                process.cells[each] = Cell(EVERY, closes, at, Made(at, pid, each))
            return
        made = line.answer
        if what in ("accept", "accept4"):
            self.accepted(at, process, line, process.cell(fd), closes)
        elif what in SECOND and made == fd:
            old = process.cell(fd)
            process.cells[fd] = old._replace(closes=None if closes else old.closes, touched=at)
        elif what in COPYING or what == "openat" and fd is not None and is_relative(words[1]):
            old = process.cell(fd)
            came = Made(at, pid, made, old.made, same_file=what in COPYING)
            process.cells[made] = Cell(None if old is GONE else old.rights, closes, at, came)
        else:
            held = what in ("open", "socket") or what == "openat" and words[0] == "AT_FDCWD" and words[1] != '""'
            process.cells[made] = Cell(EVERY if held else None, closes, at, Made(at, pid, made))

    def accepted(self, at, process, line, old, closes):
        """The new descriptor of an accept has the listener's rights, so it is written as a copy of it."""
        listener, new = line.words[0], line.answer
        process.cells[new] = Cell(None, closes, at, Made(at, line.pid, new))
        if old is not GONE:
            command = "F_DUP2FD_CLOEXEC" if closes else "F_DUP2FD"
            copy = Copy(f"{line.pid} fcntl({listener},{command},{new}) RET {new}", listener, old.rights)
            process.cells[new] = Cell(old.rights, closes, at, Made(at, line.pid, new, old.made, copy))
            self.copies[at] = copy

    def file_of(self, pid, fd):
        """What stands for the file of a descriptor."""
        process = self.known[pid]
        cell = process.cell(fd)
        return cell.made.file if cell.made else (pid, fd, process.at, cell.touched)

    def name(self, pid, line):
        """Names that a call found, made or removed."""
        if line.name in ("unlink", "rmdir", "rename") or line.name == "funlinkat":
            self.names.clear()
        elif line.name in AT_CALLS:
            row = rows_of(self.kernel)[line.name][0]
            pairs = places(given_to(row, "", line.words, 0))
            for place, (fd, name) in enumerate(pairs):
                if line.name == "unlinkat" or line.name == "renameat" and place == 0:
                    self.names.pop(name, None)
                elif fd is not None:
                    self.names.setdefault(name, set()).add(self.file_of(pid, fd))


def limited(cell, at, asked):
    """A cell after a limit: one of rights, or another one."""
    if asked is None:
        rights = cell.rights and cell.rights - {"ALL"}
        return Cell(touched=at) if cell is GONE else cell._replace(rights=rights, touched=at)
    if cell is GONE or cell.rights is None:
        return Cell(asked, None, at, cell.made)
    return cell._replace(rights=cell.rights & asked, touched=at)


def flagged(cell, at, words):
    """A cell after F_SETFD."""
    if cell is GONE or cell.rights is None:
        return cell
    rights = cell.rights if set(words) <= {"FD_CLOEXEC", "0"} else cell.rights - {"ALL"}
    return cell._replace(rights=rights, closes="FD_CLOEXEC" in words, touched=at)


def rights_in(text):
    return frozenset(word[4:] for word in text.split("|") if word != "NONE")


# A recording as a whole


def early_children(lines, default):
    """The places of forks whose child's first line is before them, by the place of that line."""
    living, first, last, ended = set(), {}, {}, {}
    early = {}
    for place, line in enumerate(lines):
        pid, _, rest = parted(line, default)
        if pid is None or not rest:
            continue
        if pid not in living:
            if last:
                first[pid] = place
                ended.pop(pid, None)
            living.add(pid)
        found = FORK.fullmatch(rest) if "fork(" in rest else None
        child = int(found[2]) if found and found[1] in FORKS else 0
        if child:
            at = first.pop(child, None)
            # A child that ended before its parent did anything else is the one of a vfork.
            if at is not None and not (child in ended and last.get(pid, -1) > ended[child]):
                early.setdefault(at, []).append(place)
            living.add(child)
        if rest[0] == "p" and ENDED.fullmatch(rest):
            living.discard(pid)
            ended[pid] = place
        last[pid] = place
    return early


def in_order(lines, default):
    """The places of the lines, each fork before the first line of its child."""
    early = early_children(lines, default)
    done = set()
    for place in range(len(lines)):
        waiting = [place]
        while waiting:
            here = waiting[-1]
            due = [other for other in early.pop(here, ()) if other != here]
            if due:
                waiting.extend(reversed(due))
                continue
            waiting.pop()
            if here not in done:
                done.add(here)
                yield here


def convert(recording, notes, start=None, default=None, strict=False, kernel=KERNEL, failed=False):
    """The converter that has read a recording (bytes). `notes` takes what couldn't be read, and what is left out."""
    lines = recording.decode("latin-1").split("\n")
    if not any(lines):
        raise Refused("the recording is empty")
    if default is None and all(parted(line, None)[0] is None for line in lines):
        raise Refused("no line has a process number: record with truss -f, or give --pid")
    converter = Converter(notes, start, kernel, failed)
    read = 0
    for count, place in enumerate(in_order(lines, default)):
        notes.progress(count, len(lines))
        if not lines[place]:
            continue
        pid, thread, rest = parted(lines[place], default)
        converter.number = place + 1
        try:
            if pid is None:
                converter.forget_all()
                raise Strange("no process number")
            converter.line(pid, thread, rest)
            read += 1
        except Strange as why:
            notes.unread(place + 1, why, lines[place])
            converter.status = 2 if strict else 1
            if strict:
                break
        except LeftOut as why:
            read += 1
            notes.left_out(place + 1, why, lines[place])
    if not read:
        raise Refused("nothing of the recording was read: is it what truss -f -o wrote?")
    return converter


# The command line


class Notes:
    """What is said on standard error: at most ten lines of a kind, and how many more there were."""

    def __init__(self, verbose=False):
        self.verbose = verbose
        self.kinds = collections.Counter()
        self.terminal = sys.stderr.isatty()
        self.shown = time.monotonic()

    def say(self, text):
        print(("\r\x1b[K" if self.terminal else "") + f"truss2trace: {text}", file=sys.stderr)

    def unread(self, number, why, line):
        self.add(f"line {number} can't be read", "can't be read", why, line)

    def left_out(self, number, why, line):
        if self.verbose:
            self.add(f"line {number} is left out", "left out", why, line)

    def add(self, beginning, what, why, line):
        kind = f"{what}, {why}"
        self.kinds[kind] += 1
        if self.kinds[kind] <= MOST_NOTES:
            self.say(f"{beginning}, {why}: {quoted(line)}")

    def against(self, number, text):
        """A call succeeded that the table of needs says a kernel refuses."""
        self.kinds["that the kernel's table is against"] += 1
        if self.kinds["that the kernel's table is against"] <= MOST_NOTES:
            self.say(f"line {number}: {text}")

    def more(self):
        for kind, number in self.kinds.items():
            if number > MOST_NOTES:
                self.say(f"{number - MOST_NOTES:,} more lines {kind}")

    def progress(self, count, most):
        if self.terminal and count % 5000 == 0 and time.monotonic() > self.shown + 0.5:
            self.shown = time.monotonic()
            print(f"\r\x1b[Ktruss2trace: {count:,} of {most:,} lines", end="", file=sys.stderr, flush=True)


def quoted(line):
    text = line.strip()
    text = text if len(text) <= LONGEST_QUOTE else text[:LONGEST_QUOTE] + "..."
    return "".join(byte if " " <= byte <= "~" else f"\\x{ord(byte):02x}" for byte in text)


def summary(calls, unjudged):
    """How many calls were written, and which of the recording's calls `findings 0` says nothing about."""
    text = f"{calls:,} call{'' if calls == 1 else 's'} written"
    return f"{text}; not judged: {listed(unjudged)}" if unjudged else text


def listed(unjudged, most=None):
    """The names and numbers of calls, the most frequent first."""
    order = sorted(unjudged.items(), key=lambda each: (-each[1], each[0]))
    text = ", ".join(f"{name} {number:,}" for name, number in order[:most])
    more = len(order) - len(order[:most])
    return f"{text} and {more} other{'' if more == 1 else 's'}".removeprefix(" and ") if more else text


def unjudged_comment(text, unjudged, first):
    """A trace's first line, which says how many calls nothing is known of. It has to fit a line."""
    for most in range(MOST_NAMES, -1, -1):
        comment = f"{text}; not judged: {listed(unjudged, most)}, first at line {first} of the recording"
        if unjudged and len(comment) <= LONGEST:
            return comment
    return text


def descriptors(text):
    parts = text.split(",") if text else []
    numbers = [int(part) if re.fullmatch("0|[1-9][0-9]{0,6}", part, re.ASCII) else -1 for part in parts]
    if any(not 0 <= fd <= LAST_DESCRIPTOR for fd in numbers) or sorted(set(numbers)) != numbers:
        raise argparse.ArgumentTypeError("descriptors with commas between them, each above the one before")
    if len(text) > LONGEST - len(f"{LAST_PID} @start()"):
        raise argparse.ArgumentTypeError("too many descriptors for a line")
    return numbers


def process_number(text):
    if not re.fullmatch("[1-9][0-9]{0,4}", text, re.ASCII):
        raise argparse.ArgumentTypeError(f"a number from 1 to {LAST_PID}")
    return int(text)


def main():
    words = argparse.ArgumentParser(
        description="Makes a trace for capcheck out of a recording of FreeBSD's truss(1).",
        epilog=EXAMPLE, formatter_class=argparse.RawDescriptionHelpFormatter,
    )
    words.add_argument("recording", nargs="?", help="what truss -f -o wrote; standard input where none is named, or -")
    words.add_argument("--start", type=descriptors, metavar="FDS",
                       help="the first process has just been executed with these descriptors and no others, as 0,1,2")
    words.add_argument("--pid", type=process_number, help="the process of lines without a number (truss without -f)")
    kernels = words.add_mutually_exclusive_group()
    kernels.add_argument("--kernel", type=int, choices=KERNELS, default=KERNEL,
                         help=f"write what this release of FreeBSD demands; {KERNEL} where none is named")
    kernels.add_argument("--plain", action="store_true", help="write nothing of what a kernel demands beside the rules")
    words.add_argument("--failed", action="store_true", help="write also what calls needed that failed later")
    words.add_argument("-o", "--output", metavar="FILE", help="where the trace goes; standard output where none is named")
    words.add_argument("--strict", action="store_true", help="end at the first line that can't be read")
    words.add_argument("--verbose", action="store_true", help="say also which calls are left out, and why")
    words.add_argument("--version", action="version", version=f"truss2trace {VERSION}")
    plan = words.parse_args()
    try:
        sys.exit(run(plan))
    except BrokenPipeError:
        sys.stderr.close()
        sys.exit(2)
    except OSError as why:
        print(f"truss2trace: {why}", file=sys.stderr)
        sys.exit(2)


def run(plan):
    """Converts the recording, and answers the exit status."""
    if plan.recording in (None, "-"):
        recording = sys.stdin.buffer.read()
    else:
        with open(plan.recording, "rb") as file:
            recording = file.read()
    output = open(plan.output, "wb") if plan.output else sys.stdout.buffer
    notes = Notes(plan.verbose)
    try:
        kernel = None if plan.plain else plan.kernel
        converter = convert(recording, notes, plan.start, plan.pid, plan.strict, kernel, plan.failed)
        status, heading, lines = converter.status, [converter.heading()], converter.trace()
        last = summary(converter.calls, converter.unjudged)
    except Refused as why:
        status, heading, lines, last = 2, [], iter([str(why)]), str(why)  # capcheck refuses such a line
    for line in itertools.chain(heading, itertools.islice(lines, MOST_LINES)):
        output.write(line.encode("latin-1") + b"\n")
    output.flush()
    if plan.output:
        output.close()
    notes.more()
    if next(lines, None):
        notes.say(f"the trace is full: capcheck reads {MOST_LINES:,} lines, and the rest is left out")
        status = 2
    notes.say(last)
    return status


if __name__ == "__main__":
    main()
