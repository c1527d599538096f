"""Programs under a small kernel, and the limits that `capcheck` prints for them.

The kernel refuses what tests/kernel.tsv says that a kernel of FreeBSD 12, 13, 14 or 15 refuses. What a program did there is printed as
truss would print it, and contrib/truss2trace.py makes a trace of that with `--kernel`.

- Two thousand random programs do all that a recording may show or hide. The kernel answers rightly, so the program may find nothing in
  their traces.
- For other random programs, for the written ones (tests/programs.txt) and for each call of the table by itself: the limits that the
  program prints for a line of the trace, and the cap_enter where it prints one, are put into the program at the place of that line. The
  program runs again under the kernel. No call that succeeded may be refused then, and all must answer what they did. With `--failed`
  that holds for what failed as well. From traces that `--plain` makes some calls must be refused, or these runs show nothing.

Not in these other programs is what no recording tells: threads, asynchronous I/O, links, nodes of sysctl, lists of ioctl and fcntl
commands, lines that can't be read, and calls for which the table is less than 0.8 sure. Of limits from before an exec the trace doesn't
tell enough either where after it close_range sets flags, or before it a path left its directory.
"""

import ast
import collections
import functools
import importlib
import io
import itertools
import os
import posixpath
import re
import sys
from typing import Any, NamedTuple

import harness
import reference

TABLE, WRITTEN = (os.path.join(harness.HERE, name) for name in ("kernel.tsv", "programs.txt"))
RELEASES = {12: (12, 2, 0), 13: (13, 2, 4), 14: (14, 0, 0), 15: (15, 0, 0)}  # with patches: 13.2-p4
SURE = 0.8  # no program makes a call of which the table is less sure
HIDING = 500  # random programs of a class in which nothing may be found
VARIANTS = 8  # arguments of a call that succeeds by itself
MOST_TRIED = 20  # how often arguments of a call are tried until it succeeds
ASKING = 34  # random programs for which limits are asked, of a release
NOT_CAPABLE, NOT_IN_MODE = 93, 94
NO_ENTRY, BAD_DESCRIPTOR, NO_CHILD, EXISTS, NO_DIRECTORY, IS_DIRECTORY = 2, 9, 10, 17, 20, 21
AGAIN, IN_PROGRESS, NO_SOCKET, NO_CALL = 35, 36, 38, 78
ERRORS = {
    2: "No such file or directory", 9: "Bad file descriptor", 10: "No child processes", 17: "File exists",
    20: "Not a directory", 21: "Is a directory", 35: "Resource temporarily unavailable",
    36: "Operation now in progress", 38: "Socket operation on non-socket",
    78: "Function not implemented", 93: "Capabilities insufficient", 94: "Not permitted in capability mode",
}
AFTER_RIGHTS = {2, 4, 17, 35, 37, 57}  # errnos that a kernel answers only after it has looked at the rights
EVERY, ALL = reference.EVERYTHING, frozenset(reference.RIGHTS)  # those of a descriptor that was never limited, and all others


# ---- What a kernel demands: the table

ALWAYS, NEVER = lambda it: True, lambda it: False


def has(*names, word="FLAGS"):
    """Whether a call has one of these flags."""
    return lambda it: not set(names).isdisjoint(it[word].split("|"))


def plain_access(*names):
    """Whether a file is opened so, and not to be executed or searched."""
    return lambda it: has(*names)(it) and not has("O_EXEC", "O_SEARCH", "O_PATH")(it)


def is_fifo(it):
    return it["MODE"] == "010644"


def is_since(it, twelve, thirteen):
    """Whether the release is of these or later: 12.3 and 13.1."""
    return it["release"] >= (thirteen if it["release"] >= (13, 0, 0) else twelve)


def is_odd_socket(it):
    """Whether no sandbox may have a socket of this domain and type."""
    usual = it["DOMAIN"] == "PF_LOCAL" or it["DOMAIN"] in ("PF_INET", "PF_INET6") and it["TYPE"] != "SOCK_RAW"
    return is_since(it, (12, 3, 0), (13, 1, 0)) and not usual


WHEN = {  # conditions of the table's rights
    None: ALWAYS,
    "the access reads": plain_access("O_RDONLY", "O_RDWR"),
    "it writes": plain_access("O_WRONLY", "O_RDWR"),
    "O_CREAT": has("O_CREAT"),
    "O_TRUNC": has("O_TRUNC"),
    "O_SYNC or O_FSYNC": has("O_SYNC", "O_FSYNC"),
    "O_EXLOCK or O_SHLOCK": has("O_EXLOCK", "O_SHLOCK"),
    "TO exists": lambda it: it["exists"],
    "MODE is no FIFO": lambda it: not is_fifo(it),
    "MODE is S_IFIFO": is_fifo,
    "INOFF is no null": lambda it: it["INOFF"] is not None,
    "OUTOFF is no null": lambda it: it["OUTOFF"] is not None,
    "PROT has PROT_READ": has("PROT_READ", word="PROT"),
    "PROT_EXEC": has("PROT_EXEC", word="PROT"),
    "PROT_WRITE and MAP_SHARED": lambda it: has("PROT_WRITE", word="PROT")(it) and has("MAP_SHARED")(it),
    "N > 0": lambda it: it["N"] > 0,
    "M > 0": lambda it: it["M"] > 0,
    "it is no FD_NONE": lambda it: it["FD"] is not None,
    "a destination is given": lambda it: it["DEST"],
}
FORBIDDEN = {  # what the table says of capability mode
    "allowed": NEVER,
    "forbidden": ALWAYS,
    "depends: forbidden where DIR is AT_FDCWD; an absolute path and one that leaves DIR are ENOTCAPABLE":
        lambda it: any(at is None for at, _ in it["places"]),
    "depends: forbidden where DIR is AT_FDCWD": lambda it: it["DIR"] is None,
    "depends: network configuration (SIOC.., groups i and r) is refused since 12.3, 13.1":
        lambda it: is_since(it, (12, 3, 0), (13, 1, 0)) and it["COMMAND"] == "SIOCGIFADDR",
    "depends: allowed where NAME is SHM_ANON": lambda it: it["NAME"] != "SHM_ANON",
    "depends: since 12.3, 13.1 only PF_LOCAL, and SOCK_STREAM, SOCK_DGRAM, SOCK_SEQPACKET of PF_INET, PF_INET6":
        is_odd_socket,
    "depends: forbidden with PD_DAEMON": has("PD_DAEMON"),
    "depends: forbidden but for the process's own PID": lambda it: it["PID"] != it["pid"],
    "depends: forbidden but for the process itself": lambda it: it["ID"] not in (-1, it["pid"]),
}
FITS = {  # patterns that not each call of the name fits
    "S,..,NULL,0": lambda it: not it["DEST"],
    "S,..,DEST,LEN": lambda it: it["DEST"],
    "S,{msg_name is null},..": lambda it: not it["DEST"],
    "S,{msg_name},..": lambda it: it["DEST"],
    "DIR,PATH,O_WRONLY|O_RDWR without O_APPEND and O_TRUNC,..":
        lambda it: has("O_WRONLY", "O_RDWR")(it) and not has("O_APPEND", "O_TRUNC")(it),
    "DIR,PATH,O_EXEC,..": has("O_EXEC"),
    "DIR,PATH,O_SEARCH|O_DIRECTORY,..": has("O_SEARCH"),
    "DIR,PATH,O_PATH,..": has("O_PATH"),
    "DIR,a path that leaves DIR (.., a link),..": NEVER,  # the kernel asks this of each call at a directory
}


class Entry(NamedTuple):
    """A row of the table, as it stands there."""

    call: str
    pattern: str
    rights: str
    allowed: str
    versions: str
    source: str
    sureness: str

    @property
    def is_sure(self):
        return float(self.sureness) >= SURE


class Need(NamedTuple):
    """Whose rights a call needs, which (None: those that it asks for), when, and whether a refusal is silent."""

    who: str
    rights: Any
    when: Any = ALWAYS
    silent: Any = NEVER


EVENT = frozenset({"EVENT"})
INHERITS = "S:every right that is used of the new descriptor (it inherits the rights of S)"
ODD_NEEDS = {
    INHERITS: [],
    "DIR:never limited, and outside the mode": [],
    "FD:RIGHTS": [Need("FD", None)],
    "FD:open (and no longer list than before)": [Need("FD", frozenset())],
    "each FD:CAP_EVENT": [Need("FDS", EVENT)],
    "each FD:CAP_EVENT, else POLLNVAL and no error": [Need("FDS", EVENT, silent=ALWAYS)],
    "ident of each change of EVFILT_READ, EVFILT_WRITE, EVFILT_VNODE, EVFILT_PROCDESC, EVFILT_EMPTY:CAP_EVENT, "
    "else 93 where M = 0, or an event with EV_ERROR": [Need("IDENTS", EVENT, silent=lambda it: it["M"] > 0)],
}


@functools.lru_cache(None)
def entries():
    """The heads of the table, and its rows."""
    heads, *rows = [Entry(*line.split("\t")) for line in harness.text_of(TABLE).splitlines()]
    return heads, rows


def needs_of(rights):
    """What the table's rights say of a call."""
    needs = []
    for clause in rights.split("; ") if rights != "-" else []:
        if clause in ODD_NEEDS:
            needs += ODD_NEEDS[clause]
        else:
            who, names, when = re.fullmatch(r"(\w+):(CAP_[A-Z_|]+|open)(?: if (.*))?", clause).groups()
            needs.append(Need(who, reference.rights(names.replace("open", "NONE")), WHEN[when]))
    return needs


def is_of(release, versions):
    """Whether a row is of a release: 12.2-, 12.2-14, 13.0-13.2-p3"""
    found = re.match(r"([0-9.]+(?:-p[0-9]+)?)-([0-9.]+(?:-p[0-9]+)?)?(?: |$)", versions)
    if not found:
        return False
    first, last = (tuple(int(part) for part in re.findall("[0-9]+", text or "99")) for text in found.groups())
    return first <= RELEASES[release] and RELEASES[release][: len(last)] <= last


class Row(NamedTuple):
    """What a row of the table says."""

    pattern: str
    fits: Any
    needs: list
    forbidden: Any
    inherits: bool


def row_of(entry):
    commands = re.fullmatch(r"FD,(F_[A-Z0-9_|]+),\.\.", entry.pattern)
    fits = (lambda it: it["COMMAND"] in commands[1].split("|")) if commands else FITS.get(entry.pattern, ALWAYS)
    return Row(entry.pattern, fits, needs_of(entry.rights), FORBIDDEN[entry.allowed], INHERITS in entry.rights)


@functools.lru_cache(None)
def table_of(release):
    """The rows of the table for a release, by the call's name; and the names that only other releases have."""
    table, names = collections.defaultdict(list), set()
    for entry in entries()[1]:
        if entry.is_sure and "aio" not in entry.rights and not entry.allowed.startswith("depends: EPERM") and entry.versions[0] != "n":
            names.add(entry.call)
            if is_of(release, entry.versions):
                table[entry.call].append(row_of(entry))
    return dict(table), names - set(table)


# ---- The kernel


class Step(NamedTuple):
    """A call of a process, by the words of the table, and the errno with which it fails where it isn't refused."""

    pid: int
    call: str
    args: dict
    errno: Any = None


class Outcome(NamedTuple):
    """What a call answered: an errno or None, numbers, and descriptors with the errnos that it doesn't answer."""

    errno: Any
    answer: Any = 0
    silent: frozenset = frozenset()


class Thing:
    """What a descriptor stands for. A message waits in the list of the socket that receives it."""

    def __init__(self, kind, path=None):
        self.kind, self.path, self.messages, self.other = kind, path, [], self


class Descriptor(NamedTuple):
    thing: Thing
    rights: frozenset = EVERY
    closes: bool = False


class Process:
    def __init__(self, pid, table, inside=False):
        self.pid, self.table, self.inside, self.children, self.ended = pid, table, inside, set(), []

    def add(self, *held, least=0):
        """The lowest free number from `least` on, which stands for a descriptor of these from here on."""
        fd = next(number for number in range(least, 1_000_000) if number not in self.table)
        self.table[fd] = Descriptor(*held)
        return fd


WATCHED = set("EVFILT_READ EVFILT_WRITE EVFILT_VNODE EVFILT_PROCDESC EVFILT_EMPTY".split())  # filters of descriptors
DIRECTORIES = [("DIR", "PATH"), ("FROMDIR", "FROM"), ("TODIR", "TO")]
WANTED = {  # the kind of thing that a call works on, and the errno where it is another
    **dict.fromkeys(["accept", "accept4", "listen", "bind", "connect", "sctp_peeloff"], ("S", "socket", NO_SOCKET)),
    **dict.fromkeys(["bindat", "connectat", "sendfile", "sendmsg", "sendto"], ("S", "socket", NO_SOCKET)),
    **dict.fromkeys(["pdgetpid", "pdkill"], ("FD", "process", BAD_DESCRIPTOR)),
    "kevent": ("KQ", "kqueue", BAD_DESCRIPTOR),
    **dict.fromkeys(["kmq_timedsend", "kmq_timedreceive"], ("MQ", "queue", BAD_DESCRIPTOR)),
}
MAKES = {  # what is made of no descriptor, with all rights
    "socket": "socket", "kqueue": "kqueue", "kqueuex": "kqueue", "shm_open": "memory", "shm_open2": "memory",
    "mq_open": "queue", "kmq_open": "queue", "fhopen": "file", "sctp_peeloff": "socket",
}
DONE_AS = {  # calls that do what another one does
    **dict.fromkeys("fstatat faccessat fchmodat fchownat chflagsat futimesat utimensat".split(), "look"),
    **{"funlinkat": "unlinkat", "accept4": "accept", "pipe2": "pipe", "wait6": "wait4", "fexecve": "execve"},
    **{"mkfifoat": "mknodat", "unheard_of": "_umtx_op"},
}
ANSWER_ONE = "read write sendmsg recvfrom sendto poll select".split()


def leaves(path):
    """Whether a path leads out of the directory that it begins at."""
    return posixpath.normpath(path).split("/")[0] == ".."


def must(holds, errno):
    """Ends a call with an errno where this doesn't hold."""
    if not holds:
        raise OSError(errno, "")


class Kernel:
    """Processes with descriptors, and the names of files. Of each step it keeps what truss prints, the outcome, and whether capability
    mode forbids it. What a call does is in `do_` and its name, with the process and the arguments."""

    def __init__(self, release, held=None):
        """`held` has the kind and the rights of each descriptor of the first process."""
        self.release, (self.table, self.missing) = release, table_of(release)
        held = held or dict.fromkeys(range(3), ("terminal", EVERY))
        self.processes = {100: Process(100, {fd: Descriptor(Thing(kind), rights) for fd, (kind, rights) in held.items()})}
        self.files = dict.fromkeys(["/", "/home", "/dev", "/home/d", "/home/d/d"], "directory")
        self.files |= dict.fromkeys(["/a", "/home/a", "/home/b", "/home/d/a", "/home/d/b", "/home/d/d/a"], "file")
        self.last, self.lines, self.outcomes, self.forbidden = 100, [], [], []

    # -- what is refused

    def facts(self, step):
        """What the table's conditions ask about: the arguments, and the directories and paths that are looked up."""
        it = {"DEST": False, **step.args, "release": RELEASES[self.release], "pid": step.pid}
        if "CHANGES" in it:
            it["IDENTS"] = [fd for fd, name, _ in it["CHANGES"] if name in WATCHED]
        if "TO" in it:
            it["exists"] = self.path(self.processes[step.pid], it["TODIR"], it["TO"]) in self.files
        it["places"] = [(it[at], it[name]) for at, name in DIRECTORIES if at in it and name in it]
        for at, name in DIRECTORIES:
            if at in it and it.get(name, "")[:1] == "/":
                it[at] = None  # isn't looked at
        it["rows"] = [row for row in self.table.get(step.call, ()) if row.fits(it)]
        return it

    def forbids(self, it):
        """The errno with which capability mode refuses a call, or nothing."""
        if any(row.forbidden(it) for row in it["rows"]):
            return NOT_IN_MODE
        return NOT_CAPABLE if any(path[:1] == "/" or leaves(path) for _, path in it["places"]) else None

    def refusal(self, step, it, silent):
        """The errno where Capsicum refuses a call or a descriptor isn't open. `silent` takes what isn't answered."""
        process = self.processes[step.pid]
        errno = NO_CALL if step.call in self.missing else self.forbids(it) if process.inside else None
        if errno:
            return errno
        for need in (need for row in it["rows"] for need in row.needs if need.when(it)):
            fds, rights = it[need.who], it["RIGHTS"] if need.rights is None else need.rights
            for fd in fds if isinstance(fds, list) else [] if fds is None else [fds]:
                held = process.table.get(fd)
                if held and rights <= held.rights:
                    continue
                errno = NOT_CAPABLE if held else BAD_DESCRIPTOR
                if not need.silent(it):
                    return errno
                silent.add((fd, errno))
        left = [process.table[at].rights for at, path in it["places"] if leaves(path) and at in process.table]
        return None if all(reference.NEVER_LIMITED in rights for rights in left) else NOT_CAPABLE

    def fault(self, step, it):
        """The errno of what is wrong beside, or nothing."""
        table = self.processes[step.pid].table
        if step.call in WANTED:
            who, kind, errno = WANTED[step.call]
            if it[who] not in table or table[it[who]].thing.kind != kind:
                return errno if it[who] in table else BAD_DESCRIPTOR
        if any(path[:1] != "/" and at is not None and table[at].thing.kind != "directory" for at, path in it["places"]):
            return NO_DIRECTORY
        return step.errno

    # -- what is done

    def do(self, step):
        """A call: what it answers."""
        it, silent, answer = self.facts(step), set(), 0
        errno = self.refusal(step, it, silent) or self.fault(step, it)
        if not errno:
            try:
                answer = self.done(self.processes[step.pid], step.call, step.args)
            except OSError as why:
                errno = why.errno
        self.outcomes.append(Outcome(errno, answer, frozenset() if errno else frozenset(silent)))
        self.forbidden.append(self.forbids(it))
        self.lines.append(f"{step.pid:5d}: {spelled(step, self.outcomes[-1])}")
        return self.outcomes[-1]

    def done(self, process, call, args):
        """What a call that isn't refused answers."""
        if call in MAKES:
            return process.add(Thing(MAKES[call]), EVERY, "CLOEXEC" in args.get("TYPE", ""))
        method = getattr(self, "do_" + DONE_AS.get(call, call), None)
        answer = method(process, **args) if method else int(call in ANSWER_ONE)
        return 0 if answer is None else answer

    def path(self, process, at, name):
        """The path of a name at a directory."""
        held = process.table.get(at)
        return posixpath.normpath(posixpath.join("/home" if held is None else held.thing.path or "/", name))

    def do_open(self, process, PATH, FLAGS):
        found = re.fullmatch("/dev/(?:fd/([0-9]+)|std(in|out|err))", PATH)
        if not found:
            return self.do_openat(process, None, PATH, FLAGS)
        copied = int(found[1]) if found[1] else ("in", "out", "err").index(found[2])
        must(copied in process.table, BAD_DESCRIPTOR)
        return process.add(*process.table[copied][:2], "O_CLOEXEC" in FLAGS)

    def do_openat(self, process, DIR, PATH, FLAGS):
        path, flags = self.path(process, DIR, PATH), FLAGS.split("|")
        must(path in self.files or "O_CREAT" in flags, NO_ENTRY)
        kind = self.files.setdefault(path, "file")
        must(kind == "directory" or "O_DIRECTORY" not in flags, NO_DIRECTORY)
        must(kind != "directory" or not {"O_WRONLY", "O_RDWR", "O_CREAT"} & set(flags), IS_DIRECTORY)
        rights = EVERY if DIR is None or PATH[0] == "/" else process.table[DIR].rights
        return process.add(Thing(kind, path), rights, "O_CLOEXEC" in flags)

    def do_mknodat(self, process, DIR, PATH, kind="file", **_):
        path = self.path(process, DIR, PATH)
        must(path not in self.files, EXISTS)
        self.files[path] = kind

    def do_mkdirat(self, process, DIR, PATH, **_):
        self.do_mknodat(process, DIR, PATH, "directory")

    def do_linkat(self, process, FROMDIR, FROM, TODIR, TO, **_):
        must(self.files.get(self.path(process, FROMDIR, FROM)) == "file", NO_ENTRY)
        self.do_mknodat(process, TODIR, TO)

    def do_unlinkat(self, process, DIR, PATH, **_):
        must(self.files.get(self.path(process, DIR, PATH)) == "file", NO_ENTRY)
        del self.files[self.path(process, DIR, PATH)]

    def do_look(self, process, DIR, PATH, **_):
        must(self.path(process, DIR, PATH) in self.files, NO_ENTRY)

    def do_renameat(self, process, FROMDIR, FROM, TODIR, TO):
        before, after = self.path(process, FROMDIR, FROM), self.path(process, TODIR, TO)
        must(self.files.get(before) == "file" and self.files.get(after) != "directory", NO_ENTRY)
        del self.files[before]
        self.files[after] = "file"

    def do_accept(self, process, S, FLAGS="0"):
        rights = process.table[S].rights if self.table["accept"][0].inherits else EVERY
        return process.add(Thing("socket"), rights, "CLOEXEC" in FLAGS)

    def do_pipe(self, process, **_):
        return process.add(Thing("pipe")), process.add(Thing("pipe"))

    def do_socketpair(self, process, TYPE, **_):
        one, two = Thing("socket"), Thing("socket")
        one.other, two.other = two, one
        return tuple(process.add(thing, EVERY, "CLOEXEC" in TYPE) for thing in (one, two))

    def do_sendmsg(self, process, S, FDS=(), **_):
        must(set(FDS) <= set(process.table), BAD_DESCRIPTOR)
        if FDS:
            process.table[S].thing.other.messages.append([process.table[fd][:2] for fd in FDS])
        return 1

    def do_recvmsg(self, process, S, OUTSIDE=None, **_):
        """The numbers of the descriptors that came, perhaps from outside the program."""
        messages = [[(Thing("file"), *OUTSIDE)]] if OUTSIDE else process.table[S].thing.messages
        return tuple(process.add(*held) for held in messages.pop(0)) if messages else ()

    def do_dup(self, process, FD):
        return process.add(*process.table[FD][:2])

    def do_dup2(self, process, FD, NEW, closes=False):
        if FD != NEW:
            process.table[NEW] = process.table[FD]._replace(closes=closes)
        return NEW

    def do_fcntl(self, process, FD, COMMAND, THIRD=None):
        held, closes = process.table[FD], COMMAND.endswith("CLOEXEC")
        if COMMAND.startswith("F_DUPFD"):
            return process.add(*held[:2], closes, least=THIRD or 0)
        if COMMAND.startswith("F_DUP2FD"):
            return self.do_dup2(process, FD, THIRD, closes)
        if COMMAND == "F_SETFD":
            process.table[FD] = held._replace(closes=THIRD == "FD_CLOEXEC")

    def do_ioctl(self, process, FD, COMMAND, OUTSIDE=None):
        if COMMAND in ("FIOCLEX", "FIONCLEX"):
            process.table[FD] = process.table[FD]._replace(closes=COMMAND == "FIOCLEX")
        if OUTSIDE:
            process.add(Thing("file"), *OUTSIDE)

    def do_close(self, process, FD):
        del process.table[FD]

    def do_closefrom(self, process, FD):
        self.do_close_range(process, FD, 4294967295, "0")

    def do_close_range(self, process, FD, LAST, FLAGS):
        for fd in [fd for fd in process.table if FD <= fd <= LAST]:
            held = process.table.pop(fd)
            if FLAGS != "0":
                process.table[fd] = held._replace(closes=True)

    def do_cap_rights_limit(self, process, FD, RIGHTS):
        process.table[FD] = process.table[FD]._replace(rights=RIGHTS)

    def do_cap_enter(self, process):
        process.inside = True

    def do_fork(self, process, waits=True):
        """The child has no descriptor of kqueue."""
        self.last += 1
        table = {fd: each for fd, each in process.table.items() if each.thing.kind != "kqueue"}
        self.processes[self.last] = Process(self.last, table, process.inside)
        process.children |= {self.last} if waits else set()
        return self.last

    def do_pdfork(self, process, **_):
        """The child isn't one that wait4 waits for."""
        return self.do_fork(process, False), process.add(Thing("process"))

    def do_exit(self, process):
        del self.processes[process.pid]
        for other in self.processes.values():
            other.ended += {process.pid} & other.children

    def do_wait4(self, process, **_):
        must(process.children, NO_CHILD)
        if process.ended:
            process.children.remove(process.ended[0])
            return process.ended.pop(0)

    def do_execve(self, process, **_):
        process.table = {fd: each for fd, each in process.table.items() if not each.closes}

    def do_kevent(self, process, CHANGES, M, **_):
        """As many events as changes that aren't made, else one."""
        wrong = [fd for fd, name, _ in CHANGES if name in WATCHED and not (fd in process.table and EVENT <= process.table[fd].rights)]
        return len(wrong) or min(M, 1)

    def do__umtx_op(self, process, OUTSIDE, **_):
        return process.add(Thing("file"), *OUTSIDE)


# ---- How truss prints a call

REST = {  # what stands for the two dots of a pattern
    "read": '"a",1', "write": '"a",1', "readv": '[{"a",1}],1', "writev": '[{"a",1}],1',
    "rename": '"b"', "link": '"b"', "symlink": '"b"', "pread": '"a",1,0x0', "pwrite": '"a",1,0x0',
    "lseek": "0x0,SEEK_SET", "fstat": "{ mode=-rw-r--r-- ,inode=4 }", "recvfrom": '"a",1,0x0,NULL,0x0', "mmap": "",
    "getdirentries": "0x800a00000,0x1000,0x7fffffffe5a8", "sendfile": "0x0,0x10d6,0x0,0x0,0x0", "faccessat": "0",
    "accept": "{ AF_INET 10.0.0.7:4000 },0x7fffffffe8b0", "connect": "{ AF_INET 10.0.0.1:80 },16",
    "bind": "{ AF_INET 0.0.0.0:80 },16", "bindat": '{ AF_LOCAL "a" },106', "connectat": '{ AF_LOCAL "a" },106',
    "openat": "00", "open": "00", "copy_file_range": "0x1000,0x0", "wait4": "{ EXITED,val=0 },WNOHANG,0x0",
    "wait6": "101,{ EXITED,val=0 },WEXITED|WNOHANG,0x0,0x0", "shm_open": "O_RDWR,0600", "kmq_open": "O_RDWR,0600,0x0",
}
HEXADECIMAL = set("sendfile copy_file_range getdents aio_cancel funlinkat fspacectl sctp_peeloff kmq_timedsend".split())
QUOTED = {"PATH", "FROM", "TO", "TARGET"}
SPELLED = {  # arguments of calls that the table's pattern doesn't spell: the words of the table, and what is made of them
    **dict.fromkeys(["sendmsg", "recvmsg"], "{S},{message},0"),
    **dict.fromkeys(["sctp_generic_sendmsg", "sctp_generic_sendmsg_iov"], "{S:#x},0x7fffffffe8b0,0x1,{memory},0x0,0x0"),
    **dict.fromkeys(["poll", "ppoll"], "{{ {polled} }},{count},-1"),
    **dict.fromkeys(["select", "pselect"], "{most},{{ {listed} }},0x0,0x0,0x0"),
    "pipe": "{made}", "pipe2": "{made},0", "socketpair": "{DOMAIN},{TYPE},0,{made}", "pdfork": "{made},{FLAGS}",
    "kevent": "{KQ},{changes},{N},{events},{M},0x0",
    "sendto": '{S},"a",1,0x0,{to}',
    "fcntl": "{FD},{COMMAND},{THIRD}",
    "ioctl": "{FD},{COMMAND},0x0",
    "__cap_rights_get": "0,{FD},0x7fffffffe8b0",
    "accept4": "{S},0x0,0x0,{FLAGS}",
    "execve": '"/bin/b",[ "b" ],0x7fffffffe8c0',
    "fexecve": '{FD},[ "b" ],0x7fffffffe8c0',
    "close_range": "{FD},{LAST},{FLAGS}",
    "closefrom": "{FD}",
    "open": '"{PATH}",{FLAGS},00',
    "_umtx_op": "0x0,UMTX_OP_SHM,0x1,0x80064e000,0x0",
    "unheard_of": "1",
}


def spelled_word(step, word):
    """One argument, by its word in the table."""
    value = step.args.get(word, 0)
    if word == "..":
        return REST.get(step.call, "0x0")
    if value is None:
        return "0xffffff38" if word == "FD" else "AT_FDCWD" if word.endswith("DIR") else "0x0"  # FD_NONE
    if word == "RIGHTS":
        return f"{{ {','.join('CAP_' + right for right in sorted(value))} }}"
    if word in QUOTED or word == "NAME" and value != "SHM_ANON":
        return f'"{value}"'
    return hex(value) if isinstance(value, int) and step.call in HEXADECIMAL else str(value)


def made_of(step, outcome):
    """What is made of the arguments of a call and its answer, for SPELLED."""
    fds, is_hidden, has_name = (step.args.get(word, ()) for word in ("FDS", "HIDDEN", "DEST"))
    answers = outcome.answer if isinstance(outcome.answer, tuple) else ()
    sent, shown = answers if step.call == "recvmsg" else fds, answers[1:] if step.call == "pdfork" else answers
    data = f"{{level=SOL_SOCKET,type=SCM_RIGHTS,data={{{','.join(map(str, sent))}}}}}"
    control = f"{{{data}}},{16 + 4 * len(sent)}" if sent else "{},0"
    to = "{ AF_INET 10.0.0.1:53 },16" if has_name else "NULL,0"
    return {
        "message": "0x7fffffffe8a0" if is_hidden else f'{{{to},[{{"a",1}}],1,{control},0}}',
        "to": to, "memory": "0x7fffffffe8a0,0x10" if has_name else "0x0,0x0",
        "made": f"{{ {', '.join(map(str, shown))} }}" if shown and not is_hidden else "0x7fffffffe8dc",
        "polled": " ".join(f"{fd}/POLLIN" for fd in fds), "listed": " ".join(map(str, fds)),
        "count": len(fds), "most": max([0, *fds]) + 1,
    }


def changes_of(step, outcome):
    """The changes and the events of kevent. A change that isn't made, and doesn't fail the call, becomes an event."""
    changes, wrong = step.args.get("CHANGES", ()), dict(outcome.silent)
    events = [f" {fd},{name},EV_ERROR,0,{wrong[fd]},0x0" for fd, name, _ in changes if name in WATCHED and fd in wrong]
    if outcome.answer and not events and not outcome.errno:
        events = [" 0,EVFILT_READ,EV_CLEAR,0,1,0x0"]
    listed = {"changes": [f" {fd},{name},{flag},0,0,0x0" for fd, name, flag in changes], "events": events}
    return {word: f"{{{''.join(parts)} }}" if parts else "0x0" for word, parts in listed.items()}


def spelled(step, outcome):
    """What truss prints of a call."""
    if step.call == "exit":
        return "process exit, rval = 0"
    if step.args.get("HIDDEN") == "cut":
        return f"{step.call}("
    if step.call in SPELLED:
        words = {**made_of(step, outcome), **changes_of(step, outcome), "THIRD": "0x0", **step.args}
        args = SPELLED[step.call].format(**words)
    else:
        row = next((rows[step.call][0] for rows, _ in map(table_of, RELEASES) if step.call in rows))
        args = ",".join(spelled_word(step, word) for word in filter(None, row.pattern.split(",")))
    if outcome.errno:
        return f"{step.call}({args}) ERR#{outcome.errno} '{ERRORS[outcome.errno]}'"
    answer = outcome.answer
    if isinstance(answer, tuple):
        answer = answer[0] if step.call == "pdfork" else int(step.call == "recvmsg")
    return f"{step.call}({args}) = {answer} (0x{answer:x})"


# ---- Programs


class Program:
    """Steps that were done under a kernel, so that they can be done again."""

    def __init__(self, release, held=None):
        self.release, self.held, self.steps = release, held, []
        self.kernel = Kernel(release, held)

    def do(self, pid, call, errno=None, **args):
        """Does a step; its outcome."""
        self.steps.append(Step(pid, call, args, errno))
        return self.kernel.do(self.steps[-1])

    def again(self, more):
        """The same steps and what they answer, with more of them before those at some places."""
        kernel = Kernel(self.release, self.held)
        for at, step in enumerate(self.steps):
            for each in more.get(at, ()):
                yield None, each, kernel.do(each)
            yield at, step, kernel.do(step)

    def lines(self, marked=False):
        """The recording. Marked, each line has its step's number before it, by a call without an effect."""
        for at, (step, line) in enumerate(zip(self.steps, self.kernel.lines)):
            yield (f"{step.pid:5d}: utrace(0x{at:x},0x0) = 0 (0x0)\n" if marked else "") + line + "\n"

    def has(self, *calls):
        return any(step.call in calls for step in self.steps)


FLAGS_OF_OPEN = """O_RDONLY O_RDONLY|O_CLOEXEC O_RDWR O_WRONLY O_WRONLY|O_APPEND O_RDWR|O_CREAT O_RDONLY|O_DIRECTORY
O_EXEC O_WRONLY|O_CREAT|O_TRUNC O_RDWR|O_CREAT|O_EXLOCK O_WRONLY|O_SYNC O_RDWR|O_TRUNC|O_CLOEXEC""".split()
COMMANDS = """F_GETFD F_SETFD F_GETFL F_SETFL F_SETLK F_GETLK F_OSETLK F_RDAHEAD F_KINFO F_SETLK_REMOTE""".split()
CHOICES = {  # values of arguments, by the call's name and the table's word, or by the word alone
    ("mmap", "FLAGS"): ["MAP_SHARED", "MAP_PRIVATE"],
    ("accept4", "FLAGS"): ["SOCK_CLOEXEC", "0"],
    ("openat", "FLAGS"): FLAGS_OF_OPEN,
    ("open", "FLAGS"): FLAGS_OF_OPEN,
    ("open", "PATH"): ["a", "b", "d", "/dev/fd/0", "/dev/stdin", "/a"],
    ("pdfork", "FLAGS"): ["0x0", "PD_DAEMON"],
    ("ioctl", "COMMAND"): ["FIONREAD", "TIOCGWINSZ", "SIOCGIFADDR"],
    ("execve", "PATH"): ["/bin/b"],
    "FLAGS": ["0"],
    "PATH": ["a", "a", "b", "c", "d/a", "e", "/a", "../a"],
    "FROM": ["a", "b", "c"],
    "TO": ["a", "b", "c", "d/b"],
    "TARGET": ["a"],
    "NAME": ["SHM_ANON", "/a"],
    "NEW": range(12),
    "PROT": ["PROT_READ", "PROT_READ|PROT_WRITE", "PROT_READ|PROT_EXEC"],
    "COMMAND": COMMANDS,
    "DEST": [True, False, False],
    "MODE": ["010644", "0100644"],
    "INOFF": [None, 4096],
    "OUTOFF": [None, 4096],
    "DOMAIN": ["PF_INET", "PF_INET6", "PF_LOCAL", "PF_ROUTE"],
    "TYPE": ["SOCK_STREAM", "SOCK_DGRAM", "SOCK_RAW", "SOCK_STREAM|SOCK_CLOEXEC"],
    "PID": [100, 101, 102],
    "SIG": ["SIGTERM", "0"],
    "LEVEL": ["CPU_LEVEL_WHICH"],
    "WHICH": ["CPU_WHICH_PID"],
    "ID": [-1, 101],
    "FILTER": ["EVFILT_READ", "EVFILT_WRITE", "EVFILT_VNODE", "EVFILT_EMPTY", "EVFILT_TIMER", "EVFILT_SIGNAL"],
    "CHANGE": ["EV_ADD", "EV_DELETE"],
}
MAKERS = {  # a call that makes a descriptor of a kind
    "socket": ("socket", {"DOMAIN": "PF_INET", "TYPE": "SOCK_STREAM"}),
    "kqueue": ("kqueue", {}),
    "process": ("pdfork", {"FLAGS": "0x0"}),
    "queue": ("kmq_open", {"NAME": "/q"}),
}
KNOWN = ["terminal", "file", "directory", "socket", "pipe"]  # kinds of descriptors that a trace knows
KINDS = [*KNOWN, "kqueue", "process", "queue", "memory"]
HOLDERS = {"FD", "S", "MQ", "KQ", "IN", "OUT"}  # words for a descriptor
MORE = {  # arguments beside those of the pattern
    "open": ["FLAGS"], "openat": ["FLAGS"], "accept4": ["FLAGS"], "sendto": ["DEST"], "sendmsg": ["DEST"],
    "sctp_generic_sendmsg": ["DEST"], "sctp_generic_sendmsg_iov": ["DEST"], "fcntl": ["COMMAND"], "mknodat": ["MODE"],
}
DROPPED = {"fcntl", "sendto", "sendmsg"}  # the pattern has words that are no arguments
APART = set("""_umtx_op __mac_execve abort2 aio_fsync aio_read aio_write cap_enter cap_fcntls_limit cap_ioctls_limit
cap_rights_limit close close_range closefrom dup dup2 execve exit fexecve fork lio_listio pdfork pipe pipe2 reboot
recvmsg socketpair thr_create thr_exit thr_new utrace wait4 wait6""".split())

EXECS, SETS = ("execve", "fexecve"), "CLOSE_RANGE_CLOEXEC"

# Calls with the values that some of their arguments may have there (None: those that they have elsewhere)
USUAL = "read write lseek fstat openat poll kevent accept select".split()
MADE = [(call, {}) for call in "open openat openat openat socket kqueue pipe socketpair".split()]
COPIED = [
    ("dup", {}), ("dup2", {}), ("fcntl", {"COMMAND": ["F_DUP2FD", "F_DUP2FD_CLOEXEC"], "THIRD": range(12)}),
    *[("fcntl", {"COMMAND": ["F_DUPFD", "F_DUPFD_CLOEXEC"], "THIRD": [0, 5]})] * 2,
]
CHANGED = [
    ("cap_enter", {}), ("closefrom", {"FD": range(5, 10)}),
    ("close_range", {"FD": None, "LAST": [4294967295], "FLAGS": ["0"]}),
    ("close_range", {"FD": range(5), "LAST": range(5, 8), "FLAGS": [SETS]}),
    *[("cap_rights_limit", {})] * 16, *[("ioctl", {"COMMAND": ["FIOCLEX", "FIONCLEX"]})] * 5, *[("close", {})] * 15,
]
FORKED = [(call, {}) for call in "execve fexecve exit exit fork fork fork fork pdfork pdfork".split()] + [("wait4", {"PID": [-1]})] * 2
HIDDEN = [
    ("pipe2", {"HIDDEN": [True]}), ("recvmsg", {"HIDDEN": [True], "OUTSIDE": None}), ("_umtx_op", {"OUTSIDE": None}),
    ("ioctl", {"COMMAND": ["CRIOGET"], "OUTSIDE": None}), ("unheard_of", {"OUTSIDE": None}), ("recvmsg", {"OUTSIDE": None}),
    ("unheard_of", {"OUTSIDE": None, "HIDDEN": ["cut"]}),
]


@functools.lru_cache(None)
def calls_of(release):
    """The calls of the table that a random program makes: those that need a descriptor, and others."""
    table = table_of(release)[0]
    names = [name for name in sorted(table) if name not in APART]
    uses = [name for name in names if any(row.needs for row in table[name])]
    return uses, [name for name in names if name not in uses]


class Author:
    """Writes a random program step by step, by what its kernel answers."""

    def __init__(self, chance, release, held=None):
        self.chance, self.program = chance, Program(release, held)
        self.kernel, self.pair, (self.uses, self.others) = self.program.kernel, None, calls_of(release)
        self.is_calm = self.stays = self.is_told = self.has_left = False

    def do(self, pid, call, errno=None, **args):
        """Does a step, unless capability mode would refuse it and the program is calm, or a path leaves its directory and none may (that of
        getfhat may in no program, since truss doesn't show it), or a trace that has to tell enough for limits wouldn't."""
        it = self.kernel.facts(Step(pid, call, args))
        is_left = any(leaves(path) for _, path in it["places"])
        is_untold = self.is_told and (self.has_left and call in EXECS or args.get("FLAGS") == SETS and self.program.has(*EXECS))
        if self.is_calm and self.kernel.forbids(it) or is_left and (self.stays or call == "getfhat") or is_untold:
            return None
        self.has_left |= is_left
        return self.program.do(pid, call, errno, **args)

    def pick(self, pid, kind=None):
        """A descriptor, most often one that is open and of this kind."""
        table = self.kernel.processes[pid].table
        kinds = [kind] if kind else KNOWN if self.chance.random() < 0.9 else KINDS
        fds = [fd for fd, held in table.items() if held.thing.kind in kinds]
        return self.chance.choice(fds) if fds and self.chance.random() < 0.95 else self.chance.randrange(10)

    def some(self, share):
        return reference.all_of(right for right in reference.RIGHTS if self.chance.random() < share)

    def argument(self, pid, call, word):
        """A value for a word of the table."""
        if word in HOLDERS:
            wanted = WANTED.get(call, (None, None))
            return self.pick(pid, wanted[1] if wanted[0] == word else None)
        if word.endswith("DIR"):
            return None if self.chance.random() < 0.2 else self.pick(pid, "directory")
        if word in ("RIGHTS", "OUTSIDE"):
            return self.some(0.97) if word == "RIGHTS" else (self.some(0.5), self.chance.random() < 0.5)
        if word == "PATH" and call != "execve" and not self.stays and self.chance.random() < 0.2:
            return "../a"
        return self.chance.choice(CHOICES.get((call, word)) or CHOICES.get(word) or [0])

    def arguments(self, pid, call):
        """Values for all words of a call."""
        if call in ("poll", "ppoll", "select", "pselect"):
            return {"FDS": [self.pick(pid) for _ in range(self.chance.randrange(1, 4))]}
        if call == "kevent":
            changes, room = self.chance.randrange(3), self.chance.choice([0, 4])
            words = ("FILTER", "CHANGE")
            listed = [(self.pick(pid), *(self.argument(pid, call, word) for word in words)) for _ in range(changes)]
            return {"KQ": self.argument(pid, call, "KQ"), "CHANGES": listed, "N": changes, "M": room}
        pattern = self.kernel.table[call][0].pattern if call in self.kernel.table else ""
        words = re.findall("[A-Z]+", pattern.split(",")[0] if call in DROPPED else pattern)
        args = {word: self.argument(pid, call, word) for word in [*words, *MORE.get(call, [])]}
        return {**args, "THIRD": self.chance.choice(["FD_CLOEXEC", "0"])} if args.get("COMMAND") == "F_SETFD" else args

    def choose(self, pid, calls):
        """One of these calls."""
        call, given = self.chance.choice(calls)
        args = {word: self.chance.choice(values) if values else self.argument(pid, call, word) for word, values in given.items()}
        return self.do(pid, call, **{**self.arguments(pid, call), **args})

    def prepare(self, pid, call):
        """Makes a descriptor of the kind that a call works on, where the process has none."""
        kind = WANTED[call][1] if call in WANTED else None
        if kind and all(held.thing.kind != kind for held in self.kernel.processes[pid].table.values()):
            name, args = MAKERS[kind]
            self.do(pid, name, **args)

    def use(self, pid):
        """A call of the table."""
        call = self.chance.choice(self.uses if self.chance.random() < 0.9 else self.others)
        call = call if self.chance.random() < 0.6 else self.chance.choice(USUAL)
        self.prepare(pid, call)
        fails = IN_PROGRESS if call == "connect" else self.chance.choice((AGAIN, NO_ENTRY))
        self.do(pid, call, fails if self.chance.random() < 0.1 else None, **self.arguments(pid, call))

    def message(self, pid):
        """Messages with descriptors go through one pair of sockets, so that they come as they were sent."""
        table = self.kernel.processes[pid].table
        if not self.pair:
            made = self.do(pid, "socketpair", DOMAIN="PF_LOCAL", TYPE="SOCK_STREAM")
            self.pair = made and not made.errno and [table[fd].thing for fd in made.answer]
            return
        ends = [[fd for fd, held in table.items() if held.thing is end] for end in self.pair]
        if ends[1] and self.pair[1].messages:
            self.do(pid, "recvmsg", S=self.chance.choice(ends[1]))
        elif ends[0]:
            sent = sorted({self.pick(pid), self.pick(pid)})
            self.do(pid, "sendmsg", S=self.chance.choice(ends[0]), FDS=sent, DEST=False)

    def fork(self, pid):
        count = len(self.kernel.processes)
        self.choose(pid, [(call, given) for call, given in FORKED if count > 1 or call != "exit" if count < 5 or "fork" not in call])

    def step(self):
        made, copied, changed = (functools.partial(self.choose, calls=calls) for calls in (MADE, COPIED, CHANGED))
        kinds = [self.use] * 12 + [made] * 5 + [copied, changed] * 3 + [self.message, self.fork] * 2
        self.chance.choice(kinds)(self.chance.choice(sorted(self.kernel.processes)))

    def written(self, length, calm_from=None):
        """The program, of so many steps; from one of these on, with nothing that capability mode forbids."""
        self.do(100, "openat", DIR=None, PATH="d", FLAGS="O_RDONLY|O_DIRECTORY")
        for _ in range(self.chance.randrange(4)):
            self.choose(100, MADE)
        for at in range(length):
            self.is_calm = calm_from is not None and at >= calm_from
            if self.kernel.processes:
                self.step()
        return self.ended()

    def ended(self):
        """The program, in which all processes end."""
        for pid in sorted(self.kernel.processes):
            self.do(pid, "exit")
        return self.program


SWAPS = {
    "close": ["close"], "make": ["open", "openat", "socket"], "use": ["read", "write", "lseek", "fstat"],
    "fork": ["fork", "pdfork"],
}
SWAPPED = {
    ("close", "make"), ("use", "close"), ("fork", "close"), ("close", "fork"), ("make", "fork"), ("fork", "make"),
}


class Hider(Author):
    """Writes a random program that a recording doesn't show in full: threads, descriptors that come unseen, lines that are cut short."""

    def __init__(self, chance, release, held=None):
        super().__init__(chance, release, held)
        self.threads = set()

    def step(self):
        pid, what = self.chance.choice(sorted(self.kernel.processes)), self.chance.randrange(10)
        if what == 0:
            self.choose(pid, HIDDEN)
        elif what == 1 and self.chance.random() < 0.3:
            self.threads.add(pid)
            self.do(pid, "thr_new")
        else:
            super().step()
        self.threads &= set(self.kernel.processes)
        if self.program.steps[-1].call in EXECS:
            self.threads.discard(self.program.steps[-1].pid)
        if self.threads and len(self.kernel.lines) > 1:
            self.swap(*self.kernel.lines[-2:])

    def swap(self, *lines):
        """Two calls of threads in one process may be printed in the other order. That of a limit and a use isn't made up for."""
        names = [re.match(r" *\d+: (\w+)\((?!.*ERR#)", line) for line in lines]
        kinds = tuple(next((kind for kind in SWAPS if name and name[1] in SWAPS[kind]), None) for name in names)
        pids = {int(line.split(":")[0]) for line in lines}
        if kinds in SWAPPED and pids <= self.threads and len(pids) == 1 and self.chance.random() < 0.7:
            self.kernel.lines[-2:] = reversed(lines)


# ---- Written programs


def value_of(text, names):
    """The value of an argument of a written program."""
    text = re.sub(r"\$(\w+)", lambda it: str(names[it[1]]), text)
    try:
        return ast.literal_eval(text)
    except (ValueError, SyntaxError):
        return text


def written(text, release):
    """A written program. Each step must succeed, or fail with the errno that is given."""
    program, names = Program(release), {"it": 100}
    for line in text.splitlines():
        found = re.fullmatch(r"(?:(\w+): )?(?:([\w,]+) = )?(\w+)((?: \w+=\S+)*)(?: ERR#(\d+))?", line)
        who, made, call, args, errno = *found.groups()[:4], found[5] and int(found[5])
        if call in program.kernel.missing:
            continue
        args = {word: value_of(text, names) for word, _, text in (arg.partition("=") for arg in args.split())}
        outcome = program.do(names[who or "it"], call, None if errno in (NO_ENTRY, EXISTS) else errno, **args)
        if outcome.errno != errno or outcome.silent:
            raise AssertionError(f"{line}: {outcome}")
        names.update(zip((made or "").split(","), outcome.answer if isinstance(outcome.answer, tuple) else [outcome.answer]))
    return program


def written_programs():
    """The name of each written program, and its text."""
    for part in harness.text_of(WRITTEN).split("\n# ")[1:]:
        heading, _, text = part.partition("\n")
        yield heading.partition(":")[0], text.strip()


# ---- The traces of programs


@functools.lru_cache(None)
def converter():
    """contrib/truss2trace.py, to be called here."""
    sys.dont_write_bytecode = True
    sys.path.append(os.path.join(harness.ROOT, "contrib"))
    return importlib.import_module("truss2trace")


def called(options, given=""):
    """What the converter answers, called here."""
    streams = sys.argv, sys.stdin, sys.stdout, sys.stderr
    sys.argv = ["truss2trace", *options]
    sys.stdin = io.TextIOWrapper(io.BytesIO(given.encode("latin-1")))
    sys.stdout, sys.stderr = io.TextIOWrapper(io.BytesIO()), io.StringIO()
    try:
        converter().main()
    except SystemExit as ended:
        return harness.Answer(ended.code, sys.stdout.buffer.getvalue().decode("latin-1"), sys.stderr.getvalue())
    finally:
        sys.argv, sys.stdin, sys.stdout, sys.stderr = streams


def converted(lines, options, most=0):
    """The lines of the trace that the converter makes of a recording, without comments. Its status may be `most`."""
    status, out, said = called(options, "".join(lines))
    if status > most:
        raise AssertionError(f"{options}: {said}")
    return [line for line in out.splitlines() if line[:1] not in ("#", "")]


# The calls that the converter writes by other names
OTHER_NAMES = {"open": "fcntl", "openat": "fcntl", "pdfork": "fork", "close_range": "closefrom", "mknodat": "mkfifoat",
               "kmq_open": "mq_open", "exit": "@exit"}


def named(line):
    return line.split(" ", 1)[1].split("(")[0]


def parted(lines):
    """The lines of a marked trace by the step that they come from, without the marks; those before all steps by -1."""
    parts = {-1: []}
    for line in lines:
        mark = re.match(r"[0-9]+ utrace\((0x[0-9a-f]+)", line)
        if mark:
            parts[int(mark[1], 16)] = []
        else:
            parts[next(reversed(parts))].append(line)
    return parts


def places_of(program, options):
    """The lines of a program's trace, each with the step before which it is and the one before which its end is."""
    lines, places = converted(program.lines(), options), []
    parts = parted(converted(program.lines(marked=True), options))
    for at, own in parts.items():
        names = at >= 0 and {program.steps[at].call, OTHER_NAMES.get(program.steps[at].call)}
        first = next((index for index, line in enumerate(own) if at >= 0 and named(line) in names), 0)
        places += [(max(at, 0) if index <= first else at + 1, at + 1) for index in range(len(own))]
    if lines != [line for own in parts.values() for line in own]:
        raise AssertionError("a call without an effect between others changes the trace")
    return lines, places


# ---- The limits of a trace


def asked(lines, command, *words):
    """What the program answers to a command about a trace."""
    return harness.capcheck(command, harness.save("trace", "".join(line + "\n" for line in lines)), *words).out


def steps_of(script):
    """The steps that a script of limits says, each with its position in the trace."""
    for at, line in re.findall(r"^insert ([0-9]+) (.*)$", script, re.M):
        pid, call, given, _ = reference.read(line)
        yield int(at), Step(pid, call, dict(zip(("FD", "RIGHTS"), given)))


def difference(program, more, kept):
    """The first step that answers other than it did, with more steps before some; nothing where all answer as they did. What failed may
    be refused, but for the errnos that are kept where capability mode doesn't forbid the call. A limit may not be refused."""
    for at, step, after in program.again(more):
        if at is None and after.errno == NOT_CAPABLE:
            return f"{step} is refused"
        before = after if at is None else program.kernel.outcomes[at]
        is_kept = before.errno in (None, IN_PROGRESS) or before.errno in kept and not program.kernel.forbidden[at]
        if before != after and is_kept:
            return f"{step} answers {after}, and did answer {before}"
    return ""


def ask(program, options, profile, kept, only):
    """For each line of the program's trace, and for none: the first step that differs with the program's limits. Where a path leaves its
    directory, not just behind what made that: only the line @foreign there keeps it from a limit. `only` may be the place of the one step
    that is asked about."""
    lines, places = places_of(program, options)
    stays = not any(leaves(str(value)) for step in program.steps for word, value in step.args.items() if word in QUOTED)
    last = max((at for at, (place, _) in enumerate(places, 1) if place == only), default=None)
    for at in range(len(lines) + 1) if only is None else [last]:
        script = asked(lines, "limits", *([str(at)] if at else []), "--profile", profile)
        more = collections.defaultdict(list)
        for position, step in steps_of(script):
            more[places[at - 1][0] if at else places[position - 2][1]].append(step)
        if more and (stays or at and named(lines[at - 1]) != "@foreign"):
            yield at, lines, script, difference(program, more, kept)


def hiding_program(number):
    """A random program, which every second time begins with descriptors that nobody knows, and the converter's options, which may name
    another release."""
    chance, releases, held = harness.rng(f"hiding program {number}"), sorted(RELEASES), None
    release, named_release = releases[number // 2 % 4], releases[number // 8 % 4]
    if number % 2:
        held = {fd: ("file", reference.all_of(right for right in reference.RIGHTS if chance.random() < 0.7)) for fd in range(3)}
    program = Hider(chance, release, held).written(chance.randrange(100))
    return f"hiding program {number} on {release}", program, options_of(named_release, not held)


def open_program(number, release):
    """A random program that a recording shows, calm from some step on. One of four looks up paths that leave their directory."""
    chance = harness.rng(f"open program {number} on {release}")
    author, length = Author(chance, release), chance.randrange(10, 60)
    author.stays, author.is_told = number % 4 != 2, True
    return author.written(length, chance.randrange(length))


def single_program(call, number, release):
    """A program that makes a call of the table when it has a descriptor of each kind, limited so that a trace knows it, and a child that
    ended; and the place of that call, and whether it succeeds."""
    author = Author(harness.rng(f"{call} {number} {release}"), release)
    author.do(100, "openat", DIR=None, PATH="d", FLAGS="O_RDONLY|O_DIRECTORY")
    author.do(author.do(100, "fork").answer, "exit")
    for kind, (name, args) in MAKERS.items():
        author.do(100, name, **args)
        if kind not in KNOWN:
            author.do(100, "cap_rights_limit", FD=max(author.kernel.processes[100].table), RIGHTS=ALL)
    place = len(author.program.steps)
    outcome = author.do(100, call, IN_PROGRESS if call == "connect" and number else None, **author.arguments(100, call))
    return author.ended(), place, outcome and outcome.errno in (None, IN_PROGRESS)


def single_programs(release):
    """For each call of the table, programs in which it succeeds: more than one where its needs depend on arguments."""
    for call in (*itertools.chain(*calls_of(release)), "wait4", "wait6", "pdfork", "socketpair"):
        tried = ((number, *single_program(call, number, release)) for number in range(MOST_TRIED))
        found = ((number, program, place) for number, program, place, succeeds in tried if succeeds)
        for number, program, place in itertools.islice(found, VARIANTS if depends(table_of(release)[0][call]) else 1):
            yield f"{call} {number} on {release}", program, place


def depends(rows):
    """Whether what these rows say depends on the arguments of the call."""
    modes, times = {row.forbidden for row in rows}, {need.when for row in rows for need in row.needs}
    return len(rows) > 1 or not modes <= {ALWAYS, NEVER} or not times <= {ALWAYS}


def options_of(release, is_begun=True):
    return ["--kernel", str(release), *(["--start", "0,1,2"] if is_begun else [])]


# ---- The tests


class Programs:
    """Programs of a class, and what the program must say of them. `release` is the kernel's."""

    is_long = True

    def limit(self, name, program, options, kept=(), only=None):
        """Puts in the limits for each line of a program's trace, and answers how often something was refused. Profile 1 forgets
        descriptors at an exec, and keeps them at a closefrom."""
        profile = "2" if program.has(*EXECS, "closefrom", "close_range") else str(1 + len(program.steps) % 2)
        refused = 0
        for at, lines, script, found in ask(program, options, profile, kept, only):
            refused += found != ""
            if "--plain" in options:
                harness.tried["limits put in after --plain"] += 1
                harness.tried["limits refused after --plain"] += found != ""
                continue
            what = f"{name}, truss2trace {' '.join(options)}, capcheck limits {at or ''} --profile {profile}"
            trace = "".join(f"\n{number:5d} {line}" for number, line in enumerate(lines, 1)) if found else ""
            self.same(what, "", found and f"{found}\n{script}{trace}", "limits put in")
        return refused

    def find_nothing(self, programs, most=0):
        """The program finds nothing in the traces of programs, each with its name and the converter's options."""
        traces = [(name, converted(program.lines(), options, most)) for name, program, options in programs]
        lines = [line for _, trace in traces for line in trace]
        for profile in ("1", "2"):
            findings, first = [int(it.split(" ")[0]) for it in asked(lines, "check", "--profile", profile).splitlines()[:-1]], 0
            for name, trace in traces:
                found = {at - first for at in findings if first < at <= first + len(trace)}
                self.same(f"{name}, capcheck check --profile {profile}", (), tuple(trace[: max(found)]) if found else (), "findings of programs")
                first += len(trace)
        harness.tried["programs"] += len(traces)


class Hiding(Programs):
    def test_findings(self):
        self.find_nothing([hiding_program(number) for number in range(self.first, self.first + HIDING)], 1)


class Shown(Programs):
    def test_written(self):
        options, refused, programs = options_of(self.release), 0, []
        for name, text in written_programs():
            programs.append((f"{name} on {self.release}", written(text, self.release), options))
            self.limit(*programs[-1])
            self.limit(*programs[-1][:2], [*options, "--failed"], AFTER_RIGHTS)
            refused += self.limit(*programs[-1][:2], [*options[2:], "--plain"])
        self.assertTrue(refused, "with --plain nothing is refused: these runs show nothing")
        self.find_nothing(programs)

    def test_random(self):
        programs = [(f"open program {number} on {self.release}", open_program(number, self.release)) for number in range(ASKING)]
        for number, (name, program) in enumerate(programs):
            words = [*options_of(self.release, number % 4 != 1), *(["--failed"] if number % 4 == 3 else [])]
            self.limit(name, program, words, AFTER_RIGHTS if number % 4 == 3 else ())
        self.find_nothing([(*each, options_of(self.release)) for each in programs])


class Single(Programs):
    def test_calls(self):
        programs = [(name, program, options_of(self.release), place) for name, program, place in single_programs(self.release)]
        for *program, place in programs:
            self.limit(*program, only=place)
        self.find_nothing([program[:3] for program in programs])


class Hiding1(Hiding, harness.Test):
    first = 0


class Hiding2(Hiding, harness.Test):
    first = HIDING


class Hiding3(Hiding, harness.Test):
    first = 2 * HIDING


class Hiding4(Hiding, harness.Test):
    first = 3 * HIDING


class Shown12(Shown, harness.Test):
    release = 12


class Shown13(Shown, harness.Test):
    release = 13


class Shown14(Shown, harness.Test):
    release = 14


class Shown15(Shown, harness.Test):
    release = 15


class Single12(Single, harness.Test):
    release = 12


class Single13(Single, harness.Test):
    release = 13


class Single14(Single, harness.Test):
    release = 14


class Single15(Single, harness.Test):
    release = 15
