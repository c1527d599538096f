#!/usr/bin/env python3
"""The rules of capcheck once more, not made from the definitions that the proofs rest on, as plainly as Python
allows. `tests/compare.py` holds the program against it: a proof ties the program to its definitions, and this ties the
definitions to a second reading of docs/FORMAT.md, docs/RULES.md, docs/SCRIPTS.md, docs/EXPLAIN.md and docs/SANDBOXING.md.

It runs as the program does: tests/reference.py check [FILE] [--start FILE] [--profile N], edit FILE [SCRIPT] [--profile N],
explain FILE K [--start FILE] [--profile N], limits FILE [K] [--start FILE] [--profile N], or
denials [FILE] [--start FILE] [--profile N]. `tests/compare.py --laws` tries what is proved of limits on the answers given here.
"""

import argparse
import functools
import re
import sys
from typing import NamedTuple

RIGHTS = """READ WRITE SEEK MMAP MMAP_X CREATE FEXECVE FSYNC FTRUNCATE LOOKUP FCHDIR FCHFLAGS FCHMOD FCHOWN FCNTL FLOCK
FPATHCONF FSCK FSTAT FSTATFS FUTIMES LINKAT_TARGET MKDIRAT MKFIFOAT MKNODAT RENAMEAT_SOURCE SYMLINKAT UNLINKAT ACCEPT BIND
CONNECT GETPEERNAME GETSOCKNAME GETSOCKOPT LISTEN PEELOFF SETSOCKOPT SHUTDOWN BINDAT CONNECTAT LINKAT_SOURCE RENAMEAT_TARGET
MAC_GET MAC_SET SEM_GETVALUE SEM_POST SEM_WAIT EVENT KQUEUE_EVENT IOCTL TTYHOOK PDGETPID PDWAIT PDKILL EXTATTR_DELETE
EXTATTR_GET EXTATTR_LIST EXTATTR_SET ACL_CHECK ACL_DELETE ACL_GET ACL_SET KQUEUE_CHANGE""".split()

NEVER_LIMITED = "never limited"
EVERYTHING = frozenset(RIGHTS) | {NEVER_LIMITED}

STANDS_FOR = {
    **{name: {name} for name in RIGHTS},
    **{name: {name, "LOOKUP"} for name in RIGHTS if name.endswith(("AT", "AT_SOURCE", "AT_TARGET")) and name != "FSTAT"},
    "MMAP_X": {"MMAP", "SEEK", "MMAP_X"},
    "PREAD": {"READ", "SEEK"},
    "PWRITE": {"WRITE", "SEEK"},
    "RECV": {"READ"},
    "SEND": {"WRITE"},
    "MMAP_R": {"MMAP", "SEEK", "READ"},
    "MMAP_W": {"MMAP", "SEEK", "WRITE"},
    "FSTATAT": {"LOOKUP", "FSTAT"},
    "FCHMODAT": {"LOOKUP", "FCHMOD"},
    "FCHOWNAT": {"LOOKUP", "FCHOWN"},
    "CHFLAGSAT": {"LOOKUP", "FCHFLAGS"},
    "FUTIMESAT": {"LOOKUP", "FUTIMES"},
    "KQUEUE": {"KQUEUE_CHANGE", "KQUEUE_EVENT"},
    "MMAP_RW": {"MMAP", "SEEK", "READ", "WRITE"},
    "MMAP_RX": {"MMAP", "SEEK", "READ", "MMAP_X"},
    "MMAP_WX": {"MMAP", "SEEK", "WRITE", "MMAP_X"},
    "MMAP_RWX": {"MMAP", "SEEK", "READ", "WRITE", "MMAP_X"},
}


class Refused(Exception):
    """A line that can't be read, with its code."""


# ---- the fields of a line


def number(text, most, code):
    if not re.fullmatch("0|[1-9][0-9]*", text, re.ASCII) or int(text) > most:
        raise Refused(code)
    return int(text)


DESCRIPTORS = 1_048_576


def descriptor(text, code=4):
    return number(text, DESCRIPTORS - 1, code)


def directory(text):
    return text if text == "AT_FDCWD" else descriptor(text)


def shaped(text, shape):
    if not re.fullmatch(shape, text):
        raise Refused(4)
    return text


def flags(text):
    return [] if shaped(text, r"0|[A-Z][A-Z0-9_]*(\|[A-Z][A-Z0-9_]*)*") == "0" else text.split("|")


def path(text):
    escape = r"\\x(?:0[1-9a-f]|1[0-9a-f]|7f|[89a-f][0-9a-f])"
    return shaped(text, r'"(?:[ !#-\[\]-~]|\\"|\\\\|' + escape + r')*"')[1:-1]


def rights(text):
    if text == "ALL":
        return EVERYTHING
    if text == "NONE":
        return frozenset()
    held = set()
    for word in text.split("|"):
        if not word.startswith("CAP_") or word[4:] not in STANDS_FOR:
            raise Refused(5)
        held |= STANDS_FOR[word[4:]]
    return frozenset(held)


def rights_text(held):
    if NEVER_LIMITED in held:
        return "ALL"
    return "|".join("CAP_" + name for name in RIGHTS if name in held) or "NONE"


# ---- the forms of calls: their arguments

ON_DESCRIPTOR = {
    "READ": "read readv recvfrom recvmsg",
    "PREAD": "pread preadv",
    "WRITE": "write writev",
    "PWRITE": "pwrite pwritev",
    "SEEK": "lseek",
    "FSYNC": "fsync fdatasync",
    "FUTIMES": "futimes futimens",
}
OF_THEIR_NAME = """fstat fstatfs ftruncate fchmod fchown fchflags fchdir flock fpathconf ioctl accept bind connect listen
shutdown getpeername getsockname getsockopt setsockopt fexecve""".split()
NEEDS = {
    **{call: {right} for right, calls in ON_DESCRIPTOR.items() for call in calls.split()},
    **{call: {call.upper()} for call in OF_THEIR_NAME},
    **{call: set() for call in ("close", "dup", "cap_ioctls_limit", "cap_fcntls_limit")},
}
BY_PATH = """execve access chdir chflags chmod chown lchown lstat mkdir mkfifo mknod readlink rmdir stat statfs truncate
unlink""".split()
FORMS = {
    **{call: [descriptor] for call in list(NEEDS) + ["closefrom"]},
    **{call: [path] for call in BY_PATH},
    **{call: [path, path] for call in ("link", "rename", "symlink")},
    **{call: [directory, path] for call in "mkdirat mkfifoat mknodat readlinkat futimesat".split()},
    **{call: [directory, path, flags] for call in "openat unlinkat fstatat fchmodat fchownat chflagsat utimensat".split()},
    **{call: [flags] for call in ("socket", "socketpair", "pipe2")},
    **{call: [] for call in "pipe kqueue shm_open mq_open fhopen fork vfork pdfork cap_enter @exit".split()},
    "accept4": [descriptor, flags],
    "dup2": [descriptor, descriptor],
    "mmap": [descriptor, flags, flags],
    "cap_rights_limit": [descriptor, rights],
    "open": [path, flags],
    "symlinkat": [path, directory, path],
    "renameat": [directory, path, directory, path],
    "linkat": [directory, path, directory, path, flags],
    "@foreign": [descriptor],
    "@uses": [descriptor, rights],
    "@refused": [descriptor, rights],
    "@global": [],
}
SPECIAL = ("sendto", "sendmsg", "fcntl", "@start")


def destination(text):
    return shaped(text, "DEST")


def command(text):
    return shaped(text, "[A-Z][A-Z0-9_]*")


def form(name, words):
    if name in ("sendto", "sendmsg"):
        return [descriptor, destination][: max(len(words), 1)] if len(words) < 3 else [descriptor]
    if name == "fcntl":
        third = {"F_SETFD": flags, "F_DUP2FD": descriptor, "F_DUP2FD_CLOEXEC": descriptor}
        more = [third[words[1]]] if len(words) > 1 and words[1] in third else []
        return [descriptor, command] + more
    return FORMS[name]


def arguments(name, words):
    if name == "@start":
        listed = []
        for word in words:
            listed.append(descriptor(word))
            if listed != sorted(set(listed)):
                raise Refused(4)
        return [listed]
    wanted = form(name, words)
    if len(words) != len(wanted):
        raise Refused(4)
    return [read(word) for read, word in zip(wanted, words)]


# ---- the answer

ZERO = "close closefrom execve fexecve cap_enter cap_rights_limit cap_ioctls_limit cap_fcntls_limit".split()
MAKES_ONE = "open openat accept accept4 dup socket kqueue shm_open mq_open fhopen".split()
MAKES_TWO = "pipe pipe2 socketpair".split()
COPIES_TO = ("F_DUP2FD", "F_DUP2FD_CLOEXEC")
COPIES = ("F_DUPFD", "F_DUPFD_CLOEXEC")
MOST = 2**64 - 1


# A marker of needs speaks of a call, and is judged as if that had this answer.
JUDGED_AS = {"@uses": [], "@global": [], "@refused": 93}


def answer(name, given, text):
    """A list of the numbers that were answered, or an errno as a number alone."""
    if text.startswith("-1 errno "):
        errno = number(text[9:], 65_535, 6)
        if errno == 0:
            raise Refused(6)
        return errno
    if name in MAKES_TWO or name == "pdfork":
        limits = (1_048_575, 1_048_575) if name in MAKES_TWO else (99_999, 1_048_575)
    elif name not in FORMS and name not in SPECIAL and "," in text:
        limits = (MOST, MOST)
    elif name in ZERO:
        limits = (0,)
    elif name in MAKES_ONE or name == "dup2" or (name == "fcntl" and given[1] in COPIES + COPIES_TO):
        limits = (1_048_575,)
    elif name in ("fork", "vfork"):
        limits = (99_999,)
    else:
        limits = (MOST,)
    words = text.split(",")
    if len(words) != len(limits):
        raise Refused(6)
    made = [number(word, limit, 6) for word, limit in zip(words, limits)]
    wanted = given[1] if name == "dup2" else given[2] if name == "fcntl" and given[1] in COPIES_TO else made[0]
    if made[0] != wanted:
        raise Refused(4)
    return made


# ---- the line


def outside_quotes(text):
    """Each byte outside quotes, with its place."""
    quoted = skipped = False
    for place, byte in enumerate(text):
        if skipped:
            skipped = False
        elif quoted:
            skipped = byte == "\\"
            quoted = byte != '"'
        else:
            yield place, byte
            quoted = byte == '"'


def pieces(text):
    commas = [place for place, byte in outside_quotes(text) if byte == ","]
    ends = zip([-1] + commas, commas + [len(text)])
    return [text[begin + 1 : end] for begin, end in ends] if text else []


@functools.lru_cache(100_000)
def read(line):
    """The pid, the name, the arguments and the answer, which a marker lacks that isn't one of needs."""
    if len(line) > 1024:
        raise Refused(1)
    pid, space, rest = line.partition(" ")
    pid = number(pid, 99_999, 3)
    if pid == 0:
        raise Refused(3)
    name, bracket, rest = rest.partition("(")
    if not space or not bracket:
        raise Refused(2)
    known = name in FORMS or name in SPECIAL
    if not known and not re.fullmatch("[a-z_][a-z0-9_]*", name):
        raise Refused(2)
    if known:
        ends = [place for place, byte in outside_quotes(rest) if byte == ")"][:1]
    else:
        ends = [rest.index(")")] if ")" in rest else []
    if not ends or (not known and "(" in rest[: ends[0]]):
        raise Refused(2)
    between, after = rest[: ends[0]], rest[ends[0] + 1 :]
    given = arguments(name, pieces(between)) if known else [between]
    if name.startswith("@"):
        if after:
            raise Refused(2)
        return pid, name, given, JUDGED_AS.get(name)
    if not after.startswith(" RET "):
        raise Refused(2)
    return pid, name, given, answer(name, given, after[5:])


def written(line):
    """A line written out again: rights are named in the order of the table, and all else has one spelling."""
    _, name, given, _ = read(line)
    if rights not in FORMS.get(name, []):
        return line
    before, after = line.split(",")[0], line.split(")")[1]
    return f"{before},{rights_text(given[1])}){after}"


# ---- the rule of a call: whether capability mode forbids or allows it, and its checks, each a descriptor, what the call
# needs of it, and what makes a refusal wrongful (None: nothing does)

ALWAYS_ALLOWED = """read readv pread preadv write writev pwrite pwritev lseek fstat fsync ftruncate close dup dup2
cap_rights_limit fork cap_enter""".split()
AT_CALLS = """mkdirat mkfifoat mknodat readlinkat futimesat openat unlinkat fstatat fchmodat fchownat chflagsat utimensat
symlinkat renameat linkat""".split()
PLAIN_OF_OPENAT = """O_RDONLY O_WRONLY O_RDWR O_EXEC O_SEARCH O_PATH O_APPEND O_CREAT O_TRUNC O_EXCL O_SYNC O_FSYNC O_DSYNC
O_EXLOCK O_SHLOCK O_CLOEXEC O_DIRECTORY O_NOFOLLOW O_NONBLOCK O_NOCTTY""".split()
PLAIN = ["AT_REMOVEDIR", "AT_SYMLINK_FOLLOW", "AT_SYMLINK_NOFOLLOW"]


def all_of(names):
    return frozenset().union(*(STANDS_FOR[name] for name in names))


def needs_of_openat(chosen):
    names = ["LOOKUP"]
    if "O_PATH" in chosen or "O_SEARCH" in chosen:
        return names
    if "O_EXEC" in chosen:
        names += ["FEXECVE"]
    elif "O_RDWR" in chosen:
        names += ["READ", "WRITE"]
    else:
        names += ["WRITE" if "O_WRONLY" in chosen else "READ"]
    for words, right in (("O_CREAT", "CREATE"), ("O_TRUNC", "FTRUNCATE"), ("O_SYNC O_FSYNC", "FSYNC"), ("O_EXLOCK O_SHLOCK", "FLOCK")):
        if any(word in chosen for word in words.split()):
            names += [right]
    return names


def parts(name, given):
    """The directory, the path and the needs of each part of a call at a directory, and its flags."""
    if name == "symlinkat":
        return [(given[1], given[2], ["SYMLINKAT"])], []
    if name in ("renameat", "linkat"):
        names = ("RENAMEAT_SOURCE", "RENAMEAT_TARGET") if name == "renameat" else ("LINKAT_SOURCE", "LINKAT_TARGET")
        return [(given[0], given[1], [names[0]]), (given[2], given[3], [names[1]])], given[4] if name == "linkat" else []
    chosen = given[2] if len(given) > 2 else []
    own = {"openat": needs_of_openat(chosen), "readlinkat": ["LOOKUP"], "utimensat": ["FUTIMESAT"]}
    return [(given[0], given[1], own.get(name, [name.upper()]))], chosen


def rule_at_directory(name, given):
    them, chosen = parts(name, given)
    plain = PLAIN_OF_OPENAT if name == "openat" else PLAIN
    unsure = any(text == "" for _, text, _ in them) or any(word not in plain for word in chosen)
    is_global = any(text and (place == "AT_FDCWD" or text[0] == "/") for place, text, _ in them)
    checks = [
        (place, all_of(names), None if unsure else EVERYTHING)
        for place, text, names in them
        if place != "AT_FDCWD" and text and text[0] != "/"
    ]
    return "forbidden" if is_global else "either", checks


def needs_of_fcntl(command):
    """What fcntl needs with a command; nothing is known of other commands."""
    if command in COPIES + COPIES_TO + ("F_GETFD", "F_SETFD"):
        return frozenset()
    if command in ("F_GETFL", "F_SETFL", "F_GETOWN", "F_SETOWN"):
        return all_of(["FCNTL"])
    return all_of(["FLOCK"]) if command in ("F_GETLK", "F_SETLK", "F_SETLKW") else None


def needs_of_mmap(protection, flags):
    asked = ["MMAP"] + [right for word, right in (("PROT_READ", "MMAP_R"), ("PROT_EXEC", "MMAP_X")) if word in protection]
    return all_of(asked + ["MMAP_W"] * ("PROT_WRITE" in protection and "MAP_SHARED" in flags))


def needs_of(name, given):
    """What a call needs of its first descriptor, or nothing where that isn't checked."""
    if name in NEEDS:
        return all_of(NEEDS[name])
    if name in ("sendto", "sendmsg"):
        return all_of(["WRITE", "CONNECT"][: len(given)])
    if name == "mmap":
        return needs_of_mmap(*given[1:])
    return needs_of_fcntl(given[1]) if name == "fcntl" else {"accept4": all_of(["ACCEPT"]), "dup2": frozenset()}.get(name)


def rule(name, given):
    if name in AT_CALLS:
        return rule_at_directory(name, given)
    if name in ("open", "link", "rename", "symlink", "@global") or name in BY_PATH:
        return "forbidden", []
    if name in ("@uses", "@refused"):
        return "either", [(given[0], given[1] - {NEVER_LIMITED}, None)]
    if name == "cap_rights_limit":
        return "allowed", [(given[0], given[1] - {NEVER_LIMITED}, given[1])]
    needs = needs_of(name, given)
    excuse = None if name in ("ioctl", "cap_ioctls_limit", "cap_fcntls_limit", "fcntl") else needs
    excuse = {"fexecve": all_of(["FEXECVE", "READ"]), "mmap": all_of(["MMAP_RWX"])}.get(name, excuse)
    return "allowed" if name in ALWAYS_ALLOWED else "either", [] if needs is None else [(given[0], needs, excuse)]


# ---- what is known of a process

UNKNOWN, CLOSED = "unknown", "closed"
SET, CLEAR, UNSURE = "set", "clear", "unsure"


class Held(NamedTuple):
    """The cell of a descriptor that is open: its rights, and its close-on-exec flag. The marks are for limits: a cell that comes from
    a marked one, through held cells alone, has its marks."""

    rights: frozenset
    flag: str = UNSURE
    marks: frozenset = frozenset()


class Process:
    """The cells of some descriptors, the cell of all others, and the mode. From `end` on the others are closed."""

    def __init__(self, cells=(), others=UNKNOWN, mode="unsure", end=DESCRIPTORS):
        self.cells, self.others, self.mode, self.end = dict(cells), others, mode, end

    def copy(self):
        return Process(self.cells, self.others, self.mode, self.end)

    def cell(self, place):
        return self.cells.get(place, CLOSED if place >= self.end else self.others)

    def close_from(self, place):
        self.cells = {other: cell for other, cell in self.cells.items() if other < place}
        self.end = min(self.end, place)

    def exec(self):
        self.cells = {place: after_exec(cell) for place, cell in self.cells.items()}
        self.others = after_exec(self.others)


def after_exec(cell):
    """The cell after an exec in profile 2."""
    if isinstance(cell, Held):
        return {SET: CLOSED, CLEAR: cell, UNSURE: UNKNOWN}[cell.flag]
    return cell


# ---- what a call makes of a cell


CLOSE_ON_EXEC = {"socket": "SOCK_CLOEXEC", "socketpair": "SOCK_CLOEXEC", "open": "O_CLOEXEC", "openat": "O_CLOEXEC", "pipe2": "O_CLOEXEC"}


def flag_of_new(name, given):
    """The flag of a descriptor that isn't a copy of another one."""
    return SET if name in CLOSE_ON_EXEC and CLOSE_ON_EXEC[name] in given[-1] else CLEAR


def flag_of_copy(name, given, old):
    """The flag of a copy of a descriptor that has the flag `old`."""
    how = given[1] if name == "fcntl" else name
    if how in ("dup2",) + COPIES_TO and given[-1] == given[0]:
        return UNSURE if how == "F_DUP2FD_CLOEXEC" else old
    return SET if how.endswith("_CLOEXEC") else CLEAR


def limited(cell, asked):
    """A cell after a limit."""
    if isinstance(cell, Held):
        return cell._replace(rights=cell.rights & asked)
    return Held(asked - {NEVER_LIMITED}, UNSURE)


def narrowed(cell):
    """A cell after a limit that isn't one of rights."""
    return cell._replace(rights=cell.rights - {NEVER_LIMITED}) if isinstance(cell, Held) else UNKNOWN


def with_flags(cell, words):
    """A cell after F_SETFD."""
    if set(words) - {"FD_CLOEXEC"}:
        cell = narrowed(cell)
    return cell._replace(flag=SET if "FD_CLOEXEC" in words else CLEAR) if isinstance(cell, Held) else cell


# ---- the processes


class Processes:
    """What is known of each process, in a profile and from a start."""

    def __init__(self, profile=1, start=None):
        self.profile = profile
        self.known = {pid: process.copy() for pid, process in (start or {}).items()}

    def of(self, pid):
        return self.known.setdefault(pid, Process())

    def cell(self, pid, place):
        return self.of(pid).cell(place)

    def put(self, pid, place, cell):
        self.of(pid).cells[place] = cell

    def said(self, pid, name, given, answer):
        """The findings of a line, each as its words."""
        if answer is None:
            return []
        kind, checks = rule(name, given)
        mode = self.of(pid).mode
        cells = [self.cell(pid, place) for place, _, _ in checks]
        if answer == 94:
            return ["moderefusal"] if mode == "outside" or kind == "allowed" else []
        if answer == 93:
            held = [
                excuse is not None and isinstance(cell, Held) and excuse <= cell.rights
                for (_, _, excuse), cell in zip(checks, cells)
            ]
            return ["refusal"] if held and all(held) and (name not in AT_CALLS or mode == "outside") else []
        if isinstance(answer, int):
            return []
        out = ["forbidden"] if kind == "forbidden" and mode == "inside" else []
        for (place, needs, _), cell in zip(checks, cells):
            if cell == CLOSED:
                out.append(f"closed {place}")
            elif cell != UNKNOWN and needs - cell.rights:
                word = "expanded" if name == "cap_rights_limit" else "missing"
                out.append(f"{word} {place} {rights_text(needs - cell.rights)}")
        return out

    def denied(self, pid, name, given, answer):
        """What was lacking for a line that was refused with errno 93 or 94, each as its words."""
        if answer not in (93, 94):
            return []
        kind, checks = rule(name, given)
        if answer == 94:
            return ["inside" if kind != "allowed" and self.of(pid).mode == "inside" else "unexplained"]
        lacked = [(place, needs - cell.rights) for place, needs, _ in checks if isinstance(cell := self.cell(pid, place), Held)]
        return [f"lacks {place} {rights_text(rights)}" for place, rights in lacked if rights] or ["unexplained"]

    def follow(self, pid, name, given, answer):
        """What is known after a line."""
        if name == "@start":
            self.known[pid] = Process({place: Held(EVERYTHING) for place in given[0]}, CLOSED, "outside")
        elif name == "@exit":
            self.known[pid] = Process()
        elif name == "@foreign":
            self.put(pid, given[0], UNKNOWN)
        elif name == "close":
            if answer != 9:
                self.put(pid, given[0], UNKNOWN if isinstance(answer, int) else CLOSED)
        elif not isinstance(answer, int) and name not in JUDGED_AS:
            self.succeeded(pid, name, given, answer)

    def succeeded(self, pid, name, given, answer):
        if name in ("fork", "vfork", "pdfork"):
            self.forked(pid, name, answer)
        elif name in ("execve", "fexecve"):
            self.replaced(pid)
        elif name == "closefrom":
            if self.profile == 2:
                self.of(pid).close_from(given[0])
        elif name == "cap_enter":
            self.of(pid).mode = "inside"
        elif name == "cap_rights_limit":
            self.put(pid, given[0], limited(self.cell(pid, given[0]), given[1]))
        elif name in ("cap_ioctls_limit", "cap_fcntls_limit"):
            self.put(pid, given[0], narrowed(self.cell(pid, given[0])))
        elif name == "fcntl" and given[1] == "F_SETFD":
            self.put(pid, given[0], with_flags(self.cell(pid, given[0]), given[2]))
        else:
            self.made(pid, name, given, answer)

    def made(self, pid, name, given, answer):
        """The descriptors that a call made."""
        if name in ("dup", "dup2") or (name == "fcntl" and given[1] in COPIES + COPIES_TO):
            cell = self.cell(pid, given[0])
            self.put(pid, answer[0], cell._replace(flag=flag_of_copy(name, given, cell.flag)) if isinstance(cell, Held) else UNKNOWN)
        elif name == "openat" and given[0] != "AT_FDCWD" and given[1] and given[1][0] != "/":
            cell = self.cell(pid, given[0])
            self.put(pid, answer[0], cell._replace(flag=flag_of_new(name, given)) if isinstance(cell, Held) else UNKNOWN)
        elif name in ("open", "socket") or name in MAKES_TWO or (name == "openat" and given[0] == "AT_FDCWD" and given[1]):
            for place in answer:
                self.put(pid, place, Held(EVERYTHING, flag_of_new(name, given)))
        elif name in MAKES_ONE:
            self.put(pid, answer[0], UNKNOWN)

    def forked(self, pid, name, answer):
        child = answer[0]
        if child not in (0, pid):
            self.known[child] = self.of(pid).copy()
        if name == "pdfork" and child != 0:
            self.put(pid, answer[1], UNKNOWN)
            self.put(child, answer[1], UNKNOWN)

    def replaced(self, pid):
        """After an exec."""
        if self.profile == 2:
            self.of(pid).exec()
        else:
            self.known[pid] = Process(mode=self.of(pid).mode)


def findings_of(lines, profile=1, start=None):
    """The findings of lines that were read, each with its position."""
    processes, found = Processes(profile, start), []
    for at, (pid, name, given, answer) in enumerate(lines, 1):
        found += [(at, f"{at} {pid} {name} {words}\n") for words in processes.said(pid, name, given, answer)]
        processes.follow(pid, name, given, answer)
    return found


def findings(trace, profile=1, start=None):
    """The findings of a trace, each with its position."""
    return findings_of(map(read, trace), profile, start)


def report(found):
    return "".join(words for _, words in found) + f"findings {len(found)}\n"


def found_in(report):
    """The findings of a report, each with its position."""
    return [(int(line.split(" ")[0]), f"{line}\n") for line in report.splitlines()[:-1]]


# ---- texts of lines

FULL = 1_000_000


def lines_of(text):
    lines = text.split("\n")
    return lines[:-1] if lines[-1] == "" else lines


def is_skipped(line):
    return line == "" or line[0] == "#"


def positions(lines):
    """The position of each line of a file, or 0 where it is skipped."""
    counted = [not is_skipped(line) for line in lines]
    return [sum(counted[:at]) * counted[at - 1] for at in range(1, len(lines) + 1)]


def load(text):
    """The lines of a trace that aren't skipped, up to the first that is refused, and that refusal."""
    trace = []
    for place, line in enumerate(lines_of(text), 1):
        if len(line) <= 1024 and is_skipped(line):
            continue
        try:
            if len(line) <= 1024 and len(trace) == FULL:
                raise Refused(8)
            read(line)
        except Refused as fault:
            return trace, f"refused E{fault.args[0]} line {place}\n"
        trace.append(line)
    return trace, None


# ---- starts

MODES = {"in": "inside", "out": "outside", "unsure": "unsure"}


def start_cell(word):
    return word if word in (UNKNOWN, CLOSED) else Held(rights(word))


def start_line(line, above):
    """A process of a start, with its pid, which has to be above another one."""
    if len(line) > 1024:
        raise Refused(1)
    words = line.split(" ")
    pid = number(words[0], 99_999, 3)
    if pid <= above:
        raise Refused(3)
    if len(words) < 2 or words[1] not in MODES or len(words) < 3:
        raise Refused(4)
    others, cells, last = start_cell(words[2]), {}, -1
    for word in words[3:]:
        place, equals, cell = word.partition("=")
        if not equals or descriptor(place) <= last:
            raise Refused(4)
        last = int(place)
        cells[last] = start_cell(cell)
    return pid, Process(cells, others, MODES[words[1]])


def load_start(text):
    """The processes of a start up to the first line that is refused, and that refusal."""
    start, above = {}, 0
    for at, line in enumerate(lines_of(text), 1):
        if len(line) <= 1024 and is_skipped(line):
            continue
        try:
            above, process = start_line(line, above)
        except Refused as fault:
            return start, f"refused E{fault.args[0]} start line {at}\n"
        start[above] = process
    return start, None


def opened(text, start):
    """The lines of a trace, the processes of a start, and what the program writes where one of them is refused."""
    known, refusal = load_start(start)
    trace, refusal = (None, refusal) if refusal else load(text)
    return trace, known, refusal


def check(text, profile=1, start=""):
    """What the program writes for a trace, and its exit status. The start is a text."""
    trace, known, refusal = opened(text, start)
    if refusal:
        return refusal, 2
    found = findings(trace, profile, known)
    return report(found), 1 if found else 0


# ---- scripts

NUMBER = "(0|[1-9][0-9]{0,18})"
RUNS = 4096  # of lines that are kept


class Origins:
    """What is kept of the last report: its findings, and for each line of today its position then, or None where it is new."""

    def __init__(self):
        self.found, self.origins = [], None

    def keep(self, found, count):
        self.found, self.origins = found, list(range(1, count + 1))

    def edit(self, at, taken, put):
        if self.origins is None:
            return
        self.origins[at - 1 : at - 1 + taken] = [None] * put
        pairs = zip([None] + self.origins, self.origins)
        if sum(was is not None and (before is None or was != before + 1) for before, was in pairs) > RUNS:
            self.origins = None

    def new(self):
        """The positions of lines that are new."""
        return {at for at, was in enumerate(self.origins, 1) if was is None}

    def went_and_came(self, found):
        """The findings of then that aren't found now, and those of now that weren't found then."""
        then, now = by_line(self.found), by_line(found)
        same = [(was, at) for at, was in enumerate(self.origins, 1) if was is not None and then.get(was) == now.get(at)]
        stay, stayed = {at for _, at in same}, {was for was, _ in same}
        return [text for at, text in self.found if at not in stayed], [text for at, text in found if at not in stay]

    def changes(self, found):
        """The reply to `changes`, for what is found now."""
        went, came = self.went_and_came(found) if self.origins is not None else ([], [text for _, text in found])
        head = ["all\n"] if self.origins is None else [f"- {text}" for text in went]
        return "".join(head + [f"+ {text}" for text in came]) + f"findings {len(found)}\n"


def by_line(found):
    """What is found in each line, by its position."""
    lines = {}
    for at, text in found:
        lines.setdefault(at, []).append(text.split(" ", 1)[1])
    return lines


def said(trace, line, profile, start):
    """The reply to a line of a script that asks what `explain`, `denials` or `limits` print, or None. Its last line counts: the lines
    of chains, the denials, or the lines that are put in."""
    text, words = "".join(f"{it}\n" for it in trace), re.fullmatch(f"(explain|limits) {NUMBER}|(denials|limits)", line)
    if not words:
        return None
    asked = [int(words[2])] if words[2] else []
    out, _ = {"explain": explained, "denials": denials, "limits": limits}[words[1] or words[3]](text, *asked, profile=profile, start=start)
    if out == "refused E7\n":
        raise Refused(7)
    counted = {"explain": ("explained", r"^(?:\d+|mode) .*\n"), "limits": ("limits", "^insert ")}.get(words[1] or words[3])
    if counted:
        out += f"{counted[0]} {len(re.findall(counted[1], out, re.M)) - (counted[0] == 'explained')}\n"
    return out


def reply(trace, line, profile, start, last):
    """The reply to a line of a script, from a start, which is a text. The trace is a list, which edits change, and so do they what is
    kept of the last report."""
    if len(line) > 1056:
        raise Refused(1)
    if line == "count":
        return f"{len(trace)}\n"
    if (told := said(trace, line, profile, start)) is not None:
        return told
    known = load_start(start)[0]
    if line in ("report", "changes"):
        found = findings(trace, profile, known)
        told = report(found) if line == "report" else last.changes(found)
        last.keep(found, len(trace))
        return told
    if words := re.fullmatch(f"report {NUMBER} {NUMBER}", line):
        first, last = int(words[1]), int(words[2])
        if not 1 <= first <= last <= len(trace):
            raise Refused(7)
        return report([(at, text) for at, text in findings(trace, profile, known) if first <= at <= last])
    words = re.fullmatch(f"(show|delete) {NUMBER}", line) or re.fullmatch(f"(insert|replace) {NUMBER} (.*)", line)
    if not words:
        raise Refused(10)
    asked, at, *put = words[1], int(words[2]), *words.groups()[2:]
    if not 1 <= at <= len(trace) + (asked == "insert"):
        raise Refused(7)
    if asked == "show":
        return written(trace[at - 1]) + "\n"
    if asked == "insert" and len(trace) == FULL:
        raise Refused(8)
    for line in put:
        read(line)
    taken = asked != "insert"
    trace[at - 1 : at - 1 + taken] = put
    last.edit(at, taken, len(put))
    return f"ok {len(trace)}\n"


def replies(text, script, profile=1, start=""):
    """What the program writes for a trace and a script, and its exit status."""
    trace, known, refusal = opened(text, start)
    if refusal:
        return refusal, 2
    out, last = [], Origins()
    for line in lines_of(script):
        if len(line) <= 1056 and is_skipped(line):
            continue
        try:
            out.append(reply(trace, line, profile, start, last))
        except Refused as fault:
            out.append(f"refused E{fault.args[0]}\n")
    return "".join(out), 1 if findings(trace, profile, known) else 0


def edited(trace, script, found):
    """The lines of a trace after a script of edits, and what is kept of those that it had, where these were its findings."""
    trace, kept = list(trace), Origins()
    kept.keep(found, len(trace))
    for line in lines_of(script):
        if not is_skipped(line):
            reply(trace, line, 1, "", kept)
    return trace, kept


# ---- explanations

GIVEN = "given"


def is_fork(line):
    pid, name, _, answer = line
    return name in ("fork", "vfork", "pdfork") and not isinstance(answer, int) and answer[0] != 0


def source(profile, line, owner, place):
    """Where a line has the cell of a descriptor of a process from: it gave it, or took it from this descriptor of this process,
    perhaps the same; None where it left it alone."""
    pid, name, given, answer = line
    if is_fork(line):
        if name == "pdfork" and place == answer[1] and owner in (pid, answer[0]):
            return GIVEN
        return (pid, place) if owner == answer[0] != pid else None
    if owner != pid:
        return None
    if name in ("@start", "@exit"):
        return GIVEN
    if name in ("@foreign", "close"):
        return GIVEN if place == given[0] and not (name == "close" and answer == 9) else None
    if isinstance(answer, int) or name in JUDGED_AS:
        return None
    if name in ("execve", "fexecve"):
        return (pid, place) if profile == 2 else GIVEN
    if name == "closefrom":
        return GIVEN if profile == 2 and place >= given[0] else None
    if name in ("cap_rights_limit", "cap_ioctls_limit", "cap_fcntls_limit") or (name == "fcntl" and given[1] == "F_SETFD"):
        return (pid, place) if place == given[0] else None
    if name in ("dup", "dup2") or (name == "fcntl" and given[1] in COPIES + COPIES_TO):
        return (pid, given[0]) if place == answer[0] else None
    if name == "openat" and given[0] != "AT_FDCWD" and given[1] and given[1][0] != "/":
        return (pid, given[0]) if place == answer[0] else None
    makes = name in ("open", "openat", "socket") or name in MAKES_ONE + MAKES_TWO
    return GIVEN if makes and place in answer else None


def cell_by(profile, line, where, cell, owner, place):
    """The cell of a descriptor of a process after a line that took this cell from there, or gave it."""
    processes = Processes(profile)
    if where != GIVEN:
        processes.put(*where, cell)
    processes.follow(*line)
    return processes.cell(owner, place)


def chain_of_cell(profile, start, lines, owner, place):
    """The positions of the lines that a cell after these lines comes from, newest first, and the cell at the start where it comes
    from there. A line that took a cell from itself and left it as it was isn't one of them."""
    passed, where = [], None
    for at in range(len(lines), 0, -1):
        where = source(profile, lines[at - 1], owner, place)
        if where is not None:
            passed.append((at, where, owner, place))
        if where == GIVEN:
            break
        owner, place = where or (owner, place)
    known = None if where == GIVEN else start.get(owner, Process()).cell(place)
    named, cell = [], known
    for at, where, owner, place in reversed(passed):
        after = cell_by(profile, lines[at - 1], where, cell, owner, place)
        if where != (owner, place) or after != cell:
            named.insert(0, at)
        cell = after
    return named, known


def chain_of_mode(start, lines, owner):
    """As `chain_of_cell`, for the mode of a process."""
    named = []
    for at in range(len(lines), 0, -1):
        pid, name, _, answer = lines[at - 1]
        if pid == owner and (name in ("@start", "@exit") or (name == "cap_enter" and not isinstance(answer, int))):
            return named + [at], None
        if is_fork(lines[at - 1]) and owner == answer[0] != pid:
            named, owner = named + [at], pid
    return named, start.get(owner, Process()).mode


def mode_can_matter(kind, checks, name, answer):
    """Whether the mode can make a difference to what is found in a line."""
    if answer == 94:
        return kind != "allowed"
    if answer == 93:
        return name in AT_CALLS and checks != [] and all(excuse is not None for _, _, excuse in checks)
    return not isinstance(answer, int) and kind == "forbidden"


def chain_text(trace, word, named, known):
    """A chain, where what was known at the start has its word."""
    lines = [f"{word} {at} {written(trace[at - 1])}\n" for at in named]
    return "".join(lines) + ("" if known is None else f"{word} start {known}\n")


def explained(text, asked, profile=1, start=""):
    """What the program writes for a line of a trace that is to be explained, and its exit status."""
    trace, known, refusal = opened(text, start)
    if refusal or not 1 <= asked <= len(trace):
        return refusal or "refused E7\n", 2
    *before, (pid, name, given, answer) = [read(line) for line in trace[:asked]]
    processes = Processes(profile, known)
    for line in before:
        processes.follow(*line)
    said = processes.said(pid, name, given, answer)
    denied = processes.denied(pid, name, given, answer)
    out = f"{asked} {written(trace[asked - 1])}\n" + "".join(f"{words}\n" for words in said + denied)
    kind, checks = ("either", []) if answer is None else rule(name, given)
    for place, _, _ in checks:
        named, cell = chain_of_cell(profile, known, before, pid, place)
        out += chain_text(trace, place, named, rights_text(cell.rights) if isinstance(cell, Held) else cell)
    if answer is not None and mode_can_matter(kind, checks, name, answer):
        named, mode = chain_of_mode(known, before, pid)
        words = {long: short for short, long in MODES.items()}
        out += chain_text(trace, "mode", named, words.get(mode))
    return out, 1 if said else 0


# ---- denials


def denials(text, profile=1, start=""):
    """What the program writes of the calls that were refused in a trace, and its exit status."""
    trace, known, refusal = opened(text, start)
    if refusal:
        return refusal, 2
    processes, out = Processes(profile, known), []
    for at, (pid, name, given, answer) in enumerate(map(read, trace), 1):
        out += [f"{at} {pid} {name} {words}\n" for words in processes.denied(pid, name, given, answer)]
        processes.follow(pid, name, given, answer)
    return "".join(out) + f"denials {len(out)}\n", 1 if out else 0


# ---- limits

# A right is needed of a descriptor where a later call asks for it of a cell that comes from the descriptor's. So that cell is marked,
# lines hand the marks on with the cells, and what a call needs of a cell is needed of each of its marks.

MARKED = "marked"  # the mode of the process that is asked about, and of those that have their mode from it; and an unknown descriptor


def is_success(line):
    return line[3] is not None and not isinstance(line[3], int)


def add_needs(processes, line, needs):
    """Adds to the needs, which are rights by mark, what a line asks for of the cells that it checks and what these hold of it."""
    pid, name, given, _ = line
    for place, asked, _ in rule(name, given)[1] if is_success(line) else []:
        cell = processes.cell(pid, place)
        for mark in cell.marks if isinstance(cell, Held) else ():
            needs[mark] = needs.get(mark, frozenset()) | (asked & cell.rights)


def limit(at, pid, place, needed):
    return f"insert {at} {pid} cap_rights_limit({place},{rights_text(needed)}) RET 0\n"


def mark(process, lines):
    """Marks the mode of a process, and by its number each descriptor that is held and stands by itself, or that is unknown and checked
    by one of these lines: it then holds all rights, so that no need is lost. Answers the numbers of the held and of the unknown ones."""
    checked = {place for line in lines if line[3] is not None for place, _, _ in rule(*line[1:3])[1]}
    unknown = sorted(place for place in checked if process.cell(place) == UNKNOWN)
    held = sorted(place for place, cell in process.cells.items() if isinstance(cell, Held))
    for place in held:
        process.cells[place] = process.cells[place]._replace(marks=frozenset({place}))
    for place in unknown:
        process.cells[place] = Held(EVERYTHING, UNSURE, frozenset({place}))
    process.mode = MARKED
    return held, unknown


def limits_before(processes, lines, first):
    """The script for the process of the first of these lines, which has this position."""
    pid = lines[0][0]
    is_inside = processes.of(pid).mode == "inside"
    held, unknown = mark(processes.of(pid), lines)
    needs, in_the_way = {}, []
    for at, line in enumerate(lines, first):
        if is_success(line) and rule(*line[1:3])[0] == "forbidden" and processes.of(line[0]).mode == MARKED:
            in_the_way.append(f"line {at}, {line[1]} of process {line[0]}")
        add_needs(processes, line, needs)
        processes.follow(*line)
    out = [f"# process {pid} before line {first}\n"]
    out += [limit(at, pid, place, needs.get(place, frozenset())) for at, place in enumerate(held, first)]
    out += [f"# descriptor {place} isn't known; later calls need {rights_text(needs[place])}\n" for place in unknown if needs.get(place)]
    if is_inside:
        out.append(f"# process {pid} is in capability mode already\n")
    elif in_the_way:
        out.append(f"# no cap_enter: {in_the_way[0]}\n")
    else:
        out.append(f"insert {first + len(held)} {pid} cap_enter() RET 0\n")
    return "".join(out)


def made_by(line):
    """The descriptors that a call made. pdfork answers its own after the child's pid, which is 0 in the child."""
    _, name, given, answer = line
    if name == "pdfork" and is_success(line):
        return set(answer[1:]) if answer[0] != 0 else set()
    makes = name in MAKES_ONE + MAKES_TWO + ["dup2"] or (name == "fcntl" and given[1] in COPIES + COPIES_TO)
    return set(answer) if makes and is_success(line) else set()


def needed_of(processes, pid, place, lines):
    """What these lines need of an unknown descriptor: it is marked, as one that holds all rights, so that no need is lost."""
    processes, needs = Processes(processes.profile, processes.known), {}
    processes.put(pid, place, Held(EVERYTHING, UNSURE, frozenset({MARKED})))
    for line in lines:
        add_needs(processes, line, needs)
        processes.follow(*line)
    return needs.get(MARKED, frozenset())


def limits_of_made(processes, lines):
    """The script with a limit after each line that made a descriptor, or a comment on what is needed of it where it isn't known. Marks
    are the position and the descriptor."""
    needs, out = {}, {}
    for at, line in enumerate(lines, 1):
        add_needs(processes, line, needs)
        processes.follow(*line)
        for place in made_by(line):
            pid, cell = line[0], processes.cell(line[0], place)
            if isinstance(cell, Held):
                processes.put(pid, place, cell._replace(marks=cell.marks | {(at, place)}))
                needs[at, place] = frozenset()
            elif cell == UNKNOWN and (needed := needed_of(processes, pid, place, lines[at:])):
                unknown = f"# descriptor {place} of process {pid}, made at line {at}, isn't known"
                out[at, place] = f"{unknown}; later calls need {rights_text(needed)}\n"
    out.update({(at, place): limit(at + 1, lines[at - 1][0], place, needed) for (at, place), needed in needs.items()})
    return "".join(out[mark] for mark in sorted(out, reverse=True))


def limits(text, asked=None, profile=1, start=""):
    """What the program writes as limits before a line, or without one as limits of all that was made, and its exit status."""
    trace, known, refusal = opened(text, start)
    if refusal or (asked is not None and not 1 <= asked <= len(trace)):
        return refusal or "refused E7\n", 2
    lines, processes = [read(line) for line in trace], Processes(profile, known)
    if asked is None:
        return limits_of_made(processes, lines), 0
    pid, name, _, _ = lines[asked - 1]
    if name == "@start":
        return f"# process {pid} before line {asked}\n# line {asked} is where process {pid} begins\n", 0
    for line in lines[: asked - 1]:
        processes.follow(*line)
    return limits_before(processes, lines[asked - 1 :], asked), 0


# ---- the command line


def text_of(name):
    """The text of a file, or of standard input where there is no name."""
    with open(sys.stdin.fileno() if name is None else name, encoding="latin1", newline="") as file:
        return file.read()


def main():
    parser = argparse.ArgumentParser(description="a second reading of the rules of capcheck")
    commands = parser.add_subparsers(dest="command", required=True)
    for name, words in (("check", "trace?"), ("edit", "trace script?"), ("explain", "trace K"), ("limits", "trace K?"), ("denials", "trace?")):
        command = commands.add_parser(name)
        for word in words.split():
            command.add_argument(word.rstrip("?"), nargs="?" if word.endswith("?") else None, type=int if word[0] == "K" else str)
        command.add_argument("--profile", type=int, choices=(1, 2), default=1)
        command.add_argument("--start")
    words = parser.parse_args()
    start = text_of(words.start) if words.start is not None else ""
    trace, profile = text_of(words.trace), words.profile
    if words.command == "edit":
        out, status = replies(trace, text_of(words.script), profile, start)
    else:
        answers = {"check": check, "denials": denials, "explain": explained, "limits": limits}
        out, status = answers[words.command](trace, *([words.K] if "K" in words else []), profile, start)
    sys.stdout.buffer.write(out.encode("latin1"))
    sys.exit(status)


if __name__ == "__main__":
    main()
