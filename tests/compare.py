"""Holds the program against reference.py in both profiles: on random traces, some of them with a broken line, and for each on
a random start and a random script, with good and broken lines, on the explanation of a random line, on denials, and on limits,
before some lines and after each line that made a descriptor. A script of limits that the program printed is given to its
`edit` too: each of its lines must be accepted, and the report after it must have no finding that is new. The first case of a
class that the two answer differently is told with as few lines as still show it.

By hand, without a program:

    tests/compare.py --met [SEED [COUNT]]
    tests/compare.py --laws [SEED [COUNT]]

With `--met` it is printed how often the random traces met each rule of profile 2, and each marker of needs with a finding, a
denial or a limit.

With `--laws` the laws of limits are tried on those of reference.py. With the limits in the trace nothing new is found; with a
right less in any of them it is; and the line that is named as in the way of cap_enter is the first that capability mode
forbids. This is run as `tests/compare.py --laws 1 1000` (a minute), when the rules of limits change.
"""

import functools
import itertools
import random
import re
import sys
from collections import Counter
from typing import NamedTuple, Optional

import harness
import reference

CASES, SHARES = 500, 4  # random cases, and the classes that try a share of them each
PIDS = ("100", "101", "102", "103")
PLACES = (0, 1, 2, 3, 4, 5, 6, 63, 64, 65, 1_048_575)
PATHS = ("a", "/a", "", "../x", "a\\x0ab", '\\"q', "b c", "/", "x,y", "p)q", "(", "/usr/lib")
COMMANDS = (
    "F_DUPFD F_DUPFD_CLOEXEC F_DUP2FD F_DUP2FD_CLOEXEC F_GETFD F_SETFD F_GETFL F_SETFL F_GETOWN F_SETOWN F_GETLK F_SETLK "
    "F_SETLKW F_ISUNIONSTACK"
).split()
OFTEN = """READ WRITE SEEK LOOKUP MMAP MMAP_R FSTAT FEXECVE PREAD CREATE FCNTL RENAMEAT_SOURCE RENAMEAT_TARGET
UNLINKAT""".split()
CALLS = [name for name in list(reference.FORMS) + ["sendto", "sendmsg", "fcntl"] if name[0] != "@"]
NEEDS = ("@uses", "@uses", "@refused", "@global", "@global")  # the markers of needs
COMMON = "read write openat renameat linkat mmap dup2 dup close fcntl".split()
EXECS = "execve execve fexecve closefrom closefrom".split()
MAKERS = "open open socket socketpair pipe2 pipe".split()
FLAGGED = MAKERS * 2 + "openat openat dup dup2 dup2 cap_ioctls_limit cap_fcntls_limit".split() + ["fcntl"] * 9 + EXECS
FLAG_COMMANDS = "F_DUPFD F_DUPFD_CLOEXEC F_DUP2FD F_DUP2FD F_DUP2FD_CLOEXEC F_DUP2FD_CLOEXEC".split() + ["F_SETFD"] * 5
FLAGS_OF_OPEN = reference.PLAIN_OF_OPENAT + ["O_DIRECT", "AT_REMOVEDIR", "SOCK_CLOEXEC"]
FLAGS_AT, OTHER_FLAGS = reference.PLAIN + ["AT_RESOLVE_BENEATH", "O_RDONLY"], ["SOCK_STREAM", "O_CLOEXEC", "PF_INET", "SOCK_CLOEXEC", "FD_CLOEXEC"]
FLAGS_OF_MMAP = [[], "PROT_READ PROT_WRITE PROT_EXEC PROT_NONE".split(), "MAP_SHARED MAP_PRIVATE MAP_ANON".split()]  # by the argument's place
# Lines of a story: two descriptors A and B, a child C, words for flags F and W, and rights R.
MAKE = (
    'open("a",F) RET A', 'openat(AT_FDCWD,"a",F) RET A', 'openat(B,"a",F) RET A', "socket(F) RET A", "socketpair(F) RET A,B",
    "pipe2(F) RET B,A", "pipe() RET A,B", "@start(A)", "accept(B) RET A", "close(A) RET 0", "close(A) RET 0", "@foreign(A)",
)  # fmt: skip
FLAG = (
    "dup(A) RET B", "dup(A) RET A", "dup2(A,B) RET B", "dup2(A,A) RET A", "fcntl(A,F_DUPFD) RET B", "fcntl(A,F_DUPFD) RET A",
    "fcntl(A,F_DUPFD_CLOEXEC) RET B", "fcntl(A,F_DUPFD_CLOEXEC) RET A", "fcntl(A,F_DUP2FD,B) RET B", "fcntl(A,F_DUP2FD,A) RET A",
    "fcntl(A,F_DUP2FD_CLOEXEC,B) RET B", "fcntl(A,F_DUP2FD_CLOEXEC,A) RET A", "fcntl(A,F_DUP2FD_CLOEXEC,A) RET A",
    "fcntl(A,F_SETFD,W) RET 0", "fcntl(A,F_SETFD,W) RET 0", "fcntl(B,F_SETFD,W) RET 0", "fcntl(A,F_SETFD,W) RET -1 errno 9",
    "cap_ioctls_limit(A) RET 0", "cap_fcntls_limit(A) RET 0",
)  # fmt: skip
OTHER = (
    "cap_rights_limit(A,R) RET 0", 'openat(A,"a",F) RET B', 'openat(A,"a",F) RET A', "fork() RET C", "vfork() RET C", "pdfork() RET C,B",
    "closefrom(A) RET 0", "closefrom(B) RET 0", "closefrom(A) RET -1 errno 9", "close(A) RET 0", 'execve("/bin/x") RET 0',
    'execve("/bin/x") RET -1 errno 2', "fexecve(A) RET -1 errno 93",
)  # fmt: skip
END = ('execve("/bin/x") RET 0',) * 4 + ("fexecve(A) RET 0", "closefrom(A) RET 0", "closefrom(B) RET 0")
SHOW = ("write(A) RET 1", "read(A) RET -1 errno 93", "cap_rights_limit(A,ALL) RET -1 errno 93", "@uses(A,R)", "@refused(A,R)")
BETWEEN = (
    'execve("/bin/x") RET 0', "fexecve(A) RET 0", "closefrom(A) RET 0", "cap_rights_limit(A,NONE) RET 0", "cap_rights_limit(A,ALL) RET 0",
    "cap_rights_limit(A,R) RET 0", "fcntl(A,F_SETFD,W) RET 0", "dup2(A,B) RET B", "close(A) RET 0", "socket(F) RET A", "cap_enter() RET 0",
    "@exit()", "@start(A)",
)  # fmt: skip
MODES = (
    'open("a",F) RET A', 'open("a",F) RET -1 errno 94', 'openat(A,"a",F) RET -1 errno 93', 'openat(AT_FDCWD,"a",F) RET A', "read(A) RET -1 errno 94",
    "@global()",
)  # fmt: skip
USES = (
    "read(A) RET 1", "write(A) RET 1", "pwrite(A) RET 1", "lseek(A) RET 0", "fstat(A) RET 0", "fsync(A) RET 0", "ioctl(A) RET 0", "ioctl(A) RET -1 errno 93",
    "mmap(A,PROT_READ,MAP_PRIVATE) RET 1", 'openat(A,"a",O_PATH) RET B', 'openat(A,"a",O_RDWR|O_CREAT) RET B', 'openat(A,"a",O_RDWR|O_CREAT) RET -1 errno 93',
    'renameat(A,"a",B,"b") RET 0', 'renameat(A,"a",B,"b") RET -1 errno 93', "pipe() RET A,B", "dup(A) RET B", "dup2(A,B) RET B", "fork() RET C", "fork() RET C",
    "cap_rights_limit(A,R) RET 0", "cap_rights_limit(A,CAP_PREAD|CAP_WRITE|CAP_FSTAT|CAP_LOOKUP) RET 0", 'open("a",F) RET A', 'open("a",F) RET -1 errno 94',
    "@uses(A,R)", "@uses(A,CAP_EVENT)", "@uses(A,CAP_PREAD|CAP_UNLINKAT)", "@refused(A,CAP_FSTAT|CAP_EVENT)", "@global()",
)  # fmt: skip
IN_CHILD = ("close(A) RET 0", "cap_rights_limit(A,R) RET 0", "dup2(A,B) RET B", "read(A) RET 1", "write(A) RET 1")
REUSES = ("fork() RET C", "vfork() RET C", "pdfork() RET C,B", "@exit()", "@start(A)", 'open("a",F) RET A', "close(A) RET 0", *SHOW)
SWEEPS = ('execve("/bin/x") RET 0', "closefrom(A) RET 0", 'open("a",F) RET A', "socket(F) RET A", "dup2(A,B) RET B", "fork() RET C", *SHOW)
LIMITERS = ("cap_rights_limit(A,R) RET 0", "dup2(A,B) RET B", "dup(A) RET B", 'open("a",F) RET A', *SHOW)
SPOILED = "closefrom() RET 0,closefrom(x) RET 0,closefrom(1048576) RET 0,closefrom(3) RET 1,closefrom(-1) RET 0".split(",")
NUMBERS = ["", "0", "00", "01", "007", "-1", "+1", "1x", "x", "0x1", "1_0", "\xb2", "9" * 19, "1" + "0" * 19, "18446744073709551617"]
MOST_SHOWN = 50_000  # bytes of a text that is told where a case fails
RUNS_OF_48, EDITS = 62, 40  # of a long trace; of its script
NO_LINES = ("", " ", "# note", "100", "100 @start() ", "100  @exit()", " 100 @exit()")
WRONG = (
    "undo", "insert", "replace", "delete", "show", "counts", "report 1", "report 1 ", "changes 1", "changes ", "explain", "explain 1 2", "denials 1", "limits ", "limits x", "Count", " count", "show\t1", "\r",
    "\x00", "\xff",
)  # fmt: skip
START_WORDS = (
    "", "100", "0", "007", "100000", "in", "out", "unsure", "In", "unknown", "closed", "held", "ALL", "NONE", "3=", "=ALL", "3", "3=ALL",
    "3=ALL=ALL", "3==", "0=CAP_SEEK_TELL", "1048575=closed", "1048576=closed", "03=ALL", "3=all", "4=ALL|CAP_READ", "5=CAP_READ|", "\t", "\r",
)  # fmt: skip
# Of the long lines the rights make 1,024 bytes, and 1,025.
NOTES = ("", "# note", "#" + "x" * 1023, "#" + "x" * 1024)
NOTES_OF_STARTS = NOTES + tuple("99998 out closed 0=" + "|".join(["CAP_FSYNC"] * fsyncs + ["CAP_READ"] * reads) for fsyncs, reads in ((7, 104), (8, 103)))
LENGTHS = (1023, 1024, 1025, 1047, 1048, 1056, 1057, 3000)


class Maker:
    """Random lines, traces and scripts."""

    def __init__(self, seed):
        self.random = random.Random(seed)
        self.choice = self.random.choice
        self.positions = random.Random(seed)  # of their own, so that traces, starts and scripts don't change with them
        self.pids, self.places, self.execs, self.needs = PIDS, PLACES, False, 0.0
        self.made = Counter()  # how many long traces of each kind

    def elsewhere(self):
        """Other processes and descriptors for the next trace: many, or so few that lines meet each other's; with many execs, or
        with few; and with so many markers of needs."""
        self.pids = self.choice((PIDS, PIDS[:2], PIDS[:1]))
        self.places = self.choice((PLACES, self.random.sample(PLACES, 3), self.random.sample(PLACES, 2)))
        self.execs = self.chance(0.7)
        self.needs = self.choice((0.0, 0.1, 0.3))

    def chance(self, share):
        return self.random.random() < share

    def place(self):
        return str(self.choice(self.places))

    def words(self, pool, most=3):
        return "|".join(self.choice(pool) for _ in range(self.random.randrange(most + 1))) or "0"

    def rights(self):
        if self.chance(0.2):
            return self.choice(("ALL", "NONE"))
        pool = OFTEN if self.chance(0.5) else list(reference.STANDS_FOR)
        return "|".join("CAP_" + self.choice(pool) for _ in range(self.random.randrange(1, 5)))

    def flags(self, name, place):
        pool = FLAGS_OF_MMAP[place] if name == "mmap" else FLAGS_AT if name in reference.AT_CALLS else OTHER_FLAGS
        words = self.words(FLAGS_OF_OPEN if name in ("open", "openat") else pool)
        if name not in reference.CLOSE_ON_EXEC or self.chance(0.5):
            return words
        both = [reference.CLOSE_ON_EXEC[name]] + [words] * (words != "0")
        return "|".join(self.random.sample(both, len(both)))

    def arguments(self, name):
        if name in ("sendto", "sendmsg"):
            return [self.place()] + (["DEST"] if self.chance(0.5) else [])
        if name == "fcntl":
            command = self.choice(FLAG_COMMANDS if self.execs and self.chance(0.8) else COMMANDS)
            words, *places = self.choice(("0", "FD_CLOEXEC", "FD_CLOFORK", "FD_CLOEXEC|FD_CLOFORK")), self.place(), self.place()
            first = self.place()
            if command in reference.COPIES_TO:
                return [first, command, first if self.chance(0.3) else places[reference.COPIES_TO.index(command)]]
            return [first, command] + [words] * (command == "F_SETFD")
        given = [self.argument(name, kind, place) for place, kind in enumerate(reference.FORMS[name])]
        return given[:1] * 2 if name == "dup2" and self.chance(0.3) else given

    def argument(self, name, kind, place):
        if kind in (reference.descriptor, reference.directory):
            return "AT_FDCWD" if kind == reference.directory and self.chance(0.25) else self.place()
        return f'"{self.choice(PATHS)}"' if kind == reference.path else self.rights() if kind == reference.rights else self.flags(name, place)

    def result(self, name, given):
        if self.chance(0.1 if self.execs and name in FLAGGED else 0.35):
            return f"-1 errno {self.choice((93, 93, 93, 94, 94, 9, 2, 4, 35))}"
        if name in reference.ZERO:
            return "0"
        if name == "dup2" or (name == "fcntl" and given[1] in reference.COPIES_TO):
            return given[-1]
        if name in ("fork", "vfork", "pdfork"):
            child = str(self.choice((0,) + PIDS))
            return child + "," + self.place() if name == "pdfork" else child
        if name in reference.MAKES_ONE + reference.MAKES_TWO or (name == "fcntl" and given[1] in reference.COPIES):
            return self.place() + ("," + self.place() if name in reference.MAKES_TWO else "")
        return str(self.choice((0, 1, 5, reference.MOST)))

    def line(self):
        pid = self.choice(self.pids)
        if self.chance(self.needs):
            name = self.choice(NEEDS)
            return f"{pid} {name}({','.join(self.arguments(name))})"
        kind = self.random.random()
        if self.execs and kind < 0.10 and self.chance(0.7):
            kind = 0.5
        if kind < 0.06:
            return f"{pid} @start({','.join(map(str, sorted(self.random.sample(range(8), self.random.randrange(6)))))})"
        if kind < 0.10:
            return pid + " " + self.choice(("@exit()", f"@foreign({self.place()})"))
        if kind < 0.13:
            name, between = self.choice(("foo", "getpid", "_x9")), self.choice(("", "a,b", '"', "1 2 3"))
            return f"{pid} {name}({between}) RET {self.choice(('0', '4,5', '-1 errno 94', '-1 errno 93'))}"
        if kind < 0.38:
            name = self.choice(["cap_rights_limit"] * 8 + ["cap_enter"] * 2 + ["fork", "vfork", "pdfork"])
        elif self.execs and kind < 0.75:
            name = self.choice(FLAGGED)
        else:
            name = self.choice(COMMON if kind < 0.55 or (self.execs and kind < 0.9) else CALLS)
        given = self.arguments(name)
        return f"{pid} {name}({','.join(given)}) RET {self.result(name, given)}"

    def broken(self, line):
        place, byte = self.random.randrange(len(line) + 1), self.choice('()"\\|,@ 019aZ_-#x\r\t')
        before, at, after = line[:place], line[place : place + 1], line[place + 1 :]
        return self.choice((before + byte + at + after, before + after, before + byte + after, before))

    def story(self):
        """What becomes of a descriptor over an exec or a closefrom: it is made, perhaps limited, and changed, and in the end calls
        show what is left."""
        pid, child = self.choice(self.pids), self.choice(PIDS)
        first, second = self.random.sample(self.places, 2)
        lines = [self.choice(MAKE)] if self.chance(0.8) else []
        lines += ["cap_rights_limit(A,R) RET 0"] if self.chance(0.6) else []
        lines += [self.choice(FLAG if self.chance(0.7) else OTHER) for _ in range(self.random.randrange(4))]
        if lines and self.chance(0.2):
            lines.insert(0, "@start(A,B)" if first < second else "@start(B)")
        lines += [self.choice(END)] + (["fork() RET C"] if self.chance(0.2) else [])
        out = []
        for line in lines:
            out.append(f"{pid} {self.filled(line, first, second, child)}")
            if "fork()" in line and self.chance(0.5):
                pid, child = child, pid
        for place in {first, second, self.choice(self.places), max(0, first - 1), min(first + 1, PLACES[-1])}:
            out += [f"{self.choice((pid, pid, child))} {self.filled(self.choice(SHOW), place, place, child)}" for _ in range(2)]
        return out

    def used(self):
        """Descriptors that are made, used and handed on. It draws as positions do."""
        draw, pids = self.positions, [PIDS[0]]
        lines = [f"{pids[0]} @start(0,1,2,3)"] if draw.random() < 0.7 else []
        for _ in range(draw.randrange(3, 40)):
            pid, child = draw.choice(pids), draw.choice(PIDS)
            way = draw.choice(USES if draw.random() < 0.85 else MAKE + FLAG + BETWEEN)
            lines.append(f"{pid} {self.filled(way, *draw.sample(range(5), 2), child, draw.choice)}")
            pids += [child] if "fork" in way else []
        return "\n".join(lines) + "\n"

    def filled(self, line, first, second, child, choice=None):
        choice = choice or self.choice
        words = {"A": first, "B": second, "C": child}
        words["F"] = choice(("0", "O_CLOEXEC", "SOCK_CLOEXEC", "O_RDWR|O_CLOEXEC", "SOCK_STREAM|SOCK_CLOEXEC", "FD_CLOEXEC"))
        words["W"] = choice(("0", "FD_CLOEXEC", "FD_CLOEXEC", "FD_CLOFORK", "FD_CLOEXEC|FD_CLOFORK"))
        words["R"] = choice(("CAP_READ", "CAP_READ", "CAP_READ|CAP_LOOKUP|CAP_FCNTL", "CAP_WRITE", "NONE", "ALL"))
        return re.sub(r"(?<=[(,\s])[ABCFWR](?=[),\s]|$)", lambda letter: str(words[letter[0]]), line)

    # -- long traces of one kind

    def deep(self, length):
        """Forks of forks, with a limit or a close in the child, and now and then in one of its parents."""
        lines, pids = ["100 @start(0,1,2,3,4)"], [100]
        for child in range(101, 101 + length // 3):
            lines.append(f"{pids[-1]} fork() RET {child}")
            pids.append(child)
            for pid in (child, self.choice(pids)):
                lines.append(f"{pid} {self.filled(self.choice(IN_CHILD), *self.random.sample(range(6), 2), child)}")
        return lines

    def reused(self, length):
        """Forks whose numbers were used before, and what ends a process."""
        return [f"{self.choice(PIDS)} {self.filled(self.choice(REUSES), *self.random.sample(range(70), 2), self.choice(PIDS))}" for _ in range(length)]

    def swept(self, length):
        """Execs and closefroms of two processes in turn, with new descriptors between them."""
        return [f"{self.choice(PIDS[:2])} {self.filled(self.choice(SWEEPS), *self.random.sample(PLACES, 2), PIDS[1])}" for _ in range(length)]

    def limited(self, length):
        """Limits to nothing and to everything in turn, and some others, of descriptors that are copies of each other."""
        turns = itertools.cycle(("NONE", "ALL"))
        lines = ["100 @start(0,1,2)"]
        for _ in range(length):
            line = f"cap_rights_limit(A,{next(turns)}) RET 0" if self.chance(0.5) else self.choice(LIMITERS)
            lines.append(f"100 {self.filled(line, *self.random.sample(range(4), 2), 101)}")
        return lines

    def descended(self, length):
        """Forks of forks by few numbers, each used again and again, and between them what changes many descriptors or the mode."""
        lines, pid = ["100 @start(0,1,2,3)"], PIDS[0]
        while len(lines) < length:
            child = self.choice([it for it in PIDS[:3] if it != pid])
            lines.append(f"{pid} {self.choice(('fork()', 'vfork()'))} RET {child}")
            for who in self.random.sample((pid, child), 2):
                for ways in (BETWEEN, SHOW, MODES):
                    lines.append(f"{who} {self.filled(self.choice(ways), *self.random.sample(range(5), 2), child)}")
            pid = child if self.chance(0.8) else pid
        return lines

    def long_trace(self):
        way = self.choice((self.deep, self.reused, self.swept, self.limited, self.descended))
        self.made["long trace: " + way.__name__] += 1
        return "\n".join(way(self.random.randrange(100, 700))) + "\n"

    def trace(self):
        if self.chance(0.1):
            return self.long_trace()
        lines = [self.line() for _ in range(self.random.randrange(1, 60))]
        if self.execs:
            lines = lines[: self.choice((0, 0, 5, 20))]
            for _ in range(self.random.randrange(1, 10)):
                lines += self.story() + [self.line() for _ in range(self.random.randrange(3))]
        if self.chance(0.2):
            place = self.random.randrange(len(lines))
            lines[place] = self.broken(lines[place]) if self.chance(0.8) else "100 " + self.choice(SPOILED)
        if self.chance(0.2):
            note = self.choice(NOTES)
            lines.insert(self.random.randrange(len(lines) + 1), note)
        return "\n".join(lines) + ("\n" if self.chance(0.7) else "")

    def number(self, lines):
        return self.choice(NUMBERS) if self.chance(0.12) else str(self.random.randrange(1, lines + 3))

    def edited(self):
        kind = self.random.random()
        if kind < 0.15:
            return self.choice(NO_LINES) if kind < 0.1 else "100 foo(" + "x" * (self.choice(LENGTHS) - 15) + ") RET 0"
        line = self.choice(self.story()) if self.execs and self.chance(0.5) else self.line()
        return self.broken(line) if kind < 0.3 else line

    def command(self, lines):
        kind = self.random.random()
        if kind < 0.65:
            name, at = self.choice(("insert", "insert", "replace") if kind < 0.45 else ("delete", "show")), self.number(lines)
            return f"{name} {at}" + (f" {self.edited()}" if kind < 0.45 else "")
        if kind < 0.75:
            return f"report {self.number(lines)} {self.number(lines)}"
        if kind < 0.95:
            asks = "count", "report", "changes", "changes", "denials", "limits", f"limits {self.number(lines)}"
            return self.choice((*asks, *[f"explain {self.number(lines)}"] * 2) if kind < 0.9 else WRONG)
        return self.choice(("", "# note", "#", self.choice("#x") * self.choice(LENGTHS)))

    def spoiled(self, command):
        """Mostly the command unchanged."""
        kind = self.random.random()
        if kind < 0.06:
            return command + self.choice((" ", "\r", " 1", "\t", "\x00")) if kind < 0.04 else command.replace(" ", "  ", self.choice((1, 2)))
        return self.broken(command) if kind < 0.1 else command

    def undone(self, lines):
        """Commands that take out lines that others rest on, and put them back there or elsewhere, with reports between."""
        commands = []
        for _ in range(self.random.randrange(1, 9)):
            at, to = self.choice((1, 2, self.random.randrange(len(lines)) + 1)), self.random.randrange(len(lines)) + 1
            back, line = self.choice((at, at, to)), lines[at - 1]
            part = f"report {min(at, to)} {max(at, to) - 1}"
            commands += [f"delete {at}", self.choice(("report", part, "count", "changes", f"explain {to}", "denials")), f"insert {back} {line}", "report"]
            commands += ["changes"] * self.chance(0.3)
            commands += [f"replace {to} {line}", self.choice(("report", "changes", part))] if self.chance(0.3) else []
        return commands

    def script(self, trace):
        lines = trace.count("\n") + 1
        if lines > 100 and self.chance(0.5):
            return "\n".join(self.undone(trace.splitlines())) + "\n"
        commands = [self.spoiled(self.command(lines)) for _ in range(self.random.randrange(30))]
        commands += [f"show {at}" for at in range(1, lines + 5)] if self.chance(0.3) else []
        commands += ["report"] * self.chance(0.3)
        return "\n".join(commands) + ("\n" if self.chance(0.7) else "")

    def position(self, trace, is_cut=False):
        """A line to be explained, often one near the end, or one before which limits are asked for, often an early one; now and then none."""
        lines = trace.count("\n") + 1
        often = self.positions.randint(1, max(1, lines // 2)) if is_cut else max(1, lines - self.positions.randrange(12))
        return self.positions.choice((often, often, self.positions.randint(1, lines), self.positions.randint(0, lines + 2)))

    # -- starts

    def start_line(self, pid):
        def cell():
            kind = self.random.random()
            return self.choice(("unknown", "closed")) if kind < 0.3 else "ALL" if kind < 0.5 else self.rights()

        listed = set(self.random.sample(range(8), self.random.randrange(4)) + [int(self.place()) for _ in range(self.random.randrange(3))])
        cells = "".join(f" {place}={cell()}" for place in sorted(listed))
        return f"{pid} {self.choice(('in', 'out', 'out', 'unsure'))} {cell()}{cells}"

    def spoiled_start(self, line):
        """The line with a fault, or with two."""
        words = line.split(" ")
        kind = self.random.random()
        if kind < 0.6:
            return self.broken(line) if kind < 0.4 else " ".join(words[: self.random.randrange(len(words))]) + self.choice(("", " "))
        if kind < 0.9:
            words[self.random.randrange(len(words))] = self.choice(START_WORDS)
            return " ".join(words)
        return line + " " + self.choice(START_WORDS)

    def start(self):
        """A start, perhaps with a line that is refused."""
        pids = sorted(self.random.sample(("1", "99", "99999") + PIDS, self.random.randrange(5)), key=int)
        lines = [self.start_line(pid) for pid in pids]
        if lines and self.chance(0.35):
            place = self.random.randrange(len(lines))
            lines[place] = self.spoiled_start(lines[place])
        if lines and self.chance(0.1):
            self.random.shuffle(lines)
        lines += [self.choice(lines)] if lines and self.chance(0.05) else []
        if self.chance(0.2):
            note = self.choice(NOTES_OF_STARTS)
            lines.insert(self.choice((0, len(lines))), note)
        return "\n".join(lines) + ("\n" if self.chance(0.7) else "")


ANSWERS = {"check": reference.check, "explain": reference.explained, "limits": reference.limits, "denials": reference.denials}


class Run(NamedTuple):
    """A run of the program: a command on a trace, with what else it is given."""

    trace: str
    profile: int = 1
    command: str = "check"
    start: Optional[str] = None
    script: Optional[str] = None
    position: Optional[int] = None

    def words(self):
        """The words of the command line; the usual profile is left out where no start is given."""
        words = [self.command, "trace"] + (["script"] if self.script is not None else [])
        words += [str(self.position)] if self.position is not None else []
        words += ["--start", "start"] if self.start is not None else []
        return words + (["--profile", str(self.profile)] if self.profile != 1 or self.start is not None else [])

    def wanted(self):
        if self.command == "edit":
            return reference.replies(self.trace, self.script, self.profile, self.start or "")
        position = [self.position] if self.command in ("explain", "limits") else []
        return ANSWERS[self.command](self.trace, *position, self.profile, self.start or "")

    @functools.lru_cache(32)
    def got(self):
        """What the program writes, and its exit status."""
        harness.tried["runs beside the second reading"] += 1
        for name in ("trace", "start", "script"):
            if getattr(self, name) is not None:
                harness.save(name, getattr(self, name))
        answer = harness.capcheck(*self.words(), stdin=harness.DEVNULL, stderr=None)
        return answer.out, answer.status

    def faults(self, script):
        """What is wrong with a script of limits that the program printed: replies of its `edit` other than ok, and new findings."""
        harness.tried["scripts of limits given back"] += 1
        check = self._replace(command="check", position=None)
        _, kept = reference.edited(reference.load(self.trace)[0], script, reference.found_in(check.got()[0]))
        replies, _ = self._replace(command="edit", position=None, script=script + "report\n").got()
        *replies, new = replies.split("\n", len(kept.new()))
        refused = [reply for reply in replies if not re.fullmatch("ok [0-9]+", reply)]
        return refused + kept.went_and_came(reference.found_in(new))[1]

    def fault(self):
        """How the answers differ, or what is wrong with limits as a script; or nothing."""
        (wanted, status), (got, ended) = self.wanted(), self.got()
        if (wanted, status) != (got, ended):
            return f"status {status} wanted, {ended} got\n{harness.difference(wanted, got)}"
        faults = self.faults(got) if self.command == "limits" and status == 0 else []
        return f"refused or new with these limits: {faults}" if faults else ""

    def smaller(self):
        """The run with as few lines as still make the two answer differently."""
        run = self
        for name in ("script", "trace", "start"):
            at = 0
            while getattr(run, name) is not None and at < len(lines := getattr(run, name).splitlines(keepends=True)):
                less = run._replace(**{name: "".join(lines[:at] + lines[at + 1 :])})
                run, at = (less, at) if less.fault() else (run, at + 1)
        return run

    def shown(self):
        texts = [(name, getattr(self, name)) for name in ("start", "trace", "script")]
        given = "".join(f"--- {name}:\n{text}\n" for name, text in texts if text is not None and len(text) < MOST_SHOWN)
        return f"capcheck {' '.join(self.words())}\n{given}--- {self.fault()}"


def runs_of(maker):
    """The runs of the next case."""
    maker.elsewhere()
    trace = maker.trace()
    script = maker.script(trace)
    start = maker.start()
    used = maker.used()
    for profile in (1, 2):
        yield Run(trace, profile, "edit", maker.positions.choice((None, start)), script)
        for begin in (None, start):
            yield Run(trace, profile, "check", begin)
            yield Run(trace, profile, "explain", begin, position=maker.position(trace))
        for text in (trace, used):
            begin = maker.positions.choice((None, start))
            yield Run(text, profile, "denials", begin)
            for position in (None, maker.position(text, True), maker.position(text, True)):
                yield Run(text, profile, "limits", begin, position=position)


def long_edits(maker):
    """A trace of more than 60 runs of 48 lines, and a script of many edits of it, each with `report` or `changes` after it."""
    way = maker.choice((maker.reused, maker.swept, maker.limited, maker.descended))
    lines = way(RUNS_OF_48 * 48)
    count, commands = len(lines), ["report"]
    for _ in range(EDITS):
        verb, line = maker.choice(("insert", "replace", "delete")), maker.choice(lines)
        at = maker.choice((1, count, maker.random.randrange(1, count + 1)))
        commands.append(f"delete {at}" if verb == "delete" else f"{verb} {at} {line}")
        count += {"insert": 1, "replace": 0, "delete": -1}[verb]
        commands += maker.choice((["changes"], ["changes"], ["report"], ["report", "changes"], [], [f"report {at} {at}", "changes"]))
    start = "".join(f"{maker.start_line(pid)}\n" for pid in sorted(PIDS, key=int))
    return Run("\n".join(lines) + "\n", maker.choice((1, 2)), "edit", maker.choice((None, start)), "\n".join([*commands, "changes"]) + "\n")


def cases(seed):
    """Each random case with its name, as runs; and after them scripts of many edits of a long trace."""
    maker = Maker(seed)
    for turn in range(CASES):
        yield f"seed {seed}, case {turn}", list(runs_of(maker))
    for turn in range(CASES // 100):
        yield f"seed {seed}, edits {turn} of a long trace", [long_edits(maker)]


class Share:
    """A share of the random cases. Each class makes all of them, and tries its own."""

    is_long = True

    def test_cases(self):
        for turn, (name, runs) in enumerate(cases(harness.seed())):
            if turn % SHARES != self.share:
                continue
            harness.tried["random cases" if len(runs) > 1 else "scripts of many edits of a long trace"] += 1
            for run in runs:
                if run.fault():
                    self.fail(f"{name}: {(run.smaller() if len(runs) > 1 else run).shown()}")


class FirstShare(Share, harness.Test):
    share = 0


class SecondShare(Share, harness.Test):
    share = 1


class ThirdShare(Share, harness.Test):
    share = 2


class FourthShare(Share, harness.Test):
    share = 3


# ---- what the random traces meet


def kind(cell):
    return f"held, {cell.flag}" if isinstance(cell, reference.Held) else cell


def has_child(pid, name, given, answer):
    """Whether a line tells of a process of another number."""
    return reference.is_fork((pid, name, given, answer)) and answer[0] != pid


def rows_of(processes, pid, name, given, answer):
    """The rows of docs/RULES.md on flags, execs and closefrom that a line meets, for each kind of cell."""
    process, how = processes.of(pid), given[1] if name == "fcntl" else name
    cell = kind(process.cell(given[0])) if given and isinstance(given[0], int) else ""
    if isinstance(answer, int):
        return [f"{how} that failed"] * (how in (*EXECS, "F_SETFD"))
    if name == "closefrom":
        end = "the first" if process.end == reference.DESCRIPTORS else "again, lower" if given[0] < process.end else "again, not lower"
        listed = [f"closefrom: listed, {'at or above' if at >= given[0] else 'below'}: {kind(cell)}" for at, cell in process.cells.items()]
        return listed + [f"closefrom: all others: {kind(process.others)}", f"closefrom: {end}"]
    if name in EXECS or has_child(pid, name, given, answer):
        return [f"{name}: {kind(cell)}" for cell in [*process.cells.values(), *[process.others] * (name in EXECS)]]
    if how == "F_SETFD":
        return [f"F_SETFD {'with' if 'FD_CLOEXEC' in given[2] else 'without'}{', and others' * bool(set(given[2]) - {'FD_CLOEXEC'})}: {cell}"]
    if how in ("dup2",) + reference.COPIES_TO:
        return [f"{how} to {'itself' if given[0] == given[-1] else 'another'}: {cell}"]
    if name in reference.MAKES_TWO + ["open", "socket", "openat"]:
        return [f"{name}: {reference.flag_of_new(name, given)}" + f" below a descriptor: {cell}" * bool(cell)]
    return [f"{how}: {cell}" if cell else how] * (how in LOOKED_AT)


def met_by_lines(lines, start):
    """The rows that the lines of a trace meet in profile 2, and the generations of the children in it."""
    processes, generations, met = reference.Processes(2, start), {}, []
    for line in lines:
        met += set(rows_of(processes, *line))
        if has_child(*line):
            child, generation = line[3][0], generations.get(line[0], 0) + 1
            met.append("fork: a number that was used before" if child in generations else "fork: a new number")
            met.append("fork: generation " + ("1 to 9" if generation < 10 else "10 to 99" if generation < 100 else "100 and later"))
            generations[child] = generation
        processes.follow(*line)
    return met


LOOKED_AT = ("@start", "dup", "cap_rights_limit", "cap_ioctls_limit", "cap_fcntls_limit") + reference.COPIES
LIMITS = {
    "NONE": r"cap_rights_limit\(\d+,NONE\)",
    "rights": r"cap_rights_limit\(\d+,CAP_",
    "cap_enter": r"cap_enter\(\)",
    "a call in the way of cap_enter": r"# no cap_enter: line \d+, \w",
    "a marker in the way of cap_enter": r"# no cap_enter: line \d+, @",
    "where a process begins": "is where process",
    "capability mode already": "capability mode already",
    "a descriptor that isn't known": "isn't known",
}


def met_by(run):
    """What a run meets, by what the reference answers."""
    answer, status = run.wanted()
    if status == 2:
        return [" ".join(answer.split(" ")[: 3 if "start" in answer else 2])] if run.command == "check" else []
    if run.command == "explain":
        lines = answer.splitlines()
        return [f"explained: {min(len(lines), 20)} lines"] + [f"explained: {name}" for name in re.findall(r"^\d+ \d+ (@\w+)", answer)]
    if run.command == "limits":
        return met_by_limits(run, answer)
    judged = [line.split(" ")[2:4] for line in answer.splitlines()[:-1]] if run.command in ("check", "denials") else []
    met = [f"{name} {word}" for name, word in judged if name[0] == "@"]
    if run.command == "denials":
        return met + [f"denied: {word}" for _, word in judged]
    if run.command == "check" and run.profile == 2:
        met += met_by_lines(map(reference.read, reference.load(run.trace)[0]), reference.load_start(run.start or "")[0])
        return met + ["another report than in profile 1"] * (answer != run._replace(profile=1).wanted()[0])
    return met


def met_by_limits(run, answer):
    """What a run of limits meets, by this answer, and whether it is another one where each `@uses` is a call that needs nothing."""
    where = "limits after makers: " if run.position is None else "limits before a line: "
    needs_less = re.sub(r"@uses\([^)\n]*\)", "foo() RET 0", run.trace)
    met = [what for what, pattern in LIMITS.items() for _ in re.findall(pattern, answer)]
    return [where + what for what in met + ["a right that only a marker needs"] * (answer != run._replace(trace=needs_less).wanted()[0])]


def print_met(seed, count):
    """How often the random traces met each row in profile 2, with the reference alone."""
    maker, met = Maker(seed), Counter()
    for _ in range(count):
        for run in runs_of(maker):
            met.update(met_by(run))
    for row, times in sorted((met + maker.made).items()):
        print(f"{times:7} {row}")


# ---- the laws of limits, tried on those of the reference


def lacking(found):
    """Each right that a finding says is lacking, with the position and the descriptor."""
    words = [(at, text.split()) for at, text in found]
    return {(at, word[4], right) for at, word in words if word[3] in ("missing", "expanded") for right in word[5].split("|")}


class Laws:
    """A trace with its limits, before a line or after each line that made a descriptor. `tried` counts what is tried."""

    tried = Counter()

    def __init__(self, run):
        self.run, self.script = run, run.wanted()[0]
        self.trace, self.start = reference.load(run.trace)[0], reference.load_start(run.start or "")[0]
        self.old = self.found(map(reference.read, self.trace))

    def found(self, lines):
        """What is found in lines that were read."""
        return reference.findings_of(lines, self.run.profile, self.start)

    def with_lines(self, script):
        """The lines of the trace and of a script, read, what is found in them, what of that is new, and where those of the script are."""
        trace, kept = reference.edited(self.trace, script, self.old)
        lines = list(map(reference.read, trace))
        new = self.found(lines)
        return lines, new, kept.went_and_came(new)[1], kept.new()

    def broken(self):
        """What doesn't hold."""
        lines, new, came, inserted = self.with_lines(self.script)
        self.tried["traces"] += 1
        self.tried.update(lines[at - 1][1] for at in inserted)
        limits = [at for at in inserted if lines[at - 1][1] == "cap_rights_limit"]
        out = [f"not enough: {finding}" for finding in came] + [it for at in limits for it in self.not_least(lines, inserted, at, lacking(new))]
        return out + self.not_in_the_way()

    def not_least(self, lines, inserted, at, lacked):
        """The rights of the limit at this position without which no line lacks more than `lacked`. Of the limits after makers, a later
        limit may be that line. A right is taken out of the set, since in a text another name may stand for it too."""
        pid, name, (place, rights), answer = lines[at - 1]
        for right in rights:
            self.tried["rights"] += 1
            less = self.found(lines[: at - 1] + [(pid, name, [place, rights - {right}], answer)] + lines[at:])
            where = {found for found, _, word in lacking(less) - lacked if word == "CAP_" + right}
            if not (where if self.run.position is None else where - inserted):
                yield f"not least: {right} of descriptor {place} in line {at} of the trace with limits"

    def not_in_the_way(self):
        """What is wrong with the line that the limits name as in the way of cap_enter."""
        said = re.search(r"# no cap_enter: line (\d+), (@?\w+) of process (\d+)\n", self.script)
        if not said:
            return []
        self.tried[f"{'markers' if said[2][0] == '@' else 'calls'} in the way of cap_enter"] += 1
        at, pid = self.run.position, reference.read(self.trace[self.run.position - 1])[0]
        came = self.with_lines(f"insert {at} {pid} cap_enter() RET 0")[2]
        found = [finding for finding in came if finding.endswith(" forbidden\n")]
        return [] if found and found[0] == f"{int(said[1]) + 1} {said[3]} {said[2]} forbidden\n" else [f"{said[0]}but forbidden is {found}"]


def try_laws(seed, count):
    """Tries the limits of random traces in both profiles, without and with a start."""
    maker = Maker(seed)
    for turn in range(count):
        maker.elsewhere()
        lines, start = reference.load(maker.used() if turn % 2 else maker.trace())[0][:80], maker.start()
        trace = "".join(line + "\n" for line in lines)
        starts = [""] if reference.load_start(start)[1] else ["", start]
        positions = [None, maker.positions.randint(1, len(lines))] if lines else []
        for profile, begin, position in itertools.product((1, 2), starts, positions):
            run = Run(trace, profile, "limits", begin, position=position)
            if broken := Laws(run).broken():
                print(f"seed {seed}, case {turn}: {' '.join(run.words())}\n--- start:\n{begin}--- trace:\n{trace}---", *broken, sep="\n")
                sys.exit(1)
    print(f"all laws hold: {', '.join(f'{times} {what}' for what, times in sorted(Laws.tried.items()))}")


if __name__ == "__main__":
    ways, words = {"--met": print_met, "--laws": try_laws}, sys.argv[1:]
    if not 1 <= len(words) <= 3 or words[0] not in ways or not all(word.isdigit() for word in words[1:]):
        sys.exit(__doc__.strip())
    ways[words[0]](*[int(word) for word in words[1:]] + [1, CASES][len(words) - 1 :])
