#!/usr/bin/env python3
"""An interactive session with `capcheck edit`: whatif [--profile N] [--start FILE] TRACE

Puts lines into a trace, replaces and deletes them, and says which findings went away and which came. TRACE itself is not
changed. The findings are those of the program capcheck, which holds the trace; nothing is judged here. Where standard input is
no terminal, it is a script of the same commands, and no prompt is printed.

Exit status: that of capcheck: 0 where nothing is found in the trace at the end, 1 where something is, 2 where TRACE or FILE was
refused or a word of the command line is wrong, 3 where there is no answer.
"""

import argparse
import difflib
import glob
import itertools
import os
import re
import signal
import subprocess
import sys
import time

try:
    import readline
except ImportError:
    readline = None  # no completion and no history then

SELF = os.path.basename(sys.argv[0])
PATIENCE = 0.5  # seconds that a report may take to be asked for after each edit
BATCH = 256  # commands written at once: less than the 4,096 bytes that any pipe holds
SHOWN = 10  # findings that are shown of those that went away or came
HISTORY = 1000  # lines that are kept of what was typed
INVERSE = {"insert": "delete", "delete": "insert", "replace": "replace"}  # the edit that takes another back

# How calls are written, and the calls that are written so: to complete names, and to say what a call's arguments are.
FORMS = {
    # tools/calls.py: forms
    "(FD)": """read readv recvfrom recvmsg pread preadv write writev pwrite pwritev lseek fstat fstatfs fsync fdatasync
        ftruncate fchmod fchown fchflags fchdir flock fpathconf futimes futimens ioctl accept bind connect listen
        shutdown getpeername getsockname getsockopt setsockopt fexecve close closefrom dup cap_ioctls_limit
        cap_fcntls_limit @foreign""",
    "(FD,FLAGS)": "accept4",
    "(FD,RIGHTS)": "cap_rights_limit @uses @refused",
    '("PATH",FLAGS)': "open",
    '("PATH")': """execve access chdir chflags chmod chown lchown lstat mkdir mkfifo mknod readlink rmdir stat statfs
        truncate unlink""",
    '("PATH","PATH")': "link rename symlink",
    '(DIR,"PATH")': "mkdirat mkfifoat mknodat readlinkat futimesat",
    '(DIR,"PATH",FLAGS)': "openat unlinkat fstatat fchmodat fchownat chflagsat utimensat",
    '("PATH",DIR,"PATH")': "symlinkat",
    '(DIR,"PATH",DIR,"PATH")': "renameat",
    '(DIR,"PATH",DIR,"PATH",FLAGS)': "linkat",
    "(FLAGS)": "socket socketpair pipe2",
    "()": "pipe kqueue shm_open mq_open fhopen fork vfork pdfork cap_enter @exit @global",
    # end
    "(FD) or NAME(FD,DEST)": "sendto sendmsg",
    "(FD,FD), which answers the second FD": "dup2",
    "(FD,COMMAND), NAME(FD,F_SETFD,FLAGS), or NAME(FD,F_DUP2FD,FD), which answers the second FD": "fcntl",
    "(FD,PROTECTION,FLAGS)": "mmap",
    "(FD,FD,..) with rising descriptors": "@start",
}
FORM_OF = {name: form for form, names in FORMS.items() for name in names.split()}

RIGHTS = ["ALL", "NONE"] + [
    "CAP_" + name
    for name in """READ WRITE SEEK MMAP MMAP_X CREATE FEXECVE FSYNC FTRUNCATE LOOKUP FCHDIR FCHFLAGS FCHMOD FCHOWN FCNTL
    FLOCK FPATHCONF FSCK FSTAT FSTATFS FUTIMES LINKAT_TARGET MKDIRAT MKFIFOAT MKNODAT RENAMEAT_SOURCE SYMLINKAT UNLINKAT ACCEPT
    BIND CONNECT GETPEERNAME GETSOCKNAME GETSOCKOPT LISTEN PEELOFF SETSOCKOPT SHUTDOWN BINDAT CONNECTAT LINKAT_SOURCE
    RENAMEAT_TARGET MAC_GET MAC_SET SEM_GETVALUE SEM_POST SEM_WAIT EVENT KQUEUE_EVENT IOCTL TTYHOOK PDGETPID PDWAIT PDKILL
    EXTATTR_DELETE EXTATTR_GET EXTATTR_LIST EXTATTR_SET ACL_CHECK ACL_DELETE ACL_GET ACL_SET KQUEUE_CHANGE
    PREAD PWRITE RECV SEND MMAP_R MMAP_W MMAP_RW MMAP_RX MMAP_WX MMAP_RWX FSTATAT FCHMODAT FCHOWNAT CHFLAGSAT FUTIMESAT
    KQUEUE""".split()
]

REASONS = {
    "E1": "the line has more than 1,024 bytes",
    "E2": "the line's shape is wrong: PID NAME(ARGUMENTS) RET RESULT, with one space where one is shown",
    "E3": "the line must begin with the number of a process, from 1 to 99999, and a space",
    "E4": "an argument is wrong, or there are too few or too many",
    "E5": "a right is wrong: ALL, NONE, or names from rights(4) with | between them",
    "E6": "the call can't have this result: RET and a number, or RET -1 errno and a number",
    "E7": "there is no such line",
    "E8": "a trace has at most 1,000,000 lines",
    "E9": "memory ran out",
    "E10": "there is no such command",
    "E11": "a file can't be opened or read",
    "E12": "its output can't be written",
    "E13": "an input has no end",
}

START_REASONS = {
    "E1": REASONS["E1"],
    "E3": "the line must begin with the number of a process, from 1 to 99999 and above those of the lines before, and a space",
    "E4": "the mode (in, out or unsure) is wrong, or the number of a descriptor",
    "E5": "a descriptor is unknown, closed, or has rights: ALL, NONE, or names from rights(4) with | between them",
}

FINDINGS = {
    "missing": "it succeeded, and descriptor {0} lacks {1}",
    "expanded": "it asks for {1}, which descriptor {0} lacked, and it succeeded",
    "closed": "it succeeded, and descriptor {0} is closed",
    "forbidden": "it succeeded, and capability mode forbids it",
    "refusal": "it was refused with errno 93 (ENOTCAPABLE), and every right is there",
    "moderefusal": "it was refused with errno 94 (ECAPMODE) outside capability mode, or that mode allows it",
}


class Ended(Exception):
    """capcheck has ended, with this status and this on standard error."""

    def __init__(self, status, said):
        code = re.search(r"\bE[0-9]+", said)
        self.code = code[0] if code and code[0] in REASONS else None
        if status < 0:
            why = f"signal {-status}"
        elif self.code:
            why = f"{REASONS[self.code]} ({self.code})"
        else:
            why = f"status {status}" + (f": {said.strip()}" if said.strip() else "")
        super().__init__(f"capcheck has ended: {why}")


class Refused(Exception):
    """capcheck refused a command, or the trace or the start at one of its file's lines."""

    def __init__(self, reply):
        found = re.fullmatch(r"refused (E[0-9]+)(?:( start)? line ([0-9]+))?", reply)
        self.code, self.line = (found[1], found[3]) if found else (reply, None)
        self.is_start = bool(found and found[2])
        super().__init__(self.code)


class Mistake(Exception):
    """A command that can't be done, and why."""


class Stopped(Exception):
    """Ctrl-C was typed while a command was worked through."""


class Interrupt:
    """Ctrl-C. It breaks off what waits for a person; a command's reply is read first, so that none is lost."""

    def __init__(self):
        self.breaks, self.noted = True, False

    def __call__(self, *_):
        if self.breaks:
            raise KeyboardInterrupt
        self.noted = True

    def look(self):
        if self.noted:
            raise Stopped


interrupt = Interrupt()


def shown(line):
    """A line as it can be looked at: bytes that aren't printable are escaped."""
    text = line.decode("utf-8", "backslashreplace")
    return "".join(letter if letter.isprintable() else f"\\x{ord(letter):02x}" for letter in text)


def put(text):
    """Prints a line, unless Ctrl-C was typed."""
    interrupt.look()
    print(text)


def many(number, what):
    return f"{number:,} {what}" if number == 1 else f"{number:,} {what}s"


def in_words(name, finding):
    """What the finding of a call says, with the word for it that reports have. A marker speaks of a call."""
    kind, *parts = finding.split(" ")
    if kind not in FINDINGS:
        return finding
    words = FINDINGS[kind].format(*parts)
    return f"{'a call' + words.removeprefix('it') if name.startswith('@') else words} ({kind})"


def placed(position, found):
    """A finding in words, with its line, process and call."""
    pid, name, finding = found.split(" ", 2)
    return f"line {position}, {pid} {name}: {in_words(name, finding)}"


class Capcheck:
    """`capcheck edit` at the end of two pipes: it answers each command before it reads the next."""

    def __init__(self, words):
        pipe = subprocess.PIPE
        # A session of its own, so that Ctrl-C at the terminal doesn't reach it.
        self.process = subprocess.Popen(words, stdin=pipe, stdout=pipe, stderr=pipe, start_new_session=True)

    def say(self, commands):
        try:
            self.process.stdin.write(commands)
            self.process.stdin.flush()
        except BrokenPipeError:
            pass  # it has ended, which is seen where its reply is read

    def hear(self):
        """The next line of a reply."""
        line = self.process.stdout.readline()
        if not line.endswith(b"\n"):
            raise Ended(*self.end())
        if line.startswith(b"refused "):
            raise Refused(line.decode("latin-1").strip())
        return line[:-1]

    def ask(self, command):
        self.say(command + b"\n")
        return self.hear()

    def report(self, *span):
        """The findings, of the whole trace or at positions from A to B: each position, and what is found there."""
        line, found = self.ask(b" ".join([b"report", *(b"%d" % at for at in span)])), []
        while not line.startswith(b"findings "):
            position, finding = line.decode("latin-1").split(" ", 1)
            found.append((int(position), finding))
            line = self.hear()
        return found

    def told(self, command, end):
        """The reply to a command that ends with a line which begins so, with that line last."""
        lines = [self.ask(command)]
        while not lines[-1].startswith(end + b" "):
            lines.append(self.hear())
        return lines

    def changes(self):
        """The findings that went since the last report, as they were, those that came, and how many there are. None in place of
        both where it had nothing to compare with."""
        line, went, came = self.ask(b"changes"), [], []
        is_compared = line != b"all"
        if not is_compared:
            line = self.hear()
        while not line.startswith(b"findings "):
            sign, position, finding = line.decode("latin-1").split(" ", 2)
            (went if sign == "-" else came).append((int(position), finding))
            line = self.hear()
        return (went, came) if is_compared else None, int(line[len("findings ") :])

    def end(self):
        """Ends it, and answers its status and what it said on standard error."""
        try:
            self.process.stdin.close()
        except BrokenPipeError:
            pass
        said = self.process.stderr.read().decode("utf-8", "backslashreplace")
        return self.process.wait(), said

    def kill(self):
        self.process.kill()
        self.process.wait()


class Session:
    """A trace that capcheck holds, what is found in it, and how to take its edits back."""

    def __init__(self, program, options, trace):
        self.program = program
        self.capcheck = Capcheck([program, "edit", *options, trace])
        self.lines, self.found, self.slow, self.undos = [], None, False, []

    def load(self):
        """Waits until the trace is loaded."""
        reply = self.capcheck.ask(b"count")
        if not re.fullmatch(rb"[0-9]{1,7}", reply):
            raise ValueError(f"{self.program} is not capcheck: it replied {shown(reply)}")
        self.lines = [None] * int(reply)  # the text of each line, once it was asked for
        self.look()

    def report(self):
        """All findings. Where that takes long, edits don't ask for them."""
        start = time.monotonic()
        found = self.capcheck.report()
        self.found, self.slow = len(found), time.monotonic() - start > PATIENCE
        return found

    def look(self):
        """Counts the findings; where memory runs out, how many there are isn't known."""
        try:
            self.report()
        except Refused:
            self.found = None

    def size(self):
        found = "? findings" if self.found is None else many(self.found, "finding")
        return f"{many(len(self.lines), 'line')}, {found}"

    def check(self, position, most=None):
        """Refuses a position that the trace hasn't."""
        if not 1 <= position <= (most or len(self.lines)):
            raise Refused("refused E7")

    def texts(self, first, last):
        """The lines from one position to another, each with its position."""
        for start in range(first, last + 1, BATCH):
            interrupt.look()
            places = range(start, min(start + BATCH, last + 1))
            missing = [at for at in places if self.lines[at - 1] is None]
            self.capcheck.say(b"".join(b"show %d\n" % at for at in missing))
            replies = [self.reply() for _ in missing]
            for at, reply in zip(missing, replies):
                if isinstance(reply, Refused):
                    raise reply
                self.lines[at - 1] = reply
            yield from ((at, self.lines[at - 1]) for at in places)

    def reply(self):
        """A reply of one line, or its refusal: so that the replies after it are read too."""
        try:
            return self.capcheck.hear()
        except Refused as refused:
            return refused

    def text(self, position):
        self.check(position)
        return next(self.texts(position, position))[1]

    def whole(self):
        """The trace as it now is."""
        return b"".join(line + b"\n" for _, line in self.texts(1, len(self.lines)))

    def edit(self, verb, position, line=b""):
        """Makes an edit, and answers the one that takes it back."""
        old = self.text(position) if verb != "insert" else b""
        command = b"%s %d" % (verb.encode(), position)
        reply = self.capcheck.ask(command if verb == "delete" else command + b" " + line)
        self.lines[position - 1 : position - (verb == "insert")] = [None] * (verb != "delete")
        if reply != b"ok %d" % len(self.lines):
            raise ValueError(f"{self.program} replied {shown(reply)} where the trace has {many(len(self.lines), 'line')}")
        return INVERSE[verb], position, old

    def edited(self):
        """Looks at the trace after an edit: the findings that went, as they stood before it, and those that came."""
        before, self.found = self.found, None
        if self.slow:
            return [], []
        start = time.monotonic()
        try:
            changed, self.found = self.capcheck.changes()
        except Refused:
            return [], []
        self.slow = time.monotonic() - start > PATIENCE
        return changed if changed and before is not None else ([], [])


# The commands. Each takes the session and what was typed after its name.

COMMANDS = {}  # by name: how it is written, what it does, and the function that does it


def command(usage, what):
    """Lists a command: how it is written, and what it does."""

    def keep(function):
        COMMANDS[usage.split(" ")[0]] = (usage, what, function)
        return function

    return keep


def positions(typed, least, most):
    """The positions that were typed, so many at least and at most."""
    words = typed.split()
    if not least <= len(words) <= most:
        raise Mistake("")
    for word in words:
        if not re.fullmatch(rb"[0-9]{1,19}", word):
            raise Mistake(f"{shown(word)} is no position")
    return [int(word) for word in words]


def span(session, typed):
    """The positions A and B that were typed, or A twice."""
    first, *last = positions(typed, 1, 2)
    last = last[0] if last else first
    session.check(first)
    session.check(last)
    if last < first:
        raise Mistake(f"line {last} comes before line {first}")
    return first, last


@command("print [A [B]]", "prints lines A to B, line A, or all, each with its findings")
def print_lines(session, typed):
    if not typed and not session.lines:
        return
    first, last = span(session, typed or b"1 %d" % len(session.lines))
    found = {}
    for position, finding in session.capcheck.report(first, last):
        found.setdefault(position, []).append(finding.split(" ", 2)[1:])
    wide = len(str(last))
    for position, line in session.texts(first, last):
        put(f"{position:>{wide}}  {shown(line)}")
        for name, finding in found.get(position, []):
            put(f"{'':>{wide}}  ^ {in_words(name, finding)}")


@command("find TEXT", "prints the lines that have TEXT in them")
def find(session, typed):
    if not typed:
        raise Mistake("")
    count = 0
    for position, line in session.texts(1, len(session.lines)):
        if typed in line:
            put(f"{position}  {shown(line)}")
            count += 1
    put(f"{many(count, 'line')} found")


@command("report [A [B]]", "prints the findings of the whole trace, of line A, or of lines A to B")
def report(session, typed):
    found = session.capcheck.report(*span(session, typed)) if typed else session.report()
    for position, finding in found:
        put(placed(position, finding))
    put(many(len(found), "finding"))


@command("explain K", "prints line K, its findings, and the lines that they rest on")
def explain(session, typed):
    (position,) = positions(typed, 1, 1)
    session.check(position)
    for line in session.capcheck.told(b"explain %d" % position, b"explained")[:-1]:
        put(shown(line))


@command("limits [K]", "prints the least limits as inserts: before line K, or after each line that made a descriptor")
def limits(session, typed):
    asked = positions(typed, 0, 1)
    for position in asked:
        session.check(position)
    for line in session.capcheck.told(b" ".join([b"limits", *(b"%d" % at for at in asked)]), b"limits")[:-1]:
        put(shown(line))


@command("denials", "prints what was lacking for each call that was refused with errno 93 or 94")
def denials(session, typed):
    positions(typed, 0, 0)
    for line in session.capcheck.told(b"denials", b"denials"):
        put(shown(line))


def tell(session, done, verb, position):
    """Says that an edit was made, and what it changed."""
    gone, came = session.edited()
    print(f"{done}: {session.size()}")
    for word, found in (("gone", gone), ("new", came)):
        for each in found[:SHOWN]:
            put(f"{word}: {placed(*each)}")
        if len(found) > SHOWN:
            put(f"{word}: {len(found) - SHOWN:,} more")


def change(session, verb, done, typed):
    """insert, replace and delete."""
    words = typed.split(None, 1)
    if len(words) != (1 if verb == "delete" else 2):
        raise Mistake("")
    (position,) = positions(words[0], 1, 1)
    session.check(position, len(session.lines) + (verb == "insert"))
    session.undos.append(session.edit(verb, position, *words[1:]))
    tell(session, f"{done} line {position}", verb, position)


@command("insert K LINE", "puts LINE at position K; the lines from there on move up by one")
def insert(session, typed):
    change(session, "insert", "inserted", typed)


@command("replace K LINE", "puts LINE in the place of line K; Tab after K puts line K there, to be changed")
def replace(session, typed):
    change(session, "replace", "replaced", typed)


@command("delete K", "takes line K out; the lines after it move down by one")
def delete(session, typed):
    change(session, "delete", "deleted", typed)


@command("undo", "takes the last edit back, then the one before it, and so on")
def undo(session, typed):
    positions(typed, 0, 0)
    if not session.undos:
        raise Mistake("there is no edit to take back")
    verb, position, line = session.undos[-1]
    session.edit(verb, position, line)
    session.undos.pop()
    done = {"insert": "put line {} back", "delete": "took line {} out again", "replace": "put the old line {} back"}[verb]
    tell(session, done.format(position), verb, position)


@command("show K", "prints line K alone")
def show(session, typed):
    (position,) = positions(typed, 1, 1)
    put(shown(session.text(position)))


@command("count", "prints how many lines and findings there are")
def count(session, typed):
    positions(typed, 0, 0)
    put(session.size())


@command("write FILE", "writes the trace as it now is to a new file")
def write(session, typed):
    written(session, typed, "xb")


@command("write! FILE", "the same, also where there is such a file")
def write_over(session, typed):
    written(session, typed, "wb")


def written(session, typed, mode):
    if not typed:
        raise Mistake("")
    name, trace = os.path.expanduser(os.fsdecode(typed)), session.whole()
    try:
        with open(name, mode) as file:
            file.write(trace)
    except FileExistsError:
        raise Mistake(f"there is a file {shown(typed)}: `write! {shown(typed)}` replaces it")
    except (OSError, ValueError) as why:
        raise Mistake(f"{shown(typed)}: {getattr(why, 'strerror', None) or why}")
    put(f"wrote {many(len(session.lines), 'line')}")


@command("help [COMMAND]", "prints the commands, or what COMMAND does")
def print_help(session, typed):
    if typed and typed.decode("latin-1") not in COMMANDS:
        raise Mistake(f"there is no command {shown(typed)}")
    names = [typed.decode("latin-1")] if typed else COMMANDS
    for usage, what, _ in (COMMANDS[name] for name in names):
        put(f"{usage:<16}{what}")
    if not typed:
        put("Positions count the lines from 1, without comments and empty lines.")


@command("quit", "ends the session, as Ctrl-D does; the file was not changed")
def leave(session, typed):
    positions(typed, 0, 0)
    raise EOFError


# What was typed


def reason(refused, typed, session):
    """Why a command was refused, in words."""
    code, words = refused.code, REASONS.get(refused.code, "it was refused")
    if code == "E7":
        last = len(session.lines) + typed.startswith(b"insert")
        words += f": positions go from 1 to {last}" if last else ": the trace is empty"
    elif code == "E4":
        name = re.search(rb" (@?[a-z_][a-z0-9_]*)\(", typed)
        form = FORM_OF.get(name[1].decode()) if name else None
        words += f": {name[1].decode()}{form.replace('NAME', name[1].decode())}" if form else ""
    elif code == "E2":
        words = wrong_marker(typed) or words
    elif code == "E5":
        unknown = wrong_rights(typed)
        words = " and ".join(unknown) if unknown else words
    return f"not done: {words} ({code})"


def wrong_marker(typed):
    """What is wrong with the shape of a marker that was typed after its position and its process."""
    found = re.match(rb"[a-z]+ +[0-9]+ +[0-9]+ (@[^( ]*)", typed)
    if not found:
        return None
    name = shown(found[1])
    if name in FORM_OF:
        return f"a marker is written PID {name}{FORM_OF[name]}, and nothing comes after it"
    near = difflib.get_close_matches(name, [each for each in FORM_OF if each.startswith("@")], 1)
    return f"there is no marker {name}" + (f" (is it {near[0]}?)" if near else "")


def wrong_rights(typed):
    """What is wrong with each right that a line names and that isn't one."""
    named = re.search(rb" (?:cap_rights_limit|@uses|@refused)\([^,]*,([^)]*)", typed)
    wrong = []
    for name in named[1].split(b"|") if named else []:
        name = shown(name)
        near = difflib.get_close_matches(name, RIGHTS, 1)
        if name not in RIGHTS:
            wrong.append(f"{name or 'nothing'} is no right" + (f" (is it {near[0]}?)" if near else ""))
    return wrong


def work(session, typed):
    """Works through a line that was typed, as bytes."""
    typed = typed.strip(b" \t\r\n")
    if not typed or typed.startswith(b"#"):
        return
    name, *rest = typed.split(None, 1)
    name = shown(name)
    if name not in COMMANDS:
        near = difflib.get_close_matches(name, COMMANDS, 1)
        print(f"not done: there is no command {name}" + (f"; is it {near[0]}?" if near else "; `help` lists them"))
        return
    usage, _, function = COMMANDS[name]
    try:
        function(session, rest[0] if rest else b"")
    except Refused as refused:
        print(reason(refused, typed, session))
    except Mistake as why:
        print(f"not done: {why}" if str(why) else f"not done: it is written {usage}")
    except Stopped:
        print("stopped")


def candidates(before, session):
    """What the last word of a line can become, by what is typed so far."""
    words = before.split(" ")
    if len(words) == 1:
        return [name + (" " if " " in usage else "") for name, (usage, _, _) in COMMANDS.items()]
    if words[0] == "help":
        return list(COMMANDS)
    if words[0] in ("write", "write!"):
        return file_names(before.split(" ", 1)[1], re.split(r"[ (,|]", before)[-1])
    if words[0] not in ("insert", "replace"):
        return []
    if words[0] == "replace" and len(words) == 3 and words[2] == "":
        line = session.text(int(words[1])).decode("latin-1")
        return [line] if line.isascii() and line.isprintable() else []
    line = " ".join(words[2:])
    if re.search(r" (?:cap_rights_limit|@uses|@refused)\([^,)]*,[^)]*$", line):
        return RIGHTS
    return [name + "(" for name in FORM_OF] if len(words) == 4 and "(" not in line else []


def file_names(path, word):
    """The files whose names begin so, each from where its last word begins."""
    start = len(path) - len(word)
    names = sorted(glob.glob(glob.escape(os.path.expanduser(path)) + "*"))
    return [(name + "/" if os.path.isdir(name) else name)[start:] for name in names]


class Completer:
    """What Tab finds."""

    def __init__(self, session):
        self.session, self.found = session, []

    def __call__(self, word, number):
        if number == 0:
            interrupt.breaks, self.found = False, []
            try:
                found = candidates(readline.get_line_buffer()[: readline.get_endidx()], self.session)
                self.found = [each for each in found if each.startswith(word)]
            except (Refused, Stopped, ValueError):
                pass
            interrupt.breaks, interrupt.noted = True, False
        return self.found[number] if number < len(self.found) else None


def history_file():
    """Where what was typed is kept, or nowhere."""
    folder = os.environ.get("XDG_STATE_HOME", "")
    folder = folder if os.path.isabs(folder) else os.path.expanduser("~/.local/state")
    return os.path.join(folder, "capcheck", "whatif_history") if os.path.isabs(folder) else None


def remember(history):
    """Reads what was typed in earlier sessions."""
    try:
        if history:
            readline.read_history_file(history)
    except OSError:
        pass
    readline.set_history_length(HISTORY)


def keep(history):
    """Keeps what was typed, where that can be written."""
    try:
        if history:
            os.makedirs(os.path.dirname(history), mode=0o700, exist_ok=True)
            readline.write_history_file(history)
    except OSError:
        pass


def prepare(session):
    """Completion."""
    readline.set_completer(Completer(session))
    readline.set_completer_delims(" (,|")
    readline.parse_and_bind("bind ^I rl_complete" if "libedit" in (readline.__doc__ or "") else "tab: complete")


def typed_lines(session):
    """Each line that a person types."""
    while True:
        try:
            interrupt.breaks = True
            line = input(session.size() + "> ")
        except EOFError:
            print()
            return
        except KeyboardInterrupt:
            print()
            continue
        finally:
            interrupt.breaks = interrupt.noted = False
        # What is pasted can be several lines, each with a command.
        for each in line.encode(sys.stdin.encoding, "surrogateescape").split(b"\n"):
            yield each
            if interrupt.noted:
                break


def talk(session, name):
    """A session with a person."""
    history = history_file()
    if readline:
        prepare(session)
        remember(history)
    print(f"{name}: {session.size()}; `help` lists the commands")
    try:
        for line in typed_lines(session):
            work(session, line)
    except EOFError:
        pass
    finally:
        if readline:
            keep(history)


def work_through(session, script):
    """A session with a script."""
    try:
        for line in script:
            work(session, line)
            sys.stdout.flush()
    except EOFError:
        pass


# The command line


def beside(name):
    """The program of that name in this one's folder, else the one on PATH."""
    own = os.path.join(os.path.dirname(os.path.realpath(__file__)), name)
    return own if os.path.isfile(own) and os.access(own, os.X_OK) else name


def refused_line(plan, refused):
    """Says at which line a trace or a start was refused, why, and what is there."""
    reasons, path = (START_REASONS, plan.start) if refused.is_start else (REASONS, plan.trace)
    words = reasons.get(refused.code, "it was refused")
    if refused.code in ("E2", "E3") and not refused.is_start:
        words += " (a recording of truss? capcheck-truss makes a trace of one)"
    where = f"{path}:{refused.line}" if refused.line else path
    print(f"{SELF}: {where}: {words} ({refused.code})", file=sys.stderr)
    if refused.line and os.path.isfile(path):
        with open(path, "rb") as file:
            line = next(itertools.islice(file, int(refused.line) - 1, None), b"")
        print(f"    {shown(line[:200].rstrip())}", file=sys.stderr)


def unopened(plan, why):
    """Why a trace or a start can't be opened or read, in the system's words where it has some."""
    for path in filter(None, (plan.start, plan.trace)):
        try:
            os.close(os.open(path, os.O_RDONLY | os.O_NONBLOCK))
        except OSError as error:
            return f"{path}: {error.strerror}"
    return f"{plan.trace}: {why}"


def file_named(name):
    """A file as capcheck takes its name."""
    return name if name.startswith("/") else os.path.join(".", name)


def plan_of():
    words = argparse.ArgumentParser(
        prog=SELF, description="Changes a trace and asks what is found then, at a terminal or by a script.",
        epilog=f"`help` in a session lists its commands. The status is that of capcheck. Example: {SELF} server.trace")
    words.add_argument("trace", nargs="?", help="the trace; the file itself is not changed")
    words.add_argument("-p", "--profile", choices=["1", "2"], help="passed on to capcheck")
    words.add_argument("-s", "--start", metavar="FILE", help="what is known before the trace, passed on to capcheck")
    words.add_argument("--capcheck", metavar="PATH", default=beside("capcheck"),
                       help="the program capcheck; by default the one beside this program, else the one on PATH")
    words.add_argument("--version", action="store_true", help="print the version of capcheck")
    plan = words.parse_args()
    if not plan.version and plan.trace in (None, "-"):
        words.error("a trace must be named, as a file")
    if plan.start == "-":
        words.error("a start must be a file")
    return plan


def run(plan):
    if plan.version:
        return subprocess.run([plan.capcheck, "--version"]).returncode
    if not sys.stdin or not sys.stdout:
        raise ValueError("standard input and output must be open")
    options = ["--profile", plan.profile] if plan.profile else []
    options += ["--start", file_named(plan.start)] if plan.start else []
    session = Session(plan.capcheck, options, file_named(plan.trace))
    sys.stdin.reconfigure(errors="surrogateescape")
    sys.stdout.reconfigure(errors="backslashreplace")
    try:
        session.load()
        if sys.stdin.isatty() and sys.stdout.isatty():
            signal.signal(signal.SIGINT, interrupt)
            talk(session, plan.trace)
        else:
            work_through(session, sys.stdin.buffer)
        sys.stdout.flush()
        return ended(*session.capcheck.end())
    except Refused as refused:
        refused_line(plan, refused)
        return 2
    except Ended as why:
        print(f"{SELF}: {unopened(plan, why) if why.code == 'E11' else why}", file=sys.stderr)
        return 3
    finally:
        session.capcheck.kill()


def ended(status, said):
    """The status of a session whose capcheck ended so."""
    if status in (0, 1):
        return status
    raise Ended(status, said)


def main():
    try:
        sys.exit(run(plan_of()))
    except KeyboardInterrupt:
        sys.exit(130)
    except BrokenPipeError:
        sys.stdout = None
        sys.exit(3)
    except FileNotFoundError:
        print(f"{SELF}: there is no program capcheck beside this one or on PATH; --capcheck names one", file=sys.stderr)
        sys.exit(3)
    except (OSError, ValueError) as why:
        print(f"{SELF}: {why}", file=sys.stderr)
        sys.exit(3)


if __name__ == "__main__":
    main()
