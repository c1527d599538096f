"""How the tests run the program, its tools and a C compiler, and say what differs. Nothing else in tests/ starts the program.

tests/run.py names the program, in the environment as CAPCHECK. A class of tests is a `Test`, and runs in a folder of its own.
`same` compares and goes on, so one run tells all that differs. What is tried is counted by kind, for the end of tests/run.py.
"""

import collections
import difflib
import fcntl
import os
import pty
import random
import select
import shutil
import signal
import struct
import subprocess
import tempfile
import termios
import time
import unittest
from typing import NamedTuple

import compiler

HERE = os.path.dirname(os.path.abspath(__file__))
ROOT = os.path.dirname(HERE)
PATIENCE = 60.0  # seconds for what must come
QUIET = 0.3  # seconds in which nothing may come
DEVNULL, STDOUT, NotStarted = subprocess.DEVNULL, subprocess.STDOUT, subprocess.SubprocessError  # for those that run something
TOOLS = {"annotate": "annotate.py", "truss2trace": "truss2trace.py", "whatif": "whatif.py"}
tried = collections.Counter()  # how much was tried, by kind
left_out = []  # what can't be tried here, and why


class Answer(NamedTuple):
    """How a run ended."""

    status: int
    out: str
    said: str


def program():
    """The path of the program."""
    return os.environ["CAPCHECK"]


def words_of(words):
    """The words of a command, where the first may be the program or one of its tools."""
    first, *others = words
    asks = ["--capcheck", program()] if first in ("annotate", "whatif") else []
    return [program() if first == "capcheck" else f"{ROOT}/contrib/{TOOLS[first]}" if first in TOOLS else first, *asks, *others]


def run(words, given="", encoding="latin1", **how):
    """Runs a command, as ["capcheck", "check", "trace"], to its end. `how` is as for subprocess.run."""
    if "stdin" not in how:
        how["input"] = given if isinstance(given, bytes) else given.encode(encoding, "surrogateescape")
    how = {"stdout": subprocess.PIPE, "stderr": subprocess.PIPE, "timeout": 300, **how}
    done = subprocess.run(words_of(words), **how)
    out, said = ((text or b"").decode(encoding, "surrogateescape") for text in (done.stdout, done.stderr))
    return Answer(done.returncode, out, said)


def capcheck(*words, given="", **how):
    """Runs the program."""
    return run(["capcheck", *words], given, **how)


def heard_at(terminal):
    """What comes from a terminal: nothing at the end, where Linux answers an error."""
    try:
        return os.read(terminal, 65_536)
    except OSError:
        return b""


def on_terminal(words, given="", stdout=subprocess.PIPE):
    """Runs the program where standard error is a terminal."""
    ours, theirs = pty.openpty()
    answer = run(words, given, stdout=stdout, stderr=theirs)
    os.close(theirs)
    said = b"".join(iter(lambda: heard_at(ours), b"")).decode("latin1")
    os.close(ours)
    return answer._replace(said=said.replace("\r\n", "\n"))


def started(words, **how):
    """A process that runs a command beside this one, with pipes where nothing else is said."""
    pipes = {name: subprocess.PIPE for name in ("stdin", "stdout", "stderr")}
    return subprocess.Popen(words_of(words), **{**pipes, "bufsize": 0, **how})


def save(name, text):
    """Writes a file, and answers its name."""
    os.makedirs(os.path.dirname(name) or ".", exist_ok=True)
    with open(name, "wb") as file:
        file.write(text if isinstance(text, bytes) else text.encode("latin1"))
    return name


def text_of(path, encoding="utf-8"):
    """What a file has."""
    with open(path, encoding=encoding, newline="") as file:
        return file.read()


def difference(wanted, got):
    """What differs, as a diff."""
    texts = [text if isinstance(text, str) else "".join(f"{part}\n" for part in text) if isinstance(text, tuple) else repr(text) for text in (wanted, got)]
    lines = difflib.unified_diff(*(text[:100_000].splitlines() for text in texts), "wanted", "printed", lineterm="", n=2)
    return "\n".join(line[:400] for line in list(lines)[:60])


class Lost(Exception):
    """What had to come didn't."""


class Talk:
    """A command with pipes: each line is written when the reply to the one before it was read."""

    def __init__(self, *words, **how):
        self.process = started(words, **how)

    def __enter__(self):
        return self

    def __exit__(self, *why):
        self.process.kill()
        self.process.__exit__(*why)

    def say(self, text):
        self.process.stdin.write(text.encode("latin1"))

    def close(self):
        """Ends what is said."""
        self.process.stdin.close()

    def more(self, seconds):
        """What comes in this time: nothing, the end as "", or some text."""
        ready, _, _ = select.select([self.process.stdout], [], [], max(0.0, seconds))
        return os.read(self.process.stdout.fileno(), 65_536).decode("latin1") if ready else None

    def hear(self, wanted):
        """Waits for a reply, which is this one."""
        heard, end = "", time.monotonic() + PATIENCE
        while heard != wanted:
            more = self.more(end - time.monotonic())
            heard += more or ""
            if not more or not wanted.startswith(heard):
                raise Lost(f"wanted {wanted!r}, heard {heard!r}{'' if more else ', and then nothing' if more is None else ', and then the end'}")

    def ends(self, status, said=""):
        """Waits for the program's end, with this status, and with this on standard error."""
        if not self.process.stdout.closed:
            self.hear_end()
        got = self.process.wait(PATIENCE), self.process.stderr.read().decode("latin1")
        if got != (status, said):
            raise Lost(f"wanted {(status, said)} at the end, got {got}")

    def hear_end(self):
        if (more := self.more(PATIENCE)) != "":
            raise Lost(f"wanted the end, heard {more!r}")

    def hear_nothing(self):
        """Nothing comes for a while."""
        if (more := self.more(QUIET)) is not None:
            raise Lost(f"wanted nothing yet, heard {more!r}")


class Terminal:
    """A command at a pseudo-terminal of 400 columns."""

    def __init__(self, words, environment, folder="."):
        self.seen, self.status = "", None
        self.pid, self.fd = pty.fork()
        if self.pid == 0:
            signal.signal(signal.SIGINT, signal.SIG_DFL)  # a shell has it ignored in what it runs in the background
            os.chdir(folder)
            fcntl.ioctl(0, termios.TIOCSWINSZ, struct.pack("HHHH", 50, 400, 0, 0))
            os.execvpe(words_of(words)[0], words_of(words), environment)

    def __enter__(self):
        return self

    def __exit__(self, *_):
        os.close(self.fd)
        if self.status is None:
            os.kill(self.pid, signal.SIGKILL)
            os.waitpid(self.pid, 0)

    def type(self, text):
        os.write(self.fd, text.encode("utf-8", "surrogateescape"))

    def more(self, end):
        """Reads on; "" at the end of all."""
        if not select.select([self.fd], [], [], max(0.0, end - time.monotonic()))[0]:
            raise Lost(f"wanted more, seen {self.seen!r}")
        return heard_at(self.fd).decode("utf-8", "surrogateescape")

    def until(self, wanted, patience=PATIENCE):
        """Waits until this is seen, and answers what came before it."""
        end = time.monotonic() + patience
        while wanted not in self.seen:
            if not (more := self.more(end)):
                raise Lost(f"wanted {wanted!r}, seen {self.seen!r}, and then the end")
            self.seen += more.replace("\r", "").replace("\x07", "")
        before, _, self.seen = self.seen.partition(wanted)
        return before

    def ends(self):
        """Waits for the end, and answers the status and what was still printed."""
        end = time.monotonic() + PATIENCE
        while more := self.more(end):
            self.seen += more.replace("\r", "")
        self.status = os.waitstatus_to_exitcode(os.waitpid(self.pid, 0)[1])
        return self.status, self.seen


class Test(unittest.TestCase):
    """Tests in a folder of their own. Long ones are begun before others. A library that they load into the program is named."""

    is_long, of_program, loads, library = False, True, None, None

    @classmethod
    def setUpClass(cls):
        cls.folder = tempfile.mkdtemp()
        cls.addClassCleanup(shutil.rmtree, cls.folder, ignore_errors=True)
        os.chdir(cls.folder)
        cls.library = compiler.library(cls.loads, cls.folder) if cls.loads else None

    def same(self, what, wanted, got, kind=None):
        """Compares, tells what differs, and goes on. One more of this kind was tried."""
        tried[kind or "comparisons"] += 1
        with self.subTest(what):
            if wanted != got:
                self.fail(f"{what}:\n{difference(wanted, got)}")


def seed():
    """What random tests begin with: the number after --seed, or 1."""
    return int(os.environ.get("SEED", "1"))


def rng(of):
    """Random numbers for a test, by the seed."""
    return random.Random(f"{of} {seed()}")
