"""What the program says of devices that fail.

Each row has a device, and the error of the call on it that fails. By `-v` the program says in words what kind of error
that is. Where it has no kind for an error it says what the system calls it, with its number. Where SYSTEM is FreeBSD, in the
environment, the program is one for it under tests/freebsd/translate.c: names and numbers are those of tests/freebsd/errors.h.

The texts of kinds are those that Rust has for them.
"""

import errno
import fcntl
import os
import re
import resource
import select
import shutil
import signal
import socket
import struct

import harness

KINDS = {
    "ENOENT": "no such file or directory", "EISDIR": "is a directory", "ENOTDIR": "not a directory",
    "EACCES": "permission denied", "EPERM": "permission denied", "EPIPE": "broken pipe",
    "ENAMETOOLONG": "invalid filename",
    "ELOOP": "filesystem loop or indirection limit (e.g. symlink loop)", "ENOSPC": "no space left on device",
    "EAGAIN": "operation would block", "EFBIG": "file too large", "EINVAL": "invalid input parameter",
    "ECONNRESET": "connection reset", "ECONNREFUSED": "connection refused", "ENOTCONN": "not connected",
}  # fmt: skip
# On FreeBSD their numbers are those of other errors on Linux, of which there is a kind: so they are shown below 0.
BELOW_0 = ("ENOTSOCK", "EDESTADDRREQ", "EMSGSIZE", "ENOTRECOVERABLE")
NOBODY = 65534
IN, OUT = "standard input", "standard output"


opened = []  # what a row keeps open


def kept(it):
    """What a row opened, until the row has ended."""
    opened.append(it)
    return it


def file(path, flags=os.O_RDONLY):
    return kept(os.open(path, flags))


def pipe(end, *, is_full=False, is_broken=False):
    """An end of a pipe: 0 to read, 1 to write. It never waits, unless the other end is closed."""
    ends = os.pipe()
    kept(ends[end])
    os.close(ends[1 - end]) if is_broken else kept(ends[1 - end])
    os.set_blocking(ends[end], is_broken)
    try:
        while is_full:
            os.write(ends[1], b"x" * 4096)
    except BlockingIOError:
        pass
    return ends[end]


def reset():
    """A connection that the other side has reset."""
    with socket.socket() as door:
        door.bind(("127.0.0.1", 0))
        door.listen(1)
        mine, other = kept(socket.create_connection(door.getsockname())), door.accept()[0]
    other.setsockopt(socket.SOL_SOCKET, socket.SO_LINGER, struct.pack("ii", 1, 0))
    other.close()
    select.select([mine], [], [], 10)
    return mine


def datagrams(*, to=None):
    """A socket for datagrams, by UDP: to nobody, to itself, or to where it was refused."""
    it = kept(socket.socket(socket.AF_INET, socket.SOCK_DGRAM))
    if to:
        it.bind(("127.0.0.1", 0))
        it.connect(it.getsockname())
    if to == "refuses":
        with socket.socket(socket.AF_INET, socket.SOCK_DGRAM) as gone:
            gone.bind(("127.0.0.1", 0))
            it.connect(gone.getsockname())
        it.send(b"x")
        select.select([it], [], [], 10)
    return it


def sealed():
    """A file in memory that may not be written to."""
    it = kept(os.memfd_create("sealed", os.MFD_ALLOW_SEALING))
    fcntl.fcntl(it, 1033, 8)  # F_ADD_SEALS, F_SEAL_WRITE
    return it


def limited(what, most):
    signal.signal(signal.SIGXFSZ, signal.SIG_IGN)
    resource.setrlimit(what, (most, most))


def as_nobody():
    if os.geteuid() == 0:
        os.setuid(NOBODY)


# What the row is, the words of the command, what else is special, what fails, and by which error; or the status.
ROWS = (
    ("a link", ["link"], {}, None, 1),
    ("no such file", ["none"], {}, "none", "ENOENT"),
    ("an empty name", [""], {}, "", "ENOENT"),
    ("a folder", ["/"], {}, "/", "EISDIR"),
    ("a folder as the start", ["trace", "-s", "/"], {}, "/", "EISDIR"),
    ("a link to itself", ["loop"], {}, "loop", "ELOOP"),
    ("a file as a folder", ["trace/x"], {}, "trace/x", "ENOTDIR"),
    ("a long name", ["x" * 300], {}, "x" * 300, "ENAMETOOLONG"),
    ("a socket with a name", ["socket"], {}, "socket", "ENXIO"),
    ("no terminal", ["/dev/tty"], {"before": os.setsid}, "/dev/tty", "ENXIO"),
    ("memory at 0", ["/proc/self/mem"], {}, "/proc/self/mem", "EIO"),
    ("a file of someone else", ["secret"], {"before": as_nobody}, "secret", "EACCES"),
    ("too many files", ["trace", "trace"], {"command": "edit", "before": lambda: limited(resource.RLIMIT_NOFILE, 4)}, "trace", "EMFILE"),
    ("no input", [], {"before": lambda: os.close(0)}, IN, "EBADF"),
    ("no output", ["trace"], {"before": lambda: os.close(1)}, OUT, "EBADF"),
    ("input that is there to write", [], {"stdin": lambda: file(os.devnull, os.O_WRONLY)}, IN, "EBADF"),
    ("output that is there to read", ["trace"], {"stdout": lambda: file(os.devnull)}, OUT, "EBADF"),
    ("a folder as input", [], {"stdin": lambda: file("/")}, IN, "EISDIR"),
    ("a device that can't be read", [], {"stdin": lambda: kept(select.epoll())}, IN, "EINVAL"),
    ("an empty pipe", [], {"stdin": lambda: pipe(0)}, IN, "EAGAIN"),
    ("a reset connection", [], {"stdin": reset}, IN, "ECONNRESET"),
    ("no connection", [], {"stdin": lambda: kept(socket.socket())}, IN, "ENOTCONN"),
    ("nobody who sends", [], {"stdin": lambda: datagrams(to="refuses")}, IN, "ECONNREFUSED"),
    ("a full disk", ["trace"], {"stdout": lambda: file("/dev/full", os.O_WRONLY)}, OUT, "ENOSPC"),
    ("a broken pipe", ["trace"], {"stdout": lambda: pipe(1, is_broken=True)}, OUT, "EPIPE"),
    ("a full pipe", ["trace"], {"stdout": lambda: pipe(1, is_full=True)}, OUT, "EAGAIN"),
    ("a full file", ["trace"], {"stdout": lambda: file("out", os.O_WRONLY), "before": lambda: limited(resource.RLIMIT_FSIZE, 10)}, OUT, "EFBIG"),
    ("a sealed file", ["trace"], {"stdout": sealed}, OUT, "EPERM"),
    ("a connection that was reset", ["trace"], {"stdout": reset}, OUT, "ECONNRESET"),
    ("nobody who listens", ["trace"], {"stdout": lambda: datagrams(to="refuses")}, OUT, "ECONNREFUSED"),
    ("nobody to send to", ["trace"], {"stdout": datagrams}, OUT, "EDESTADDRREQ"),
    ("a report too long for a datagram", ["long"], {"stdout": lambda: datagrams(to="itself")}, OUT, "EMSGSIZE"),
)


def of_freebsd():
    """The number and the text of each error of FreeBSD."""
    found = re.findall(r'^(?:BOTH|OWN)\((\w+), (\d+), "(.*)"\)$', harness.text_of(f"{harness.HERE}/freebsd/errors.h"), re.M)
    return {name: (-int(number) if name in BELOW_0 else int(number), text) for name, number, text in found}


def words_for(name, known):
    """A pattern of what the program says of an error. C libraries of Linux have different words for one."""
    if name in KINDS:
        return re.escape(KINDS[name])
    number, text = known[name] if known else (getattr(errno, name), None)
    return rf"{re.escape(text) if text else '[A-Z][ -~]*'} \(os error {number}\)"


def answer(program, words, how):
    """The answer of the program with such a device."""
    try:
        stdin, stdout = how.get("stdin", lambda: harness.DEVNULL)(), how.get("stdout")
        devices = {"stdin": stdin, **({"stdout": stdout()} if stdout else {})}
        return harness.run([program, how.get("command", "check"), "-v", *words], preexec_fn=how.get("before"), timeout=60, **devices)
    finally:
        while opened:
            it = opened.pop()
            os.close(it) if isinstance(it, int) else it.close()


def answers(program, known):
    """Of each row its name, the status and the patterns of output and of what is said, and the answer."""
    for name, words, how, where, wanted in ROWS:
        ends = (1, "2 100 write closed 7\nfindings 1\n", "")
        if isinstance(wanted, str):
            ends = (3, "", rf"capcheck: {re.escape(where)}: {words_for(wanted, known)}\ncapcheck: {'E12' if where == OUT else 'E11'}\n")
        got = answer(program, words, how)
        is_right = got[:2] == ends[:2] and re.fullmatch(ends[2], got.said)
        yield name, ends, got, bool(is_right)


def prepare(program):
    """The files of the rows, in this folder, which anybody may enter; and the program, where another user may run it."""
    os.chmod(".", 0o755)
    for name, count in (("trace", 1), ("out", 0), ("secret", 0), ("long", 5000)):
        harness.save(name, ("100 @start(0)\n" + "100 write(7) RET 1\n" * count) * bool(count))
    os.symlink("trace", "link")
    os.symlink("loop", "loop")
    os.chmod("secret", 0)
    with socket.socket(socket.AF_UNIX) as it:
        it.bind("socket")
    return shutil.copy(program, "./program")


class Devices(harness.Test):
    def test_devices(self):
        known = of_freebsd() if os.environ.get("SYSTEM") == "FreeBSD" else None
        for name, wanted, got, is_right in answers(prepare(harness.program()), known):
            self.same(f"{name}, by the pattern of what is said", wanted, wanted if is_right else got, "devices")
