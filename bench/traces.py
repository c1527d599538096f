"""Traces to time the program on, each made anew from a fixed seed."""

import random
import re


def quiet(lines):
    """Sixteen processes that limit their descriptors, then read and write within their rights."""
    rng = random.Random(1)
    out = []
    pids = range(100, 116)
    for pid in pids:
        out.append(f"{pid} @start(0,1,2,3,4,5,6,7)")
        out.append(f"{pid} cap_rights_limit(0,CAP_READ|CAP_FSTAT) RET 0")
        out.append(f"{pid} cap_rights_limit(1,CAP_WRITE|CAP_FSTAT) RET 0")
    while len(out) < lines:
        pid = rng.choice(pids)
        kind = rng.random()
        if kind < 0.50:
            out.append(f"{pid} read({rng.choice((0, 3, 4, 5))}) RET {rng.randrange(65536)}")
        elif kind < 0.95:
            out.append(f"{pid} write({rng.choice((1, 3, 4, 5))}) RET {rng.randrange(65536)}")
        elif kind < 0.98:
            out.append(f"{pid} read(6) RET -1 errno 35")
        elif kind < 0.99:
            out.append(f"{pid} cap_rights_limit(7,CAP_READ|CAP_WRITE|CAP_SEEK) RET 0")
        else:
            out.append(f"{pid} close(2) RET -1 errno 9")
    return out[:lines]


def loud(lines):
    """A trace as that of `quiet`, where each twentieth line is a finding."""
    rng = random.Random(2)
    out = quiet(lines)
    for at in range(64, len(out), 20):
        out[at] = f"{rng.randrange(100, 116)} write(0) RET 1"
    return out


def ten(lines):
    """The first, with ten findings, far from one another."""
    out = quiet(lines)
    for place in range(10):
        out[64 + place * (len(out) - 64) // 10] = "100 write(0) RET 1"
    return out


def used(lines):
    """As the trace of `quiet`, with rights to wait for descriptors, and a marker of needs after each second line."""
    out = []
    for at, line in enumerate(quiet(lines)):
        out.append(line.replace("CAP_FSTAT", "CAP_EVENT"))
        if at % 2:
            fd = (re.findall(r" (?:read|write)\((\d)\)", line) or ["3"])[0]
            rights = "CAP_READ|CAP_SEEK" if at % 8 == 7 and int(fd) > 2 else "CAP_EVENT"
            out.append(f"{line.split(' ')[0]} @uses({fd},{rights})")
    return out[:lines]


def wide(lines):
    """A hundred processes, each with a thousand descriptors."""
    rng = random.Random(3)
    out = [f"{pid} @start()" for pid in range(100, 200)]
    for pid in range(100, 200):
        for fd in range(1000):
            out.append(f"{pid} cap_rights_limit({fd},CAP_READ|CAP_WRITE) RET 0")
    while len(out) < lines:
        out.append(f"{rng.randrange(100, 200)} read({rng.randrange(1000)}) RET 1")
    return out[:lines]


def descriptors(lines):
    """One process with a hundred thousand descriptors, each limited and then used."""
    rng = random.Random(5)
    out = ["100 @start(0)"]
    out += [f"100 dup2(0,{fd}) RET {fd}" for fd in range(1, 100_000)]
    out += [f"100 cap_rights_limit({fd},CAP_READ|CAP_WRITE) RET 0" for fd in range(100_000)]
    while len(out) < lines:
        out.append(f"100 read({rng.randrange(100_000)}) RET 1")
    return out[:lines]


# Calls of a process of `forms`, with the weight of each, and below what its numbers are.
USUAL = (
    (20, "read({}) RET {}", 5, 65_536),
    (20, "write({}) RET {}", 3, 65_536),
    (6, "fstat({}) RET 0", 5),
    (5, "lseek(3) RET {}", 1 << 30),
    (5, "recvfrom(4) RET {}", 2_048),
    (5, "sendto(4,DEST) RET {}", 2_048),
    (2, "ioctl(0) RET -1 errno 25"),
    (3, "fcntl(3,F_GETFL) RET 2"),
    (4, "mmap(3,PROT_READ,MAP_PRIVATE) RET 34366103552"),
    (4, 'fstatat(3,"share/{}",AT_SYMLINK_NOFOLLOW) RET 0', 100),
    (3, 'stat("/usr/lib/libc.so.{}") RET 0', 10),
    (6, "kevent(5,0,16) RET 3"),
    (3, "getpid() RET 100"),
    (0.5, "fchmod(3) RET 0"),
)
OPENS = ('openat(3,"{path}",O_RDONLY|O_CLOEXEC)', 'open("/{path}",O_RDONLY)', "dup2(0,{fd})")


def forms(lines):
    """Sixteen processes and calls of every shape: on descriptors, by path, at a directory, forks and exits.

    They keep to their rights, so that little is found: a read of a directory now and then, which it may not give.
    """
    rng = random.Random(4)
    pids = range(100, 116)
    out = [f"{pid} @start(0,1,2,3)" for pid in pids]
    out += [f"{pid} socket(PF_INET|SOCK_STREAM) RET 4" for pid in pids]
    out += [f"{pid} cap_rights_limit(3,CAP_LOOKUP|CAP_READ|CAP_FSTAT|CAP_SEEK|CAP_FCNTL|CAP_MMAP_R) RET 0" for pid in pids]
    opened = {pid: [] for pid in pids}
    weights = [weight for weight, *_ in USUAL]
    child = 1000
    while len(out) < lines:
        pid = rng.choice(pids)
        mine = opened[pid]
        kind = rng.random()
        if kind < 0.002:
            child += 1
            out += [f"{pid} fork() RET {child}", f"{child} read(0) RET 1", f"{child} @exit()"]
        elif kind < 0.08 and len(mine) < 30:
            fd = next(fd for fd in range(5, 64) if fd not in mine)
            mine.append(fd)
            path = f"share/locale/{rng.randrange(100)}"
            out.append(f"{pid} {rng.choice(OPENS).format(path=path, fd=fd)} RET {fd}")
        elif kind < 0.15 and mine:
            out.append(f"{pid} close({mine.pop(rng.randrange(len(mine)))}) RET 0")
        else:
            _, call, *below = rng.choices(USUAL, weights)[0]
            out.append(f"{pid} {call.format(*map(rng.randrange, below))}")
    return out[:lines]


# Calls of a process of `mixed` on a descriptor, with the right that each needs and its weight; then the parts of others.
AT_FD = (
    ("read({}) RET {n}", "CAP_READ", 16), ("write({}) RET {n}", "CAP_WRITE", 13), ("writev({}) RET {n}", "CAP_WRITE", 6),
    ("pread({}) RET {n}", "CAP_PREAD", 5), ("pwrite({}) RET {n}", "CAP_PWRITE", 6), ("lseek({}) RET {n}", "CAP_SEEK", 5),
    ("fstat({}) RET {n}", "CAP_FSTAT", 5), ("fcntl({},F_GETFL) RET 2", "CAP_FCNTL", 1), ("fcntl({},F_SETFD,FD_CLOEXEC) RET 0", None, 1),
    ("mmap({},PROT_READ|PROT_WRITE,MAP_SHARED) RET 3{n}59616", "CAP_MMAP_RW", 2),
)
LIMITS = ("CAP_PREAD|CAP_FSTAT|CAP_EVENT|CAP_FCNTL", "CAP_PWRITE|CAP_FSTAT|CAP_FSYNC", "CAP_READ|CAP_WRITE|CAP_SEEK|CAP_FSTAT|CAP_EVENT")
FREE = ("clock_gettime(4) RET 0", "_umtx_op(0x8012a,15,0,0) RET -1 errno 60", "kevent(7,0x820c4f,1,0x820c6f,64) RET {n}")
PATHS = ("/etc/ssl/openssl.cnf", "/usr/local/lib/libcrypto.so.30", "/dev/null", "/var/log/messages", "/srv/www/work/project/src/main.c", "/run/x")
FILES = ("index.html", "data/part-0001", "img/logo.png", "x.tmp")
BY_PATH = ("stat", "lstat", "access", "readlink")


def with_new(fds, call, limit=""):
    """A call that makes a descriptor, the lowest that is free below 64, with a limit; nothing where none is free."""
    fd = next((fd for fd in range(64) if fd not in fds), None)
    if fd is None:
        return ""
    fds[fd] = limit
    return f"{call} RET {fd}"


def call_of_mixed(rng, kind, fds, fd, n, is_inside):
    """A call of a process with these descriptors, by their limits, or nothing."""
    if kind < 0.06:
        return rng.choice(FREE).format(n=n % 64)
    if kind < 0.10:
        return f'{rng.choice(BY_PATH)}("{rng.choice(PATHS)}") RET {"-1 errno 94" if is_inside else "0"}'
    if kind < 0.21:
        call = f'open("{rng.choice(PATHS)}",O_RDWR|O_CREAT|O_CLOEXEC)'
        fails = is_inside or rng.random() < 0.1
        return f"{call} RET -1 errno {94 if is_inside else 2}" if fails else with_new(fds, call)
    if kind < 0.235:
        return with_new(fds, "socket(PF_INET|SOCK_CLOEXEC)")
    if kind < 0.255:
        return with_new(fds, f"dup({fd})", fds[fd])
    if kind < 0.29 and not fds[fd]:
        return with_new(fds, f'openat({fd},"{rng.choice(FILES)}",O_RDONLY|O_CLOEXEC)')
    if kind < 0.325:
        fds[fd] = fds[fd] or rng.choice(LIMITS)
        return f"cap_rights_limit({fd},{fds[fd]}) RET 0"
    if kind < 0.46 and len(fds) > 3:
        del fds[fd]
        return f"close({fd}) RET 0"
    within = [call for call in AT_FD if not fds[fd] or call[1] in (None, *fds[fd].split("|")) or rng.random() < 0.003]
    return rng.choices(within, [weight for _, _, weight in within])[0][0].format(fd, n=n)


def mixed(lines):
    """Sixteen processes at a time, with up to 64 descriptors each, and calls of every shape; each process that exits is replaced by
    a child of another. A few enter capability mode, and what it forbids is refused there."""
    rng = random.Random(16)
    out = [f"{pid} @start(0,1,2)" for pid in range(100, 116)]
    held = {pid: {0: "", 1: "", 2: ""} for pid in range(100, 116)}
    inside = set()
    child = 116
    while len(out) < lines:
        pid = rng.choice(tuple(held))
        fds = held[pid]
        fd = rng.choice(tuple(fds))
        n = rng.randrange(65536)
        kind = rng.random()
        if kind < 0.004 and pid not in inside:
            held[child] = dict(fds)
            gone = rng.choice(tuple(held))
            del held[gone]
            out += [f"{pid} fork() RET {child}", f"{gone} @exit()"]
            child += 1
        elif kind < 0.0044:
            inside.add(pid)
            out.append(f"{pid} cap_enter() RET 0")
        elif call := call_of_mixed(rng, kind, fds, fd, n, pid in inside):
            out.append(f"{pid} {call}")
    return out[:lines]


def crowd(lines):
    """A thousand processes that each make a thousand descriptors."""
    out = []
    for pid in range(1, 1001):
        out.append(f"{pid} @start()")
        out += [f"{pid} socket(0) RET {fd}" for fd in range(lines // 1000 - 1)]
    return out[:lines]


def hostile(lines):
    """One process makes many descriptors, half as many as there are lines to be, and then forks and closes one in turn,
    which copies what the child no longer shares. There are fewer such pairs than lines, for the sake of memory."""
    out = ["100 @start()"]
    out += [f"100 socket(0) RET {fd}" for fd in range(lines // 2)]
    for pair in range(lines // 200):
        out += [f"100 fork() RET {1000 + pair}", f"100 close({pair}) RET 0"]
    return out


# The last descriptor that a process can have, and the last pid.
LAST_FD = 1_048_575
LAST_PID = 99_999


def scattered(count, shift):
    """As many descriptors, far from one another."""
    step = LAST_FD // max(count, 1)
    return [place * step + shift % step for place in range(count)]


def pairs(lines):
    """One process makes many descriptors, half as many as there are lines to be; then it forks and the child closes one, in
    turn, with pids used again."""
    out = ["100 @start()"]
    out += [f"100 socket(0) RET {fd}" for fd in range(lines // 2)]
    pair = 0
    while len(out) < lines:
        child = 1000 + pair % 90_000
        out += [f"100 fork() RET {child}", f"{child} close({pair * 7 % (lines // 2)}) RET 0"]
        pair += 1
    return out[:lines]


def spread(lines):
    """As many processes as there can be; each makes ten descriptors or more, far from one another."""
    each = -(-lines // LAST_PID)
    return [f"{pid} socket(0) RET {fd}" for pid in range(1, LAST_PID + 1) for fd in scattered(each, 64 * pid)][:lines]


def closes(lines):
    """One process forks again and again, and each child closes ten descriptors far from one another."""
    out = ["1 @start()"]
    child = 2
    while len(out) < lines:
        out.append(f"1 fork() RET {child}")
        out += [f"{child} close({fd}) RET 0" for fd in scattered(10, child)]
        child = child + 1 if child < LAST_PID else 2
    return out[:lines]


def socketpairs(lines):
    """One process forks again and again, and each child makes eighteen descriptors far from one another by nine calls."""
    out = ["1 @start()"]
    child = 2
    while len(out) < lines:
        out.append(f"1 fork() RET {child}")
        fds = scattered(18, child)
        out += [f"{child} socketpair(0) RET {a},{b}" for a, b in zip(fds[::2], fds[1::2])]
        child = child + 1 if child < LAST_PID else 2
    return out[:lines]


def descents(lines, forks, call):
    """A process is started with two hundred descriptors; it forks, and then so many times the last child does; each child makes a
    call on one of them. And so on, with other pids while there are any."""
    fds = ",".join(map(str, range(200)))
    out = []
    turn = 0
    while len(out) < lines:
        first = turn * (forks + 1) % 90_000 + 1
        out.append(f"{first} @start({fds})")
        for child in range(forks):
            out += [f"{first + child} fork() RET {first + child + 1}", f"{first + child + 1} {call.format(child * 37 % 200)} RET 0"]
        turn += 1
    return out[:lines]


def chain(lines):
    """A start and 127 forks, each of the last child, with a close in each child."""
    return descents(lines, 127, "close({})")


def long_chain(lines):
    """As `chain`, with 1,000 forks."""
    return descents(lines, 1_000, "close({})")


def narrowing(lines):
    """A start and 127 forks, each of the last child, with a limit in each child."""
    return descents(lines, 127, "cap_rights_limit({},CAP_READ)")


def long_narrowing(lines):
    """As `narrowing`, with 1,000 forks."""
    return descents(lines, 1_000, "cap_rights_limit({},CAP_READ)")


def limits(lines):
    """A process limits 120 descriptors and forks 64 times, and each child closes one; and so on, with other pids while there are
    any."""
    out = []
    turn = 0
    while len(out) < lines:
        parent = turn * 65 % 90_000 + 1
        out += [f"{parent} cap_rights_limit({fd},CAP_READ) RET 0" for fd in range(120)]
        for child in range(64):
            out += [f"{parent} fork() RET {parent + child + 1}", f"{parent + child + 1} close({child * 37 % 120}) RET 0"]
        turn += 1
    return out[:lines]


def heirs(lines):
    """As `socketpairs`, where the process that forks has forty descriptors above the first 64."""
    made = socketpairs(lines)
    return (made[:1] + [f"1 socket(0) RET {100 + fd}" for fd in range(40)] + made[1:])[:lines]


def lineage(lines):
    """Each process makes eighteen descriptors far from one another by nine calls, and forks; its child goes on."""
    out = ["1 @start()"]
    pid = 1
    while len(out) < lines:
        fds = scattered(18, pid)
        child = pid + 1 if pid < LAST_PID else 1
        out += [f"{pid} socketpair(0) RET {a},{b}" for a, b in zip(fds[::2], fds[1::2])]
        out.append(f"{pid} fork() RET {child}")
        pid = child
    return out[:lines]


def strangers(lines):
    """As many processes as there can be, all unknown before; each makes twenty descriptors far from one another,
    by ten calls."""
    each = max(lines // LAST_PID, 1)
    out = []
    for pid in range(1, LAST_PID + 1):
        fds = scattered(2 * each, pid)
        out += [f"{pid} socketpair(0) RET {a},{b}" for a, b in zip(fds[::2], fds[1::2])]
    return out[:lines]


# The most bytes that a line can have.
LINE_LIMIT = 1_024


def longest_start(pid, step):
    """The longest line that starts a process, with descriptors as far from one another."""
    fds = range(pid % step, LAST_FD + 1, step)
    room = LINE_LIMIT - len(f"{pid} @start()") + 1
    count = 0
    for fd in fds:
        room -= len(f"{fd},")
        if room < 0:
            break
        count += 1
    return f"{pid} @start({','.join(map(str, fds[:count]))})"


def starts(lines):
    """As many processes as there can be, which are started again and again with as many descriptors as a line can name, far from
    one another. There are a tenth as many lines, for the sake of the file."""
    return [longest_start(1 + turn % LAST_PID, 7_000) for turn in range(lines // 10)]


def packed(lines):
    """As many processes as there can be; each is started with as many descriptors as a line can name, and makes eighteen more
    far from one another."""
    each = lines // LAST_PID - 1
    out = []
    for pid in range(1, LAST_PID + 1):
        out.append(longest_start(pid, 1))
        fds = scattered(2 * each, pid)
        out += [f"{pid} socketpair(0) RET {a},{b}" for a, b in zip(fds[::2], fds[1::2])]
    return out[:lines]


def families(lines):
    """One process makes half as many descriptors as there are lines to be. Then all processes fork, again and again, and in the end
    each uses descriptors that no other does: what the children need comes together in their parents."""
    pids = 1 << (lines // 32).bit_length() - 1
    count = (lines - pids) // 2
    out = ["1 @start()"] + [f"1 socket(0) RET {fd}" for fd in range(count)]
    grown = 1
    while grown < pids:
        out += [f"{pid} fork() RET {pid + grown}" for pid in range(1, grown + 1)]
        grown *= 2
    return out + [f"{fd % pids + 1} read({fd}) RET 1" for fd in range(count)]


def execs(lines):
    """One process makes many descriptors, half as many as there are lines to be, and then forks; the child closes one, executes
    a program, closes those above a number, and another one, in turn. For profile 2."""
    count = lines // 2
    out = ["100 @start()"]
    out += [f"100 socket({'SOCK_CLOEXEC' if fd % 3 == 0 else '0'}) RET {fd}" for fd in range(count)]
    turn = 0
    while len(out) < lines:
        child = 1000 + turn % 90_000
        fd = turn * 7919 % count
        out += [
            f"100 fork() RET {child}",
            f"{child} close({fd}) RET 0",
            f'{child} execve("/bin/sh") RET 0',
            f"{child} closefrom({count - fd}) RET 0",
            f"{child} close({fd // 2}) RET 0",
            f'100 execve("/bin/sh") RET 0' if turn % 100 == 0 else f"100 close({fd}) RET 0",
        ]
        turn += 1
    return out[:lines]


def turns(lines):
    """One process makes many descriptors, half as many as there are lines to be; then it and its children fork, execute, close and
    close from a number in turn, with pids used again."""
    count = lines // 2
    out = ["100 @start()"]
    out += [f"100 socket(0) RET {fd}" for fd in range(count)]
    turn = 0
    while len(out) < lines:
        child = 1000 + turn % 90_000
        fd = turn * 7919 % count
        out += [
            f"100 fork() RET {child}",
            f'{child} execve("/bin/sh") RET 0',
            f"{child} closefrom({fd}) RET 0",
            f"{child} close({fd // 2}) RET 0",
            f"100 close({fd}) RET 0",
        ]
        if turn % 7 == 0:
            out.append(f"{child} @exit()")
        turn += 1
    return out[:lines]


def held(count, call, times):
    """A process makes so many descriptors, and so many times a child of it, which has them all, makes this call and one of its
    own descriptors, and exits."""
    out = ["100 @start()"]
    out += [f"100 socket(0) RET {fd}" for fd in range(count)]
    for turn in range(times):
        child = 1000 + turn % 90_000
        out += [f"100 fork() RET {child}", f"{child} {call} RET 0", f"{child} socket(0) RET {turn % count}", f"{child} @exit()"]
    return out


def found(refused=0, lacking=0):
    """A maker of traces as that of `quiet`, where so many lines in a million, anywhere, are replaced by a close that capability mode
    refused, and so many others by a write to the descriptor whose limit in line 2 lacks that right."""

    def make(lines):
        out = quiet(lines)
        places = range(64, len(out))
        for at in random.Random(5).sample(places, refused * lines // 1_000_000):
            out[at] = f"{out[at].split(' ')[0]} close(700) RET -1 errno 94"
        others = [at for at in places if not out[at].endswith(" errno 94")]
        for at in random.Random(6).sample(others, lacking * lines // 1_000_000):
            out[at] = "100 write(0) RET 1"
        return out

    return make


TRACES = {
    make.__name__: make
    for make in (
        quiet, ten, loud, used, wide, descriptors, forms, mixed, crowd, hostile, pairs, spread, closes, socketpairs, chain, long_chain,
        narrowing, long_narrowing, limits, heirs, lineage, families, strangers, starts, packed, execs, turns,
    )
}
# Those with findings, by how many there are in a million lines.
FOUND = {f"refused_{count}": found(refused=count) for count in (100, 2_500, 16_000)}
FOUND.update({f"lacking_{count}": found(lacking=count) for count in (2_500, 16_000)})
FOUND.update({f"lacking_250_beside_{count}": found(refused=count, lacking=250) for count in (2_500, 16_000)})
TRACES.update(FOUND)
TRACES["lacking_10000"] = found(lacking=10_000)


def neighbour(made, place, rng):
    """A line at most seven away."""
    return made[place + rng.choice((-7, -6, -5, -4, -3, -2, -1, 1, 2, 3, 4, 5, 6, 7))]


def put(made, path):
    """Writes these lines to a file."""
    with open(path, "w", errors="surrogateescape") as out:
        out.write("\n".join(made) + "\n")
