"""Recordings of truss and the traces that contrib/truss2trace.py has to make of them.

The recordings, in tests/recordings, were written after truss's manual and source; none comes from a machine. The traces were worked out by
hand, and the program must accept each. A section of a page begins with a recording, as block `truss`, which a subsection has too. The other
blocks are what is tried with it, by their first word; the words after it are options of the converter.

    trace OPTIONS          the trace. In blocks after it is what is `said` of lines, where ... stands for any text, the `summary`, which is
                           said last, and the program's `report`. Lines of a trace without a kernel's needs (--plain) are in the one with
                           them, in this order, and of that no more is found
    honest OPTIONS         the program did nothing wrong: with the needs of each kernel, and without, neither profile finds anything; with
                           needs this is said
    felt PROFILES OPTIONS  a line, before which one it is put into the trace without needs, and what `both` profiles find then, or the `second`
    refused OPTIONS        why nothing can be read, which is said last; the program refuses the trace
    says OPTIONS           all that is said

Pages are read as those of cases are (tests/cases.py), with their `escaped` blocks. Two thousand recordings with random faults
are converted too: none may end the converter with an error, and the program must accept what it writes. tests/kernel.py has recordings of
programs under a small kernel.
"""

import glob
import itertools
import os
import re

import cases
import harness
import kernel
import reference

FOLDER = os.path.join(harness.HERE, "recordings")
GUIDE = os.path.join(harness.ROOT, "docs", "RECORDING.md")
FAULTS = 1000  # recordings with random faults, of a class
MARKERS = re.compile(r"[0-9]+ @(?:uses|global|refused)\(.*\)")
FOLLOWERS = ("said", "summary", "report")
PLAIN = ["--plain"]
KERNELS = [PLAIN, *(["--kernel", str(release)] for release in kernel.RELEASES)]
PROFILES = {"both": ("1", "2"), "second": ("2",)}
USAGE = [  # what can't be done
    ["absent"], ["--output", ".", "recording"], ["--start", "1,0", "recording"], ["--start", "0,0", "recording"],
    ["--start", "1048576", "recording"], ["--start", "x", "recording"], ["--pid", "0", "recording"], ["--pid", "100000", "recording"],
]
HELP = ["truss -f -o tally.truss ./tally access.log", "truss2trace --start 0,1,2 -o tally.trace tally.truss"]
CLOSE = " 5: close(3) = 0 (0x0)\n"

# For the rows of the table with these arguments, or one call's: what truss prints between the brackets, the descriptors of
# the row's arguments, and whether capability mode forbids it where the row says that it depends. Each condition that a row
# without a form of its own has is true there.
AT = {"DIR": 3, "FROMDIR": 3, "TODIR": 4}
EXAMPLES = {
    "..": [("0x0", {}, False)], "": [("", {}, False)], "PATH,..": [('"a",0x0', {}, False)],
    "HANDLE,..": [("0x0", {}, False)], "FD,..": [("0x3,0x0,0x0", {"FD": 3}, False)],
    "FD": [("0x3", {"FD": 3}, False)], "MQ,..": [("0x3,0x0", {"MQ": 3}, False)],
    "FD,SIG": [("3,SIGTERM", {"FD": 3}, False)], "S,..": [("0x3,0x0,0x0,0x0,0x0", {"S": 3}, False)],
    "ID,..": [("0x3", {}, False)], "ID": [("0x3", {}, False)], "NAME": [('"/a"', {}, False)],
    "NAME,..": [('"/a",0x2,0600', {}, True), ("SHM_ANON,O_RDWR,00", {}, False)],
    "AIOCB": [("0x7fffffffe8b0", {}, False)], "OP,AIOCB": [("0x1,0x7fffffffe8b0", {}, False)],
    "PID,..": [("101,0x0", {}, False)], "MODE,LIST,..": [("0x0,0x7fffffffe8b0,0x1,0x0", {}, False)],
    "NODE,..": [('"kern.ostype",2,0x0,0x0,0x0,0', {}, False)],
    "PID,SIG": [("101,SIGTERM", {}, True), ("0,SIGTERM", {}, True), ("100,SIGTERM", {}, False)],
    "FIB": [("0x1", {}, False)],
    "LEVEL,WHICH,ID,..": [
        ("CPU_LEVEL_WHICH,CPU_WHICH_PID,101,32,0x0", {}, True), ("0x3,0x2,0xffffffffffffffff,0x20,0x0", {}, False),
        ("CPU_LEVEL_CPUSET,CPU_WHICH_PID,-1,32,0x0", {}, True),
        ("CPU_LEVEL_WHICH,CPU_WHICH_PID,100,32,0x0", {}, False),
    ],
    "{ FD/EVENTS .. },N,..": [("{ 3/POLLIN -1/POLLIN 5/POLLIN|POLLOUT },3,-1", {"FDS": (3, 5)}, False)],
    "N,{ FDS },{ FDS },{ FDS },..": [("6,{ 3 },{ 3 5 },0x0,0x0", {"FDS": (3, 5)}, False)],
    "KQ,CHANGES,N,EVENTS,M,TIMEOUT": [
        ("6,{ 3,EVFILT_READ,EV_ADD,0,0,0x0 5,EVFILT_VNODE,EV_ADD|EV_CLEAR,NOTE_DELETE|NOTE_WRITE,0,0x0 },2,{ },4,0x0",
         {"KQ": 6, "IDENTS": (3, 5)}, False),
    ],
    "IN,INOFF,OUT,OUTOFF,..": [("0x3,0x7fffffffe8b0,0x4,0x7fffffffe8b8,0x10,0x0", {"IN": 3, "OUT": 4}, False)],
    "DOMAIN,TYPE,PROTOCOL": [
        ("PF_INET,SOCK_RAW,0", {}, True), ("PF_ROUTE,SOCK_STREAM,0", {}, True), ("PF_LOCAL,SOCK_RAW,0", {}, False),
        ("PF_INET6,SOCK_DGRAM|SOCK_CLOEXEC,0", {}, False),
    ],
    "DIR,S,..": [
        ('0x3,5,{ AF_LOCAL "a" },106', {"DIR": 3, "S": 5}, False),
        ('AT_FDCWD,5,{ AF_LOCAL "a" },106', {"S": 5}, True),
    ],
    "DIR,PATH,..": [('3,"a",0x0,0x0', AT, False)],
    "DIR,PATH,FD,FLAG": [
        ('0x3,"a",0x5,0x0', {"DIR": 3, "FD": 5}, False), ('0x3,"a",0xffffff38,0x0', AT, False),
        ('AT_FDCWD,"a",-200,0', {}, True),
    ],
    "DIR,PATH,MODE,DEV": [('3,"a",020644,0', AT, False)],
    "DIR,PATH,FLAGS,..": [('3,"a",O_RDWR|O_CREAT|O_TRUNC|O_SYNC|O_EXLOCK,0600', AT, False)],
    "DIR,PATH,O_EXEC,..": [('3,"a",O_EXEC', AT, False)], "DIR,PATH,O_PATH,..": [('3,"a",O_PATH', AT, False)],
    "DIR,PATH,O_WRONLY|O_RDWR without O_APPEND and O_TRUNC,..": [
        ('3,"a",O_WRONLY', AT, False), ('3,"a",O_RDWR|O_CREAT,0600', AT, False),
    ],
    "DIR,PATH,O_SEARCH|O_DIRECTORY,..": [('3,"a",O_SEARCH|O_DIRECTORY', AT, False)],
    "DIR,a path that leaves DIR (.., a link),..": [('3,"../a",O_RDONLY', AT, True)],
    "TARGET,DIR,PATH": [('"a",3,"b"', AT, False)], "FROMDIR,FROM,TODIR,TO,FLAGS": [('3,"a",4,"b",0', AT, False)],
    "FROMDIR,FROM,TODIR,TO": [('3,"a",4,"b"', AT, False)],
    "FD,S,..": [("0x3,0x5,0x0,0x10,0x0,0x0,0x0", {"FD": 3, "S": 5}, False)],
    "S,{msg_name},..": [("3,{{ AF_INET 10.0.0.1:53 },16,[{\"a\",1}],1,{},0,0},0", {"S": 3}, False)],
    "S,{msg_name is null},..": [('3,{NULL,0,[{"a",1}],1,{},0,0},0', {"S": 3}, False)],
    "S,..,NULL,0": [('3,"a",1,0,NULL,0', {"S": 3}, False)],
    "S,..,DEST,LEN": [('3,"a",1,0,{ AF_INET 10.0.0.1:53 },16', {"S": 3}, False)],
    "FD,RIGHTS": [("3,{ CAP_READ }", {"FD": 3}, False)], "FD,NEW": [("3,5", {"FD": 3}, False)],
    "FD,LENGTH": [("3,0x0", {"FD": 3}, False)],
    "FD,COMMAND,..": [
        ("3,SIOCGIFFLAGS,0x0", {"FD": 3}, True), ("3,SIOCATMARK,0x0", {"FD": 3}, False),
        ("3,FIONREAD,0x0", {"FD": 3}, False),
    ],
    "FDP,FLAGS": [("0x7fffffffe8dc,PD_DAEMON", {}, True), ("{ 5 },0x1", {}, True), ("{ 5 },PD_CLOEXEC", {}, False)],
    "ADDR,LEN,PROT,FLAGS,FD,OFF": [("0x0,4096,PROT_READ|PROT_WRITE|PROT_EXEC,MAP_SHARED,3,0x0", {"FD": 3}, False)],
    "FLAGS": [("0x2", {}, False)], "VERSION,FD,..": [("0x0,0x3,0x7fffffffe8b0", {"FD": 3}, False)],
    ("sctp_generic_sendmsg", "S,.."): [("3,0x0,1,{ AF_INET 10.0.0.1:53 },16,0x0,0", {"S": 3}, False)],
    ("sctp_generic_sendmsg_iov", "S,.."): [("3,0x0,1,{ AF_INET 10.0.0.1:53 },16,0x0,0", {"S": 3}, False)],
    ("accept4", "S,.."): [("3,0x0,0x0,SOCK_CLOEXEC", {"S": 3}, False)],
    ("accept", "S,.."): [("3,0x0,0x0", {"S": 3}, False)],
}
EXAMPLES |= {
    f"FD,{commands},..": [(f"3,{command},8", {"FD": 3}, False) for command in commands.split("|")]
    for commands in (
        "F_SETLK_REMOTE", "F_OGETLK|F_OSETLK|F_OSETLKW", "F_GETLK|F_SETLK|F_SETLKW", "F_GETFL|F_SETFL|F_GETOWN|F_SETOWN",
        "F_RDAHEAD|F_READAHEAD|F_ADD_SEALS|F_GET_SEALS|F_ISUNIONSTACK|F_KINFO",
        "F_DUPFD|F_DUPFD_CLOEXEC|F_DUP2FD|F_DUP2FD_CLOEXEC|F_GETFD|F_SETFD",
    )
}
ANSWERS = {
    "open": 8, "accept": 8, "accept4": 8, "dup": 8, "openat": 8, "socket": 8, "kqueue": 8, "shm_open": 8, "fhopen": 8,
    "mq_open": 8, "kmq_open": 8, "fcntl": 8, "dup2": 5, "fork": 0, "vfork": 0, "pdfork": 101, "poll": 1, "pipe": 0,
}
NOT_SHOWN = set("aio_read aio_write aio_readv aio_writev aio_fsync lio_listio".split())  # the descriptor is in memory
SINCE_13 = ("socket", "socketpair", "ioctl")  # 12.2 refuses none of them
HEADS = ("call", "argument pattern", "rights", "class", "versions", "source", "sureness")
JUDGED_LATE = "bind connect fchdir mq_open fhopen sendto sendmsg".split()  # the rules don't say that the mode forbids them
BEYOND = {"fcntl": "F_SETLK_REMOTE|F_OGETLK|F_KINFO", "openat": "without"}  # patterns of which the rules say nothing
RULED = {"close", "closefrom", "dup", "dup2", "cap_enter", "cap_rights_limit", "cap_ioctls_limit", "cap_fcntls_limit"}


def blocks(page):
    """The name of each section of a page, and its blocks, each with the words after its mark. A subsection has its section's first too."""
    first = []
    for heading, own in cases.sections(page):
        mark, _, name = heading.partition(" ")
        found = [([word for word in block.words if word != "escaped"], block.file({})) for block in own]
        first = first if mark == "###" else found[:1]
        if mark in ("##", "###"):
            yield name, first + found if mark == "###" else found


def checks(own):
    """What is tried with a recording: the kind, the options and the text of a block, and the blocks that say more of it."""
    found = []
    for (kind, *options), text in own:
        if kind in FOLLOWERS:
            found[-1][3][kind] = text
        else:
            found.append((kind, options, text, {}))
    return found


def pages():
    """The paths of the pages of recordings."""
    return sorted(glob.glob(os.path.join(FOLDER, "*.md")))


def converted(recording, options):
    """What the converter makes of a recording, and says of it."""
    return harness.run(["truss2trace", *options, harness.save("recording", recording)])


def check(trace, profile):
    """The program's report of a trace."""
    return harness.capcheck("check", harness.save("trace", trace), "--profile", profile)


def found_in(report):
    """What a report has, without places."""
    return [line.split(" ", 1)[1] for line in report.splitlines()[:-1]]


def shortened(said, wanted):
    """What is said, without the name of the converter, and where ... is wanted, with that from there on."""
    lines = [(line.removeprefix("truss2trace: "), want) for line, want in itertools.zip_longest(said, wanted[: len(said)], fillvalue="")]
    return [want if want.endswith("...") and line.startswith(want[:-3]) else line for line, want in lines]


class Recordings:
    """What is tried with recordings."""

    def accept(self, what, trace):
        """The program refuses a trace in neither profile. Its report in profile 1."""
        answers = [check(trace, profile) for profile in ("1", "2")]
        for profile, answer in enumerate(answers, 1):
            self.same(f"{what}: refused in profile {profile}", "", answer.out if answer.status not in (0, 1) else "", "accepted traces")
        return answers[0].out

    def try_trace(self, what, recording, options, text, said="", summary="", report=None):
        status, trace, says = converted(recording, options)
        self.same(f"{what}: trace", text, trace, "recordings")
        *says, last = says.splitlines() or [""]
        wanted = said.splitlines()
        wrong = "can't be read" in said and (2 if "--strict" in options else 1)
        self.same(f"{what}: said", (*wanted, f"status {int(wrong)}"), (*shortened(says, wanted), f"status {status}"))
        self.same(f"{what}: summary", True, f"truss2trace: {summary}" == f"{last}\n" if summary else " written" in last)
        got = self.accept(what, trace)
        if report is not None:
            self.same(f"{what}: report", report, got, "reports")
        if "--plain" in options:
            self.try_needs(what, recording, [word for word in options if word != "--plain"], trace, got)

    def try_needs(self, what, recording, options, plain, report):
        """The trace with a kernel's needs has the lines of the one without, in this order, and of them no more is found."""
        trace = converted(recording, options).out
        lines = iter(trace.splitlines())
        lost = [line for line in plain.splitlines()[1:] if line not in lines]
        self.same(f"{what}: what isn't in\n{trace}", [], lost[:1], "traces with needs")
        known, found = found_in(report), found_in(self.accept(what, trace))
        self.same(f"{what}: more with needs", [], [each for each in found if each not in known and " @" not in each])

    def try_honest(self, what, recording, options, text):
        for words in KERNELS:
            status, trace, said = converted(recording, [*words, *options])
            wanted = [] if words == PLAIN else text.splitlines()
            wanted.append("...")  # the summary
            self.same(f"{what} {' '.join(words)}: said", (0, wanted), (status, shortened(said.splitlines(), wanted)), "honest recordings")
            for profile in PROFILES["both"]:
                self.same(f"{what} {' '.join(words)}: profile {profile}", (0, "findings 0\n"), check(trace, profile)[:2], "reports")

    def try_felt(self, what, recording, options, text):
        profiles, *options = options
        line, before, *findings = text.splitlines()
        lines = converted(recording, PLAIN + options).out.splitlines()[1:]
        place = next((at for at, other in enumerate(lines) if other.startswith(before.removeprefix("before "))), len(lines))
        trace = "".join(f"{each}\n" for each in [*lines[:place], line, *lines[place:]])
        for profile in PROFILES[profiles]:
            self.same(f"{what}: profile {profile}", findings, found_in(check(trace, profile).out), "felt lines")

    def try_refused(self, what, recording, options, text):
        status, trace, said = converted(recording, options)
        self.same(f"{what}: said", (2, f"truss2trace: {text}"), (status, f"{said.splitlines()[-1]}\n"), "refused recordings")
        self.same(f"{what}: report", (2, "refused E3 line 1\n"), check(trace, "1")[:2], "reports")

    def try_says(self, what, recording, options, text):
        self.same(f"{what}: said", text, converted(recording, options).said, "texts that are said")


class Page(Recordings):
    """Tries a page of recordings."""

    def test_page(self):
        for name, ((_, recording), *own) in blocks(os.path.join(FOLDER, self.page)):
            for kind, options, text, more in checks(own):
                what = f"recordings/{self.page}, {name}, {kind} {' '.join(options)}"
                getattr(self, f"try_{kind}")(what, recording, options, text, **more)


class Calls(Page, harness.Test):
    page, is_long = "calls.md", True


class Hidden(Page, harness.Test):
    page = "hidden.md"


class Exec(Page, harness.Test):
    page = "exec.md"


class Threads(Page, harness.Test):
    page = "threads.md"


class Whole(Page, harness.Test):
    page, is_long = "programs.md", True


class Lines(Page, harness.Test):
    page = "lines.md"


class Needs(Page, harness.Test):
    page = "needs.md"


class Options(Recordings, harness.Test):
    """The options and the guide."""

    def test_pages(self):
        self.same("pages that are tried", sorted(it.page for it in Page.__subclasses__()), [os.path.basename(it) for it in pages()])

    def test_usage(self):
        harness.save("recording", CLOSE)
        for words in USAGE:
            status, out, said = harness.run(["truss2trace", *words])
            what = f"truss2trace {' '.join(words)}"
            self.same(what, (2, "", True), (status, out, said != "" and "Traceback" not in said), "usage errors")

    def test_help(self):
        version = f"truss2trace {harness.capcheck('--version').out.split()[-1]}\n"
        for words, pieces in ((["--help"], HELP), (["--version"], [version])):
            status, out, said = harness.run(["truss2trace", *words])
            self.same(f"truss2trace {words[0]}", (0, "", []), (status, said, [it for it in pieces if it not in out]), "helps")

    def test_standard_input(self):
        for words in (["--output", "trace"], ["-o", "trace"], ["-", "-o", "trace"], ["-o", "trace", "--", "-"]):
            harness.save("trace", "")
            got = *harness.run(["truss2trace", *words], CLOSE), harness.text_of("trace")
            wanted = 0, "", "truss2trace: 1 call written\n", "# kernel 14\n5 close(3) RET 0\n"
            self.same(f"truss2trace {' '.join(words)}", wanted, got, "outputs")

    def test_full_trace(self):
        most, kernel.converter().MOST_LINES = kernel.converter().MOST_LINES, 3
        status, _, said = kernel.called(["-o", "trace"], CLOSE * 4)
        kernel.converter().MOST_LINES = most
        wanted = 1_000_000, 2, "# kernel 14\n" + "5 close(3) RET 0\n" * 3, True
        self.same("a full trace", wanted, (most, status, harness.text_of("trace"), "full" in said), "outputs")

    def test_guide(self):
        """The guide's example."""
        own = {words[0] + " ".join(words[1:]): text for _, found in blocks(GUIDE) for words, text in found if words}
        self.try_trace("docs/RECORDING.md", own["tally.truss"], ["--start", "0,1,2"], own["tally.trace"], report=own["tally.check"])
        limits = harness.capcheck("limits", harness.save("trace", own["tally.trace"]), "8").out
        self.same("docs/RECORDING.md: limits", own["tally.limits8"], limits, "limits")


# ---- The table of what kernels demand


def wanted_needs(entry, descriptors):
    """The rights that a row says for these descriptors, where its conditions hold."""
    needs = {}
    for need in kernel.needs_of(entry.rights):
        fds = descriptors.get(need.who, ()) if need.when is not kernel.is_fifo else ()
        for fd in fds if isinstance(fds, tuple) else (fds,):
            needs[fd] = needs.get(fd, frozenset()) | (need.rights or frozenset())
    return needs


def has_form(call):
    """Whether the program judges a call by its own line."""
    return call in reference.FORMS or call in reference.SPECIAL


def beyond_the_rules(entry, needs):
    """What the program doesn't judge by the call's own line: a row of a call with a form says mostly what its rule says."""
    is_odd = entry.call in BEYOND and re.search(BEYOND[entry.call], entry.pattern)
    if entry.call in RULED or has_form(entry.call) and not is_odd:
        return {4: {"UNLINKAT"}} if entry.call == "renameat" else {}
    return needs


def is_written(entry, forbids):
    """Whether @global is written after a call of a row, which `forbids` what depends."""
    is_judged = has_form(entry.call) and entry.call not in JUDGED_LATE
    return forbids if entry.allowed.startswith("depends") else entry.allowed == "forbidden" and not is_judged


def markers_of(line, release, failed=False):
    """The converter, and the markers of needs that it writes after a call."""
    recording = f"  100: getpid() = 100 (0x64)\n  100: {line}\n"
    made = kernel.converter().convert(recording.encode(), silent(), kernel=release, failed=failed)
    return made, [each for each in made.trace() if MARKERS.fullmatch(each)]


def silent():
    """Notes that are said nowhere."""
    notes = kernel.converter().Notes()
    notes.say = lambda text: None
    return notes


def uses_of(needs):
    """The lines of needs."""
    return [f"100 @uses({fd},{reference.rights_text(needs[fd])})" for fd in sorted(needs)]


class Table(harness.Test):
    """Each row of tests/kernel.tsv, for each release: the markers are those that the row says."""

    def test_rows(self):
        heads, rows = kernel.entries()
        self.same("heads of tests/kernel.tsv", HEADS, heads)
        self.same("calls that tests/kernel.tsv lacks", set(), kernel.converter().DEMANDED - {entry.call for entry in rows})
        for release, entry in itertools.product(kernel.RELEASES, rows):
            for example in EXAMPLES.get((entry.call, entry.pattern)) or EXAMPLES[entry.pattern]:
                if kernel.is_of(release, entry.versions):
                    self.try_row(entry, release, *example)

    def try_row(self, entry, release, args, descriptors, forbids):
        call, answer, is_told = entry.call, ANSWERS.get(entry.call, 0), entry.is_sure and entry.call not in NOT_SHOWN
        what, needs = f"kernel {release}: {call}({args}), by {entry}", wanted_needs(entry, descriptors) if is_told else {}
        pair = ",{ 8, 9 }" if call in ("socketpair", "pipe2") else ""
        made, markers = markers_of(f"{call}({args}{pair}) = {answer} (0x{answer:x})", release)
        is_forbidden = is_told and is_written(entry, forbids and not (call in SINCE_13 and release == 12))
        wanted = uses_of(beyond_the_rules(entry, needs)) if is_told else []
        self.same(f"{what}: markers", wanted + ["100 @global()"] * is_forbidden, markers, "rows of needs")
        is_doubtful = not is_told or call.startswith("__sysctl")
        self.same(f"{what}: counted", is_doubtful and (not has_form(call) or call == "vfork"), bool(made.unjudged))
        if not is_doubtful and "leaves" not in entry.pattern and "without" not in entry.pattern:
            wanted = uses_of(needs) if call != "cap_rights_limit" else []
            line = f"{call}({args}) ERR#35 'Resource temporarily unavailable'"
            self.same(f"{what}: markers where it failed late, with --failed", wanted, markers_of(line, release, True)[1])


# ---- Recordings with random faults


def mutated(chance, recordings):
    """A recording with some bytes, pieces and lines changed, lost, moved or doubled."""
    text = bytearray(chance.choice(recordings).encode("latin-1"))
    for _ in range(chance.randint(1, 8)):
        at = chance.randrange(len(text) + 1)
        to = min(len(text), at + chance.choice((1, 1, 1, 2, 10, 60)))
        what = chance.randrange(8)
        if what < 2:
            text[at : at + 1] = bytes([chance.choice((chance.randrange(256), *b'0123456789-,()"\\{}|= \n'))])
        elif what == 2:
            del text[at:to]
        elif what == 3:
            del text[at:]
        elif what == 4:
            text[at:at] = text[at:to]
        elif what == 5:
            other = chance.choice(recordings).encode("latin-1")
            start = chance.randrange(len(other) + 1)
            text[at:at] = other[start : start + chance.randrange(200)]
        else:
            lines = bytes(text).split(b"\n")
            chance.shuffle(lines) if what == 6 else lines.insert(chance.randrange(len(lines) + 1), chance.choice(lines))
            text = bytearray(b"\n".join(lines))
    return bytes(text)


class Faults(Recordings):
    is_long = True

    def test_faults(self):
        recordings = [recording for page in pages() for _, ((_, recording), *_) in blocks(page)]
        traces, places = [], []
        for number in range(self.first, self.first + FAULTS):
            traces += self.trace_of(number, harness.rng(f"random recording {number}"), recordings)
            places += [number] * (len(traces) - len(places))
        report = self.accept("random recordings", "".join(line + "\n" for line in traces))
        at = int(report.split()[-1]) if report.startswith("refused") else 0
        self.same(f"random recording {places[at - 1]}: {traces[at - 1]!r}", 0, at)
        self.same("random recordings: enough lines", True, len(traces) >= 5 * FAULTS)

    def trace_of(self, number, chance, recordings):
        """The trace of a recording with faults, where something of it can be read."""
        recording, start = mutated(chance, recordings), chance.choice((None, [], [0, 1, 2]))
        harness.tried["recordings with random faults"] += 1
        try:
            return list(kernel.converter().convert(recording, silent(), start, chance.choice((None, 5))).trace())
        except kernel.converter().Refused:
            return []
        except Exception as why:  # whatever it is, the converter must not end so
            self.same(f"random recording {number}, {recording!r}", "no error", repr(why))
            return []


class Faults1(Faults, harness.Test):
    first = 0


class Faults2(Faults, harness.Test):
    first = FAULTS
