"""The program linked by packaging/system.c, on Linux and for FreeBSD.

OBJECT, in the environment, names the program's object, by default the one of the last build. It is linked

- by `cc`: the tests that try system.c most run on it, or where LINKED is `all` every one that runs on the program;
- by `cc -static`: every test runs on it that doesn't load something into the program;
- by `cc` with sanitizers, which find nothing;
- as a static program for FreeBSD, with tests/freebsd/libc.c as its C library. It runs under tests/freebsd/translate.c,
  by FreeBSD's numbers of calls, flags and errors: devices that fail, worked traces, talks, examples and random traces.

Controls: without the translation of the flags of `open`, and without that of errno, the rows that rest on it break, and
no other. The errors of tests/freebsd/errors.h are those of FreeBSD's intro(2), where that page is installed. What an
object for x86-64-v2 asks of the processor is answered as Linux has it. Where a feature is missing it says so and ends.

What can't be done here is left out by name: all of it where no C compiler has headers.
"""

import glob
import gzip
import os
import re
import shutil
import sys
import unittest

import compiler
import failing_devices
import harness
from archives import path_of_object
from harness import HERE, ROOT

PACKAGING = f"{ROOT}/packaging"
sys.path.append(PACKAGING)

import elf

# The words for tests/run.py on each program that is linked: names of modules, of cases by their files, and of classes.
WORKED = "checks. denials. edits. explain. full. limits. lines. markers. profiles. said. starts. words."
OF_SYSTEM = "talks. failing_devices. examples. README docs/"
TESTS = {
    "dynamic": f"{OF_SYSTEM} out_of_memory. allocation_counts.",
    "static": "!compare.Second !compare.Third !compare.Fourth",
    "sanitized": OF_SYSTEM,
    "freebsd": f"{WORKED} talks. examples. README docs/ compare.First",
}
SYSTEM_C = f"{PACKAGING}/system.c"
WARNINGS = ["-O2", "-Wall", "-Wextra", "-Wpedantic", "-Werror"]
SANITIZED = ["-fsanitize=address,undefined", "-fno-sanitize-recover=all"]
FOR_FREEBSD = """--target=x86_64-unknown-freebsd13 -march=x86-64 -O2 -Wall -Wextra -Werror
    -ffreestanding -fno-builtin -fno-stack-protector -nostdinc""".split()
# What a control changes in system.c, and the rows of tests/failing_devices.py that are then broken.
CONTROLS = {
    "flags": ("return open(path, O_RDONLY | O_CLOEXEC | O_NOCTTY);", "return open(path, flags);", {"a link"}),
    "errno": (
        "return errno_of_object(errno);",
        "return (void)errno_of_object, errno;",
        {
            "a link to itself", "a long name", "an empty pipe", "a reset connection", "no connection",
            "nobody who sends", "a full pipe", "a connection that was reset", "nobody who listens", "nobody to send to",
            "a report too long for a datagram",
        },
    ),
}  # fmt: skip
# What an object for x86-64-v2 looks for: in word 6 of the answer at index 0, and at index 2; and Linux's names of them.
FEATURES = {0: {"pni": 0, "ssse3": 9, "cx16": 13, "sse4_1": 19, "sse4_2": 20, "popcnt": 23}, 2: {"lahf_lm": 0}}
ASKS = """#include <inttypes.h>
#include <stdio.h>
const uint32_t *capcheck_cpuid(uint32_t index);
int32_t capcheck_main(void)
{
    for (uint32_t index = 0; index < 4; index++)
        printf("%" PRIu32 "\\n", capcheck_cpuid(index)[6]);
    return 0;
}
"""


def spoilt(name, old, new):
    """A copy of system.c with other code in one place."""
    text = harness.text_of(SYSTEM_C)
    assert text.count(old) == 1, f"the control of {name} doesn't fit packaging/system.c"
    return os.path.abspath(harness.save(f"{name}.c", text.replace(old, new).encode()))


def clang_and_linker():
    """A clang, and a linker of ELF beside it: those of the kit, or of the path; or nothing."""
    of_kit = f"{compiler.kit()}/toolchain/bin"
    path = of_kit if os.access(f"{of_kit}/clang", os.X_OK) else None
    clang, linker = (shutil.which(name, path=path) for name in ("clang", "ld.lld"))
    return (clang, linker) if clang and linker else None


class Linked(harness.Test):
    """What the classes below have: the object, as packaging/ renames what it has."""

    is_long, of_program = True, False

    @classmethod
    def setUpClass(cls):
        super().setUpClass()
        cls.cc, kept = compiler.with_headers(), path_of_object()
        if not cls.cc:
            harness.left_out.append("packaging/system.c and each program that it links, since no C compiler here has headers")
            raise unittest.SkipTest
        os.chmod(".", 0o755)  # tests/failing_devices.py runs a program as another user
        for word in ("rename", "same"):
            done = harness.run([f"{PACKAGING}/elf.py", word, kept, "capcheck.o"])
            assert done.status == 0, f"elf.py {word}: {done}"

    def built(self, to, *words):
        """What a compiler or a linker makes."""
        done = harness.run([*words, "-o", to])
        self.assertEqual(0, done.status, f"{' '.join(words)}: {done.said}")
        return os.path.abspath(to)

    def try_linked(self, name, *flags):
        """Links the program with these flags, and runs tests on it. One that isn't dynamic is left out where it can't be linked."""
        words = [*self.cc, *WARNINGS, *flags, "capcheck.o", SYSTEM_C]
        if flags and harness.run([*words, "-o", name]).status:
            harness.left_out.append(f"the {name} program: cc {flags[0]} links none here")
            return
        program, is_all = self.built(name, *words), os.environ.get("LINKED") == "all" and name != "sanitized"
        self.run_tests(program, "" if is_all else TESTS[name])

    def run_tests(self, program, names, **env):
        """Runs tests with these in their names on another program."""
        words = [word for name in names.split() for word in ("-k", name)]
        words = [f"{HERE}/run.py", program, "--of-program", "--seed", str(harness.seed()), *words]
        how = {"stdin": harness.DEVNULL, "stderr": harness.STDOUT, "timeout": None, "encoding": "utf-8", "env": {**os.environ, **env}}
        done, name = harness.run([sys.executable, *words], **how), os.path.basename(program)
        harness.left_out.extend(f"{name}, {why}" for why in re.findall(r"^left out: (.*)$", done.out, re.M))
        self.assertEqual(0, done.status, f"{' '.join(words)}:\n{done.out[-6000:]}")
        tried = re.findall(r"(\d[\d,]*) [a-z]", re.search(r"^tried: .*$", done.out, re.M)[0])
        harness.tried[f"things on the {name} program"] += sum(int(number.replace(",", "")) for number in tried)


class Dynamic(Linked):
    def test_warnings(self):
        for strict in [self.cc, *([["clang"]] if shutil.which("clang") else [])]:
            for standard in ("c99", "c11"):
                self.built("system.o", *strict, *WARNINGS, f"-std={standard}", "-c", SYSTEM_C)
                harness.tried["compilations without a warning"] += 1

    def test_dynamic(self):
        self.try_linked("dynamic")


class Static(Linked):
    def test_static(self):
        self.try_linked("static", "-static")


class Sanitized(Linked):
    def test_sanitized(self):
        self.try_linked("sanitized", *SANITIZED)


class Processor(Linked):
    def test_features(self):
        """That capcheck_cpuid answers what Linux says of the processor, and nothing of features above x86-64-v2."""
        asks = self.built("asks", *self.cc, harness.save("asks.c", ASKS), SYSTEM_C)
        answers = [int(line) for line in harness.run([asks]).out.split()]
        flags = re.search(r"^flags\s*: (.*)$", harness.text_of("/proc/cpuinfo"), re.M)[1].split()
        for index, names in FEATURES.items():
            for name, bit in names.items():
                self.same(f"the processor has {name}", name in flags, bool(answers[index] >> bit & 1), "features of the processor")
        self.same("features above x86-64-v2", (0, 0), (answers[1], answers[3]))

    def test_lacking_features(self):
        """That an object for x86-64-v2 ends on a processor without its features, and says why. Other objects don't ask."""
        it = elf.read("capcheck.o")
        if "capcheck_cpuid" not in {it.name(symbol) for symbol in it.symbols}:
            harness.left_out.append("a processor without the features of x86-64-v2, for which this object doesn't ask")
            return
        source = spoilt("features", "if (index == 0 || index == 2)", "if (index != index)")
        done = harness.run([self.built("old-processor", *self.cc, "capcheck.o", source), "--version"])
        self.same("a processor without the features of x86-64-v2", (127, True), (done.status, "x86-64-v2" in done.said))


class FreeBSD(Linked):
    def for_freebsd(self, name, source):
        """A program for FreeBSD, and what runs it."""
        clang, linker = clang_and_linker()
        for header in re.findall(r"^#include <(\w+\.h)>$", harness.text_of(SYSTEM_C), re.M):
            harness.save(f"headers/{header}", f'#include "{HERE}/freebsd/libc.h"\n')
        words = [clang, *FOR_FREEBSD, "-isystem", "headers", "-c"]
        library, system = (self.built(f"{name}-{part}.o", *words, it) for part, it in (("libc", f"{HERE}/freebsd/libc.c"), ("system", source)))
        made = self.built(f"{name}.elf", linker, "-m", "elf_x86_64_fbsd", "-static", "--fatal-warnings", library, "capcheck.o", system)
        with open(made, "rb") as file:
            self.assertEqual(9, file.read(8)[7], f"{made} isn't marked as a program for FreeBSD")
        return self.built(name, *self.cc, *WARNINGS, f'-DPROGRAM="{made}"', f"{HERE}/freebsd/translate.c")

    def program(self):
        """The program for FreeBSD, or nothing where it can't run."""
        if not clang_and_linker():
            harness.left_out.append("the program for FreeBSD: there is no clang with ld.lld")
        elif harness.run([made := self.for_freebsd("freebsd", SYSTEM_C), "--version"]).status == 98:
            harness.left_out.append("the program for FreeBSD: no process may be traced here")
        else:
            return made

    def test_freebsd(self):
        if program := self.program():
            self.run_tests(program, "failing_devices.", SYSTEM="FreeBSD")
            self.run_tests(program, TESTS["freebsd"])

    def test_controls(self):
        """Without a translation, the rows that rest on it break, and no other."""
        for name, (old, new, wanted) in CONTROLS.items() if self.program() else ():
            program = self.for_freebsd(f"without-{name}", spoilt(name, old, new))
            os.makedirs(f"{self.folder}/rows-{name}")
            os.chdir(f"{self.folder}/rows-{name}")
            rows = failing_devices.answers(failing_devices.prepare(program), failing_devices.of_freebsd())
            broken = {row for row, _, _, is_right in rows if not is_right}
            os.chdir(self.folder)
            self.same(f"rows that are broken without the translation of {name}", sorted(wanted), sorted(broken), "controls")

    def test_errors_of_manual(self):
        """That tests/freebsd/errors.h has what FreeBSD's intro(2) says."""
        pages = glob.glob("/usr/share/man/man2/intro.2freebsd.gz") or glob.glob("/usr/share/man/man2/intro.2.gz")
        text = ""
        for page in pages:
            with gzip.open(page, "rt", encoding="utf-8", errors="replace") as file:
                text = file.read()
        wanted = {name: (int(number), said) for number, name, said in re.findall(r'^\.It Er (\d+) (E\w+) Em "?(?:\\&)?(.*?)"? ?\.?$', text, re.M)}
        if not wanted:
            harness.left_out.append("the errors of FreeBSD: its intro(2) isn't installed")
            return
        got = {name: (abs(number), said) for name, (number, said) in failing_devices.of_freebsd().items()}
        self.same("tests/freebsd/errors.h and intro(2)", sorted(wanted.items()), sorted(got.items()), "errors of FreeBSD")
