"""Whether time and memory stay bounded where the answers alone don't tell.

- A report reads what is known of the trace, and not its lines: 1,000 reports of 100,000 lines in which nothing is found take no
  more processor time than ten loads of that trace.
- An edit frees what it replaces: a session with 50,000 edits has at most a few megabytes more at its peak than one with 500.
- A check keeps no line: at its peak one of 900,000 lines has at most a few megabytes more than one of 9,000.

Each is a ratio of runs side by side, so it doesn't depend on the machine.
"""

import sys

import harness

LOADS = 10
MORE = 4_000_000  # bytes
REPORTED, REPORTS = 100_000, 1_000
EDITED, EDITS, FEW_EDITS = 1_024, 50_000, 500
CHECKED, FEW_CHECKED = 900_000, 9_000
MARKERS = ("@uses({},CAP_READ|CAP_EVENT)", "@global()", "@refused({},CAP_WRITE)")
# By which each edit replaces the line in the middle, in turn. One of them changes what is known, and one is a marker.
WAYS = ("getpid() RET 105", "cap_rights_limit(2,CAP_READ|CAP_WRITE|CAP_EVENT) RET 0", "@uses(2,CAP_READ|CAP_EVENT)")
# In a small Python of its own, since the peak of a process is at least what the one had that started it.
MEASURE = """import os, sys
out = os.open("out", os.O_RDWR | os.O_CREAT | os.O_TRUNC)
status, used = os.wait4(os.posix_spawn(sys.argv[1], sys.argv[1:], {}, file_actions=[(os.POSIX_SPAWN_DUP2, out, 1)]), 0)[1:]
print(status, used.ru_utime, used.ru_maxrss, open("out").read().count("refused"))
"""


def lines(count):
    """A trace in which nothing is found, with many descriptors and processes; a tenth are markers of needs."""
    yield "100 @start(0,1,2,3)"
    for child in range(101, 116):
        yield f"100 fork() RET {child}"
    for at in range(count - 16):
        what = MARKERS[at // 10 % 3] if at % 10 == 9 else ("read" if at % 3 else "write") + f"({{}}) RET {at % 1000}"
        yield f"{100 + at % 16} {what.format(at % 4)}"


class Bounds(harness.Test):
    is_long = True

    def measured(self, words, trace, script=()):
        """The user seconds of a run that must find nothing, and its peak memory in bytes."""
        for name, text in (("trace", trace), ("script", script)):
            with open(name, "w") as file:
                file.writelines(line + "\n" for line in text)
        said = harness.run([sys.executable, "-S", "-c", MEASURE, harness.program(), *words.split()])
        status, seconds, peak, wrong = said.out.split()
        self.assertEqual(("0", "0"), (status, wrong), f"{words} ended with {status}, and refused {wrong}: {said.said}")
        return float(seconds), int(peak) * 1024

    def peak(self, words, *texts):
        return self.measured(words, *texts)[1]

    def bounded(self, what, most, got):
        self.same(f"{what}: {got:.2f}, at most {most:.2f}", True, got <= most, "bounds")

    def test_reports(self):
        load, reports = (self.measured("edit trace script", lines(REPORTED), script)[0] for script in (["count"], ["report"] * REPORTS))
        self.bounded(f"seconds of {REPORTS:,} reports of {REPORTED:,} lines, of which a load takes {load:.2f}", LOADS * load + 1, reports)

    def test_edits(self):
        few, many = (
            self.peak("edit trace script", lines(EDITED), (f"replace {EDITED // 2} 105 {WAYS[at % 3]}" for at in range(count)))
            for count in (FEW_EDITS, EDITS)
        )
        self.bounded(f"bytes at the peak of {EDITS:,} edits more than of {FEW_EDITS}", MORE, many - few)

    def test_checks(self):
        few, many = (self.peak("check trace", lines(count)) for count in (FEW_CHECKED, CHECKED))
        self.bounded(f"bytes at the peak of a check of {CHECKED:,} lines more than of {FEW_CHECKED:,}", MORE, many - few)
