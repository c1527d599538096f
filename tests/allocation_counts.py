"""How many allocations the program asks for, as it edits a trace and reports.

Each edit of a trace of 16,384 lines takes no more than EDITS says, twice what it took when that was written: a session that
builds its tree anew, or makes an edit twice, takes more. A report without findings takes no more than a few, however many
descriptors are known.
"""

import harness
import refusals

CALL = "100 foo() RET 0"
LINES = 16_384
MIDDLE = LINES // 2
# Each edit in the middle, and the most allocations that it may take.
EDITS = {
    f"insert {MIDDLE} {CALL}": 64,
    f"delete {MIDDLE}": 44,
    f"replace {MIDDLE} {CALL}": 46,
    f"insert {MIDDLE} 100 @uses(3,CAP_READ)": 126,
    f"replace {MIDDLE} 100 @global()": 98,
}
SOCKETS = 4096
REPORT = 8


class Counts(harness.Test):
    loads = "refuse"

    def taken(self, lines, command):
        """How many allocations this command takes after this trace is read."""
        return self.count(lines, [command]) - self.count(lines, [])

    def count(self, lines, commands):
        """How many allocations the program asks for, with this trace and this script."""
        for name, text in (("trace", lines), ("script", commands)):
            harness.save(name, "".join(line + "\n" for line in text))
        answer, told = refusals.loading(self.library, ["capcheck", "edit", "trace", "script"], tells="REFUSE_COUNTS")
        self.assertEqual((0, False, len(commands)), (answer.status, "refused" in answer.out, answer.out.count("\n")), f"{commands}: {answer}")
        return int(told)

    def test_edits(self):
        for edit, most in EDITS.items():
            taken = self.taken([CALL] * LINES, edit)
            self.same(f"{edit}: {taken} allocations, with {LINES:,} lines, are at most {most}", True, taken <= most, "counts of allocations")

    def test_reports(self):
        begun = ["100 @start()"]
        opened = begun + [f"100 socket(0) RET {fd}" for fd in range(SOCKETS)]
        used = opened + [f"100 @uses({fd},CAP_READ)" for fd in range(SOCKETS)]
        least = self.taken(begun, "report")
        for what, lines in (("", begun), (f" of {SOCKETS} sockets", opened), (f" of {SOCKETS} used sockets", used)):
            taken = self.taken(lines, "report")
            self.same(f"a report{what}: {taken} allocations, at most {REPORT} beyond {least}", True, taken <= least + REPORT, "counts of allocations")
