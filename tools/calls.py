#!/usr/bin/env python3
"""Writes what repeats the rows of tools/calls.txt: `tools/calls.py`, after a change there. With `--check` it writes nothing,
says what is out of date, and ends with status 1 where something is.

What it writes stands between a comment 'tools/calls.py: WHAT' and a comment 'end': definitions and code of cap_trace and
cap_machine, as `rt fmt` leaves them; tables of docs/FORMAT.md and docs/RULES.md; lists of contrib/. PARTS has them all.
"""
import functools
import os
import random
import re
import sys
import textwrap
from typing import NamedTuple

ROOT = os.path.dirname(os.path.dirname(os.path.abspath(__file__)))
CALLS = f"{ROOT}/tools/calls.txt"
SLOTS = 512  # for names, in cap_trace
NO_FORM = 255
CODE, SPECS, PAGE, SCRIPT = 100, 120, 200, 120  # characters of a line


# ---- The text


class Form(NamedTuple):
    """A form as cap_trace names it: its variant, and where names share it their enum and the definition of their rows."""

    variant: str
    enum: str = ""
    rows: str = ""
    what: str = ""
    says: str = ".*"  # needs, excuse and class that a row may have, where a definition says some of the form


RIGHT = r"CAP_[A-Z_]+"
FLAGS = "a call at a directory, with flags"
SENDS = "a call that sends, to a destination that it names or not"
# In the order of `Form` in src/calls.rt: by arguments, after an @ those of a marker, or by the one name that has the form.
FORMS = {
    "(fd)": Form("OnFd", "FdCall", "on_fd", "a call whose one argument is a descriptor", r"[^*,]+ [^*]+ (allowed|either)"),
    "(fd[,DEST])": Form("Send", "SendCall", "sends", SENDS, r"\* needs either"),
    "(path)": Form("OnPath", "PathCall", "on_path", "a call whose one argument is a path", "- - forbidden"),
    "(path,path)": Form("OnPaths", "PathsCall", "on_paths", "a call with two paths", "- - forbidden"),
    "(dir,path)": Form("At", "AtCall", "at_dir", "a call at a directory", rf"{RIGHT} \* \*"),
    "(dir,path,flags)": Form("AtFlags", "AtFlagsCall", "at_dir_with_flags", FLAGS, rf"({RIGHT}|\*) \* \*"),
    "(flags)": Form("OnFlags", "FlagsCall", "on_flags", "a call whose one argument is flags", "- - either"),
    "()": Form("Bare", "BareCall", "bare", "a call without arguments", "- - (allowed|either)"),
    "accept4": Form("Accept4"),
    "dup2": Form("Dup2"),
    "fcntl": Form("Fcntl"),
    "mmap": Form("Mmap"),
    "cap_rights_limit": Form("RightsLimit"),
    "open": Form("Open"),
    "symlinkat": Form("SymlinkAt"),
    "renameat": Form("RenameAt"),
    "linkat": Form("LinkAt"),
    "@start": Form("Start"),
    "@exit": Form("Exit"),
    "@foreign": Form("Foreign"),
    "@(fd,rights)": Form("Needs", "NeedsMarker", "needs", "a marker of rights that a call needed", r"\* - either"),
    "@global": Form("Global"),
}
SHARED = [key for key, form in FORMS.items() if form.enum]
OF_CALLS = [key for key in SHARED if key[0] != "@"]
ALONE = [key for key, form in FORMS.items() if not form.enum]
FD, AT, AT_FLAGS, BARE = "(fd)", "(dir,path)", "(dir,path,flags)", "()"
UNCHECKED = "closefrom"  # of the calls on one descriptor specs/Rule says of this one alone that nothing is checked

# What cap_trace calls the results. It says by arguments what dup2 and fcntl answer.
KINDS = {
    **{"fd": "Fd", "second": "Fd", "fds": "FdPair", "child": "Child", "child,fd": "ChildAndFd"},
    **{"zero": "Zero", "-": "Zero", "count": "Count", "*": "Count"},
}
COLUMNS = {
    "name": r"(?=.{3,16}$)@?[a-z_][a-z0-9_]*",
    "result": "|".join(KINDS).replace("*", r"\*"),
    "needs": rf"{RIGHT}(,{RIGHT})?|NONE|-|\*",
    "excuse": rf"{RIGHT}(\|{RIGHT})*|needs|-|\*",
    "mode": r"allowed|forbidden|either|\*",
}


class Row(NamedTuple):
    """A row, by its columns."""

    name: str
    form: str
    result: str
    needs: str
    excuse: str
    mode: str  # the column `class`
    manual: str

    @property
    def key(self):
        """What FORMS lists its form by."""
        return self.name if self.name in FORMS else ("@" if self.is_marker else "") + self.form

    @property
    def is_marker(self):
        return self.name[0] == "@"

    @property
    def variant(self):
        """Its name among those that share its form."""
        return "".join(word.capitalize() for word in self.name.strip("@").split("_"))

    @property
    def kind(self):
        return KINDS[self.result]

    def faults(self):
        """What is wrong in it by itself."""
        columns = {column: getattr(self, column) for column in COLUMNS}
        faults = [f"{it} is no {column}" for column, it in columns.items() if not re.fullmatch(COLUMNS[column], it)]
        if self.key not in FORMS:
            return [*faults, f"there is no form {self.form}"]
        said = f"{self.needs} {self.excuse} {self.mode}"
        is_odd = self.key == FD and (self.needs == "-") != (self.name == UNCHECKED)
        if is_odd or not re.fullmatch(FORMS[self.key].says, said):
            faults.append(f"no definition says '{said}' of {FORMS[self.key].what}")
        return faults


def rows_of(text):
    """The rows of the text."""
    rows = []
    for number, line in enumerate(text.split("\n"), 1):
        words = line.split()
        if words and not words[0].startswith("#"):
            faults = Row(*words).faults() if len(words) == len(Row._fields) else [f"it has {len(words)} columns"]
            faults += ["it is there twice"] if words[0] in names_of(rows) else []
            if faults:
                raise SystemExit(f"tools/calls.txt, line {number}: {words[0]}: {'; '.join(faults)}")
            rows.append(Row(*words))
    if missing := {*FORMS} - {row.key for row in rows}:
        raise SystemExit(f"tools/calls.txt has no row of {', '.join(sorted(missing))}")
    return rows


def names_of(rows):
    return [row.name for row in rows]


def calls_of(rows):
    """Those that are no markers."""
    return [row for row in rows if not row.is_marker]


def of_form(rows, *keys):
    """Those of a form, or of these in turn."""
    return [row for key in keys for row in rows if row.key == key]


def in_table(rows):
    """All in the order of cap_trace's table: those that share a form, and then the others."""
    return of_form(rows, *SHARED, *ALONE)


# ---- cap_trace


def enums(rows):
    """The enum of each form that calls share."""
    return "\n\n".join(
        f"/// {FORMS[key].what.capitalize()}.\n#[derive(Clone, Copy, Debug, PartialEq, Eq)]\npub enum {FORMS[key].enum} {{\n"
        + "".join(f"    {row.variant},\n" for row in of_form(rows, key)) + "}"
        for key in OF_CALLS
    )


def in_enum(row):
    return f"{FORMS[row.key].enum}::{row.variant}"


def row_in_code(row):
    """A row of the table in Rust."""
    form = FORMS[row.key]
    values = [f'b"{row.name}"', f"Form::{form.variant}" + (f"({in_enum(row)})" if form.enum else ""), row.kind]
    if len(", ".join(values)) > 60:
        return "    Row(\n" + "".join(f"        {value},\n" for value in values) + "    ),"
    return f"    Row({', '.join(values)}),"


def code_rows(rows):
    return "\n".join([f"static ROWS: [Row; {len(rows)}] = [", *map(row_in_code, in_table(rows)), "];"])


PLACES = """impl Form {{
    /// The place of its row in the table.
    #[tactic(auto, unfolding(crate::specs::Names::all_forms))]
    #[inline(always)]
    fn place(self) -> usize
        ensures {{ slice_get all_forms result ≡ Some self }}
    {{
        match self {{
{}
        }}
    }}
}}"""


def places(rows):
    """The match that finds the row of a form: by form, or by where its enum begins and the variant."""
    arms, table = [], [row.key for row in in_table(rows)]
    for key in (*SHARED, *ALONE):
        place, form = table.index(key), FORMS[key]
        begins = f" + {place}" if place else ""
        arms.append(f"{form.variant}(call) => call as usize{begins}," if form.enum else f"{form.variant} => {place},")
    return PLACES.format("\n".join(f"            Form::{arm}" for arm in arms))


def arm(rows, answer, indent=8):
    """An arm of a match for the calls of these rows, or nothing where there are none."""
    margin, patterns = " " * indent, list(map(in_enum, rows))
    head, end = margin + " | ".join(patterns) + " =>", answer if answer.endswith("}") else f"{answer},"
    if not rows:
        return []
    if len(head) > CODE:
        return [margin + f"\n{margin}| ".join(patterns) + f" => {end}"]
    fits = len(head + " " + end.split("\n")[0]) <= CODE
    return [f"{head} {end}"] if fits else [head, f"{margin}    {end}"]


def kinds(rows):
    """The arms of what a call on one descriptor answers, where that isn't a number."""
    calls = of_form(rows, FD)
    others = [kind for kind in dict.fromkeys(KINDS.values()) if kind != "Count"]
    return "\n".join(line for kind in others for line in arm([row for row in calls if row.kind == kind], kind, 12))


def in_specs(row):
    """A name among those that share its form, as specs/Names has it."""
    form = FORMS[row.key]
    return f"{form.rows}_{'markers' if row.is_marker else 'calls'}.{row.variant}"


def spec_rows(rows):
    """The definitions of the rows."""
    parts, whole = [], ["-- the whole table; a marker has no result", "abbrev pub row_of : Form → Row"]
    for key, form in FORMS.items():
        said = [(row, f'row (codes "{row.name}") {row.kind}') for row in of_form(rows, key)]
        if form.enum:
            head = [f"-- {form.what}", f"abbrev pub {form.rows} : {form.enum} → Row"]
            parts.append("\n".join([*head, *(f"{form.rows} {in_specs(row)} = {it}" for row, it in said)]))
            whole.append(f"row_of (forms.{form.variant} c) = {form.rows} c")
        else:
            whole += [f"row_of forms.{form.variant} = {it}" for _, it in said]
    return "\n\n".join([*parts, "\n".join(whole)])


def wrapped(words, join, width):
    """Words in lines of at most so many characters, each indented by four."""
    lines = [""]
    for word in words:
        if len(lines[-1] + word + join) > width - 4:
            lines.append("")
        lines[-1] += word + join
    return "\n".join("    " + line.rstrip() for line in lines)


def all_forms(rows):
    """The forms in the order of the table."""
    words = [(f"forms.{FORMS[row.key].variant}", in_specs(row) if row.key in SHARED else "") for row in in_table(rows)]
    words = [" ".join(filter(None, both)) for both in words]
    return "unfoldable pub all_forms : List Form\nall_forms =\n" + wrapped(words, " ∷ ", SPECS) + " []"


GIVEN = {"": "", "fd": "3", "path": '\\"a\\"', "dir": "AT_FDCWD", "flags": "0"}
ANSWERED = {"count": "5", "zero": "0", "fd": "7", "fds": "4,5", "child": "101", "child,fd": "101,7"}


def lines(rows):
    """For the tests: a line of each call that shares a form."""
    told = []
    for row in of_form(rows, *OF_CALLS):
        given = ",".join(GIVEN[word] for word in row.form.replace("[,DEST]", "")[1:-1].split(","))
        told.append(f"100 {row.name}({given}) RET {ANSWERED[row.result]}")
    return 'static OF_FORMS: &[u8] = b"' + "\n".join(told) + '";'


# ---- The slots by which cap_trace finds a name


def ends(name):
    """The first bytes of a name as one number, and the last: eight bytes, or four or two of a shorter name."""
    size = 8 if len(name) >= 8 else 4 if len(name) >= 4 else 2
    return int.from_bytes(name[:size], "little"), int.from_bytes(name[-size:], "little")


def slot_of(name, factors):
    """The slot of a name, as `slot_of` in src/names.rt and `slot_at` in specs/Code/Slots.antt have it."""
    first, last = ends(name)
    return (first * factors[0] + last * factors[1]) % 2**64 // (2**64 // SLOTS)


@functools.lru_cache(None)
def factors_for(names):
    """Odd factors under which no two names share a slot, found by trying. They are the same in each run."""
    numbers = random.Random(1)
    for _ in range(10_000_000):
        factors = numbers.getrandbits(64) | 1, numbers.getrandbits(64) | 1
        if len({slot_of(name, factors) for name in names}) == len(names):
            return factors
    raise SystemExit("no factors found: give the table more slots")


def slots_of(rows):
    """The factors, and by slot the number of its row, or NO_FORM."""
    names, slots = [name.encode() for name in names_of(in_table(rows))], [str(NO_FORM)] * SLOTS
    factors = factors_for(tuple(names))
    for index, name in enumerate(names):
        slots[slot_of(name, factors)] = str(index)
    return factors, slots


def factors(rows):
    return "const FIRST_FACTOR: u64 = {};\n\nconst LAST_FACTOR: u64 = {};".format(*slots_of(rows)[0])


def code_slots(rows):
    return f"static SLOTS: [u8; {SLOTS}] = [\n" + wrapped([slot + "," for slot in slots_of(rows)[1]], " ", CODE) + "\n];"


def spec_slots(rows):
    return "unfoldable pub slots : List ℕ\nslots =\n" + wrapped(slots_of(rows)[1], " ∷ ", SPECS - 12) + " []"


def slot_by(rows):
    sums = "((first * {}) % 2 ^ 64 + (last * {}) % 2 ^ 64) % 2 ^ 64 / 2 ^ 55".format(*slots_of(rows)[0])
    return f"abbrev pub slot_by : ℕ → ℕ → ℕ\nslot_by first last =\n    {sums}"


# ---- cap_machine: needs, excuses and classes


def uses(rows):
    """The lines by which a definition uses the variants of an enum of cap_trace."""
    enum, found = FORMS[rows[0].key].enum, [[]]
    head = f"use Rattle.cap_trace.specs.declared.calls.{enum}."
    for row in rows:
        if len(f"{head}TheVariants.{{{', '.join([*found[-1], row.variant])}}}") > SPECS:
            found.append([])
        found[-1].append(row.variant)
    return "\n".join([f"{head}{{{enum}}}", *(f"{head}TheVariants.{{{', '.join(names)}}}" for names in found)])


def uses_of_needs(rows):
    return "\n".join(uses(of_form(rows, key)) for key in (FD, AT, AT_FLAGS))


def uses_of_rules(rows):
    of_fds = [row for row in of_form(rows, FD) if row.mode == "allowed" or row.name == UNCHECKED]
    return uses(of_fds) + "\n" + uses(allowed(rows, BARE))


def spec_rights(said):
    """Rights as a definition says them."""
    if said in ("NONE", "-"):
        return "none"
    named = [f'named (codes "{name}")' for name in said.split("|")]
    return named[0] if len(named) == 1 else "join " + " ".join(f"({it})" for it in named)


def spec_needs(definition, key, argument=""):
    """What writes the rows of a definition of needs. What depends on flags has a definition of its own."""
    head, own = f"{definition} {{0.variant}}{argument} = ", f"{{0.name}}_needs{argument}"
    return lambda rows: "\n".join(
        head.format(row) + (own.format(row) if row.needs == "*" else spec_rights(row.needs)) for row in of_form(rows, key)
    )


def code_needs(key):
    """What writes the arms of needs: one for the calls that need the same."""

    def written(rows):
        arms = {}
        for row in of_form(rows, key):
            own = {"*": f"return {row.name}_needs_of(flags)", "-": "RightBits(0)", "NONE": "RightBits(0)"}
            arms.setdefault(own.get(row.needs, f"RightBits::{row.needs}"), []).append(row)
        return "\n".join(line for answer, calls in arms.items() for line in arm(calls, answer))

    return written


def own_excuses(rows):
    """The calls on one descriptor of which errno 93 isn't judged, and those with other rights than they need."""
    calls = [row for row in of_form(rows, FD) if row.name != UNCHECKED]
    return [row for row in calls if row.excuse == "-"], [row for row in calls if row.excuse not in ("-", "needs")]


def spec_excuses(rows):
    never, others = own_excuses(rows)
    said = [f"fd_excuse {row.variant} = None" for row in never]
    said += [f"fd_excuse {row.variant} = Some ({spec_rights(row.excuse)})" for row in others]
    return "\n".join([*said, "fd_excuse call = Some (fd_needs call)"])


def code_excuses(rows):
    never, others = own_excuses(rows)
    arms = arm(never, "None")
    for row in others:
        first, *more = (f"RightSet::named(RightBits::{name})" for name in row.excuse.split("|"))
        joined = "rights" + "".join(f".join(&{it})" for it in more)
        arms += arm([row], f"{{\n            let rights = {first};\n            Some({joined})\n        }}")
    return "\n".join(arms)


def allowed(rows, key):
    return [row for row in of_form(rows, key) if row.mode == "allowed"]


def spec_classes(definition, key):
    """What writes the rows of a definition of classes."""
    head = f"{definition} {{.variant}} = Allowed\n"
    return lambda rows: "".join(map(head.format, allowed(rows, key))) + f"{definition} _ = Either"


def code_classes(key):
    """What writes the arm of the calls that capability mode always allows."""
    return lambda rows: "\n".join(arm(allowed(rows, key), "Class::Allowed"))


# ---- Pages


def table(head, rows, join=", "):
    """A table, where a list of names takes as many rows as it needs."""
    written = ["| " + " | ".join(head) + " |", "|" + "---|" * len(head)]
    for cells in rows:
        names = next(cell for cell in cells if isinstance(cell, list))
        while names:
            many = len(names)
            while len(line := row_of_table(cells, names[:many], join)) > PAGE:
                many -= 1
            written.append(line)
            names = names[many:]
    return "\n".join(written)


def row_of_table(cells, names, join):
    shown = join.join(f"`{name}`" for name in names)
    return "| " + " | ".join(shown if isinstance(cell, list) else cell for cell in cells) + " |"


def page_forms(rows):
    heads = {key: f"`name{key}`" for key in OF_CALLS}
    heads["(fd[,DEST])"] = "`name(fd)`, `name(fd,DEST)`"
    return table(["Form", "Names"], [[head, names_of(of_form(rows, key))] for key, head in heads.items()], " ")


RESULTS = {
    "zero": "`0`",
    "fd": "the descriptor that was made",
    "second": "the second descriptor again",
    "fds": "both descriptors, with a comma between them",
    "child": "the child's pid; 0 in the line of the child's own return",
    "child,fd": "that, a comma, and the descriptor of the process",
}


def page_results(rows):
    calls = {result: names_of(row for row in calls_of(rows) if row.result == result) for result in RESULTS}
    return table(["Call", "Result"], [[calls[result], said] for result, said in RESULTS.items()])


def alike(rows):
    """Names by the needs and the excuse that they share. OWN is a right that only the call of that name needs."""
    rows, found = [row for row in rows if row.needs not in ("*", "-")], {}
    needs = [row.needs for row in rows]
    for row in rows:
        is_own = row.needs == f"CAP_{row.name.upper()}" and needs.count(row.needs) == 1 and row.excuse in ("needs", "*")
        found.setdefault(("OWN" if is_own else row.needs, row.excuse), []).append(row.name)
    return found


def in_words(needs, excuse):
    """Needs and excuse as a page says them."""
    rights = " of the first directory, ".join(f"`{name}`" for name in needs.split(",")) + " of the second" * ("," in needs)
    words = {"OWN": "the right of that name", "NONE": "None."}.get(needs, rights)
    if excuse == "-":
        return f"{words.rstrip('.')}. Errno 93 isn't judged."
    if excuse in ("needs", "*"):
        return words
    return f"{words}. A `refusal` needs {' and '.join(f'`{name}`' for name in excuse.split('|'))}."


def page_needs(head, is_listed):
    """What writes a table of needs."""

    def written(rows):
        found = alike(row for row in calls_of(rows) if is_listed(row))
        return table(head, [[names, in_words(*said)] for said, names in found.items()])

    return written


def page_classes(rows):
    """The calls that capability mode always allows or forbids, and those of which nothing is checked."""
    calls = calls_of(rows)
    classes = {
        "always allows": [row for row in calls if row.mode == "allowed"],
        "always forbids, since they name a file by a path alone": [row for row in calls if row.mode == "forbidden"],
        "does neither, and nothing is checked": [row for row in calls if row.mode == "either" and row.needs == "-"],
    }
    return table(["Capability mode", "Calls"], [[head, names_of(them)] for head, them in classes.items()])


def is_on_fd(row):
    return row.form.startswith("(fd")


def is_at_directory(row):
    return "dir" in row.form


# ---- Tools of contrib/


def quoted(head, names, tail, indent=0):
    """Names in a string of Python, with what is before and after it."""
    margin, text = " " * indent, " ".join(names)
    if len(line := f'{margin}{head}"{text}"{tail}') <= SCRIPT:
        return line
    text, more = f'{margin}{head}"""{text}"""{tail}', margin + "    "
    return textwrap.fill(text, SCRIPT, subsequent_indent=more, break_long_words=False, break_on_hyphens=False)


def sets(them):
    """Sets of names, each under its name."""
    return "\n".join(quoted(f"{name} = set(", names_of(rows), ".split())") for name, rows in them.items())


def descriptors(rows):
    """For annotate: the names whose numbers are descriptors, and those that answer some."""
    takes = [row for row in rows if is_on_fd(row) or is_at_directory(row)]
    return sets({"TAKES": takes, "MAKES": [row for row in rows if row.result in ("fd", "second", "fds")]})


def answers(rows):
    """For truss2trace: names by what they answer, and those at a directory."""
    results = {"ZERO": "zero", "MADE": "fd", "PAIRS": "fds"}
    found = {name: [row for row in calls_of(rows) if row.result == result] for name, result in results.items()}
    return sets({**found, "AT_CALLS": filter(is_at_directory, rows)})


ARGUMENTS = {"": "", "fd": "FD", "path": '"PATH"', "dir": "DIR", "flags": "FLAGS", "rights": "RIGHTS"}
MORE_IS_SAID = ("dup2", "mmap")


def spelled_forms(rows):
    """For whatif: names by how a user writes their arguments, where it says no more of them."""
    found = {}
    for row in rows:
        words = row.form[1:-1].split(",")
        if {*words} <= {*ARGUMENTS} and row.name not in MORE_IS_SAID:
            found.setdefault(f"({','.join(ARGUMENTS[word] for word in words)})", []).append(row.name)
    heads = {form: f"'{form}': " if '"' in form else f'"{form}": ' for form in found}
    return "\n".join(quoted(heads[form], names, ",", 4) for form, names in found.items())


READERS = {
    **{FD: "one_descriptor", "(path)": "one_path", "(path,path)": "two_paths"},
    **{AT: "at_path", AT_FLAGS: "at_path_flags", BARE: "nothing"},
}


def readers(rows):
    """For truss2trace: names by the function that reads what truss prints of such a call."""
    return "\n".join(quoted("(", names_of(of_form(rows, key)), f", {reader}),", 4) for key, reader in READERS.items())


def demands(rows):
    """For truss2trace: what capcheck's rules say that calls need, where that depends on nothing but the call."""
    calls, written = [row._replace(excuse="needs") for row in calls_of(rows)], []
    heads = {'"FD,..", "FD:{}", "", ': filter(is_on_fd, calls)}
    heads['"DIR,PATH,..", "DIR:{}", "AT_FDCWD", '] = of_form(calls, AT, AT_FLAGS)
    for head, them in heads.items():
        for (needed, _), names in alike(them).items():
            right = {"OWN": "*", "NONE": ""}.get(needed, needed.removeprefix("CAP_"))
            written.append(quoted("(" + head.format(right), names, "),", 4))
    forbidden = names_of(row for row in calls if row.mode == "forbidden")
    return "\n".join([*written, quoted('("PATH,..", "", "forbidden", ', forbidden, "),", 4)])


# ---- What is written where

PARTS = {
    "crates/cap_trace/src/calls.rt": {"calls that share a form": enums},
    "crates/cap_trace/src/names.rt": {
        "rows": code_rows,
        "places": places,
        "kinds": kinds,
        "factors": factors,
        "slots": code_slots,
    },
    "crates/cap_trace/specs/Names.antt": {"rows": spec_rows, "forms": all_forms},
    "crates/cap_trace/specs/Code/Slots.antt": {"slots": spec_slots, "slot by the two words": slot_by},
    "crates/cap_trace_tests/src/tests.rt": {"lines": lines},
    "crates/cap_machine/specs/Needs.antt": {
        "variants": uses_of_needs,
        "fd_needs": spec_needs("fd_needs", FD),
        "fd_excuse": spec_excuses,
        "at_needs": spec_needs("at_needs", AT),
        "at_flags_needs": spec_needs("at_flags_needs", AT_FLAGS, " flags"),
    },
    "crates/cap_machine/src/needs.rt": {
        "fd_needs": code_needs(FD),
        "fd_excuse": code_excuses,
        "at_needs": code_needs(AT),
        "at_flags_needs": code_needs(AT_FLAGS),
    },
    "crates/cap_machine/specs/Rule.antt": {
        "variants": uses_of_rules,
        "fd_class": spec_classes("fd_class", FD),
        "bare_class": spec_classes("bare_class", BARE),
    },
    "crates/cap_machine/src/requirements.rt": {"fd_class": code_classes(FD), "bare_class": code_classes(BARE)},
    "docs/FORMAT.md": {"forms": page_forms, "results": page_results},
    "docs/RULES.md": {
        "needs": page_needs(["Call on a descriptor", "Needs"], is_on_fd),
        "needs at a directory": page_needs(["Call at a directory", "Needs of the directory's descriptor"], is_at_directory),
        "classes": page_classes,
    },
    "contrib/annotate.py": {"descriptors": descriptors},
    "contrib/whatif.py": {"forms": spelled_forms},
    "contrib/truss2trace.py": {"readers": readers, "answers": answers, "demands": demands},
}
COMMENTS = {".rt": ("//", ""), ".antt": ("--", ""), ".md": ("<!--", " -->"), ".py": ("#", "")}


def with_parts(path, text, rows):
    """The text of a file with its parts written anew, and what of them changed."""
    (begin, end), changed = COMMENTS[os.path.splitext(path)[1]], []
    found = re.findall(rf"^ *{begin} tools/calls\.py: (.*){end}$", text, re.M)
    if sorted(found) != sorted(PARTS[path]):
        raise SystemExit(f"{path} has parts {', '.join(found)}; tools/calls.py writes {', '.join(PARTS[path])}")
    for what, write in PARTS[path].items():
        part = write(rows) + "\n"
        part += "\n" if begin == "--" and not part.startswith("use ") else ""  # as `rt fmt` leaves it
        place = re.compile(rf"(^ *{begin} tools/calls\.py: {what}{end}\n)(.*?)(^ *{begin} end{end}$)", re.M | re.S)
        if not (old := place.search(text)):
            raise SystemExit(f"{path}: {what} has no line '{begin} end{end}'")
        changed += [what] if old[2] != part else []
        text = text[: old.start(2)] + part + text[old.end(2) :]
    return text, changed


def text_of(path):
    with open(path, encoding="utf-8") as file:
        return file.read()


def main(words):
    if words not in ([], ["--check"]):
        raise SystemExit("usage: tools/calls.py [--check]")
    rows, is_right = rows_of(text_of(CALLS)), True
    for path in PARTS:
        text, changed = with_parts(path, text_of(f"{ROOT}/{path}"), rows)
        if changed and words:
            is_right = False
            print(f"{path} isn't what tools/calls.py writes: {', '.join(changed)}")
        elif changed:
            with open(f"{ROOT}/{path}", "w", encoding="utf-8") as file:
                file.write(text)
    return not is_right


if __name__ == "__main__":
    sys.exit(main(sys.argv[1:]))
