"""The worked cases: text in tests/cases, in the pages and in examples/, with what has to be printed.

A file of cases is a page of Markdown. `## NAME` begins a case, and `### NAME` one that has the files and rows of the `## ` above it
too. In a case a block is, by the words after its ```:

    NAME                a file of this name
    run [PROFILES]      commands after "$ "; below each its standard input after "> ", what it prints on standard output, what it
                        prints on standard error after "! ", and "status N" last where that isn't 0. A reply of a session stands
                        below the line that it answers
    each COLUMNS        rows: the case is run for each, and {COLUMN} in other blocks is what the row has there. Columns end at a
                        space, the last before " -> " and the last of all hold what is left. Rows after "# " are notes

With PROFILES, `both`, `first` or `second`, a command `capcheck COMMAND FILE` is run without and with --profile 1, and with
--profile 2, and in all ways that print the same: of check and denials the trace on standard input too; of check a report of `edit`;
of edit the session as a file of a script; of the others than check, where none is given, an empty start. `edit` takes each line of
the limits. No run changes the files. Other words after `run` are `terminal`, where standard error is a terminal, and
`part`, where ... stands for any text. A block that is `escaped` has the escapes of Python, of which a backslash at the end takes the
last line feed away, and {TEXT*N}, which is TEXT so many times.

Commands with characters of a shell are run by bash. In pages blocks are marked `examples`, `server` and so on; their commands are
run in a folder that has the examples, and below each is what it prints on both outputs.
"""

import glob
import itertools
import os
import re
import shlex
import tempfile
from typing import NamedTuple

import harness
import reference
from harness import Answer

FOLDER = os.path.join(harness.HERE, "cases")
EXAMPLES = os.path.join(harness.ROOT, "examples")
PAGES = {"README.md": "examples", "docs/EXPLAIN.md": "server", "docs/SANDBOXING.md": "digest"}
WORKED = "runs of worked cases"
OF_A_CLASS, OF_A_LONG_CLASS = 30, {"full": 2, "said": 2, "words": 6}  # cases
FIRST, SECOND = [[], ["--profile", "1"]], [["--profile", "2"]]
PROFILES = {"both": FIRST + SECOND, "first": FIRST, "second": SECOND}
WAYS = {*PROFILES, "terminal", "part", "escaped"}
OF_BASH = re.compile("[|&;<>$`]")
# What reference.py answers to each command on a trace, for --bless.
JUDGED = {"check": reference.check, "denials": reference.denials, "limits": reference.limits, "explain": reference.explained, "edit": reference.replies}


class Turn(NamedTuple):
    """A command of a block, the place of the line behind it, and the lines below it."""

    command: str
    at: int
    lines: list

    def marked(self, mark):
        return "".join(line[2:] + "\n" for line in self.lines if line.startswith(mark))

    @property
    def given(self):
        """What the command reads."""
        return self.marked(">")

    @property
    def wanted(self):
        """What it has to print."""
        *printed, last = self.lines or [""]
        status = int(last[7:]) if re.fullmatch("status [0-9]+", last) else 0
        printed = printed if last.startswith("status ") else self.lines
        return Answer(status, "".join(line + "\n" for line in printed if line[:1] not in (">", "!")), self.marked("!"))


class Block(NamedTuple):
    """A block: the words after its mark, the place of its first line in the file, and its lines."""

    words: list
    at: int
    lines: list

    def text(self, line, row):
        """A line of the block, or its text, with its escapes and what a row has."""
        if "escaped" in self.words:
            line = line.encode("latin1").decode("unicode_escape")
            line = re.sub(r"\{([^{}]+)\*([0-9]+)\}", lambda it: it[1] * int(it[2]), line)
        return re.sub(r"\{([A-Z]+)\}", lambda it: row.get(it[1], it[0]), line)

    def profiles(self):
        """The options of each profile in which the commands are run in all ways."""
        return [options for word in self.words for options in PROFILES.get(word, [])]

    def file(self, row):
        return self.text("".join(line + "\n" for line in self.lines), row)

    def turns(self, row=None):
        """The commands, each with the lines below it."""
        found = []
        for at, line in enumerate(self.lines, self.at + 1):
            filled = line if row is None else self.text(line, row)
            if filled.startswith("$ "):
                found.append(Turn(filled[2:], at, []))
            elif filled or not line:  # a line that is all of what a row has may be none
                found[-1].lines.extend(filled.split("\n"))
        return found

    def rows(self):
        """What each row of `each` has."""
        columns = [part.split() for part in " ".join(word for word in self.words[1:] if word != "escaped").split(" -> ")]
        for line in self.lines:
            if not line.startswith("# "):
                parts = zip(columns, line.split(" -> ", len(columns) - 1))
                cells = {name: cell for names, part in parts for name, cell in itertools.zip_longest(names, part.split(" ", len(names) - 1), fillvalue="")}
                yield {name: self.text(cell, {}) for name, cell in cells.items()}


class Case(NamedTuple):
    """A case, by its blocks."""

    name: str
    blocks: list

    def of(self, kind):
        return [block for block in self.blocks if block.words[0] == kind]

    def rows(self):
        """What {COLUMN} stands for, in each run of the case."""
        for rows in itertools.product(*(list(block.rows()) for block in self.of("each"))):
            yield {name: cell for row in rows for name, cell in row.items()}

    def save(self, row):
        """Writes the files, and answers their texts."""
        files = {block.words[0]: block.file(row) for block in self.blocks if block.words[0] not in ("run", "each")}
        for name, text in files.items():
            harness.save(name, text)
        return files


def sections(path):
    """The headings of a page, each with its blocks."""
    found, words = [("", [])], None
    lines = harness.text_of(path, "latin1").split("\n")
    for at, line in enumerate(lines):
        if words is not None and line == "```":
            found[-1][1].append(Block(words, begin, lines[begin:at]))
            words = None
        elif words is None and line.startswith("```"):
            words, begin = line[3:].split(" "), at + 1
        elif words is None and line.startswith("#"):
            found.append((line, []))
    if words is not None:
        raise ValueError(f"{path}: a block has no end")
    return found


def cases_of(path):
    """The cases of a file."""
    file, shared, found = os.path.splitext(os.path.basename(path))[0], [], {}
    headings = sections(path)
    for (heading, blocks), (later, _) in zip(headings, [*headings[1:], ("", [])]):
        mark, _, name = heading.partition(" ")
        if mark == "##":
            shared = [block for block in blocks if block.words[0] != "run"]
        case = Case(f"{file}.{name}", shared + blocks if mark == "###" else blocks)
        unknown = {word for block in case.of("run") for word in block.words[1:]} - WAYS
        if unknown or name in found or (mark in ("##", "###") and not case.of("run") and not later.startswith("### ")):
            raise ValueError(f"{path}: {heading}: {f'no way is {unknown}' if unknown else 'there are two' if name in found else 'it runs nothing'}")
        found |= {name: case} if case.of("run") else {}
    return list(found.values())


def words_of(command):
    return ["bash", "-c", command] if OF_BASH.search(command) else shlex.split(command)


def ways(words, given, wanted, files):
    """The runs that print the same as a command on a trace, each with its standard input; of limits also the replies to them."""
    _, command, file, *others = words
    yield words, given, wanted
    if command == "edit":
        yield [*words, harness.save("as.script", given)], "", wanted
    if command in ("check", "denials"):
        yield ["capcheck", command, *others], files[file], wanted
    start = others[others.index("--start") :][:2] if "--start" in others else []
    if command == "limits" and wanted.status == 0:
        lines, inserted = len(reference.load(files[file])[0]), re.findall("^insert ", wanted.out, re.M)
        yield ["capcheck", "edit", file, *start], wanted.out, Answer(None, "".join(f"ok {lines + at}\n" for at, _ in enumerate(inserted, 1)), "")
    if command == "check":
        yield ["capcheck", "edit", file, *others], "report\n", wanted
    if command != "check" and not start:
        yield [*words, "--start", harness.save("no.start", "")], given, wanted


def runs_of(block, turn, files):
    """Each run of a command: its words, its standard input, and what it has to print."""
    profiles = block.profiles()
    if "page" in block.words:
        yield ["bash", "-c", f"exec 2>&1\n{turn.command}"], "", Answer(None, "".join(line + "\n" for line in turn.lines), "")
    elif not profiles:
        yield words_of(turn.command), turn.given, turn.wanted
    for options in profiles:
        for way, given, wanted in ways(words_of(turn.command), turn.given, turn.wanted, files):
            yield [*way, *options], given, wanted


def got_by(block, words, given, wanted):
    """How a run ends, with what is wanted where a part of that is."""
    got = (harness.on_terminal if "terminal" in block.words else harness.run)(words, given)
    if "part" in block.words:
        parts = [".*".join(map(re.escape, text.split("..."))) for text in wanted[1:]]
        got = Answer(got.status, *(want if re.fullmatch(part, text, re.S) else text for part, want, text in zip(parts, wanted[1:], got[1:])))
    return got if wanted.status is not None else got._replace(status=None)


def make_bin(folder):
    """A folder of the program and its tools, at the begin of PATH."""
    path = os.path.join(folder, "bin")
    os.mkdir(path)
    os.symlink(harness.program(), os.path.join(path, "capcheck"))
    for name, file in harness.TOOLS.items():
        os.symlink(os.path.join(harness.ROOT, "contrib", file), os.path.join(path, name))
    os.environ["PATH"] = f"{path}:{os.environ['PATH']}"


class OfText(harness.Test):
    """Tests that are text, each in a folder of its own. `cases` has the case of each, and `kind` is what is counted."""

    cases, kind = {}, ""

    @classmethod
    def setUpClass(cls):
        super().setUpClass()
        make_bin(cls.folder)

    def __init__(self, method):
        super().__init__(method)
        self.case = self.cases[method]
        self.name = self.case.name

    def setUp(self):
        os.mkdir(f"{self.folder}/{self._testMethodName}")
        os.chdir(f"{self.folder}/{self._testMethodName}")

    def try_case(self):
        """Runs a case, for each of its rows."""
        harness.tried["worked cases"] += self.kind == WORKED
        for row in self.case.rows():
            files = self.case.save(row)
            for block in self.case.of("run"):
                for turn in block.turns(row):
                    for run in runs_of(block, turn, files):
                        self.try_run(block, row, *run)
            self.same("the files afterwards", files, {name: harness.text_of(name, "latin1") for name in files}, "comparisons of files after a case")

    def try_run(self, block, row, words, given, wanted):
        what = f"{shlex.join(words)}{' <<' * bool(given)}{' on a terminal' * ('terminal' in block.words)} {str(row or '')[:300]}"
        harness.tried["sessions"] += words[1:2] == ["edit"]
        self.same(what, wanted, got_by(block, words, given, wanted), self.kind)


def lines_shown(page, mark):
    """The lines of the blocks of a page that are marked so."""
    return [line for _, blocks in sections(f"{harness.ROOT}/{page}") for block in blocks if block.words == [mark] for line in block.lines]


def blocks_of(texts, folder):
    return [Block([folder + name], 0, text.splitlines()) for name, text in texts.items()]


def of_pages(examples):
    """The cases of the pages: of their commands, and of the session in docs/SCRIPTS.md, which is that of the example."""
    files = blocks_of(examples, "examples/")
    for page, mark in PAGES.items():
        yield Case(f"{page}.{mark}", [*files, Block(["run", "page"], 0, lines_shown(page, mark))])
    for name in [name[:-7] for name in examples if name.endswith(".script")]:
        if name == "server" or lines_shown("docs/SCRIPTS.md", name):
            shown = [["$ capcheck edit examples/%s.trace", *lines_shown("docs/SCRIPTS.md", name)]]
            shown.append(["$ grep -v -e '^#' -e '^$' examples/%s.script", *(line[2:] for line in shown[0] if line.startswith("> "))])
            shown.append(["$ grep -v '^status ' examples/%s.replies", *(line for line in shown[0][1:] if not line.startswith("> "))])
            yield Case(f"docs/SCRIPTS.md.{name}", [*files, *(Block(["run"], 0, [line.replace("%s", name) for line in lines]) for lines in shown)])


def of_examples(examples):
    """The cases of the examples: each trace has a report, perhaps with options, and each script its replies."""
    for name in [name[:-6] for name in examples if name.endswith(".trace")]:
        commands = {f"check {name}.trace {examples.get(f'{name}.options', '').strip()}": f"{name}.report"}
        if f"{name}.script" in examples:
            commands |= {f"edit {name}.trace {how}{name}.script": f"{name}.replies" for how in ("", "<")}
        lines = [line for command, kept in commands.items() for line in (f"$ capcheck {command}", *examples[kept].splitlines())]
        yield Case(f"examples.{name}", [*blocks_of(examples, ""), Block(["run"], 0, lines)])


def classes():
    """The classes of tests: of the files of cases, of the pages and of the examples."""
    examples = {os.path.basename(path): harness.text_of(path, "latin1") for path in sorted(glob.glob(f"{EXAMPLES}/*.*"))}
    texts = [("examples", list(of_examples(examples)), "runs of examples")] + [(case.name, [case], "commands of pages") for case in of_pages(examples)]
    texts += [(os.path.splitext(os.path.basename(path))[0], cases_of(path), WORKED) for path in sorted(glob.glob(f"{FOLDER}/*.md"))]
    found = []
    for name, cases, kind in texts:
        most = OF_A_LONG_CLASS.get(name, OF_A_CLASS)
        for at in range(0, len(cases), most):
            numbered = {f"test_{number:03}": case for number, case in enumerate(cases[at : at + most])}
            also = {"cases": numbered, "kind": kind, "is_long": name in OF_A_LONG_CLASS, **{method: OfText.try_case for method in numbered}}
            found.append(type(f"{name}_{at // most}", (OfText,), also))
    return found


# ---- blessing


def second_reading(words, given, files):
    """What reference.py answers to a command on a trace, with its status; None where it has no answer."""
    command, *rest = [*words[1:], ""]
    options = {name: rest.pop(rest.index(name) + 1) for name in ("--start", "--profile") if name in rest}
    trace, *rest = [word for word in rest if word and word not in options] or [""]
    texts, numbers = [trace, *([options["--start"]] if "--start" in options else [])], [options.get("--profile", "1"), *rest]
    if command == "edit":
        texts, numbers = texts + rest, numbers[:1]
    if command not in JUDGED or not {*texts} <= {*files} - {"-"} or not all(map(str.isdigit, numbers)) or (command == "explain" and not rest):
        return None
    profile, start = int(numbers[0]), files.get(options.get("--start"), "")
    if command == "edit":
        return reference.replies(files[trace], files[rest[0]] if rest else given, profile, start)
    position = [int(rest[0]) if rest else None] if command in ("explain", "limits") else []
    return JUDGED[command](files[trace], *position, profile, start)


def printed(block, turn, shown, got):
    """The lines below a command that ended so. Each reply of a session stands below the line that it answers."""
    words, said, given = words_of(turn.command), [line for line in shown if line[:1] == ">"], turn.given.splitlines(True)
    ends = [0, *(len(harness.run(words, "".join(given[:at])).out) if words[1] == "edit" else 0 for at in range(1, len(given))), len(got.out)]
    lines = [line for at, command in enumerate(said) for line in (command, *got.out[ends[at] : ends[at + 1]].splitlines())]
    lines += [] if said else got.out.splitlines()
    lines += [f"! {line}" for line in got.said.splitlines()] + [f"status {got.status}"] * (got.status != 0)
    return [line if line in said or "escaped" not in block.words else line.encode("unicode_escape").decode() for line in lines]


def blessed(what, block, turn, files, row):
    """How a command ends, where that is another way than it has to and may be blessed, and else why it may not be."""
    runs = [[*words_of(turn.command), *options] for options in block.profiles() or [[]]]
    got = got_by(block, runs[0], turn.given, turn.wanted)
    if got == turn.wanted:
        return None, None
    answers = [second_reading(words, turn.given, files) for words in runs if words[0] == "capcheck"]
    if row:
        return None, f"{what}: printed is another text with {row}, and rows are changed by hand\n{harness.difference(turn.wanted, got)}"
    if any(answer not in (None, (got.out, got.status)) for answer in answers):
        return None, f"{what}: the second reading has another answer\n{harness.difference(answers[0][::-1], got[:2])}"
    print(f"{what}: blessed{'' if any(answers) else ', look whether it is right'}\n{harness.difference(turn.wanted, got)}")
    return got, None


def bless_case(case, lines):
    """Writes what a case prints into the lines of its file, and yields why something isn't written."""
    for row in case.rows():
        files = case.save(row)
        for block in reversed(case.of("run")):
            for turn, shown in reversed([*zip(block.turns(row), block.turns())]):
                got, why = blessed(f"{case.name}: {turn.command}", block, turn, files, row)
                if got:
                    lines[turn.at : turn.at + len(shown.lines)] = printed(block, turn, shown.lines, got)
                elif why:
                    yield why


def bless(name):
    """Writes what is printed now into the cases with this in their names, and answers what is refused, or 0."""
    refused, found = [], False
    with tempfile.TemporaryDirectory() as folder:
        make_bin(folder)
        os.chdir(folder)
        for path in sorted(glob.glob(f"{FOLDER}/*.md")):
            lines = harness.text_of(path, "latin1").split("\n")
            for case in reversed([case for case in cases_of(path) if name in case.name]):
                found = True
                refused += bless_case(case, lines)
            harness.save(path, "\n".join(lines))
        os.chdir(harness.HERE)
    return "\n".join(refused) or (0 if found else f"no case has {name} in its name")
