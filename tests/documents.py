"""Whether the pages name what is there.

- Each function, type, definition and clause in a column "Contract" of docs/PROOFS.md is declared in the crate of its section.
- Each clause that a page says is one of a function or of a definition is there.
- Each file in a table of docs/ARCHITECTURE.md is there, and declares the functions beside it.
- The definitions that docs/ARCHITECTURE.md lists as what must be believed rest only on one another, and none beside a folder
  specs/Code rests on that folder.
- Each file and name that CONTRIBUTING.md has in backticks is in some crate or script.
- Each path that a page has in backticks is there, each method as `Type::method`, and each name as `Definition`, `a_function` or
  `file.rt`: in code, not in a comment. No line of a table has more than 200 characters.
- docs/RIGHTS.md is what tools/rights_page.py makes, and what repeats tools/calls.txt is what tools/calls.py writes.
- The second reading says what each row of tools/calls.txt says, but where that depends on arguments.
"""

import glob
import os
import re
import sys

import harness
import reference
from harness import ROOT, text_of

sys.path.append(f"{ROOT}/tools")
import calls

LONGEST = 200  # characters of a line of a table
PATH = r"`((?:bench|contrib|crates|docs|examples|packaging|tests|tools|\.ci)/[^`\s]*|[A-Z]+\.md|LICENSE|\.gitmessage)`"
STANDS_FOR = r"NAME|WHAT|CRATE"  # in a path, these stand for any name
NAME = r"[A-Z]\w*[a-z]\w*|[a-z]\w*_\w+"  # as of a definition or a type, or as of a function
NAMES = r"`\w+`(?:(?:, | and )`\w+`)*"  # one name in backticks, or several
FUNCTIONS = r"`[\w:]+`(?:(?:, | and )`[\w:]+`)*"
BEGIN = r"\s*(?:pub |pub\(crate\) )?"  # of a declaration
OF_THE_PROVER = ("Lts", "Proof", "Tie")  # docs/GATE.md tells of these files of its work
SOURCES = ("crates/*/src/**/*.rt", "crates/*/specs/**/*.antt")
PROOFS = ("crates/*/proofs/**/*.antt",)
SCRIPTS = ("contrib/*", "tests/*", "tests/cases/*", "tools/*")
PAGES = ("*.md", "docs/*.md", "crates/*/*.md")
ARGUMENTS = {"fd": "3", "dir": "3", "path": '"a"', "flags": "0", "rights": "CAP_READ", "COMMAND..": "F_GETFL"}
ONE, TWO, PID = "1048575", "1048575,1048575", "99999"
# The largest answers of each kind, and one that is too large or has too few parts.
ANSWERS = {
    "count": (str(2**64 - 1), str(2**64)), "zero": ("0", "1"), "fd": (ONE, "1048576"), "second": ("3", "4"), "fds": (TWO, ONE),
    "child": (PID, "100000"), "child,fd": (f"{PID},{ONE}", f"{PID},1048576"),
}
CODE = re.compile(rf"\n(?={BEGIN}(?:fn|record|abbrev|data|unfoldable) )")  # between declarations


def paths(patterns):
    """The files that fit one of these patterns."""
    return [path for pattern in patterns for path in glob.glob(pattern, recursive=True) if os.path.isfile(path)]


def words_of(files):
    """The words in files."""
    return set().union(*(re.findall(r"\w+", text_of(path)) for path in files))


def lines_of(page):
    """The lines of a page, each with where it is."""
    return [(f"{page}:{number}", line) for number, line in enumerate(text_of(page).split("\n"), 1)]


def rows_of(page):
    """The cells of each row of a page's tables, with where it is."""
    rows = [(where, line) for where, line in lines_of(page) if line.startswith("| ")]
    return [(where, [cell.strip() for cell in re.split(r"(?<!\\)\|", line)[1:-1]]) for where, line in rows]


def names_in(cell):
    """The names in backticks in a cell, without what is before `::`."""
    return [re.split(r"::|\.", name)[-1] for name in re.findall(r"`([\w:.]+)`", cell)]


def declared_in(path):
    """The names that a file declares: functions, types, definitions, and clauses of contracts."""
    return {*re.findall(r"\b(?:fn|struct|enum|trait|record|ensures) (\w+)", text := text_of(path)), *re.findall(r"\bpub (\w+)", text)}


def declared_by_crates():
    """The names that each crate declares."""
    return {crate: set().union(*map(declared_in, paths(it.replace("*", crate, 1) for it in SOURCES))) for crate in os.listdir("crates")}


def is_declared(name, crate, declared):
    """Whether a crate declares a name, or where it has no type of this name another crate declares both."""
    *types, last = name.split("::")
    owners = [of for of in declared if types and types[0] in declared[of]]
    if crate in owners or not owners:
        owners = [crate] if crate else [*declared]
    return any(last in declared[of] for of in owners)


def wrong_contracts(declared):
    """The contracts of docs/PROOFS.md that aren't declared: in a section of a crate by that crate."""
    rows, crate, column = dict(rows_of("docs/PROOFS.md")), None, None
    for where, line in lines_of("docs/PROOFS.md"):
        if line.startswith("## "):
            crate = next(iter({line[3:].split(":")[0]} & {*declared}), None)
        cells = rows.get(where, [])
        if columns := [cells.index(head) for head in ("Contract", "Clause") if head in cells]:
            column = columns[0]
        elif cells:
            for name in re.findall(r"`([\w:]+)`", cells[column]):
                harness.tried["names of contracts"] += 1
                if not is_declared(name, crate, declared):
                    yield f"{where}: {crate or 'no crate'} declares no {name}"


def clauses_of_all():
    """For each function the names of its clauses, and for each record those of its fields."""
    clauses = {}
    for part in (part for path in paths(SOURCES) for part in CODE.split(text_of(path))):
        if head := re.match(rf"{BEGIN}(fn|record) (?:pub )?(\w+)", part):
            found = re.findall(r"\bensures (\w+) \{" if head[1] == "fn" else r"^  pub (\w+) :", part, re.M)
            clauses.setdefault(head[2], set()).update(found)
    return clauses


def clauses_named(line):
    """Each clause that a line of a page names, with the function or the definition that should have it."""
    pairs = re.findall(rf"clauses? ({NAMES}) of ({FUNCTIONS})", line)
    pairs += [(clause, of) for of, clause in re.findall(r"(`[\w:]+`) \(clause (`\w+`)\)", line)]
    pairs += re.findall(rf"({NAMES}) in (`[A-Z]\w+`)", line)
    pairs += [(f"`{clause}`", f"`{of}`") for of, clause in re.findall(r"`([A-Z]\w+)\.(\w+)`", line)]
    return [(it, of) for clauses, owners in pairs for it in re.findall(r"`(\w+)`", clauses) for of in re.findall(r"(\w+)`", owners)]


def wrong_file(where, path, names):
    """That a source isn't there, or doesn't declare these."""
    harness.tried["files of tables"] += 1
    if not os.path.isfile(path):
        return [f"{where}: there is no {path}"]
    return [f"{where}: {path} declares no {name}" for name in set(names) - declared_in(path)]


def taken_by(path):
    """The files of specs/ of the repository's crates that one of them takes definitions of, each with its crate."""
    taken = set()
    for crate, names in re.findall(r"\buse Rattle\.(cap\w+)\.specs\.(\{[^}]*\}|\w+)", re.sub(r"--.*", "", text_of(path))):
        taken.update((crate, name) for name in re.findall(r"(?:^|[{,])\s*(\w+)", names) if name != "declared")
    return taken


def wrong_beliefs(listed):
    """The files of specs/ that rest on something else than these, and those beside a folder Code that rest on it."""
    for path in glob.glob("crates/*/specs/*.antt"):
        crate, name = path.split("/")[1], os.path.basename(path)[: -len(".antt")]
        has_code = os.path.isdir(f"crates/{crate}/specs/Code")
        harness.tried["files of definitions"] += 1
        for other in sorted(taken_by(path)):
            if has_code and other[1] == "Code" or (crate, name) in listed and other not in listed:
                yield f"{path} rests on {'/'.join(other)}, which docs/ARCHITECTURE.md doesn't list as to be believed"


def wrong_files():
    """What docs/ARCHITECTURE.md says of files that aren't there, or don't declare it. An empty cell is the crate above."""
    crate, listed = None, set()
    for where, cells in rows_of("docs/ARCHITECTURE.md"):
        if re.fullmatch(r"`\w+/src/[\w/]+\.rt`", cells[0]):
            yield from wrong_file(where, f"crates/{cells[0][1:-1]}", names_in(cells[1]))
        elif re.fullmatch(r"`(cap_\w+|capcheck)`|", cells[0]):
            crate = cells[0].strip("`") or crate
            for name in names_in(cells[1]):
                yield from wrong_file(where, f"crates/{crate}/specs/{name}.antt", [])
                listed.add((crate, name))
    yield from wrong_beliefs(listed)


def wrong_lists():
    """What CONTRIBUTING.md names that no crate and no script has."""
    words = words_of(paths(SOURCES + PROOFS + SCRIPTS)).union(os.listdir("crates"))
    for where, line in lines_of("CONTRIBUTING.md"):
        for name in re.findall(r"`([\w/.:]+)`", line):
            harness.tried["names in pages"] += 1
            is_name = re.fullmatch(r"[\w:]*(_|[a-z][A-Z])[\w:]*", name) and not set(re.findall(r"\w+", name)) <= words
            is_path = re.match(r"(src|specs|proofs)/", name)
            if (not glob.glob(f"crates/*/{name}") if is_path else is_name) and not re.search(STANDS_FOR, name):
                yield f"{where}: nothing has {name}"


def words_of_code():
    """The names in the code of the crates, without comments, and of its files and folders; and the words of scripts."""
    words = {os.path.splitext(name)[0] for path in paths(SOURCES) for name in path.split("/")}
    codes = (re.sub(r"//.*" if path.endswith(".rt") else r"--.*", "", text_of(path)) for path in paths(SOURCES + PROOFS))
    return words.union(*(re.findall(r"\w+", code) for code in codes)), words_of(paths(SCRIPTS))


def lines_of_words(page):
    """The lines of a page that are no example, each with where it is."""
    is_example = False
    for where, line in lines_of(page):
        is_example ^= line.startswith("```")
        if not is_example and not line.startswith("    "):
            yield where, line


def wrong_names(page, code, words, clauses):
    """The names of a page that aren't in the code, system calls in no script either, and its clauses that aren't there."""
    for where, line in lines_of_words(page):
        is_wrong_body = page == "docs/TESTING.md" and line.startswith("- `")
        parts = [part for name in re.findall(r"`([\w:.]+)`", line)[is_wrong_body:] for part in re.split(r"::|\.", name)]
        parts = [part for part in parts if re.fullmatch(NAME, part)]
        files = re.findall(r"`(?!crates/)([\w/]+\.(?:rt|antt))`", line)
        named = [(it, of) for it, of in clauses_named(line) if of in clauses]
        harness.tried["names in pages"] += len(parts) + len(files) + len(named)
        lost = [it for it in parts if it not in code and not (it.islower() and it in words) and it not in OF_THE_PROVER]
        yield from (f"{where}: nothing has {name}" for name in lost)
        yield from (f"{where}: there is no {name}" for name in files if not glob.glob(f"crates/**/{name}", recursive=True))
        yield from (f"{where}: {of} has no clause {it}" for it, of in named if it not in clauses[of])


def wrong_paths(page, everything):
    """The paths of a page that aren't there, its methods that aren't among these, and the long lines of its tables."""
    for where, line in lines_of(page):
        methods, paths = re.findall(r"`[A-Z]\w+::([a-z]\w*)`", line), re.findall(PATH, line)
        harness.tried["paths in pages"] += len(methods) + len(paths)
        yield from (f"{where}: nothing declares {it}" for it in methods if it not in everything)
        yield from (f"{where}: there is no {it}" for it in paths if not os.path.exists(it) and not re.search(STANDS_FOR, it))
        if line.startswith("|") and len(line) > LONGEST:
            yield f"{where}: a line of a table with {len(line)} characters"


def arguments_of(row):
    """Some arguments of a call, by its form. No row is listed by others."""
    return ",".join(ARGUMENTS[word] for word in re.sub(r"\[.*\]", "", row.form)[1:-1].split(",") if word)


def is_read(line):
    """Whether the second reading reads a line."""
    try:
        return bool(reference.read(line))
    except reference.Refused:
        return False


def reread(row):
    """What the second reading says in the place of a row: the result, and needs, excuse and class of the first rule."""
    line = f"1 {row.name}({arguments_of(row)}) RET "
    results = [what for what, (right, wrong) in ANSWERS.items() if is_read(line + right) and not is_read(line + wrong)]
    _, name, given, _ = reference.read(line + "-1 errno 1")
    mode, checks = reference.rule(name, given)
    return results, [needs for _, needs, _ in checks], [excuse for *_, excuse in checks], mode


def differences(row):
    """The columns of a row of which the second reading says something else. A star says that it depends on arguments."""
    results, needs, excuses, mode = reread(row)
    needed = [] if row.needs in "-*" else [reference.rights(names) for names in row.needs.split(",")]
    excused = needs if row.excuse == "needs" else [None if row.excuse in "-*" else reference.rights(row.excuse)] * len(needs)
    same = {"result": row.result in results, "needs": needed == needs, "excuse": excused == excuses, "mode": mode == row.mode}
    return [column for column, is_same in same.items() if not is_same and getattr(row, column) != "*"]


class Documents(harness.Test):
    of_program = False

    def setUp(self):
        os.chdir(harness.ROOT)
        self.pages, self.declared = sorted(paths(PAGES)), declared_by_crates()

    def test_tables(self):
        for what, wrong in (("contracts", wrong_contracts(self.declared)), ("files", wrong_files()), ("lists", wrong_lists())):
            self.same(what, (), tuple(wrong), "tables of pages")

    def test_pages(self):
        everything, words, clauses = set().union(*self.declared.values()), words_of_code(), clauses_of_all()
        for page in self.pages:
            self.same(page, (), tuple(wrong_paths(page, everything)), "pages")
            if page not in ("CHANGELOG.md", "CONTRIBUTING.md"):
                self.same(page, (), tuple(wrong_names(page, *words, clauses)), "pages of code")

    def test_rights(self):
        """docs/RIGHTS.md is up to date."""
        made = harness.run([sys.executable, "tools/rights_page.py", "--print"], encoding="utf-8")
        self.same("docs/RIGHTS.md, which tools/rights_page.py makes", (0, made.out), (made.status, text_of("docs/RIGHTS.md")))

    def test_calls(self):
        """What repeats the rows of tools/calls.txt is up to date."""
        made = harness.run([sys.executable, "tools/calls.py", "--check"], encoding="utf-8")
        self.same("what tools/calls.py writes", harness.Answer(0, "", ""), made)

    def test_second_reading(self):
        """The second reading says of each call what its row says."""
        rows = calls.calls_of(calls.rows_of(text_of(calls.CALLS)))
        for row in rows:
            self.same(row.name, [], differences(row), "calls")
        listed = {name for name in (*reference.FORMS, *reference.SPECIAL) if name[0] != "@"}
        self.same("calls that only a row or the second reading has", set(), listed ^ {row.name for row in rows})
