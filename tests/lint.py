"""Whether the repository's scripts can be read, have the names that they should, and the form that tests have.

- Python compiles each .py file without a warning. It imports no name for nothing, and uses none that it doesn't define.
- bash reads each .sh and .bash file, and .ci/run.
- What begins with `#!` can be executed, and has the ending of its language; .ci/run alone has none.
- In tests/ nothing works as it is imported, no function has more than 40 lines, and only harness.py starts a process, but for
  STARTS. Nothing in contrib/ or bench/ imports a file of tests/.

Nothing is run or written. A name is looked for in its file and among Python's own, and not what is used of a module or a value.
"""

import ast
import builtins
import glob
import os
import re
import symtable
import warnings

import harness

FOLDERS = (".ci", "bench", "contrib", "examples", "packaging", "tests", "tools")
ENDINGS = {"#!/usr/bin/env python3": ".py", "#!/usr/bin/env bash": ".sh", "#!/bin/sh": ".sh"}
NO_ENDING = (".ci/run",)
KNOWN = {*dir(builtins), "__file__"}
MOST = 40  # lines of a function of tests/
# What starts a process, and the files of tests/ beside harness.py that may, each with the reason.
STARTING = re.compile(r"(.+\.)?(subprocess|multiprocessing|pty)|os\.(fork|forkpty|exec\w+|spawn\w+|posix_spawnp?|system|popen)")
STARTS = {
    "run.py": "multiprocessing",  # each class of tests in a process of its own
    "gate.py": "subprocess",  # `rt ci` beside the scripts, which are handed what it builds
    "compiler.py": "subprocess",  # packaging/ and tools/ use it, and not the harness
}
# What may be called as a file is imported: what makes a constant, and what finds the modules of another folder.
CONSTANTS = re.compile(
    r"""re\.compile|os\.path\.\w+|sys\.path\.(append|insert)|(collections\.)?(Counter|namedtuple)|dict(\.fromkeys)?|ast\.\w+
|(harness\.)?Answer|set|frozenset|tuple|list|range|len|sorted|zip|map|filter|enumerate|sum|min|max|int|str|bytes|chr|ord|dir|reversed|struct\.Struct
|.*\.(split|splitlines|strip|lstrip|rstrip|replace|join|format|items|keys|values|partition|encode|decode|lower|upper|title|copy|union
|startswith|endswith|maketrans)""",
    re.X | re.S,
)


def files():
    """The paths of what may be a script, each with its text."""
    for top in FOLDERS:
        for folder, folders, names in os.walk(top):
            folders[:] = sorted(it for it in folders if it != "__pycache__")
            for path in (os.path.join(folder, name) for name in sorted(names)):
                with open(path, encoding="utf-8", errors="replace") as file:
                    yield path, file.read()


def scopes(table):
    """A scope, and those in it."""
    return [table, *(inner for child in table.get_children() for inner in scopes(child))]


def names_imported_for_nothing(scope):
    """What a scope imports, and neither it nor one in it uses."""
    used = {name.get_name() for inner in scopes(scope) for name in inner.get_symbols() if name.is_referenced()}
    return sorted(name.get_name() for name in scope.get_symbols() if name.is_imported() and name.get_name() not in used)


def names_not_defined(tables):
    """What is used in these scopes of a file and defined in none where that is looked for. The first scope has all others."""
    names = [(name, name.is_global() or scope is tables[0]) for scope in tables for name in scope.get_symbols()]
    defined = {name.get_name() for name, is_global in names if is_global and (name.is_assigned() or name.is_imported())}
    return sorted({name.get_name() for name, is_global in names if is_global and name.is_referenced()} - defined - KNOWN)


def wrong_in_python(path, text):
    """What is wrong in a file of Python."""
    try:
        compile(text, path, "exec")
    except (SyntaxError, ValueError, Warning) as why:
        return [f"{path}: {why}"]
    tables = scopes(symtable.symtable(text, path, "exec"))
    wrong = [f"{path}: imports {name} for nothing" for scope in tables for name in names_imported_for_nothing(scope)]
    return wrong + [f"{path}: uses {name}, which it doesn't define" for name in names_not_defined(tables)]


def is_bash(path, text):
    return path.endswith((".sh", ".bash")) or text.startswith("#!/usr/bin/env bash\n")


def wrong_in_bash(path):
    """What is wrong in a file of bash."""
    done = harness.run(["bash", "-n", path], stdin=harness.DEVNULL)
    return [] if done.status == 0 and not done.said else [f"{path}: {done.said.strip()}"]


def wrong_in_name(path, first):
    """What is wrong with the ending or the mode of a file, by its first line."""
    if not first.startswith("#!"):
        return []
    wanted = "" if path in NO_ENDING else ENDINGS.get(first)
    if wanted is None:
        return [f"{path}: begins with {first}"]
    found = [] if os.path.splitext(os.path.basename(path))[1] == wanted else [f"{path}: must have the ending {wanted}"]
    return found if os.access(path, os.X_OK) else [*found, f"{path}: can't be executed"]


def is_definition(node):
    """Whether a statement of a file only imports or defines a name, says what the file is, or finds the modules of another folder."""
    if isinstance(node, ast.Expr):
        return isinstance(node.value, ast.Constant) or ast.unparse(node).startswith(("sys.path.append", "sys.path.insert"))
    return isinstance(node, (ast.Import, ast.ImportFrom, ast.Assign, ast.AnnAssign, ast.AugAssign, ast.ClassDef, ast.Try, ast.Pass))


def makers(tree):
    """The functions of a file that only make a function, and its tuples."""
    for node in tree.body:
        if isinstance(node, ast.ClassDef) and "NamedTuple" in map(ast.unparse, node.bases):
            yield node.name
        if isinstance(node, ast.FunctionDef) and isinstance(node.body[-1], ast.Return):
            inner, made = [it.name for it in node.body if isinstance(it, ast.FunctionDef)], node.body[-1].value
            if isinstance(made, ast.Lambda) or isinstance(made, ast.Name) and made.id in inner:
                yield node.name


def work_at_import(node, known):
    """What a file does as it is imported, each with its line: neither in functions, nor where it asks whether it is the command."""
    for child in ast.iter_child_nodes(node):
        called = ast.unparse(child.func) if isinstance(child, ast.Call) else None
        if isinstance(child, (ast.FunctionDef, ast.Lambda)) or isinstance(child, ast.If) and ast.unparse(child.test) == "__name__ == '__main__'":
            continue
        if called and called not in known and not CONSTANTS.fullmatch(called) or isinstance(child, ast.stmt) and not is_definition(child):
            yield child.lineno, f"works as it is imported: {ast.unparse(child)[:80]}"
        else:
            yield from work_at_import(child, known)


def imported(node):
    """The names that a statement imports."""
    of = f"{node.module}." if isinstance(node, ast.ImportFrom) else ""
    return [of[:-1], *(of + it.name for it in node.names)] if isinstance(node, (ast.Import, ast.ImportFrom)) else []


def wrong_in_node(node, file, foreign):
    """What is wrong with a node of a file of tests/, or of another that may not import the foreign."""
    if foreign:
        return [f"imports {name} of tests/" for name in imported(node) if name in foreign]
    if isinstance(node, ast.FunctionDef):
        lines = node.end_lineno - node.lineno + 1
        return [f"{node.name} has {lines} lines"] if lines > MOST else []
    words = [ast.unparse(node)] if isinstance(node, ast.Attribute) else imported(node)
    words = [word for word in words if STARTING.fullmatch(word) and word != STARTS.get(file) and file != "harness.py"]
    return [f"starts processes by {word}, and not by harness.py" for word in words]


def wrong_in_form(path, text):
    """What is wrong with the form of a file of Python."""
    (folder, file), tree = os.path.split(path), ast.parse(text)
    mine, tests = ({os.path.basename(it)[:-3] for it in glob.glob(f"{of}/*.py")} for of in (folder, "tests"))
    foreign = tests - mine
    if folder not in ("tests", "contrib", "bench"):
        return []
    found = [(node.lineno, what) for node in ast.walk(tree) for what in wrong_in_node(node, file, foreign)]
    found += [] if foreign else work_at_import(tree, {*makers(tree)})
    return [f"{path}:{line}: {what}" for line, what in sorted(found)]


class Scripts(harness.Test):
    of_program = False

    def look(self, what, wrong, is_right):
        """That nothing is wrong with any script that is of this kind."""
        os.chdir(harness.ROOT)
        found = [(path, wrong(path, text)) for path, text in files() if is_right(path, text)]
        for path, faults in found:
            self.same(path, (), tuple(faults), what)
        self.assertGreater(len(found), 0)

    def test_python(self):
        with warnings.catch_warnings():
            warnings.simplefilter("error")
            self.look("scripts of Python", wrong_in_python, lambda path, _: path.endswith(".py"))

    def test_bash(self):
        self.look("scripts of bash", lambda path, _: wrong_in_bash(path), is_bash)

    def test_names(self):
        self.look("names of files", lambda path, text: wrong_in_name(path, text.partition("\n")[0]), lambda *_: True)

    def test_form(self):
        self.look("forms of scripts", wrong_in_form, lambda path, _: path.endswith(".py"))
