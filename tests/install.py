"""What `make install` puts where, whether it runs from there, and what `make uninstall` leaves.

All of it happens in a folder of its own. On PATH is a program capcheck that must not be run: each tool finds the one beside
itself. Completions are asked by the shells; where zsh isn't there, that is said.
"""

import os
import re
import shutil

import harness
from harness import ROOT

TOOLS = ["capcheck-annotate", "capcheck-truss", "capcheck-whatif"]
COMPLETIONS = "share/bash-completion/completions"
WANTED = {
    **{f"bin/{name}": "755" for name in ["capcheck", *TOOLS]},
    **{f"share/man/man1/{name}.1": "644" for name in ["capcheck", *TOOLS]},
    f"{COMPLETIONS}/capcheck": "644",
    **{f"{COMPLETIONS}/{name}": "capcheck" for name in TOOLS},
    "share/zsh/site-functions/_capcheck": "644",
}
RECORDING = """100: openat(AT_FDCWD,"a",O_RDONLY,00)\t = 3 (0x3)
100: cap_rights_limit(3,{ CAP_READ })\t = 0 (0x0)
100: fstat(3,{ mode=-rw-r--r-- })\t = 0 (0x0)
"""
TRACE = """# kernel 14
100 @start(0,1,2)
100 openat(AT_FDCWD,"a",O_RDONLY) RET 3
100 cap_rights_limit(3,CAP_READ) RET 0
100 fstat(3) RET 0
"""
REPLIES = """line 4, 100 fstat: it succeeded, and descriptor 3 lacks CAP_FSTAT (missing)
1 finding
deleted line 3: 3 lines, 0 findings
gone: line 4, 100 fstat: it succeeded, and descriptor 3 lacks CAP_FSTAT (missing)
"""
HELP = """Checks

Usage: capcheck <COMMAND>

Commands:
  check    Checks a trace
  edit     Replies
  explain  Shows a line
  limits   Prints limits, as by --least
  denials  Prints lines
  help     Prints help

Options:
  -p, --profile <NUMBER>  1, or 2 as by --two
  -s, --start[=FILE]      The start
  -v, --verbose           Words
  -h, --help              Print help
      --version           Print version

Examples:
  capcheck check --undo server.trace
"""
COMPLETE = """
. "$1"; shift
complete -p capcheck capcheck-truss capcheck-annotate capcheck-whatif >/dev/null || exit
COMP_WORDS=("$@") COMP_CWORD=$(($# - 1))
_capcheck
printf '%s\\n' ${COMPREPLY[@]+"${COMPREPLY[@]}"} | sort | tr '\\n' ' '
"""
ALL = "check denials edit explain help limits"
OPTIONS = "--help --profile --start --verbose --version -h -p -s -v"
# Words, of which bash completes the last, and what it offers, by the help of a program that prints HELP.
BY_HELP = (
    ([""], ALL), (["e"], "edit explain"), (["-"], OPTIONS), (["check", "--"], OPTIONS.split(" -h")[0]), (["check", ""], ""),
    (["help", "d"], "denials"), (["-p", ""], "1 2"), (["--profile", ""], "1 2"), (["check", "--profile", "=", "2"], "2"),
    (["check", "--profile", "="], "1 2"), (["--start", ""], ""), (["-s", "x", ""], ALL), (["--profile", "=", "2", "l"], "limits"),
    (["-v", "c"], "check"), (["explain", "-v", "-"], OPTIONS), (["x", "y", ""], ""),
)  # fmt: skip
# And by that of the installed programs.
INSTALLED = (
    (["capcheck", ""], ALL), (["capcheck", "check", "--st"], "--start"), (["capcheck", "edit", "--prof"], "--profile"),
    (["capcheck", "--vers"], "--version"), (["capcheck-truss", "--out"], "--output"), (["capcheck-truss", "--sta"], "--start"),
    (["capcheck-annotate", "--cap"], "--capcheck"), (["capcheck-whatif", "--"], "--capcheck --help --profile --start --version"),
    (["capcheck-whatif", "-p"], "-p"), (["capcheck-annotate", "--format", "h"], "html"), (["capcheck-whatif", "--profile", ""], "1 2"),
    (["capcheck-truss", "--pid", ""], ""), (["capcheck-truss", "--ker"], "--kernel"), (["capcheck-truss", "--kernel", ""], "12 13 14 15"),
    (["capcheck-whatif", "--capcheck", "-"], ""), (["/none/capcheck", "-"], ""),
)  # fmt: skip
CLEAR = "\x15"  # Ctrl-U
# What a shell must show, one after the other, and what is typed when it was seen.
TYPED = (
    ("ready> ", "capcheck ex\t"), ("explain ", CLEAR + "capcheck edit --prof\t"), ("--profile ", CLEAR + "capcheck check some\t"),
    ("some\\ traces/", "th\t"), ("the\\ trace ", CLEAR + "capcheck-whatif --capc\t"), ("--capcheck ", ""),
)  # fmt: skip


def file_of(path, text, mode=0o644):
    os.chmod(harness.save(path, text), mode)
    return path


class Installed(harness.Test):
    is_long = True

    @classmethod
    def setUpClass(cls):
        super().setUpClass()
        cls.prefix = os.path.join(cls.folder, "a folder/opt/capcheck")
        cls.bin = os.path.join(cls.prefix, "bin")
        cls.environment = {name: value for name, value in os.environ.items() if not name.startswith(("MAKE", "MFLAGS"))}
        cls.environment |= {"PATH": f"{cls.folder}/decoy:{os.environ['PATH']}", "LC_ALL": "C", "HOME": cls.folder}
        file_of("decoy/capcheck", "#!/bin/sh\necho not this one\nexit 9\n", 0o755)
        file_of("stub/capcheck", f"#!/bin/sh\ncat <<'END'\n{HELP}END\n", 0o755)
        names = [name for name in ("gmake", "make") if shutil.which(name) and "GNU Make" in harness.run([name, "--version"]).out]
        assert names and shutil.which("bash"), "tests/install.py needs GNU make and bash"
        cls.make = names[0]  # called gmake on FreeBSD

    def setUp(self):
        self.made("install")

    def run_with(self, *words, given="", path=None):
        environment = self.environment if path is None else {**self.environment, "PATH": f"{path}:{self.environment['PATH']}"}
        return harness.run(words, given, env=environment, timeout=harness.PATIENCE)

    def installed(self, name, *words, given=""):
        return self.run_with(os.path.join(self.bin, name), *words, given=given)

    def is_so(self, what, wanted, got):
        self.same(what, wanted, got, "comparisons of what is installed")

    def made(self, target):
        words = [f"PROGRAM={harness.program()}", f"DESTDIR={self.folder}/a folder", "PREFIX=/opt/capcheck"]
        status, _, why = self.run_with(self.make, "-C", ROOT, target, *words)
        self.is_so(f"make {target}", (0, ""), (status, why))

    def files(self):
        """Each file that is there, with its mode or where it leads."""
        paths = [os.path.join(folder, name) for folder, _, names in os.walk(self.prefix) for name in names]
        kinds = [os.readlink(path) if os.path.islink(path) else f"{os.stat(path).st_mode & 0o777:o}" for path in paths]
        return tuple(sorted((os.path.relpath(path, self.prefix), kind) for path, kind in zip(paths, kinds)))

    def test_files(self):
        self.is_so("installed", tuple(sorted(WANTED.items())), self.files())
        self.made("install")
        self.is_so("installed over itself", tuple(sorted(WANTED.items())), self.files())
        file_of("a folder/opt/capcheck/bin/other", "")
        self.made("uninstall")
        self.is_so("left", (("bin/other", "644"),), self.files())
        self.made("uninstall")
        os.remove("a folder/opt/capcheck/bin/other")

    def test_programs(self):
        """Each program runs, and finds the one beside it."""
        version = harness.capcheck("--version")
        self.is_so("capcheck", version, self.installed("capcheck", "--version"))
        recording, trace = file_of("recording", RECORDING), file_of("trace", TRACE)
        self.is_so("capcheck-truss", (0, TRACE), self.installed("capcheck-truss", "--start", "0,1,2", recording)[:2])
        self.is_so("capcheck check", (1, "4 100 fstat missing 3 CAP_FSTAT\nfindings 1\n", ""), self.installed("capcheck", "check", trace))
        status, said, why = self.installed("capcheck-annotate", trace)
        self.is_so("capcheck-annotate", (1, True, ""), (status, "missing 3 CAP_FSTAT" in said, why))
        self.is_so("capcheck-whatif", (0, REPLIES, ""), self.installed("capcheck-whatif", trace, given="report\ndelete 3\n"))
        self.is_so("capcheck-whatif --version", version, self.installed("capcheck-whatif", "--version"))
        os.symlink(os.path.join(self.bin, "capcheck-whatif"), "link")
        self.is_so("a link to capcheck-whatif", version, self.run_with("./link", "--version"))
        alone = os.path.join(ROOT, "contrib/whatif.py")
        self.is_so("whatif without a program beside it", (9, "not this one\n", ""), self.run_with(alone, "--version"))

    def test_pages(self):
        """Each page is that of its program, and has each option that the program's help lists."""
        for name in TOOLS:
            page = harness.text_of(f"{self.prefix}/share/man/man1/{name}.1")
            self.is_so(f"the page of {name}", (f".Dt {name.upper()} 1", True), (page.split("\n")[1], f"\n.Nm {name}\n" in page))
            listed = re.findall(r"^ +(-.*?)(?:  |$)", self.installed(name, "--help").out, re.M)
            options = re.findall(r"(?<![a-z])--?([a-z-]+)", " ".join(listed))
            self.is_so(f"options of {name}", True, "help" in options and len(options) > 3)
            lacks = [option for option in options if not re.search(rf"\bFl (Fl )?-?{option}\b", page)]
            self.is_so(f"options that the page of {name} lacks", [], lacks)

    def test_completions(self):
        """What bash offers for the last of some words."""
        for path, rows in (("stub", [(["capcheck", *words], wanted) for words, wanted in BY_HELP]), (self.bin, INSTALLED)):
            for words, wanted in rows:
                script = f"{self.prefix}/{COMPLETIONS}/{os.path.basename(words[0])}"
                offered = self.run_with("bash", "-c", COMPLETE, "bash", script, *words, path=os.path.abspath(path))
                self.is_so(f"completion of {words}", (0, " ".join(sorted(wanted.split())) + " ", ""), offered)

    def at_terminal(self, words, loads):
        """Completion as a person meets it: a command, an option, and a file with a space in its name."""
        file_of("some traces/the trace", "")
        shell = {"PATH": f"{self.bin}:{self.environment['PATH']}", "TERM": "dumb", "INPUTRC": "/dev/null", "PS1": "ready> "}
        with harness.Terminal(words, {**self.environment, **shell}) as terminal:
            for wanted, typed in (("ready> ", loads), *TYPED):
                terminal.until(wanted)
                terminal.type(typed)
                harness.tried["comparisons of what is installed"] += 1

    def test_bash(self):
        self.at_terminal(["bash", "--norc", "--noprofile", "-i"], f". '{self.prefix}/{COMPLETIONS}/capcheck'\n")

    def test_zsh(self):
        functions = f"{self.prefix}/share/zsh/site-functions"
        if not shutil.which("zsh"):
            harness.left_out.append("completion by zsh: there is no zsh here")
            return
        self.is_so("zsh", (0, "", ""), self.run_with("zsh", "-n", f"{functions}/_capcheck"))
        self.at_terminal(["zsh", "-f", "-i"], f"fpath=('{functions}' $fpath); autoload -Uz compinit; compinit -u -D\n")
