#!/usr/bin/env python3
"""Makes the two archives of a release, and tries them:

    packaging/dist.py FOLDER                  of its own proved build; KIT_NOTICE names a file with the terms of the kit
    packaging/dist.py FOLDER --trial OBJECT   for a test: of any object, proved or not; the names say TRIAL

capcheck-VERSION-amd64.tar.gz has the object with system.c, capcheck-VERSION-linux-amd64.tar.gz a static program. The
same commit, kit and compiler give the same bytes again. It stops at the first thing that is wrong: changes that aren't
committed, a build that isn't proved, an object that asks for something unknown or isn't for every x86-64, a script of
tests/native.py that fails, a missing notice, an archive that doesn't work. LIBC_NOTICES names the files with the
notices of the C library that `cc -static` links, by default Debian's.

Each archive is tried where nothing else of it is: the first is built, checked, installed and removed again, by the
makes and compilers that are here; the second also runs with its own folder as the root of all files.
"""

import glob
import gzip
import hashlib
import io
import os
import re
import shutil
import subprocess
import sys
import tarfile
import tempfile

HERE = os.path.dirname(os.path.abspath(__file__))
ROOT = os.path.dirname(HERE)
sys.path[:0] = [HERE, f"{ROOT}/tests"]

import compiler
import notices
import elf

TOOLS = {"truss2trace": "capcheck-truss", "annotate": "capcheck-annotate", "whatif": "capcheck-whatif"}
FOR_DEBIAN = "/usr/share/doc/libc6-dev/copyright /usr/share/common-licenses/LGPL-2.1"
FOR_V2 = "__x86_get_cpuid_feature_leaf"
NEEDED = "sh cat cmp dirname grep head ln mktemp mv rm sed sleep uname".split()  # by tests/examples.sh
COMPILERS = (["cc"], ["cc", "-static"], ["clang"], ["musl-gcc"], ["musl-gcc", "-static"])


def said(*words, **how):
    """What a command prints."""
    return subprocess.run(words, check=True, stdout=subprocess.PIPE, text=True, **{"cwd": ROOT, **how}).stdout


def read(path):
    with open(path, "rb") as file:
        return file.read()


# ---- what is packed


def built():
    """The object of a proved build for every x86-64, and the verdict that the build printed."""
    if said("git", "status", "--porcelain"):
        sys.exit("there are changes that aren't committed: an archive is of a commit")
    folder = f"{ROOT}/crates/capcheck"
    if os.path.lexists(f"{folder}/out/capcheck"):
        os.remove(f"{folder}/out/capcheck")  # else `rt run` may only run it, and print no verdict
    words = [os.environ.get("RT", "rt"), "run", "--cpu=x86-64", "--", "--version"]
    lines = []
    with subprocess.Popen(words, cwd=folder, stdout=subprocess.DEVNULL, stderr=subprocess.PIPE, text=True) as build:
        for line in build.stderr:  # where `rt run` prints all but what the program does
            print(line, end="", file=sys.stderr, flush=True)
            lines.append(line.rstrip("\n"))
    verdicts = [line for line in lines if line.startswith("logic=proved ")]
    if build.returncode or not verdicts:
        sys.exit("the program isn't proved and built")
    return f"{folder}/out/capcheck.o", verdicts[-1]


def checked(path, logic, is_trial):
    """The object as the prover left it, and with the names of system.syms."""
    it = elf.read(path)
    wrong = list(elf.faults(it, logic))
    if is_trial:
        wrong = [fault for fault in wrong if not fault.startswith("no proved build")]
    elif processor(it) != "x86-64":
        wrong.append(f"it is for {processor(it)}, and not for every x86-64")
    if wrong:
        sys.exit("\n".join([f"{path}:", *wrong]))
    names = elf.names_of_system()
    renamed = elf.renamed(it, names)
    if elf.meaning(it, names) != elf.meaning(elf.Object(renamed), {}):
        sys.exit("renaming changed more than names")
    return it, renamed


def processor(it):
    """What an object is for. One for x86-64-v2 asks which processor it is on."""
    return "x86-64-v2" if FOR_V2 in {it.name(symbol) for symbol in it.symbols} else "x86-64"


def linked(renamed):
    """A static program of the renamed object."""
    with tempfile.TemporaryDirectory() as folder:
        with open(f"{folder}/capcheck.o", "wb") as file:
            file.write(renamed)
        shutil.copy(f"{HERE}/system.c", folder)
        said(*compiler.with_headers(), "-O2", "-static", "-o", "capcheck", "capcheck.o", "system.c", cwd=folder)
        return read(f"{folder}/capcheck")


def page(name, version):
    """A page of the archive, with what is proved and trusted."""
    return (read(f"{HERE}/{name}") + read(f"{HERE}/TRUST")).replace(b"@VERSION@", version.encode())


def shared():
    """What both archives have, each path with its bytes and its mode."""
    found = {path: (read(f"{ROOT}/{path}"), 0o644) for path in ("LICENSE",)}
    for path in filter(os.path.isfile, glob.glob(f"{ROOT}/examples/*")):
        found[os.path.relpath(path, ROOT)] = read(path), os.stat(path).st_mode & 0o755
    return found | {"tests/examples.sh": (read(f"{HERE}/examples.sh"), 0o755)}


def for_all_systems(renamed, version):
    """The files of the archive with the object."""
    files = {"README": (page("README.amd64", version), 0o644), "capcheck.o": (renamed, 0o644)}
    files["Makefile"] = read(f"{HERE}/release.mk"), 0o644
    for path in ("system.c", "system.syms", "elf.py"):
        files[path] = read(f"{HERE}/{path}"), 0o755 if path.endswith(".py") else 0o644
    for path in [*glob.glob(f"{ROOT}/docs/*.1"), *glob.glob(f"{ROOT}/contrib/completions/*")]:
        files[os.path.relpath(path, ROOT)] = read(path), 0o644
    return shared() | files | {f"contrib/{tool}.py": (read(f"{ROOT}/contrib/{tool}.py"), 0o755) for tool in TOOLS}


def for_linux(program, version):
    """The files of the archive with the static program. A text in place of bytes is where a link leads."""
    files = {"README": (page("README.linux-amd64", version), 0o644), "bin/capcheck": (program, 0o755)}
    for tool, name in TOOLS.items():
        files[f"bin/{name}"] = read(f"{ROOT}/contrib/{tool}.py"), 0o755
        files[f"share/bash-completion/completions/{name}"] = "capcheck", 0o777
    for path in glob.glob(f"{ROOT}/docs/*.1"):
        files[f"share/man/man1/{os.path.basename(path)}"] = read(path), 0o644
    files["share/bash-completion/completions/capcheck"] = read(f"{ROOT}/contrib/completions/capcheck.bash"), 0o644
    files["share/zsh/site-functions/_capcheck"] = read(f"{ROOT}/contrib/completions/_capcheck"), 0o644
    return shared() | files


def manifest(files, facts):
    """The facts of an archive, and the checksum of each of its files."""
    lines = [f"# {name}: {value}" for name, value in facts.items()]
    stored = [(path, data) for path, (data, _) in sorted(files.items()) if isinstance(data, bytes)]
    return "\n".join([*lines, *(f"{hashlib.sha256(data).hexdigest()}  {path}" for path, data in stored), ""]).encode()


def packed(name, files, when):
    """An archive of these files in a folder of this name. Its bytes depend on nothing else but the time of its files."""
    raw = io.BytesIO()
    with tarfile.open(fileobj=raw, mode="w", format=tarfile.USTAR_FORMAT) as archive:
        for path, (data, mode) in sorted(files.items()):
            it = tarfile.TarInfo(f"{name}/{path}")
            it.mode, it.mtime = mode, when
            if isinstance(data, str):
                it.type, it.linkname = tarfile.SYMTYPE, data
            else:
                it.size = len(data)
            archive.addfile(it, None if isinstance(data, str) else io.BytesIO(data))
    return gzip.compress(raw.getvalue(), mtime=0)


# ---- how they are tried


def ran(words, folder):
    """That a command ends well in a folder: what it prints."""
    env = {name: value for name, value in os.environ.items() if not name.startswith(("MAKE", "MFLAGS"))}
    how = {"stdin": subprocess.DEVNULL, "stdout": subprocess.PIPE, "stderr": subprocess.STDOUT, "text": True}
    done = subprocess.run(words, cwd=folder, env=env, **how)
    if done.returncode:
        sys.exit(f"{' '.join(words)} ended with {done.returncode}:\n{done.stdout}")
    return done.stdout


def files_below(folder):
    return sorted(os.path.relpath(os.path.join(at, name), folder) for at, _, names in os.walk(folder) for name in names)


def try_sources(folder):
    """Builds, checks, installs and removes the archive with the object."""
    makes = [it for it in ("make", "bmake") if shutil.which(it)]
    compilers = [it for it in COMPILERS if shutil.which(it[0])]
    for make, words in [*((makes[0], words) for words in compilers), *((make, compilers[0]) for make in makes[1:])]:
        ran([make, "clean"], folder)
        ran([make, f"CC={' '.join(words)}"], folder)
        checks = ran([make, f"CC={words[0]}", "check"], folder)
        print(f"{make} CC='{' '.join(words)}': {checks.splitlines()[-1]}", flush=True)
    to = f"{folder}/a folder"
    for make in makes:
        ran([make, "install", f"DESTDIR={to}"], folder)
        installed = files_below(to)
        ran([make, "uninstall", f"DESTDIR={to}"], folder)
        if len(installed) != 13 or files_below(to):
            sys.exit(f"{make} install, and what is left after uninstall: {installed} {files_below(to)}")
    for path in ("python3", "cmp"):
        without(path, folder)


def without(tool, folder):
    """Checks the program where a tool is missing: python3 may be, and the others may not."""
    is_needed = tool != "python3"
    with tempfile.TemporaryDirectory() as tools:
        for name in {*NEEDED, "python3"} - {tool}:
            os.symlink(shutil.which(name), f"{tools}/{name}")
        words, how = ["sh", "tests/examples.sh", "./capcheck"], {"capture_output": True, "text": True}
        done = subprocess.run(words, cwd=folder, env={"PATH": tools}, **how)
    says_so = "left out without python3: capcheck-truss" in done.stdout
    if is_needed == (done.returncode == 0) or says_so == is_needed:
        sys.exit(f"tests/examples.sh without {tool} ended with {done.returncode}:\n{done.stdout}{done.stderr}")


def try_program(folder):
    """Runs the program of the other archive, at last with its own folder as the root of all files."""
    print(ran(["sh", "tests/examples.sh", "bin/capcheck"], folder).splitlines()[-1], flush=True)
    ran(["bin/capcheck-whatif", "--version"], folder)
    command = ["chroot", folder, "/bin/capcheck", "check", "examples/server.trace"]
    command = command if os.geteuid() == 0 else ["unshare", "--user", "--map-root-user", *command]
    done = subprocess.run(command, stdin=subprocess.DEVNULL, capture_output=True, text=True)
    report = read(f"{folder}/examples/server.report").decode().replace("status 1\n", "")
    if (done.returncode, done.stdout) == (1, report):
        print("it runs with its own folder as the root of all files", flush=True)
    elif os.geteuid() == 0 or done.returncode in (0, 1, 2, 3) and done.stdout:
        sys.exit(f"with its own folder as the root of all files: {done.returncode} {done.stdout}{done.stderr}")
    else:
        print(f"left out: a run with its own folder as the root of all files: {done.stderr.strip()}")


def tried(name, archive, trial):
    """Tries an archive in a folder of its own, in which each file is as the manifest says."""
    with tempfile.TemporaryDirectory() as folder:
        with tarfile.open(fileobj=io.BytesIO(archive)) as it:
            it.extractall(folder, filter="tar") if hasattr(tarfile, "tar_filter") else it.extractall(folder)
        ran(["sha256sum", "--check", "--quiet", "MANIFEST"], f"{folder}/{name}")
        trial(f"{folder}/{name}")


def facts_of(prover, verdict, identity):
    """What a manifest says of both archives, with the object as the prover left it."""
    with open(f"{ROOT}/crates/capcheck/src/help.rt", encoding="utf-8") as file:
        version = re.search(r'VERSION\b.*"(.+)"', file.read())[1]
    return {
        "capcheck": version,
        "commit": said("git", "rev-parse", "HEAD").strip(),
        "kit": identity,
        "verdict": verdict,
        "processor": processor(prover),
        "SHA-256 of the object as the prover left it": hashlib.sha256(prover.data).hexdigest(),
    }


def tools():
    """What a manifest says of the compiler and the C library of the static program."""
    found = {"compiler": said(*compiler.with_headers(), "--version").splitlines()[0]}
    if shutil.which("ldd"):
        found["C library"] = said("ldd", "--version").splitlines()[0]
    return found


def needed(is_trial):
    """The file with the kit's terms, and those of the C library. It ends this where something is missing."""
    of_kit, of_library = os.environ.get("KIT_NOTICE"), os.environ.get("LIBC_NOTICES", FOR_DEBIAN).split()
    if not compiler.kit() or not compiler.with_headers("-static"):
        sys.exit("packaging/dist.py needs the Rattle kit, whose command is rt, and a `cc` that links static programs")
    if missing := [it for it in [of_kit, *of_library] if it and not os.path.isfile(it)]:
        sys.exit(f"packaging/dist.py needs the notices in {', '.join(missing)}, which isn't there")
    if not of_kit and not is_trial:
        sys.exit("packaging/dist.py needs the terms of the kit, in a file that KIT_NOTICE names")
    return of_kit, of_library


def main(words):
    if len(words) not in (2, 4) or words[2:3] not in ([], ["--trial"]):
        sys.exit(__doc__.strip())
    is_trial = len(words) == 4
    of_kit, of_library = needed(is_trial)
    identity = said(os.environ.get("RT", "rt"), "version").strip()
    path, verdict = (words[3], "none, for this is a trial") if is_trial else built()
    prover, renamed = checked(path, identity.split()[-1], is_trial)
    if not is_trial:
        env = {**os.environ, "OBJECT": path, "LINKED": "all"}  # for tests/native.py
        subprocess.run([f"{ROOT}/tests/run.py", path.removesuffix(".o"), "-k", "native."], check=True, env=env)
    facts, when = facts_of(prover, verdict, identity), int(said("git", "log", "-1", "--format=%ct"))
    version = facts["capcheck"]
    os.makedirs(words[1], exist_ok=True)
    for kind, files, library, more, trial in (
        ("amd64", for_all_systems(renamed, version), [], {}, try_sources),
        ("linux-amd64", for_linux(linked(renamed), version), of_library, tools(), try_program),
    ):
        name = f"capcheck-{version}{'-TRIAL' if is_trial else ''}-{kind}"
        files["NOTICES"] = notices.notices(ROOT, compiler.kit(), of_kit, library).encode(), 0o644
        files["MANIFEST"] = manifest(files, facts | more), 0o644
        archive = packed(name, files, when)
        tried(name, archive, trial)
        with open(f"{words[1]}/{name}.tar.gz", "wb") as file:
            file.write(archive)
        print(f"{name}.tar.gz: {len(archive):,} bytes, SHA-256 {hashlib.sha256(archive).hexdigest()}", flush=True)


main(sys.argv)
