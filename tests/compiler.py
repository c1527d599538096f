"""The C compiler of the tests: `cc`, else the clang of the Rattle kit, else there is none, and the test that asks for it fails.

The kit's clang has no headers of C, so the sources include `libc.h` alone, and are linked with no library: the program that they
are loaded into has the C library. Nothing can be loaded into a static program.
"""

import os
import shutil
import struct
import subprocess
import sys
import tempfile

HERE = os.path.dirname(os.path.abspath(__file__))


def kit():
    """The folder of the Rattle kit: that of the page to which its command `rt`, or the one that RT names, points; or nothing."""
    rt = shutil.which(os.environ.get("RT", "rt"))
    page = subprocess.run([rt, "doc"], capture_output=True, text=True).stdout.strip() if rt else ""
    return os.path.dirname(page) or None


def compiler():
    """The words that a command of the C compiler begins with."""
    if shutil.which("cc"):
        return ["cc"]
    clang = os.path.join(kit() or "", "toolchain/bin/clang")
    if os.access(clang, os.X_OK):
        return [clang, "-fuse-ld=lld"]
    sys.exit(f"{sys.argv[0]} needs a C compiler: `cc` on the path, or `rt`, in whose kit there is one.")


def with_headers(*flags):
    """The words that a command of a C compiler with headers begins with, if it links programs by these flags."""
    if not shutil.which("cc"):
        return None
    source = "#include <errno.h>\n#include <unistd.h>\nint main(void) { return close(errno) != -1; }\n"
    with tempfile.TemporaryDirectory() as folder:
        words = ["cc", *flags, "-x", "c", "-o", os.path.join(folder, "out"), "-"]
        done = subprocess.run(words, input=source, stderr=subprocess.DEVNULL, text=True)
    return ["cc"] if done.returncode == 0 else None


def is_static(program):
    """Whether a program was linked without a loader of libraries."""
    with open(program, "rb") as file:
        head = file.read(64)
        if head[:4] != b"\x7fELF":
            return False  # a script
        table, size, count = struct.unpack_from("<Q", head, 32)[0], *struct.unpack_from("<HH", head, 54)
        file.seek(table)
        kinds = [struct.unpack_from("<I", file.read(size))[0] for _ in range(count)]
    return 3 not in kinds  # PT_INTERP


def loads(program):
    """Ends the script where nothing can be loaded into this program."""
    if is_static(program):
        sys.exit(f"{sys.argv[0]} needs a program that loads libraries: {program} is linked statically.")


def library(name, folder):
    """The path of a library in this folder, compiled from the source of this name."""
    made = os.path.join(folder, f"{name}.so")
    words = [*compiler(), "-shared", "-fPIC", "-O1", "-nostdlib", "-o", made, os.path.join(HERE, f"{name}.c")]
    subprocess.run(words, check=True)
    return made
