#!/usr/bin/env python3
"""Which functions of a crate are dear to prove: tools/proof_costs.py CRATE [ROWS]

Run `rt check --jobs 1` in the crate's folder first, without `out/`. It keeps a file for each part of each proof, and the time
since the file before is about what that part took. Printed are the seconds of all, of each kind of part, and of the functions
that took most, with their parts of half a second or more. Parts that a later check made anew are left out with what ran between.
"""

import collections
import os
import re
import sys

ROOT = os.path.dirname(os.path.dirname(os.path.abspath(__file__)))
PAUSE = 120.0  # seconds between two files that no part of a proof takes


def files_of(crate):
    """When each file was written, in order, and its name."""
    found = []
    for at, _, names in os.walk(f"{ROOT}/crates/{crate}/out/incremental"):
        for name in names:
            if name.endswith(".oantt") and os.path.basename(at) != "records":
                found.append((os.stat(f"{at}/{name}").st_mtime_ns / 1e9, name[: -len(".oantt")]))
    return sorted(found)


def main():
    crate, rows = sys.argv[1], int(sys.argv[2]) if len(sys.argv) > 2 else 25
    files = files_of(crate)
    parts, kinds, functions = {}, collections.Counter(), collections.Counter()
    for (before, _), (after, name) in zip(files, files[1:]):
        function, _, part = name.rpartition(".")
        if after - before < PAUSE and function:
            parts.setdefault(function, {})[part] = after - before
            kinds[re.sub("-.*", "", part)] += after - before
            functions[function] += after - before
    print(f"{sum(kinds.values()):7.1f} in all:", ", ".join(f"{kind} {spent:.1f}" for kind, spent in kinds.most_common(6)))
    for function, spent in functions.most_common(rows):
        dear = ", ".join(f"{part} {took:.1f}" for part, took in parts[function].items() if took >= 0.5)
        print(f"{spent:7.1f} {function.removeprefix(f'Rattle-{crate}-proofs.')}: {dear}")


main()
