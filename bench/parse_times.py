#!/usr/bin/env python3
"""Times reading alone, without what checks the lines, beside `wc -l` on the same file.

    bench/parse_times.py [LINES [TRACE..]]

A program over crates/cap_trace is written to a temporary folder and built there by `rt run`, which proves it and what
it uses first: so `rt`, the command of the Rattle kit, is needed. It reads the whole trace from standard input, and then
times `parse_line` over its lines, once.
"""

import sys
from statistics import median

import timing

ROUNDS = 7

PROGRAM = r"""//! Times the reading of lines.
#![tactic(auto)]

use cap_trace::parse_line;
use std::io;
use std::io::Read;
use std::time::Instant;

fn main(rt: HostRuntime) -> io::Result<()> {
    let alloc = rt.alloc();
    let mut text = Vec::new(alloc);
    rt.reader().read_to_end(&mut text)?;
    let bytes = text.as_slice();
    let mut good = 0u64;
    let start = Instant::now(&rt)?;
    for line in bytes.split(|byte| *byte == b'\n') {
        if parse_line(alloc, line).is_ok() {
            good = good.wrapping_add(1);
        }
    }
    let took = start.elapsed(&rt)?.as_nanos();
    println!(rt; "{took} {good}")
}
"""


def measure(trace, program):
    runs = timing.in_turn({"read": [program], "wc": ["wc", "-l"]}, ROUNDS, given=trace.path, says=True)
    took, good = zip(*(map(int, said.split()) for said in runs["read"].said))
    if set(good) != {len(trace.lines)}:
        sys.exit(f"{trace.name}: {min(good)} of {len(trace.lines)} lines were read")
    seconds = median(took) / 1e9
    timing.figure(f"parse.{trace.name}.speed", len(trace.lines) / seconds / 1e6, "million_lines_a_second")
    timing.figure(f"parse.{trace.name}.to_wc", seconds / median(runs["wc"].clock), "ratio")


timing.bench(__doc__, measure, ("quiet", "forms"), built=("reading_bench", "cap_trace", PROGRAM))
