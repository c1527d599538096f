#!/usr/bin/env python3
"""Times explanations beside a check of the same trace.

    bench/explain_times.py PROGRAM [LINES [TRACE..]]

The traces are those of TRACES in traces.py, `quiet` and `forms` where none is named, with a limit and a fork before their first
line, and a call on the limited descriptor in the child as their last: what that rests on is at the other end of the trace.

`run` is the whole run of `PROGRAM explain TRACE LAST`, in turn with `PROGRAM check TRACE`, by medians: it reads the trace, keeps
its lines, and walks back over them once. For the rest a program over crates/cap_session is written to a temporary folder and
built there by `rt run`, which proves it first, over the crates as `make` left them: so `rt`, the command of the Rattle kit,
is needed. It loads the trace into a session, and explains lines of it many times:

    last     the last line
    any      lines from all over the trace

What is to be looked at are the ratios to a check, there to reading and checking the lines.
"""

import sys
from statistics import median

import timing
import traces

ROUNDS = 5
USES = "cap_session cap_summary cap_tree cap_limits cap_machine cap_trace cap_rights"
FIRST = ["1 @start(0)", "1 cap_rights_limit(0,CAP_READ) RET 0", "1 fork() RET 2"]
LAST = "2 write(0) RET 1"

MAIN = r'''//! Times explanations in a session of a trace that comes on standard input, in nanoseconds.
#![tactic(auto)]

use cap_machine::{Checker, NoMemory, Profile};
use cap_session::Session;
use cap_trace::{Line, parse_line};
use std::alloc::Global;
use std::io;
use std::io::Read;
use std::time::Instant;

/// How many lines are explained.
const TIMES: usize = 500;

fn lines_of(alloc: Global, bytes: &[u8]) -> Result<Vec<Line>, NoMemory> {
    let mut lines = Vec::new(alloc);
    for text in bytes.split(|byte| *byte == b'\n') {
        if let Ok(line) = parse_line(alloc, text) {
            lines.push(line)?;
        }
    }
    Ok(lines)
}

/// Checks the lines, and answers how many there were.
fn checked(alloc: Global, lines: &[Line]) -> usize {
    let mut checker = Checker::new(alloc, Profile::One);
    for line in lines {
        if checker.count() >= 1_000_000_000 || checker.line(line).is_err() {
            return 0;
        }
    }
    checker.count()
}

/// Times explanations, from the last line back by so many lines each time.
fn time_explanations(rt: &HostRuntime, name: &str, session: &Session, back: usize) -> io::Result<()> {
    let mut position = session.count();
    let mut failed = 0_u64;
    let begun = Instant::now(rt)?;
    for _ in 0..TIMES {
        if session.explain(position).is_err() {
            failed = failed.saturating_add(1);
        }
        position = position.saturating_sub(back).max(1);
    }
    let took = begun.elapsed(rt)?.as_nanos() / TIMES as u128;
    println!(rt; "{name} {took}\n{name}-failed {failed}")
}

fn time(rt: &HostRuntime, bytes: &[u8]) -> io::Result<()> {
    let alloc = rt.alloc();
    let begun = Instant::now(rt)?;
    let Ok(lines) = lines_of(alloc, bytes) else {
        return Ok(());
    };
    let count = checked(alloc, lines.as_slice());
    let check = begun.elapsed(rt)?.as_nanos();
    println!(rt; "lines {count}\ncheck {check}")?;
    let Ok(mut session) = Session::new(alloc, 1_000_000) else {
        return Ok(());
    };
    let begun = Instant::now(rt)?;
    if session.load(lines).is_err() {
        return Ok(());
    }
    let load = begun.elapsed(rt)?.as_nanos();
    println!(rt; "load {load}")?;
    time_explanations(rt, "last", &session, 0)?;
    time_explanations(rt, "any", &session, count / TIMES)
}

fn main(rt: HostRuntime) -> io::Result<()> {
    let alloc = rt.alloc();
    let mut text = Vec::new(alloc);
    rt.reader().read_to_end(&mut text)?;
    time(&rt, text.as_slice())
}
'''


def seen(explainer, path):
    """What the program over a session says of a trace, by name."""
    return {name: int(value) for name, value in map(str.split, timing.run([explainer], path, says=True).said.splitlines())}


def measure(trace, program, explainer):
    count, path, name = len(trace.lines), trace.path, f"explain.{trace.name}"
    traces.put(FIRST + trace.lines[: count - len(FIRST) - 1] + [LAST], path)
    commands = {"check": [program, "check", path], "run": [program, "explain", path, str(count)]}
    took = {command: median(runs.clock) * 1000 for command, runs in timing.in_turn(commands, ROUNDS).items()}
    each = seen(explainer, path)
    if each["lines"] != count or each["last-failed"] or each["any-failed"]:
        sys.exit(f"{trace.name}: not every line was read and explained: {each}")
    timing.figure(f"{name}.check.time", took["check"], "ms")
    timing.figure(f"{name}.run.time", took["run"], "ms", took["check"])
    timing.figure(f"{name}.load", each["load"] / 1e6, "ms", each["check"] / 1e6)
    for key in ("last", "any"):
        timing.figure(f"{name}.{key}", each[key] / 1000, "us")
        timing.figure(f"{name}.{key}.in_a_check", each["check"] / each[key], "explanations")


timing.bench(__doc__, measure, ("quiet", "forms"), built=("explain_bench", USES, MAIN))
