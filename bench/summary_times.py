#!/usr/bin/env python3
"""Times the summaries of traces beside a check of the same lines.

    bench/summary_times.py [LINES [TRACE..]]

A program over crates/cap_summary is written to a temporary folder and built there by `rt run`, which proves it first: so `rt`, the
command of the Rattle kit, is needed.
The traces are those of TRACES in traces.py, `quiet` and `forms` where none is named; all are checked in profile 2.
Times are in milliseconds, of one run each. What is to be looked at are the ratios, here to reading and checking the lines:
of all summaries, of an ordinary edit near the middle, of one after which the state changes, and of a whole report.
The memory is that in use before the summaries are made, of the lines, and the peak, of the lines and all summaries, in one more run
by `/usr/bin/time` where that is installed.
"""

import resource

import timing

USES = "cap_summary cap_tree cap_machine cap_trace"
MOST_MEMORY = 8 << 30

MAIN = r'''//! Times the summaries of a trace that comes on standard input, in nanoseconds.
#![tactic(auto)]

use cap_machine::{Checker, Profile, Start, Step};
use cap_summary::{Summary, resolve};
use cap_trace::parse_line;
use cap_tree::{Meter, NoMemory, Tree};
use std::alloc::Global;
use std::io;
use std::io::Read;
use std::rc::Rc;
use std::time::Instant;

/// How many edits, and how many reports.
const EDITS: u64 = 200;
const REPORTS: u64 = 5;

fn step_of(alloc: Global, text: &[u8]) -> Result<Option<Rc<Step>>, NoMemory> {
    let Ok(line) = parse_line(alloc, text) else {
        return Ok(None);
    };
    let profile = Profile::Two;
    Ok(Some(Rc::new(alloc, Step { profile, line })?))
}

fn steps_of(alloc: Global, bytes: &[u8]) -> Result<Vec<Rc<Step>>, NoMemory> {
    let mut steps = Vec::new(alloc);
    for text in bytes.split(|byte| *byte == b'\n') {
        if let Some(step) = step_of(alloc, text)? {
            steps.push(step)?;
        }
    }
    Ok(steps)
}

/// Checks the lines anew, and answers how many there were.
fn checked(alloc: Global, steps: &[Rc<Step>]) -> usize {
    let mut checker = Checker::new(alloc, Profile::Two);
    for step in steps {
        if checker.count() >= 1_000_000_000 || checker.line(&step.line).is_err() {
            return 0;
        }
    }
    checker.count()
}

/// Inserts a line at a place, or removes the line there.
fn edited(
    alloc: Global,
    tree: &Tree<Summary>,
    place: usize,
    text: &[u8],
    inserts: bool,
) -> Result<Tree<Summary>, NoMemory> {
    let mut meter = Meter::new();
    let len = tree.len();
    if len >= 1_000_000_000 || place >= len {
        return Err(NoMemory);
    }
    if !inserts {
        return tree.remove(alloc, &mut meter, place);
    }
    match step_of(alloc, text)? {
        Some(step) => tree.insert(alloc, &mut meter, place, step),
        None => Err(NoMemory),
    }
}

/// Times edits at a place.
fn time_edits(
    rt: &HostRuntime,
    name: &str,
    first: Tree<Summary>,
    place: usize,
    text: &[u8],
) -> io::Result<Tree<Summary>> {
    let alloc = rt.alloc();
    let mut tree = first;
    let begun = Instant::now(rt)?;
    for turn in 0..EDITS {
        match edited(alloc, &tree, place, text, turn % 2 == 0) {
            Ok(next) => tree = next,
            Err(_) => return Ok(tree),
        }
    }
    let took = begun.elapsed(rt)?.as_nanos() / EDITS as u128;
    println!(rt; "{name} {took}")?;
    Ok(tree)
}

/// Times whole reports.
fn time_reports(rt: &HostRuntime, tree: &Tree<Summary>) -> io::Result<()> {
    let alloc = rt.alloc();
    let start = Start::unknown(alloc);
    let mut count = 0;
    let begun = Instant::now(rt)?;
    for _ in 0..REPORTS {
        match resolve(alloc, tree.summary(), &start) {
            Ok(found) => count = found.len(),
            Err(_) => return Ok(()),
        }
    }
    let took = begun.elapsed(rt)?.as_nanos() / REPORTS as u128;
    println!(rt; "report {took}")?;
    println!(rt; "findings {count}")
}

fn time(rt: &HostRuntime, bytes: &[u8]) -> io::Result<()> {
    let alloc = rt.alloc();
    let begun = Instant::now(rt)?;
    let Ok(steps) = steps_of(alloc, bytes) else {
        return Ok(());
    };
    let read = begun.elapsed(rt)?.as_nanos();
    let begun = Instant::now(rt)?;
    let lines = checked(alloc, &steps);
    let check = begun.elapsed(rt)?.as_nanos();
    println!(rt; "lines {lines}\nread {read}\ncheck {check}")?;
    if steps.len() >= 1_000_000_000 {
        return Ok(());
    }
    let mut meter = Meter::new();
    let begun = Instant::now(rt)?;
    let Ok(tree) = Tree::<Summary>::from_list(alloc, &mut meter, steps) else {
        return Ok(());
    };
    let took = begun.elapsed(rt)?.as_nanos();
    println!(rt; "summaries {took}")?;
    time_reports(rt, &tree)?;
    let middle = tree.len() / 2;
    let tree = time_edits(rt, "edit", tree, middle, b"107 fstat(0) RET 1".as_slice())?;
    let _tree = time_edits(rt, "lasting", tree, 40, b"107 socket(0) RET 63".as_slice())?;
    Ok(())
}

fn main(rt: HostRuntime) -> io::Result<()> {
    let alloc = rt.alloc();
    let mut text = Vec::new(alloc);
    rt.reader().read_to_end(&mut text)?;
    time(&rt, text.as_slice())
}
'''


def measure(trace, program):
    """What the program says of a trace, with the memory in use when it has the lines alone, and the peak."""
    resource.setrlimit(resource.RLIMIT_AS, (MOST_MEMORY, resource.getrlimit(resource.RLIMIT_AS)[1]))
    name, seen, memory = f"summary.{trace.name}", {}, {}
    for line, used in timing.streamed([program], trace.path):
        key, value = line.split()
        seen[key], memory[key] = int(value), used
    whole = seen["read"] + seen["check"]
    for key in ("read", "check"):
        timing.figure(f"{name}.{key}", seen[key] / 1e6, "ms")
    for key in ("summaries", "edit", "lasting", "report"):
        timing.figure(f"{name}.{key}", seen.get(key, 0) / 1e6, "ms", whole / 1e6)
    for key in ("lines", "findings"):
        timing.figure(f"{name}.{key}", seen.get(key, 0), key)
    timing.figure(f"{name}.memory_of_lines", memory["check"], "MB")
    timing.figure(f"{name}.memory", timing.run([program], trace.path, weighed=True).memory, "MB")


timing.bench(__doc__, measure, ("quiet", "forms"), built=("summary_bench", USES, MAIN))
