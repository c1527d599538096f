#!/usr/bin/env python3
"""Times the balanced tree over a segment that sums numbers, and weighs it.

    bench/tree_times.py [--unproved]

A program over crates/cap_tree is written to a temporary folder and built there by `rt run`, which proves it
first (--unproved: by `rt try`, which checks each step as it runs and is slower): so `rt`, the command of the
Rattle kit, is needed. Machines are noisy, so the lengths take turns over several rounds, the least time of each
counts, and what is to be looked at are the ratios. An edit makes one leaf anew and the way down to it, so its
joins and its time are to grow as the binary digits of the length. Edits anywhere in a long list meet memory that
no cache holds, and their time grows faster than the joins; edits near one place, as an editor makes them, don't.

Memory is the peak of a process that makes trees of a million items in all, beside that of one that makes the
items alone and holds them by a pointer each. (The list that the last tree is made of is alive at the peak, and isn't
counted.)
"""

import sys
import tempfile

import timing

LENGTHS = (1_000, 30_000, 1_000_000)
EDITS = 20_000
ROUNDS = 9
POINTER = 8
NEAR = 500

PROGRAM = r"""//! Times edits of a tree of numbers.
#![tactic(auto)]

ghost use Rattle.std.specs.Prelude.{◌≡◌, length};

use cap_tree::{Meter, NoMemory, Segment, Tree};
use std::alloc::Global;
use std::rc::Rc;
use std::time::Instant;
use std::{env, io};

#[derive(Drop)]
struct Sum {
    total: u64,
    count: usize,
}

impl Segment for Sum {
    type Item = u64;

    type Meter = Meter;

    ghost stands = { λ s xs. s.count ≡ length xs };

    ghost size = { λ s. s.count };

    fn empty(_alloc: Global) -> Result<Sum, NoMemory> {
        Ok(Sum { total: 0, count: 0 })
    }

    fn one(_alloc: Global, item: &Rc<u64>) -> Result<Sum, NoMemory> {
        Ok(Sum {
            total: **item,
            count: 1,
        })
    }

    fn len(&self) -> usize {
        self.count
    }

    fn join(
        _alloc: Global,
        meter: &mut Meter,
        left: &Sum,
        right: &Sum,
    ) -> Result<Sum, NoMemory> {
        meter.tick();
        Ok(Sum {
            total: left.total.wrapping_add(right.total),
            count: left.count + right.count,
        })
    }

    ghost sized = { λ s t e. e };
}

fn numbers(alloc: Global, count: u64) -> Result<Vec<Rc<u64>>, NoMemory> {
    let mut items = Vec::with_capacity(alloc, count as usize)?;
    for number in 0..count {
        let item = Rc::new(alloc, number)?;
        items.push(item)?;
    }
    Ok(items)
}

/// One edit of each kind in turn, at places scattered over so many items in the middle (0: over all).
fn edited(
    alloc: Global,
    tree: &Tree<Sum>,
    turn: u64,
    window: usize,
) -> Result<(Tree<Sum>, u64), NoMemory> {
    let mut meter = Meter::new();
    let len = tree.len();
    if len == 0 || len >= 1_000_000_000 {
        return Err(NoMemory);
    }
    let span = if window == 0 { len } else { window.min(len) };
    let place = (len - span) / 2 + turn.wrapping_mul(2_654_435_761) as usize % span;
    let item = Rc::new(alloc, turn)?;
    let new = match turn % 3 {
        0 => tree.insert(alloc, &mut meter, place, item)?,
        1 => tree.replace(alloc, &mut meter, place, item)?,
        _ => tree.remove(alloc, &mut meter, place)?,
    };
    Ok((new, meter.joins()))
}

/// The nanoseconds of some edits, their joins, and the most joins of one.
fn edits(
    rt: &HostRuntime,
    first: Tree<Sum>,
    count: u64,
    window: usize,
) -> io::Result<(u128, u64, u64)> {
    let alloc = rt.alloc();
    let mut tree = first;
    let mut joins = 0u64;
    let mut most = 0u64;
    let start = Instant::now(rt)?;
    for turn in 0..count {
        let Ok((next, made)) = edited(alloc, &tree, turn, window) else {
            return Ok((0, 0, 0));
        };
        tree = next;
        joins = joins.wrapping_add(made);
        most = most.max(made);
    }
    let time = start.elapsed(rt)?.as_nanos();
    Ok((time, joins, most))
}

fn number(text: Option<String>) -> u64 {
    match text {
        Some(text) => text.parse().unwrap_or(0),
        None => 0,
    }
}

/// Makes lists of items, and trees of them if asked to, and keeps all of them.
fn weigh(alloc: Global, count: u64, lists: u64, with_tree: bool) -> Result<(), NoMemory> {
    let mut kept = Vec::new(alloc);
    let mut trees = Vec::new(alloc);
    for _ in 0..lists {
        let items = numbers(alloc, count)?;
        if with_tree && items.len() < 1_000_000_000 {
            let mut meter = Meter::new();
            let tree = Tree::<Sum>::from_list(alloc, &mut meter, items)?;
            trees.push(tree)?;
        } else {
            kept.push(items)?;
        }
    }
    Ok(())
}

/// Times a tree of so many numbers and edits of it.
fn time(rt: &HostRuntime, count: u64, turns: u64, window: usize) -> io::Result<()> {
    let alloc = rt.alloc();
    let Ok(items) = numbers(alloc, count) else {
        return Ok(());
    };
    if items.len() >= 1_000_000_000 {
        return Ok(());
    }
    let mut meter = Meter::new();
    let start = Instant::now(rt)?;
    let Ok(tree) = Tree::<Sum>::from_list(alloc, &mut meter, items) else {
        return Ok(());
    };
    let made = start.elapsed(rt)?.as_nanos();
    let joins = meter.joins();
    let total = tree.summary().total;
    println!(rt; "list {made} {joins} {total}")?;
    let (time, joins, most) = edits(rt, tree, turns, window)?;
    println!(rt; "edits {time} {joins} {most}")
}

fn main(rt: HostRuntime) -> io::Result<()> {
    let alloc = rt.alloc();
    let mut words = env::args(&rt)?;
    let _program = words.next();
    let count = number(words.next());
    let turns = number(words.next());
    let lists = number(words.next());
    // With lists, whether to make trees of them; with none, the items among which the edits are.
    let last = number(words.next());
    if lists == 0 {
        time(&rt, count, turns, last as usize)?;
    } else if weigh(alloc, count, lists, last > 0).is_err() {
        println!(rt; "no memory")?;
    }
    Ok(())
}
"""


def numbers_of(answer, length):
    """The nanoseconds an item of a list, those of an edit anywhere and near one place; the mean of the joins of an edit, and the most."""
    of_list, anywhere = (list(map(int, line.split()[1:])) for line in answer(length, EDITS, 0, 0).splitlines())
    near = int(answer(length, EDITS, 0, NEAR).splitlines()[1].split()[1])
    return (of_list[0] / length, anywhere[0] / EDITS, near / EDITS), (anywhere[1] / EDITS, anywhere[2])


def times(answer):
    rounds = [[numbers_of(answer, length) for length in LENGTHS] for _ in range(ROUNDS)]
    least = [[min(values) for values in zip(*(took for took, _ in of))] for of in zip(*rounds)]
    for length, (made, anywhere, near), (_, joins) in zip(LENGTHS, least, rounds[-1]):
        digits = length.bit_length()
        for name, value, unit, first in (
            ("digits", digits, "digits", LENGTHS[0].bit_length()),
            ("list.an_item", made, "ns", None),
            ("edit.anywhere", anywhere, "ns", least[0][1]),
            ("edit.near", near, "ns", least[0][2]),
            ("edit.joins", joins[0], "joins", None),
            ("edit.most_joins", joins[1], "joins", None),
            ("edit.allowed_joins", 12 * digits + 12, "joins", None),
        ):
            timing.figure(f"tree.{length}.{name}", value, unit)
            if first:
                timing.figure(f"tree.{length}.{name}.to_{LENGTHS[0]}", value / first, "ratio")


def weights(program):
    """The bytes of an item in a tree, and those that are the tree's and not the item's own."""
    for length in LENGTHS:
        lists = max(LENGTHS) // length
        runs = [timing.run([program, *map(str, (length, 0, lists, with_tree))], weighed=True) for with_tree in (0, 1)]
        bare, whole = (run.memory and run.memory * 1e6 / (lists * length) for run in runs)
        timing.figure(f"tree.{length}.memory_an_item", whole and whole - POINTER / lists, "bytes")
        timing.figure(f"tree.{length}.memory_an_item.of_tree", whole and whole - POINTER / lists - bare + POINTER, "bytes")


def main():
    timing.needs("rt")
    with tempfile.TemporaryDirectory(prefix="tree_bench") as folder:
        if "--unproved" in sys.argv[1:]:
            crate = timing.written(folder, "tree_bench", "cap_tree", PROGRAM)
            times(lambda *given: timing.answer(crate, map(str, given)))
        else:
            program = timing.build(folder, "tree_bench", "cap_tree", PROGRAM)
            times(lambda *given: timing.run([program, *map(str, given)], says=True).said)
            weights(program)


main()
