#!/usr/bin/env python3
"""Times `reach` on nets of growing size.

The search runs again and again on a ring of nodes with ten arcs between each two neighbours, so that it goes round half
the ring each way, by a program that is made, proved and built in a temporary folder outside the repository.  Prints for
each size the microseconds of one search and the ratio to the former size, which is at most 12 for ten times the arcs.  A
pass over all arcs for each level would give 100.  The arcs between two neighbours are pushed one after another, so that a
large net is read from memory in order.
Usage: bench/reach.py
"""
import pathlib
import sys
import tempfile

from made import build, print_ratios

SIZES = [1_000, 10_000, 100_000]
ARCS_IN_ALL = 4_000_000
MOST_RATIO = 12

PROGRAM = r'''
//! Searches a ring of nodes with ten arcs between each two neighbours, again and again.
//! Words: how many arcs, and how many times. It prints how often the node across was found.
#![tactic(auto)]

ghost use Rattle.std.specs.Prelude.{◌≡◌, ℕ, ◌<◌, ◌≤◌, ◌^◌, length, slice_index, IsTrue, EachIndex};
ghost use Rattle.tda_flow.specs.Network.{arc_count};

use std::alloc::Global;
use std::{env, io};
use tda_flow::{Arc, Net, Work, reach};
use tda_io::{NoMemory, PERSONS};

fn push(net: &mut Net, from: u32, to: u32) -> Result<(), NoMemory> {
    let nodes = net.nodes();
    if from >= nodes || to >= nodes || net.arcs() >= 1 << 20 {
        return Ok(());
    }
    net.push_arc(Arc {
        from,
        to,
        low: 0,
        high: PERSONS,
    })?;
    Ok(())
}

fn ring(alloc: Global, nodes: u32, arcs: u32) -> Result<Net, NoMemory>
    requires some { 1 ≤ nodes }
    requires few { nodes ≤ 65536 }
{
    let mut net = Net::new(alloc, nodes);
    for k in 0..arcs {
        push(&mut net, k / 10 % nodes, (k / 10 + 1) % nodes)?;
    }
    Ok(net)
}

fn are_few(flow: &[u64]) -> bool
    ensures { IsTrue result → EachIndex flow.now (λ k. slice_index flow.now k ≤ 2 ^ 30) }
{
    flow.iter().all(|x| *x <= PERSONS)
}

fn open(arcs: usize, work: &mut Work)
    requires { length work.old.low ≡ arcs }
    ensures arcs { length work.new.low ≡ arcs }
    ensures nodes { length work.new.ranks ≡ length work.old.ranks }
{
    for arc in 0..arcs {
        work.set_bounds(arc, 0, PERSONS);
    }
}

fn searches(net: &Net, flow: &[u64], work: &mut Work, times: u32) -> u32
    requires arcs { length work.old.low ≡ arc_count net.now }
    requires nodes { length work.old.ranks ≡ net.now.nodes }
{
    let across = net.nodes() / 2;
    if flow.len() != net.arcs() || !are_few(flow) {
        return 0;
    }
    let mut count = 0u32;
    for _ in 0..times {
        reach(net, flow, 0, 1, work);
        if work.rank(across).is_some() {
            count = count.wrapping_add(1);
        }
    }
    count
}

fn found(alloc: Global, arcs: u32, times: u32) -> Result<u32, NoMemory> {
    let net = ring(alloc, (arcs / 10).clamp(1, 65536), arcs)?;
    let flow = vec![in alloc; 1u64; net.arcs()]?;
    let mut work = Work::new(alloc, net.nodes(), net.arcs())?;
    open(net.arcs(), &mut work);
    Ok(searches(&net, &flow, &mut work, times))
}

fn main(rt: HostRuntime) -> io::Result<()> {
    let mut numbers = [0u32; 3];
    for (i, word) in env::args(&rt)?.enumerate() {
        if i < 3 {
            numbers[i] = word.parse::<u32>().unwrap_or(0);
        }
    }
    match found(rt.alloc(), numbers[1], numbers[2]) {
        Ok(count) => println!(rt; "{count}"),
        Err(_) => println!(rt; "out of memory"),
    }
}
'''

INVARIANTS = {
    "open": r'''
use Rattle.std.proofs.Common.{◌≡◌, length}
use Rattle.bench_reach.proofs.open.Given as goal

abbrev pub invariant-loop-arc : goal.invariant-loop-arc
invariant-loop-arc l = (length l.work.low ≡ l.arcs) × (length l.work.ranks ≡ length l.initial.work.ranks)
''',
    "searches": r'''
use Rattle.std.proofs.Common.{◌≡◌, length}
use Rattle.tda_flow.specs.Network.{arc_count}
use Rattle.bench_reach.proofs.searches.Given as goal

abbrev pub invariant-loop : goal.invariant-loop
invariant-loop l = (length l.work.low ≡ arc_count l.net) × (length l.work.ranks ≡ l.net.nodes)
''',
}


def main():
    with tempfile.TemporaryDirectory() as name:
        program = build(pathlib.Path(name), "bench_reach", ["tda_flow", "tda_io"], PROGRAM, INVARIANTS)
        sys.exit(0 if print_ratios(program, "arcs", SIZES, ARCS_IN_ALL, MOST_RATIO) else 1)


if __name__ == "__main__":
    main()
