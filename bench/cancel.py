#!/usr/bin/env python3
"""Times `Cancel` on random nets whose start is up to 1,000 units from the answer.

Each net has a ring over all nodes and nine more random arcs for each node.  Every arc has one term, whose target is
what the arc carries in a circulation made of random closed walks: that one is the answer.  The start has more closed
walks on top, of up to 1,000 arcs in all.  The nets are solved by a program that is made, proved and built in a temporary
folder outside the repository.  Prints for each size the arcs, by how many units the flows of all arcs changed, and the
microseconds for each of these units (a step of one unit along a walk changes one unit of each of its arcs).  Usage: bench/cancel.py
"""
import pathlib
import random
import sys
import tempfile

from made import best_of, build

SIZES = [20, 40, 80]
ARCS_PER_NODE = 10
MOST_AWAY = 1_000

PROGRAM = r'''
//! Solves the net of its words: how many nodes, whether to solve, and for each arc five numbers: from, to, weight, target
//! and flow. It prints by how many units the flows changed in all, or -1 where the words are no circulation.
#![tactic(auto)]

ghost use Rattle.std.specs.Prelude.{◌≤◌, ◌^◌, slice_index, IsTrue, EachIndex};

use std::alloc::Global;
use std::{env, io};
use tda_cancel::Cancel;
use tda_flow::{Arc, Net, Solver, Term, is_circulation};
use tda_io::{NoMemory, PERSONS};
use tda_loss::{Curve, Loss, square};

fn push(net: &mut Net, way: &[u64]) -> Result<(), NoMemory> {
    let nodes = net.nodes();
    let [from, to, weight, target, _] = way else {
        return Ok(());
    };
    let from = u32::try_from(*from).unwrap_or(u32::MAX);
    let to = u32::try_from(*to).unwrap_or(u32::MAX);
    if from >= nodes || to >= nodes || net.arcs() >= 1 << 20 || *weight > 1 << 24 || *target > PERSONS {
        return Ok(());
    }
    let target = *target as i64;
    net.push_arc(Arc {
        from,
        to,
        low: 0,
        high: PERSONS,
    })?;
    let arcs = net.arcs();
    if arcs > 0 && net.terms(arcs - 1).len() < 8 {
        net.push_term(Term {
            weight: *weight,
            target,
        })?;
    }
    Ok(())
}

fn are_few(flow: &[u64]) -> bool
    ensures { IsTrue result → EachIndex flow.now (λ k. slice_index flow.now k ≤ 2 ^ 30) }
{
    flow.iter().all(|x| *x <= PERSONS)
}

fn solve(solver: &mut Cancel, net: &Net, flow: &mut [u64], prices: &mut [i128]) -> bool {
    if solver.nodes() < net.nodes() || solver.arcs() < net.arcs() {
        return false;
    }
    if flow.len() != net.arcs() || prices.len() != net.nodes() as usize {
        return false;
    }
    if !are_few(flow) || !is_circulation(net, flow) {
        return false;
    }
    let loss = Loss::new(Curve::Square, |d: i64| square(d));
    solver.solve(net, &loss, flow, prices);
    true
}

fn changed(alloc: Global, numbers: &[u64]) -> Result<i64, NoMemory> {
    let [nodes, wanted, ways @ ..] = numbers else {
        return Ok(-1);
    };
    let nodes = u32::try_from(*nodes).unwrap_or(1).clamp(1, 2048);
    let mut net = Net::new(alloc, nodes);
    let mut flow = Vec::new(alloc);
    for way in ways.chunks(5) {
        push(&mut net, way)?;
        flow.push(way.last().copied().unwrap_or(0))?;
    }
    let arcs = net.arcs();
    if arcs > 65536 {
        return Ok(-1);
    }
    let mut solver = Cancel::new(alloc, nodes, arcs)?;
    let mut prices = vec![in alloc; 0; nodes as usize]?;
    let start = Vec::from_slice(alloc, &flow)?;
    if *wanted != 0 && !solve(&mut solver, &net, &mut flow, &mut prices) {
        return Ok(-1);
    }
    let mut sum = 0i64;
    for (a, b) in start.iter().zip(flow.iter()) {
        sum = sum.wrapping_add(a.abs_diff(*b).min(1 << 30) as i64);
    }
    Ok(sum)
}

fn main(rt: HostRuntime) -> io::Result<()> {
    let mut numbers = Vec::new(rt.alloc());
    for word in env::args(&rt)?.skip(1) {
        if numbers.push(word.parse::<u64>().unwrap_or(0)).is_err() {
            return println!(rt; "out of memory");
        }
    }
    match changed(rt.alloc(), &numbers) {
        Ok(sum) => println!(rt; "{sum}"),
        Err(_) => println!(rt; "out of memory"),
    }
}
'''


def closed_walk(draw, nodes, arcs, leaving):
    """The arcs of a closed walk: up to three random ones, and home over the ring."""
    first = at = draw.randrange(nodes)
    walk = []
    for _ in range(draw.randrange(1, 4)):
        walk.append(draw.choice(leaving[at]))
        at = arcs[walk[-1]][1]
    while at != first:
        walk.append(at)
        at = (at + 1) % nodes
    return walk


def net(draw, nodes):
    """How many arcs a random net has, by how many units its start is away from the answer, and its words."""
    arcs = [(v, (v + 1) % nodes) for v in range(nodes)]
    arcs += [(draw.randrange(nodes), draw.randrange(nodes)) for _ in range((ARCS_PER_NODE - 1) * nodes)]
    leaving = {v: [k for k, arc in enumerate(arcs) if arc[0] == v] for v in range(nodes)}
    wanted = [0] * len(arcs)
    for _ in range(4 * nodes):
        for k in closed_walk(draw, nodes, arcs, leaving):
            wanted[k] += 1
    start, left = list(wanted), MOST_AWAY
    while True:
        walk = closed_walk(draw, nodes, arcs, leaving)
        if len(walk) > left:
            break
        left -= len(walk)
        for k in walk:
            start[k] += 1
    words = [str(n) for (a, b), x, y in zip(arcs, wanted, start) for n in (a, b, draw.randrange(1, 9), x, y)]
    return len(arcs), sum(abs(y - x) for x, y in zip(wanted, start)), words


def main():
    draw = random.Random(6)
    with tempfile.TemporaryDirectory() as name:
        program = build(pathlib.Path(name), "bench_cancel", ["tda_cancel", "tda_flow", "tda_io", "tda_loss"], PROGRAM)
        print(f"{'nodes':>6} {'arcs':>6} {'units':>6} {'seconds':>8} {'microseconds per unit of an arc':>32}")
        for nodes in SIZES:
            arcs, away, words = net(draw, nodes)
            took, said = best_of(program, nodes, 1, *words)
            units = int(said)
            if units != away:
                sys.exit(f"{nodes} nodes: {units} units changed, {away} were due")
            took -= best_of(program, nodes, 0, *words)[0]
            print(f"{nodes:>6} {arcs:>6} {units:>6} {took:>8.3f} {took * 1e6 / max(units, 1):>32.1f}")


if __name__ == "__main__":
    main()
