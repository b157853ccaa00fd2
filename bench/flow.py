#!/usr/bin/env python3
"""Times `certified` on nets of growing size.

The judge is run again and again on a ring of nodes with ten arcs between each two neighbours, by a program that is made,
proved and built in a temporary folder outside the repository.  Prints for each size the microseconds of one judgement and
the ratio to the former size, which is at most 12 for ten times the arcs.  Usage: bench/flow.py
"""
import pathlib
import sys
import tempfile

from made import build, print_ratios

SIZES = [1_000, 10_000, 100_000]
ARCS_IN_ALL = 4_000_000
MOST_RATIO = 12

PROGRAM = r'''
//! Judges a ring of nodes with ten arcs between each two neighbours, again and again.
//! Words: how many arcs, and how many times. It prints how often the judge was content.
#![tactic(auto)]

ghost use Rattle.std.specs.Prelude.{◌≡◌, ℕ, ◌<◌, ◌≤◌, ◌^◌, length, slice_index, IsTrue, EachIndex};
ghost use Rattle.tda_flow.specs.Certificate.{ArePrices};

use std::alloc::Global;
use std::{env, io};
use tda_flow::{Arc, Net, Term, certified, is_circulation};
use tda_io::{NoMemory, PERSONS};
use tda_loss::{Curve, Loss, square};

const MOST: i128 = 1 << 96;

const TERM: Term = Term {
    weight: 1,
    target: 1,
};

fn push(net: &mut Net, from: u32, to: u32) -> Result<(), NoMemory> {
    let nodes = net.nodes();
    if from >= nodes || to >= nodes || net.arcs() >= 1 << 20 {
        return Ok(());
    }
    net.push_arc(Arc {
        from,
        to,
        low: 0,
        high: PERSONS,
    })?;
    let arcs = net.arcs();
    if arcs > 0 && net.terms(arcs - 1).len() < 8 {
        net.push_term(TERM)?;
    }
    Ok(())
}

fn ring(alloc: Global, nodes: u32, arcs: u32) -> Result<Net, NoMemory>
    requires some { 1 ≤ nodes }
    requires few { nodes ≤ 65536 }
{
    let mut net = Net::new(alloc, nodes);
    for k in 0..arcs {
        push(&mut net, k % nodes, (k % nodes + 1) % nodes)?;
    }
    Ok(net)
}

fn are_few(flow: &[u64]) -> bool
    ensures { IsTrue result → EachIndex flow.now (λ k. slice_index flow.now k ≤ 2 ^ 30) }
{
    flow.iter().all(|x| *x <= PERSONS)
}

fn are_prices(net: &Net, prices: &[i128]) -> bool
    ensures { IsTrue result → ArePrices net.now prices.now }
{
    prices.len() == net.nodes() as usize && prices.iter().all(|p| -MOST <= *p && *p <= MOST)
}

fn content(net: &Net, flow: &[u64], prices: &mut [i128], times: u32) -> u32 {
    let mut count = 0u32;
    if flow.len() != net.arcs() || !are_few(flow) || !is_circulation(net, flow) {
        return 0;
    }
    let loss = Loss::new(Curve::Square, |d: i64| square(d));
    for _ in 0..times {
        if are_prices(net, prices) && certified(net, &loss, flow, prices).is_ok() {
            count = count.wrapping_add(1);
        }
        if let Some(hub) = prices.first_mut() {
            *hub = 0;
        }
    }
    count
}

fn judged(alloc: Global, arcs: u32, times: u32) -> Result<u32, NoMemory> {
    let nodes = (arcs / 10).clamp(1, 65536);
    let net = ring(alloc, nodes, arcs)?;
    let flow = vec![in alloc; 1u64; net.arcs()]?;
    let mut prices = vec![in alloc; 0i128; nodes as usize]?;
    Ok(content(&net, &flow, &mut prices, times))
}

fn main(rt: HostRuntime) -> io::Result<()> {
    let mut numbers = [0u32; 3];
    for (i, word) in env::args(&rt)?.enumerate() {
        if i < 3 {
            numbers[i] = word.parse::<u32>().unwrap_or(0);
        }
    }
    match judged(rt.alloc(), numbers[1], numbers[2]) {
        Ok(count) => println!(rt; "{count}"),
        Err(_) => println!(rt; "out of memory"),
    }
}
'''


def main():
    with tempfile.TemporaryDirectory() as name:
        program = build(pathlib.Path(name), "bench_flow", ["tda_flow", "tda_io", "tda_loss"], PROGRAM)
        sys.exit(0 if print_ratios(program, "arcs", SIZES, ARCS_IN_ALL, MOST_RATIO) else 1)


if __name__ == "__main__":
    main()
