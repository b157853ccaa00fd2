#!/usr/bin/env python3
"""Times the reading of schemas with the making of their trees of groups, and the reading of spines.

The schemas have seven levels of eight queries, each finer than the one before, and up to 4,096 cells; the spines go up to
131,072 units.  A program reads the same file again and again; it is made, proved and built in a temporary folder outside
the repository.  Prints for each size the milliseconds of one reading, the ratio to the former size, which is at most
2.4 for twice the size, and that to the first one, which is at most 5.4 for four times the size: what is looked up lies ever
further apart in memory.
Usage: bench/schema.py
"""
import math
import pathlib
import sys
import tempfile

import release
from made import build
from release import quoted

CELLS = [1_024, 2_048, 4_096]
UNITS = [32_768, 65_536, 131_072]
TIMES = {"schema": 8, "spine": 4}
ROUNDS = 9
MOST_RATIO = 2.4
MOST_OF_FOUR = 5.4
MOST_SECONDS = 1.0

PROGRAM = r'''
//! Reads a schema and makes the trees of its levels, or reads a spine, again and again.
//! Words: `schema` or `spine`, how many times, and the two files. It prints how many groups or units there were in all.
#![tactic(auto)]

ghost use Rattle.std.specs.Prelude.{◌≤◌, ◌^◌, length};

use std::alloc::Global;
use std::{env, io};
use tda_groups::tree;
use tda_io::{DirInbox, Inbox};
use tda_schema::{Schema, read_schema};
use tda_spine::read_spine;

const LIMIT: usize = 1 << 28;

fn count_groups(alloc: Global, schema: &Schema) -> u64 {
    let mut count = 0u64;
    for level in 0..schema.levels() {
        if let Ok(groups) = tree(alloc, schema, level) {
            count = count.wrapping_add(u64::from(groups.len()));
        }
    }
    count
}

fn read_schemas(alloc: Global, bytes: &[u8], times: u32) -> u64
    requires { length bytes.now ≤ 2 ^ 28 }
{
    let mut count = 0u64;
    for _ in 0..times {
        if let Ok(schema) = read_schema(alloc, bytes) {
            count = count.wrapping_add(count_groups(alloc, &schema));
        }
    }
    count
}

fn read_spines(alloc: Global, schema: &[u8], bytes: &[u8], times: u32) -> u64
    requires schema { length schema.now ≤ 2 ^ 28 }
    requires bytes { length bytes.now ≤ 2 ^ 28 }
{
    let Ok(schema) = read_schema(alloc, schema) else {
        return 0;
    };
    let mut count = 0u64;
    for _ in 0..times {
        if let Ok(spine) = read_spine(alloc, &schema, bytes) {
            count = count.wrapping_add(u64::from(spine.units()));
        }
    }
    count
}

fn counted(alloc: Global, what: &str, times: u32, schema: &[u8], spine: &[u8]) -> u64 {
    if schema.len() > LIMIT || spine.len() > LIMIT {
        return 0;
    }
    if what == "schema" {
        read_schemas(alloc, schema, times)
    } else {
        read_spines(alloc, schema, spine, times)
    }
}

fn main(rt: HostRuntime) -> io::Result<()> {
    let alloc = rt.alloc();
    let mut words = Vec::new(alloc);
    for word in env::args(&rt)?.skip(1) {
        words.push(word)?;
    }
    let [what, times, schema, spine] = words.as_slice() else {
        return println!(rt; "no words");
    };
    let mut inbox = DirInbox::new(&rt);
    let Ok(schema) = inbox.read(alloc, schema.as_str(), LIMIT) else {
        return println!(rt; "no schema");
    };
    let mut inbox = DirInbox::new(&rt);
    let Ok(spine) = inbox.read(alloc, spine.as_str(), LIMIT) else {
        return println!(rt; "no spine");
    };
    let times = times.parse::<u32>().unwrap_or(0);
    let count = counted(alloc, what.as_str(), times, &schema, &spine);
    println!(rt; "{count}")
}
'''

# Eight queries, each finer than the one before: attributes, and recodes of two labels.
QUERIES = [[], ["a"], ["a", "half-b"], ["a", "b"], ["a", "b", "half-c"], ["a", "b", "c"], ["a", "b", "c", "half-d"],
           ["a", "b", "c", "d"]]
LEVELS = ["nation", "state", "county", "tract", "group", "part", "block"]


def schema_of(cells):
    """A schema of so many cells, and how many groups its levels have in all."""
    sizes = {"a": 8, "b": 8, "c": 8, "d": cells // 512}
    text = ['version = 1\ntotal = "16"\n']
    for name, size in sizes.items():
        text.append(f'[[attribute]]\nname = "{name}"\nvalues = {quoted(f"{name}{value}" for value in range(size))}\n')
    for name in "bcd":
        labels = quoted("low" if 2 * value < sizes[name] else "high" for value in range(sizes[name]))
        text.append(f'[[recode]]\nname = "half-{name}"\nof = "{name}"\nmap = {labels}\n')
    queries = ", ".join(f'{{ name = "q{i}", by = {quoted(by)}, share = "1/64" }}' for i, by in enumerate(QUERIES))
    for level in LEVELS:
        text.append(f'[[level]]\nname = "{level}"\nquery = [{queries}]\n')
    classes = {1, 8, 16, 64, 128, 512, 1024, cells}
    return "\n".join(text), len(LEVELS) * sum(classes)


ONE_CELL = 'version = 1\ntotal = "1"\nattribute = [{ name = "kind", values = ["house"] }]\n'
THREE_LEVELS = 'level = [{ name = "nation" }, { name = "state" }, { name = "block" }]\n'


def spine_of(units):
    """A spine of so many units: 256 states, and blocks below them."""
    rows = ["unit,level,parent", "US,nation,"] + [f"S{state},state,US" for state in range(256)]
    rows += [f"B{block},block,S{block % 256}" for block in range(units - 257)]
    return "\n".join(rows) + "\n"


def run(program, folder, what, times, due):
    """The processor's seconds of one run."""
    files = [folder / name for name in ["schema.toml", "spine.csv"]]
    seconds, _, status, said = release.run([program, what, times, *files])
    if status != 0 or said != str(times * due):
        sys.exit(f"{what}, {times} times: status {status}, {said} in place of {times * due}")
    return seconds


def best_times(program, folder, what, sizes, write):
    """For each size the seconds of reading once, by the best of some rounds. Each round goes through all sizes, so that
    a time in which the machine is busy falls on each of them alike."""
    times = TIMES[what]
    best = {}
    for _ in range(ROUNDS):
        for size in sizes:
            due = write(folder, size)
            for n in [0, times]:
                best[size, n] = min(best.get((size, n), math.inf), run(program, folder, what, n, due))
    return [(best[size, times] - best[size, 0]) / times for size in sizes]


def print_sizes(program, folder, what, sizes, write):
    """Prints the milliseconds of each size, and whether all are within their limits."""
    print(f"{what:>8} {'ms':>8} {'ratio':>6} {'to first':>8}")
    times = best_times(program, folder, what, sizes, write)
    former, good = times[0], True
    for size, seconds in zip(sizes, times):
        good = good and seconds <= MOST_SECONDS and seconds <= MOST_RATIO * former and seconds <= MOST_OF_FOUR * times[0]
        print(f"{size:>8} {seconds * 1e3:>8.2f} {seconds / former:>6.2f} {seconds / times[0]:>8.2f}")
        former = seconds
    return good


def write_cells(folder, cells):
    text, groups = schema_of(cells)
    (folder / "schema.toml").write_text(text)
    (folder / "spine.csv").write_text("")
    return groups


def write_units(folder, units):
    (folder / "schema.toml").write_text(ONE_CELL + THREE_LEVELS)
    (folder / "spine.csv").write_text(spine_of(units))
    return units


def main():
    with tempfile.TemporaryDirectory() as name:
        folder = pathlib.Path(name)
        program = build(folder, "bench_schema", ["tda_groups", "tda_spine", "tda_schema", "tda_io"], PROGRAM)
        schemas = print_sizes(program, folder, "schema", CELLS, write_cells)
        spines = print_sizes(program, folder, "spine", UNITS, write_units)
        sys.exit(0 if schemas and spines else 1)


if __name__ == "__main__":
    main()
