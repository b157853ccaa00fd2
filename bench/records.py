#!/usr/bin/env python3
"""Times the reading of records, beside a loop over the same rows that does nothing but read them by the csv crate.

Files of growing size are read by a program that is made, proved and built in a temporary folder outside the repository: of
one attribute with one value, and of three, one with 128 values.  Prints for each number of records the nanoseconds of one
record, those of the csv crate's own loop, how many times those it takes, which is at most 4, the ratio to the former size,
which is at most 4.6 for four times as many, and the peak memory that a reading adds, beside the bytes of the file and 8 for
each record.  Usage: bench/records.py
"""
import pathlib
import sys
import tempfile

import release
from made import build

SIZES = [100_000, 400_000, 1_600_000]
RECORDS_IN_ALL = 3_200_000
ROUNDS = 9
MOST_RATIO = 4.6
MOST_TIMES = 4
# Attributes, and how many states there are with how many blocks each.
CASES = [
    ({"kind": ["house"]}, 100, 200),
    ({"kind": ["house"], "age": [f"age{age}" for age in range(128)], "race": [f"r{race}" for race in range(8)]}, 60, 60),
]

PROGRAM = r'''
//! Reads a file of records again and again, or only its rows by the csv crate.
//! Words: `records` or `rows`, how many times, and the files of a schema, a spine and records. It prints how many records or
//! rows there were in all.
#![tactic(auto)]

ghost use Rattle.std.specs.Prelude.{◌≤◌, ◌^◌, length};

use csv::{ByteRecord, ReaderBuilder};
use std::alloc::Global;
use std::{env, io};
use tda_io::{DirInbox, Inbox, NoMemory};
use tda_records::read_records;
use tda_schema::read_schema;
use tda_spine::read_spine;

const LIMIT: usize = 1 << 28;

fn count_rows(alloc: Global, bytes: &[u8]) -> u64 {
    let mut reader = ReaderBuilder::new()
        .has_headers(false)
        .flexible(true)
        .from_reader(alloc, bytes);
    let mut row = ByteRecord::new(alloc);
    let mut fields = 0u64;
    let mut rows = 0u64;
    for _ in 0..u64::MAX {
        let Ok(found) = reader.read_byte_record(&mut row) else {
            return 0;
        };
        if !found {
            break;
        }
        rows = rows.wrapping_add(1);
        fields = fields.wrapping_add(row.len() as u64);
    }
    if fields == 0 { 0 } else { rows }
}

fn count_records(alloc: Global, schema: &[u8], spine: &[u8], bytes: &[u8], times: u32) -> u64
    requires schema { length schema.now ≤ 2 ^ 28 }
    requires spine { length spine.now ≤ 2 ^ 28 }
    requires bytes { length bytes.now ≤ 2 ^ 28 }
{
    let mut count = 0u64;
    let Ok(schema) = read_schema(alloc, schema) else {
        return 0;
    };
    let Ok(spine) = read_spine(alloc, &schema, spine) else {
        return 0;
    };
    for _ in 0..times {
        if let Ok(records) = read_records(alloc, &schema, &spine, bytes) {
            count = count.wrapping_add(records.len() as u64);
        }
    }
    count
}

fn counted(
    alloc: Global,
    what: &str,
    times: u32,
    schema: &[u8],
    spine: &[u8],
    bytes: &[u8],
) -> u64 {
    let mut count = 0u64;
    if what == "records" {
        if schema.len() > LIMIT || spine.len() > LIMIT || bytes.len() > LIMIT {
            return 0;
        }
        return count_records(alloc, schema, spine, bytes, times);
    }
    for _ in 0..times {
        count = count.wrapping_add(count_rows(alloc, bytes));
    }
    count
}

fn main(rt: HostRuntime) -> io::Result<()> {
    let alloc = rt.alloc();
    let mut words = Vec::new(alloc);
    for word in env::args(&rt)?.skip(1) {
        words.push(word)?;
    }
    let [what, times, schema, spine, records] = words.as_slice() else {
        return println!(rt; "no words");
    };
    let mut inbox = DirInbox::new(&rt);
    let Ok(schema) = inbox.read(alloc, schema.as_str(), LIMIT) else {
        return println!(rt; "no schema");
    };
    let mut inbox = DirInbox::new(&rt);
    let Ok(spine) = inbox.read(alloc, spine.as_str(), LIMIT) else {
        return println!(rt; "no spine");
    };
    let mut inbox = DirInbox::new(&rt);
    let Ok(records) = inbox.read(alloc, records.as_str(), LIMIT) else {
        return println!(rt; "no records");
    };
    let times = times.parse::<u32>().unwrap_or(0);
    let count = counted(alloc, what.as_str(), times, &schema, &spine, &records);
    println!(rt; "{count}")
}
'''


def run(program, folder, what, times, due):
    """The processor's seconds and the peak memory in bytes of one run."""
    files = [folder / name for name in ["schema.toml", "spine.csv", "records.csv"]]
    seconds, peak, status, said = release.run([program, what, times, *files])
    if status != 0 or said != str(due):
        sys.exit(f"{what}, {times} times: status {status}, {said}")
    return seconds, peak


def made(folder, attributes, states, blocks, count):
    """Makes the files of so many records in a folder of their own, and gives the bytes of the records."""
    folder.mkdir()
    release.write_schema(folder, attributes)
    release.write_spine(folder, states, blocks)
    return release.write_records(folder, attributes, states, blocks, count)


def measured(program, folders):
    """For each folder with its number of records, what is done with them: the seconds of doing it once, and the peak memory
    that it adds. By the best of some rounds, each of which goes through all of them, so that a time in which the machine is
    busy falls on each alike."""
    best = {}
    for _ in range(ROUNDS):
        for folder, count in folders:
            for what, rows in [("records", count), ("rows", count + 1)]:
                for times in [0, max(1, RECORDS_IN_ALL // count)]:
                    found = run(program, folder, what, times, times * rows)
                    best[folder, what, times] = min(found, best.get((folder, what, times), found))
    found = {}
    for folder, what, times in best:
        if times > 0:
            base = best[folder, what, 0]
            found[folder, what] = (best[folder, what, times][0] - base[0]) / times, best[folder, what, times][1] - base[1]
    return found


def print_case(program, top, attributes, states, blocks):
    """Prints what reading takes for each number of records, and whether all is within the limits."""
    folders = [(top / f"{len(attributes)}_{count}", count) for count in SIZES]
    sizes = [made(folder, attributes, states, blocks, count) for folder, count in folders]
    found = measured(program, folders)
    print(f"{'records':>9} {'ns each':>8} {'csv':>6} {'times':>6} {'ratio':>6} {'MB added':>9} {'file':>6} {'8 each':>7}")
    former, good = None, True
    for (folder, count), size in zip(folders, sizes):
        seconds, peak = found[folder, "records"]
        rows, _ = found[folder, "rows"]
        ratio = "" if former is None else f"{seconds / former:.2f}"
        good = good and (former is None or seconds / former <= MOST_RATIO) and seconds / rows <= MOST_TIMES
        print(
            f"{count:>9} {seconds / count * 1e9:>8.1f} {rows / count * 1e9:>6.1f} {seconds / rows:>6.2f} {ratio:>6}"
            f" {peak / 1e6:>9.1f} {size / 1e6:>6.1f} {8 * count / 1e6:>7.1f}"
        )
        former = seconds
    return good


def main():
    with tempfile.TemporaryDirectory() as name:
        folder = pathlib.Path(name)
        uses = ["tda_records", "tda_spine", "tda_schema", "tda_io", "csv"]
        program = build(folder, "bench_records", uses, PROGRAM)
        good = [print_case(program, folder, *case) for case in CASES]
        sys.exit(0 if all(good) else 1)


if __name__ == "__main__":
    main()
