#!/usr/bin/env python3
"""Times `audit` over the files of releases of growing size, beside the csv crate's own loop over the same bytes.

The releases are those of fit.py, measured by `tda measure` and fitted by `tda fit`.  A program that is made, proved and
built in a temporary folder outside the repository reads their files and audits them again and again, or only reads them,
or only goes through their rows by the csv crate.  Prints for each size the milliseconds of one audit without its reading,
the ratio to the former size, which is at most 4.6 for four times the units, the milliseconds of one reading and of one
loop over the rows, those of a whole run of `tda audit`, and how many readings and loops that takes.  A run that takes more
than twice the reading is said so, and is no failure.  Usage: bench/audit.py [PROGRAM]   (made by ./tda: crates/tda/out/tda)
"""
import pathlib
import sys
import tempfile

import release
from fit import TOP, words_of, write_release
from made import build

SIZES = [1_000, 4_000, 16_000]
UNITS_IN_ALL = 256_000
ROUNDS = 7
MOST_RATIO = 4.6
READINGS = 2
FILES = ["schema", "spine", "facilities", "totals", "measurements", "tables", "prices"]
USES = ["tda_audit", "tda_prices", "tda_out", "tda_places", "tda_invar", "tda_spine", "tda_schema", "tda_loss", "tda_io", "csv"]

PROGRAM = r'''
//! Audits the files of a release again and again, or only reads them, or only their rows by the csv crate.
//! Words: `audit`, `read` or `rows`, how many times, and the files of a schema, a spine, facilities, totals, measurements,
//! tables and prices. It prints how often all was well.
#![tactic(auto)]

ghost use Rattle.std.specs.Prelude.{◌≤◌, ◌^◌, length};
ghost use Rattle.tda_spine.specs.Judged.{IsWithinLimits};
ghost use Rattle.tda_invar.specs.Known.{IsJoined};
ghost use Rattle.tda_places.specs.Measurements.{AreMeasurementsOf};
ghost use Rattle.tda_out.specs.Counts.{AreCountsOf};
ghost use Rattle.tda_prices.specs.Kept.{ArePricesOf};

use csv::{ByteRecord, ReaderBuilder};
use std::alloc::Global;
use std::{env, io};
use tda_audit::{Verdict, audit};
use tda_invar::{Invariants, join, read_facilities, read_totals};
use tda_io::{DirInbox, Inbox};
use tda_loss::{Curve, Loss, square};
use tda_out::Tables;
use tda_places::{Measurements, read_measurements};
use tda_prices::{Prices, read_prices, read_tables};
use tda_schema::{Schema, read_schema};
use tda_spine::{Spine, read_spine};

const LIMIT: usize = 1 << 28;

fn count_rows(alloc: Global, bytes: &[u8]) -> u64 {
    let mut reader = ReaderBuilder::new()
        .has_headers(false)
        .flexible(true)
        .from_reader(alloc, bytes);
    let mut row = ByteRecord::new(alloc);
    let mut fields = 0u64;
    for _ in 0..u64::MAX {
        let Ok(found) = reader.read_byte_record(&mut row) else {
            return 0;
        };
        if !found {
            break;
        }
        fields = fields.wrapping_add(row.len() as u64);
    }
    fields
}

// How often each file had rows.
fn rows_of(alloc: Global, files: &[Vec<u8>], times: u32) -> u32 {
    let mut count = 0u32;
    for _ in 0..times {
        let mut fields = 0u64;
        for file in files {
            fields = fields.wrapping_add(count_rows(alloc, file));
        }
        if fields > 0 {
            count = count.wrapping_add(1);
        }
    }
    count
}

fn audited(
    alloc: Global,
    schema: &Schema,
    spine: &Spine,
    inv: &Invariants,
    m: &Measurements,
    tables: &Tables,
    prices: &Prices,
    times: u32,
) -> u32
    requires belong { IsWithinLimits schema.now spine.now }
    requires joined { IsJoined schema.now spine.now inv.now }
    requires measured { AreMeasurementsOf schema.now spine.now m.now }
    requires counts { AreCountsOf schema.now spine.now tables.now }
    requires prices { ArePricesOf schema.now spine.now prices.now }
{
    let mut count = 0u32;
    let loss = Loss::new(Curve::Square, |d: i64| square(d));
    for _ in 0..times {
        if let Ok(Verdict::Yes) = audit(alloc, schema, spine, inv, m, tables, prices, &loss) {
            count = count.wrapping_add(1);
        }
    }
    count
}

// Reads the files behind the spine, and audits them so many times. It is 1 more than how often the audit said yes, and
// 0 where a file was refused.
fn read_over(
    alloc: Global,
    schema: &Schema,
    spine: &Spine,
    invariants: (&[u8], &[u8]),
    measurements: &[u8],
    tables: &[u8],
    prices: &[u8],
    times: u32,
) -> u32
    requires belong { IsWithinLimits schema.now spine.now }
    requires facilities { length invariants.0.now ≤ 2 ^ 28 }
    requires totals { length invariants.1.now ≤ 2 ^ 28 }
    requires measurements { length measurements.now ≤ 2 ^ 28 }
    requires tables { length tables.now ≤ 2 ^ 28 }
    requires prices { length prices.now ≤ 2 ^ 28 }
{
    let Ok(facilities) = read_facilities(alloc, schema, spine, invariants.0) else {
        return 0;
    };
    let Ok(totals) = read_totals(alloc, spine, invariants.1) else {
        return 0;
    };
    let Ok(inv) = join(alloc, schema, spine, facilities, totals) else {
        return 0;
    };
    let Ok(m) = read_measurements(alloc, schema, spine, measurements) else {
        return 0;
    };
    let Ok(tables) = read_tables(alloc, schema, spine, tables) else {
        return 0;
    };
    let Ok(prices) = read_prices(alloc, schema, spine, prices) else {
        return 0;
    };
    audited(alloc, schema, spine, &inv, &m, &tables, &prices, times).wrapping_add(1)
}

fn read_all(alloc: Global, files: &[Vec<u8>], times: u32) -> u32 {
    let [
        schema,
        spine,
        facilities,
        totals,
        measurements,
        tables,
        prices,
    ] = files
    else {
        return 0;
    };
    if schema.len() > LIMIT || spine.len() > LIMIT || facilities.len() > LIMIT {
        return 0;
    }
    if totals.len() > LIMIT || measurements.len() > LIMIT {
        return 0;
    }
    if tables.len() > LIMIT || prices.len() > LIMIT {
        return 0;
    }
    let Ok(schema) = read_schema(alloc, schema) else {
        return 0;
    };
    let Ok(spine) = read_spine(alloc, &schema, spine) else {
        return 0;
    };
    read_over(
        alloc,
        &schema,
        &spine,
        (facilities, totals),
        measurements,
        tables,
        prices,
        times,
    )
}

fn counted(alloc: Global, what: &str, files: &[Vec<u8>], times: u32) -> u32 {
    if what == "rows" {
        return rows_of(alloc, files, times);
    }
    if what == "audit" {
        return read_all(alloc, files, times).wrapping_sub(1);
    }
    let mut count = 0u32;
    for _ in 0..times {
        count = count.wrapping_add(read_all(alloc, files, 0));
    }
    count
}

fn main(rt: HostRuntime) -> io::Result<()> {
    let alloc = rt.alloc();
    let mut words = Vec::new(alloc);
    for word in env::args(&rt)?.skip(1) {
        words.push(word)?;
    }
    let [what, times, paths @ ..] = words.as_slice() else {
        return println!(rt; "no words");
    };
    let mut files = Vec::new(alloc);
    for path in paths {
        let mut inbox = DirInbox::new(&rt);
        let Ok(file) = inbox.read(alloc, path.as_str(), LIMIT) else {
            return println!(rt; "no file");
        };
        files.push(file)?;
    }
    let times = times.parse::<u32>().unwrap_or(0);
    let count = counted(alloc, what.as_str(), &files, times);
    println!(rt; "{count}")
}
'''


def made(tda, folder, units):
    """Makes the files of a release of so many units in a folder of their own."""
    folder.mkdir()
    write_release(folder, units)
    measure = words_of("measure", folder, FILES[:3] + ["records", "seed", "measurements", "totals", "ledger"],
                       ["--place", "0", "--budget", str(2**32)])
    command_seconds(tda, measure)
    command_seconds(tda, words_of("fit", folder, FILES))


def command_seconds(tda, words):
    """The processor's seconds of one command of `tda`, which has to end well."""
    seconds, _, status, said = release.run([tda, *words])
    if status != 0 or not said.startswith(f"ok {words[0]} "):
        sys.exit(f"status {status}: {said}")
    return seconds


def seconds_of(program, folder, what, times):
    """The processor's seconds of one run that does its work so many times."""
    paths = words_of(what, folder, FILES)[2::2]
    seconds, _, status, said = release.run([program, what, times, *paths])
    if status != 0 or said != str(times):
        sys.exit(f"{what}, {times} times: status {status}, {said}")
    return seconds


def measured(program, tda, folders):
    """For each size and what is done with its files: the seconds of doing it once, by the best of some rounds, each of
    which goes through all sizes, so that a time in which the machine is busy falls on each alike."""
    best, whole = {}, {}
    for _ in range(ROUNDS):
        for size, folder in folders.items():
            found = command_seconds(tda, words_of("audit", folder, FILES))
            whole[size, "tda"] = min(found, whole.get((size, "tda"), found))
            for what in ["audit", "read", "rows"]:
                for times in [0, UNITS_IN_ALL // size]:
                    found = seconds_of(program, folder, what, times)
                    best[size, what, times] = min(found, best.get((size, what, times), found))
    each = {(size, what): (best[size, what, times] - best[size, what, 0]) / times for size, what, times in best if times}
    return each | whole


def print_times(found):
    """Prints what an audit of each size takes, and whether its growth is within the limit."""
    print(f"{'units':>8} {'audit ms':>9} {'ratio':>6} {'read ms':>8} {'rows ms':>8} {'tda ms':>8} {'readings':>8} {'loops':>6}")
    former, good = None, True
    for size in SIZES:
        audit, read, rows, whole = (found[size, what] for what in ["audit", "read", "rows", "tda"])
        ratio = "" if former is None else f"{audit / former:.2f}"
        good = good and (former is None or audit / former <= MOST_RATIO)
        print(
            f"{size:>8} {audit * 1e3:>9.2f} {ratio:>6} {read * 1e3:>8.2f} {rows * 1e3:>8.2f} {whole * 1e3:>8.2f}"
            f" {whole / read:>8.2f} {whole / rows:>6.2f}"
        )
        if whole > READINGS * read:
            print(f"{size} units: a run takes more than {READINGS} times as long as the reading of its files")
        former = audit
    return good


def main():
    tda = sys.argv[1] if len(sys.argv) > 1 else TOP / "crates/tda/out/tda"
    with tempfile.TemporaryDirectory() as name:
        top = pathlib.Path(name)
        folders = {size: top / f"units_{size}" for size in SIZES}
        for size, folder in folders.items():
            made(tda, folder, size)
        program = build(top, "bench_audit", USES, PROGRAM)
        sys.exit(0 if print_times(measured(program, tda, folders)) else 1)


if __name__ == "__main__":
    main()
