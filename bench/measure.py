#!/usr/bin/env python3
"""Runs `tda measure` on records files of growing size, and then on spines of growing size with few records.

Without queries a run reads and counts the records: prints for each number of records the seconds above those of a file
without records, the ratio to the former size, which is at most 4.6 for four times as many, and the bytes of peak memory that
each further record takes, which are at most its bytes in the file and 16 (8 for a record, in a vector that doubles).  With
queries a run draws a number at each place: prints for each number of places the seconds above those of the same files without
queries, the places of one second, the ratio, which is at most 5.4 for four times as many (the units lie ever further apart in
memory), and the bytes of peak memory of each further unit, beside 8 for each count and place and those of its rows in the spine
and the measurements: the rest, the unit in the tree, is at most 320.
Usage: bench/measure.py [PROGRAM]   (made by ./tda: crates/tda/out/tda)
"""
import argparse
import pathlib
import sys
import tempfile

from release import run, write_records, write_schema, write_spine

TOP = pathlib.Path(__file__).resolve().parent.parent
READ = ["schema", "spine", "facilities", "records"]
WRITTEN = ["measurements", "totals", "ledger"]
RECORDS = [100_000, 400_000, 1_600_000]
STATES, BLOCKS = 100, 200
ONE_CELL = {"kind": ["house"]}
# Two cells and three places for each unit.
TWO_CELLS = {"kind": ["house"], "sex": ["f", "m"]}
QUERIES = [("total", [], "1/16"), ("sex", ["sex"], "1/16")]
MANY_STATES, BLOCKS_OF_STATES = 200, [40, 160, 640]
FEW_RECORDS = 1_000
ROUNDS = 21
MOST_RATIO, MOST_RATIO_OF_PLACES = 4.6, 5.4
# What a record takes beside its row, and a unit beside its counts, places and rows.
MOST_OF_RECORD = 16
MOST_OF_UNIT = 320


def made(folder, attributes, queries, states, blocks, records):
    """Makes the files of a run in a folder of their own. How many units there are, and the bytes of the records."""
    folder.mkdir()
    write_schema(folder, attributes, queries)
    units = write_spine(folder, states, blocks)
    (folder / "facilities.csv").write_text("block,kind,count\n")
    (folder / "seed.bin").write_bytes(bytes(range(32)))
    return units, write_records(folder, attributes, states, blocks, records)


def measure(program, folder, places):
    """The processor's seconds and the peak memory of measuring so many places."""
    files = {"schema": "schema.toml", "seed": "seed.bin"}
    words = ["measure", "--place", "0", "--budget", str(1 << 32)]
    for name in [*READ, "seed", *WRITTEN]:
        words += [f"--{name}", folder / files.get(name, f"{name}.csv")]
    seconds, peak, status, said = run([program, *words])
    if status != 0 or not said.startswith(f"ok measure places={places} "):
        sys.exit(f"status {status}: {said}")
    return seconds, peak


def best_of_rounds(program, cases):
    """For each folder with its places the seconds and the peak memory, by the best of some rounds. Each round goes through
    all of them, so that a time in which the machine is busy falls on each alike."""
    best = {}
    for _ in range(ROUNDS):
        for folder, places in cases:
            found = measure(program, folder, places)
            best[folder] = min(found, best.get(folder, found))
    return [best[folder] for folder, _ in cases]


def judged(seconds, former, most):
    """The ratio to the former size as it is printed, and whether it is within its limit."""
    if former is None:
        return "", True
    return f"{seconds / former:.2f}", seconds / former <= most


def each(now, former):
    """The bytes of peak memory, and those of the files, that each further one takes: of (how many, peak, bytes)."""
    return [(new - old) / (now[0] - former[0]) for new, old in zip(now[1:], former[1:])]


def print_records(program, folder):
    """Prints what reading and counting takes, and whether all is within the limits."""
    sizes = [made(folder / f"r{count}", ONE_CELL, (), STATES, BLOCKS, count)[1] for count in [0, *RECORDS]]
    found = best_of_rounds(program, [(folder / f"r{count}", 0) for count in [0, *RECORDS]])
    print(f"{'records':>9} {'seconds':>8} {'ratio':>6} {'peak MB':>8} {'bytes each':>10} {'in file':>7}")
    former, taken, good = None, None, True
    for count, size, (seconds, peak) in zip(RECORDS, sizes[1:], found[1:]):
        seconds -= found[0][0]
        ratio, within = judged(seconds, former, MOST_RATIO)
        bytes_each, file_each = each((count, peak, size), taken) if taken else (0, size / count)
        good = good and within and bytes_each <= file_each + MOST_OF_RECORD
        print(f"{count:>9} {seconds:>8.3f} {ratio:>6} {peak / 1e6:>8.1f} {bytes_each:>10.1f} {file_each:>7.1f}")
        former, taken = seconds, (count, peak, size)
    return good


def print_places(program, folder):
    """Prints what drawing takes, and whether all is within the limits."""
    units, cases = [], []
    for blocks in BLOCKS_OF_STATES:
        for name, queries in [("without", ()), ("with", QUERIES)]:
            made_here = made(folder / f"{name}{blocks}", TWO_CELLS, queries, MANY_STATES, blocks, FEW_RECORDS)
            cases.append((folder / f"{name}{blocks}", 3 * made_here[0] if queries else 0))
        units.append(made_here[0])
    found = best_of_rounds(program, cases)
    print(f"{'places':>9} {'seconds':>8} {'a second':>9} {'ratio':>6} {'peak MB':>8} {'bytes a unit':>12} {'rest':>6}")
    former, taken, good = None, None, True
    for count, (place, places), base, (whole, peak) in zip(units, cases[1::2], found[::2], found[1::2]):
        seconds = whole - base[0]
        ratio, within = judged(seconds, former, MOST_RATIO_OF_PLACES)
        size = sum((place / f"{name}.csv").stat().st_size for name in ["spine", "measurements"])
        bytes_each, file_each = each((count, peak, size), taken) if taken else (0, 0)
        # Two counts and three places for each unit, of 8 bytes each.
        rest = bytes_each - file_each - 8 * (2 + 3) if taken else 0
        good = good and within and rest <= MOST_OF_UNIT
        print(
            f"{places:>9} {seconds:>8.3f} {places / seconds:>9.0f} {ratio:>6} {peak / 1e6:>8.1f}"
            f" {bytes_each:>12.1f} {rest:>6.1f}"
        )
        former, taken = seconds, (count, peak, size)
    return good


def main():
    words = argparse.ArgumentParser(description="Times `tda measure`.")
    words.add_argument("program", nargs="?", default=str(TOP / "crates/tda/out/tda"))
    program = words.parse_args().program
    with tempfile.TemporaryDirectory() as name:
        folder = pathlib.Path(name)
        records = print_records(program, folder)
        places = print_places(program, folder)
        sys.exit(0 if records and places else 1)


if __name__ == "__main__":
    main()
