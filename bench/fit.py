#!/usr/bin/env python3
"""Runs `tda fit` on releases of growing size over five levels, measured by `tda measure` from random records.

The schema is a small census: three kinds of quarters, two sexes, two ages, ten possible cells, and two queries at each level. Prints
for each size the fits, the processor's seconds, the ratio to the former size, which is at most 4.6 for four times the units, and
the peak memory. Ends with status 1 where a ratio is greater.
Usage: bench/fit.py [PROGRAM]   (made by ./tda: crates/tda/out/tda)
"""
import pathlib
import random
import sys
import tempfile

from release import run

LEVELS = ["nation", "state", "county", "tract", "block"]
SIZES = [2_000, 8_000, 32_000, 131_072]
MOST_RATIO = 4.6
TOP = pathlib.Path(__file__).resolve().parent.parent
HEAD = """version = 1
total = "1"
attribute = [{ name = "kind", values = ["house", "dorm", "prison"] }, { name = "sex", values = ["f", "m"] },
  { name = "age", values = ["minor", "adult"] }]
zero = [{ kind = ["prison"], age = ["minor"] }]
"""
QUERIES = """
[[level]]
name = "{level}"
query = [{{ name = "total", by = [], share = "1/16" }}, {{ name = "detail", by = ["kind", "sex", "age"], share = "1/8" }}]
"""


def counts_of(units):
    """How many units each level has: about equal branching, the blocks take the rest."""
    branch = round((units - 1) ** 0.25)
    while 1 + branch + branch**2 + 2 * branch**3 > units:
        branch -= 1
    counts = [1, branch, branch**2, branch**3]
    return counts + [units - sum(counts)]


def write_spine(folder, counts):
    """A spine with so many units at each level, whose children are spread evenly."""
    with open(folder / "spine.csv", "w") as file:
        file.write("unit,level,parent\n")
        for level, count in enumerate(counts):
            for i in range(count):
                parent = f"u{level - 1}.{i * counts[level - 1] // count}" if level else ""
                file.write(f"u{level}.{i},{LEVELS[level]},{parent}\n")


def write_release(folder, units):
    """The files that a measuring reads: three persons in each block on the average, a dormitory in each third block."""
    counts, draw = counts_of(units), random.Random(units)
    (folder / "schema.toml").write_text(HEAD + "".join(QUERIES.format(level=level) for level in LEVELS))
    (folder / "seed").write_bytes(bytes(32))
    write_spine(folder, counts)
    with open(folder / "facilities.csv", "w") as facilities, open(folder / "records.csv", "w") as records:
        facilities.write("block,kind,count\n")
        records.write("block,kind,sex,age\n")
        for block in range(counts[4]):
            if block % 3 == 0:
                facilities.write(f"u4.{block},dorm,1\n")
                records.write(f"u4.{block},dorm,f,adult\n")
            for _ in range(draw.randrange(6)):
                records.write(f"u4.{block},house,{draw.choice('fm')},{draw.choice(['minor', 'adult'])}\n")


def words_of(command, folder, names, more=()):
    ends = {"schema": ".toml", "seed": ""}
    return [command, *(word for name in names for word in (f"--{name}", folder / f"{name}{ends.get(name, '.csv')}")), *more]


def main():
    program = sys.argv[1] if len(sys.argv) > 1 else TOP / "crates/tda/out/tda"
    inputs = ["schema", "spine", "facilities"]
    former, kept = None, True
    print(f"{'units':>8} {'fits':>7} {'seconds':>8} {'ratio':>6} {'MiB':>7}")
    with tempfile.TemporaryDirectory() as name:
        folder = pathlib.Path(name)
        for size in SIZES:
            write_release(folder, size)
            measure = words_of("measure", folder, inputs + ["records", "seed", "measurements", "totals", "ledger"],
                               ["--place", "0", "--budget", str(2**32)])
            fit = words_of("fit", folder, inputs + ["totals", "measurements", "tables", "prices"])
            for words, report in [(measure, "ok measure"), (fit, "ok fit")]:
                seconds, peak, status, said = min(run([program, *words]) for _ in range(3))
                if status != 0 or not said.startswith(report):
                    sys.exit(f"status {status}: {said}")
            ratio = seconds / former if former else 0
            kept = kept and ratio <= MOST_RATIO
            fits = said.split("fits=")[1].split()[0]
            print(f"{size:>8} {fits:>7} {seconds:>8.3f} {ratio:>6.2f} {peak / 2**20:>7.1f}")
            former = seconds
    sys.exit(0 if kept else 1)


if __name__ == "__main__":
    main()
