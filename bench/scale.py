#!/usr/bin/env python3
"""Times `tda fit` on the lands of land.py, and on a quarter of the last one.

`narrow` has 538 fits of 10 cells, `tall` 5,000 units of 216 cells with at most 7 children each, `wide` as many with up
to 265 children (left out while the program refuses such fits), and `large` 131,072 units of 24 possible cells. Prints
for each the fits, the processor's seconds of the best of three runs, and the peak memory in MiB. Ends with status 1
where one of the limits below is passed.

With `--yard` a reference in C++ stands beside it, which proves nothing. It is a program that takes `--in FOLDER --out
FOLDER` and writes the same files. With `--first none` it doesn't choose among least tables. With `--start first` it
begins with the flows that `tda` begins with, and all prices 0. Its seconds are those of its whole run, from the start
that it likes best and from that one. Both take some least tables, not always the same ones, so later fits may differ.
Usage: bench/scale.py [PROGRAM] [--yard PATH] [--only LAND]   (PROGRAM is made by ./tda: crates/tda/out/tda)
"""
import argparse
import pathlib
import subprocess
import sys
import tempfile

from release import run

LANDS = ["narrow", "tall", "wide", "large"]
RUNS = 3
PARTS = 4
MOST_GROWTH = 4.6
MOST_YARD_RATIO = 3
MOST_MEMORY = 256 * 2**20
TOP = pathlib.Path(__file__).resolve().parent.parent


def make_land(folder, name, parts=1):
    """Made by a process of its own, since the peak of a run is at least what its parent has."""
    subprocess.run([sys.executable, TOP / "bench/land.py", name, folder, str(parts)], check=True)


def fit_words(program, folder):
    tables = ["spine", "facilities", "totals", "measurements", "tables", "prices"]
    files = {"schema": "schema.toml", **{name: f"{name}.csv" for name in tables}}
    return [program, "fit", *(word for name, file in files.items() for word in (f"--{name}", folder / file))]


def best(words, name):
    """The seconds, the peak and the report of the best run, or none where a fit is larger than a fit may be."""
    runs = [run(words) for _ in range(RUNS)]
    for _, _, status, said in runs:
        if status == 3 and "FitTooLarge" in said:
            print(f"{name:>8} left out: {said}")
            return None
        if status != 0:
            sys.exit(f"{name}: status {status}: {said}")
    seconds, peak, _, said = min(runs)
    return seconds, peak, said


def time_yard(yard, folder, name, seconds):
    """What the reference takes from its best start and from that of `tda`, and how many times longer `tda` takes."""
    words = [yard, "--in", folder, "--out", folder, "--first", "none"]
    warm, cold = best(words, name)[0], best([*words, "--start", "first"], name)[0]
    line = f" {warm:>8.3f} {seconds / warm:>6.2f} {cold:>8.3f} {seconds / cold:>6.2f}"
    return line, seconds / warm <= MOST_YARD_RATIO


def time_land(program, yard, folder, label):
    """Prints what a land takes, and answers its seconds and whether it keeps to its limits."""
    own = best(fit_words(program, folder), label)
    if own is None:
        return None, True
    seconds, peak, said = own
    fits = said.split("fits=")[1].split()[0]
    line = f"{label:>8} {fits:>6} {seconds:>8.3f} {peak / 2**20:>7.1f}"
    kept = peak <= MOST_MEMORY
    if yard:
        beside, is_near = time_yard(yard, folder, label, seconds)
        line += beside
        kept = kept and is_near
    print(line, flush=True)
    return seconds, kept


def main():
    parser = argparse.ArgumentParser()
    parser.add_argument("program", nargs="?", default=TOP / "crates/tda/out/tda")
    parser.add_argument("--yard")
    parser.add_argument("--only", choices=LANDS)
    words = parser.parse_args()
    kept, seconds = True, {}
    beside = f" {'yard':>8} {'ratio':>6} {'cold':>8} {'ratio':>6}" if words.yard else ""
    print(f"{'land':>8} {'fits':>6} {'seconds':>8} {'MiB':>7}{beside}")
    for name in [words.only] if words.only else LANDS:
        for parts in [1, PARTS] if name == LANDS[-1] else [1]:
            with tempfile.TemporaryDirectory() as folder:
                make_land(pathlib.Path(folder), name, parts)
                label = name if parts == 1 else f"{name}/{parts}"
                seconds[parts], good = time_land(words.program, words.yard, pathlib.Path(folder), label)
                kept = kept and good
    if PARTS in seconds:
        growth = seconds[1] / seconds[PARTS]
        print(f"{PARTS} times the units take {growth:.2f} times as long")
        kept = kept and growth <= MOST_GROWTH
    sys.exit(0 if kept else 1)


if __name__ == "__main__":
    main()
