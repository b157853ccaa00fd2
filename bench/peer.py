#!/usr/bin/env python3
"""Times `tda fit` beside LEMON's network simplex (Debian's liblemon-dev), which a user without `tda` would take.

Each land's release is made by land.py and fitted by `tda fit`. Then `peer/peer.cpp` works out all fits of the release
anew from its files, with the published table of each parent, and solves each. The network simplex knows no convex
costs, so each arc that has one is expanded into arcs of one person each, within a window about the answer that `tda`
found; a user would have to guess it. Prints for each land the fits, those left out since they have more than MOST_ARCS
arcs, the arcs as they are and as expanded, whether all costs are the same, the processor's seconds of the whole run of
`tda fit` and of LEMON's expanding and solving alone, and their ratio. The status is 1 where a fit has another least
cost than its tables have, where all tables together cost something else than the deviation that `tda fit` reports, or
where `tda fit` takes longer than MOST_RATIO times LEMON.
Usage: bench/peer.py [PROGRAM]   (made by ./tda: crates/tda/out/tda)
"""
import pathlib
import shutil
import subprocess
import sys
import tempfile

from census import Schema
from release import run
from scale import fit_words, make_land

LANDS = [("narrow", 1), ("tall", 1), ("wide", 1), ("large", 1)]
WINDOW = 8
MOST_ARCS = 20_000
MOST_RATIO = 1
RUNS = 3
TOP = pathlib.Path(__file__).resolve().parent.parent


def write_schema(path, schema):
    """The schema as the peer reads it: numbers and names, apart by spaces."""
    def words(numbers):
        return " ".join(str(-1 if number is None else number) for number in numbers)

    kind_of = {cell: kind for kind, cells in enumerate(schema.kinds) for cell in cells}
    lines = [words([len(schema.possible), len(schema.kinds), len(schema.levels)]), " ".join(schema.kind_names)]
    lines += [words(schema.possible), words(kind_of[cell] for cell in schema.possible)]
    for level in schema.levels:
        lines.append(f"{level.name} {len(level.groups)} {len(level.queries)}")
        lines += [words(level.larger), words(level.kind_groups)]
        lines.append(words(level.smallest[cell] for cell in schema.possible))
        for query, groups in zip(level.queries, level.class_groups):
            lines.append(f"{query.name} {query.weight} {len(groups)} {words(groups)}")
    path.write_text("\n".join(lines) + "\n")


def build_peer(folder):
    """Builds the peer, or gives None where a compiler or LEMON is missing."""
    compiler = shutil.which("g++")
    probe = ["-xc++", "-fsyntax-only", "-include", "lemon/network_simplex.h", "/dev/null"]
    if not compiler or subprocess.run([compiler, *probe], capture_output=True).returncode != 0:
        return None
    program = folder / "peer"
    subprocess.run([compiler, "-std=c++17", "-O3", "-w", "-o", program, TOP / "bench/peer/peer.cpp"], check=True)
    return program


def fields(line):
    return dict(word.split("=") for word in line.split() if "=" in word)


def compare(tda, peer, folder, name, parts):
    """Prints what a land's fits take, and answers whether the costs are the same and the times in their limit."""
    make_land(folder, name, parts)
    seconds, _, status, said = min(run(fit_words(tda, folder)) for _ in range(RUNS))
    if status == 3 and "FitTooLarge" in said:
        print(f"{name:>8} skipped: {said}")
        return True
    if status != 0:
        sys.exit(f"{name}: status {status}: {said}")
    write_schema(folder / "schema.txt", Schema(folder / "schema.toml"))
    runs = [run([peer, folder, WINDOW, MOST_ARCS]) for _ in range(RUNS)]
    if any(status > 1 for _, _, status, _ in runs):
        sys.exit(f"{name}: the peer didn't end")
    tables = fields(said)
    found = [fields(line) for _, _, _, line in runs]
    own = min(float(row["expanding"]) + float(row["solving"]) for row in found)
    is_same = all(status == 0 for _, _, status, _ in runs) and found[0]["answer"] == tables["deviation"]
    costs = "same" if is_same else "OTHER"
    left_out = int(found[0]["left_out"])
    print(f"{name:>8} {found[0]['fits']:>6} {left_out:>8} {found[0]['arcs']:>9} {found[0]['unit_arcs']:>10} {costs:>6} "
          f"{seconds:>8.3f} {own:>8.3f} {seconds / own:>6.2f}")
    return is_same and seconds <= MOST_RATIO * own


def main():
    tda = sys.argv[1] if len(sys.argv) > 1 else TOP / "crates/tda/out/tda"
    kept = True
    with tempfile.TemporaryDirectory() as name:
        folder = pathlib.Path(name)
        peer = build_peer(folder)
        if not peer:
            print("skipped: g++ or LEMON (Debian's liblemon-dev) is missing")
            return
        print(f"{'land':>8} {'fits':>6} {'left out':>8} {'arcs':>9} {'expanded':>10} {'costs':>6} {'tda':>8} "
              f"{'LEMON':>8} {'ratio':>6}")
        for land, parts in LANDS:
            (folder / land).mkdir()
            kept = compare(tda, peer, folder / land, land, parts) and kept
            shutil.rmtree(folder / land)
    sys.exit(0 if kept else 1)


if __name__ == "__main__":
    main()
