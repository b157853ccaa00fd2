"""Small programs that time parts of the workspace: each is made, proved and built in a folder outside the repository."""
import pathlib
import resource
import shutil
import subprocess
import sys
import time

TOP = pathlib.Path(__file__).resolve().parent.parent
RUNS = 7
ROUNDS = 40


def stands_on(lines, names):
    """The lines of crates.txt of these crates and of those that they stand on."""
    below = {line.split(":")[0]: line.split(":")[1].split() for line in lines}
    found, left = set(), list(names)
    while left:
        name = left.pop()
        if name in below and name not in found:
            found.add(name)
            left += below[name]
    return [line for line in lines if line.split(":")[0] in found]


def build(folder, name, uses, program, invariants=None, answers=None):
    """Makes a program that uses these crates, from copies of them and of what their checks kept, with the invariants of its
    functions' loops and the answers to their goals, and gives its path."""
    lines = [line for line in (TOP / "crates.txt").read_text().splitlines() if line and not line.startswith("#")]
    lines = stands_on(lines, uses)
    (folder / "crates.txt").write_text("\n".join(lines + [f"{name}: {' '.join(uses)}"]) + "\n")
    shutil.copy(TOP / "HANDLES", folder)
    for crate in [line.split(":")[0] for line in lines]:
        for part in ["src", "specs", "proofs", "out"]:
            if (TOP / "crates" / crate / part).exists():
                shutil.copytree(TOP / "crates" / crate / part, folder / "crates" / crate / part)
    crate = folder / "crates" / name
    (crate / "src").mkdir(parents=True)
    (crate / "src/main.rt").write_text(program.lstrip())
    for file, texts in [("Invariants.antt", invariants), ("Answers.antt", answers)]:
        for function, text in (texts or {}).items():
            (crate / "proofs" / function).mkdir(parents=True, exist_ok=True)
            (crate / "proofs" / function / file).write_text(text.lstrip())
    made = subprocess.run(["rt", "run"], cwd=crate, stdin=subprocess.DEVNULL, capture_output=True, text=True)
    path = crate / "out" / name
    if not path.exists():
        sys.exit(made.stdout + made.stderr)
    return path


def best_of(program, *words):
    """The seconds of the best of some runs, and what the program prints."""
    best, said = None, ""
    for _ in range(RUNS):
        begin = time.perf_counter()
        said = subprocess.run([program, *map(str, words)], capture_output=True, text=True, check=True).stdout
        took = time.perf_counter() - begin
        best = took if best is None else min(best, took)
    return best, said


def processor_seconds(program, size, times):
    """What a processor spends on a run that does its work so many times at a size, and prints how often it was done."""
    before = resource.getrusage(resource.RUSAGE_CHILDREN)
    said = subprocess.run([program, str(size), str(times)], capture_output=True, text=True, check=True).stdout
    now = resource.getrusage(resource.RUSAGE_CHILDREN)
    if said.strip() != str(times):
        sys.exit(f"size {size}: {said}")
    return now.ru_utime + now.ru_stime - before.ru_utime - before.ru_stime


def best_of_rounds(program, sizes, work):
    """For each size the seconds of doing the work once, by the best of many short runs, the sizes in turn: other work on
    the machine slows some of them."""
    best = {}
    for _ in range(ROUNDS):
        for size in sizes:
            for times in [0, work // size]:
                best[size, times] = min(processor_seconds(program, size, times), best.get((size, times), float("inf")))
    return [(best[size, work // size] - best[size, 0]) / (work // size) for size in sizes]


def print_ratios(program, what, sizes, work, most):
    """Prints the microseconds at each size, and whether each ratio to the former size is within its limit."""
    print(f"{what:>8} {'microseconds':>13} {'ratio':>6}")
    former, good = None, True
    for size, each in zip(sizes, best_of_rounds(program, sizes, work)):
        ratio = "" if former is None else f"{each / former:.2f}"
        good = good and (former is None or each / former <= most)
        print(f"{size:>8} {each * 1e6:>13.1f} {ratio:>6}")
        former = each
    return good
