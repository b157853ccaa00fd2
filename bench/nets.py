#!/usr/bin/env python3
"""Times the making of the nets of all fits, over spines of growing size, with nothing solved.

The spines have five levels, about 100, 1,000 and 10,000 fits, and eight blocks in each tract.  Everybody is of one kind,
and nobody lives anywhere: each unit's table is one of zeros, which has as many arcs as any other.  A program that is made,
proved and built in a temporary folder outside the repository makes all nets again and again, with the tree of groups made
once for each level.  Prints for each spine the fits, the arcs in all, the milliseconds of all nets, the nanoseconds of one
arc, and the ratio to the former spine, which is at most 12 for ten times the fits.  Usage: bench/nets.py
"""
import pathlib
import random
import sys
import tempfile

import release
from fit import LEVELS, write_spine
from made import build

# How many units each level has: ten times the fits have ten times the units, and so about ten times the arcs.
SPINES = [[1, 3, 16, 80, 640], [1, 10, 189, 800, 6_400], [1, 30, 1_969, 8_000, 64_000]]
AGES = 4
FITS_IN_ALL = 40_000
ROUNDS = 25
MOST_RATIO = 12
USES = ["tda_fitnet", "tda_flow", "tda_places", "tda_groups", "tda_invar", "tda_spine", "tda_schema", "tda_model", "tda_io"]

PROGRAM = r'''
//! Makes the nets of all fits again and again, for tables of zeros.
//! Words: how many times, and the files of a schema with one kind, a spine, facilities without a row, and measurements.
//! It prints how many arcs there were in all.
#![tactic(auto)]

ghost use Rattle.std.specs.Prelude.{◌≡◌, ◌+◌, ◌<◌, ◌≤◌, ◌^◌, length, replicate};
ghost use Rattle.tda_model.specs.Cells.{cell_count};
ghost use Rattle.tda_model.specs.Groups.{kind_count};
ghost use Rattle.tda_model.specs.Spine.{level_of, units_at};
ghost use Rattle.tda_schema.specs.Stated.{level_at};
ghost use Rattle.tda_spine.specs.Judged.{IsWithinLimits};
ghost use Rattle.tda_spine.specs.Sound.{IsInner};
ghost use Rattle.tda_invar.specs.Known.{IsJoined};
ghost use Rattle.tda_places.specs.Measurements.{AreMeasurementsOf};
ghost use Rattle.tda_groups.specs.Tree.{IsTreeOf};

use std::alloc::Global;
use std::{env, io};
use tda_fitnet::{root_net, split_net};
use tda_groups::{GroupTree, tree};
use tda_invar::{Invariants, Totals, join, read_facilities};
use tda_io::{DirInbox, Inbox, NoMemory};
use tda_places::{Measurements, read_measurements};
use tda_schema::{Schema, read_schema};
use tda_spine::{Spine, read_spine};

const LIMIT: usize = 1 << 28;

// The arcs of a unit's split. Its table is one of zeros.
fn split_arcs(
    alloc: Global,
    schema: &Schema,
    tree: &GroupTree,
    spine: &Spine,
    inv: &Invariants,
    m: &Measurements,
    parent: u32,
    table: &[u64],
) -> Result<u64, NoMemory>
    requires belong { IsWithinLimits schema.now spine.now }
    requires joined { IsJoined schema.now spine.now inv.now }
    requires measured { AreMeasurementsOf schema.now spine.now m.now }
    requires parent { IsInner spine.now parent }
    requires tree { IsTreeOf schema.now (level_at schema.now (level_of spine.now parent + 1)) tree.now }
    requires kinds { kind_count schema.now ≡ 1 }
    requires totals { inv.now.totals ≡ replicate (length (units_at spine.now 1)) 0 }
    requires table { table.now ≡ replicate (cell_count schema.now) 0 }
{
    let fit = split_net(alloc, schema, tree, spine, inv, m, parent, table)?;
    Ok(fit.net().arcs() as u64)
}

// The arcs of the splits of all units of a level. The tree is that of the next level.
fn level_arcs(
    alloc: Global,
    schema: &Schema,
    tree: &GroupTree,
    spine: &Spine,
    inv: &Invariants,
    m: &Measurements,
    level: usize,
    table: &[u64],
) -> Result<u64, NoMemory>
    requires belong { IsWithinLimits schema.now spine.now }
    requires joined { IsJoined schema.now spine.now inv.now }
    requires measured { AreMeasurementsOf schema.now spine.now m.now }
    requires level { level + 1 < spine.now.depth }
    requires tree { IsTreeOf schema.now (level_at schema.now (level + 1)) tree.now }
    requires kinds { kind_count schema.now ≡ 1 }
    requires totals { inv.now.totals ≡ replicate (length (units_at spine.now 1)) 0 }
    requires table { table.now ≡ replicate (cell_count schema.now) 0 }
{
    let mut arcs = 0u64;
    for parent in spine.at_level(level) {
        let parent = *parent;
        if parent < spine.units() && spine.level(parent) == level {
            let more = split_arcs(alloc, schema, tree, spine, inv, m, parent, table)?;
            arcs = arcs.wrapping_add(more);
        }
    }
    Ok(arcs)
}

// The arcs of all fits.
fn all_arcs(
    alloc: Global,
    schema: &Schema,
    spine: &Spine,
    inv: &Invariants,
    m: &Measurements,
) -> Result<u64, NoMemory>
    requires belong { IsWithinLimits schema.now spine.now }
    requires joined { IsJoined schema.now spine.now inv.now }
    requires measured { AreMeasurementsOf schema.now spine.now m.now }
    requires kinds { kind_count schema.now ≡ 1 }
    requires totals { inv.now.totals ≡ replicate (length (units_at spine.now 1)) 0 }
{
    if schema.levels() == 0 {
        return Ok(0);
    }
    let first = tree(alloc, schema, 0)?;
    let fit = root_net(alloc, schema, &first, spine, inv, m)?;
    let mut arcs = fit.net().arcs() as u64;
    let table = vec![in alloc; 0u64; schema.cells() as usize]?;
    for level in 0..schema.levels() {
        if level + 1 < schema.levels() {
            let next = tree(alloc, schema, level + 1)?;
            let more = level_arcs(alloc, schema, &next, spine, inv, m, level, &table)?;
            arcs = arcs.wrapping_add(more);
        }
    }
    Ok(arcs)
}

// So many times.
fn repeated(
    alloc: Global,
    schema: &Schema,
    spine: &Spine,
    facilities: &[u8],
    measurements: &[u8],
    times: u32,
) -> Result<u64, NoMemory>
    requires belong { IsWithinLimits schema.now spine.now }
    requires facilities { length facilities.now ≤ 2 ^ 28 }
    requires measurements { length measurements.now ≤ 2 ^ 28 }
{
    let Ok(facilities) = read_facilities(alloc, schema, spine, facilities) else {
        return Ok(0);
    };
    // There is a level of states.
    let _ = spine.units();
    let totals = vec![in alloc; 0u64; spine.at_level(1).len()]?;
    let totals = Totals::from_list(spine, totals);
    let Ok(inv) = join(alloc, schema, spine, facilities, totals) else {
        return Ok(0);
    };
    let Ok(m) = read_measurements(alloc, schema, spine, measurements) else {
        return Ok(0);
    };
    if schema.kinds() != 1 {
        return Ok(0);
    }
    let mut arcs = 0u64;
    for _ in 0..times {
        arcs = arcs.wrapping_add(all_arcs(alloc, schema, spine, &inv, &m)?);
    }
    Ok(arcs)
}

fn counted(
    alloc: Global,
    schema: &[u8],
    spine: &[u8],
    facilities: &[u8],
    measurements: &[u8],
    times: u32,
) -> Result<u64, NoMemory> {
    if schema.len() > LIMIT
        || spine.len() > LIMIT
        || facilities.len() > LIMIT
        || measurements.len() > LIMIT
    {
        return Ok(0);
    }
    let Ok(schema) = read_schema(alloc, schema) else {
        return Ok(0);
    };
    let Ok(spine) = read_spine(alloc, &schema, spine) else {
        return Ok(0);
    };
    repeated(alloc, &schema, &spine, facilities, measurements, times)
}

fn main(rt: HostRuntime) -> io::Result<()> {
    let alloc = rt.alloc();
    let mut words = Vec::new(alloc);
    for word in env::args(&rt)?.skip(1) {
        words.push(word)?;
    }
    let [times, paths @ ..] = words.as_slice() else {
        return println!(rt; "no words");
    };
    let mut files = Vec::new(alloc);
    for path in paths {
        let mut inbox = DirInbox::new(&rt);
        let Ok(file) = inbox.read(alloc, path.as_str(), LIMIT) else {
            return println!(rt; "no file");
        };
        files.push(file)?;
    }
    let [schema, spine, facilities, measurements] = files.as_slice() else {
        return println!(rt; "no files");
    };
    let times = times.parse::<u32>().unwrap_or(0);
    match counted(alloc, schema, spine, facilities, measurements, times) {
        Ok(arcs) => println!(rt; "{arcs}"),
        Err(_) => println!(rt; "out of memory"),
    }
}
'''
# Nobody anywhere is a table that each unit can have, where there is one kind and no state has persons.
ANSWERS = {"split_arcs": r'''
use Rattle.std.proofs.Common.{◌≡◌, ℕ, ◌<◌, ◌≤◌, List, get_or, slice_index, replicate, length, sum_by, All, Option, Some, None, refl, sym, ap, ◌∙◌, inl, inr, arith}
use Rattle.std.proofs.Math.ListN.{get_or-eq_default}
use Rattle.std.proofs.lemmas.Bool.{cases_lt}
use Rattle.std.proofs.lemmas.List.{length-replicate, get_or-replicate}
use Rattle.std.proofs.lemmas.List.Elements.{All-from_get_or}
use Rattle.tda_model.proofs.Sums.{each_any, sum_same, sum_zero}
use Rattle.tda_model.specs.Schema.{Schema}
use Rattle.tda_model.specs.Cells.{all_cells}
use Rattle.tda_model.specs.Groups.{kind_count}
use Rattle.tda_model.specs.Spine.{Spine, blocks_of, states_of}
use Rattle.tda_model.specs.Tables.{Table, Published, FitsBlock, persons_in, Attainable}
use Rattle.tda_invar.specs.Known.{known_of}
use Rattle.tda_invar.specs.Totals.{total_of, state_place}
use Rattle.bench_nets.proofs.split_arcs.Goals as goal

zeros_at : (n i : ℕ) → slice_index (replicate n 0) i ≡ 0
zeros_at n i = elim (cases_lt i n) [
  | inl less ↦ get_or-replicate n i 0 0 less
  | inr more ↦ get_or-eq_default (replicate n 0) 0 (omega (arith, more, length-replicate {A = ℕ} n 0))
]

all_zero : (xs : List ℕ) (n : ℕ) → xs ≡ replicate n 0 → (i : ℕ) → slice_index xs i ≡ 0
all_zero xs n e i = ap (λ ys. slice_index ys i) e ∙ zeros_at n i

sum_none : (f : ℕ → ℕ) → ((x : ℕ) → f x ≡ 0) → (xs : List ℕ) → sum_by f xs ≡ 0
sum_none f none xs = sum_same f (λ x. 0) xs (each_any _ xs none) ∙ sum_zero xs

no_total : (sp : Spine) (totals : List ℕ) → ((i : ℕ) → slice_index totals i ≡ 0) → (u : ℕ) → total_of sp totals u ≡ 0
no_total sp totals none u = at_place (state_place sp u)
  where
    at_place : (place : Option ℕ) → elim place as (λ _. ℕ) [ Some k ↦ slice_index totals k | None ↦ 0 ] ≡ 0
    at_place None = refl
    at_place (Some k) = none k

empty_block : (s : Schema) (known : Published) (b : ℕ) → kind_count s ≡ 1 → FitsBlock s known b (λ j. 0)
empty_block s known b one = record {
  impossible = λ j less no. refl;
  enough = λ k positive less. omega (arith, positive, less, one);
  not_more = λ k positive less. omega (arith, positive, less, one);
}

can_be : (s : Schema) (sp : Spine) (known : Published) (u : ℕ) (x : Table) → kind_count s ≡ 1
    → ((st : ℕ) → known.total st ≡ 0) → ((j : ℕ) → x j ≡ 0) → Attainable s sp known u x
can_be s sp known u x one total none = (
  (λ b j. 0),
  record {
    fits = All-from_get_or (λ b. FitsBlock s known b (λ j. 0)) (blocks_of sp u) 0 (λ i less. empty_block s known _ one);
    adds = λ j less. none j ∙ sym (sum_zero (blocks_of sp u));
    totals = All-from_get_or (λ st. sum_by (λ b. persons_in s (λ j. 0)) (blocks_of sp st) ≡ known.total st) (states_of sp u) 0
        (λ i less. sum_none _ (λ b. sum_zero (all_cells s)) (blocks_of sp (get_or (states_of sp u) i 0)) ∙ sym (total _));
  },
)

pub split_net-requires-clause-can_be : goal.split_net-requires-clause-can_be
split_net-requires-clause-can_be g =
    let sp = g.args.spine.now in
    can_be g.args.schema.now sp (known_of sp g.args.inv.now) g.args.parent _ g.requires.kinds
    (no_total sp g.args.inv.now.totals (all_zero _ _ g.requires.totals)) (all_zero _ _ g.requires.table)

pub split_net-requires-clause-few : goal.split_net-requires-clause-few
split_net-requires-clause-few g =
    omega (arith, sum_none (slice_index g.args.table.now) (all_zero _ _ g.requires.table) (all_cells g.args.schema.now))
'''}


def write_files(folder, counts):
    """A schema of one kind with two queries at each level, a spine, no facilities, and measurements around 0."""
    folder.mkdir()
    ages = release.quoted([f"a{age}" for age in range(AGES)])
    text = ['version = 1\ntotal = "1"']
    for name, values in [("kind", '["house"]'), ("sex", '["f", "m"]'), ("age", ages)]:
        text.append(f'[[attribute]]\nname = "{name}"\nvalues = {values}')
    queries = '{ name = "total", by = [], share = "1/16" }, { name = "detail", by = ["sex", "age"], share = "1/8" }'
    text += [f'[[level]]\nname = "{level}"\nquery = [{queries}]' for level in LEVELS]
    (folder / "schema.toml").write_text("\n".join(text) + "\n")
    (folder / "facilities.csv").write_text("block,kind,count\n")
    write_spine(folder, counts)
    draw = random.Random(sum(counts))
    classes = [("total", 0), *(("detail", cell) for cell in range(2 * AGES))]
    with open(folder / "measurements.csv", "w") as file:
        file.write("unit,query,class,value\n")
        for level, count in enumerate(counts):
            for i in range(count):
                file.writelines(f"u{level}.{i},{query},{cell},{draw.randrange(-9, 10)}\n" for query, cell in classes)


def run(program, folder, times):
    """The processor's seconds of one run, and the arcs that it made."""
    files = ["schema.toml", "spine.csv", "facilities.csv", "measurements.csv"]
    seconds, _, status, said = release.run([program, times, *(folder / name for name in files)])
    if status != 0 or not said.isdigit() or (times > 0) != (said != "0"):
        sys.exit(f"{folder.name}, {times} times: status {status}, {said}")
    return seconds, int(said)


def measured(program, folders):
    """For each spine the seconds of making its nets once, and their arcs. By the best of some rounds, each of which goes
    through all spines, so that a time in which the machine is busy falls on each alike."""
    best, found = {}, {}
    for _ in range(ROUNDS):
        for fits, folder in folders.items():
            for times in [0, FITS_IN_ALL // fits]:
                seconds, arcs = run(program, folder, times)
                best[fits, times] = min(seconds, best.get((fits, times), seconds))
                found[fits] = (best[fits, times] - best[fits, 0]) / max(times, 1), arcs // max(times, 1)
    return found


def print_times(found):
    """Prints what the nets of each spine take, and whether their growth is within the limit."""
    print(f"{'fits':>8} {'arcs':>9} {'ms':>9} {'ns an arc':>10} {'ratio':>6}")
    former, good = None, True
    for fits, (seconds, arcs) in found.items():
        ratio = seconds / former if former else 0
        good = good and ratio <= MOST_RATIO
        print(f"{fits:>8} {arcs:>9} {seconds * 1e3:>9.2f} {seconds / arcs * 1e9:>10.1f} {ratio:>6.2f}")
        former = seconds
    return good


def main():
    with tempfile.TemporaryDirectory() as name:
        top = pathlib.Path(name)
        # The nation's fit, and one for each unit with children.
        folders = {1 + sum(counts[:-1]): top / f"spine_{sum(counts)}" for counts in SPINES}
        for counts, folder in zip(SPINES, folders.values()):
            write_files(folder, counts)
        program = build(top, "bench_nets", USES, PROGRAM, answers=ANSWERS)
        sys.exit(0 if print_times(measured(program, folders)) else 1)


if __name__ == "__main__":
    main()
