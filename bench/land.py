#!/usr/bin/env python3
"""Writes a land as `tda fit` reads it: schema, spine, facilities, totals, and measurements with rounded Gaussian noise.

Units have children in skewed numbers, and blocks have persons in skewed numbers. What persons are differs from state
to state, county to county and tract to tract. Some blocks hold a dormitory or a prison.
Usage: bench/land.py NAME FOLDER [PARTS]   (NAME: narrow, tall, wide or large; with PARTS each level below the nation
has so many times fewer units)
"""
import collections
import dataclasses
import fractions
import itertools
import math
import pathlib
import random
import sys

from census import Schema
from release import quoted

PERSONS_AWAY = 0.04


@dataclasses.dataclass
class Land:
    """A schema, how many units each level has, the mean number of persons in a block, and the most nodes of one fit."""

    attributes: dict
    recodes: list
    zeros: list
    total: str
    levels: dict
    sizes: list
    persons: int
    nodes: int = 2048


def queries(*rows):
    """Queries from words as `total: = 1/8` or `ages: kind age = 1/4`."""
    listed = []
    for row in rows:
        name, rest = row.split(":")
        by, share = rest.split("=")
        listed.append((name, by.split(), share.strip()))
    return listed


NARROW = {
    "attributes": {"kind": ["house", "dorm", "prison"], "sex": ["f", "m"], "age": ["minor", "adult"]},
    "recodes": [],
    "zeros": [{"kind": ["prison"], "age": ["minor"]}],
    "total": "1",
    "levels": {
        "nation": queries("kind: kind = 1/16", "detail: kind sex age = 1/16"),
        "state": queries("kind: kind = 1/16", "detail: kind sex age = 1/16"),
        "county": queries("total: = 1/16", "kindage: kind age = 1/16"),
        "tract": queries("total: = 1/8", "detail: kind sex age = 1/8"),
        "block": queries("total: = 1/8", "detail: kind sex age = 1/4"),
    },
}
LARGE = {
    "attributes": {"kind": ["house", "dorm", "prison"], "sex": ["f", "m"], "age": ["a00", "a18", "a25", "a45", "a65"]},
    "recodes": [("voting", "age", ["minor", "adult", "adult", "adult", "adult"])],
    "zeros": [{"kind": ["dorm", "prison"], "age": ["a00"]}, {"kind": ["dorm"], "age": ["a65"]}],
    "total": "2",
    "levels": {
        "nation": queries("kind: kind = 1/16", "detail: kind sex age = 1/16"),
        "state": queries("kind: kind = 1/16", "detail: kind sex age = 1/16"),
        "county": queries("total: = 1/16", "vote: kind voting = 1/16", "detail: kind sex age = 1/8"),
        "tract": queries("total: = 1/8", "ages: kind age = 1/8"),
        "block": queries("total: = 1/8", "ages: kind age = 1/4"),
    },
}
FULL = "kind age sex hispanic race citizen"
VOTES = "kind voting hispanic race"
MIDDLE = queries("total: = 1/8", f"votes: {VOTES} = 1/8", f"detail: {FULL} = 1/8")
WIDE = {
    "attributes": {
        "kind": ["house", "dorm", "prison"],
        "age": ["a00", "a18", "a40", "a65"],
        "sex": ["f", "m"],
        "hispanic": ["no", "yes"],
        "race": ["white", "black", "other"],
        "citizen": ["yes", "no"],
    },
    "recodes": [("voting", "age", ["minor", "adult", "adult", "adult"])],
    "zeros": [{"kind": ["prison", "dorm"], "age": ["a00"]}, {"kind": ["dorm"], "age": ["a65"]}],
    "total": "4",
    "levels": {
        "nation": queries("total: = 1/32", f"votes: {VOTES} = 1/32", f"detail: {FULL} = 1/8"),
        "state": queries("kind: kind = 1/16", f"votes: {VOTES} = 1/16", f"detail: {FULL} = 1/8"),
        "county": queries("total: = 1/16", f"votes: {VOTES} = 1/8", f"detail: {FULL} = 1/8"),
        "tract": MIDDLE,
        "block": queries("total: = 1/4", "vote: kind voting = 1/8", f"votes: {VOTES} = 1/8", f"detail: {FULL} = 1/16"),
    },
}
LEVELS = WIDE["levels"]
TALL = {**WIDE, "levels": {**{name: LEVELS[name] for name in ["nation", "state", "county", "tract"]},
                           "group": MIDDLE, "block": LEVELS["block"]}}
LANDS = {
    "narrow": Land(**NARROW, sizes=[1, 6, 48, 482, 4_463], persons=50),
    "tall": Land(**TALL, sizes=[1, 5, 30, 180, 784, 4_000], persons=50),
    "wide": Land(**WIDE, sizes=[1, 4, 32, 288, 4_675], persons=50, nodes=65_536),
    "large": Land(**LARGE, sizes=[1, 24, 700, 8_275, 122_072], persons=40),
}


def write_schema(land, path):
    text = [f'version = 1\ntotal = "{land.total}"\n']
    for name, values in land.attributes.items():
        text.append(f'[[attribute]]\nname = "{name}"\nvalues = {quoted(values)}\n')
    for name, of, labels in land.recodes:
        text.append(f'[[recode]]\nname = "{name}"\nof = "{of}"\nmap = {quoted(labels)}\n')
    for zero in land.zeros:
        text.append("\n".join(["[[zero]]", *(f"{key} = {quoted(values)}" for key, values in zero.items()), ""]))
    for name, listed in land.levels.items():
        row = ", ".join(f'{{ name = "{query}", by = {quoted(by)}, share = "{share}" }}' for query, by, share in listed)
        text.append(f'[[level]]\nname = "{name}"\nquery = [{row}]\n')
    path.write_text("\n".join(text))


class Spine:
    """The units in preorder: their codes, levels and parents (None for the nation)."""

    def __init__(self, land, schema, draw):
        self.codes, self.levels, self.parents = [], [], []
        counts = [iter(row) for row in children_counts(land, schema, draw)]
        left = [(0, "US", None)]
        while left:
            level, code, parent = left.pop()
            unit = len(self.codes)
            self.codes.append(code)
            self.levels.append(level)
            self.parents.append(parent)
            if level < len(counts):
                start = f"{code}." if level else ""
                left += [(level + 1, f"{start}{child}", unit) for child in range(next(counts[level]), 0, -1)]


def children_counts(land, schema, draw):
    """For each level but the last, how many children each of its units has."""
    plan = []
    for level, (parents, children) in enumerate(itertools.pairwise(land.sizes)):
        most = (land.nodes - 1 - len(schema.possible)) // len(schema.levels[level + 1].groups)
        mean = math.log(children / parents) - 0.32
        row = [min(most, max(1, round(draw.lognormvariate(mean, 0.8)))) for _ in range(parents)]
        fill(row, children, most, draw)
        plan.append(row)
    return plan


def fill(row, wanted, most, draw):
    """Changes the counts one by one until they add up to what is wanted."""
    if not len(row) <= wanted <= most * len(row):
        sys.exit("so many units don't fit")
    while (left := wanted - sum(row)) != 0:
        for place in draw.sample(range(len(row)), min(len(row), abs(left))):
            row[place] = min(most, max(1, row[place] + (1 if left > 0 else -1)))


def first_mix(schema, draw):
    """How often the nation's persons are of each possible cell."""
    mix = {cell: draw.gammavariate(0.6, 1) for cell in schema.possible}
    for number, kind in enumerate(schema.kinds):
        scale = (PERSONS_AWAY if number else 1) / sum(mix[cell] for cell in kind)
        mix.update((cell, mix[cell] * scale) for cell in kind)
    return mix


def changed(mix, likeness, draw):
    """A mix near another one: the nearer, the greater the likeness."""
    scale = likeness * len(mix) / 10 / sum(mix.values())
    return {cell: draw.gammavariate(max(share * scale, 0.02), 1) for cell, share in mix.items()}


def people(spine, schema, mean, draw):
    """The table of each unit, and the facilities: block, kind's number, how many."""
    tables = [collections.Counter() for _ in spine.codes]
    depth = len(schema.levels) - 1
    mixes, choices, facilities = {0: first_mix(schema, draw)}, {}, []
    for unit, level in enumerate(spine.levels):
        parent = spine.parents[unit]
        if 0 < level < depth:
            mixes[unit] = changed(mixes[parent], 50 - 10 * min(level, 3), draw)
        if level < depth:
            continue
        if parent not in choices:
            choices = {parent: [weights_of(mixes[parent], kind) for kind in schema.kinds]}
        persons = [int(draw.lognormvariate(math.log(mean) - 0.5, 1)) if draw.random() > 0.15 else 0]
        for kind in range(1, len(schema.kinds)):
            count = draw.choice([1, 2]) if draw.random() < 0.03 else 0
            persons.append(count and count + int(draw.lognormvariate(3, 1)))
            if count:
                facilities.append((unit, kind, count))
        for (cells, sums), count in zip(choices[parent], persons):
            tables[unit].update(draw.choices(cells, cum_weights=sums, k=count))
    for unit in range(len(tables) - 1, 0, -1):
        tables[spine.parents[unit]].update(tables[unit])
    return tables, facilities


def weights_of(mix, cells):
    return cells, list(itertools.accumulate(mix[cell] + 1e-9 for cell in cells))


def write_rows(path, head, rows):
    with open(path, "w") as file:
        file.write(head + "\n")
        file.writelines(",".join(map(str, row)) + "\n" for row in rows)


def measurement_rows(land, schema, spine, tables, draw):
    """The rows of all places: by level, unit, query and class."""
    for number, level in enumerate(schema.levels):
        noises = [float(fractions.Fraction(share)) ** -0.5 for _, _, share in land.levels[level.name]]
        for unit in (unit for unit, own in enumerate(spine.levels) if own == number):
            for query, noise in zip(level.queries, noises):
                for cells in query.classes:
                    value = sum(tables[unit][cell] for cell in cells) + round(draw.gauss(0, noise))
                    yield spine.codes[unit], query.name, cells[0], value


def write_land(name, folder, parts=1):
    """Writes the files of a land, or of one with so many times fewer units."""
    land, draw = LANDS[name], random.Random(name)
    land = dataclasses.replace(land, sizes=[1, *(size // parts for size in land.sizes[1:])])
    write_schema(land, folder / "schema.toml")
    schema = Schema(folder / "schema.toml")
    spine = Spine(land, schema, draw)
    tables, facilities = people(spine, schema, land.persons, draw)
    names = list(land.levels)
    parents = ["" if parent is None else spine.codes[parent] for parent in spine.parents]
    levels = (names[level] for level in spine.levels)
    write_rows(folder / "spine.csv", "unit,level,parent", zip(spine.codes, levels, parents))
    rows = ((spine.codes[unit], schema.kind_names[kind], count) for unit, kind, count in facilities)
    write_rows(folder / "facilities.csv", "block,kind,count", rows)
    states = [unit for unit, level in enumerate(spine.levels) if level == 1]
    write_rows(folder / "totals.csv", "state,total", ((spine.codes[unit], tables[unit].total()) for unit in states))
    rows = measurement_rows(land, schema, spine, tables, draw)
    write_rows(folder / "measurements.csv", "unit,query,class,value", rows)


def main():
    if len(sys.argv) < 3 or sys.argv[1] not in LANDS:
        sys.exit(__doc__)
    folder = pathlib.Path(sys.argv[2])
    folder.mkdir(parents=True, exist_ok=True)
    write_land(sys.argv[1], folder, *map(int, sys.argv[3:4]))


if __name__ == "__main__":
    main()
