#!/usr/bin/env python3
"""Shows what a release is worth: how far its tables are from the true counts of the records.

For each level and query it prints how many classes of units there are, the mean absolute error, the greatest error, and the
share of counts that are exact. With --svg it draws the mean errors as bars.
Usage: examples/accuracy.py --schema FILE --spine FILE --records FILE --tables FILE [--svg FILE]
Only an office that has the records can run it, and what it prints is not protected by any noise: don't publish it.
"""
import argparse
import collections
import csv
import itertools
import tomllib


class Schema:
    """The parts of a schema that count: attributes, labels of recodes, possible cells, queries by level."""

    def __init__(self, text):
        document = tomllib.loads(text)
        self.names = [it["name"] for it in document["attribute"]]
        self.values = [it["values"] for it in document["attribute"]]
        self.recodes = {it["name"]: (self.names.index(it["of"]), it["map"]) for it in document.get("recode", [])}
        self.levels = [it["name"] for it in document["level"]]
        self.queries = [it.get("query", []) for it in document["level"]]
        self.cells = list(itertools.product(*self.values))
        zeros = document.get("zero", [])
        self.possible = [number for number, cell in enumerate(self.cells) if not any(self.matches(row, cell) for row in zeros)]

    def matches(self, row, cell):
        return all(cell[self.names.index(name)] in listed for name, listed in row.items())

    def label(self, entry, cell):
        """The value of an attribute, or the label of a recode."""
        if entry in self.recodes:
            of, labels = self.recodes[entry]
            return labels[self.values[of].index(cell[of])]
        return cell[self.names.index(entry)]

    def classes(self, query):
        """The cells of each class, in the order of their first cells."""
        found = {}
        for number in self.possible:
            key = tuple(self.label(entry, self.cells[number]) for entry in query["by"])
            found.setdefault(key, []).append(number)
        return list(found.values())


def rows_of(path):
    with open(path, encoding="utf-8-sig", newline="") as file:
        return list(csv.reader(file))[1:]


def true_tables(schema, spine, records):
    """Counts by unit and cell: each record counts at its block and at each unit above it."""
    parents = {unit: parent for unit, _, parent in spine}
    numbers = {cell: number for number, cell in enumerate(schema.cells)}
    counts = collections.defaultdict(int)
    for block, *values in records:
        cell, unit = numbers[tuple(values)], block
        while unit:
            counts[unit, cell] += 1
            unit = parents[unit]
    return counts


def errors_by_query(schema, spine, true, written):
    """For each level and query its name and the errors at all classes of all units of the level."""
    for level, queries in zip(schema.levels, schema.queries):
        units = [unit for unit, its_level, _ in spine if its_level == level]
        for query in queries:
            classes = schema.classes(query)
            yield level, query["name"], [
                abs(sum(written[unit, cell] for cell in cells) - sum(true[unit, cell] for cell in cells)) for unit in units for cells in classes
            ]


def bars(rows):
    """An SVG picture: one bar for each level and query, as long as its mean absolute error."""
    most = max((mean for _, mean in rows), default=0) or 1
    parts = [f'<svg xmlns="http://www.w3.org/2000/svg" width="640" height="{28 * len(rows) + 40}" font-family="sans-serif" font-size="13">']
    parts.append('<text x="10" y="20">Mean absolute error of written counts, in persons</text>')
    for number, (name, mean) in enumerate(rows):
        y = 34 + 28 * number
        parts.append(f'<text x="190" y="{y + 15}" text-anchor="end">{name}</text>')
        parts.append(f'<rect x="200" y="{y}" width="{360 * mean / most:.1f}" height="20" fill="#4477aa"/>')
        parts.append(f'<text x="{206 + 360 * mean / most:.1f}" y="{y + 15}">{mean:.2f}</text>')
    return "\n".join(parts + ["</svg>", ""])


def main():
    parser = argparse.ArgumentParser(description=__doc__.splitlines()[0])
    for name in ("schema", "spine", "records", "tables"):
        parser.add_argument(f"--{name}", required=True)
    parser.add_argument("--svg")
    words = parser.parse_args()
    with open(words.schema, encoding="utf-8") as file:
        schema = Schema(file.read())
    spine = rows_of(words.spine)
    true = true_tables(schema, spine, rows_of(words.records))
    written = collections.defaultdict(int)
    for unit, cell, count in rows_of(words.tables):
        written[unit, int(cell)] = int(count)
    print(f"{'level':12} {'query':12} {'counts':>8} {'mean':>8} {'greatest':>8} {'exact':>7}")
    drawn = []
    for level, name, errors in errors_by_query(schema, spine, true, written):
        mean = sum(errors) / max(len(errors), 1)
        exact = sum(error == 0 for error in errors) / max(len(errors), 1)
        print(f"{level:12} {name:12} {len(errors):8} {mean:8.2f} {max(errors, default=0):8} {exact:7.1%}")
        drawn.append((f"{level}, {name}", mean))
    if words.svg:
        with open(words.svg, "w", encoding="utf-8") as file:
            file.write(bars(drawn))


if __name__ == "__main__":
    main()
