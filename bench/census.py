"""What a schema says, worked out from its file anew: cells, classes of queries, and the groups of each level."""
import fractions
import itertools
import math
import tomllib


class Query:
    """A query: its name, its weight, and its classes, each a list of cells and named by its first one."""

    def __init__(self, name, weight, classes):
        self.name, self.weight, self.classes = name, weight, classes


class Level:
    """A level: its queries, and its groups of cells, each with the next larger one and the kind it is."""

    def __init__(self, name, queries, kinds, possible):
        self.name, self.queries = name, queries
        sets = {tuple(possible), *map(tuple, kinds), *(tuple(cells) for query in queries for cells in query.classes)}
        self.groups = sorted(sets, key=lambda cells: (cells[0], -len(cells)))
        number = {cells: group for group, cells in enumerate(self.groups)}
        self.smallest, self.larger = {}, [None] * len(self.groups)
        for cells in sorted(self.groups, key=len, reverse=True):
            self.larger[number[cells]] = self.smallest.get(cells[0])
            self.smallest.update(dict.fromkeys(cells, number[cells]))
        self.kind_groups = [number[tuple(kind)] for kind in kinds]
        self.class_groups = [[number[tuple(cells)] for cells in query.classes] for query in queries]


class Schema:
    """A schema: how many cells there are, which are possible, those of each kind, and the levels."""

    def __init__(self, path):
        document = tomllib.loads(path.read_text())
        names = [attribute["name"] for attribute in document["attribute"]]
        values = [attribute["values"] for attribute in document["attribute"]]
        recodes = {recode["name"]: recode for recode in document.get("recode", [])}
        rows = list(itertools.product(*values))

        def is_possible(row):
            zeros = document.get("zero", [])
            return not any(all(row[names.index(key)] in listed for key, listed in zero.items()) for zero in zeros)

        def label(row, entry):
            if entry in names:
                return row[names.index(entry)]
            place = names.index(recodes[entry]["of"])
            return recodes[entry]["map"][values[place].index(row[place])]

        self.cells = len(rows)
        self.possible = [cell for cell, row in enumerate(rows) if is_possible(row)]
        self.kind_names = values[0]
        self.kinds = [[cell for cell in self.possible if rows[cell][0] == kind] for kind in values[0]]
        listed = [query for level in document["level"] for query in level.get("query", [])]
        unit = math.lcm(*(fractions.Fraction(query["share"]).denominator for query in listed))
        self.levels = []
        for level in document["level"]:
            queries = []
            for query in level.get("query", []):
                classes = {}
                for cell in self.possible:
                    classes.setdefault(tuple(label(rows[cell], entry) for entry in query["by"]), []).append(cell)
                weight = int(fractions.Fraction(query["share"]) * unit)
                queries.append(Query(query["name"], weight, sorted(classes.values())))
            self.levels.append(Level(level["name"], queries, self.kinds, self.possible))
