#!/usr/bin/env python3
"""Makes a land to look at: a schema, a spine, facilities and the records of some thousand persons, the same ones each time.

Usage: examples/land.py FOLDER
It writes schema.toml, spine.csv, facilities.csv and records.csv into the folder. Nobody in them is real.
"""
import csv
import os
import random
import sys

SCHEMA = """version = 1
total = "1"

[[attribute]]
name = "quarters"
values = ["home", "care"]

[[attribute]]
name = "age"
values = ["0-17", "18-64", "65+"]

[[attribute]]
name = "sex"
values = ["female", "male"]

# Nobody below 18 lives in care.
[[zero]]
quarters = ["care"]
age = ["0-17"]

[[level]]
name = "land"
query = [
  { name = "age", by = ["quarters", "age"], share = "1/16" },
  { name = "detail", by = ["quarters", "age", "sex"], share = "1/16" },
]

[[level]]
name = "region"
query = [
  { name = "age", by = ["quarters", "age"], share = "1/16" },
  { name = "detail", by = ["quarters", "age", "sex"], share = "1/16" },
]

[[level]]
name = "town"
query = [
  { name = "age", by = ["quarters", "age"], share = "1/8" },
  { name = "detail", by = ["quarters", "age", "sex"], share = "1/8" },
]

[[level]]
name = "street"
query = [
  { name = "persons", by = [], share = "1/4" },
  { name = "detail", by = ["quarters", "age", "sex"], share = "1/4" },
]
"""
REGIONS, TOWNS, STREETS = 3, 4, 8


def spine():
    """The rows of units, each after its parent."""
    yield "LAND", "land", ""
    for region in range(REGIONS):
        yield f"R{region}", "region", "LAND"
        for town in range(TOWNS):
            yield f"R{region}T{town}", "town", f"R{region}"
            for street in range(STREETS):
                yield f"R{region}T{town}S{street}", "street", f"R{region}T{town}"


def persons_of(street, has_care):
    """The persons of a street: a few streets are long, most are short, and some are empty."""
    for _ in range(random.choice([0, 3, 8, 15, 15, 30, 60, 120])):
        yield street, "home", random.choices(["0-17", "18-64", "65+"], [3, 9, 2])[0], random.choice(["female", "male"])
    for _ in range(has_care * random.randint(1, 40)):
        yield street, "care", random.choices(["18-64", "65+"], [1, 6])[0], random.choice(["female", "female", "male"])


def write(folder, name, header, rows):
    with open(os.path.join(folder, name), "w", encoding="utf-8", newline="") as file:
        csv.writer(file, lineterminator="\n").writerows([header, *rows])


def main():
    if len(sys.argv) != 2:
        sys.exit(__doc__)
    folder = sys.argv[1]
    random.seed(1)
    units = list(spine())
    streets = [unit for unit, level, _ in units if level == "street"]
    caring = [street for street in streets if random.random() < 0.15]
    write(folder, "spine.csv", ["unit", "level", "parent"], units)
    write(folder, "facilities.csv", ["block", "kind", "count"], [[street, "care", 1] for street in caring])
    people = [person for street in streets for person in persons_of(street, street in caring)]
    write(folder, "records.csv", ["block", "quarters", "age", "sex"], people)
    with open(os.path.join(folder, "schema.toml"), "w", encoding="utf-8") as file:
        file.write(SCHEMA)


if __name__ == "__main__":
    main()
