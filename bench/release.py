"""Files of releases over three levels, and what a run over files takes."""
import os
import random
import subprocess

LEVELS = ["nation", "state", "block"]


def quoted(texts):
    return "[" + ", ".join(f'"{text}"' for text in texts) + "]"


def write_schema(folder, attributes, queries=()):
    """A schema with these attributes, and at each level these queries: a name, what it counts by, and a share."""
    text = ['version = 1\ntotal = "1"\n']
    for name, values in attributes.items():
        text.append(f'[[attribute]]\nname = "{name}"\nvalues = {quoted(values)}\n')
    listed = ", ".join(f'{{ name = "{name}", by = {quoted(by)}, share = "{share}" }}' for name, by, share in queries)
    for level in LEVELS:
        text.append(f'[[level]]\nname = "{level}"\nquery = [{listed}]\n')
    (folder / "schema.toml").write_text("\n".join(text))


def write_spine(folder, states, blocks):
    """A spine of so many states with so many blocks each, and how many units it has."""
    with open(folder / "spine.csv", "w") as file:
        file.write("unit,level,parent\nUS,nation,\n")
        for state in range(states):
            file.write(f"S{state},state,US\n")
            file.writelines(f"S{state}B{block},block,S{state}\n" for block in range(blocks))
    return 1 + states * (1 + blocks)


def write_records(folder, attributes, states, blocks, count):
    """So many records of random blocks and values, and how many bytes they are."""
    draw = random.Random(count)
    path = folder / "records.csv"
    with open(path, "w") as file:
        file.write(",".join(["block", *attributes]) + "\n")
        for _ in range(count):
            block = f"S{draw.randrange(states)}B{draw.randrange(blocks)}"
            file.write(",".join([block, *(draw.choice(values) for values in attributes.values())]) + "\n")
    return path.stat().st_size


def run(words):
    """The processor's seconds, the peak memory in bytes, the status and the output of one run. The peak is at least what
    this process has itself, so files are written line by line."""
    child = subprocess.Popen([str(word) for word in words], stdout=subprocess.PIPE, text=True)
    said = child.stdout.read().strip()
    _, status, usage = os.wait4(child.pid, 0)
    child.returncode = os.waitstatus_to_exitcode(status)
    return usage.ru_utime + usage.ru_stime, usage.ru_maxrss * 1024, child.returncode, said
