"""The page's module beside the program: random lists of step lines, which the peers of two sites make and give each other."""
import os
import random
import subprocess
import sys
import tempfile

import fuzz

SITES = 2
MOST_LINES = 300
FLAG = "--experimental-wasm-memory64"
LISTS = 200


def flags():
    """What Node has to be told for a memory of 64 bits, where it has to be."""
    known = subprocess.run(["node", FLAG, "-e", "0"], capture_output=True, check=False)
    return [FLAG] if known.returncode == 0 else []


def drawn(rng):
    """Lines: the steps of the two sites, and `give`, by which each gives the other what it issued."""
    lines = fuzz.Lines(rng, SITES)
    lines.names += [f"{stamp}.{site}" for stamp in range(1, 30) for site in range(SITES)]
    lines.versions = 20
    yield from ("0 admin adduser 1", "0 admin addauth 0 + all idu 0", "give")
    for _ in range(rng.randint(5, MOST_LINES)):
        yield line_of(rng, lines)


def line_of(rng, lines):
    site, draw = rng.randrange(SITES), rng.random()
    if draw < 0.55:
        return f"{site} edit {lines.edit()}"
    if draw < 0.75:
        return f"{site if rng.random() < 0.1 else 0} admin {lines.operation()}"
    if draw < 0.85:
        return "give"
    return f"{site} " + rng.choice(["show", "validatenext", f"look {rng.randrange(60)}"])


def compare_one(program, seed, node):
    given = "".join(line + "\n" for line in drawn(random.Random(f"module {seed}"))).encode()
    with tempfile.TemporaryDirectory() as folder:
        script = os.path.join(folder, "script")
        due = subprocess.run([*node, ".ci/page_steps.mjs", "replay", script], input=given, capture_output=True, check=False)
        if due.returncode != 0:
            sys.exit(f"checking: the module fails on list {seed}: {due.stderr[-500:].decode(errors='replace')}")
        with open(script, "rb") as lines:
            told = subprocess.run([program, "replay"], stdin=lines, capture_output=True, check=False)
    if told.returncode != 0 or told.stdout != due.stdout:
        pairs = zip(due.stdout.split(b"\n"), told.stdout.split(b"\n"))
        sys.exit(f"checking: the module and the program differ on list {seed}: {[it for it in pairs if it[0] != it[1]][:1]}")
    return given.count(b"\n")


def compare(program, part=0, count=LISTS):
    """Compares them on some lists of a part."""
    node = ["node", *flags()]
    lines = sum(compare_one(program, seed, node) for seed in range(part * count, (part + 1) * count))
    print(f"checking: the module and the program give the same on {count:,} random lists of {lines:,} lines")
