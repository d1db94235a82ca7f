"""Random inputs by kind, in parts whose results stay in a file, so that they may be gone on with.

A part has so many inputs of one kind, numbered on: part K has those from K times the count on. `script` and `stream` are those of fuzz.py. The
others are made by another program of the same words, whose folder is given; it reads them too, and says where the answers differ (others.py).
"""
import argparse
import os
import random
import sys
import time

import fuzz
import measuring
import others

OWN = {"script": fuzz.check_script, "stream": fuzz.check_stream}
OTHERS = ["replay", "lines", "feed", "make", "race", "watch", "certify", "audit", "keep"]
MOST_TOLD = 4000  # letters of a difference


def words(given, usage):
    parser = argparse.ArgumentParser(usage=usage)
    parser.add_argument("--program")
    parser.add_argument("--oracle")
    parser.add_argument("--kind", nargs="+", choices=[*OWN, *OTHERS])
    parser.add_argument("--part", type=int, default=0)
    parser.add_argument("--count", type=int, default=1000)
    parser.add_argument("--results", default="out/fuzzing.txt")
    return parser.parse_args(given)


def try_own(program, kind, first, count):
    """The first difference among some inputs of this repository's own, none where there is none."""
    for seed in range(first, first + count):
        try:
            OWN[kind](program, random.Random(f"{kind} {seed}"))
        except fuzz.Broken as broken:
            return f"seed {seed}: {broken}"
    return None


def done_ones(path):
    """The kinds, parts and counts that stand in the results with no difference."""
    if not os.path.exists(path):
        return set()
    with open(path, encoding="utf-8") as lines:
        rows = [line.split() for line in lines]
    return {(row[0], int(row[2]), int(row[4])) for row in rows if row[6:7] == ["0"]}


def write_row(path, kind, part, count, difference, seconds):
    """A row: KIND part K, COUNT inputs, D differences, S seconds. A difference is kept beside it."""
    os.makedirs(os.path.dirname(os.path.abspath(path)), exist_ok=True)
    row = f"{kind} part {part} of {count} inputs, {int(difference is not None)} differences, {seconds:.0f} s"
    with open(path, "a", encoding="utf-8") as out:
        out.write(row + "\n")
    print(row, flush=True)
    if difference is not None:
        with open(f"{path}.{kind}.{part}", "w", encoding="utf-8") as out:
            out.write(difference)
        print(difference[:MOST_TOLD])


def wanted(said, kinds):
    """Those of some kinds whose part isn't in the results with no difference."""
    there = done_ones(said.results)
    return [kind for kind in said.kind or kinds if kind in kinds and (kind, said.part, said.count) not in there]


def main(given, usage):
    """Tries a part of each kind, and says whether none differs."""
    said = words(given, usage)
    program = os.path.abspath(said.program) if said.program else measuring.program("fuzzing")
    if not said.oracle and set(said.kind or []) & set(OTHERS):
        sys.exit("fuzzing: these kinds want the folder of another program")
    first, differences = said.part * said.count, []
    for kind in wanted(said, OWN):
        began = time.monotonic()
        differences.append(try_own(program, kind, first, said.count))
        write_row(said.results, kind, said.part, said.count, differences[-1], time.monotonic() - began)
    kinds = wanted(said, OTHERS) if said.oracle else []
    for kind, (difference, seconds) in others.try_kinds(program, kinds, first, said.count, said.oracle).items() if kinds else []:
        differences.append(difference)
        write_row(said.results, kind, said.part, said.count, difference, seconds)
    sys.exit(1 if any(it is not None for it in differences) else 0)
