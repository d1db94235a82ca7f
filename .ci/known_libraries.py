#!/usr/bin/env python3
"""Has other commands of the kit know the libraries that `rt ci` proved: known_libraries.py before FILE, and after it known_libraries.py after FILE

`rt ci` leaves the libraries that it made, or had kept and gave back, without the stamp by which other commands tell what a library was made
from, and without it they prove each once more. `before` notes in FILE which libraries stand there and what each would be made from; `after`
stamps those that are there since, whose sources are still the same, and that fit the libraries below them.
"""
import functools
import glob
import hashlib
import json
import os
import shutil
import sys

sys.dont_write_bytecode = True
sys.path.insert(0, os.path.dirname(os.path.realpath(shutil.which("rt"))))
import rtlib  # noqa: E402 (the kit's own)

TOP = os.path.dirname(os.path.dirname(os.path.realpath(__file__)))


def libraries():
    """The crates that are libraries, each below those that stand on it."""
    known, found = {}, {}
    for path in sorted(glob.glob(f"{TOP}/crates/*/src/lib.rt")):
        crate = rtlib.Crate(os.path.dirname(os.path.dirname(path)), TOP, known)
        for it in [*crate.below(), crate]:
            found.setdefault(it.name, it)
    return [crate for crate in found.values() if crate.makes_rlib()]


def folder_number(crate):
    """The number by which the system knows the folder of its library, or nothing if it has none."""
    folder = os.path.dirname(crate.rlib)
    return os.stat(folder).st_ino if os.path.isdir(crate.rlib) else None


def format_of(crate):
    """The file of its library that holds the sums of its other files, and of that file in each library below."""
    with open(f"{crate.rlib}/format", "rb") as file:
        return file.read()


def fits(crate):
    """Whether its library was proved over those that stand below it."""
    over = dict(line.split()[1:] for line in format_of(crate).decode().splitlines() if line.startswith("over "))
    below = [it for it in crate.below() if it.makes_rlib()]
    return all(folder_number(it) and over.get(it.name) == hashlib.sha256(format_of(it)).hexdigest() for it in below)


def stamp(crate, noted):
    """Stamps its library, if it is there since what was noted, and made from the same; says whether it did."""
    is_new = folder_number(crate) not in (None, noted["folder"])
    known = f"{os.path.dirname(crate.rlib)}/stamp"
    if not is_new or os.path.exists(known) or crate.stamp() != noted["stamp"] or not fits(crate):
        return False
    with open(known, "w", encoding="utf-8") as file:
        file.write(noted["stamp"])
    return True


def main():
    when, path = sys.argv[1:]
    rtlib.Crate.stamp = functools.lru_cache(maxsize=None)(rtlib.Crate.stamp)
    if when == "before":
        with open(path, "w", encoding="utf-8") as file:
            json.dump({crate.name: {"stamp": crate.stamp(), "folder": folder_number(crate)} for crate in libraries()}, file)
        return
    with open(path, encoding="utf-8") as file:
        noted = json.load(file)
    count = sum(stamp(crate, noted[crate.name]) for crate in libraries() if crate.name in noted)
    print(f"known_libraries: {count} of {len(noted)} libraries are proved anew and known", file=sys.stderr)


main()
