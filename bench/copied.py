"""Programs for measuring that no crate of this repository is: each stands in a file NAME.rt.txt, since the kit refuses a file NAME.rt that
isn't in a crate. It is put into a copy of the crates that it stands on, as a crate of its own.
"""
import os
import shutil

from measuring import TOP


def lines_of_crates():
    """The lines of crates.txt, by the crate's name."""
    with open(os.path.join(TOP, "crates.txt"), encoding="utf-8") as lines:
        return {line.split(":")[0].split()[0]: line for line in lines if line.strip() and not line.startswith("#")}


def below(names):
    """These crates and all that they stand on; the kit's libraries have no line."""
    lines = lines_of_crates()
    found, left = set(), list(names)
    while left:
        name = left.pop()
        if name in lines and name not in found:
            found.add(name)
            left += lines[name].split(":")[1].split()
    return found


def copy_crates(copy, names):
    """Copies some crates with what was proved of them, but for what a check begins with."""
    lines = lines_of_crates()
    for name in names:
        folder = os.path.join("crates", name)
        shutil.copytree(os.path.join(TOP, folder), os.path.join(copy, folder), ignore=shutil.ignore_patterns("incremental"))
    shutil.copy(os.path.join(TOP, "HANDLES"), copy)
    with open(os.path.join(copy, "crates.txt"), "w", encoding="utf-8") as out:
        out.writelines(line for name, line in lines.items() if name in names)


def add_program(copy, source, needs):
    """Puts the program of a file NAME.rt.txt into the copy, as a crate that stands on some others. Gives its folder."""
    name = os.path.basename(source).removesuffix(".rt.txt")
    folder = os.path.join(copy, "crates", name)
    os.makedirs(os.path.join(folder, "src"))
    shutil.copy(source, os.path.join(folder, "src", "main.rt"))
    with open(os.path.join(copy, "crates.txt"), "a", encoding="utf-8") as out:
        out.write(f"{name}: {' '.join(needs)}\n")
    return folder
