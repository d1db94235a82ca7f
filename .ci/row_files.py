"""Reads the rows of `rows/`, as rows/README.md says that they are written."""
import importlib.util
import os
import re
from functools import partial

from row import Row

INPUTS = (".script", ".steps", ".frames", ".bytes", ".lines")
TOKEN = re.compile(r'"([^"]*)"|([0-9A-Fa-f]+)|(#.*|\s+)')


def read(path):
    """The bytes of a file, None where there is none."""
    if not os.path.exists(path):
        return None
    with open(path, "rb") as file:
        return file.read()


def spelled(some):
    """The bytes that hexadecimal digits and texts in quotes stand for. Spaces, and what stands behind a #, are left out."""
    found, at, line = b"", 0, some.decode()
    while at < len(line):
        token = TOKEN.match(line, at)
        if token is None:
            raise ValueError(f"{line[at:at + 20]!r} is neither digits nor a text in quotes")
        found += bytes.fromhex(token[2] or "") + (token[1] or "").encode()
        at = token.end()
    return found


def word_of(word):
    """A word as the program gets it: `{}` is the empty one, and `{FF}` has this byte."""
    digits = re.fullmatch(r"\{((?:[0-9A-F]{2})*)\}", word)
    return os.fsdecode(bytes.fromhex(digits[1])) if digits else word


def folder_words(folder):
    """The words that the name of a folder stands for."""
    words = folder.split("-")
    return words + {"keep": ["{FILE}"], "serve": ["{PORT}", "1"], "dial": ["{PORT}", "1"]}.get(words[0], [])


def words_of(stem, folder):
    """The words of each run of a row."""
    some = read(f"{stem}.words")
    if some is None:
        return [folder_words(folder)]
    return [[word_of(word) for word in line.split(" ")] if line else [] for line in some.decode().splitlines()]


def inputs_of(stem):
    """The input of each run of a row."""
    kind = next((it for it in INPUTS if os.path.exists(stem + it)), None)
    if kind is None:
        return [b""]
    some = read(stem + kind)
    if kind in (".frames", ".bytes"):
        return [spelled(some)]
    if kind == ".lines":
        return [(read(f"{stem}.front") or b"") + line + b"\n" for line in some.split(b"\n")[:-1]]
    return [some]


def written_by(stem):
    """What a run of the row writes."""
    plain, some = read(f"{stem}.out"), read(f"{stem}.written")
    if plain is None and some is None:
        raise ValueError(f"nothing says what {stem} writes")
    return spelled(some) if plain is None else plain


def disk_of(stem):
    """The file before and behind a run."""
    before, behind = (some and spelled(some) for some in (read(f"{stem}.disk_in"), read(f"{stem}.disk_out")))
    return before, before if behind is None else behind


def play_link(messages, open_link):
    """Plays the other side of a link by its lines."""
    link = open_link()
    awaited = []
    for line in messages:
        does, _, message = line.partition(" ")
        if does == "comes":
            link.give(spelled(message.encode()))
        elif does == "closes":
            link.close()
        elif does == "goes":
            awaited.append(spelled(message.encode()))
            link.get()
    link.rest()
    return None if link.got == awaited else f"over the link go {[it.hex() for it in link.got]}"


def other_of(stem):
    """The other side of the link, None where there is none."""
    some = read(f"{stem}.link")
    if some is None:
        return None
    lines = [line for line in some.decode().splitlines() if line and not line.startswith("#")]
    return partial(play_link, lines)


def rows_of(stem, folder):
    """The runs of the row whose files have this name in front of their endings."""
    status = int(read(f"{stem}.status") or 0)
    all_words, inputs = words_of(stem, folder), inputs_of(stem)
    for words in all_words:
        for given in inputs:
            part = [" ".join(words)] if len(all_words) > 1 else []
            part += [repr(given)] if len(inputs) > 1 else []
            yield Row(words, given, status, written_by(stem), None, disk_of(stem), other_of(stem), ", ".join(part))


def rows_made_by(path):
    """The runs that a generator makes."""
    found = importlib.util.spec_from_file_location(os.path.basename(path)[:-3], path)
    module = importlib.util.module_from_spec(found)
    found.loader.exec_module(module)
    return module.rows()


def all_rows(top):
    """The name of each row below this folder, and a call that gives its runs."""
    for folder, inner, files in os.walk(top):
        inner[:] = sorted(set(inner) - {"__pycache__"})
        form = os.path.relpath(folder, top).split(os.sep)[0]
        for name in sorted({os.path.splitext(file)[0] for file in files} - {"README"}):
            stem = f"{folder}/{name}"
            runs = partial(rows_made_by, f"{stem}.py") if f"{name}.py" in files else partial(rows_of, stem, form)
            yield os.path.relpath(stem, top), runs
