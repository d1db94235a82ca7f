"""What is fuzzed: words of the program, and the inputs to begin with, which are those of the rows and the examples."""
import glob
import os
from typing import NamedTuple

import house
import row_files
from house import linked
from link_peer import BINARY, CLOSE, END, PING, TURN, frame_of

MOST = 20_000  # bytes of an input to begin with


class Target(NamedTuple):
    """Words of the program, of which `@@` is the name of the input where it isn't standard input, and the beginnings. `layer` is the C file of
    what makes the input a link, where it comes over one."""

    words: list
    begins: object
    layer: str = ""


def inputs(*patterns):
    """The inputs of the rows and examples whose paths fit."""
    for pattern in patterns:
        for path in sorted(glob.glob(pattern, recursive=True)):
            stem, kind = os.path.splitext(path)
            if path.startswith("examples/"):
                yield row_files.read(path)
            elif kind == ".disk_in":
                yield row_files.spelled(row_files.read(path))
            else:
                yield from row_files.inputs_of(stem)


def links():
    """What callers say to `serve`."""
    request = frame_of("request 1.1 0 insert 0.0 a")
    yield linked("/")
    yield linked("/", (BINARY, TURN), (BINARY, END))
    yield linked("/", (BINARY, request), (BINARY, TURN), (BINARY, frame_of("entry 1 adduser 1")), (BINARY, TURN), (BINARY, END))
    yield linked("/", (PING, b"hear"), (BINARY, request[:-1]))
    yield linked("/", (BINARY, b"x" * 300), (CLOSE, b"\x03\xe8"))
    yield linked("/").replace(b"Host", b"Origin: http://localhost:7000\r\nHost")
    yield b"GET / HTTP/1.1\r\n\r\n"


TARGETS = {
    "frames": Target(["feed", "2"], lambda: inputs("rows/feed-*/*.frames", "examples/feed-2/*.frames")),
    "script": Target(["replay"], lambda: inputs("rows/replay/**/*.script", "rows/replay/**/*.lines", "examples/*.script")),
    "journal": Target(["certify", "2"], lambda: inputs("rows/certify-*/*.frames", "rows/feed-*/*.frames")),
    "certificate": Target(["audit"], lambda: inputs("rows/audit/*.frames", "examples/audit/*.certified")),
    # Nobody listens at this port: the steps are made, and then the door fails.
    "steps": Target(["dial", "1", "1", "1"], lambda: inputs("rows/*/*.steps", "examples/**/*.steps")),
    "store": Target(["keep", "258", "@@"], lambda: inputs("rows/keep-258/*.disk_in")),
    "owners_store": Target(["keep", "0", "@@"], lambda: inputs("rows/keep-0/*.disk_in")),
    "link": Target(["serve", "0", "7000", "1"], links, layer="link_of_input"),
}


def of_host(program, folder):
    """The target of a host, whose house is in a folder."""
    devices = house.make(program, folder)
    words = ["host", os.path.join(folder, "notes"), "--port", "7000", "--web", os.path.join(folder, "web")]
    return Target(words, lambda: house.begins(devices), layer="host_of_input")


def put_begins(target, folder):
    """Writes the inputs to begin with into a folder, each once, and says how many there are."""
    os.makedirs(folder, exist_ok=True)
    there = {some for some in target.begins() if 0 < len(some) <= MOST}
    for number, some in enumerate(sorted(there)):
        with open(os.path.join(folder, f"{number:04}"), "wb") as out:
            out.write(some)
    return len(there)
