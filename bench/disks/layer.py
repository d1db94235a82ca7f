"""A disk of a program that is watched and fails: what stands before the C library's calls, and the log of what they did."""
import errno
import mmap
import os
import struct
import subprocess
from typing import NamedTuple

HERE = os.path.dirname(os.path.abspath(__file__))
KINDS = ["open", "read", "write", "sync", "name"]
CONTROLS = 5 + len(KINDS)  # numbers of 64 bits


def compiled(folder):
    """The path of the layer."""
    library = os.path.join(folder, "layer.so")
    subprocess.run([os.environ.get("CC", "cc"), "-O2", "-shared", "-fPIC", "-o", library, os.path.join(HERE, "layer.c")], check=True)
    return library


class Call(NamedTuple):
    """What a call did: a word, its path, a number and bytes."""

    word: str
    path: str
    number: int
    some: bytes


def read_log(path):
    """The calls of a log, in their order."""
    if not os.path.exists(path):
        return []
    with open(path, encoding="ascii") as lines:
        fields = (line.rstrip("\n").split(" ") for line in lines)
        return [Call(word, path, int(number), bytes.fromhex(some)) for word, path, number, some in fields]


class Layer:
    """The layer over the files below a folder, or over those alone whose path has a part."""

    def __init__(self, library, folder, work, only=None):
        self.log = os.path.join(work, "log")
        self.path = os.path.join(work, "control")
        for old in (self.log, self.path):
            if os.path.exists(old):
                os.remove(old)
        with open(self.path, "wb") as file:
            file.write(bytes(8 * CONTROLS))
        with open(self.path, "r+b") as file:
            self.numbers = mmap.mmap(file.fileno(), 8 * CONTROLS)
        self.variables = {"LD_PRELOAD": library, "DISK_UNDER": folder, "DISK_LOG": self.log, "DISK_CONTROL": self.path}
        if only:
            self.variables["DISK_ONLY"] = only

    def environment(self):
        return {**os.environ, **self.variables}

    def program(self, name, path, folder):
        """A program of this name that runs the one at a path over this disk."""
        script = os.path.join(folder, name)
        words = " ".join(f"{name}={value}" for name, value in self.variables.items())
        with open(script, "w", encoding="utf-8") as file:
            file.write(f'#!/bin/sh\n{words} exec {path} "$@"\n')
        os.chmod(script, 0o755)
        return script

    def counts(self):
        """How many calls of each kind came."""
        return dict(zip(KINDS, struct.unpack(f"<{len(KINDS)}q", self.numbers[8 * 5 :])))

    def fail(self, kinds, at=1, how_many=0, error=errno.EIO):
        """From now on calls of these kinds fail: those from the number on, so many, or all."""
        bits = sum(1 << KINDS.index(it) for it in kinds)
        self.numbers[:32] = struct.pack("<4q", bits, at, how_many, error)

    def fail_next(self, kind, how_many=0, error=errno.EIO, behind=0):
        """The next calls of a kind fail, behind so many."""
        self.fail([kind], self.counts()[kind] + 1 + behind, how_many, error)

    def cut(self, most):
        """A write moves so many bytes at most."""
        self.numbers[32:40] = struct.pack("<q", most)

    def mend(self):
        """No call fails any more."""
        self.numbers[:40] = bytes(40)
