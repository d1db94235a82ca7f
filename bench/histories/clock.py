"""A clock that jumps, for programs that are started with it."""
import mmap
import os
import struct
import subprocess

HERE = os.path.dirname(os.path.abspath(__file__))
SECOND = 10**9


class Clock:
    """Two times that are ahead of the machine's, by so many seconds: that which never goes back, and the time of day."""

    def __init__(self, folder):
        self.folder = folder
        self.path = os.path.join(folder, "clock")
        self.library = os.path.join(folder, "clock.so")
        with open(self.path, "wb") as file:
            file.write(bytes(16))
        with open(self.path, "r+b") as file:
            self.times = mmap.mmap(file.fileno(), 16)
        self.ahead = 0
        compiler = os.environ.get("CC", "cc")
        subprocess.run([compiler, "-O2", "-shared", "-fPIC", "-o", self.library, os.path.join(HERE, "clock.c")], check=True)

    def program(self, name, path):
        """A program of this name that runs the one at a path with this clock."""
        script = os.path.join(self.folder, name)
        with open(script, "w", encoding="utf-8") as file:
            file.write(f'#!/bin/sh\nLD_PRELOAD={self.library} CLOCK={self.path} exec {os.path.abspath(path)} "$@"\n')
        os.chmod(script, 0o755)
        return script

    def jump(self, dice):
        """Jumps: the first on, as after a machine stood still, the second to and fro."""
        if dice.random() < 0.5:
            self.ahead += dice.choice([1, 15, 65, 3600, 10**6])
            self.times[:8] = struct.pack("<q", self.ahead * SECOND)
        else:
            self.times[8:] = struct.pack("<q", dice.choice([-(10**8), -3600, 0, 3600, 10**8]) * SECOND)
