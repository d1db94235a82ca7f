"""What the measurements share: the top of the repository, the built program, and runs of a program with what they took."""
import os
import subprocess
import sys
import tempfile
import time
from typing import NamedTuple

TOP = os.path.abspath(os.path.join(os.path.dirname(os.path.abspath(__file__)), ".."))
sys.path.insert(0, os.path.join(TOP, ".ci"))
from built import program


class Spent(NamedTuple):
    """What a run took."""

    clock: float  # seconds by the clock
    processor: float  # seconds of the processor
    memory: float  # the greatest, in MiB


def begin(command, **streams):
    """Begins a run, which reads nothing and writes to nobody if not told otherwise."""
    return subprocess.Popen(list(map(str, command)), **{"stdin": subprocess.DEVNULL, "stdout": subprocess.DEVNULL, **streams})


def wait(running, begun):
    """The status of a run, and what it took since it was begun."""
    _, status, used = os.wait4(running.pid, 0)
    running.returncode = os.waitstatus_to_exitcode(status)
    return running.returncode, Spent(time.monotonic() - begun, used.ru_utime + used.ru_stime, used.ru_maxrss / 1024)


def expect_done(status, command):
    """Ends this where a run didn't end with status 0."""
    if status != 0:
        sys.exit(f"{' '.join(map(str, command))} ended with {status}")


def run_files(command, given, taken):
    """The status of a run that reads the one open file and writes the other, and what it took."""
    begun = time.monotonic()
    return wait(begin(command, stdin=given, stdout=taken), begun)


def run(command, given=b""):
    """What a run of these bytes took, and what it wrote. Its status has to be 0."""
    with tempfile.TemporaryFile() as source, tempfile.TemporaryFile() as sink:
        source.write(given)
        source.seek(0)
        status, spent = run_files(command, source, sink)
        expect_done(status, command)
        sink.seek(0)
        return spent, sink.read()


def least(spent):
    """The least of each that some runs took."""
    return Spent(*map(min, zip(*spent)))
