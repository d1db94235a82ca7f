"""Plays the rows of `rows/` through the program, and says which give something else.

    .ci/play_rows.py PROGRAM [NAME]

With NAME only the rows whose names begin so are played.
"""
import os
import re
import subprocess
import sys
import tempfile
import time
from functools import partial

from link_peer import Broken, Closed, accept, dial, free_port, listening
from row import SECONDS, difference
from row_files import all_rows, read

TOP = os.path.join(os.path.dirname(os.path.abspath(__file__)), "../rows")
# Where the files of the runs stand. In memory, where there is such a folder, a sync takes no time.
MEMORY = "/dev/shm" if os.access("/dev/shm", os.W_OK) else None


def run(program, row, folder, places):
    """The program, with the places in its words filled in. Its input and its output are files of the folder."""
    words = [re.sub(r"\{[A-Z]{4}\}", lambda found: places[found[0]], word) for word in row.words]
    with open(f"{folder}/given", "wb") as given:
        given.write(row.given)
    with open(f"{folder}/given", "rb") as given, open(f"{folder}/written", "wb") as written:
        return subprocess.Popen([program, *words], stdin=given, stdout=written, stderr=subprocess.STDOUT)


def wrong_file(row, file):
    """What is wrong with the file that a run leaves."""
    behind = row.disk[1]
    left = read(file)
    if behind is None or left == behind:
        return None
    return f"the file has {'no bytes, since there is none' if left is None else left.hex()}, and not {behind.hex()}"


def wrong_end(program, row, status, written):
    """What is wrong with how a run ends, and with what it writes."""
    if status != row.status:
        return f"it ends with {status}, and not with {row.status}; {written[-200:]!r} is written"
    return row.check(program, written) if row.check else difference(written, row.written)


def wrong_run(program, row, folder):
    """What is wrong with a run, None where nothing is."""
    file = f"{folder}/file"
    if row.disk[0] is not None:
        with open(file, "wb") as out:
            out.write(row.disk[0])
    listener, used = listening()
    is_dialled = row.other is not None and row.words[0] == "dial"
    port = used if is_dialled else free_port()
    open_link = partial(accept, listener) if is_dialled else partial(dial, port)
    places = {"{FILE}": file, "{PORT}": str(port), "{USED}": str(used)}
    with listener, run(program, row, folder, places) as running:
        try:
            wrong = row.other(open_link) if row.other else None
            running.wait(SECONDS)
        except subprocess.TimeoutExpired:
            return f"it has no end within {SECONDS} seconds"
        except (Broken, Closed, OSError) as error:
            return f"its link is broken: {error!r}"
        finally:
            running.kill()
    return wrong_end(program, row, running.returncode, read(f"{folder}/written")) or wrong or wrong_file(row, file)


def is_told(name):
    """Whether the table of its folder says what the row shows."""
    folder, own = os.path.split(name)
    return f"\n| {own} | ".encode() in (read(os.path.join(TOP, folder, "README.md")) or b"")


def play(program, name, runs):
    """Plays the runs of a row, and gives how many there are and how many of them give something else. A long row says its time."""
    played, failed, seconds = 0, 0, 0
    if not is_told(name):
        failed += 1
        print(f"rows: the table of its folder doesn't say what {name} shows")
    for row in runs():
        began = time.monotonic()
        with tempfile.TemporaryDirectory(dir=MEMORY) as folder:
            wrong = wrong_run(program, row, folder)
        seconds += time.monotonic() - began
        played += 1
        if wrong:
            failed += 1
            print(f"rows: {name}{f' ({row.part})' if row.part else ''}: {wrong}")
    if name.startswith("long/"):
        print(f"rows: {name} takes {seconds:.1f} seconds in {played} {'run' if played == 1 else 'runs'}")
    return played, failed


def main():
    program, front = os.path.abspath(sys.argv[1]), sys.argv[2] if len(sys.argv) > 2 else ""
    told = [play(program, name, runs) for name, runs in all_rows(TOP) if name.startswith(front)]
    played, failed = (sum(column) for column in zip(*told)) if told else (0, 0)
    if not told:
        print("rows: there are none")
    elif failed:
        print(f"rows: {failed} of {played} runs give something else")
    else:
        print(f"rows: each of the {played} runs of {len(told)} rows gives what stands beside it")
    return 0 if told and not failed else 1


sys.exit(main())
