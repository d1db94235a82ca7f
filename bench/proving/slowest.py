"""Which functions and lemma files take the prover longest.

The kit tells no times of them. But a prover that works with one job writes the file of each module as it ends with it. So what it took of
the processor from one file to the next is that module's time. Modules that the kit makes of a function count as the function's.
"""
import bisect
import os
import subprocess
import sys
import tempfile
import threading
import time

from measuring import TOP

LOOK_EVERY = 0.1  # seconds
TICKS = os.sysconf("SC_CLK_TCK")
KIT_COMMANDS = os.path.dirname(os.path.realpath(subprocess.run(["sh", "-c", "command -v rt"], capture_output=True, text=True, check=True).stdout.strip()))
sys.path.insert(0, KIT_COMMANDS)
import rtlib


class Clock:
    """What a process took of the processor until when."""

    def __init__(self, process):
        self.process, self.moments, self.spent = process, [time.time()], [0.0]
        self.looking = threading.Thread(target=self.look, daemon=True)
        self.looking.start()

    def look(self):
        while self.process.poll() is None:
            try:
                with open(f"/proc/{self.process.pid}/stat", encoding="utf-8") as stat:
                    fields = stat.read().rsplit(")", 1)[1].split()
            except OSError:
                return
            self.moments.append(time.time())
            self.spent.append((int(fields[11]) + int(fields[12])) / TICKS)
            time.sleep(LOOK_EVERY)

    def at(self, moment):
        """The seconds of the processor until a moment, on the line between two looks."""
        place = min(max(bisect.bisect(self.moments, moment), 1), len(self.moments) - 1)
        (early, late), (low, high) = self.moments[place - 1:place + 1], self.spent[place - 1:place + 1]
        share = (moment - early) / (late - early) if late > early else 0
        return low + (high - low) * min(max(share, 0), 1)


def proved(crate, kept):
    """Proves a crate from nothing. It gives the names of its functions, and the clock."""
    command = [rtlib.RATTLE, "check", *crate.words(["--jobs", "1"]), "--incremental", kept, "--progress"]
    proving = subprocess.Popen(command, cwd=crate.folder, stdout=subprocess.PIPE, stderr=subprocess.STDOUT, text=True, errors="replace")
    clock, functions, line = Clock(proving), [], ""
    for line in proving.stdout:
        if line.startswith("checked "):
            functions.append(line.removeprefix("checked ").rsplit(",", 1)[0].split("::", 1)[1].replace("::", "."))
    if proving.wait() != 0:
        print(f"proving: {crate.name} isn't proved, so not all of it is here: {line.strip()}", file=sys.stderr)
    return functions, clock


def modules(kept):
    """The modules in the order in which the prover ended with them, each with the moment."""
    found = []
    for folder, _, names in os.walk(kept):
        paths = (os.path.join(folder, name) for name in names if name.endswith(".oantt"))
        found += [(os.stat(path).st_mtime, os.path.basename(path).removesuffix(".oantt").removesuffix(".decls")) for path in paths]
    return sorted(found)


def owner(crate, functions, module):
    """The function or the file that a module is of."""
    library, _, path = module.partition(".")
    of_proofs = library == f"Rattle-{crate.name}-proofs"
    names = [name for name in functions if f"{path}.".startswith(f"{name}.")]
    if of_proofs and names:
        return max(names, key=len).replace(".", "::")
    file = f"{'proofs' if of_proofs else 'specs'}/{path.replace('.', '/')}.antt"
    return file if os.path.isfile(os.path.join(crate.folder, file)) else "what the kit makes of the crate"


def times_of(name):
    """The seconds that each function and each file of a crate took."""
    crate = rtlib.Crate(os.path.join(TOP, "crates", name), TOP, {})
    with tempfile.TemporaryDirectory() as kept:
        functions, clock = proved(crate, kept)
        ended = modules(kept)
    seconds = {}
    for (begun, _), (end, module) in zip(ended, ended[1:]):
        who = f"{name}: {owner(crate, functions, module)}"
        seconds[who] = seconds.get(who, 0) + clock.at(end) - clock.at(begun)
    return seconds


def slowest(crates, count=20):
    """Writes the slowest of some crates, whose libraries have to be built."""
    seconds = {}
    for crate in crates:
        seconds.update(times_of(crate))
    print("| function or file | seconds of the processor |\n|---|---|")
    for who, spent in sorted(seconds.items(), key=lambda row: -row[1])[:count]:
        print(f"| {who} | {spent:.1f} |")
    print(f"| all of {', '.join(crates)} | {sum(seconds.values()):.1f} |")
