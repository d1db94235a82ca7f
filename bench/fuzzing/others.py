"""The inputs that another program of the same words makes and answers too, quickly: its own fuzz.py makes them, reads them and compares, and
what costs most beside that is saved.

The program is spawned with files in memory in place of pipes, and the random script from which several kinds of a number are made is made
once: that of `replay` and `lines`, and that of `feed` and `certify`. The inputs, the answers and the comparison stay what they are.
"""
import contextlib
import importlib
import io
import os
import random
import signal
import sys
import time

LIMIT = 60  # seconds of a run
SEED = 1
SIZE = 120  # what a script has at most, of the other program's measure


def load(folder):
    """The other program's module of trials, whose scripts are made once for the kinds of a number."""
    sys.path.insert(0, os.path.dirname(os.path.abspath(folder)))
    trials = importlib.import_module(f"{os.path.basename(os.path.abspath(folder))}.fuzz")
    trials.Gen = remembering(trials.Gen)
    return trials


def remembering(maker):
    """A maker of scripts that makes one only once of a state of the random numbers, and leaves these as making it would."""

    class Remembering(maker):
        made = {}  # of the number that is tried

        def __init__(self, rng, rules, size):
            self.began = rng.getstate()
            if self.began in self.made:
                self.r = rng
            else:
                super().__init__(rng, rules, size)

        def script(self):
            rng, known = self.r, self.made.get(self.began)
            if known is None:
                lines = super().script()
                self.made[self.began] = (dict(vars(self)), lines, rng.getstate())
                return lines
            parts, lines, after = known
            vars(self).update(parts, r=rng)
            rng.setstate(after)
            return list(lines)

    return Remembering


class Spawned:
    """Runs a program on the input of a trial, as the other program's `Program` does, where no file is named by the words."""

    def __init__(self, program):
        self.program = program
        self.streams = [os.memfd_create(name) for name in ("given", "written", "said")]
        self.places = [(os.POSIX_SPAWN_DUP2, stream, number) for number, stream in enumerate(self.streams)]
        signal.signal(signal.SIGALRM, self.late)

    @staticmethod
    def late(*_):
        raise TimeoutError

    def __call__(self, trial, parts):
        fill(self.streams, trial.input(parts))
        child = os.posix_spawn(self.program, [self.program, *trial.words], os.environ, file_actions=self.places)
        try:
            signal.alarm(LIMIT)
            status = os.waitpid(child, 0)[1]
            signal.alarm(0)
        except TimeoutError:
            os.kill(child, signal.SIGKILL)
            os.waitpid(child, 0)
            return None, f"no end within {LIMIT} seconds".encode(), None
        said = contents(self.streams[2])
        if said:
            return None, b"standard error: " + said[-300:], None
        return os.waitstatus_to_exitcode(status), contents(self.streams[1]), None


def fill(streams, given):
    """Puts the input into the first, and empties the others; each is read and written from its start."""
    for stream in streams:
        os.ftruncate(stream, 0)
        os.lseek(stream, 0, os.SEEK_SET)
    os.write(streams[0], given)
    os.lseek(streams[0], 0, os.SEEK_SET)


def contents(stream):
    return os.pread(stream, os.fstat(stream).st_size, 0)


def told(trials, name, trial, target, stage):
    """What is to be said of a difference, with the input made as short as keeps it."""
    with contextlib.redirect_stdout(io.StringIO()) as out:
        print(f"difference in {name} ({trial.kind})")
        trials.show(trial, trials.minimize(trial, target, stage, LIMIT), target, stage)
    return out.getvalue()


def try_kinds(program, kinds, first, count, folder):
    """Of each kind the first difference among some inputs, none where there is none, and the seconds it took."""
    trials = load(folder)
    stage = trials.Options().rules.stage
    targets = {kind: trials.Program([program]) if kind == "keep" else Spawned(program) for kind in kinds}
    seen = {kind: [None, 0.0] for kind in kinds}
    for number in range(first, first + count):
        trials.Gen.made.clear()
        for kind in [it for it in kinds if seen[it][0] is None]:
            began = time.monotonic()
            trial = trials.make_trial(kind, random.Random(f"{SEED} {number}"), trials.d.Rules(stage), SIZE)
            if trials.difference(trial, trial.parts, targets[kind], stage) is not None:
                seen[kind][0] = told(trials, f"trial {number} of seed {SEED}", trial, targets[kind], stage)
            seen[kind][1] += time.monotonic() - began
    return seen
