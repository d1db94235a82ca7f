"""`keep` on a disk that crashes and fails."""
import errno
import os
import random
import shutil
import subprocess

from images import images, lay
from layer import KINDS, Layer, read_log

DONE, DISK_FAULT, BAD_STORE = 0, 10, 11
NOT_MADE = (b"bad store 0\n", b"bad store 3\n")  # what may be told of a file that was never whole
LINES = 40
ERRORS = (errno.EIO, errno.ENOSPC, errno.EDQUOT, errno.EROFS)
SECONDS = 60


class Wrong(Exception):
    """Something that has to hold doesn't."""


def want(what, is_so):
    if not is_so:
        raise Wrong(what)


class Steps:
    """Step lines of the owner alone, and the text behind each."""

    def __init__(self, count, seed):
        dice = random.Random(seed)
        self.lines, self.texts, pieces = [], [""], []
        while len(self.lines) < count:
            at, piece = dice.randint(0, len(pieces)), dice.choice(["a", "b", "é", "two", "x" * 255])
            kind = dice.choice(["insert", "insert", "delete", "update"])
            if kind == "insert":
                pieces.insert(at, piece)
                line = f"edit insert {at} {piece}"
            elif at == len(pieces):
                continue
            elif kind == "delete":
                del pieces[at]
                line = f"edit delete {at}"
            else:
                pieces[at] = piece
                line = f"edit update {at} {piece}"
            self.lines.append(line)
            self.texts.append("".join(pieces))

    def input(self, start=0):
        return "".join(line + "\n" for line in self.lines[start:]).encode()


def keep(program, file, given, variables=None):
    """The status and what is written."""
    ran = subprocess.run([program, "keep", "0", file], input=given, capture_output=True, env=variables, timeout=SECONDS, check=False)
    want(f"nothing stands on standard error: {ran.stderr[:200]!r}", not ran.stderr)
    return ran.returncode, ran.stdout


def answered(told):
    """How many lines were answered, in what was written so far: whole lines alone."""
    return sum(line.startswith(b"done ") for line in told.split(b"\n")[:-1])


def shown(written):
    """The text that the closing lines tell."""
    (line,) = [it for it in written.decode().split("\n") if it.split(" ")[0] == "show"]
    return line[len("show ") :]


def check_opened(program, file, steps, count, what):
    """A file of so many answered steps is opened: it has these, or one more, and goes on."""
    status, written = keep(program, file, b"")
    if count == 0 and (status, written) in [(BAD_STORE, it) for it in NOT_MADE]:
        return "not made"
    want(f"{what}: it is opened, and not {status} {written[:100]!r}", status == DONE)
    texts = steps.texts[count : count + 2]
    want(f"{what}: {count} steps were answered, and it shows {shown(written)[:80]!r}", shown(written) in texts)
    status, written = keep(program, file, b"edit insert 0 Z\n")
    want(f"{what}: it goes on", status == DONE and shown(written) in ["Z" + it for it in texts])
    return "one more" if shown(written) == "Z" + texts[-1] != "Z" + texts[0] else "as answered"


class Kept:
    """The tries, in a folder of their own."""

    def __init__(self, program, library, work, seed):
        self.program, self.library, self.work, self.seed = program, library, work, seed
        self.folder = os.path.join(work, "disk")
        self.file = os.path.join(self.folder, "file")
        self.steps = Steps(LINES, seed)

    def fresh(self):
        """An empty disk, with the layer over it."""
        shutil.rmtree(self.folder, ignore_errors=True)
        os.makedirs(self.folder)
        return Layer(self.library, self.folder, self.work)

    def crash(self, in_order):
        """Each image that a crash may leave, at each moment of a run and of one that goes on from it."""
        layer = self.fresh()
        half = LINES // 2
        lines = self.steps.input().splitlines(keepends=True)
        for part in (lines[:half], lines[half:]):
            status, _ = keep(self.program, self.file, b"".join(part), layer.environment())
            want("a run ends well", status == DONE)
        calls = read_log(layer.log)
        want("the layer sees the calls of the disk", any(it.word == "sync" for it in calls))
        met, image_folder = {}, os.path.join(self.work, "image")
        for count, image in images(calls, self.folder, in_order, self.seed):
            told = b"".join(it.some for it in calls[:count] if it.word == "told")
            shutil.rmtree(image_folder, ignore_errors=True)
            lay(image, image_folder)
            what = f"{'in order' if in_order else 'each for itself'}, behind call {count}, {image}"
            outcome = check_opened(self.program, os.path.join(image_folder, "file"), self.steps, answered(told), what)
            met[outcome] = met.get(outcome, 0) + 1
        return met

    def fail(self, kind, at, how_many, error, most=0):
        """A run in which calls fail: it ends by the named fault, and what it answered is there."""
        layer = self.fresh()
        layer.fail([kind], at, how_many, error)
        layer.cut(most)
        status, written = keep(self.program, self.file, self.steps.input(), layer.environment())
        what = f"{kind} {at}, {how_many or 'all'} with {errno.errorcode[error]}"
        lines = written.split(b"\n")[:-1]
        if status == DONE:
            want(f"{what}: it shows all", shown(written) == self.steps.texts[-1])
            return "all was done"
        want(f"{what}: it ends with {status} {lines[-1:]}", status == DISK_FAULT and lines[-1] == b"disk fault")
        count = answered(written)
        want(f"{what}: all else is answers", len([it for it in lines if it.startswith(b"done ")]) == count)
        check_opened(self.program, self.file, self.steps, count, what)
        for _, image in images(read_log(layer.log), self.folder, in_order=True, seed=at):
            last = image
        shutil.rmtree(self.work + "/image", ignore_errors=True)
        lay(last, self.work + "/image")
        check_opened(self.program, self.work + "/image/file", self.steps, count, what + ", what a crash leaves")
        return "a disk fault"

    def fail_each(self):
        """Each call of the disk fails, once and for good, and each write is short."""
        layer = self.fresh()
        usual = keep(self.program, self.file, self.steps.input(), layer.environment())
        want("a run ends well", usual[0] == DONE)
        counts, met = layer.counts(), {}
        for kind in KINDS:
            for at in range(1, counts[kind] + 1):
                error = ERRORS[at % len(ERRORS)]
                for how_many in (1, 0):
                    outcome = self.fail(kind, at, how_many, error)
                    met[kind, outcome] = met.get((kind, outcome), 0) + 1
        for at in range(1, counts["write"] + 1):
            want("an interrupted write is made again", self.fail("write", at, 1, errno.EINTR) == "all was done")
        for most in (1, 2, 7):
            layer = self.fresh()
            layer.cut(most)
            want(f"writes of {most} bytes", keep(self.program, self.file, self.steps.input(), layer.environment()) == usual)
        return met
