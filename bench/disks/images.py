"""What a crash may leave of a folder, by the log of the calls that changed it.

A sync of a file makes its bytes stay. What was written since may be there in whole, in part, as other bytes, or not at all, each write for
itself. A new file, a new folder and another name stay once their folder was synced; until then a crash may leave them or not. Where
`in_order` is said they come in their order, and a sync of anything makes all names stay that were given before it, as journals of file
systems have it.
"""
import os
import random
from typing import NamedTuple


UNCHANGING = ("told", "failed")  # what leaves a disk as it is


class File:
    """A file: its bytes that stay, and the calls since."""

    def __init__(self):
        self.stays = b""
        self.since = []

    def sync(self):
        self.stays, self.since = self.left(self.since), []

    def left(self, calls):
        """Its bytes where of the calls since the sync these were done."""
        some = bytearray(self.stays)
        for call in calls:
            some += bytes(max(0, call.number - len(some)))
            if call.word == "cut":
                del some[call.number :]
            else:
                some[call.number : call.number + len(call.some)] = call.some
        return bytes(some)


class Folder:
    """A folder: by their names, what stays in it, and what a program sees in it."""

    def __init__(self):
        self.stays, self.seen = {}, {}


class Naming(NamedTuple):
    """A change of names: in folders, what comes under a name, or that it goes."""

    entries: tuple

    def make(self, which):
        for folder, name, it in self.entries:
            names = which(folder)
            names.pop(name, None)
            if it is not None:
                names[name] = it


class Disk:
    """A folder at a moment of the log."""

    def __init__(self, top, in_order):
        self.top, self.in_order = top, in_order
        self.root = Folder()
        self.since = []  # the changes of names that may not stay

    def find(self, path):
        """What a program sees at a path."""
        at = self.root
        for name in path[len(self.top) :].strip("/").split("/"):
            at = at.seen[name] if name else at
        return at

    def take(self, call):
        """Does a call."""
        if call.word in ("write", "cut"):
            self.find(call.path).since.append(call)
        elif call.word == "sync":
            self.find(call.path).sync()
            self.keep(None)
        elif call.word == "folder":
            self.keep(self.find(call.path))
        elif call.word in ("create", "mkdir"):
            made = File() if call.word == "create" else Folder()
            self.name(Naming(((*self.place(call.path), made),)))
        elif call.word == "rename":
            self.name(Naming(((*self.place(call.path), None), (*self.place(call.some.decode()), self.find(call.path)))))
        elif call.word == "unlink":
            self.name(Naming(((*self.place(call.path), None),)))

    def place(self, path):
        folder, name = os.path.split(path)
        return self.find(folder), name

    def name(self, naming):
        self.since.append(naming)
        naming.make(lambda folder: folder.seen)

    def keep(self, folder):
        """Makes the names of a folder stay that was synced; all where they come in their order."""
        stay = [it for it in self.since if self.in_order or any(at is folder for at, _, _ in it.entries)]
        for naming in stay:
            naming.make(lambda at: at.stays)
        self.since = [it for it in self.since if it not in stay]

    def trees_left(self, dice):
        """By their paths, the files and folders that a crash may leave."""
        if self.in_order:
            choices = [self.since[:end] for end in range(len(self.since) + 1)]
        else:
            choices = list(subsets(self.since, dice))
        for namings in choices:
            entries = {}
            for naming in namings:
                naming.make(lambda folder: entries.setdefault(folder, dict(folder.stays)))
            yield dict(below(self.root, "", entries))


def below(folder, path, entries):
    """What stands in a folder and further down."""
    for name, it in entries.get(folder, folder.stays).items():
        yield f"{path}/{name}", it
        if isinstance(it, Folder):
            yield from below(it, f"{path}/{name}", entries)


def subsets(some, dice, few=3):
    """Some choices of these, in their order: none, all, all but one, and one alone."""
    yield []
    if some:
        yield list(some)
    if len(some) > 1:
        for _ in range(few):
            at = dice.randrange(len(some))
            yield some[:at] + some[at + 1 :]
            yield [some[at]]


def torn(calls, dice):
    """A write that was done in part, or as other bytes, behind the calls in front of it."""
    writes = [at for at, it in enumerate(calls) if it.word == "write"]
    if writes:
        at = dice.choice(writes)
        call = calls[at]
        yield [*calls[:at], call._replace(some=call.some[: dice.randrange(len(call.some) + 1)])]
        yield [*calls[:at], call._replace(some=bytes(dice.randrange(256) for _ in call.some))]


def left_at(disk, dice):
    """What a crash may leave at a moment, each once: by their paths the bytes of files, none of folders."""
    told = []
    for tree in disk.trees_left(dice):
        for image in bytes_left(tree, dice):
            if image not in told:
                told.append(image)
                yield image


def bytes_left(tree, dice):
    least = {path: it.stays if isinstance(it, File) else None for path, it in tree.items()}
    files = {path: it for path, it in tree.items() if isinstance(it, File)}
    yield least
    for path, file in files.items():
        for calls in [*subsets(file.since, dice), *torn(file.since, dice)]:
            yield {**least, path: file.left(calls)}
    yield {**least, **{path: file.left(file.since) for path, file in files.items()}}


def images(calls, top, in_order, seed=1):
    """For each moment of a log the number of its calls, and what a crash may leave then: in front of each call that changes the disk, when
    all was told that could be, and at the end."""
    disk, dice = Disk(top, in_order), random.Random(seed)
    for count in range(len(calls) + 1):
        if count == len(calls) or calls[count].word not in UNCHANGING:
            for image in left_at(disk, dice):
                yield count, image
        if count < len(calls):
            disk.take(calls[count])


def lay(image, folder):
    """Makes an image a folder."""
    os.makedirs(folder)
    for path, some in sorted(image.items()):
        if some is None:
            os.makedirs(folder + path, exist_ok=True)
        else:
            with open(folder + path, "wb") as file:
                file.write(some)
