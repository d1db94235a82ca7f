"""Devices that follow by the program, each with a file of its own, as an editor's plugin has one. They are killed and started again."""
import collections
import os
import random
import threading
import time

from follower import Follower

LINK_FAULT = 6  # how a follower ends that a newer link of its device has ended
NEWER = "closed 4016 "
LETTERS = ["a", "b", " ", "\n", "\\", "é", "€", "𝄞", "#"]


class Replaced(Exception):
    """The follower has ended, since a link of its device came behind its own."""


class Following(Follower):
    """A follower that remembers which of its texts were answered as put in."""

    def __init__(self, program, address, file):
        self.asked, self.kept = [], []
        super().__init__(program, address, file)

    def start(self):
        self.asked = []
        super().start()

    def replace(self, start, end, text):
        self.asked.append(text)
        super().replace(start, end, text)

    def take(self, line):
        if line is None and self.process.wait() == LINK_FAULT and any(it.startswith(NEWER) for it in self.news):
            raise Replaced
        super().take(line)
        if line.startswith("replaced "):
            text = self.asked.pop(0)
            if " but " not in line:
                self.kept.append(text)

    def is_linked(self):
        return any(it.startswith("linked ") for it in self.news)

    def site(self):
        """The site of its device, which its file says."""
        with open(self.words[3] + ".device", encoding="utf-8") as lines:
            return int(lines.readline().split(" ")[1])


class Mate(threading.Thread):
    """One who writes by a follower."""

    def __init__(self, program, way, secret, file, seed):
        super().__init__(daemon=True)
        self.way, self.dice = way, random.Random(seed)
        address = f"http://127.0.0.1:{way.own_port}/d/notes/#{secret}"
        self.follower = Following(program, address, file)
        self.follower.wait_for("a link", self.follower.is_linked)
        self.met = collections.Counter()
        self.ends = threading.Event()
        self.is_to_be_killed = False
        self.tokens = 0
        self.broken = None

    def run(self):
        try:
            self.again(self.follower.begin)
            while not self.ends.is_set():
                self.again(self.write)
                time.sleep(self.dice.random() * 0.3)
            self.again(self.follower.settle)
        except Exception as wrong:  # whatever it is, the play is told of it
            self.broken = wrong

    def again(self, part):
        """Does a part, and starts the follower anew where it was replaced."""
        try:
            part()
        except Replaced:
            self.met["replaced"] += 1
            self.restart()
        except BrokenPipeError:
            self.hear_end()
            self.met["replaced"] += 1
            self.restart()

    def hear_end(self):
        """A follower that takes nothing has to say why it has ended."""
        try:
            self.follower.wait_for("its end", lambda: False)
        except Replaced:
            pass

    def restart(self):
        """Starts the follower, and once more as long as it is replaced."""
        while True:
            self.follower.news.clear()
            self.follower.start()
            try:
                self.follower.begin()
                return
            except Replaced:
                self.met["replaced"] += 1
            except BrokenPipeError:
                self.hear_end()

    def write(self):
        if self.is_to_be_killed:
            self.is_to_be_killed = False
            self.met["killed"] += 1
            self.follower.kill()
            self.restart()
        self.follower.take_all()
        size = len(self.follower.text)
        start = self.dice.randint(0, size)
        end = min(size, start + self.dice.choice([0, 0, 0, 1, 5]))
        self.tokens += 1
        letters = "".join(self.dice.choice(LETTERS) for _ in range(self.dice.choice([0, 1, 8])))
        self.follower.replace(start, end, f"<{os.path.basename(self.follower.words[3])}.{self.tokens}>{letters}")
        if self.dice.random() < 0.3:
            self.follower.settle()

    def end(self):
        """Ends the input, and gives the status."""
        try:
            return self.follower.end()
        finally:
            self.follower.process.stdout.close()
