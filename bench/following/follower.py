"""A program beside a follower, as an editor's plugin is one: it has the text, replaces ranges of letters, and takes the rows that come."""
import queue
import subprocess
import threading
import time

SECONDS = 180  # a machine may have little time for it


class Wrong(Exception):
    pass


def spelled(text):
    return text.replace("\\", "\\\\").replace("\n", "\\n")


def read(text):
    """The text that is spelled so."""
    letters, behind = [], False
    for letter in text:
        if behind:
            letters.append("\n" if letter == "n" else letter)
            behind = False
        elif letter == "\\":
            behind = True
        else:
            letters.append(letter)
    return "".join(letters)


class Follower:
    """A follower that runs, and what the program beside it knows."""

    def __init__(self, program, address, file):
        self.words = [program, "follow", address, file]
        self.news = []
        self.start()

    def start(self):
        pipes = {"stdin": subprocess.PIPE, "stdout": subprocess.PIPE, "stderr": subprocess.PIPE}
        self.process = subprocess.Popen(self.words, **pipes)
        self.lines = queue.Queue()
        threading.Thread(target=self.listen, args=(self.process, self.lines), daemon=True).start()
        # What the program sent and wasn't answered, and how many rows it has taken.
        self.unanswered, self.taken, self.text = 0, 0, None

    @staticmethod
    def listen(process, lines):
        for line in process.stdout:
            lines.put(line.rstrip(b"\n").decode())
        lines.put(None)

    def say(self, line):
        self.process.stdin.write(line.encode() + b"\n")
        self.process.stdin.flush()

    def take(self, line):
        """Takes a line of the follower."""
        if line is None:
            raise Wrong(f"the follower ended with {self.process.wait()}: {self.process.stderr.read()!r}")
        word, _, rest = line.partition(" ")
        if word == "text":
            self.text, self.taken = read(rest), 0
        elif word == "replaced":
            self.unanswered -= 1
            if " but " in rest:
                self.news.append(line)
        elif word == "changed":
            # A row that came before its answer was meant for another text, and comes again.
            if self.text is not None and self.unanswered == 0:
                at, out, *put = rest.split(" ", 2)
                at, out = int(at), int(out)
                if at + out > len(self.text):
                    raise Wrong(f"a row past the end: {line!r} in {len(self.text)} letters")
                self.text = self.text[:at] + read(put[0] if put else "") + self.text[at + out :]
                self.taken += 1
        else:
            self.news.append(line)

    def last_lines(self):
        """All lines that come until it ends."""
        lines = []
        while (line := self.lines.get(timeout=SECONDS)) is not None:
            lines.append(line)
        return lines

    def take_all(self):
        """Takes what has come."""
        while True:
            try:
                line = self.lines.get_nowait()
            except queue.Empty:
                return
            self.take(line)

    def wait_for(self, what, is_so):
        last = time.monotonic() + SECONDS
        while not is_so():
            if time.monotonic() > last:
                raise Wrong(f"{what} doesn't come: {self.news[-5:]}")
            try:
                self.take(self.lines.get(timeout=0.05))
            except queue.Empty:
                pass

    def begin(self):
        """Asks for the text."""
        self.text = None
        self.say("text")
        self.wait_for("the text", lambda: self.text is not None)

    def replace(self, start, end, text):
        self.say(f"seen {self.taken}")
        self.say(f"replace {start} {end} {spelled(text)}" if text else f"replace {start} {end}")
        self.text = self.text[:start] + text + self.text[end:]
        self.unanswered += 1

    def settle(self):
        """Waits until all is answered."""
        self.wait_for("an answer", lambda: self.unanswered == 0)

    def ask(self, line, word):
        """The answer to a line, which begins with a word."""
        self.say(line)
        self.wait_for(word, lambda: any(it.split(" ")[0] == word for it in self.news))
        (at,) = [k for k, it in enumerate(self.news) if it.split(" ")[0] == word][-1:]
        return self.news.pop(at)

    def reach(self, count):
        """Waits until it has so many messages."""
        last = time.monotonic() + SECONDS
        while time.monotonic() < last:
            self.say(f"look {count - 1}")
            self.wait_for("a look", lambda: any(it.split(" ")[0] in ("item", "no") for it in self.news))
            found = [it for it in self.news if it.split(" ")[0] in ("item", "no")]
            self.news = [it for it in self.news if it not in found]
            if found[0].startswith("item"):
                return
            time.sleep(0.05)
        raise Wrong("it has too few messages")

    def kill(self):
        self.process.kill()
        self.process.wait()

    def end(self):
        """Ends the input, and gives the status."""
        self.process.stdin.close()
        return self.process.wait(SECONDS)
