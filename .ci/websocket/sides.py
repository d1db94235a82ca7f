"""The sides that are tried: the host, `serve` and `dial`, each with a link that stands, a message that is answered, and what it did then."""
import os
import shutil
import subprocess
import sys
import tempfile

HERE = os.path.dirname(os.path.abspath(__file__))
sys.path[:0] = [os.path.join(HERE, it) for it in ("..", "../../bench/hosting")]
from host_peer import Device, Host
from link_peer import BINARY, CLOSE, END, PING, PONG, SECONDS, TEXT, TURN, Broken, accept, dial, free_port, listening


def heard(link, is_answer):
    """What the other side does, `taken`, `closed CODE` or `dropped`, and the pongs that came before."""
    pongs = []
    while True:
        try:
            kind, last, payload = link.next_frame()
        except (Broken, TimeoutError):
            return "dropped", pongs
        if kind == CLOSE:
            return f"closed {int.from_bytes(payload[:2], 'big')}" if payload else "closed", pongs
        if kind == PONG:
            pongs.append(payload)
        elif kind != PING and is_answer(kind, payload):
            return "taken", pongs


class HostSide:
    """A host, and an owner's link to its house."""

    name = "host"
    texts = True

    def __init__(self, program):
        self.folder = tempfile.mkdtemp()
        self.host = Host(program, os.path.join(self.folder, "notes"), web=self.folder)
        secret = self.host.line().rsplit("#", 1)[1]
        self.owner = Device(self.host, "/link", secret)
        self.port = self.host.port

    def link(self):
        link = self.owner.link(self.host, "/link")
        self.person = link.person
        return link

    def message(self, letters=False):
        line = f"rename {self.person} Zoë € 𝄞" if letters else "keys"
        return TEXT, f"order 7\n{line}".encode()

    @staticmethod
    def is_answer(kind, payload):
        return kind == TEXT and payload.startswith(b"answer 7\n")

    def end(self):
        """Whether it goes on."""
        return self.host.ask("/healthz")[2] == b"ok\n"

    def close(self):
        self.host.kill()
        shutil.rmtree(self.folder)


class Run:
    """A run of the editor, which takes one link."""

    texts = False

    def __init__(self, program):
        self.program = program

    def start(self, *words):
        pipes = {"stdin": subprocess.DEVNULL, "stdout": subprocess.PIPE, "stderr": subprocess.STDOUT}
        self.run = subprocess.Popen([self.program, *map(str, words)], **pipes)

    def message(self, letters=False):
        return BINARY, TURN

    @staticmethod
    def is_answer(kind, payload):
        return kind == BINARY

    def end(self):
        """Whether it ends with a report."""
        report, _ = self.run.communicate(timeout=SECONDS)
        return report.startswith(b"run ") and self.run.returncode in (0, 3, 6)

    def close(self):
        pass


class ServeSide(Run):
    """A program that serves one link, and answers a turn by a turn."""

    name = "serve"

    def link(self):
        port = free_port()
        self.start("serve", 0, port, 1)
        return dial(port)


class DialSide(Run):
    """A program that dials, and answers a turn by an end."""

    name = "dial"

    def link(self):
        listener, port = listening()
        self.start("dial", 1, port, 1)
        link = accept(listener)
        listener.close()
        link.get_turn()
        return link

    @staticmethod
    def is_answer(kind, payload):
        return kind == BINARY and payload == END
