"""Ways to a port on which whole connections fare as on a bad net: they are late, overtaken, silent, cut, and come once more.

Within a connection no byte is lost or out of its order, as TCP has it. What becomes of one is drawn when it comes.
"""
import collections
import random
import socket
import struct
import threading
import time
from typing import NamedTuple

END, RESET, SILENCE = "ended", "reset", "silenced"
MOST_KEPT = 1 << 20  # bytes of a connection that may come once more
SILENT_SECONDS = 8  # for which a connection stands that carries nothing any more
MOST_SECONDS = 3  # for which one that came once more is listened to
MOST_WAIT = 60  # seconds for which one is awaited that is to be over


class Fate(NamedTuple):
    """What becomes of a connection. Times are in seconds."""

    waits: float = 0  # until anything is passed on: a later connection may overtake it
    late: float = 0  # by which each piece comes late
    lasts: float | None = None  # until it ends, where it doesn't stand as long as its sides like
    ending: str = END
    again: float | None = None  # behind its end, until all that its caller said is said once more, on a connection of its own


CALM = Fate()


def drawn(dice):
    """The fate of a connection on a bad net."""
    if dice.random() < 0.3:
        return CALM
    return Fate(
        waits=dice.choice([0, 0, 0, 0, 0.2, 3]),
        late=dice.choice([0, 0, 0.003, 0.03, 0.15]),
        lasts=dice.choice([None, dice.uniform(0, 0.3), dice.uniform(0, 3), dice.uniform(0, 15)]),
        ending=dice.choice([END, RESET, SILENCE]),
        again=dice.choice([None, None, 0.05, 1, 4]),
    )


def let_go(end, reset=False):
    """Ends a side of a connection, by a reset where it is to be one."""
    try:
        if reset:
            end.setsockopt(socket.SOL_SOCKET, socket.SO_LINGER, struct.pack("ii", 1, 0))
        else:
            end.shutdown(socket.SHUT_RDWR)
    except OSError:
        pass
    end.close()


class Passing:
    """A connection on its way: its near side called, and its far side is at the port."""

    def __init__(self, near, port, fate):
        self.near, self.port, self.fate = near, port, fate
        self.far = None
        self.said = bytearray()
        self.is_silent = False
        self.is_over = threading.Event()

    def run(self):
        self.is_over.wait(self.fate.waits)
        try:
            self.far = socket.create_connection(("127.0.0.1", self.port), MOST_SECONDS)
            self.far.settimeout(None)
        except OSError:
            let_go(self.near, reset=True)
            return
        for end in (self.near, self.far):
            end.setsockopt(socket.IPPROTO_TCP, socket.TCP_NODELAY, 1)
        for source, sink, kept in ((self.near, self.far, self.said), (self.far, self.near, None)):
            threading.Thread(target=self.carry, args=(source, sink, kept), daemon=True).start()
        self.live()

    def live(self):
        ended_by_sides = self.is_over.wait(self.fate.lasts)
        if not ended_by_sides and self.fate.ending == SILENCE:
            self.is_silent = True
            self.is_over.wait(SILENT_SECONDS)
        for end in (self.near, self.far):
            let_go(end, self.fate.ending == RESET)
        if self.fate.again is not None:
            time.sleep(self.fate.again)
            self.come_again()

    def carry(self, source, sink, kept):
        try:
            while some := source.recv(65536):
                if kept is not None and len(kept) < MOST_KEPT:
                    kept += some
                time.sleep(self.fate.late)
                if not self.is_silent:
                    sink.sendall(some)
        except OSError:
            pass
        if not self.is_silent:
            self.is_over.set()

    def come_again(self):
        """Says once more what the near side said, and hears what is answered."""
        try:
            with socket.create_connection(("127.0.0.1", self.port), MOST_SECONDS) as far:
                far.sendall(self.said)
                far.settimeout(MOST_SECONDS)
                while far.recv(65536):
                    pass
        except OSError:
            pass


class Way:
    """A way to a port. It is calm at first."""

    def __init__(self, port, seed, comes_again=True):
        self.port, self.dice, self.comes_again = port, random.Random(seed), comes_again
        self.is_calm = True
        self.standing = []
        self.met = collections.Counter()
        self.listener = socket.create_server(("127.0.0.1", 0))
        self.own_port = self.listener.getsockname()[1]
        threading.Thread(target=self.take_in, daemon=True).start()

    def fate(self):
        fate = CALM if self.is_calm else drawn(self.dice)
        return fate if self.comes_again else fate._replace(waits=0, again=None)

    def take_in(self):
        while True:
            try:
                near, _ = self.listener.accept()
            except OSError:
                return
            passing = Passing(near, self.port, self.fate())
            self.count(passing.fate)
            thread = threading.Thread(target=passing.run, daemon=True)
            thread.start()
            self.standing = [(it, its) for it, its in self.standing if its.is_alive()] + [(passing, thread)]
            if self.is_calm and passing.fate != CALM:  # it became calm meanwhile
                passing.is_over.set()

    def count(self, fate):
        self.met["connections"] += 1
        self.met["overtaken"] += fate.waits >= 1
        self.met["said again"] += fate.again is not None
        if fate.lasts is not None:
            self.met[fate.ending] += 1

    def calm(self):
        """From now on nothing befalls a connection. Those that stand end, and come once more where that is their fate."""
        self.is_calm = True
        for passing, _ in list(self.standing):
            passing.is_over.set()

    def wait(self):
        """Waits until those are over that stood when it became calm."""
        for passing, thread in list(self.standing):
            if passing.fate != CALM:
                thread.join(MOST_WAIT)

    def close(self):
        self.listener.close()
        for passing, _ in list(self.standing):
            passing.is_over.set()
