"""Devices that write over links by ways: one that has no peer, and the owner's, which orders.

Each keeps what came back to it, and sends again what didn't, until it comes.
"""
import random
import socket
import struct
import threading
import time

from host_peer import Ended, Host, HostLink
from link_peer import Broken, frame_of, name_word

DOCUMENT = "/d/notes/link"
ENTRY = 4  # the kind of an entry's frame
INSERT = 1
PATIENCE = 4  # seconds for which an answer is awaited
LET_ONE_GO = {1001, 4007, 4008, 4016}  # the closes that a bad net and a jumping clock bring about
LOST = (Broken, OSError, socket.timeout, struct.error, ValueError)
PIECES = ["a", "b", "\\n", "\\s", "\\\\", "é", "€", "𝄞", "word", "two\\swords", "x" * 250]


class Wrong(Exception):
    """Something that has to hold doesn't."""


def name_of(item):
    """The name of a request, the version of an entry."""
    return item[6:8] if item[5] == ENTRY else item[6:14]


def stamp_of(item):
    return 0 if item[5] == ENTRY else int.from_bytes(item[6:12], "big")


class Through(Host):
    """A host as it is reached by a way."""

    def __init__(self, way):
        self.port = way.own_port

    def connect(self):
        connection = socket.create_connection(("127.0.0.1", self.port), PATIENCE)
        connection.settimeout(PATIENCE)
        return connection

    def dial(self, path, *fields, connection=None):
        link = super().dial(path, *fields, connection=connection)
        if not isinstance(link, HostLink):
            raise Broken(f"refused by {link}")
        return link


class Device(threading.Thread):
    """What links anew whenever its link ends, until it is told to end."""

    def __init__(self, way, device, seed):
        super().__init__(daemon=True)
        self.way, self.device, self.dice = way, device, random.Random(seed)
        self.host = Through(way)
        self.items = []  # of the journal, from its beginning on
        self.lives = []  # the items of its former lives, which began anew without any
        self.ends = threading.Event()
        self.is_to_begin_anew = False
        self.broken = None

    def run(self):
        try:
            while not self.is_done():
                self.live()
                time.sleep(self.dice.random() * 0.1)
        except Exception as wrong:  # whatever it is, the play is told of it
            self.broken = wrong

    def is_done(self):
        return self.ends.is_set()

    def live(self):
        """One link, to its end."""
        if self.is_to_begin_anew:
            self.is_to_begin_anew = False
            self.lives.append(self.items)
            self.items = []
        link = None
        try:
            link = self.device.link(self.host, DOCUMENT, start=len(self.items))
            link.items = self.items
            link.first_items(link.saved)
            self.talk(link)
        except Ended as ended:
            if ended.code not in LET_ONE_GO:
                raise Wrong(f"a link of {self.device.site} is ended by {ended.code}") from None
        except LOST:
            pass
        if link is not None:
            link.hang_up()

    def version(self):
        return sum(it[5] == ENTRY for it in self.items)


class Writer(Device):
    """Writes, deletes and updates at places that are drawn. It forgets nothing that it sent and that didn't come back."""

    def __init__(self, way, device, seed):
        super().__init__(way, device, seed)
        self.pending = []
        self.made = []

    def is_done(self):
        return super().is_done() and not self.pending

    def talk(self, link):
        self.settle(link)
        while not self.is_done():
            if not self.ends.is_set():
                self.pending += self.edits()
                link.send(*self.pending)
            self.settle(link, sent=True)
            time.sleep(self.dice.random() * 0.3)
            if self.is_to_begin_anew:
                return

    def settle(self, link, sent=False):
        """Waits until all that was sent has come back."""
        there = set(self.items)
        self.pending = [it for it in self.pending if it not in there]
        if self.pending and not sent:
            link.send(*self.pending)
        while self.pending:
            count = len(self.items)
            link.take_message()
            came = set(self.items[count:])
            self.pending = [it for it in self.pending if it not in came]
            if any(text.startswith("told conflict") for text in link.texts):
                raise Wrong(f"a conflict is told: {link.texts}")

    def edits(self):
        stamp = max(map(stamp_of, self.items), default=0)
        elements = [name_word(name_of(it)) for it in self.items if it[5] == INSERT]
        made = []
        for number in range(1, self.dice.choice([1, 1, 1, 2, 5]) + 1):
            name = f"{stamp + number}.{self.device.site}"
            made.append(frame_of(f"request {name} {self.version()} {self.edit(elements)}"))
            if made[-1][5] == INSERT:
                elements.append(name)
        self.made += made
        return made

    def edit(self, elements):
        kind = self.dice.choice(["insert", "insert", "insert", "delete", "update"]) if elements else "insert"
        if kind == "insert":
            return f"insert {self.dice.choice(elements[-20:] + ['0.0'])} {self.dice.choice(PIECES)}"
        about = self.dice.choice(elements)
        return f"delete {about}" if kind == "delete" else f"update {about} {self.dice.choice(PIECES)}"


class Owner(Device):
    """Orders edits, objects, confirmings, and rights that are taken away. What it was told of is kept."""

    def __init__(self, way, device, seed, sites):
        super().__init__(way, device, seed)
        self.sites = sites
        self.told = []
        self.orders = 0

    def talk(self, link):
        while not self.is_done() and not self.is_to_begin_anew:
            self.order(link, self.drawn())
            time.sleep(self.dice.random() * 0.5)

    def drawn(self):
        requests = [name_word(name_of(it)) for it in self.items if it[5] != ENTRY]
        rows = ["edit insert 0 Owner.", f"admin addgroup {self.dice.randrange(60000)}"]
        rows += [f"admin validate {self.dice.choice(requests)}"] if requests else []
        if self.dice.random() < 0.2:
            rows = [f"admin addauth 0 - {self.dice.choice(self.sites)} {self.dice.choice('du')} 0"]
        return self.dice.choice(rows)

    def order(self, link, line):
        self.orders += 1
        number = self.orders
        link.say(f"order {number}\n{line}")
        while True:
            for text in link.texts:
                if text.startswith((f"answer {number}\n", f"refused {number} ")):
                    link.texts.clear()
                    self.told += text.split("\n")[1:]
                    return
            link.take_message()
