"""A random history of hosts of one document: people and pages come and go, some lie, hosts crash and go on."""
from __future__ import annotations

import hashlib
from dataclasses import dataclass, field
from typing import Callable, Optional

from draw import Draw
from host import Host, Keeper, Limits
from past import OWNER, READER, WRITER, Device, Hello, LinkId
from peer import Journal, Peer, answer, shown_words
from values import AddAuth, AddUser, Administer, Auth, Everyone, Op, Receive, Step, message_words, op_words, step_words

# Of so many users the player tells apart what would be undone.
TOLD_USERS = 8
# How many events a life of a host has at most, and how many lives a history has.
EVENTS, LIVES = 45, 3


@dataclass
class Known:
    """A device as its owner knows it: its secrets, the last of which counts, and the messages that its page has."""

    person: int
    role: str
    secrets: list[bytes]
    is_open: bool = True
    page: list[str] = field(default_factory=list)


@dataclass(frozen=True)
class Line:
    """A line for the player, and the line that it has to answer."""

    event: str
    told: str


class History:
    """Plays random events at the model, and writes down the lines."""

    def __init__(self, seed: int, limits: Limits):
        self.draw = Draw(seed)
        self.limits = limits
        self.lines: list[Line] = []
        self.document = self.secret()
        self.devices: dict[int, Known] = {}
        self.people = 0
        self.links: list[LinkId] = []
        self.host = self.begun(self.first_peer())

    def say(self, event: str, told: str) -> str:
        self.lines.append(Line(event, told))
        return told

    def secret(self) -> bytes:
        return self.draw.rng.randbytes(16)

    # ---- how a host begins

    def first_peer(self) -> Peer:
        """The peer of which the first host is begun: it may have a past, and hold messages."""
        self.say("fresh", "ok")
        peer = Peer(0, Journal())
        for _ in range(self.draw.number(8) if self.draw.chance(0.4) else 0):
            step = self.draw.early_step(peer)
            made = answer(peer, step)
            self.say(f"feed {step_words(step)}", made.words)
            peer = made.after
        return peer

    def begun(self, peer: Peer) -> Host:
        """A host of a peer, some calls of whose keeper fail."""
        failing = self.draw.number(4) if self.draw.chance(0.4) else 0
        calls = self.draw.rng.sample(range(EVENTS), failing)
        failures = {call: self.draw.one(["full", "memory", "disk"]) for call in sorted(calls)}
        words = " ".join(f"{call}:{fail}" for call, fail in failures.items())
        self.say(f"begin {self.document.hex()} {words}".rstrip(" "), "ok")
        self.say("journal", self.journal_words(peer))
        return Host(self.limits, peer, self.document, Keeper(failures))

    @staticmethod
    def journal_words(peer: Peer) -> str:
        return "journal" + "".join(f" | {message_words(m)}" for m in peer.journal.messages)

    def open_house(self) -> None:
        """The first people, and a rule by which they may write."""
        for role in (OWNER, WRITER, WRITER, READER)[:self.draw.rng.randint(1, 4)]:
            self.person()
            self.new_device(self.people - 1, role)
        if self.draw.chance(0.8):
            self.own(Administer(AddAuth(0, Auth(Everyone(), "idu", (0,), True))))
            for site in self.devices:
                self.own(Administer(AddUser(site)))

    def crash(self) -> None:
        """The host is gone. What was saved is left, and maybe more."""
        host = self.host
        unsaved = len(host.peer.journal.messages) - len(host.saved)
        more = self.draw.number(unsaved + 2)
        left = host.peer.journal.messages[:len(host.saved) + more]
        self.say(f"crash {more}", f"left {len(left)}")
        self.links = []
        self.host = self.begun(Peer(0, Journal(left)))
        if self.draw.chance(0.3):
            self.change_role()
        if self.draw.chance(0.9):
            self.tell_people()
        else:
            self.people, self.devices = 0, {}

    def change_role(self) -> None:
        """A person's devices may do more or less from now on. A host learns of it when it begins."""
        person, role = self.draw.number(self.people + 1), self.draw.one([OWNER, WRITER, READER])
        for known in self.devices.values():
            if known.person == person:
                known.role = role

    def tell_people(self) -> None:
        """A host that goes on is told of the people of the one before it."""
        for _ in range(self.people):
            self.say("person", self.host.make_person())
        for known in self.devices.values():
            device = self.device(known)
            told = self.say(self.device_line(device), self.host.make_device(device))
            if not known.is_open:
                site = told.removeprefix("site ")
                self.say(f"leave {site}", self.host.close_device(int(site)))

    # ---- people

    def person(self) -> None:
        if self.say("person", self.host.make_person()).startswith("person"):
            self.people += 1

    @staticmethod
    def device(known: Known) -> Device:
        return Device(known.person, known.role, hashlib.sha256(known.secrets[-1]).digest())

    @staticmethod
    def device_line(device: Device) -> str:
        return f"device {device.person} {device.role} {device.digest.hex()}"

    def new_device(self, person: int, role: str) -> None:
        known = Known(person, role, [self.secret()])
        device = self.device(known)
        told = self.say(self.device_line(device), self.host.make_device(device))
        if told.startswith("site"):
            self.devices[int(told.split(" ")[1])] = known

    def any_device(self) -> None:
        self.new_device(self.draw.number(self.people + 1), self.draw.one([OWNER, WRITER, WRITER, READER]))

    def some_site(self) -> int:
        return self.draw.number(len(self.devices) + 2)

    def change_secret(self) -> None:
        site, secret = self.some_site(), self.secret()
        told = self.host.change_secret(site, hashlib.sha256(secret).digest())
        self.say(f"secret {site} {hashlib.sha256(secret).hexdigest()}", told)
        if told == "ok":
            self.devices[site].secrets.append(secret)

    def leave(self) -> None:
        site = self.some_site()
        if self.say(f"leave {site}", self.host.close_device(site)) == "ok":
            self.devices[site].is_open = False

    # ---- links

    def start_of(self, known: Optional[Known]) -> int:
        """How many messages a page says that it has: mostly as many as it has."""
        has = 0 if known is None else len(known.page)
        return has if self.draw.chance(0.85) else self.draw.number(len(self.host.peer.journal.messages) + 3)

    def hello(self, site: int) -> Hello:
        known = self.devices.get(site)
        secret = self.secret() if known is None or self.draw.chance(0.03) else known.secrets[-1]
        if known is not None and self.draw.chance(0.05):
            secret = self.draw.one(known.secrets)
        document = self.secret() if self.draw.chance(0.03) else self.document
        return Hello(document, site, secret, self.start_of(known))

    def admit(self) -> None:
        site = self.draw.one(list(self.devices)) if self.devices and self.draw.chance(0.93) else self.some_site()
        hello = self.hello(site)
        words = f"admit {hello.document.hex()} {hello.site} {hello.secret.hex()} {hello.start}"
        told = self.say(words, self.host.admit(hello))
        if told.startswith("link"):
            self.links.append(LinkId(site, int(told.split(" ")[2])))
            page = self.devices[site].page
            self.devices[site].page = [message_words(m) for m in self.host.saved[:hello.start]] if hello.start != len(page) else page

    def standing(self) -> list[LinkId]:
        return [link for link in self.links if self.host.open_link(link) is not None]

    def link(self) -> LinkId:
        """A link: mostly one that is open, else one that was, or none."""
        standing = self.standing()
        if not standing and self.draw.chance(0.7):
            self.admit()
            standing = self.standing()
        draw = self.draw.rng.random()
        if standing and draw < 0.9:
            return self.draw.one(standing)
        if self.links and draw < 0.97:
            return self.draw.one(self.links)
        return LinkId(self.some_site(), self.draw.number(4))

    def close(self) -> None:
        link = self.link()
        self.say(f"close {link.site} {link.number}", self.host.close(link))

    # ---- steps

    def own(self, step: Step) -> None:
        self.say(f"own {step_words(step)}", self.host.own(step))

    def ask(self, link: LinkId, step: Step) -> None:
        self.say(f"ask {link.site} {link.number} {step_words(step)}", self.host.ask(link, step))

    def offer(self) -> None:
        link = self.link()
        self.ask(link, Receive(self.draw.request(self.host.peer.journal, link.site)))

    def order(self) -> None:
        """An order, mostly of an owner's link."""
        owners = [link for link in self.links if (known := self.host.open_link(link)) is not None and known.role == OWNER]
        link = self.draw.one(owners) if owners and self.draw.chance(0.85) else self.link()
        self.ask(link, self.draw.order(self.host.peer))

    def odd(self) -> None:
        self.ask(self.link(), self.draw.odd_step(self.host.peer))

    def own_step(self) -> None:
        self.own(self.draw.own_step(self.host.peer))

    def save(self) -> None:
        self.say("save", self.host.save())

    # ---- what is given, told and asked

    def give(self) -> None:
        """A link is given what there is, or a part of it."""
        link = self.link()
        for _ in range(self.draw.rng.randint(1, 4)):
            told = self.say(f"next {link.site} {link.number}", self.host.give(link))
            if not told.startswith("item "):
                return
            self.devices[link.site].page.append(told.removeprefix("item "))

    def tell(self) -> None:
        link = self.link()
        self.say(f"tell {link.site} {link.number}", self.host.tell(link))

    def op(self) -> Op:
        """An operation, which may well deny what was granted."""
        return self.draw.denying_op() if self.draw.chance(0.5) else self.draw.op(self.host.peer.journal)

    def outlook(self) -> None:
        op = self.op()
        self.say(f"outlook admin {op_words(op)}", self.host.outlook(op, TOLD_USERS))

    def site(self) -> None:
        link = self.link()
        self.say(f"site {link.site} {link.number}", self.host.site(link))

    def text(self) -> None:
        self.say("text", f"text{shown_words(self.host.peer.journal.text)}")

    def look(self) -> None:
        """All that shows of the host."""
        self.say("saved", f"saved {len(self.host.saved)}")
        self.say("journal", self.journal_words(self.host.peer))
        self.text()
        for site in range(len(self.devices) + 2):
            self.say(f"site {site} 0", self.host.site(LinkId(site, 0)))

    # ---- a whole history

    def events(self) -> tuple[list[Callable[[], None]], list[int]]:
        """What may happen, and how often each does."""
        weights = {
            self.person: 2, self.any_device: 3, self.change_secret: 1, self.leave: 1, self.admit: 10, self.close: 2,
            self.offer: 26, self.order: 12, self.odd: 1, self.own_step: 8, self.save: 9,
            self.give: 14, self.tell: 5, self.outlook: 5, self.site: 3, self.text: 2,
        }
        return list(weights), list(weights.values())

    def live(self) -> None:
        """A life of a host."""
        events, weights = self.events()
        for event in self.draw.rng.choices(events, weights, k=self.draw.rng.randint(10, EVENTS)):
            event()
        self.look()

    def play(self) -> list[Line]:
        self.open_house()
        self.live()
        for _ in range(self.draw.number(LIVES)):
            self.crash()
            self.live()
        return self.lines
