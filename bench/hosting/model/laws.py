"""The laws, asked of the lines of a history as they were answered. It knows events and answers as lines, and no host."""
from __future__ import annotations

import hashlib
from dataclasses import dataclass, field
from typing import Callable, Optional

# The answers whose step puts a message into the journal.
JOINING = ("done ", "entry ", "taken ", "version ", "settled ")


class Unlawful(Exception):
    """A law is broken."""


def hold(fact: bool, law: str) -> None:
    if not fact:
        raise Unlawful(law)


def key_of(message: str) -> str:
    """By what a message is known: a request's name, an entry's version."""
    return " ".join(message.split(" ")[:2])


def site_of(message: str) -> int:
    """The site of a request."""
    return int(message.split(" ")[1].split(".")[1])


def stamp_of(message: str) -> int:
    return int(message.split(" ")[1].split(".")[0])


def is_request(message: str) -> bool:
    return message.startswith("request ")


@dataclass
class Link:
    """An open link: from where on it is given messages, and those that it was given."""

    start: int
    given: list[str] = field(default_factory=list)


class Life:
    """What is known of a host since it began: the links that are open, by site and number, and what was taken of them."""

    def __init__(self) -> None:
        self.first: Optional[list[str]] = None
        self.journal: list[str] = []
        self.length = self.saved = 0
        self.digests: dict[str, bytes] = {}
        self.links: dict[tuple[str, str], Link] = {}
        self.closed: list[Link] = []
        self.taken: set[str] = set()
        self.holds = False

    def close_site(self, site: str) -> None:
        for key in [key for key in self.links if key[0] == site]:
            self.closed.append(self.links.pop(key))

    # ---- people and links

    def device(self, words: list[str], told: str) -> None:
        if told.startswith("site "):
            site = told.split(" ")[1]
            hold(site not in self.digests, "no site is given twice")
            self.digests[site] = bytes.fromhex(words[3])

    def secret(self, words: list[str], told: str) -> None:
        if told == "ok":
            self.digests[words[1]] = bytes.fromhex(words[2])
            self.close_site(words[1])

    def leave(self, words: list[str], told: str) -> None:
        if told == "ok":
            self.digests[words[1]] = b""
            self.close_site(words[1])

    def admit(self, words: list[str], told: str) -> None:
        if told.startswith("link "):
            _, _, site, secret, start = words
            hold(hashlib.sha256(bytes.fromhex(secret)).digest() == self.digests[site], "a link shows the key of its site")
            hold(int(start) <= self.saved, "a link has no more than is saved")
            self.close_site(site)
            self.links[site, told.split(" ")[2]] = Link(int(start))

    def close(self, words: list[str], told: str) -> None:
        if told == "ok":
            self.closed.append(self.links.pop((words[1], words[2])))

    # ---- steps

    def joined(self, told: str) -> None:
        self.length += told.startswith(JOINING)

    def ask(self, words: list[str], told: str) -> None:
        self.joined(told)
        if told.startswith("refused ") and not told.split(" ")[1].isdigit():
            return
        hold((words[1], words[2]) in self.links, "nothing is taken from a link that is closed")
        hold(words[4:5] != ["entry"] or words[3] != "message", "no entry comes from a link")
        hold(not told.startswith(("held ", "hold full")), "nothing of a link is held")
        if words[3] == "message":
            message = " ".join(words[4:])
            hold(words[1] == str(site_of(message)), "a link offers requests of its site")
            self.taken.add(message)

    def own(self, _: list[str], told: str) -> None:
        self.joined(told)

    def save(self, _: list[str], told: str) -> None:
        if told == "ok":
            self.saved = self.length

    # ---- what is given and told

    def next(self, words: list[str], told: str) -> None:
        if told.startswith("refused "):
            return
        link = self.links.get((words[1], words[2]))
        hold(link is not None, "a link that is closed is given nothing")
        if told == "none":
            hold(link.start + len(link.given) >= self.saved, "a link is given all that is saved")
        else:
            hold(link.start + len(link.given) < self.saved, "what a link is given is saved")
            link.given.append(told.removeprefix("item "))

    def tell(self, words: list[str], told: str) -> None:
        if told == "told":
            hold((words[1], words[2]) in self.links, "a link that is closed is told nothing")
            hold(self.length == self.saved, "what a link is told of is saved")
        if told == "not yet":
            hold(self.length > self.saved, "a link is told once all is saved")

    # ---- the journal

    def look(self, _: list[str], told: str) -> None:
        self.journal = told.split(" | ")[1:]
        if self.first is None:
            self.first = self.journal
            self.length = self.saved = len(self.journal)
            return
        hold(self.journal[:len(self.first)] == self.first, "a journal grows")
        hold(len(self.journal) == self.length, "each answer says whether its message joined")
        self.check_requests([m for m in self.journal[len(self.first):] if is_request(m)])
        for link in self.closed + list(self.links.values()):
            hold(self.journal[link.start:link.start + len(link.given)] == link.given, "a link is given the journal in order")

    def check_requests(self, new: list[str]) -> None:
        if not self.holds:
            hold(all(site_of(m) == 0 or m in self.taken for m in new), "each request came on a link of its site")
            before = max((stamp_of(m) for m in self.first if is_request(m)), default=0)
            hold(all(stamp_of(m) <= before + len(new) for m in new), "the clock runs by one for each request")


class Witness:
    """Hears a history line by line."""

    def __init__(self) -> None:
        self.life = Life()
        self.given: dict[str, str] = {}
        self.left: list[str] = []

    def crash(self, _: list[str], told: str) -> None:
        """What was saved is left, and what was given has one content for each key."""
        life, count = self.life, int(told.split(" ")[1])
        hold(count >= life.saved, "a crash leaves what was saved")
        for link in life.closed + list(life.links.values()):
            self.hear_given(link.given)
        self.left = life.journal[:count]
        self.life = Life()

    def hear_given(self, messages: list[str]) -> None:
        for message in messages:
            hold(self.given.setdefault(key_of(message), message) == message, "no link is given two contents under one key")

    def feed(self, _: list[str], told: str) -> None:
        self.life.holds = self.life.holds or told.startswith("held ")

    def hear(self, event: str, told: str) -> None:
        words = event.split(" ")
        life = self.life
        hears: dict[str, Callable[[list[str], str], None]] = {
            "crash": self.crash, "feed": self.feed, "device": life.device, "secret": life.secret, "leave": life.leave, "admit": life.admit,
            "close": life.close, "ask": life.ask, "own": life.own, "save": life.save, "next": life.next, "tell": life.tell, "journal": life.look,
        }
        hear = hears.get(words[0])
        if hear is not None:
            hear(words, told)
        if words[0] == "journal" and life.first is life.journal:
            hold(life.first[:len(self.left)] == self.left, "a host goes on from what is left")
