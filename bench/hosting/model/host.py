"""A host, as its laws say: it is the list of what has happened, and all that it knows is computed anew from that."""
from __future__ import annotations

import hashlib
from typing import NamedTuple, Optional

from past import OWNER, READER, Began, Device, DeviceClosed, DeviceMade, Event, Gave, Hello, LinkClosed, LinkId, LinkOpened, Made, OpenLink
from past import PersonMade, Saved, SecretChanged, Told, count, denied_of, device_of, open_link, peer_of, saved_of
from peer import Peer, answer
from values import Administer, DeleteAt, Entry, InsertAt, Message, Op, Receive, Request, Settle, Step, UpdateAt, ValidateNext
from values import message_words, name_word

ORDERS = (InsertAt, DeleteAt, UpdateAt, Administer, ValidateNext)


class Limits(NamedTuple):
    """The limits of a host, in the order in which the player tells them."""

    people: int
    sites: int
    requests: int
    denied: int
    opened: int


def first(*rows: tuple[bool, str]) -> Optional[str]:
    """The first refusal that holds."""
    return next((words for holds, words in rows if holds), None)


class Keeper:
    """Which calls of what keeps the peer fail, and how many were made."""

    FAILS = {"full": "store-full", "memory": "no-memory", "disk": "disk-fault"}

    def __init__(self, failures: dict[int, str]):
        self.failures = failures
        self.calls = 0

    def call(self) -> Optional[str]:
        """One more call, and the refusal that it leads to, if any."""
        fail = self.failures.get(self.calls)
        self.calls += 1
        return None if fail is None else self.FAILS[fail]


class Host:
    """A host by its past. Each call gives the line that the player writes."""

    def __init__(self, limits: Limits, peer: Peer, document: bytes, keeper: Keeper):
        self.limits = limits
        self.keeper = keeper
        self.past: list[Event] = [Began(peer, document)]

    @property
    def peer(self) -> Peer:
        return peer_of(self.past)

    @property
    def document(self) -> bytes:
        return self.past[0].document

    @property
    def saved(self) -> tuple[Message, ...]:
        return saved_of(self.past)

    @property
    def is_all_saved(self) -> bool:
        return len(self.saved) >= len(self.peer.journal.messages)

    def open_link(self, link: LinkId) -> Optional[OpenLink]:
        return open_link(self.past, link)

    def refused_or(self, refusal: Optional[str], event: Event, told: str) -> str:
        """The event happens, unless it is refused."""
        if refusal is not None:
            return f"refused {refusal}"
        self.past.append(event)
        return told

    # ---- people

    def make_person(self) -> str:
        made = count(self.past, PersonMade)
        return self.refused_or(first((made >= self.limits.people, "numbers-used-up")), PersonMade(), f"person {made}")

    def make_device(self, device: Device) -> str:
        made = count(self.past, DeviceMade)
        no_person = device.person >= count(self.past, PersonMade)
        refusal = first((no_person, "no-person"), (made >= self.limits.sites, "numbers-used-up"))
        return self.refused_or(refusal, DeviceMade(made + 1, device), f"site {made + 1}")

    def refused_device(self, site: int) -> Optional[str]:
        return first((device_of(self.past, site) is None, "no-device"))

    def change_secret(self, site: int, digest: bytes) -> str:
        return self.refused_or(self.refused_device(site), SecretChanged(site, digest), "ok")

    def close_device(self, site: int) -> str:
        return self.refused_or(self.refused_device(site), DeviceClosed(site), "ok")

    # ---- links

    def admit(self, hello: Hello) -> str:
        device = device_of(self.past, hello.site)
        opened = count(self.past, LinkOpened)
        refusal = first(
            (hello.document != self.document, "other-document"),
            (device is None or device.digest != hashlib.sha256(hello.secret).digest(), "wrong-secret"),
            (hello.start > len(self.saved), "ahead-of-host"),
            (opened >= self.limits.opened, "numbers-used-up"),
        )
        return self.refused_or(refusal, LinkOpened(hello), f"link {hello.site} {opened}")

    def close(self, link: LinkId) -> str:
        return self.refused_or(first((self.open_link(link) is None, "no-link")), LinkClosed(link), "ok")

    # ---- steps

    def refused_request(self, site: int, link: OpenLink, request: Request) -> Optional[str]:
        journal = self.peer.journal
        missing = journal.missing(request)
        return first(
            (link.role == READER, "reads-alone"),
            (request.id.site != site, "forged-site"),
            (request.id.stamp > journal.greatest + 1, "stamp-ahead"),
            (missing is not None, f"misses {missing}"),
            (denied_of(self.past, site) >= self.limits.denied, "denied-too-often"),
            (len(journal.requests) >= self.limits.requests, "owners-reserve"),
        )

    def refused_ask(self, link: LinkId, step: Step) -> Optional[str]:
        known = self.open_link(link)
        if known is None:
            return "no-link"
        match step:
            case Receive(Request() as request):
                return self.refused_request(link.site, known, request)
            case Receive(Entry()):
                return "entry-offered"
        return first((known.role != OWNER or not isinstance(step, ORDERS), "not-allowed"))

    def make(self, by: Optional[LinkId], step: Step) -> str:
        failed = self.keeper.call()
        made = answer(self.peer, step)
        return self.refused_or(failed, Made(by, step, made.after, made.is_denial), made.words)

    def ask(self, link: LinkId, step: Step) -> str:
        refusal = self.refused_ask(link, step)
        return self.make(link, step) if refusal is None else f"refused {refusal}"

    def own(self, step: Step) -> str:
        return self.make(None, step) if isinstance(step, ORDERS + (Settle,)) else "refused not-allowed"

    def save(self) -> str:
        """A save fails for the disk alone."""
        failed = self.keeper.call() is not None
        return self.refused_or(self.keeper.FAILS["disk"] if failed else None, Saved(), "ok")

    # ---- what links are given and told

    def give(self, link: LinkId) -> str:
        known = self.open_link(link)
        if known is None:
            return "refused no-link"
        if known.mark >= len(self.saved):
            return "none"
        message = self.peer.journal.messages[known.mark]
        return self.refused_or(None, Gave(link, message), f"item {message_words(message)}")

    def tell(self, link: LinkId) -> str:
        if self.open_link(link) is None:
            return "refused no-link"
        return self.refused_or(None, Told(link), "told") if self.is_all_saved else "not yet"

    # ---- questions

    def outlook(self, op: Op, users: int) -> str:
        """The requests that an operation would undo, how many of each of the first users, and the answer."""
        would = answer(self.peer, Administer(op))
        undone = self.peer.journal.undone_by(would.after.journal)
        of_users = [sum(name.site == user for name in undone) for user in range(users)]
        return " ".join(["undone", *map(name_word, undone), "of", *map(str, of_users), "answer", would.words])

    def site(self, link: LinkId) -> str:
        known = self.open_link(link)
        who = "nobody" if device_of(self.past, link.site) is None else "device"
        what = "closed" if known is None else f"{known.start} {known.mark}"
        return f"{who} {denied_of(self.past, link.site)} {what}"
