"""What has happened at a host, and what follows from that."""
from __future__ import annotations

from dataclasses import dataclass, replace
from typing import Iterator, NamedTuple, Optional, Union

from peer import Peer
from values import Message, Receive, Step

OWNER, WRITER, READER = "owner", "writer", "reader"


@dataclass(frozen=True)
class Device:
    person: int
    role: str
    digest: bytes


@dataclass(frozen=True)
class Hello:
    document: bytes
    site: int
    secret: bytes
    start: int


class LinkId(NamedTuple):
    site: int
    number: int


@dataclass(frozen=True)
class OpenLink:
    """Its number, its role, from where on it is given messages, and the place of the next one."""

    number: int
    role: str
    start: int
    mark: int


# ---- what has happened

@dataclass(frozen=True)
class Began:
    peer: Peer
    document: bytes


@dataclass(frozen=True)
class PersonMade:
    pass


@dataclass(frozen=True)
class DeviceMade:
    site: int
    device: Device


@dataclass(frozen=True)
class SecretChanged:
    site: int
    digest: bytes


@dataclass(frozen=True)
class DeviceClosed:
    site: int


@dataclass(frozen=True)
class LinkOpened:
    hello: Hello


@dataclass(frozen=True)
class LinkClosed:
    link: LinkId


@dataclass(frozen=True)
class Made:
    """A step that a link asked for, or the host itself; the peer behind it, and whether a request was denied by it."""

    by: Optional[LinkId]
    step: Step
    after: Peer
    is_denial: bool


@dataclass(frozen=True)
class Saved:
    pass


@dataclass(frozen=True)
class Gave:
    link: LinkId
    message: Message


@dataclass(frozen=True)
class Told:
    link: LinkId


Event = Union[Began, PersonMade, DeviceMade, SecretChanged, DeviceClosed, LinkOpened, LinkClosed, Made, Saved, Gave, Told]


def newest(past: list[Event]) -> Iterator[tuple[int, Event]]:
    """The events with their places, the newest first."""
    return ((place, past[place]) for place in range(len(past) - 1, -1, -1))


def peer_of(past: list[Event]) -> Peer:
    """The peer that the host began with, after all steps that were made."""
    return next(e.peer if isinstance(e, Began) else e.after for _, e in newest(past) if isinstance(e, (Began, Made)))


def saved_of(past: list[Event]) -> tuple[Message, ...]:
    """The journal when all was saved the last time."""
    place = next(place for place, e in newest(past) if isinstance(e, (Began, Saved)))
    return peer_of(past[:place + 1]).journal.messages


def count(past: list[Event], kind: type) -> int:
    return sum(isinstance(e, kind) for e in past)


def device_of(past: list[Event], site: int) -> Optional[Device]:
    """The device of a site, until it is closed, with its last secret."""
    digest = None
    for _, event in newest(past):
        match event:
            case DeviceClosed(at) if at == site:
                return None
            case SecretChanged(at, changed) if at == site:
                digest = digest or changed
            case DeviceMade(at, device) if at == site:
                return replace(device, digest=digest or device.digest)
    return None


def link_of(past: list[Event], site: int) -> Optional[OpenLink]:
    """The open link of a site: the newest, until it, its device or its secret is closed."""
    given = 0
    for place, event in newest(past):
        match event:
            case Gave(LinkId(at, _), _) if at == site:
                given += 1
            case SecretChanged(at, _) | DeviceClosed(at) | LinkClosed(LinkId(at, _)) if at == site:
                return None
            case LinkOpened(hello) if hello.site == site:
                before = past[:place]
                return OpenLink(count(before, LinkOpened), device_of(before, site).role, hello.start, hello.start + given)
    return None


def open_link(past: list[Event], link: LinkId) -> Optional[OpenLink]:
    known = link_of(past, link.site)
    return known if known is not None and known.number == link.number else None


def denied_of(past: list[Event], site: int) -> int:
    """How many requests that a site's links offered were denied as they came."""
    return sum(isinstance(e, Made) and e.by is not None and e.by.site == site and isinstance(e.step, Receive) and e.is_denial for e in past)
