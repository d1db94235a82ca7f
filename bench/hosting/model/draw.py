"""Draws values at random: most of them fit what stands, and some are lies."""
from __future__ import annotations

import random
from typing import Optional, Sequence, TypeVar

from peer import Journal, Peer
from values import START, AddAuth, AddGroup, AddMember, AddObj, AddUser, Administer, AllElements, Auth, ByUser, DelAuth, Delete, DeleteAt
from values import DelGroup, DelMember, DelObj, DelUser, Edit, Elements, Entry, Everyone, Extent, Insert, InsertAt, Listed, Look, Members, Message
from values import Name, Op, Receive, Request, Settle, Show, Span, Step, Update, UpdateAt, Users, Validate, ValidateNext

T = TypeVar("T")
PIECES = ["a", "b", "c", "word", "two words", "\n", "\\", "é", "𝄞"]
RIGHTS = ["i", "d", "u", "id", "iu", "du", "idu", "idu", "idu"]
USERS, GROUPS, OBJECTS = 7, 3, 3


class Draw:
    """Draws values for a document that all share."""

    def __init__(self, seed: int):
        self.rng = random.Random(seed)

    def chance(self, part: float) -> bool:
        return self.rng.random() < part

    def one(self, items: Sequence[T]) -> T:
        return self.rng.choice(items)

    def some(self, below: int) -> tuple[int, ...]:
        return tuple(sorted(self.rng.sample(range(below), self.rng.randint(1, min(2, below)))))

    def number(self, below: int) -> int:
        return self.rng.randrange(below)

    # ---- names

    def foreign_name(self) -> Name:
        """A name that may be none of the document."""
        return Name(self.rng.randint(1, 9), self.number(USERS))

    def request_name(self, journal: Journal) -> Name:
        return self.one(journal.requests).id if journal.requests and self.chance(0.95) else self.foreign_name()

    def element(self, journal: Journal) -> Name:
        names = journal.order.names
        return self.one(names) if names and self.chance(0.95) else self.foreign_name()

    # ---- operations

    def extent(self, journal: Journal) -> Extent:
        match self.number(4):
            case 0:
                return AllElements()
            case 1:
                return Span(self.element(journal), self.element(journal))
            case 2:
                return Elements(tuple(sorted({self.element(journal), self.element(journal)})))
            case _:
                return ByUser(self.number(USERS))

    def users(self) -> Users:
        match self.number(4):
            case 0:
                return Members(self.some(GROUPS))
            case 1:
                return Listed(self.some(USERS))
            case _:
                return Everyone()

    def auth(self) -> Auth:
        objects = self.some(OBJECTS) if self.chance(0.3) else (0,)
        return Auth(self.users(), self.one(RIGHTS), objects, self.chance(0.6))

    def op(self, journal: Journal) -> Op:
        draws = [
            lambda: AddUser(self.number(USERS)),
            lambda: DelUser(self.number(USERS)),
            lambda: AddObj(self.number(OBJECTS), self.extent(journal)),
            lambda: DelObj(self.number(OBJECTS)),
            lambda: AddGroup(self.number(GROUPS)),
            lambda: DelGroup(self.number(GROUPS)),
            lambda: AddMember(self.number(GROUPS), self.number(USERS)),
            lambda: DelMember(self.number(GROUPS), self.number(USERS)),
            lambda: AddAuth(self.number(3), self.auth()),
            lambda: DelAuth(self.number(3)),
            lambda: Validate(self.request_name(journal)),
        ]
        return self.rng.choices(draws, [4, 2, 2, 1, 2, 1, 3, 1, 5, 2, 3])[0]()

    def denying_op(self) -> Op:
        """An operation by which users may lose rights."""
        taken = Auth(self.users(), self.one(RIGHTS), (0,), False)
        return self.one([DelUser(self.rng.randint(1, USERS - 1)), DelAuth(0), AddAuth(0, taken), AddAuth(0, taken)])

    # ---- requests

    def edit(self, journal: Journal, stamp: int) -> Edit:
        """An edit of an element that may be older than a request of this stamp."""
        element = self.element(journal)
        draw = self.rng.random()
        if element.stamp >= stamp or draw < 0.2:
            return Insert(START, self.one(PIECES))
        if draw < 0.6:
            return Insert(element, self.one(PIECES))
        return Delete(element) if draw < 0.8 else Update(element, self.one(PIECES))

    def stamp(self, journal: Journal) -> int:
        draw = self.rng.random()
        if draw < 0.85:
            return journal.greatest + 1
        return self.rng.randint(1, journal.greatest + 1) if draw < 0.93 else journal.greatest + self.rng.randint(2, 5)

    def version(self, journal: Journal) -> int:
        draw = self.rng.random()
        if draw < 0.75:
            return journal.front
        return self.number(journal.front + 1) if draw < 0.96 else journal.front + 1

    def new_request(self, journal: Journal, site: int) -> Request:
        stamp = self.stamp(journal)
        return Request(Name(stamp, site), self.version(journal), self.edit(journal, stamp))

    def changed(self, request: Request) -> Request:
        """Another request of the same name."""
        return Request(request.id, request.version, Insert(START, self.one(PIECES)))

    def known_request(self, journal: Journal, site: int) -> Optional[Request]:
        own = [q for q in journal.requests if q.id.site == site]
        return self.one(own) if own else None

    def request(self, journal: Journal, site: int) -> Request:
        """A request that a link of a site offers: mostly a new one of its own."""
        draw = self.rng.random()
        known = self.known_request(journal, site)
        if draw < 0.1 and known is not None:
            return known if draw < 0.06 else self.changed(known)
        return self.new_request(journal, self.number(USERS) if draw > 0.95 else site)

    def entry(self, journal: Journal) -> Entry:
        return Entry(self.rng.randint(1, journal.front + 2), self.op(journal))

    def message(self, journal: Journal) -> Message:
        """A message of anyone."""
        return self.entry(journal) if self.chance(0.1) else self.new_request(journal, self.rng.randint(1, USERS - 1))

    # ---- steps

    def edit_in_place(self, peer: Peer) -> Step:
        length = len(peer.journal.shown)
        place = self.number(length + 2)
        draw = self.rng.random()
        if draw < 0.6:
            return InsertAt(place, self.one(PIECES))
        return DeleteAt(place) if draw < 0.8 else UpdateAt(place, self.one(PIECES))

    def order(self, peer: Peer) -> Step:
        """A step that an owner may ask for."""
        draw = self.rng.random()
        if draw < 0.35:
            return self.edit_in_place(peer)
        return Administer(self.op(peer.journal)) if draw < 0.85 else ValidateNext()

    def odd_step(self, peer: Peer) -> Step:
        """A step that no link may ask for."""
        return self.one([Settle(), Look(self.number(4)), Show(), Receive(self.entry(peer.journal))])

    def own_step(self, peer: Peer) -> Step:
        """A step that the host asks for itself."""
        draw = self.rng.random()
        if draw < 0.8:
            return self.order(peer)
        return Settle() if draw < 0.93 else self.one([Look(0), Show(), Receive(self.message(peer.journal))])

    def early_message(self, journal: Journal) -> Message:
        """A message that comes to a peer early or late: it may miss the next version."""
        message = self.message(journal)
        if self.chance(0.4):
            return Entry(journal.front + 2, self.op(journal))
        if isinstance(message, Request) and self.chance(0.4):
            return Request(message.id, journal.front + 1, message.edit)
        return message

    def early_step(self, peer: Peer) -> Step:
        """A step of a peer of which a host is begun: what it misses it holds."""
        return self.order(peer) if self.chance(0.4) else Receive(self.early_message(peer.journal))
