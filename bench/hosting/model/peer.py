"""A peer, as its definitions say: all of it is computed anew from its journal."""
from __future__ import annotations

from dataclasses import dataclass
from functools import cached_property
from typing import Callable, Optional, Union

from policy import FIRST, Denied, Order, Policy, denial, policy_after, policy_fault
from values import START, AddObj, Administer, Delete, DeleteAt, Edit, EditAt, Entry, Insert, InsertAt, Look, Message, Name, Op, Receive, Request
from values import Settle, Show, Span, Step, Update, UpdateAt, Validate, ValidateNext, message_words, name_word, other, text_words

# Limits of a peer, of which no history here comes to an end: of stamps, requests, versions, and messages that are held.
MOST_STAMPS, MOST_REQUESTS, MOST_VERSIONS, MOST_HELD = 2**48 - 1, 131_072, 16_383, 4_096
RIGHTS = {Insert: "i", Delete: "d", Update: "u"}


@dataclass(frozen=True)
class State:
    """A request is Tentative, Valid since a version, or Invalid since one, by an authorization or since none matches."""

    valid: Optional[int] = None
    invalid: Optional[int] = None
    denied: Optional[Denied] = None

    @property
    def is_tentative(self) -> bool:
        return self.valid is None and self.invalid is None

    @property
    def words(self) -> str:
        if self.denied is not None:
            return f"invalid {self.invalid} {by_words(self.denied)}"
        return "tentative" if self.valid is None else f"valid {self.valid}"


def by_words(denied: Denied) -> str:
    return "none" if denied.by is None else f"by {denied.by}"


def element_of(request: Request) -> Name:
    """The element that a request's edit is judged at."""
    return request.id if isinstance(request.edit, Insert) else request.edit.target


class Journal:
    """A list of messages, and what follows from it."""

    def __init__(self, messages: tuple[Message, ...] = ()):
        self.messages = messages

    def with_more(self, message: Message) -> Journal:
        return Journal(self.messages + (message,))

    @cached_property
    def requests(self) -> list[Request]:
        return [m for m in self.messages if isinstance(m, Request)]

    @cached_property
    def entries(self) -> list[Entry]:
        return [m for m in self.messages if isinstance(m, Entry)]

    @property
    def front(self) -> int:
        return len(self.entries)

    @cached_property
    def greatest(self) -> int:
        return max((q.id.stamp for q in self.requests), default=0)

    @cached_property
    def policies(self) -> list[Policy]:
        """The policy of each version, from 0 on."""
        policies = [FIRST]
        for entry in self.entries:
            policies.append(policy_after(policies[-1], entry.version, entry.op))
        return policies

    @cached_property
    def validations(self) -> dict[Name, int]:
        return {e.op.request: e.version for e in self.entries if isinstance(e.op, Validate)}

    @cached_property
    def anchors(self) -> dict[Name, Name]:
        """The anchor of each element."""
        return {q.id: q.edit.after for q in self.requests if isinstance(q.edit, Insert)}

    def path(self, element: Name) -> list[tuple[int, int]]:
        """What elements are ordered by: the names from the start down to it, the greater first, and a prefix before what goes on."""
        path = []
        while element != START:
            path.append((-element.stamp, -element.site))
            element = self.anchors[element]
        return path[::-1]

    @cached_property
    def order(self) -> Order:
        return Order(sorted(self.anchors, key=self.path))

    def denial_at(self, request: Request, version: int) -> Optional[Denied]:
        return denial(self.order, self.policies[version], request.id.site, RIGHTS[type(request.edit)], element_of(request))

    def judged(self, request: Request) -> State:
        validated = self.validations.get(request.id)
        last = self.front if validated is None else max(request.version, validated)
        for version in range(request.version, last + 1):
            denied = self.denial_at(request, version)
            if denied is not None:
                return State(invalid=version, denied=denied)
        return State(valid=validated)

    @cached_property
    def states(self) -> dict[Name, State]:
        return {q.id: self.judged(q) for q in self.requests}

    @cached_property
    def shown(self) -> list[tuple[Name, str]]:
        """The elements that show, in text order, each with its piece."""
        counted = sorted((q for q in self.requests if self.states[q.id].denied is None), key=lambda q: q.id)
        pieces = {q.id: q.edit.piece for q in counted if isinstance(q.edit, Insert)}
        pieces |= {q.edit.target: q.edit.piece for q in counted if isinstance(q.edit, Update) and q.edit.target in pieces}
        cut = {q.edit.target for q in counted if isinstance(q.edit, Delete)}
        return [(name, pieces[name]) for name in self.order.names if name in pieces and name not in cut]

    @property
    def text(self) -> str:
        return "".join(piece for _, piece in self.shown)

    def fault(self, op: Op) -> Optional[str]:
        """The words of the first fault of an operation behind the log."""
        if isinstance(op, Validate):
            at = self.validations.get(op.request)
            return None if at is None else f"8 {at}"
        return policy_fault(self.policies[-1], op)

    def missing_end(self, op: Op) -> Optional[str]:
        """The words for the first end of an operation's span that is no element."""
        ends = [op.extent.first, op.extent.last] if isinstance(op, AddObj) and isinstance(op.extent, Span) else []
        return next((f"element {name_word(end)}" for end in ends if end not in self.anchors), None)

    def missing(self, message: Message) -> Optional[str]:
        """The words for what a message misses."""
        if isinstance(message, Entry):
            return f"version {self.front + 1}" if message.version != self.front + 1 else self.missing_end(message.op)
        if message.version > self.front:
            return f"version {self.front + 1}"
        needed = other(message.edit)
        return None if needed == START or needed in self.anchors else f"element {name_word(needed)}"

    def finds_no_room(self, message: Message) -> bool:
        return isinstance(message, Request) and len(self.requests) >= MOST_REQUESTS

    def is_due(self, message: Message) -> bool:
        return self.missing(message) is None and not self.finds_no_room(message)

    def undone_by(self, later: Journal) -> list[Name]:
        """The requests that are Tentative here and Invalid later, in order of integration."""
        return [q.id for q in self.requests if self.states[q.id].is_tentative and later.states[q.id].denied is not None]


def key_of(message: Message) -> Union[Name, int]:
    return message.id if isinstance(message, Request) else message.version


@dataclass(frozen=True)
class Peer:
    site: int
    journal: Journal
    held: tuple[Message, ...] = ()

    def integrate(self, message: Message) -> Peer:
        return Peer(self.site, self.journal.with_more(message), self.held)


@dataclass(frozen=True)
class Answer:
    """An answer: its words, and the peer behind it. Of one whose request joined the journal, whether it did as Invalid."""

    words: str
    after: Peer
    is_denial: bool = False


def edit_of(shown: list[tuple[Name, str]], edit: EditAt) -> Edit:
    """The edit of the elements that an edit in place is."""
    match edit:
        case InsertAt(at, piece):
            return Insert(shown[at - 1][0] if at > 0 else START, piece)
        case DeleteAt(at):
            return Delete(shown[at][0])
        case UpdateAt(at, piece):
            return Update(shown[at][0], piece)


def answer_edit(peer: Peer, edit: EditAt) -> Answer:
    journal, shown = peer.journal, peer.journal.shown
    if edit.at > len(shown) - (0 if isinstance(edit, InsertAt) else 1):
        return Answer(f"no place {len(shown)}", peer)
    if journal.greatest == MOST_STAMPS:
        return Answer("clock end", peer)
    if len(journal.requests) >= MOST_REQUESTS:
        return Answer("history full", peer)
    request = Request(Name(journal.greatest + 1, peer.site), journal.front, edit_of(shown, edit))
    after = peer.integrate(request)
    denied = after.journal.denial_at(request, journal.front)
    if denied is not None:
        return Answer(f"denied {journal.front} {by_words(denied)}", peer)
    return Answer(f"done {name_word(request.id)} {request.version}", after)


def refused_by_log(peer: Peer) -> Optional[str]:
    if peer.site != 0:
        return "not administrator"
    return "log full" if peer.journal.front >= MOST_VERSIONS else None


def refused_validation(journal: Journal, name: Name) -> Optional[str]:
    state = journal.states.get(name)
    if state is None:
        return f"not here element {name_word(name)}"
    if name.site == 0:
        return "needs none"
    return None if state.denied is None else f"already {state.words}"


def refused_operation(journal: Journal, op: Op) -> Optional[str]:
    """The words of the first row by which an operation is refused."""
    fault, end = journal.fault(op), journal.missing_end(op)
    if fault is not None:
        return f"refused {fault}"
    if end is not None:
        return f"not here {end}"
    return refused_validation(journal, op.request) if isinstance(op, Validate) else None


def issue(peer: Peer, op: Op) -> Answer:
    entry = Entry(peer.journal.front + 1, op)
    after = peer.integrate(entry)
    return Answer(f"entry {entry.version} undone {len(peer.journal.undone_by(after.journal))}", after)


def answer_operation(peer: Peer, op: Op) -> Answer:
    refused = refused_by_log(peer) or refused_operation(peer.journal, op)
    return issue(peer, op) if refused is None else Answer(refused, peer)


def answer_validate_next(peer: Peer) -> Answer:
    refused = refused_by_log(peer)
    if refused is not None:
        return Answer(refused, peer)
    waiting = [name for name, state in peer.journal.states.items() if state.is_tentative and name.site != 0]
    return issue(peer, Validate(min(waiting))) if waiting else Answer("nothing tentative", peer)


def is_own(peer: Peer, message: Message) -> bool:
    return message.id.site == peer.site if isinstance(message, Request) else peer.site == 0


def joined(peer: Peer, message: Message) -> tuple[Peer, str, bool]:
    """The peer with one more message, what is told of that, and whether it is a request that is denied."""
    after = peer.integrate(message)
    if isinstance(message, Request):
        state = after.journal.states[message.id]
        return after, state.words, state.denied is not None
    return after, f"undone {len(peer.journal.undone_by(after.journal))}", False


def answer_message(peer: Peer, message: Message) -> Answer:
    journal = peer.journal
    kept = next((m for m in journal.messages + peer.held if key_of(m) == key_of(message)), None)
    if kept is not None:
        return Answer("repeat" if kept == message else f"conflict {message_words(kept)}", peer)
    if is_own(peer, message):
        return Answer("own site" if isinstance(message, Request) else "own log", peer)
    if journal.finds_no_room(message):
        return Answer("history full", peer)
    if isinstance(message, Entry) and message.version == journal.front + 1 and journal.fault(message.op) is not None:
        return Answer(f"illegal {journal.fault(message.op)}", peer)
    missing = journal.missing(message)
    if missing is not None:
        full = len(peer.held) >= MOST_HELD
        return Answer("hold full", peer) if full else Answer(f"held {missing}", Peer(peer.site, journal, peer.held + (message,)))
    after, words, is_denial = joined(peer, message)
    told = f"taken {words}" if isinstance(message, Request) else f"version {message.version} {words}"
    return Answer(told, after, is_denial)


def answer_settle(peer: Peer) -> Answer:
    due = next((place for place, m in enumerate(peer.held) if peer.journal.is_due(m)), None)
    if due is None:
        return Answer("quiet", peer)
    message = peer.held[due]
    rest = Peer(peer.site, peer.journal, peer.held[:due] + peer.held[due + 1:])
    if isinstance(message, Entry) and peer.journal.fault(message.op) is not None:
        return Answer(f"dropped {message.version} {peer.journal.fault(message.op)}", rest)
    after, words, _ = joined(rest, message)
    what = name_word(message.id) if isinstance(message, Request) else f"version {message.version}"
    return Answer(f"settled {what} {words}", after)


def answer_look(peer: Peer, place: int) -> Answer:
    messages = peer.journal.messages
    return Answer(f"item {message_words(messages[place])}" if place < len(messages) else "no item", peer)


def shown_words(text: str) -> str:
    return f" {text_words(text)}" if text else ""


ANSWERS: dict[type, Callable[[Peer, Step], Answer]] = {
    InsertAt: answer_edit,
    DeleteAt: answer_edit,
    UpdateAt: answer_edit,
    Administer: lambda peer, step: answer_operation(peer, step.op),
    Receive: lambda peer, step: answer_message(peer, step.message),
    Settle: lambda peer, step: answer_settle(peer),
    ValidateNext: lambda peer, step: answer_validate_next(peer),
    Look: lambda peer, step: answer_look(peer, step.place),
    Show: lambda peer, step: Answer(f"show{shown_words(peer.journal.text)}", peer),
}


def answer(peer: Peer, step: Step) -> Answer:
    """The answer of a peer to a step."""
    return ANSWERS[type(step)](peer, step)
