"""The values that a host and its links speak of, and how lines write them."""
from __future__ import annotations

from dataclasses import dataclass
from typing import Union


@dataclass(frozen=True, order=True)
class Name:
    """The name of a request or an element: names are ordered by stamp, and then by site."""

    stamp: int
    site: int


START = Name(0, 0)


# ---- edits and requests

@dataclass(frozen=True)
class Insert:
    after: Name
    piece: str


@dataclass(frozen=True)
class Delete:
    target: Name


@dataclass(frozen=True)
class Update:
    target: Name
    piece: str


Edit = Union[Insert, Delete, Update]


@dataclass(frozen=True)
class Request:
    id: Name
    version: int
    edit: Edit


def other(edit: Edit) -> Name:
    """The anchor of an insert, the target of another edit."""
    return edit.after if isinstance(edit, Insert) else edit.target


# ---- operations and entries

@dataclass(frozen=True)
class AllElements:
    pass


@dataclass(frozen=True)
class Span:
    first: Name
    last: Name


@dataclass(frozen=True)
class Elements:
    names: tuple[Name, ...]


@dataclass(frozen=True)
class ByUser:
    user: int


Extent = Union[AllElements, Span, Elements, ByUser]


@dataclass(frozen=True)
class Everyone:
    pass


@dataclass(frozen=True)
class Listed:
    users: tuple[int, ...]


@dataclass(frozen=True)
class Members:
    groups: tuple[int, ...]


Users = Union[Everyone, Listed, Members]


@dataclass(frozen=True)
class Auth:
    """An authorization; its rights are some letters of `idu`, in that order."""

    users: Users
    rights: str
    objects: tuple[int, ...]
    grant: bool


@dataclass(frozen=True)
class AddUser:
    user: int


@dataclass(frozen=True)
class DelUser:
    user: int


@dataclass(frozen=True)
class AddObj:
    number: int
    extent: Extent


@dataclass(frozen=True)
class DelObj:
    number: int


@dataclass(frozen=True)
class AddGroup:
    group: int


@dataclass(frozen=True)
class DelGroup:
    group: int


@dataclass(frozen=True)
class AddMember:
    group: int
    user: int


@dataclass(frozen=True)
class DelMember:
    group: int
    user: int


@dataclass(frozen=True)
class AddAuth:
    place: int
    auth: Auth


@dataclass(frozen=True)
class DelAuth:
    place: int


@dataclass(frozen=True)
class Validate:
    request: Name


Op = Union[AddUser, DelUser, AddObj, DelObj, AddGroup, DelGroup, AddMember, DelMember, AddAuth, DelAuth, Validate]


@dataclass(frozen=True)
class Entry:
    version: int
    op: Op


Message = Union[Request, Entry]


# ---- steps

@dataclass(frozen=True)
class InsertAt:
    at: int
    piece: str


@dataclass(frozen=True)
class DeleteAt:
    at: int


@dataclass(frozen=True)
class UpdateAt:
    at: int
    piece: str


EditAt = Union[InsertAt, DeleteAt, UpdateAt]


@dataclass(frozen=True)
class Administer:
    op: Op


@dataclass(frozen=True)
class Receive:
    message: Message


@dataclass(frozen=True)
class Settle:
    pass


@dataclass(frozen=True)
class ValidateNext:
    pass


@dataclass(frozen=True)
class Look:
    place: int


@dataclass(frozen=True)
class Show:
    pass


Step = Union[EditAt, Administer, Receive, Settle, ValidateNext, Look, Show]


# ---- how lines write them

def text_words(text: str) -> str:
    return text.replace("\\", "\\\\").replace("\n", "\\n")


def piece_word(piece: str) -> str:
    return text_words(piece).replace(" ", "\\s")


def name_word(name: Name) -> str:
    return f"{name.stamp}.{name.site}"


def numbers_word(numbers: tuple[int, ...]) -> str:
    return ",".join(map(str, numbers))


def edit_words(edit: Edit) -> str:
    match edit:
        case Insert(after, piece):
            return f"insert {name_word(after)} {piece_word(piece)}"
        case Delete(target):
            return f"delete {name_word(target)}"
        case Update(target, piece):
            return f"update {name_word(target)} {piece_word(piece)}"


def extent_words(extent: Extent) -> str:
    match extent:
        case AllElements():
            return "all"
        case Span(first, last):
            return f"span {name_word(first)} {name_word(last)}"
        case Elements(names):
            return "elems " + ",".join(map(name_word, names))
        case ByUser(user):
            return f"by {user}"


def users_word(users: Users) -> str:
    match users:
        case Everyone():
            return "all"
        case Listed(numbers):
            return numbers_word(numbers)
        case Members(groups):
            return "@" + numbers_word(groups)


def auth_words(auth: Auth) -> str:
    sign = "+" if auth.grant else "-"
    return f"{sign} {users_word(auth.users)} {auth.rights} {numbers_word(auth.objects)}"


def op_words(op: Op) -> str:
    match op:
        case AddObj(number, extent):
            return f"addobj {number} {extent_words(extent)}"
        case AddAuth(place, auth):
            return f"addauth {place} {auth_words(auth)}"
        case Validate(request):
            return f"validate {name_word(request)}"
        case AddMember(group, user) | DelMember(group, user):
            return f"{type(op).__name__.lower()} {group} {user}"
        case AddUser(number) | DelUser(number) | DelObj(number) | AddGroup(number) | DelGroup(number) | DelAuth(number):
            return f"{type(op).__name__.lower()} {number}"


def message_words(message: Message) -> str:
    match message:
        case Request(name, version, edit):
            return f"request {name_word(name)} {version} {edit_words(edit)}"
        case Entry(version, op):
            return f"entry {version} {op_words(op)}"


def step_words(step: Step) -> str:
    match step:
        case InsertAt(at, piece):
            return f"edit insert {at} {piece_word(piece)}"
        case DeleteAt(at):
            return f"edit delete {at}"
        case UpdateAt(at, piece):
            return f"edit update {at} {piece_word(piece)}"
        case Administer(op):
            return f"admin {op_words(op)}"
        case Receive(message):
            return f"message {message_words(message)}"
        case Settle():
            return "settle"
        case ValidateNext():
            return "validatenext"
        case Look(place):
            return f"look {place}"
        case Show():
            return "show"
