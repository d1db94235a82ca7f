"""Policies, and what they say of a user's right to an element."""
from __future__ import annotations

from dataclasses import dataclass, replace
from typing import Iterable, Optional

from values import AddAuth, AddGroup, AddMember, AddObj, AddUser, AllElements, Auth, ByUser, DelAuth, DelGroup, DelMember, DelObj, DelUser
from values import Elements, Everyone, Extent, Listed, Members, Name, Op, Span, Users, Validate

# The greatest number of users, objects, groups, members of a group and authorizations.
MOST = 256


@dataclass(frozen=True)
class Policy:
    """Its users, and its objects and groups by their numbers; its authorizations with theirs, in the order of matching."""

    users: frozenset[int]
    objects: dict[int, Extent]
    groups: dict[int, frozenset[int]]
    auths: tuple[tuple[int, Auth], ...]


FIRST = Policy(frozenset({0}), {0: AllElements()}, {}, ())


@dataclass(frozen=True)
class Denied:
    """A denial, by the authorization of a number, or since none matches."""

    by: Optional[int]


class Order:
    """The elements in text order."""

    def __init__(self, names: Iterable[Name]):
        self.names = list(names)
        self.places = {name: place for place, name in enumerate(self.names)}

    def covers(self, extent: Extent, element: Name) -> bool:
        """Whether an extent covers an element."""
        match extent:
            case AllElements():
                return True
            case Span(first, last):
                there = first in self.places and last in self.places
                return there and self.places[first] <= self.places[element] <= self.places[last]
            case Elements(names):
                return element in names
            case ByUser(user):
                return element.site == user


def without(table: dict, key: int) -> dict:
    return {k: v for k, v in table.items() if k != key}


def policy_after(policy: Policy, version: int, op: Op) -> Policy:
    """The policy behind a legal operation, which makes the version."""
    match op:
        case AddUser(user):
            return replace(policy, users=policy.users | {user})
        case DelUser(user):
            return replace(policy, users=policy.users - {user})
        case AddObj(number, extent):
            return replace(policy, objects={**policy.objects, number: extent})
        case DelObj(number):
            return replace(policy, objects=without(policy.objects, number))
        case AddGroup(group):
            return replace(policy, groups={**policy.groups, group: frozenset()})
        case DelGroup(group):
            return replace(policy, groups=without(policy.groups, group))
        case AddMember(group, user):
            return replace(policy, groups={**policy.groups, group: policy.groups[group] | {user}})
        case DelMember(group, user):
            return replace(policy, groups={**policy.groups, group: policy.groups[group] - {user}})
        case AddAuth(place, auth):
            return replace(policy, auths=policy.auths[:place] + ((version, auth),) + policy.auths[place:])
        case DelAuth(place):
            return replace(policy, auths=policy.auths[:place] + policy.auths[place + 1:])
        case Validate(_):
            return policy


def first(*faults: tuple[bool, str]) -> Optional[str]:
    """The words of the first fault that holds."""
    return next((words for holds, words in faults if holds), None)


def policy_fault(policy: Policy, op: Op) -> Optional[str]:
    """The words of the first fault of an operation on a policy."""
    many = f"7 {MOST}"
    match op:
        case AddUser(user):
            return first((user in policy.users, "1"), (len(policy.users) >= MOST, many))
        case DelUser(user):
            return first((user not in policy.users, "2"), (user == 0, "3"))
        case AddObj(number, _):
            return first((number in policy.objects, "4"), (len(policy.objects) >= MOST, many))
        case DelObj(number):
            return first((number not in policy.objects, "5"))
        case AddGroup(group):
            return first((len(policy.groups) >= MOST, many), (group in policy.groups, "9"))
        case DelGroup(group):
            return first((group not in policy.groups, "10"))
        case AddMember(group, user):
            members = policy.groups.get(group, frozenset())
            return first((len(members) >= MOST, many), (group not in policy.groups, "10"), (user in members, "11"))
        case DelMember(group, user):
            return first((group not in policy.groups, "10"), (user not in policy.groups.get(group, ()), "12"))
        case AddAuth(place, _):
            count = len(policy.auths)
            return first((place > count, f"6 {count}"), (count >= MOST, many))
        case DelAuth(place):
            count = len(policy.auths)
            return first((place >= count, f"6 {count}"))
        case Validate(_):
            return None


def has_user(policy: Policy, users: Users, user: int) -> bool:
    """Whether a set speaks of a user; a group that isn't there has no members."""
    match users:
        case Everyone():
            return True
        case Listed(numbers):
            return user in numbers
        case Members(groups):
            return any(user in policy.groups.get(group, ()) for group in groups)


def matches(order: Order, policy: Policy, user: int, right: str, element: Name, auth: Auth) -> bool:
    if user not in policy.users or not has_user(policy, auth.users, user) or right not in auth.rights:
        return False
    return any(n in policy.objects and order.covers(policy.objects[n], element) for n in auth.objects)


def denial(order: Order, policy: Policy, user: int, right: str, element: Name) -> Optional[Denied]:
    """The denial of a user's right to an element, one of the order; none where it is granted. User 0 may do everything."""
    if user == 0:
        return None
    for number, auth in policy.auths:
        if matches(order, policy, user, right, element, auth):
            return None if auth.grant else Denied(number)
    return Denied(None)
