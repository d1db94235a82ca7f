"""The policy of each version of a log of 130 entries: a request that carries a version is judged from there on.

Everyone who is a user may insert, and user 9 comes at each even version and goes at each odd one. So his request is denied by none at
the first odd version from the one that it carries on, or at version 0, and granted from version 130 on.
"""
from row import Row, text

LENGTH = 130


def is_user(version):
    return version >= 2 and version % 2 == 0


def state(carried):
    denying = [version for version in range(carried, LENGTH + 1) if not is_user(version)]
    return f"invalid {denying[0]} none" if denying else "tentative"


def rows():
    turns = ["0 adduser 9" if is_user(version) else "0 deluser 9" for version in range(2, LENGTH + 1)]
    hands = [f"hand 0 request {carried + 1}.9 {carried} insert 0.0 x" for carried in range(LENGTH + 1)]
    answers = [f"entry {version} {version} undone 0" for version in range(1, LENGTH + 1)]
    answers += [f"taken {state(carried)}" for carried in range(LENGTH + 1)]
    lines = ["peers 1", "0 addauth 0 + all i 0", *turns, *hands, "show 0"]
    yield Row(["replay"], text(lines), written=text(answers + ["show x"]))
