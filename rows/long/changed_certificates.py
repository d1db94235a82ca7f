"""A certificate of 41 lines in which one is left out, doubled, another one, or exchanged with the next: the first line that differs is
named. As it stands, it holds.
"""
from itertools import zip_longest

from link_peer import END, frame_of
from row import Row, text

INSERTS = 8
ENTRIES = ["adduser 1", "addauth 0 + 1 idu 0", "addauth 0 + all idu 0", "delauth 0"]
OTHER = "grant 2 4 by 2"


def journal():
    """User 1 may do all, and inserts; then another authorization comes in front, and goes again."""
    entries = [f"entry {version} {operation}" for version, operation in enumerate(ENTRIES, 1)]
    inserts = [f"request {stamp}.1 2 insert 0.0 x" for stamp in range(1, INSERTS + 1)]
    return b"".join(map(frame_of, entries[:2] + inserts + entries[2:])) + END


def certificate():
    yield f"certificate {INSERTS} {len(ENTRIES)}"
    yield from (f"element {stamp}.1" for stamp in range(INSERTS, 0, -1))
    for stamp in range(1, INSERTS + 1):
        yield from [f"request {stamp}.1 tentative", "grant 2 2 by 2", "grant 3 3 by 3", "grant 4 4 by 2"]


def changes(lines):
    """The lines with each change that is tried at each of them."""
    yield lines
    for at, line in enumerate(lines):
        front, behind = lines[:at], lines[at + 1 :]
        yield front + behind
        yield front + [line, line] + behind
        yield front + [OTHER] + behind
        if behind:
            yield front + [behind[0], line] + behind[1:]


def answer(told, due):
    """What `audit` answers to these lines in place of those that are due."""
    for number, (mine, other) in enumerate(zip_longest(told, due), 1):
        if mine != other:
            return 9, f"certificate line {number} differs"
    return 0, f"certificate holds {INSERTS} {len(ENTRIES)}"


def rows():
    due = list(certificate())
    yield Row(["certify", "2"], journal(), written=journal() + text(due), part="made")
    for told in changes(due):
        status, line = answer(told, due)
        yield Row(["audit"], journal() + text(told), status, text([line]), part=line)
