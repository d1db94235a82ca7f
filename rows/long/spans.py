"""100,000 inserts, and 2,000 more of user 1 that are judged by 255 authorizations of 16 spans each. No span covers a new place.

Each span has one element between its ends, the ends themselves are far from the new elements, and the last authorization grants.
"""
from link_peer import frame_of
from row import Row, text

INSERTS = 100_000
SPANS = 16
DENIALS = 255
JUDGED = 2_000


def operations():
    yield "adduser 1"
    yield from (f"addobj {number} span 50001.0 50000.0" for number in range(1, SPANS + 1))
    yield "addauth 0 + 1 i 0"
    objects = ",".join(map(str, range(1, SPANS + 1)))
    yield from DENIALS * [f"addauth 0 - 1 i {objects}"]


def rows():
    entries = [f"entry {version} {operation}" for version, operation in enumerate(operations(), 1)]
    messages = [f"request {stamp}.0 0 insert 0.0 a" for stamp in range(1, INSERTS + 1)] + entries
    stamps = range(INSERTS + 1, INSERTS + JUDGED + 1)
    messages += [f"request {stamp}.1 {len(entries)} insert 40000.0 a" for stamp in stamps]
    answers = INSERTS * ["taken tentative"] + [f"version {version} undone 0" for version in range(1, len(entries) + 1)]
    closing = [*JUDGED * ["taken tentative"], f"show {(INSERTS + JUDGED) * 'a'}", "held 0"]
    yield Row(["feed", "2"], b"".join(map(frame_of, messages)), written=text(answers + closing))
