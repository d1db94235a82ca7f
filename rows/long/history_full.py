"""A history takes 131,072 requests, and no more: in frames, in handed lines, and of a peer's own edits.

The first request inserts `a` and all others delete it, or each inserts one letter more.
"""
from link_peer import frame_of
from row import Row, text

MOST = 131_072
FIRST = "request 1.0 0 insert 0.0 a"
TAKEN = MOST * ["taken tentative"] + ["history full"]


def deletes():
    return [f"request {stamp}.0 0 delete 1.0" for stamp in range(2, MOST + 2)]


def own_edits():
    """The edits and their answers: one is too much, and a place is looked at before the room."""
    edits = [f"0 insert {place} a" for place in range(MOST)]
    done = [f"done {number} {number}.0 0" for number in range(1, MOST + 1)]
    edits += ["0 insert 0 b", f"0 delete {MOST}", "0 delete 0"]
    return edits, done + ["history full", f"no place {MOST}", "history full"]


def rows():
    requests = [FIRST, *deletes()]
    yield Row(["feed", "2"], b"".join(map(frame_of, requests)), written=text(TAKEN + ["show", "held 0"]), part="frames")
    lines = ["peers 2", *(f"hand 1 {request}" for request in requests), "show 1"]
    yield Row(["replay"], text(lines), written=text(TAKEN + ["show"]), part="lines")
    edits, answers = own_edits()
    yield Row(["replay"], text(["peers 1", *edits]), written=text(answers), part="own edits")
