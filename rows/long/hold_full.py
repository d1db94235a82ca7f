"""A peer holds 4,096 messages that wait for an element, and refuses the next; when the element comes they follow it."""
from link_peer import frame_of
from row import Row, text

MOST = 4_096


def rows():
    early = [f"request {stamp}.0 0 insert 1.0 b" for stamp in range(2, MOST + 3)]
    messages = [*early, "request 1.0 0 insert 0.0 a"]
    answers = [*MOST * ["held element 1.0"], "hold full", "taken tentative"]
    settled = [f"settled {stamp}.0 tentative" for stamp in range(2, MOST + 2)]
    closing = [f"show a{MOST * 'b'}", "held 0"]
    yield Row(["feed", "2"], b"".join(map(frame_of, messages)), written=text(answers + settled + closing), part="frames")
    lines = ["peers 2", *(f"hand 1 {message}" for message in messages), "settle 1"]
    yield Row(["replay"], text(lines), written=text(answers + settled[:1]), part="lines")
