"""Of a full history an entry is still taken, and a held request whose element has come waits for room."""
from link_peer import frame_of
from row import Row, text

MOST = 131_072


def messages():
    yield "request 200000.0 0 delete 2.0"
    yield "request 1.0 0 insert 0.0 a"
    yield from (f"request {stamp}.0 0 delete 1.0" for stamp in range(3, MOST + 1))
    yield "request 2.0 0 insert 0.0 b"
    yield "entry 1 adduser 1"
    yield "request 200001.0 0 delete 1.0"
    yield "request 200000.0 0 delete 2.0"


def rows():
    answers = ["held element 2.0", *MOST * ["taken tentative"], "version 1 undone 0", "history full", "repeat"]
    closing = ["show b", "held 1", "waits request 200000.0 for room"]
    yield Row(["feed", "2"], b"".join(map(frame_of, messages())), written=text(answers + closing))
