"""100,000 inserts and then 16,383 entries, by which user 9 comes and goes. Nobody's request is undone."""
from link_peer import frame_of
from row import Row, text

INSERTS = 100_000
ENTRIES = 16_383


def messages():
    yield from (f"request {stamp}.0 0 insert 0.0 a" for stamp in range(1, INSERTS + 1))
    yield from (f"entry {version} {'adduser' if version % 2 else 'deluser'} 9" for version in range(1, ENTRIES + 1))


def rows():
    answers = INSERTS * ["taken tentative"] + [f"version {version} undone 0" for version in range(1, ENTRIES + 1)]
    closing = [f"show {INSERTS * 'a'}", "held 0"]
    yield Row(["feed", "2"], b"".join(map(frame_of, messages())), written=text(answers + closing))
