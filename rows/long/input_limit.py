"""An input of 67,108,864 bytes is answered whole, and of one with a byte more the lines and frames that end within the limit.

A rest of more than 1,024 bytes is a bad line, and a frame that is bad within the limit is a bad frame.
"""
from link_peer import TURN
from row import Row, text

LIMIT = 67_108_864
# A line of 512 bytes, and the first two of a script in as many. The administrator's peer answers each by `own log`.
LINE = b"hand 0 entry 1 addobj 1 elems 10000000000.0" + b"".join(b",%d.0" % (10**14 + at) for at in range(26)) + b"\n"
FIRST = b"peers 1\n" + LINE.replace(b"10000000000.0", b"100.0")
# A frame of 269 bytes, which is an entry with 32 names; the peer answers it by `own log`.
NAMES = b"".join((stamp << 16).to_bytes(8, "big") for stamp in range(1, 33))
ENTRY = bytes.fromhex("00000109 01 04 0001 03 0001 02 20") + NAMES
ENTRIES, TURNS = 249_470, 239


def scripts():
    """The scripts' ends, behind so many lines, and what is written behind the answers."""
    count = LIMIT // len(LINE)
    yield "whole", count, b"", 0, []
    yield "a byte more", count, b"s", 8, ["too long"]
    yield "a rest of 1,024 bytes", count - 2, 1_024 * b"x" + b"\n", 8, ["too long"]
    yield "a rest of 1,536 bytes", count - 3, 1_536 * b"x" + b"\n", 3, [f"bad line {count - 1}"]


def streams():
    """The streams' ends, behind all entries and so many turns, and what is written behind the answers."""
    last = LIMIT - len(TURN)
    yield "whole", TURNS, b"", 0, ["show", "held 0"]
    yield "a byte more", TURNS, b"\0", 8, ["too long"]
    yield "a frame across the limit", TURNS - 1, b"\0\0\1\x09" + 5 * b"x", 8, ["too long"]
    yield "a bad length before the limit", TURNS - 1, b"\0\0\0\1" + 5 * b"x", 3, [f"bad frame {last} 1"]
    yield "a frame that is cut before the limit", TURNS - 1, TURN[:3], 3, [f"bad frame {last} 5"]


def rows():
    assert len(LINE) == len(FIRST) == 512
    for part, count, rest, status, behind in scripts():
        given = FIRST + (count - 1) * LINE + rest
        yield Row(["replay"], given, status, text(count * ["own log"] + behind), part=f"lines: {part}")
    for part, turns, rest, status, behind in streams():
        given = ENTRIES * ENTRY + turns * TURN + rest
        answers = ENTRIES * ["own log"] + turns * ["turn"]
        yield Row(["feed", "0"], given, status, text(answers + behind), part=f"frames: {part}")
    yield Row(["audit"], ENTRIES * ENTRY + TURNS * TURN + b"\0", 8, text(["too long"]), part="audit")
