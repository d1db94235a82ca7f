"""What RFC 6455 says of frames, as tries on one side of a link that stands: what is given, and what the other side may do then."""
import os
import struct
import sys
from collections.abc import Callable
from typing import NamedTuple

sys.path.insert(0, os.path.join(os.path.dirname(os.path.abspath(__file__)), ".."))
from link_peer import CLOSE, CONTINUED, PING, PONG, TEXT, Link

# What the other side may do.
TAKEN = "taken"
FAILED = "failed"
EITHER = "taken or failed"

# Messages as a link takes them: a kind, and bytes that are answered.
Message = tuple[int, bytes]


class Try(NamedTuple):
    """One rule: its section, what is given in words, what gives it, and what it wants: a word above, or `closed CODE`."""

    section: str
    what: str
    give: Callable[[Link, Message], None]
    wants: str


def whole(link, message):
    link.put(link.frame(*message))


def behind(*frames):
    """Gives frames, and behind them the message."""

    def give(link, message):
        for words in frames:
            link.put(link.frame(*words))
        whole(link, message)

    return give


def with_bits(bits):
    """The message in one frame whose first byte has these bits too."""

    def give(link, message):
        first, *rest = link.frame(*message)
        link.put(bytes([first | bits, *rest]))

    return give


def of_kind(kind):
    """The message's bytes in a frame of another kind."""
    return lambda link, message: link.put(link.frame(kind, message[1]))


def in_long_form(size_byte, form):
    """The message in one frame, whose length is written in a longer form than it needs."""

    def give(link, message):
        kind, payload = message
        frame = link.frame(kind, payload)
        at = 2 if len(payload) < 126 else 4
        link.put(frame[:1] + bytes([frame[1] & 0x80 | size_byte]) + struct.pack(form, len(payload)) + frame[at:])

    return give


def announcing(size):
    """The head of a frame that announces so much, and nothing of it."""

    def give(link, message):
        bit = 0x80 if link.calls else 0
        link.put(bytes([0x80 | message[0], bit | 127]) + struct.pack(">Q", size) + (b"mask" if link.calls else b""))

    return give


def in_pieces(cuts, *between):
    """The message in fragments that end at these places, counted from its end where they are negative. Frames may stand between."""

    def give(link, message):
        kind, payload = message
        ends = sorted({at % len(payload) for at in cuts(payload)}) + [len(payload)]
        begin = 0
        for number, end in enumerate(ends):
            link.put(link.frame(CONTINUED if number else kind, payload[begin:end], end == len(payload)))
            if end < len(payload):
                for words in between:
                    link.put(link.frame(*words))
            begin = end

    return give


def halves(payload):
    return [len(payload) // 2]


def each_byte(payload):
    return range(1, len(payload))


def empty_fragments(link, message):
    kind, payload = message
    link.put(link.frame(kind, b"", False) + link.frame(CONTINUED, b"", False) + link.frame(CONTINUED, payload, False) + link.frame(CONTINUED, b""))


def byte_by_byte(link, message):
    for byte in link.frame(*message):
        link.put(bytes([byte]))


def only_continued(link, message):
    link.put(link.frame(CONTINUED, message[1]))


def begun_anew(link, message):
    kind, payload = message
    link.put(link.frame(kind, payload[:1], False) + link.frame(kind, payload))


def closing(payload, *more):
    """A close with these bytes, and the message behind it where it is asked for."""

    def give(link, message):
        link.put(link.frame(CLOSE, payload) + (link.frame(*message) if more else b""))

    return give


def code(number, words=b""):
    return struct.pack(">H", number) + words


def wrongly_masked(link, message):
    """The other way round than this side has to mask."""
    link.put(link.frame(*message, mask=not link.calls))


FRAMES = [
    Try("5.1", "a mask where there has to be one, and none where not: the other way round", wrongly_masked, FAILED),
    Try("5.2", "one frame", whole, TAKEN),
    Try("5.2", "one frame, byte by byte", byte_by_byte, TAKEN),
    *(Try("5.2", f"reserved bit {number}", with_bits(0x80 >> number), FAILED) for number in (1, 2, 3)),
    *(Try("5.2", f"a data frame of the reserved kind {kind}", of_kind(kind), FAILED) for kind in (3, 4, 5, 6, 7)),
    *(Try("5.2", f"a control frame of the reserved kind {kind}", of_kind(kind), FAILED) for kind in (11, 12, 13, 14, 15)),
    Try("5.2", "a length in 16 bits that 7 would hold", in_long_form(126, ">H"), EITHER),
    Try("5.2", "a length in 64 bits that fewer would hold", in_long_form(127, ">Q"), EITHER),
    Try("5.2", "a length of 2^63, whose highest bit has to be 0", announcing(1 << 63), FAILED),
    Try("10.4", "a length of 2^62", announcing(1 << 62), FAILED),
    Try("10.4", "a length of 65,537, more than is taken", announcing(65_537), FAILED),
    Try("5.4", "two fragments", in_pieces(halves), TAKEN),
    Try("5.4", "a fragment for each byte", in_pieces(each_byte), TAKEN),
    Try("5.4", "empty fragments", empty_fragments, TAKEN),
    Try("5.4", "a ping between fragments", in_pieces(halves, (PING, b"between")), TAKEN),
    Try("5.4", "an unasked pong between fragments", in_pieces(halves, (PONG, b"")), TAKEN),
    Try("5.4", "a fragment that goes on with nothing", only_continued, FAILED),
    Try("5.4", "a message begun within another", begun_anew, FAILED),
    Try("5.5", "a ping of 125 bytes", behind((PING, bytes(125))), TAKEN),
    Try("5.5", "a ping of 126 bytes", behind((PING, bytes(126))), FAILED),
    Try("5.5", "a ping in fragments", behind((PING, b"p", False), (CONTINUED, b"p")), FAILED),
    Try("5.5", "a close in fragments", behind((CLOSE, code(1000), False), (CONTINUED, b"")), FAILED),
    Try("5.5.1", "a close with nothing", closing(b""), "closed"),
    Try("5.5.1", "a close with one byte", closing(b"\x03"), FAILED),
    *(Try("5.5.1", f"a close by {number}", closing(code(number)), f"closed {number}") for number in (1000, 1001, 1002, 1003, 1007, 1008, 1009, 1011)),
    *(Try("5.5.1", f"a close by {number}", closing(code(number)), f"closed {number}") for number in (3000, 3999, 4000, 4999)),
    Try("5.5.1", "a close with words", closing(code(1000, "Adieu, Zoë €".encode())), "closed 1000"),
    Try("5.5.1", "a close whose words are no UTF-8", closing(code(1000, b"\xc0\x80")), FAILED),
    Try("5.5.1", "a close with words of 124 bytes", closing(code(1000, bytes(124))), FAILED),
    Try("5.5.1", "a message behind a close", closing(code(1000), True), "closed 1000"),
    *(Try("7.4", f"a close by {number}, which no side may send", closing(code(number)), FAILED) for number in (0, 999, 1004, 1005, 1006, 1015, 1016, 2999, 5000, 65535)),
    Try("5.5.2", "an empty ping", behind((PING, b"")), TAKEN),
    Try("5.5.2", "ten pings", behind(*((PING, b"%d" % number) for number in range(10))), TAKEN),
    Try("5.5.3", "an unasked pong", behind((PONG, b"nobody asked")), TAKEN),
]


def no_utf8(some):
    return lambda link, message: link.put(link.frame(TEXT, message[1] + some))


TEXTS = [
    Try("5.6", "a text with letters of one to four bytes", whole, TAKEN),
    Try("8.1", "the same, cut within each letter", in_pieces(each_byte), TAKEN),
    Try("8.1", "a lone following byte", no_utf8(b"\x80"), FAILED),
    Try("8.1", "a letter in too many bytes", no_utf8(b"\xc0\xaf"), FAILED),
    Try("8.1", "half of a pair of surrogates", no_utf8(b"\xed\xa0\x80"), FAILED),
    Try("8.1", "more than the last scalar value", no_utf8(b"\xf4\x90\x80\x80"), FAILED),
    Try("8.1", "a byte that never stands", no_utf8(b"\xff"), FAILED),
    Try("8.1", "a letter that is cut off by the end", no_utf8(b"\xe2\x82"), FAILED),
]
