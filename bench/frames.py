"""Frames of messages, as docs/FORMATS.md has them, for the measurements: plain bytes, which nothing tests.

A name is a number here, and a piece is text. What an operation of the administrator has behind its number is made by `short`, `span`,
`elements` and `authorization`.
"""
import struct

INSERT, DELETE, UPDATE, ENTRY = 1, 2, 3, 4
ADD_USER, DEL_USER, ADD_OBJECT, DEL_OBJECT, ADD_AUTHORIZATION, DEL_AUTHORIZATION, VALIDATE = 1, 2, 3, 4, 5, 6, 7
START = 0  # the name of the start of the text


def name(stamp, site=0):
    return stamp << 16 | site


def frame(kind, fields, version=1):
    body = bytes([version, kind]) + fields
    return struct.pack(">I", len(body)) + body


def short(*numbers):
    return struct.pack(f">{len(numbers)}H", *numbers)


def long(*names):
    return struct.pack(f">{len(names)}Q", *names)


# ---- requests


def request(kind, own, version, about, piece=None):
    """The second form of a frame has a piece that isn't one letter."""
    head = long(own) + short(version) + long(about)
    if piece is None:
        return frame(kind, head)
    if len(piece) == 1:
        return frame(kind, head + struct.pack(">I", ord(piece)))
    text = piece.encode()
    return frame(kind, head + bytes([len(text)]) + text, 2)


def insert(own, version=0, after=START, piece="a"):
    return request(INSERT, own, version, after, piece)


def delete(own, version, target):
    return request(DELETE, own, version, target)


def update(own, version, target, piece="b"):
    return request(UPDATE, own, version, target, piece)


# ---- entries


def entry(version, operation, *fields):
    return frame(ENTRY, short(version) + bytes([operation]) + b"".join(fields))


def listed(numbers):
    return bytes([len(numbers)]) + short(*numbers)


def span(first, last):
    """The extent from one element to another."""
    return b"\1" + long(first, last)


def elements(names):
    """The extent of some elements."""
    return bytes([2, len(names)]) + long(*names)


def authorization(place, grant, users, rights, objects):
    """That these users, or all where none is listed, may or may not use some rights in these objects."""
    return short(place) + bytes([grant, rights]) + listed(users) + listed(objects)
