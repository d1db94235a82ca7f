"""A house for a host that is fuzzed, with an owner, a writer and a reader, and what they say to begin with."""
import base64
import json
import os

from host_peer import Device, Host
from link_peer import BINARY, CLOSE, PING, TEXT, Link, frame_of

DOCUMENT = "/d/notes/link"
KEY = base64.b64encode(b"0123456789abcdef").decode()


class Said:
    """A connection that keeps what is put on it."""

    def __init__(self):
        self.some = b""

    def setsockopt(self, *_):
        pass

    def makefile(self, _):
        return None

    def sendall(self, some):
        self.some += some


def asked(path, *fields):
    """What asks for a path."""
    return "\r\n".join([f"GET {path} HTTP/1.1", "Host: localhost:7000", *fields, "", ""]).encode()


def linked(path, *parts):
    """What asks for a link and says these frames on it."""
    said = Said()
    link = Link(said, True)
    link.put(asked(path, "Upgrade: websocket", "Connection: Upgrade", f"Sec-WebSocket-Key: {KEY}", "Sec-WebSocket-Version: 13"))
    for kind, payload in parts:
        link.put(link.frame(kind, payload, mask=None))
    return said.some


def make(program, folder):
    """Makes the house, and gives what its devices say of themselves."""
    notes, kept = os.path.join(folder, "notes"), os.path.join(folder, "devices")
    if os.path.exists(kept):
        with open(kept, encoding="utf-8") as file:
            return json.load(file)
    os.makedirs(os.path.join(folder, "web"), exist_ok=True)
    host = Host(program, notes, web=os.path.join(folder, "web"))
    try:
        invitation = host.line().rsplit("#", 1)[1]
        owner = Device(host, DOCUMENT, invitation)
        link = owner.link(host, DOCUMENT)
        devices = {"invitation": invitation, "owner": [owner.site, owner.secret]}
        for number, role in enumerate(("writer", "reader"), 2):
            link.say(f"order {number}\nperson {role} {role}")
            link.text("answer")
            link.say(f"order {number + 10}\ninvite {number}")
            device = Device(host, DOCUMENT, link.text("answer").rsplit("#", 1)[1])
            device.link(host, DOCUMENT).hang_up()
            devices[role] = [device.site, device.secret]
        link.hang_up()
    finally:
        host.kill()
    with open(kept, "w", encoding="utf-8") as file:
        json.dump(devices, file)
    return devices


def begins(devices):
    """What callers say."""
    (owner, key), (writer, his) = devices["owner"], devices["writer"]
    bearer = f"Authorization: Bearer {writer}.{his}"
    hello = f"hello 1 - {owner} {key} 0".encode()
    as_writer = f"hello 1 - {writer} {his} 0".encode()
    request = frame_of(f"request 1.{writer} 4 insert 0.0 a")
    for path in ("/", "/healthz", "/metrics", "/d/notes", "/nothing"):
        yield asked(path)
    for path in ("text", "journal", "certificate"):
        yield asked(f"/d/notes/{path}", bearer)
    yield linked(DOCUMENT, (TEXT, f"join 1 {devices['invitation']}".encode()), (TEXT, hello))
    yield linked(DOCUMENT, (TEXT, as_writer), (BINARY, request), (TEXT, b"caret 1 2"), (PING, b"x"), (CLOSE, b"\x03\xe8"))
    yield linked(DOCUMENT, (TEXT, as_writer), (BINARY, request + request))
    for rows in ("edit insert 0 a", "admin addgroup 7\nadmin addmember 7 1", "would admin delauth 0", "show"):
        yield linked(DOCUMENT, (TEXT, hello), (TEXT, f"order 1\n{rows}".encode()))
    for row in ("person writer Bea", "invite 2", "role 2 reader", "rename 2 Cy", "close device 2", "close invitation 1", "keys", "documents"):
        yield linked("/link", (TEXT, hello), (TEXT, f"order 4\n{row}".encode()))
