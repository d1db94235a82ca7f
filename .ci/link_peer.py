"""The other side of a link, for the checks and the measurements: a WebSocket (RFC 6455) on 127.0.0.1, and the frames of messages.

It is no peer: it says what it is told to say, and writes down what comes. It needs nothing but Python.
"""
import base64
import hashlib
import os
import re
import socket
import struct
import time

SECONDS = 20
GUID = b"258EAFA5-E914-47DA-95CA-C5AB0DC85B11"
CONTINUED, TEXT, BINARY, CLOSE, PING, PONG = 0, 1, 2, 8, 9, 10
TURN = bytes.fromhex("000000020105")
END = bytes.fromhex("000000020106")


class Closed(Exception):
    """The other side has closed the link."""


class Broken(Exception):
    """The other side is gone without a close, or doesn't keep to the protocol."""


# ---- links


def free_port():
    with socket.socket() as found:
        found.bind(("127.0.0.1", 0))
        return found.getsockname()[1]


def listening():
    """A socket that listens, and its port."""
    listener = socket.create_server(("127.0.0.1", 0))
    listener.settimeout(SECONDS)
    return listener, listener.getsockname()[1]


def reach(port):
    """A connection to a program that may not listen yet."""
    last = time.monotonic() + SECONDS
    while True:
        try:
            return socket.create_connection(("127.0.0.1", port), SECONDS)
        except ConnectionRefusedError:
            if time.monotonic() > last:
                raise Broken(f"nobody listens on port {port}") from None
            time.sleep(0.01)


def sign(key):
    return base64.b64encode(hashlib.sha1(key + GUID).digest())


def dial(port, *origins):
    """A link to the program that serves this port. It may be asked for by a page of these origins."""
    link = Link(reach(port), True)
    key = base64.b64encode(os.urandom(16))
    link.put(
        b"GET / HTTP/1.1\r\nHost: 127.0.0.1:%d\r\nUpgrade: websocket\r\nConnection: Upgrade\r\n" % port
        + b"".join(b"Origin: %s\r\n" % origin.encode() for origin in origins)
        + b"Sec-WebSocket-Key: %s\r\nSec-WebSocket-Version: 13\r\n\r\n" % key
    )
    first, fields = link.head()
    if not first.startswith(b"HTTP/1.1 101") or fields.get(b"sec-websocket-accept") != sign(key):
        raise Broken(f"the handshake is answered by {first!r}")
    return link


def accept(listener, sign=sign):
    """A link to the program that dials this socket."""
    connection, _ = listener.accept()
    connection.settimeout(SECONDS)
    link = Link(connection, False)
    first, fields = link.head()
    if not first.startswith(b"GET ") or b"sec-websocket-key" not in fields:
        raise Broken(f"the handshake begins with {first!r}")
    link.put(
        b"HTTP/1.1 101 Switching Protocols\r\nUpgrade: websocket\r\nConnection: Upgrade\r\n"
        + b"Sec-WebSocket-Accept: %s\r\n\r\n" % sign(fields[b"sec-websocket-key"])
    )
    return link


def masked(payload, mask):
    """The payload under a mask of four bytes; twice gives the payload."""
    size = len(payload)
    cover = (mask * (size // 4 + 1))[:size]
    return (int.from_bytes(payload, "big") ^ int.from_bytes(cover, "big")).to_bytes(size, "big")


class Link:
    """One side of a link, with the messages that it gave and got."""

    def __init__(self, connection, calls):
        connection.setsockopt(socket.IPPROTO_TCP, socket.TCP_NODELAY, 1)
        self.connection = connection
        self.stream = connection.makefile("rb")
        self.calls = calls
        self.gave = []
        self.got = []
        self.pongs = []

    def put(self, some):
        try:
            self.connection.sendall(some)
        except OSError as error:
            raise Broken(f"writing: {error}") from None

    def take(self, count):
        try:
            some = self.stream.read(count)
        except OSError as error:
            raise Broken(f"reading: {error}") from None
        if len(some) < count:
            raise Broken("the stream has ended")
        return some

    def head(self):
        """The first line of a handshake, and its fields."""
        lines = []
        while not lines or lines[-1]:
            try:
                line = self.stream.readline(4096)
            except OSError as error:
                raise Broken(f"reading: {error}") from None
            if not line.endswith(b"\r\n"):
                raise Broken("the handshake has ended")
            lines.append(line[:-2])
        pairs = (line.partition(b":") for line in lines[1:-1])
        return lines[0], {name.strip().lower(): value.strip() for name, _, value in pairs}

    def frame(self, kind, payload=b"", last=True, size=None, mask=None):
        """The bytes of a frame. It may announce another size than it has."""
        size = len(payload) if size is None else size
        mask = self.calls if mask is None else mask
        bit = 0x80 if mask else 0
        head = bytes([kind | (0x80 if last else 0)])
        if size < 126:
            head += bytes([bit | size])
        elif size < 1 << 16:
            head += struct.pack(">BH", bit | 126, size)
        else:
            head += struct.pack(">BQ", bit | 127, size)
        if not mask:
            return head + payload
        cover = os.urandom(4)
        return head + cover + masked(payload, cover)

    def next_frame(self):
        first, second = self.take(2)
        size = second & 0x7F
        if size == 126:
            (size,) = struct.unpack(">H", self.take(2))
        elif size == 127:
            (size,) = struct.unpack(">Q", self.take(8))
        if first & 0x70 or bool(second & 0x80) == self.calls:
            raise Broken("a frame has a reserved bit, or a wrong mask")
        cover = self.take(4) if second & 0x80 else None
        payload = self.take(size)
        return first & 0x0F, bool(first & 0x80), masked(payload, cover) if cover else payload

    def give(self, *messages):
        self.put(b"".join(self.frame(BINARY, message) for message in messages))
        self.gave += messages

    def get(self):
        """The next message. The program sends each in one frame."""
        while True:
            kind, last, payload = self.next_frame()
            if kind == PING:
                self.put(self.frame(PONG, payload))
            elif kind == PONG:
                self.pongs.append(payload)
            elif kind == CLOSE:
                raise Closed(int.from_bytes(payload[:2], "big"))
            elif kind != BINARY or not last:
                raise Broken(f"a frame of kind {kind} comes")
            else:
                self.got.append(payload)
                return payload

    def get_turn(self):
        """The items up to the next turn."""
        items = []
        while (message := self.get()) != TURN:
            if message == END:
                raise Broken("an end comes, and no turn")
            items.append(message)
        return items

    def close(self, code=1000):
        self.put(self.frame(CLOSE, struct.pack(">H", code)))

    def rest(self):
        """Reads to the end, gives the code of the other side's close, and hangs up."""
        code = None
        try:
            while True:
                self.get()
        except Closed as closed:
            (code,) = closed.args
        except Broken:
            pass
        self.hang_up()
        return code

    def hang_up(self):
        self.stream.close()
        self.connection.close()

    def reset(self):
        self.connection.setsockopt(socket.SOL_SOCKET, socket.SO_LINGER, struct.pack("ii", 1, 0))
        self.hang_up()


# ---- frames of messages: requests, and those entries that the checks use


def letter_of(word):
    return re.sub(r"\\(.)", lambda found: {"s": " ", "n": "\n"}.get(found[1], found[1]), word)


def word_of(letter):
    return letter.replace("\\", "\\\\").replace("\n", "\\n").replace(" ", "\\s")


def name_of(word):
    stamp, site = map(int, word.split("."))
    return (stamp << 16 | site).to_bytes(8, "big")


def name_word(name):
    number = int.from_bytes(name, "big")
    return f"{number >> 16}.{number & 0xFFFF}"


def numbers_of(word):
    numbers = [] if word == "all" else [int(it) for it in word.split(",")]
    return bytes([len(numbers)]) + b"".join(struct.pack(">H", it) for it in numbers)


def numbers_word(some):
    """The word of a list of numbers, and the bytes behind it."""
    end = 1 + 2 * some[0]
    numbers = struct.unpack(f">{some[0]}H", some[1:end])
    return ",".join(map(str, numbers)) or "all", some[end:]


def op_body(words):
    match words:
        case ["adduser", user]:
            return struct.pack(">BH", 1, int(user))
        case ["deluser", user]:
            return struct.pack(">BH", 2, int(user))
        case ["addobj", number, "span", first, last]:
            return struct.pack(">BHB", 3, int(number), 1) + name_of(first) + name_of(last)
        case ["addauth", place, sign_word, users, rights, objects]:
            bits = sum(1 << "idu".index(it) for it in rights)
            head = struct.pack(">BHBB", 5, int(place), sign_word == "+", bits)
            return head + numbers_of(users) + numbers_of(objects)
        case ["delauth", place]:
            return struct.pack(">BH", 6, int(place))
        case ["validate", name]:
            return b"\x07" + name_of(name)
    raise ValueError(words)


def op_text(body):
    operation, fields = body[0], body[1:]
    of_one_number = {1: "adduser", 2: "deluser", 6: "delauth"}
    if operation in of_one_number:
        return f"{of_one_number[operation]} {int.from_bytes(fields, 'big')}"
    if operation == 5:
        place, sign_number, bits = struct.unpack(">HBB", fields[:4])
        rights = "".join(letter for at, letter in enumerate("idu") if bits >> at & 1)
        users, left = numbers_word(fields[4:])
        objects, _ = numbers_word(left)
        return f"addauth {place} {'-+'[sign_number]} {users} {rights} {objects}"
    if operation == 7:
        return f"validate {name_word(fields)}"
    raise ValueError(body)


def frame_of(text):
    """The frame of a message that is written out."""
    version, words = 1, text.split(" ")
    if words[0] == "entry":
        kind, body = 4, struct.pack(">H", int(words[1])) + op_body(words[2:])
    else:
        kind = 1 + ["insert", "delete", "update"].index(words[3])
        body = name_of(words[1]) + struct.pack(">H", int(words[2])) + name_of(words[4])
        letter = letter_of(words[5]) if kind != 2 else ""
        if len(letter) == 1:
            body += struct.pack(">I", ord(letter))
        elif letter:
            version, piece = 2, letter.encode()
            body += bytes([len(piece)]) + piece
    return struct.pack(">IBB", len(body) + 2, version, kind) + body


def text_of(frame):
    """The message of a frame, written out."""
    version, kind, body = frame[4], frame[5], frame[6:]
    if kind == 4:
        return f"entry {int.from_bytes(body[:2], 'big')} {op_text(body[2:])}"
    head = f"request {name_word(body[:8])} {int.from_bytes(body[8:10], 'big')}"
    named = name_word(body[10:18])
    if kind == 2:
        return f"{head} delete {named}"
    letter = chr(int.from_bytes(body[18:], "big")) if version == 1 else body[19:].decode()
    return f"{head} {'insert' if kind == 1 else 'update'} {named} {word_of(letter)}"
