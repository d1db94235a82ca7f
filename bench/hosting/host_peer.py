"""The other sides of a host, for what plays a team against it: the running program, and links that say what they are told to say.

A link is no peer. It needs nothing but Python.
"""
import base64
import os
import queue
import signal
import socket
import subprocess
import threading

from link_peer import BINARY, CLOSE, PING, PONG, SECONDS, TEXT, Broken, Link, free_port, reach, sign


class Ended(Exception):
    """The host has closed the link, with a code and words."""

    def __init__(self, code, words):
        super().__init__(code, words)
        self.code = code
        self.words = words


def fail_at_the_limit():
    """A file that may not grow is then a fault of a write, as on a full disk, and no signal."""
    signal.signal(signal.SIGXFSZ, signal.SIG_IGN)


class Host:
    """The program that hosts a folder."""

    def __init__(self, program, folder, *words, web="web"):
        self.program, self.folder, self.web = program, folder, web
        self.port = free_port()
        self.invitation = None
        self.start(*words)

    def start(self, *words):
        said = [self.program, "host", self.folder, "--port", str(self.port), "--web", self.web, *words]
        pipes = {"stdin": subprocess.DEVNULL, "stdout": subprocess.PIPE, "stderr": subprocess.PIPE}
        self.process = subprocess.Popen(said, text=True, preexec_fn=fail_at_the_limit, **pipes)
        self.told = queue.Queue()
        self.log = []
        threading.Thread(target=self.listen, args=(self.process.stdout, self.told.put), daemon=True).start()
        threading.Thread(target=self.listen, args=(self.process.stderr, self.log.append), daemon=True).start()
        reach(self.port).close()

    @staticmethod
    def listen(stream, put):
        for line in stream:
            put(line.rstrip("\n"))

    def line(self):
        """The next line that it prints."""
        return self.told.get(timeout=SECONDS)

    def kill(self):
        self.process.kill()
        self.process.wait()

    @property
    def name(self):
        """By what name it is reached."""
        return f"localhost:{self.port}"

    def ask(self, path, *fields, method="GET"):
        """The status, the fields and the body of what stands at a path."""
        lines = [f"{method} {path} HTTP/1.1", f"Host: {self.name}", "Connection: close", *fields, "", ""]
        return self.ask_bytes("\r\n".join(lines).encode())

    def connect(self):
        """A connection to it."""
        connection = reach(self.port)
        connection.settimeout(SECONDS)
        return connection

    def ask_bytes(self, some):
        with self.connect() as connection:
            connection.sendall(some)
            answer = b""
            while more := connection.recv(65536):
                answer += more
        head, _, body = answer.partition(b"\r\n\r\n")
        first, *rest = head.decode().split("\r\n")
        pairs = (line.partition(": ") for line in rest)
        return int(first.split(" ")[1]), {name.lower(): value for name, _, value in pairs}, body

    def dial(self, path, *fields, connection=None):
        """A link to a path, over a connection where one is given; the status where it is refused."""
        link = HostLink(connection or self.connect(), True)
        key = base64.b64encode(os.urandom(16))
        lines = [f"GET {path} HTTP/1.1", f"Host: {self.name}", "Upgrade: websocket", "Connection: Upgrade"]
        lines += [*fields, f"Sec-WebSocket-Key: {key.decode()}", "Sec-WebSocket-Version: 13", "", ""]
        link.put("\r\n".join(lines).encode())
        first, found = link.head()
        if not first.startswith(b"HTTP/1.1 101"):
            link.hang_up()
            return int(first.split(b" ")[1])
        if found.get(b"sec-websocket-accept") != sign(key):
            raise Broken("the handshake is signed wrong")
        return link


def frames_in(message):
    """The frames that a message has."""
    frames = []
    while message:
        size = 4 + int.from_bytes(message[:4], "big")
        frames.append(message[:size])
        message = message[size:]
    return frames


class HostLink(Link):
    """A link to a host, with the items and the texts that came."""

    def __init__(self, connection, calls):
        super().__init__(connection, calls)
        self.items = []
        self.texts = []

    def say(self, text):
        self.put(self.frame(TEXT, text.encode()))

    def send(self, *frames):
        """Frames in one message."""
        self.put(self.frame(BINARY, b"".join(frames)))

    def take_message(self):
        """Takes the next message, whatever it is."""
        kind, _, payload = self.next_frame()
        if kind == PING:
            self.put(self.frame(PONG, payload))
        elif kind == CLOSE:
            raise Ended(int.from_bytes(payload[:2], "big"), payload[2:].decode())
        elif kind == TEXT:
            self.texts.append(payload.decode())
        elif kind == BINARY:
            self.items += frames_in(payload)
        else:
            raise Broken(f"a frame of kind {kind} comes")

    def text(self, word):
        """The next text that begins with this word. Those in front of it are let go."""
        while True:
            for at, text in enumerate(self.texts):
                if text.split()[0] == word:
                    del self.texts[: at + 1]
                    return text
            self.take_message()

    def first_items(self, count):
        """The first items that came, once there are so many."""
        while len(self.items) < count:
            self.take_message()
        return self.items[:count]

    def ending(self):
        """The code of the host's close."""
        try:
            while True:
                self.take_message()
        except Ended as ended:
            self.hang_up()
            return ended.code


class Device:
    """A device: its site and its secret."""

    def __init__(self, host, path, invitation):
        link = host.dial(path)
        link.say(f"join 1 {invitation}")
        _, site, self.secret = link.text("device").split(" ")
        self.site = int(site)
        link.hang_up()

    def hello(self, document="-", start=0, secret=None, version=1):
        return f"hello {version} {document} {self.site} {secret or self.secret} {start}"

    def link(self, host, path, document="-", start=0):
        """A link that was welcomed."""
        link = host.dial(path)
        link.say(self.hello(document, start))
        _, _, link.document, _, link.person, link.role, saved = link.text("welcome").split(" ")
        link.saved = int(saved)
        return link

    @property
    def bearer(self):
        return f"Authorization: Bearer {self.site}.{self.secret}"
