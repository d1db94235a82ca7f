"""What RFC 6455 says of handshakes, as tries: heads that a client gives, and heads that a server answers with."""
from typing import NamedTuple

GOES = "goes on"
REFUSED = "refused"
OTHER_VERSION = "refused, by 13"  # with the version that is spoken

KEY = "dGhlIHNhbXBsZSBub25jZQ=="
REQUEST = {
    "Host": "localhost",
    "Upgrade": "websocket",
    "Connection": "Upgrade",
    "Sec-WebSocket-Key": KEY,
    "Sec-WebSocket-Version": "13",
}
RESPONSE = {"Upgrade": "websocket", "Connection": "Upgrade", "Sec-WebSocket-Accept": "{accept}"}


class Head(NamedTuple):
    """A head: its section, what it is in words, its first line with `{path}` for the path, its fields, and what it wants."""

    section: str
    what: str
    first: str
    fields: dict[str, str]
    wants: str
    slowly: bool = False

    def bytes(self, **words):
        lines = [self.first, *(f"{name}: {value}" for name, value in self.fields.items()), "", ""]
        return "\r\n".join(line.format(**words) for line in lines).encode()


def asked(section, what, wants, first="GET {path} HTTP/1.1", slowly=False, **changes):
    return Head(section, what, first, changed(REQUEST, changes), wants, slowly)


def answered(section, what, wants, first="HTTP/1.1 101 Switching Protocols", slowly=False, **changes):
    return Head(section, what, first, changed(RESPONSE, changes), wants, slowly)


def changed(fields, changes):
    """The fields with others in place of some; a field goes where there is none."""
    named = {name.replace("_", "-"): value for name, value in changes.items()}
    return {name: value for name, value in {**fields, **named}.items() if value is not None}


def capitals(fields):
    return {name.upper(): value for name, value in fields.items()}


REQUESTS = [
    asked("4.2.1", "as it should be", GOES),
    asked("4.2.1", "in pieces of four bytes", GOES, slowly=True),
    Head("4.2.1", "names in capitals", "GET {path} HTTP/1.1", capitals(REQUEST), GOES),
    asked("4.2.1", "`Upgrade: WebSocket`, `Connection: keep-alive, upgrade`", GOES, Upgrade="WebSocket", Connection="keep-alive, upgrade"),
    asked("9.1", "an extension is offered", GOES, Sec_WebSocket_Extensions="permessage-deflate; client_max_window_bits"),
    asked("4.2.2", "a subprotocol is offered", GOES, Sec_WebSocket_Protocol="chat, superchat"),
    asked("4.2.1", "another method", REFUSED, first="POST {path} HTTP/1.1"),
    asked("4.2.1", "HTTP/1.0", REFUSED, first="GET {path} HTTP/1.0"),
    asked("4.2.1", "no host", REFUSED, Host=None),
    asked("4.2.1", "no `Upgrade`", REFUSED, Upgrade=None),
    asked("4.2.1", "an upgrade to something else", REFUSED, Upgrade="h2c"),
    asked("4.2.1", "no `Connection`", REFUSED, Connection=None),
    asked("4.2.1", "`Connection: keep-alive`", REFUSED, Connection="keep-alive"),
    asked("4.2.1", "no key", REFUSED, Sec_WebSocket_Key=None),
    asked("4.2.1", "an empty key", REFUSED, Sec_WebSocket_Key=""),
    asked("4.2.1", "a key of 15 bytes", REFUSED, Sec_WebSocket_Key="AAAAAAAAAAAAAAAAAAAA"),
    asked("4.2.1", "a key that is no base64", REFUSED, Sec_WebSocket_Key="!!!!!!!!!!!!!!!!!!!!!!=="),
    asked("4.2.1", "no version", REFUSED, Sec_WebSocket_Version=None),
    asked("4.4", "version 8", OTHER_VERSION, Sec_WebSocket_Version="8"),
    asked("4.4", "version 14", OTHER_VERSION, Sec_WebSocket_Version="14"),
]

RESPONSES = [
    answered("4.1", "as it should be", GOES),
    answered("4.1", "in pieces of four bytes", GOES, slowly=True),
    Head("4.1", "names in capitals", "HTTP/1.1 101 x", capitals(RESPONSE), GOES),
    answered("4.1", "`Upgrade: WebSocket`, `Connection: upgrade`", GOES, Upgrade="WebSocket", Connection="upgrade"),
    answered("4.1", "status 200", REFUSED, first="HTTP/1.1 200 OK"),
    answered("4.1", "status 401", REFUSED, first="HTTP/1.1 401 Unauthorized"),
    answered("4.1", "a redirection", REFUSED, first="HTTP/1.1 301 Moved Permanently"),
    answered("4.1", "no `Upgrade`", REFUSED, Upgrade=None),
    answered("4.1", "an upgrade to something else", REFUSED, Upgrade="h2c"),
    answered("4.1", "no `Connection`", REFUSED, Connection=None),
    answered("4.1", "`Connection: close`", REFUSED, Connection="close"),
    answered("4.1", "no accept", REFUSED, Sec_WebSocket_Accept=None),
    answered("4.1", "the accept of another key", REFUSED, Sec_WebSocket_Accept="s3pPLMBiTxaQ9kYGzzhZRbK+xOo="),
    answered("4.1", "an extension that nobody asked for", REFUSED, Sec_WebSocket_Extensions="permessage-deflate"),
    answered("4.1", "a subprotocol that nobody asked for", REFUSED, Sec_WebSocket_Protocol="chat"),
]
