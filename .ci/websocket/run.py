"""Tries what RFC 6455 says of both sides of a WebSocket on `serve`, `dial` and a host, and prints a table of what each did.

    run.py EDITOR [HOST]

EDITOR is the program of `serve` and `dial`, HOST that of a host. It ends with 1 where one did what the rules forbid.
"""
import sys
from contextlib import suppress

sys.dont_write_bytecode = True
from frames_tried import EITHER, FAILED, FRAMES, TAKEN, TEXTS
from heads_tried import GOES, KEY, REFUSED, REQUESTS, RESPONSES
from link_peer import CLOSE, END, Broken, Link, dial, free_port, listening, reach, sign
from sides import DialSide, HostSide, Run, ServeSide, heard

SHORT = 3  # seconds for what isn't answered
PIECE = 4  # bytes of a head that goes in pieces: more than 64 small ones are taken for an attack


def may_be(wants, did):
    """Whether what it did is what the rules want."""
    failed = did == "dropped" or (did.startswith("closed ") and did not in ("closed 1000", "closed 1001"))
    if wants == FAILED:
        return failed
    if wants == EITHER:
        return did == TAKEN or failed
    return did == wants


def frame_try(side, it, letters=False):
    """What a side did with frames, and whether it may."""
    link = side.link()
    link.connection.settimeout(SHORT)
    message = side.message(letters)
    # The side may be gone before all of it is given, and before its close is answered.
    with suppress(Broken):
        it.give(link, message)
    did, pongs = heard(link, side.is_answer)
    with suppress(Broken):
        if did.startswith("closed"):
            link.put(link.frame(CLOSE, b""))
    link.hang_up()
    is_so = may_be(it.wants, did) and side.end()
    return did + (f", {len(pongs)} pongs" if len(pongs) > 1 else ""), is_so


def put_head(link, head, **words):
    some = head.bytes(**words)
    size = PIECE if head.slowly else len(some)
    for at in range(0, len(some), size):
        link.put(some[at : at + size])


def is_right(wants, status, fields):
    """Whether a server may answer so to a head. One that answers nothing to a head of another version doesn't name its own."""
    if wants == GOES:
        chosen = b"sec-websocket-extensions" in fields or b"sec-websocket-protocol" in fields
        return status == "101" and fields.get(b"sec-websocket-accept") == sign(KEY.encode()) and not chosen
    names = status == "dropped" or fields.get(b"sec-websocket-version") == b"13"
    return status != "101" and (wants == REFUSED or names)


def request_try(port, path, head):
    """What a server answers to a head."""
    link = Link(reach(port), True)
    link.connection.settimeout(SHORT)
    put_head(link, head, path=path)
    try:
        first, fields = link.head()
        status = first.split(b" ")[1].decode()
    except (Broken, TimeoutError):
        status, fields = "dropped", {}
    link.hang_up()
    return status, is_right(head.wants, status, fields)


def response_try(program, head):
    """What `dial` does with a server's head."""
    side = Run(program)
    listener, port = listening()
    side.start("dial", 1, port, 1)
    connection, _ = listener.accept()
    listener.close()
    connection.settimeout(SHORT)
    link = Link(connection, False)
    first, fields = link.head()
    asks = first.startswith(b"GET ") and first.endswith(b" HTTP/1.1") and fields[b"sec-websocket-version"] == b"13" and b"host" in fields
    did = GOES
    try:
        put_head(link, head, accept=sign(fields[b"sec-websocket-key"]).decode())
        link.get_turn()
    except (Broken, TimeoutError):
        did = REFUSED
    link.hang_up()
    return did, asks and did == head.wants and side.end()


class Table:
    """Lines of a table, and whether each is as it should be."""

    def __init__(self, *columns):
        self.wrong = 0
        print(f"\n| section | what | wanted | {' | '.join(columns)} |")
        print("|---|---|---|" + "---|" * len(columns))

    def line(self, it, *answers):
        cells = [did if is_so else f"**{did}**" for did, is_so in answers]
        self.wrong += sum(not is_so for _, is_so in answers)
        print(f"| {it.section} | {it.what} | {it.wants} | {' | '.join(cells)} |", flush=True)


def serve_request_try(program, head):
    """A head that is refused leaves `serve` waiting for its link, so an honest one comes behind it."""
    port = free_port()
    run = Run(program)
    run.start("serve", 0, port, 1)
    answer = request_try(port, "/", head)
    if answer[0] != "101":
        link = dial(port)
        link.give(END)
        link.rest()
    return answer[0], answer[1] and run.end()


def try_heads(editor, hosts):
    names = ["serve", *(host.name for host in hosts)]
    requests = Table(*names)
    for head in REQUESTS:
        at_hosts = (request_try(host.port, "/link", head) for host in hosts)
        requests.line(head, serve_request_try(editor, head), *at_hosts)
    responses = Table("dial")
    for head in RESPONSES:
        responses.line(head, response_try(editor, head))
    return requests.wrong + responses.wrong


def try_frames(editor, hosts):
    sides = [ServeSide(editor), DialSide(editor), *hosts]
    frames = Table(*(side.name for side in sides))
    for it in FRAMES:
        frames.line(it, *(frame_try(side, it) for side in sides))
    if not hosts:
        return frames.wrong
    texts = Table(*(host.name for host in hosts))
    for it in TEXTS:
        texts.line(it, *(frame_try(host, it, True) for host in hosts))
    return frames.wrong + texts.wrong


def main():
    editor, *programs = sys.argv[1:]
    hosts = [HostSide(program) for program in programs]
    try:
        wrong = try_heads(editor, hosts) + try_frames(editor, hosts)
    finally:
        for host in hosts:
            host.close()
    print(f"\n{wrong} of them did what they may not")
    sys.exit(wrong > 0)


main()
