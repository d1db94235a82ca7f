"""What has to hold behind a play, of the journal that the host shows and of what each device knows."""
import os
import re
import subprocess
import sys

from follower import spelled
from host_peer import frames_in
from writers import ENTRY, LET_ONE_GO, Wrong, name_of

READER = "65535"  # a site at which nobody writes
WITH_PIECE = (1, 3)  # the kinds of an insert and of an update
PIECE = 24  # where their piece begins
CODE = re.compile(r" code=(\d+) ")
NO_CLOSE = 4002  # what the log says too of a link whose other side went without a close
BROKEN = ("] broken ", "] paused")
REFUSALS = ("denied", "refused", "needs", "already", "not")  # how an answer begins that leaves nothing


def want(what, is_so):
    if not is_so:
        raise Wrong(what)


def ran(command, given, folder=None):
    """What a program writes, whose status has to be 0."""
    done = subprocess.run(command, input=given, capture_output=True, cwd=folder, check=False)
    want(f"{command} ends with {done.returncode}: {done.stdout[-200:]!r} {done.stderr[-500:]!r}", done.returncode == 0)
    return done.stdout


def piece_of(item):
    """The piece of a request, if it has one."""
    if item[5] not in WITH_PIECE:
        return ""
    return chr(int.from_bytes(item[PIECE:], "big")) if item[4] == 1 else item[PIECE + 1 :].decode()


def check_names(items):
    names = [name_of(it) for it in items]
    want("each name is given once", len(set(names)) == len(names))


def check_play_of(items, journal, programs):
    """The journal, played again by a fresh peer, takes each message. Gives the line of its text."""
    told = ran([programs.editor, "feed", READER], journal)
    if programs.oracle:
        again = ran([sys.executable, "-m", "oracle", "feed", READER], journal, os.path.dirname(os.path.abspath(programs.oracle)))
        want("the oracle says the same of the journal", again == told)
    lines = told.decode().split("\n")
    answers = lines[: len(items)]
    want("a fresh peer takes each message", all(it.startswith(("taken ", "version ")) for it in answers))
    want("nothing is held", lines[-2] == "held 0")
    return lines[len(items)]


def check_writer(writer, items):
    """What came back to one is the beginning of the journal, and all that he sent is there."""
    for life in (*writer.lives, writer.items):
        want(f"what came back to {writer.device.site} is the beginning of the journal", items[: len(life)] == life)
    there = set(items)
    lost = [it for it in getattr(writer, "made", []) if it not in there]
    want(f"each edit of {writer.device.site} is there: {lost[:3]}", not lost)


def check_owner(owner, items):
    """Each order that was answered left what its answer says."""
    entries = {int.from_bytes(name_of(it), "big") for it in items if it[5] == ENTRY}
    requests = {name_of(it) for it in items if it[5] != ENTRY}
    for line in owner.told:
        word, *rest = line.split(" ")
        if word == "entry":
            want(f"the entry of {line!r} is there", int(rest[0]) in entries)
        elif word == "done":
            stamp, site = map(int, rest[0].split("."))
            want(f"the request of {line!r} is there", (stamp << 16 | site).to_bytes(8, "big") in requests)
        else:
            want(f"an order is answered by {line!r}", word in REFUSALS)


def check_mate(mate, items):
    """Each text that was answered as put in stands in the journal, at his site."""
    site = mate.follower.site().to_bytes(2, "big")
    put = "".join(piece_of(it) for it in items if it[5] != ENTRY and it[12:14] == site)
    lost = [it for it in mate.follower.kept if it[: it.index(">") + 1] not in put]
    want(f"each answered text is there: {lost[:3]!r}", not lost)


def check_texts(text, line, mates):
    want("the host's text is that of its journal", line == (f"show {spelled(text)}" if text else "show"))
    for mate in mates:
        want("a follower has the host's text", mate.follower.text == text)


def check_folder(host, journal, certificate, programs):
    """The certificate holds, and a host that was killed and one that only looks find the same journal."""
    want("the certificate stands behind the journal", certificate.startswith(journal))
    ran([programs.editor, "audit"], certificate)
    host.kill()
    told = ran([programs.host, "verify", host.folder], b"").decode()
    want(f"what verify says: {told!r}", told == f"notes: open, {len(frames_in(journal))} messages\n")


def check_log(log):
    """A host ended no link for a fault, and broke no document."""
    codes = {int(found[1]) for line in log if (found := CODE.search(line))}
    want(f"the log tells of no link that was ended for a fault: {codes}", codes <= LET_ONE_GO | {NO_CLOSE})
    said = [line for line in log if any(it in line for it in BROKEN)]
    want(f"nothing broke: {said[:3]}", not said)
