"""Runs a session over a link while the machine fails the built program.

`failing` and `faulty` are failing.c and faulty.c, compiled. Each allocation of a `serve` and of a `dial` finds no memory, one at a time, and
each call that receives or sends fails, and is interrupted. Each run has to end by itself, with nothing on standard error, and with
what it promises: the report of a run, whose answers a script gives too, and the line of what failed; or, where memory was wanting, a
beginning of that.
"""
import errno
import os
import re
import select
import socket
import subprocess
import tempfile

import faults
import link_peer
from faults import DONE, NO_MEMORY, Broken
from link_peer import END, TURN, accept, dial, frame_of, free_port, listening

LINK_FAULT = 6

SERVED = b"admin adduser 1\nadmin addauth 0 + 1 idu 0\nedit insert 0 Tea.\n"
DIALLED = b"message entry 1 adduser 1\nmessage entry 2 addauth 0 + 1 idu 0\nedit insert 0 Tea.\n"
EARLY = "request 1.1 2 insert 0.0 Dear\\sall,\\s"
LATE = "request 9.1 2 insert 1.1 \xe9"
# What the other side meets where the program is gone.
GONE = (link_peer.Broken, link_peer.Closed, OSError)


class Program:
    """The program, which has all of its input."""

    def __init__(self, path, words, given, variables):
        pipes = {"stdin": subprocess.PIPE, "stdout": subprocess.PIPE, "stderr": subprocess.PIPE}
        self.process = subprocess.Popen([path, *map(str, words)], env={**os.environ, **variables}, **pipes)
        try:
            self.process.stdin.write(given)
            self.process.stdin.close()
        except BrokenPipeError:
            pass
        self.process.stdin = None

    def runs(self):
        return self.process.poll() is None

    def end(self):
        """The status, and what was written."""
        try:
            written, complaint = self.process.communicate(timeout=faults.SECONDS)
        except subprocess.TimeoutExpired:
            self.process.kill()
            raise Broken("it doesn't end") from None
        if complaint:
            raise Broken(f"on standard error stands {complaint[:200]!r}")
        return self.process.returncode, written


# ---- the other side


def reach(program, port):
    """A connection to a program, as long as it runs."""
    while program.runs():
        try:
            return socket.create_connection(("127.0.0.1", port), link_peer.SECONDS)
        except ConnectionRefusedError:
            select.select([], [], [], 0.002)
    raise link_peer.Broken("the program has ended")


def ask(link):
    """Takes turns until the program's own steps have come, and then has two rounds. Where there was no memory for a thread, they come
    when the session has ended."""
    own = SERVED.count(b"\n")
    for _ in range(50):
        link.give(TURN)
        own -= len(link.get_turn())
        if own <= 0:
            break
    for edit in (EARLY, LATE):
        link.give(frame_of(edit), TURN)
        link.get_turn()
    link.give(END)
    link.rest()


def answer(link):
    link.get_turn()
    link.give(frame_of("request 1.0 0 insert 0.0 \\sMilk."), TURN)
    link.get_turn()
    link.give(TURN)
    link.get()
    link.rest()


def play(part, link):
    """Plays a part until it ends, or the program is gone."""
    try:
        part(link)
    except GONE:
        pass
    link.hang_up()


def serve(path, variables):
    port = free_port()
    program = Program(path, ["serve", 0, port, 1], SERVED, variables)
    link_peer.reach = lambda port: reach(program, port)
    # One whose handshake fails is let go, and has to dial again.
    for _ in range(3):
        try:
            link = dial(port)
        except GONE:
            continue
        play(ask, link)
        break
    return program.end()


def dialled(path, variables):
    listener, port = listening()
    program = Program(path, ["dial", 1, port, 2], DIALLED, variables)
    while program.runs() and not select.select([listener], [], [], 0.01)[0]:
        pass
    if select.select([listener], [], [], 0)[0]:
        try:
            play(answer, accept(listener))
        except GONE:
            pass
    listener.close()
    return program.end()


# ---- what has to hold


def check_run(path, site, report, is_whole):
    """A report, or a beginning of it, is that of a run. It gives the lines behind it."""
    head, *lines = report.decode().split("\n")
    if lines.pop() != "" or not re.fullmatch(r"run \d+", head):
        raise Broken(f"a report begins with {head!r}, or ends in the middle of a line")
    made = [line.split(" => ", 1) for line in lines if " => " in line]
    told = faults.answers_of(path, [step[2:] for step, _ in made], site)
    if [answer for _, answer in made] != told[: len(made)]:
        raise Broken("a report has other answers than a script of the same steps")
    closing = lines[len(made) :]
    if is_whole and (int(head[4:]) != len(made) or closing[0] != told[-1] or not closing[1].startswith("held ")):
        raise Broken(f"a report of {len(made)} steps begins with {head!r} and ends with {closing}")
    return [line for line in closing[2:] if not line.startswith("waits ")]


def check(path, site, seen, may_fault):
    """A run ends whole, or for want of memory, or with the line of a fault, if there may be one."""
    status, written = seen
    if status == NO_MEMORY:
        if written:
            check_run(path, site, written, False)
        return
    lines = check_run(path, site, written, True)
    if (status, lines) not in [(DONE, [])] + [(LINK_FAULT, [line]) for line in may_fault]:
        raise Broken(f"with status {status} it ends with {lines}")


def counted(play, path, library, **variables):
    """The numbers of calls of a run, and its status and output."""
    with tempfile.NamedTemporaryFile() as count:
        seen = play(path, {"LD_PRELOAD": library, "COUNT_IN": count.name, **variables})
        return [int(number) for number in count.read().split()], seen


# How each is played, at which site, and what may be said where its handshake fails. One that serves lets such a link go.
FORMS = {"serve": (serve, 0, []), "dial": (dialled, 1, ["door fault"])}


def growths(form, path, library):
    """Fails each allocation in turn. How the threads come changes how many there are."""
    play, site, refused = FORMS[form]
    total = max(counted(play, path, library)[0][0] for _ in range(3))
    statuses = {}
    for number in range(1, total + 1):
        try:
            (made,), seen = counted(play, path, library, FAIL_AT=str(number))
            check(path, site, seen, refused)
        except Broken as broken:
            raise Broken(f"{form}, allocation {number} of {total}: {broken}") from None
        if made >= number:
            statuses[seen[0]] = statuses.get(seen[0], 0) + 1
    told = ", ".join(f"{count} with status {status}" for status, count in sorted(statuses.items()))
    print(f"links: {form}: each of {sum(statuses.values())} allocations failed; runs ended so: {told}", flush=True)


def calls(form, path, library, most):
    """Fails each call that receives or sends in turn, and interrupts it."""
    play, site, refused = FORMS[form]
    (_, _, recvs, sends), seen = counted(play, path, library, MOST=str(most))
    check(path, site, seen, [])
    statuses = {}
    for which, total in (("FAIL_RECV", recvs), ("FAIL_SEND", sends)):
        for number in range(1, total + 1):
            for error in (errno.EIO, errno.EINTR):
                try:
                    seen = play(path, {"LD_PRELOAD": library, "MOST": str(most), which: str(number), "FAIL_WITH": str(error)})
                    check(path, site, seen, [] if (which, error) == ("FAIL_RECV", errno.EINTR) else ["link 1 fault", *refused])
                except Broken as broken:
                    raise Broken(f"{form}, {which} {number} of {total}, error {error}, cut to {most}: {broken}") from None
                key = ("failed" if error == errno.EIO else "was interrupted", seen[0])
                statuses[key] = statuses.get(key, 0) + 1
    cut = f"cut to {most} bytes a call" if most else "not cut"
    told = ", ".join(f"{count} of those where one {how} with status {status}" for (how, status), count in sorted(statuses.items()))
    print(f"links: {form}, {cut}: each of {recvs} receivings and {sends} sendings failed and was interrupted; runs ended so: {told}", flush=True)


def links(path, failing, faulty):
    for form in FORMS:
        growths(form, path, failing)
        for most in (0, 7):
            calls(form, path, faulty, most)
