"""Runs the built program while the machine fails it, and holds what it writes against what it writes otherwise.

- `growths`: each allocation finds no memory, one at a time.
- `calls`: each read and each write fails, one at a time, and all are cut.

Their libraries are failing.c and faulty.c, compiled. Each run has to end by itself, with nothing on standard error, and with
what its form promises: the usual status and output, or the status of what failed and a beginning of that output.
"""
import errno
import os
import subprocess
import tempfile

DONE, BAD_INPUT, READ_FAULT, WRITE_FAULT, NO_MEMORY = 0, 3, 4, 5, 7
SECONDS = 60  # of a run, which takes a few thousandths of one

LEAST = b"peers 1\n0 insert 0 a\nshow 0\n"

# A message waits for an element, and two wait for a version.
HELD = b"""peers 2
0 insert 0 a
0 addobj 1 span 1.0 1.0
0 adduser 1
0 insert 1 b
give 2 1
settle 1
give 4 1
give 3 1
give 1 1
settle 1
settle 1
settle 1
settle 1
show 1
"""

# An edit is undone where it was made, and comes too late to another.
UNDO = b"""peers 2
0 adduser 1
0 addauth 0 + 1 idu 0
give 1 1
give 2 1
1 insert 0 x
1 update 0 y
give 3 0
0 addauth 0 - 1 iu 0
0 delauth 0
give 4 0
show 0
show 1
give 5 1
state 1 1.1
show 1
give 6 1
show 1
"""

# Steps of one worker alone, so that only one run can come out.
ONE_WORKER = b"""message request 2.0 0 insert 1.0 b
message entry 2 addauth 0 + 1 i 0
message request 1.0 0 insert 0.0 a
settle
message entry 1 adduser 1
settle
settle
message request 3.2 0 update 1.0 c
"""

# Steps of all three.
THREE_WORKERS = b"""edit insert 0 x
message entry 1 adduser 1
edit insert 0 y
admin adduser 3
message entry 2 addauth 0 + 1 idu 0
edit update 0 z
look 0
message request 1.0 0 insert 0.0 a
validatenext
edit delete 0
message entry 3 addauth 0 - 1 d 0
settle
show
"""


class Broken(Exception):
    """What has to hold doesn't."""


class Case:
    """Words of the program, and its input."""

    def __init__(self, name, words, given=b""):
        self.name, self.words, self.given = name, words.split(), given

    def usual(self, program):
        return run(program, self, {})


def read(path):
    with open(path, "rb") as file:
        return file.read()


def longest():
    """The longest of the examples' scripts."""
    paths = ["examples/" + name for name in os.listdir("examples") if name.endswith(".script")]
    return max(sorted(paths), key=os.path.getsize)


def run(program, case, variables):
    """The status and the output of a run."""
    with tempfile.TemporaryFile() as given:
        given.write(case.given)
        given.seek(0)
        try:
            done = subprocess.run([program, *case.words], stdin=given, capture_output=True, timeout=SECONDS, env={**os.environ, **variables})
        except subprocess.TimeoutExpired:
            raise Broken("it doesn't end") from None
    if done.stderr:
        raise Broken(f"on standard error stands {done.stderr[:200]!r}")
    return done.returncode, done.stdout


def counts(program, case, library, **variables):
    """The numbers of calls in a run, and its status and output."""
    with tempfile.NamedTemporaryFile() as count:
        seen = run(program, case, {"LD_PRELOAD": library, "COUNT_IN": count.name, **variables})
        return [int(number) for number in count.read().split()], seen


# ---- a race of three workers

WORKERS = {"message": "1", "settle": "1", "admin": "2", "validatenext": "2"}


def script_line(step, site):
    """The line of a script that makes a step of a race at a peer."""
    kind, _, rest = step.partition(" ")
    heads = {"edit": f"{site} {rest}", "admin": f"{site} {rest}", "message": f"hand {site} {rest}", "look": f"look {site} {rest}"}
    return heads.get(kind, f"{site} validatenext" if kind == "validatenext" else f"{kind} {site}")


def answers_of(program, steps, site):
    """What a script answers to the same steps; it gives each issued message a number, which a report doesn't."""
    script = "".join(line + "\n" for line in [f"peers {site + 1}"] + [script_line(step, site) for step in steps] + [f"show {site}"])
    told = run(program, Case("", "replay", script.encode()), {})[1].decode().splitlines()
    return [" ".join(words[:1] + words[2:]) if words[0] in ("done", "entry") else line for line in told for words in [line.split(" ")]]


def check_report(program, site, steps, report, is_whole):
    """A report, or a beginning of it, is that of one run, in which each worker made his own steps in their order."""
    head, *lines = report.decode().split("\n")
    if lines.pop() != "" or head != f"run {len(steps)}":
        raise Broken(f"a report begins with {head!r}, or ends in the middle of a line")
    made = [line.split(" => ", 1) for line in lines if " => " in line]
    for worker in "012":
        own = [step for step in steps if WORKERS.get(step.split(" ")[0], "0") == worker]
        his = [step[2:] for step, _ in made if step[0] == worker]
        if his != own[:len(his)] or is_whole and his != own:
            raise Broken(f"worker {worker} made {his}")
    told = answers_of(program, [step[2:] for step, _ in made], site)
    if [answer for _, answer in made] != told[:len(made)]:
        raise Broken("a report has other answers than a script of the same steps")
    if len(lines) > len(made) and lines[len(made)] != told[-1]:
        raise Broken(f"a report ends with {lines[len(made)]!r}")


# ---- allocations

def check_growth(program, case, usual, seen):
    status, written = seen
    if status not in (usual[0], NO_MEMORY):
        raise Broken(f"the status is {status}")
    if case.given is THREE_WORKERS:
        if status == DONE or written:
            check_report(program, int(case.words[1]), case.given.decode().splitlines(), written, status == DONE)
    elif not usual[1].startswith(written) or status != NO_MEMORY and written != usual[1]:
        raise Broken(f"with status {status} it writes {written[-200:]!r}")


def fail_growths(program, case, library, row):
    """Fails each allocation in turn and those behind it, so many in a row. In how many runs one failed, and how many of these went
    on. In a race the number of allocations depends on how the threads come."""
    usual = case.usual(program)
    total = max(counts(program, case, library)[0][0] for _ in range(5))
    failed = went_on = 0
    for number in range(1, total + 1):
        try:
            (made,), seen = counts(program, case, library, FAIL_AT=str(number), FAIL_FOR=str(row))
            check_growth(program, case, usual, seen)
        except Broken as broken:
            raise Broken(f"{case.name}, allocation {number} of {total}, {row} in a row: {broken}") from None
        failed += made >= number
        went_on += made >= number and seen[0] != NO_MEMORY
    return failed, went_on


def growths(program, library):
    cases = [
        Case("the least script", "replay", LEAST),
        Case("messages that are held and settled", "replay", HELD),
        Case("edits that are undone", "replay", UNDO),
        Case("a script of every kind of line", "replay", read("bench/memory/script")),
        Case("the longest example", "replay", read(longest())),
        Case("a stream of frames", "feed 2", read("examples/feed-2/each.frames")),
        Case("a stream that comes too early", "feed 2", read("examples/feed-2/early.frames")),
        Case("a made world", "make 7 50"),
        Case("a race, one worker", "race 1", ONE_WORKER),
        Case("a race, three workers", "race 1", THREE_WORKERS),
    ]
    rows = [(case, 1) for case in cases] + [(case, row) for case in cases[:3] + cases[-2:] for row in (2, 0)]
    for case, row in rows:
        failed, went_on = fail_growths(program, case, library, row)
        which = {1: "each of", 2: "each two in a row of", 0: "each and all behind it, of"}[row]
        print(f"growths: {case.name}: {which} {failed} allocations failed; {failed - went_on} runs ended with status {NO_MEMORY}, {went_on} wrote all", flush=True)


# ---- reads and writes

def frames(stream):
    """How many bytes of a stream are whole frames."""
    at = 0
    while len(stream) >= at + 4 and len(stream) >= at + 4 + int.from_bytes(stream[at:at + 4], "big"):
        at += 4 + int.from_bytes(stream[at:at + 4], "big")
    return at


def answered(program, case, given):
    """What is written for a beginning of the input behind which reading fails: the answers to its whole lines or frames."""
    if case.words[0] == "race":
        return b""
    if case.words[0] == "feed":
        fed = run(program, Case("", " ".join(case.words), given[:frames(given)]), {})[1]
        return fed[:fed.rindex(b"\nshow") + 1] if b"\nshow" in fed else b""
    whole = given[:given.rindex(b"\n") + 1] if b"\n" in given else b""
    return run(program, Case("", "replay", whole), {})[1] if whole else b""


def fail_read(program, case, library, number, most):
    seen = run(program, case, {"LD_PRELOAD": library, "FAIL_READ": str(number), "FAIL_WITH": str(errno.EIO), "MOST": str(most)})
    wanted = answered(program, case, case.given[:(number - 1) * (most or len(case.given))])
    if seen != (READ_FAULT, wanted):
        raise Broken(f"the status is {seen[0]}, and {seen[1][-200:]!r} is written, not {wanted[-200:]!r}")


def fail_write(program, case, usual, library, number, most):
    status, written = run(program, case, {"LD_PRELOAD": library, "FAIL_WRITE": str(number), "FAIL_WITH": str(errno.EIO), "MOST": str(most)})
    taken = number - 1 if most == 1 else len(written)
    if status != WRITE_FAULT or len(written) != taken or not usual[1].startswith(written):
        raise Broken(f"the status is {status}, and {written[-200:]!r} is written")


def interrupt(program, case, usual, library, which, number, most):
    seen = run(program, case, {"LD_PRELOAD": library, which: str(number), "FAIL_WITH": str(errno.EINTR), "MOST": str(most)})
    if seen != usual:
        raise Broken(f"an interrupted call changes the status to {seen[0]}, or the output")


def fail_calls(program, case, library, most):
    """Fails each read and each write in turn, and interrupts them. How many of both there are."""
    usual = case.usual(program)
    (reads, writes, *_), seen = counts(program, case, library, MOST=str(most))
    if seen != usual:
        raise Broken(f"{case.name}: cut to {most} bytes a call, something else is written")
    for name, total, which in (("read", reads, "FAIL_READ"), ("write", writes, "FAIL_WRITE")):
        for number in range(1, total + 1):
            try:
                if name == "read":
                    fail_read(program, case, library, number, most)
                else:
                    fail_write(program, case, usual, library, number, most)
                interrupt(program, case, usual, library, which, number, most)
            except Broken as broken:
                raise Broken(f"{case.name}, {name} {number} of {total}, cut to {most}: {broken}") from None
    return reads, writes


# What a shell gives the program, and how it has to end. It stands in $0, and nothing may be written.
STREAMS = [
    ("a folder as input", '"$0" replay < .', READ_FAULT),
    ("a closed input", '"$0" replay <&-', READ_FAULT),
    ("a full disk as output", 'printf "peers 1\\nshow 0\\n" | "$0" replay > /dev/full', WRITE_FAULT),
    ("a closed output", 'printf "peers 1\\nshow 0\\n" | "$0" replay >&-', WRITE_FAULT),
]


def gone(program):
    """The status where the reader of the output has gone away."""
    reader, output = os.pipe()
    os.close(reader)
    done = subprocess.run([program, "replay"], input=LEAST, stdout=output, stderr=subprocess.PIPE, timeout=SECONDS)
    os.close(output)
    return done.returncode


def odd_streams(program):
    """Streams that a user may well give it, and that don't work."""
    for what, line, wanted in STREAMS:
        done = subprocess.run(["sh", "-c", line, program], capture_output=True, timeout=SECONDS)
        if (done.returncode, done.stdout, done.stderr) != (wanted, b"", b""):
            raise Broken(f"{what}: the status is {done.returncode}, and {(done.stdout + done.stderr)[:200]!r} is written")
        print(f"calls: {what}: status {wanted}")
    if gone(program) != WRITE_FAULT:
        raise Broken(f"a reader that has gone away: the status is {gone(program)}")
    print(f"calls: a reader that has gone away: status {WRITE_FAULT}")


def calls(program, library):
    small = [
        Case("the least script", "replay", LEAST),
        Case("edits that are undone", "replay", UNDO),
        Case("a stream of frames", "feed 2", read("examples/feed-2/each.frames")),
        Case("a race, one worker", "race 1", ONE_WORKER),
    ]
    rows = [(case, most) for case in small for most in (0, 1, 2, 3, 7)]
    rows += [(Case("a script of every kind of line", "replay", read("bench/memory/script")), most) for most in (0, 7)]
    rows += [(Case("a made world", "make 7 50"), most) for most in (0, 1, 7)]
    for case, most in rows:
        reads, writes = fail_calls(program, case, library, most)
        cut = f"cut to {most} bytes a call" if most else "not cut"
        print(f"calls: {case.name}, {cut}: each of {reads} reads and {writes} writes failed and was interrupted", flush=True)
    odd_streams(program)
