"""Random scripts and streams for the built program, and what has to hold of its answers whatever they are."""
import subprocess
import tempfile

import frames

PIECES = ["a", "b", "\\n", "\\s", "\\\\", "é", "€", "𝄞", "word", "two\\swords", "x" * 255]
RIGHTS = ["i", "d", "u", "id", "iu", "du", "idu"]
READER = 63  # a site at which nobody writes
DONE, BAD_INPUT = 0, 3


class Broken(Exception):
    """Something that has to hold doesn't."""


def run(program, words, given):
    done = subprocess.run([program, *words], input=given, capture_output=True, timeout=60)
    if done.returncode not in (DONE, BAD_INPUT) or done.stderr:
        raise Broken(f"status {done.returncode}, {done.stderr[:200]!r}")
    return done.stdout


# ---- random lines

class Lines:
    """Draws lines of scripts, with names that stand, names that don't, and lies."""

    def __init__(self, rng, peers):
        self.rng, self.peers = rng, peers
        self.names, self.versions, self.issued = ["0.0"], 0, 0

    def name(self):
        draw = self.rng.random()
        if draw < 0.85 and len(self.names) > 1:
            return self.rng.choice(self.names)
        if draw < 0.9:
            return "0.0"
        return f"{self.rng.choice([1, 2, 3, 9, 2**48 - 1])}.{self.rng.randrange(self.peers + 2)}"

    def element(self):
        name = self.name()
        return name if name != "0.0" else f"{self.rng.randint(1, 5)}.{self.rng.randrange(self.peers)}"

    def numbers(self, below):
        count = self.rng.randint(1, 3)
        return ",".join(str(n) for n in sorted(self.rng.sample(range(below), min(count, below))))

    def users(self):
        draw = self.rng.random()
        return "all" if draw < 0.2 else "@" + self.numbers(3) if draw < 0.4 else self.numbers(self.peers + 1)

    def extent(self):
        draw = self.rng.randrange(4)
        if draw == 0:
            return "all"
        if draw == 1:
            return f"span {self.element()} {self.element()}"
        if draw == 2:
            return f"by {self.rng.randrange(self.peers + 1)}"
        names = {self.element() for _ in range(self.rng.randint(1, 4))}
        return "elems " + ",".join(sorted(names, key=key_of))

    def operation(self):
        rng = self.rng
        return rng.choice([
            lambda: f"adduser {rng.randrange(self.peers + 1)}",
            lambda: f"deluser {rng.randrange(self.peers + 1)}",
            lambda: f"addobj {rng.randrange(4)} {self.extent()}",
            lambda: f"delobj {rng.randrange(4)}",
            lambda: f"addgroup {rng.randrange(3)}",
            lambda: f"delgroup {rng.randrange(3)}",
            lambda: f"addmember {rng.randrange(3)} {rng.randrange(self.peers + 1)}",
            lambda: f"delmember {rng.randrange(3)} {rng.randrange(self.peers + 1)}",
            lambda: f"addauth {rng.randrange(3)} {rng.choice('++-')} {self.users()} {rng.choice(RIGHTS)} {self.numbers(4)}",
            lambda: f"addauth 0 {rng.choice('++-')} {self.users()} {rng.choice(RIGHTS)} 0",
            lambda: f"delauth {rng.randrange(3)}",
            lambda: f"validate {self.name()}",
        ])()

    def edit(self):
        at, piece = self.rng.randrange(6), self.rng.choice(PIECES)
        return self.rng.choice([f"insert {at} {piece}", f"insert 0 {piece}", f"delete {at}", f"update {at} {piece}"])

    def message(self):
        rng = self.rng
        if rng.random() < 0.3:
            return f"entry {max(1, self.versions + rng.randint(-2, 3))} {self.operation()}"
        about, piece = self.name(), rng.choice(PIECES)
        stamp = key_of(about)[0] + rng.choice([1, 1, 2, 3, 2**47])
        if stamp >= 2**48:
            about, stamp = "0.0", 2**48 - 1
        kind = rng.choice(["insert", "insert", "delete", "update"])
        if kind != "insert" and about == "0.0":
            kind = "insert"
        name = f"{stamp}.{rng.randrange(self.peers + 1)}"
        self.names.append(name)
        tail = "" if kind == "delete" else " " + piece
        return f"request {name} {max(0, self.versions + rng.randint(-3, 1))} {kind} {about}{tail}"

    def line(self):
        rng, peer = self.rng, self.rng.randrange(self.peers)
        draw = rng.random()
        if draw < 0.3:
            self.issued += 1
            return f"{peer} {self.edit()}"
        if draw < 0.42:
            self.issued += 1
            self.versions += rng.random() < 0.6
            return f"{0 if rng.random() < 0.95 else peer} {self.operation()}"
        if draw < 0.45:
            return "0 validatenext"
        if draw < 0.8:
            return f"give {rng.randint(1, max(1, self.issued))} {peer}"
        if draw < 0.88:
            return f"hand {peer} {self.message()}"
        if draw < 0.96:
            return f"settle {peer}"
        return rng.choice([f"show {peer}", f"look {peer} {rng.randrange(9)}", f"state {peer} {self.name()}"])


def key_of(name):
    stamp, site = name.split(".")
    return int(stamp), int(site)


def script(rng):
    """A script, drawn so that the names which its own edits make are known to later lines."""
    peers = rng.randint(2, 4)
    lines = Lines(rng, peers)
    lines.names += [f"{stamp}.{site}" for stamp in range(1, 8) for site in range(peers)]
    first = [f"peers {peers}"] + [f"0 adduser {user}" for user in range(1, peers)] + ["0 addauth 0 + all idu 0"]
    lines.issued, lines.versions = peers, peers
    for number in range(1, peers + 1):
        first += [f"give {number} {peer}" for peer in range(1, peers)]
    return peers, first + [lines.line() for _ in range(rng.randint(5, 120))]


# ---- what has to hold of a script's answers

def answers(program, lines):
    """The answers of a script, which has to have one a line."""
    written = run(program, ["replay"], "".join(line + "\n" for line in lines).encode()).decode().split("\n")
    if written.pop() != "":
        raise Broken("the last answer has no line end")
    bad = written[-1:] and written[-1].startswith("bad line ")
    if bad:
        raise Broken(f"{written[-1]}: {lines[int(written[-1].split()[2]) - 1]!r}")
    if len(written) != len(lines) - 1:
        raise Broken(f"{len(written)} answers to {len(lines)} lines")
    return written


def ask(program, lines, questions):
    """The answers to some last lines of a script."""
    return answers(program, lines + questions)[len(lines) - 1:] if questions else []


def journals(program, peers, lines):
    """The items of each peer's journal, in their order, once nothing that is due is held."""
    wide = lines + [f"settle {peer}" for peer in range(peers) for _ in range(130)]
    most = sum(line.split()[0] in ("give", "hand") or line[0].isdigit() for line in lines) + 1
    questions = [f"look {peer} {place}" for peer in range(peers) for place in range(most)]
    told = ask(program, wide, questions)
    items = [[answer[5:] for answer in told[peer * most:(peer + 1) * most] if answer != "no item"] for peer in range(peers)]
    return wide, items


def shown(program, lines, peer, items):
    """The text and the states of a peer."""
    names = sorted(item.split()[1] for item in items if item.startswith("request "))
    return ask(program, lines, [f"show {peer}"] + [f"state {peer} {name}" for name in names])


def entries_and_requests(items):
    return tuple(i for i in items if i.startswith("entry ")), frozenset(i for i in items if i.startswith("request "))


def check_journals(program, rng, peers, lines):
    wide, items = journals(program, peers, lines)
    seen = {}
    for peer in range(peers):
        has = entries_and_requests(items[peer])
        shows = shown(program, wide, peer, items[peer])
        if seen.setdefault(has, shows) != shows:
            raise Broken(f"peer {peer} shows something else than one with the same journal")
    for has, shows in seen.items():
        again = list(has[0]) + sorted(has[1])
        rng.shuffle(again)
        handed = [f"peers {READER + 1}"] + [f"hand {READER} {message}" for message in again] + [f"settle {READER}"] * len(again)
        if shown(program, handed, READER, again) != shows:
            raise Broken("a fresh peer that was handed the same journal in another order shows something else")


def changed(rng, line):
    """A line with a byte turned, cut or put in, or a part of it moved."""
    line = bytearray(line.encode())
    for _ in range(rng.randint(1, 3)):
        at = rng.randrange(len(line) + 1)
        kind = rng.randrange(4)
        if kind == 0 and line:
            line[at % len(line)] ^= 1 << rng.randrange(8)
        elif kind == 1:
            del line[at:at + rng.randint(1, 4)]
        elif kind == 2:
            line.insert(at, rng.choice(b" 019.,@\\nax\xc3\xff\x00"))
        else:
            line[at:at] = line[rng.randrange(len(line) + 1):][:6]
    return bytes(line).replace(b"\n", b"")


def check_changed_line(program, rng, lines, told):
    at = rng.randrange(1, len(lines))
    mutated = [line.encode() for line in lines]
    mutated[at] = changed(rng, lines[at])
    written = run(program, ["replay"], b"".join(line + b"\n" for line in mutated)).decode(errors="surrogateescape").split("\n")[:-1]
    if written[:at - 1] != told[:at - 1]:
        raise Broken(f"line {at + 1} changed answers in front of it")
    if len(written) != len(told) and written[-1] != f"bad line {at + 1}":
        raise Broken(f"{len(written)} answers, the last {written[-1]!r}, where line {at + 1} was changed")


def check_script(program, rng):
    peers, lines = script(rng)
    told = answers(program, lines)
    try:
        check_journals(program, rng, peers, lines)
        check_changed_line(program, rng, lines, told)
    except Broken as broken:
        raise Broken(f"{broken}\n" + "\n".join(lines)) from None


# ---- streams

def plain_piece(piece):
    return piece.replace("\\n", "\n").replace("\\s", " ").replace("\\\\", "\\")


def request_frame(words):
    own, version, kind, about = frames.name(*key_of(words[1])), int(words[2]), words[3], frames.name(*key_of(words[4]))
    if kind == "delete":
        return frames.delete(own, version, about)
    return {"insert": frames.insert, "update": frames.update}[kind](own, version, about, plain_piece(words[5]))


def frame_of(words):
    """The frame of a request, or of an entry that adds or removes a user; none of any other message."""
    if words[0] == "request":
        return request_frame(words)
    users = {"adduser": frames.ADD_USER, "deluser": frames.DEL_USER}
    if words[2] in users:
        return frames.entry(int(words[1]), users[words[2]], frames.short(int(words[3])))
    return b""


def frames_of(rng, lines):
    """Frames of requests and of simple entries, some of them damaged."""
    stream = b"".join(frame_of(lines.message().split(" ")) for _ in range(rng.randint(1, 60)))
    damaged = bytearray(stream)
    for _ in range(rng.choice([0, 0, 1, 2])):
        if damaged:
            damaged[rng.randrange(len(damaged))] ^= 1 << rng.randrange(8)
    return bytes(damaged[:rng.randint(0, len(damaged))] if rng.random() < 0.2 else damaged)


def give_in_chunks(rng, stream, pipe):
    at = 0
    with pipe:
        while at < len(stream):
            end = at + rng.choice([1, 2, 3, 7, 64, 1000])
            pipe.write(stream[at:end])
            pipe.flush()
            at = end


def feed_in_chunks(program, rng, stream):
    with tempfile.TemporaryFile() as out:
        fed = subprocess.Popen([program, "feed", "2"], stdin=subprocess.PIPE, stdout=out)
        try:
            give_in_chunks(rng, stream, fed.stdin)
        except BrokenPipeError:  # the program ends at the first bad frame
            pass
        fed.wait(timeout=60)
        out.seek(0)
        return out.read()


def check_stream(program, rng):
    stream = frames_of(rng, Lines(rng, 3))
    whole = run(program, ["feed", "2"], stream)
    if feed_in_chunks(program, rng, stream) != whole:
        raise Broken("a stream in chunks is answered in another way")
