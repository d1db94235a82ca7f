"""Runs what stands in the blocks of documents, and compares what the program answers with what they say.

    .ci/play_documents.py PROGRAM DOCUMENT ..

A block is a run of lines that are indented by four spaces. `...` in it stands for lines that are left out, and what stands two spaces
behind a line is a remark. There are three kinds:

- Commands: the first begins with a path. Those of the program and of the examples run as they stand, in a folder that has the program
  as `./roastcliff` and a copy of `examples/`; a `serve` runs beside those that dial it, on a free port. Each has to end with 0, and to
  write what stands behind its `->`, or in the file `.out` beside its input. A host runs until the document ends, with what else is
  started on its folder, where these are built; the lines behind it are what it printed, whatever its port and its secrets are. The others
  are told by name: commands of other programs, and a `serve` that nobody in its block dials.
- A dialogue, `LINE -> ANSWER`: its lines stand in this order, with these answers, in the run of the script or of the frames that the
  section is about. This is the last one that a command of the section ran, or else the script that its text names. Where there is
  neither, the block is the script itself.
- Other lines: they stand in this order in what a command of the section was given, or in what one wrote. Frames are written out.
"""
import os
import re
import shutil
import subprocess
import sys
import tempfile
from typing import NamedTuple

from blocks import sections, with_answer, without_remark
from link_peer import END, TURN, Broken, free_port, reach, text_of
from played_host import NotRight, PlayedHost, alike
from row import SECONDS, difference

TOP = os.path.join(os.path.dirname(os.path.abspath(__file__)), "..")
IS_HOSTED = re.compile(r"\./roastcliff (?:host|verify|follow) ")
CAN_RUN = re.compile(r"\./roastcliff (?!host |verify |follow )|examples/\w+/run\b")
HAS_DIALOGUE = re.compile(r"\./roastcliff (replay|feed) ")
# A command that serves or dials: what stands before its port, and the number behind it.
CALLS = re.compile(r"(\./roastcliff (?:serve|dial) \d+) \w+ (\d+)")


class Wrong(Exception):
    """What isn't as a document says."""


class Ran(NamedTuple):
    """A command that ran, the bytes that it was given, and those that it wrote."""

    command: str
    given: bytes
    written: bytes


# ---- commands


def start(command, folder):
    pipes = {"stdin": subprocess.DEVNULL, "stdout": subprocess.PIPE, "stderr": subprocess.STDOUT}
    return subprocess.Popen(["bash", "-c", f"exec {command}"], cwd=folder, **pipes)


def file_behind(sign, command, folder):
    """The bytes of the file that a command names behind this sign, None where it names none."""
    named = re.search(f" {sign} (\\S+)", command)
    if named is None:
        return None
    with open(os.path.join(folder, named[1]), "rb") as file:
        return file.read()


def end(command, running, folder):
    """Waits for the end of a command."""
    try:
        written, _ = running.communicate(timeout=SECONDS)
    except subprocess.TimeoutExpired:
        raise Wrong(f"'{command}' has no end within {SECONDS} seconds") from None
    if running.returncode != 0:
        raise Wrong(f"'{command}' ends with {running.returncode}, and writes {written[-200:]!r}")
    kept = file_behind(">", command, folder)
    return Ran(command, file_behind("<", command, folder) or b"", written if kept is None else kept)


def run_all(commands, folder):
    """Runs a command, or a `serve` with those that dial it once it listens."""
    running = []
    try:
        for command in commands:
            running.append(start(command, folder))
            if command is commands[0] and len(commands) > 1:
                # One that connects and asks for no link is let go.
                reach(int(command.split(" ")[3])).close()
        return [end(command, it, folder) for command, it in zip(commands, running)]
    except Broken as error:
        raise Wrong(f"'{commands[0]}': {error}") from None
    finally:
        for it in running:
            it.kill()


def groups_of(commands):
    """The commands of a block that run, in groups of those that run side by side."""
    if " serve " not in commands[0]:
        return [[it] for it in commands if CAN_RUN.match(it)]
    dialled = len(commands) - 1
    return [commands] if CALLS.match(commands[0])[2] == str(dialled) else []


def on_a_free_port(commands):
    """The commands, on another port where they serve and dial."""
    port = free_port()
    return [CALLS.sub(rf"\1 {port} \2", it) for it in commands]


def compare(ran, answer, folder):
    """Compares what a command wrote with what stands behind its `->`, or in the file beside its input."""
    wanted = f"{answer}\n".encode() if answer else None
    given = re.search(r" < (\S+)\.\w+", ran.command)
    beside = f"{folder}/{given[1]}.out" if given else ""
    if wanted is None and os.path.exists(beside):
        with open(beside, "rb") as file:
            wanted = file.read()
    wrong = difference(ran.written, wanted) if wanted is not None else None
    if wrong:
        raise Wrong(f"of what '{ran.command}' writes {wrong}")


# ---- what was given and written


def written_out(frame):
    return {TURN: "turn", END: "end"}.get(frame) or text_of(frame)


def lines_of(some):
    """The lines of a text, and of the frames that stand before it, written out. A frame begins with a byte 0."""
    lines = []
    while some[:1] == b"\0":
        size = 4 + int.from_bytes(some[:4], "big")
        lines.append(written_out(some[:size]))
        some = some[size:]
    return lines + some.decode().splitlines()


def dialogue_of(ran):
    """Each line or frame that was given, with its answer. A frame may have further ones, of what it settles."""
    given, written = lines_of(ran.given), lines_of(ran.written)
    if given and given[0].startswith("peers "):
        return [(given[0], None), *zip(given[1:], written)]
    pairs, left = [], iter(given)
    for answer in written:
        is_further = answer.startswith(("settled ", "dropped "))
        pairs.append(("" if is_further else next(left, ""), answer))
    return pairs


class Dialogue:
    """The dialogue that the blocks of a section tell, and how far they came in it."""

    def __init__(self, ran):
        self.pairs = dialogue_of(ran)
        self.at = 0

    def go_behind(self, given, answer):
        """Goes on behind the next place of a line with this answer."""
        if (given, answer) not in self.pairs[self.at :]:
            answers = [it for line, it in self.pairs if line == given]
            told = f"'{given}' isn't answered by '{answer}'" if answer else f"there is no line '{given}' without an answer"
            raise Wrong(f"{told} here. Its answers in this run: {answers}")
        self.at = self.pairs.index((given, answer), self.at) + 1


def stand_in(lines, source):
    """Whether the lines stand in the source, in this order."""
    rest = iter(source)
    return all(line in rest for line in lines)


# ---- documents


class Document:
    """A document that is played in a folder, and what comes of it."""

    def __init__(self, path, folder):
        self.path = path
        self.folder = folder
        self.played = 0
        self.wrong = []
        self.not_run = []
        self.host = PlayedHost(folder)
        # Of the section that is played: the commands that ran, whether one of a host didn't, so that what stands behind it can't be
        # compared, and its dialogue.
        self.section = None
        self.ran = []
        self.is_without_host = False
        self.dialogue = None

    def run(self, commands):
        ran = run_all(commands, self.folder)
        self.ran += ran
        if HAS_DIALOGUE.match(ran[-1].command):
            self.dialogue = Dialogue(ran[-1])
        return ran

    def play_host(self, command, answer):
        """Plays a command of a host, and compares what it wrote with what stands behind its `->`."""
        written = self.host.run(command)
        self.ran.append(Ran(command, file_behind("<", command, self.folder) or b"", written))
        if answer is not None and written != f"{answer}\n".encode():
            raise Wrong(f"'{command}' writes {written!r}")

    def play_commands(self, block):
        commands = [with_answer(line)[0] for line in block.lines]
        answers = dict(map(with_answer, block.lines))
        hosted = [] if self.is_without_host else list(filter(self.host.can_run, commands))
        groups = groups_of(commands)
        not_run = [it for it in commands if it not in hosted and not any(it in group for group in groups)]
        self.not_run += not_run
        self.is_without_host |= any(map(IS_HOSTED.match, not_run))
        self.played += bool(groups or hosted)
        for command in hosted:
            self.play_host(command, answers[command])
        for group in groups:
            for command, ran in zip(group, self.run(on_a_free_port(group))):
                compare(ran, answers[command], self.folder)

    def play_script(self, block):
        """Plays the script that the section is about, or else the one that the block is."""
        script = self.section.script()
        if script is None:
            script = "block.script"
            with open(f"{self.folder}/{script}", "w", encoding="utf-8") as file:
                file.writelines(f"{with_answer(line)[0]}\n" for line in block.lines)
        self.run([f"./roastcliff replay < {script}"])

    def play_dialogue(self, block):
        self.played += 1
        if self.dialogue is None:
            self.play_script(block)
        for line in block.told():
            self.dialogue.go_behind(*with_answer(line))

    def play_lines(self, block):
        if self.is_without_host:
            return
        self.played += 1
        lines = [alike(without_remark(line)) for line in block.told()]
        sources = [map(alike, map(str.strip, lines_of(some))) for ran in self.ran for some in (ran.given, ran.written)]
        if not any(stand_in(lines, source) for source in sources):
            raise Wrong(f"no command of the section is given or writes these lines in this order: {lines}")

    def play_block(self, block):
        play = self.play_commands if block.is_of_commands() else self.play_dialogue if block.is_dialogue() else self.play_lines
        try:
            play(block)
        except (Wrong, NotRight) as wrong:
            self.wrong.append(f"{self.path}:{block.number}: {wrong}")

    def play(self):
        for self.section in sections(self.path):
            self.ran, self.is_without_host, self.dialogue = [], False, None
            for block in self.section.blocks:
                self.play_block(block)

    def tell(self):
        """Says what is wrong and what isn't run, and gives whether all is right."""
        for line in [*self.wrong, *(f"{self.path}: not run: {command}" for command in self.not_run)]:
            print(f"tutorial: {line}")
        if self.wrong or not self.played:
            print(f"tutorial: {self.path}: of the {self.played} blocks that are run {len(self.wrong)} say something else")
            return False
        print(f"tutorial: {self.path}: the program answers as {self.played} {'block says' if self.played == 1 else 'blocks say'}")
        return True


def play(program, path):
    """Plays a document, and gives whether all is right."""
    with tempfile.TemporaryDirectory() as folder:
        os.symlink(program, f"{folder}/roastcliff")
        shutil.copytree(f"{TOP}/examples", f"{folder}/examples")
        document = Document(path, folder)
        try:
            document.play()
        except ValueError as unread:
            print(f"tutorial: {path} can't be read: {unread}")
            return False
        finally:
            document.host.stop()
        return document.tell()


def main():
    program = os.path.abspath(sys.argv[1])
    told = [play(program, path) for path in sys.argv[2:]]
    return 0 if told and all(told) else 1


sys.exit(main())
