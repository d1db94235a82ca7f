"""Reads a document: its sections, and in each the blocks of lines that are indented by four spaces."""
import re
from typing import NamedTuple

INDENT = "    "
# Stands for lines that are left out.
LEFT_OUT = "..."


class Block(NamedTuple):
    """The lines of a block, and the number that the first has in the document."""

    number: int
    lines: list

    def told(self):
        """The lines that aren't left out."""
        return [line for line in self.lines if line != LEFT_OUT]

    def is_of_commands(self):
        """Whether its lines are commands: the first word of the first is a path and no address, or it copies."""
        first = self.lines[0].split(" ")[0]
        return first == "cp" or ("/" in first and "://" not in first)

    def is_dialogue(self):
        """Whether its lines are answered."""
        return any("->" in line for line in self.lines)


class Section(NamedTuple):
    """What stands from one heading of the second level to the next: the text with its headings, and the blocks."""

    text: list
    blocks: list

    def script(self):
        """The example that it is about: the first script that its text names, None where there is none."""
        named = re.search(r"`(?:examples/)?([\w-]+\.script)`", "\n".join(self.text))
        return named and f"examples/{named[1]}"


def sections(path):
    """The sections of a document. The first is what stands before all of these headings."""
    with open(path, encoding="utf-8") as document:
        lines = document.read().splitlines()
    found, before = [Section([], [])], ""
    for number, line in enumerate(lines, 1):
        if line.startswith("```"):
            raise ValueError(f"in line {number} a block stands between fences, and isn't indented by four spaces")
        if line.startswith("## "):
            found.append(Section([], []))
        if not line.startswith(INDENT):
            found[-1].text.append(line)
        elif before.startswith(INDENT):
            found[-1].blocks[-1].lines.append(line.removeprefix(INDENT))
        else:
            found[-1].blocks.append(Block(number, [line.removeprefix(INDENT)]))
        before = line
    return found


def without_remark(line):
    """A line without the remark that stands two spaces or more behind it."""
    return re.split(" {2,}", line.strip(), maxsplit=1)[0]


def with_answer(line):
    """What stands left of the arrow of a line, and right of it the answer, None where it has no arrow."""
    given, arrow, answer = line.partition("->")
    return (given.strip(), without_remark(answer)) if arrow else (without_remark(given), None)
