"""A run of the program and what it must give, and what the generators of long rows make these of."""
from typing import Callable, NamedTuple, Optional

# How long a run may take.
SECONDS = 60


class Row(NamedTuple):
    """The words of a run and its input, the exit code, and either what is written or a check of it.

    In the words `{FILE}` is the name of a file, `{PORT}` a port on which nobody listens and `{USED}` one on which another does.
    `disk` has the bytes of the file before and behind the run, None where there is no file, or where it isn't looked at.
    """

    words: list
    given: bytes = b""
    status: int = 0
    written: bytes = b""
    # Is given the program and what was written, and says what is wrong with it.
    check: Optional[Callable] = None
    disk: tuple = (None, None)
    # Plays the other side of a link: is given a call that opens one, and says what is wrong.
    other: Optional[Callable] = None
    # What tells the run from the others of its row.
    part: str = ""


def text(lines):
    """The lines, each with its line end."""
    return "".join(f"{line}\n" for line in lines).encode()


def difference(got, wanted):
    """The first line in which two outputs differ, in words; None where they are equal."""
    if got == wanted:
        return None
    mine, theirs = got.split(b"\n"), wanted.split(b"\n")
    for number, (one, other) in enumerate(zip(mine, theirs), 1):
        if one != other:
            return f"line {number} is {one[:200]!r}, and not {other[:200]!r}"
    return f"{len(mine) - 1} lines are written, and not {len(theirs) - 1}"
