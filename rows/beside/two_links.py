"""`serve` works its links beside each other: each of two gets its turn while the other is still open, the second one first."""
from link_peer import END, TURN
from row import Row

STEPS = [f"{worker} {step}" for worker in (1, 2) for step in ("look 0 => no item", "validatenext => nothing tentative")]


def both(open_link):
    """Gives a turn over each link, and an end when a turn has come over both."""
    first, second = open_link(), open_link()
    for link in (first, second):
        link.give(TURN)
    for link in (second, first):
        if link.get_turn():
            return "before the turn comes an item"
    for link in (first, second):
        link.give(END)
    for link in (first, second):
        link.rest()
    return None


def wrong_report(_, written):
    head, *steps, shown, held = written.decode().splitlines()
    is_whole = [head, *sorted(steps), shown, held] == ["run 4", *STEPS, "show", "held 0"]
    return None if is_whole else f"{written!r} is written"


def rows():
    yield Row(["serve", "0", "{PORT}", "2"], check=wrong_report, other=both)
