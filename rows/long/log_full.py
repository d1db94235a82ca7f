"""A log takes 16,383 entries. Then it is full before anything else is looked at."""
from row import Row, text

MOST = 16_383


def rows():
    turns = ["0 adduser 1", "0 deluser 1"] * (MOST // 2)
    lines = ["peers 1", *turns, "0 adduser 1", "0 adduser 1", "0 validatenext"]
    answers = [f"entry {version} {version} undone 0" for version in range(1, MOST + 1)]
    yield Row(["replay"], text(lines), written=text(answers + ["log full", "log full"]))
