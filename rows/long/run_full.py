"""A run takes 1,048,576 steps: at the next one `dial` ends its steps, and dials nobody."""
from row import Row, text

MOST = 1_048_576


def rows():
    report = [f"run {MOST}", *MOST * ["0 show => show"], "show", "held 0", "too long"]
    yield Row(["dial", "1", "{PORT}", "1"], text((MOST + 1) * ["show"]), 8, text(report))
