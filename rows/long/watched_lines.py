"""`watch` takes 524,287 lines, and runs nothing where there is one more."""
from row import Row, text

MOST = 524_287


def rows():
    yield Row(["watch", "0", "1"], text((MOST + 1) * ["show"]), 3, text([f"bad line {MOST + 1}"]))
