"""5,000 inserts of user 1 that nobody has validated are undone by one entry, or none of them. One worker has all the steps."""
from row import Row, text

INSERTS = 5_000
LAST = {"deluser 1": INSERTS, "addauth 0 - all i 0": INSERTS, "adduser 2": 0}


def rows():
    entries = ["message entry 1 adduser 1", "message entry 2 addauth 0 + 1 i 0"]
    inserts = [f"message request {stamp}.1 2 insert 0.0 x" for stamp in range(1, INSERTS + 1)]
    made = [f"1 {line} => version {version} undone 0" for version, line in enumerate(entries, 1)]
    made += [f"1 {line} => taken tentative" for line in inserts]
    for operation, undone in LAST.items():
        last = f"message entry 3 {operation}"
        shown = (INSERTS - undone) * "x"
        report = [f"run {len(made) + 1}", *made, f"1 {last} => version 3 undone {undone}", f"show {shown}".rstrip(), "held 0"]
        yield Row(["race", "2"], text([*entries, *inserts, last]), written=text(report), part=operation)
