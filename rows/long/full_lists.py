"""A policy takes 256 users, objects, groups, members of one group and authorizations, and refuses more of each.

User 0 and object 0 are there from the first. What is wrong otherwise too is refused by the fault of the smaller number.
"""
from row import Row, text

# Of each: what stands in front, the operations, how many of all are issued, and what the others are answered.
LISTS = {
    "users": ([], [f"adduser {number}" for number in [*range(1, 257), 3]], 255, ["7 256", "1"]),
    "objects": ([], [f"addobj {number} all" for number in [*range(1, 257), 3]], 255, ["7 256", "4"]),
    "groups": ([], [f"addgroup {number}" for number in [*range(257), 3]], 256, ["7 256", "7 256"]),
    "members": (
        ["addgroup 1"],
        [*(f"addmember 1 {number}" for number in [*range(257), 3]), "addmember 2 0", "delmember 1 256", "delgroup 2", "addgroup 1"],
        257,
        ["7 256", "7 256", "10", "12", "10", "9"],
    ),
    "authorizations": (
        [],
        [*256 * ["addauth 0 + all i 0"], "addauth 256 - all i 0", "addauth 257 - all i 0", "delauth 256"],
        256,
        ["7 256", "6 256", "6 256"],
    ),
}


def rows():
    for part, (front, operations, issued, faults) in LISTS.items():
        lines = ["peers 1", *(f"0 {operation}" for operation in front + operations)]
        answers = [f"entry {version} {version} undone 0" for version in range(1, issued + 1)]
        answers += [f"refused {fault}" for fault in faults]
        yield Row(["replay"], text(lines), written=text(answers), part=part)
