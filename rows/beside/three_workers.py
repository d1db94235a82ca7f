"""Three workers of `race` make their steps beside each other: edits, arrivals and operations, each list in its order.

Which order all of them have is left to the threads. In the order of the report the steps have the same answers in a script.
"""
import subprocess

from row import SECONDS, Row, text

# What begins the line of a step in a script, where it isn't the peer's number.
SCRIPT = {"look": "look 0", "show": "show 0", "message": "hand 0", "settle": "settle 0", "validatenext": "0 validatenext"}
WORKERS = {"edit": 0, "look": 0, "show": 0, "message": 1, "settle": 1, "admin": 2, "validatenext": 2}
EACH = [
    "edit insert 0 x",
    "look 0",
    "show",
    "message request 1.1 0 insert 0.0 y",
    "settle",
    "admin adduser 1",
    "validatenext",
]
MANY = [line for at in range(1, 201) for line in (f"edit insert 0 x{at}", f"message request {at}.1 0 insert 0.0 y", f"admin addgroup {at}")]


def script_line(step):
    first, _, others = step.partition(" ")
    return f"{SCRIPT.get(first, '0')} {others}".rstrip()


def answer_of(line):
    """An answer of a script as a report has it: without the number of what was issued."""
    words = line.split(" ")
    return " ".join(words[:1] + words[2:]) if words[0] in ("done", "entry") else line


def answers_in_a_script(program, steps):
    lines = ["peers 1", *map(script_line, steps), "show 0"]
    ran = subprocess.run([program, "replay"], input=text(lines), capture_output=True, timeout=SECONDS, check=True)
    return [answer_of(line) for line in ran.stdout.decode().splitlines()]


def wrong_report(program, written, steps):
    """What is wrong with a report of these steps."""
    report = written.decode().splitlines()
    made = [line.split(" => ") for line in report[1 : len(steps) + 1]]
    for worker in range(3):
        own = [step for step in steps if WORKERS[step.split(" ")[0]] == worker]
        if [step[2:] for step, _ in made if step.startswith(f"{worker} ")] != own:
            return f"worker {worker} doesn't make its steps in their order"
    *answers, shown = answers_in_a_script(program, [step[2:] for step, _ in made])
    if [answer for _, answer in made] != answers:
        return "the answers aren't those of a script with these steps in this order"
    whole = [f"run {len(steps)}", *(" => ".join(it) for it in made), shown, "held 0"]
    return None if report == whole else "the report isn't its head, a line for each step, and the closing lines"


def rows():
    for part, steps in (("a step of each kind", EACH), ("200 steps of each", MANY)):
        yield Row(["race", "0"], text(steps), check=lambda program, written, steps=steps: wrong_report(program, written, steps), part=part)
