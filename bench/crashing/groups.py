"""Saves in groups: the small program that makes them, kills of it, and what a step costs."""
import os
import random
import subprocess
import sys
import tempfile
import threading

sys.path.insert(0, os.path.join(os.path.dirname(os.path.abspath(__file__)), ".."))
import copied
from measuring import TOP

HERE = os.path.dirname(os.path.abspath(__file__))
NEEDS = ["coop_request", "peer_step", "peer_disk", "peer_store"]
# Behind so many kills the file is begun anew.
KILLS_A_FILE = 20
GROUPS = [1, 10, 100, 1000]
STEPS, RUNS = 10_000, 3


def build(folder):
    """Builds the program, without a proof."""
    out = os.path.join(folder, "groups")
    with tempfile.TemporaryDirectory() as copy:
        copied.copy_crates(copy, copied.below(NEEDS))
        crate = copied.add_program(copy, os.path.join(HERE, "groups.rt.txt"), NEEDS)
        subprocess.run([os.path.join(TOP, "bench/fast/build"), crate, out], stdout=subprocess.DEVNULL, check=True)
    return out


def killed(program, name, group):
    """How many steps were there when the file was opened, how many were said to be saved last, if either was said before the kill."""
    running = subprocess.Popen([program, name, str(group), "1000000"], stdout=subprocess.PIPE)
    opened = running.stdout.readline() if random.random() < 0.5 else b""
    timer = threading.Timer(random.random() * 0.05, running.kill)
    timer.start()
    told = (opened + running.stdout.read()).decode().split("\n")[:-1]
    running.wait()
    timer.join()
    if any(line.split()[0] not in ("opened", "saved") for line in told):
        sys.exit(f"crashing: a line is none: {told[-1]!r}")
    return [int(line.split()[1]) for line in told]


def kill_often(program, folder, kills, shown):
    """Each step that was said to be saved is kept, and of the next group all are there or none."""
    told, more = 0, 0
    for kill in range(kills):
        name = f"{folder}/groups-{kill // KILLS_A_FILE}"
        group = random.choice([1, 2, 3, 10, 100])
        if kill % KILLS_A_FILE == 0:
            before = 0
        counts = killed(program, name, group)
        now = shown(name)
        last = counts[-1] if counts else before
        if counts[:1] not in ([], [before]) or now not in (last, last + group):
            sys.exit(f"crashing: {before} steps were kept, {counts[-3:]} were said to be saved in groups of {group}, and {now} are there")
        told, more, before = told + last - before, more + (now > last), now
    print(f"killed {kills} times: each of {told} saved steps is kept, and {more} groups that weren't said to be saved are there whole")


def measure(program, folder):
    """What a step costs in groups of each size."""
    print("| steps a save | microseconds a step |")
    print("|---|---|")
    for group in GROUPS:
        micros = []
        for run in range(RUNS):
            command = [program, f"{folder}/measured-{group}-{run}", str(group), str(STEPS)]
            told = subprocess.run(command, stdout=subprocess.PIPE, text=True, check=True).stdout.split("\n")
            micros.append(int(told[-2].split()[1]))
        print(f"| {group:,} | {min(micros) / STEPS:.1f} |")
