"""The built program, for the checks and the measurements that are written in Python."""
import os
import subprocess
import sys

TOP = os.path.abspath(os.path.join(os.path.dirname(os.path.abspath(__file__)), ".."))


def program(asker):
    """The path of the proved program. Where it can't be built this says so and ends with 77, by which the suite skips a check."""
    built = subprocess.run([os.path.join(TOP, ".ci", "program")], stdout=subprocess.PIPE, text=True, check=False)
    if built.returncode != 0:
        print(f"{asker}: the program wasn't built")
        sys.exit(77)
    return built.stdout.strip()
