"""The host of a document that is played, with what else is run on its folder.

It is the program $HOST, and its follower $FOLLOW, else the proved ones where they stand built. What isn't built isn't run.
"""
import os
import re
import subprocess
import urllib.request

from link_peer import free_port, reach
from row import SECONDS

TOP = os.path.join(os.path.dirname(os.path.abspath(__file__)), "..")
COMMAND = re.compile(r"\./roastcliff (host|verify|follow) (?![A-Z])|(cp) ")
# An address, maybe with a secret behind it, as a host prints it, a follower is given it, and a document shows it.
ADDRESS = re.compile(r"http://localhost:\d+/((?:d/[a-z0-9-]+/)?)(?:(#)[0-9a-f]{32})?")
INVITATION = re.compile(rb"http://localhost:\d+/#([0-9a-f]{32})\n")


class NotRight(Exception):
    """What a host doesn't do as it should."""


def program(word):
    """The program that a word begins, None where it isn't built. Copies are made where there is a host."""
    variable, crate = ("FOLLOW", "follow_main") if word == "follow" else ("HOST", "host_main")
    path = os.path.join(TOP, os.environ.get(variable, f"crates/{crate}/out/{crate}"))
    return path if os.access(path, os.X_OK) else None


def alike(line):
    """A line in which the ports and the secrets of addresses aren't told."""
    return ADDRESS.sub(r"http://localhost/\1\2", line)


class PlayedHost:
    """A host that runs in a folder from the first command that starts it on, and what it printed."""

    def __init__(self, folder):
        self.folder = folder
        self.process = None
        self.port = None
        self.secret = None

    def can_run(self, command):
        """Whether a command is one of these, and its program is there."""
        found = COMMAND.match(command)
        return bool(found) and program(found[1]) is not None

    def run(self, command):
        """Runs a command, and gives the line that the host printed, or what the program wrote."""
        word = COMMAND.match(command)[1]
        return self.start(command) if word == "host" else self.run_beside(word, command)

    def start(self, command):
        """Starts the host anew, on a port of its own, and looks whether it serves its page."""
        self.stop()
        self.port = free_port()
        words = [program("host"), *command.split()[1:], "--port", str(self.port), "--web", os.path.join(TOP, "web")]
        pipes = {"stdin": subprocess.DEVNULL, "stdout": subprocess.PIPE, "stderr": subprocess.DEVNULL}
        self.process = subprocess.Popen(words, cwd=self.folder, **pipes)
        reach(self.port).close()
        # It has printed its line before it listens.
        os.set_blocking(self.process.stdout.fileno(), False)
        printed = self.process.stdout.read() or b""
        invited = INVITATION.fullmatch(printed)
        if self.secret is None and invited is None:
            raise NotRight(f"'{command}' prints {printed!r}, and no invitation")
        self.secret = self.secret or invited[1].decode()
        with urllib.request.urlopen(f"http://localhost:{self.port}/", timeout=SECONDS) as page:
            if b"<title>Roastcliff</title>" not in page.read():
                raise NotRight(f"'{command}' serves another page")
        return printed

    def run_beside(self, word, command):
        """Runs a program to its end, beside the host. An address is that of the host, and a secret that of its invitation."""
        secret = {"#": f"#{self.secret}", None: ""}
        here = ADDRESS.sub(lambda found: f"http://localhost:{self.port}/{found[1]}{secret[found[2]]}", command)
        words = here.replace("./roastcliff", program(word), 1) if word else here
        pipes = {"stdin": subprocess.DEVNULL, "stdout": subprocess.PIPE, "stderr": subprocess.PIPE}
        ran = subprocess.run(["bash", "-c", f"exec {words}"], cwd=self.folder, timeout=SECONDS, check=False, **pipes)
        if ran.returncode != 0:
            raise NotRight(f"'{command}' ends with {ran.returncode}, and writes {(ran.stdout + ran.stderr)[-200:]!r}")
        return ran.stdout

    def stop(self):
        """Kills the host, if it runs."""
        if self.process is not None:
            self.process.kill()
            self.process.communicate()
            self.process = None
