"""One play: a host and twenty devices, of which each is reached by a way of its own, on a bad net, with kills and a clock that jumps."""
import os
import random
import signal
import time
from typing import NamedTuple

import checks
import host_peer
from clock import Clock
from host_peer import Host
from mates import Mate
from ways import Way
from writers import DOCUMENT, Owner, Writer, Wrong

DEVICES, FOLLOWERS = 20, 6
SETTLE_SECONDS = 120


class Programs(NamedTuple):
    """Where the programs stand. The follower and the oracle are none where nobody named them."""

    host: str
    editor: str
    follow: str | None
    oracle: str | None


class Play:
    """A play of a seed in a folder."""

    def __init__(self, programs, seed, folder):
        self.programs, self.seed, self.folder = programs, seed, folder
        self.dice = random.Random(f"play {seed}")
        self.clock = Clock(folder)
        self.host = Host(self.clock.program("host", programs.host), os.path.join(folder, "notes"))
        self.log = []
        self.kills = 0
        self.ways, self.devices, self.mates = [], [], []
        self.invite()

    def way(self, comes_again=True):
        self.ways.append(Way(self.host.port, f"way {self.seed} {len(self.ways)}", comes_again))
        return self.ways[-1]

    def invite(self):
        """Makes all devices, and lets each link once, as long as the net is calm: it becomes a user of the document so."""
        first = host_peer.Device(self.host, DOCUMENT, self.host.line().rsplit("#", 1)[1])
        link = first.link(self.host, DOCUMENT)
        link.say("order 1\nperson writer Team")
        person = link.text("answer").split("\n")[1].split(" ")[1]
        link.say(f"order 2\ninvite {person}")
        secret = link.text("answer").rsplit("#", 1)[1]
        link.hang_up()
        followers = FOLLOWERS if self.programs.follow else 0
        made = [host_peer.Device(self.host, DOCUMENT, secret) for _ in range(DEVICES - followers - 1)]
        for device in made:
            device.link(self.host, DOCUMENT).hang_up()
        self.devices = [Writer(self.way(), it, f"writer {self.seed} {number}") for number, it in enumerate(made)]
        self.devices.append(Owner(self.way(comes_again=False), first, f"owner {self.seed}", [it.site for it in made]))
        if followers:
            program = self.clock.program("follow", self.programs.follow)
            self.mates = [self.mate(program, secret, number) for number in range(followers)]

    def mate(self, program, secret, number):
        file = os.path.join(self.folder, f"file{number}")
        return Mate(program, self.way(), secret, file, f"mate {self.seed} {number}")

    # ---- what befalls them

    def kill_host(self):
        self.host.kill()
        self.log += self.host.log
        time.sleep(self.dice.choice([0, 0, 0.5]))
        self.host.start()
        self.kills += 1

    def stop_host(self):
        os.kill(self.host.process.pid, signal.SIGSTOP)
        time.sleep(self.dice.random() * 2)
        os.kill(self.host.process.pid, signal.SIGCONT)

    def befall(self):
        draw = self.dice.random()
        if draw < 0.25:
            self.kill_host()
        elif draw < 0.35:
            self.stop_host()
        elif draw < 0.5:
            self.clock.jump(self.dice)
        elif draw < 0.75 and self.mates:
            self.dice.choice(self.mates).is_to_be_killed = True
        else:
            self.dice.choice(self.devices).is_to_begin_anew = True

    def play(self, seconds):
        for it in self.devices + self.mates:
            it.start()
        for way in self.ways:
            way.is_calm = False
        last = time.monotonic() + seconds
        while time.monotonic() < last:
            time.sleep(self.dice.random())
            self.befall()
            broken = [it.broken for it in self.devices + self.mates if it.broken]
            if broken:
                raise broken[0]

    # ---- how it ends

    def settle(self):
        """All is calm, each writes no more, and what is on its way comes."""
        for it in self.devices + self.mates:
            it.ends.set()
        for way in self.ways:
            way.calm()
        for way in self.ways:
            way.wait()
        last = time.monotonic() + SETTLE_SECONDS
        for it in self.devices + self.mates:
            it.join(max(0, last - time.monotonic()))
            if it.broken:
                raise it.broken
            if it.is_alive():
                raise Wrong(f"{it} of {getattr(it, 'device', it)} doesn't come to its end")

    def ask(self, path):
        owner = self.devices[-1].device
        status, _, body = self.host.ask(f"/d/notes/{path}", owner.bearer)
        if status != 200:
            raise Wrong(f"{path} is answered by {status}")
        return body

    def meet(self):
        """Waits until each follower shows the host's text, and gives that."""
        last = time.monotonic() + SETTLE_SECONDS
        while True:
            for mate in self.mates:
                mate.again(mate.follower.take_all)
            text = self.ask("text").decode()
            if all(mate.follower.text == text for mate in self.mates):
                return text
            if time.monotonic() > last:
                return text  # the check tells which differs
            time.sleep(0.1)

    def check(self):
        """Looks at all that has to hold. Gives the messages of the journal."""
        text, journal, certificate = self.meet(), self.ask("journal"), self.ask("certificate")
        items = host_peer.frames_in(journal)
        checks.check_names(items)
        line = checks.check_play_of(items, journal, self.programs)
        checks.check_texts(text, line, self.mates)
        for it in self.devices[:-1]:
            checks.check_writer(it, items)
        checks.check_writer(self.devices[-1], items)
        checks.check_owner(self.devices[-1], items)
        for mate in self.mates:
            checks.check_mate(mate, items)
            checks.want("a follower ends well", mate.end() == 0)
        self.kill_host()
        checks.want("a host that starts again has the same journal", self.ask("journal") == journal)
        checks.check_folder(self.host, journal, certificate, self.programs)
        checks.check_log(self.log + self.host.log)
        return items

    def told(self, items):
        """What was met, in words."""
        met = sum((way.met for way in self.ways), start=type(self.ways[0].met)())
        replaced = sum(mate.met["replaced"] for mate in self.mates)
        killed = sum(mate.met["killed"] for mate in self.mates)
        words = [f"{len(items)} messages", f"{self.kills} kills of the host", f"{killed} of followers", f"{replaced} followers replaced"]
        return ", ".join(words + [f"{met[it]} {it}" for it in sorted(met)])

    def close(self):
        for it in self.devices + self.mates:
            it.ends.set()
        for mate in self.mates:
            if mate.follower.process.poll() is None:
                mate.follower.kill()
        for way in self.ways:
            way.close()
        if self.host.process.poll() is None:
            os.kill(self.host.process.pid, signal.SIGCONT)
            self.host.kill()
