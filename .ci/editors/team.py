"""A host with an owner who orders, and the ways on which editors reach it, which can be cut."""
import os
import sys

HERE = os.path.dirname(os.path.abspath(__file__))
TOP = os.path.abspath(os.path.join(HERE, "..", ".."))
sys.path[:0] = [os.path.join(TOP, ".ci"), os.path.join(TOP, "bench", "hosting"), os.path.join(TOP, "bench", "following")]
from cutting import Cutting
from editor import Wrong
from host_peer import Device, Host

DOCUMENT = "/d/notes/link"


class Team:
    """A host, its owner, and a way to it for everybody else."""

    def __init__(self, program, folder):
        self.host = Host(program, os.path.join(folder, "notes"), web=os.path.join(TOP, "web"))
        self.owner = Device(self.host, DOCUMENT, self.host.line().rsplit("#", 1)[1])
        self.ways = []

    def order(self, *lines):
        """Orders of the owner, on a link of their own, and the lines that answer them."""
        link = self.owner.link(self.host, DOCUMENT)
        link.say("order 1\n" + "\n".join(lines))
        _, _, rest = link.text("answer").partition("\n")
        link.hang_up()
        return rest.split("\n")

    @property
    def saved(self):
        """How many messages the host has."""
        link = self.owner.link(self.host, DOCUMENT)
        link.hang_up()
        return link.saved

    def invite(self, words):
        """The secret of an invitation of a new person, and his number."""
        (made,) = self.order(f"person {words}")
        person = made.split(" ")[1]
        (told,) = self.order(f"invite {person}")
        return told.rsplit("#", 1)[1], person

    def address(self, secret, is_cut=False):
        """The address of the document, by a way that can be cut where that is asked for."""
        port = self.host.port
        if is_cut:
            self.ways.append(Cutting(self.host.port))
            port = self.ways[-1].own_port
        return f"http://localhost:{port}/d/notes/#{secret}"

    @property
    def text(self):
        """The text of the host."""
        status, _, text = self.host.ask("/d/notes/text", self.owner.bearer)
        if status != 200:
            raise Wrong(f"the host's text is answered by {status}")
        return text.decode()

    def end(self):
        self.host.kill()
