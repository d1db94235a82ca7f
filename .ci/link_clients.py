"""Links whose other side is a real client, where one is installed: each is played in a process of its own (link_players)."""
import os
import queue
import subprocess
import sys
import threading

from link_peer import SECONDS, Broken, Closed, Link, reach

FOLDER = os.path.join(os.path.dirname(os.path.abspath(__file__)), "link_players")
# Debian's libraries of Node are there, where not each Node looks.
ENVIRONMENT = {**os.environ, "NODE_PATH": ":".join(filter(None, [os.environ.get("NODE_PATH"), "/usr/share/nodejs"]))}
BROWSER = ["node", "--experimental-websocket"]


def runs(*words):
    try:
        ran = subprocess.run(words, env=ENVIRONMENT, stdin=subprocess.DEVNULL, capture_output=True, timeout=SECONDS)
    except (OSError, subprocess.TimeoutExpired):
        return False
    return ran.returncode == 0


def clients():
    """The command of each client that is installed, and nothing for one that isn't."""
    python = next((it for it in (sys.executable, "/usr/bin/python3") if runs(it, "-c", "import websockets")), None)
    has_ws = runs("node", "-e", "require('ws')")
    has_browser = runs(*BROWSER, "-e", "process.exit(typeof WebSocket === 'function' ? 0 : 1)")
    return {
        "websockets of Python": [python, "-B", f"{FOLDER}/websockets_player"] if python else None,
        "ws of Node": ["node", f"{FOLDER}/node_player", "ws"] if has_ws else None,
        "the WebSocket of browsers": [*BROWSER, f"{FOLDER}/node_player", "browser"] if has_browser else None,
    }


class Player(Link):
    """One side of a link, which a client plays."""

    def __init__(self, command, *words):
        pipes = {"stdin": subprocess.PIPE, "stdout": subprocess.PIPE, "stderr": subprocess.DEVNULL}
        self.process = subprocess.Popen([*command, *map(str, words)], env=ENVIRONMENT, text=True, **pipes)
        self.told = queue.Queue()
        self.gave = []
        self.got = []
        threading.Thread(target=self.listen, daemon=True).start()

    def listen(self):
        for line in self.process.stdout:
            self.told.put(line.split())
        self.told.put(["gone"])

    def hear(self):
        """The next words that the client says."""
        try:
            return self.told.get(timeout=SECONDS)
        except queue.Empty:
            raise Broken("the client says nothing") from None

    def await_word(self, word):
        """What the client says behind this word."""
        first, *rest = self.hear()
        if first != word:
            raise Broken(f"the client says '{' '.join([first, *rest])}', and not '{word}'")
        return rest

    def tell(self, *words):
        try:
            print(*words, file=self.process.stdin, flush=True)
        except OSError as error:
            raise Broken(f"the client hears nothing: {error}") from None

    def give(self, *messages):
        for message in messages:
            self.tell("give", message.hex())
        self.gave += messages

    def get(self):
        first, *rest = self.hear()
        if first == "closed":
            raise Closed(int(rest[0]) if rest[0] != "none" else None)
        if first != "got":
            raise Broken(f"the client says '{first}'")
        self.got.append(bytes.fromhex("".join(rest)))
        return self.got[-1]

    def close(self, code=1000):
        self.tell("close", code)

    def hang_up(self):
        """Ends the client, so that nothing is said on the link any more."""
        self.process.kill()
        self.process.wait()


def dial_by(command, port, *origin):
    """A link to the program that serves this port, or one that the program refuses."""
    # One that connects and asks for no link is let go, so this waits until the program listens.
    reach(port).close()
    return Player(command, "dial", port, *origin)


def listening_by(command):
    """A client that listens, and its port."""
    player = Player(command, "listen")
    return player, int(player.await_word("port")[0])


def opened(player):
    """The client, once its link stands."""
    player.await_word("open")
    return player
