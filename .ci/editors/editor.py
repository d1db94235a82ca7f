"""An editor in a terminal of tmux: what it shows, the keys it gets, and what it is told over a link of its own."""
import json
import os
import shlex
import socket
import subprocess
import time

HERE = os.path.dirname(os.path.abspath(__file__))
TOP = os.path.abspath(os.path.join(HERE, "..", ".."))
COLUMNS, ROWS = 92, 20
SECONDS = float(os.environ.get("EDITOR_SECONDS", "20"))


class Wrong(Exception):
    """What an editor doesn't do as it should."""


def wait_for(what, is_so, seconds=SECONDS):
    """Waits until something is so."""
    last = time.monotonic() + seconds
    while time.monotonic() < last:
        found = is_so()
        if found:
            return found
        time.sleep(0.02)
    raise Wrong(f"{what} doesn't come")


class Terminal:
    """A terminal in which a program runs."""

    def __init__(self, name, words, folder, **variables):
        self.server = ["tmux", "-f", "/dev/null", "-S", os.path.join(folder, name + ".tmux")]
        size = ["-x", str(COLUMNS), "-y", str(ROWS)]
        settings = [f"{key}={value}" for key, value in variables.items()]
        command = shlex.join(["env", *settings, *words])
        self.run("new-session", "-d", *size, "-s", "main", command)
        self.run("set-option", "-g", "escape-time", "0")

    def run(self, *words):
        return subprocess.run([*self.server, *words], check=True, capture_output=True).stdout.decode()

    def keys(self, *names):
        """Presses keys, by tmux' names."""
        self.run("send-keys", "-t", "main", *names)

    def type(self, text):
        """Types a text."""
        self.run("send-keys", "-t", "main", "-l", text)

    def paste(self, text):
        """Pastes a text, as a terminal does it."""
        path = self.server[-1] + ".paste"
        with open(path, "w", encoding="utf-8") as file:
            file.write(text)
        self.run("load-buffer", path)
        self.run("paste-buffer", "-p", "-t", "main")

    def screen(self, *words):
        return self.run("capture-pane", "-p", "-t", "main", *words)

    def runs(self):
        """Whether its program runs."""
        return subprocess.run([*self.server, "has-session"], check=False, capture_output=True).returncode == 0

    def end(self):
        subprocess.run([*self.server, "kill-server"], check=False, capture_output=True)


class Editor:
    """An editor that writes in a document, driven over a socket of its own."""

    def __init__(self, name, folder, follow, address):
        self.name, self.folder, self.address = name, folder, address
        self.door = socket.create_server(("localhost", 0))
        self.door.settimeout(SECONDS)
        home = os.path.join(folder, name)
        os.makedirs(home, exist_ok=True)
        self.variables = {
            "DRIVER_PORT": str(self.door.getsockname()[1]), "HOME": home, "XDG_DATA_HOME": home, "XDG_CONFIG_HOME": home,
            "XDG_STATE_HOME": home, "FOLLOW": follow, "LANG": "C.UTF-8", "TERM": "screen-256color",
        }
        self.terminal = self.link = None
        try:
            self.start()
        except (Wrong, OSError):
            self.end()
            raise

    def start(self, is_linked=True):
        self.terminal = Terminal(self.name, self.words(), self.folder, **self.variables)
        link, _ = self.door.accept()
        link.settimeout(SECONDS)
        self.link = link.makefile("rwb")
        self.open(self.address)
        wait_for(f"{self.name}'s document", self.is_linked if is_linked else self.is_open)

    def ask(self, line):
        """The answer to a line."""
        self.link.write(line.encode() + b"\n")
        self.link.flush()
        try:
            answer = self.link.readline()
        except TimeoutError:
            raise Wrong(f"{self.name} says nothing:\n{self.terminal.screen()}") from None
        if not answer:
            raise Wrong(f"{self.name} has ended")
        told = json.loads(answer)
        if isinstance(told, dict) and "wrong" in told:
            raise Wrong(f"{self.name} at {line[:200]}: {told['wrong']}")
        return told

    def screen(self):
        """What the terminal shows, in one row."""
        return " ".join(self.terminal.screen().split())

    def start_again(self):
        """Ends the editor by its keys, and starts it anew."""
        self.leave()
        wait_for(f"the end of {self.name}", lambda: not self.terminal.runs())
        self.link.close()
        self.start(is_linked=False)

    def end(self):
        if self.terminal:
            self.terminal.end()
        if self.link:
            self.link.close()
        self.door.close()


class Vim(Editor):
    """Vim, or Neovim."""

    program = "vim"

    def words(self):
        plugin = os.path.join(TOP, "editors", "vim")
        setting = f"let g:roastcliff_program = [$FOLLOW] | set nocompatible encoding=utf-8 shortmess+=I nomore ttimeout ttimeoutlen=10 runtimepath^={plugin}"
        return [self.program, "-u", "NONE", "-i", "NONE", "-N", "--cmd", setting,
                "-S", os.path.join(plugin, "plugin", "roastcliff.vim"), "-S", os.path.join(HERE, "driver.vim")]

    def tell(self, expression):
        return self.ask(json.dumps(["tell", expression]))

    def do(self, command):
        return self.ask(json.dumps(["do", command]))

    def open(self, address):
        self.do(f"Roastcliff {address}")

    def state(self):
        """How it stands with the document, in words."""
        return self.tell("RoastcliffStatus()")

    def is_open(self):
        return self.tell("&modifiable") == 1

    def is_linked(self):
        return self.is_open() and self.state().startswith("linked")

    def is_kept(self):
        return self.is_open() and "not kept" not in self.state()

    @property
    def text(self):
        return "\n".join(self.tell("getline(1, '$')"))

    def change(self, start, end, put):
        """Puts a text in place of letters, as a command does it."""
        self.tell(f"DriverChange({start}, {end}, {json.dumps(put.split(chr(10)), ensure_ascii=False)})")

    def place(self):
        """Where the cursor is: a line, and a column in bytes, from 1."""
        return self.tell("getcurpos()[1:2]")

    def go(self, line, column):
        self.tell(f"cursor({line}, {column})")

    def marks(self):
        """What is marked as undone: its lines, and why, as the list of reasons has it."""
        signs = self.tell("sign_getplaced('', {'group': 'roastcliff'})[0].signs")
        return [sign["lnum"] for sign in signs]

    def reasons(self):
        self.do("RoastcliffWhy")
        lines = self.tell("getline(1, '$')")
        self.do("close")
        return "\n".join(lines)

    def who(self):
        self.do("RoastcliffWho")
        lines = self.tell("getline(1, '$')")
        self.do("close")
        return "\n".join(lines)

    def replace_all(self, old, new):
        self.terminal.type(f":%s/{old}/{new}/")
        self.terminal.keys("Enter")

    def undo(self):
        self.terminal.keys("u")

    def redo(self):
        self.terminal.keys("C-r")

    def write_at_end(self, text):
        """Types at the end of the text."""
        self.begin_to_type_at_end()
        self.terminal.type(text)
        self.end_to_type()

    def leave(self):
        self.terminal.type(":qa")
        self.terminal.keys("Enter")

    def begin_to_type_at_end(self):
        self.terminal.keys("G", "A")
        wait_for(f"{self.name}'s insert mode", lambda: self.tell("mode()") == "i")

    def end_to_type(self):
        self.terminal.keys("Escape")
        wait_for(f"{self.name}'s normal mode", lambda: self.tell("mode()") == "n")


class Neovim(Vim):
    """Neovim."""

    program = "nvim"


class Emacs(Editor):
    """Emacs, in a terminal."""

    program = "emacs"

    def words(self):
        setting = "(setq roastcliff-program (list (getenv \"FOLLOW\")) inhibit-startup-screen t ring-bell-function #'ignore)"
        return ["emacs", "-nw", "-Q", "--eval", setting, "-l", os.path.join(TOP, "editors", "emacs", "roastcliff.el"),
                "-l", os.path.join(HERE, "driver.el")]

    def tell(self, expression):
        """The value of an expression in the document's buffer."""
        return self.ask(f"(with-current-buffer (driver-document) {expression})")

    def open(self, address):
        self.ask(f'(progn (roastcliff "{address}") (redisplay) t)')

    def state(self):
        """How it stands with the document, in words."""
        return self.tell("(roastcliff--lighter)")

    def is_open(self):
        return self.tell("(not buffer-read-only)") is True

    def is_linked(self):
        return self.is_open() and "linked" in self.state()

    def is_kept(self):
        return self.is_open() and "not kept" not in self.state()

    @property
    def text(self):
        return self.tell("(buffer-substring-no-properties (point-min) (point-max))")

    def change(self, start, end, put):
        """Puts a text in place of letters, as a command does it."""
        quoted = put.replace("\\", "\\\\").replace('"', '\\"').replace("\n", "\\n")
        self.tell(f'(driver-change {start + 1} {end + 1} "{quoted}")')

    def place(self):
        """Where the cursor is: a line, and a column in letters, from 1."""
        return self.tell("(list (line-number-at-pos) (1+ (- (point) (line-beginning-position))))")

    def go(self, line, column):
        self.tell(f"(progn (goto-char (point-min)) (forward-line {line - 1}) (forward-char {column - 1}) "
                  "(set-window-point nil (point)) t)")

    def marks(self):
        """The lines at which something is marked as denied or undone."""
        return self.tell("(mapcar (lambda (it) (line-number-at-pos (overlay-start it))) "
                         "(cl-remove-if-not (lambda (it) (overlay-get it 'roastcliff)) (overlays-in (point-min) (point-max))))")

    def help(self, command, buffer):
        return self.tell(f'(save-window-excursion ({command}) (with-current-buffer "{buffer}" (buffer-string)))')

    def reasons(self):
        return self.help("roastcliff-why", "*Roastcliff why*")

    def who(self):
        return self.help("roastcliff-who", "*Roastcliff who*")

    def undo(self):
        self.terminal.keys("C-_")

    def redo(self):
        self.terminal.keys("C-M-_")

    def write_at_end(self, text):
        """Types at the end of the text."""
        self.begin_to_type_at_end()
        self.terminal.type(text)

    def leave(self):
        self.terminal.keys("C-x", "C-c")

    def begin_to_type_at_end(self):
        self.terminal.keys("M->")

    def end_to_type(self):
        pass

    def replace_all(self, old, new):
        self.terminal.keys("M-<", "M-x")
        self.terminal.type("replace-string")
        self.terminal.keys("Enter")
        self.terminal.type(old)
        self.terminal.keys("Enter")
        self.terminal.type(new)
        self.terminal.keys("Enter")
