"""A page of a document in headless Chromium, driven as an editor is."""
import json
import os
import shutil
import subprocess

from editor import HERE, Wrong


class Page:
    """A page, by the script that drives its browser."""

    program = "chromium"

    def __init__(self, name, _folder, _follow, address):
        self.name = name
        words = ["node", os.path.join(HERE, "page.mjs"), shutil.which(self.program)]
        self.process = subprocess.Popen(words, stdin=subprocess.PIPE, stdout=subprocess.PIPE, text=True)
        try:
            self.ask("open", address)
        except Wrong:
            self.end()
            raise

    def ask(self, *words):
        """What it answers."""
        print(json.dumps(words), file=self.process.stdin, flush=True)
        answer = self.process.stdout.readline()
        if not answer:
            raise Wrong(f"{self.name} has ended")
        told = json.loads(answer)
        if isinstance(told, dict) and "wrong" in told:
            raise Wrong(f"{self.name} at {str(words)[:200]}: {told['wrong']}")
        return told

    @property
    def text(self):
        return self.ask("text")

    def change(self, start, end, put):
        """Puts a text in place of letters, by keys."""
        self.ask("change", start, end, put)

    def undo(self):
        self.ask("undo")

    def is_kept(self):
        return self.ask("saved")

    def cut(self):
        """Ends its link, which it dials again."""
        self.ask("cut")

    def end(self):
        self.process.stdin.close()
        self.process.wait()
