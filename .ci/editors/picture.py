"""Takes the picture of one document in a browser, in Vim and in Emacs, after a right was taken away while Emacs was apart.

    python3 .ci/editors/picture.py CHROMIUM HOST FOLLOW PICTURE

The page's module has to be built: web/build, or web/build --quick.
"""
import json
import os
import shutil
import subprocess
import sys
import tempfile
import time

sys.dont_write_bytecode = True
import editor
from editor import HERE, Emacs, Vim, wait_for
from team import Team

FIRST = "Plan for the spring fair\n\nThe fair is on the green, from ten to four.\n"


class Camera:
    """The browser, by its script."""

    def __init__(self, chromium):
        words = ["node", os.path.join(HERE, "picture.mjs"), chromium]
        self.process = subprocess.Popen(words, stdin=subprocess.PIPE, stdout=subprocess.PIPE, text=True)

    def do(self, **order):
        print(json.dumps(order), file=self.process.stdin, flush=True)
        if self.process.stdout.readline() != "done\n":
            raise editor.Wrong(f"the browser doesn't do {list(order)}")

    def end(self):
        self.process.stdin.close()
        self.process.wait()


def play(team, camera, follow, folder, picture):
    """What the picture shows."""
    secret = team.order("invite 1")[0].rsplit("#", 1)[1]
    camera.do(open=team.address(secret))
    camera.do(insert=FIRST)
    wait_for("what Ada wrote", lambda: team.text == FIRST)
    cy, _ = team.invite("writer Cy")
    bea, person = team.invite("writer Bea")
    vim = Vim("vim", folder, follow, team.address(cy))
    vim.do("set laststatus=2")
    emacs = Emacs("emacs", folder, follow, team.address(bea, is_cut=True))
    vim.write_at_end("Cy: tables for the stalls, from the school.\n")
    wait_for("what Cy wrote", lambda: emacs.text == vim.text)
    team.ways[-1].is_down = True
    team.ways[-1].cut()
    emacs.write_at_end("And a brass band.")
    wait_for("what Bea wrote", emacs.is_kept)
    vim.write_at_end("Tea at four.\n")
    team.order(f"admin addauth 0 - @{person} idu 0")
    team.ways[-1].is_down = False
    wait_for("that it is undone", lambda: emacs.marks() and emacs.text == vim.text == team.text)
    vim.do("RoastcliffWho")
    time.sleep(2)
    screens = [("Cy, in Vim, who asks who may do what", vim), ("Bea, in Emacs, who was apart when her right to write went", emacs)]
    shown = [{"name": name, "text": it.terminal.screen("-e")} for name, it in screens]
    camera.do(picture=picture, screens=shown)
    vim.end()
    emacs.end()


def main():
    chromium, host, follow, picture = sys.argv[1:]
    editor.COLUMNS, editor.ROWS = 100, 21
    folder = tempfile.mkdtemp(prefix="editors-")
    team, camera = Team(os.path.abspath(host), folder), Camera(chromium)
    try:
        team.order("rename 1 Ada")
        play(team, camera, os.path.abspath(follow), folder, os.path.abspath(picture))
    finally:
        camera.end()
        team.end()
        shutil.rmtree(folder, ignore_errors=True)


main()
