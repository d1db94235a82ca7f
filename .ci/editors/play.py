"""Plays an editor and another member on one document of a host, by keys in a terminal: what is typed and what comes, undo, pastes, a loss of
the link, a right that is taken away, letters of every length, renewals, and random edits that end in one text.

    python3 .ci/editors/play.py HOST FOLLOW [EDITS] [EDITOR ..]

EDITOR is vim, nvim, emacs, or page: a page in Chromium, which takes part in the random edits alone. Its module has to be built.
"""
import glob
import os
import random
import shutil
import sys
import tempfile
import time
from contextlib import suppress

sys.dont_write_bytecode = True
from editor import SECONDS, Emacs, Neovim, Vim, Wrong, wait_for
from page import Page
from team import Team
from follower import Follower
from follower import Wrong as WrongFollower
from host_peer import Ended
from link_peer import Broken

EDITORS = {"vim": Vim, "nvim": Neovim, "emacs": Emacs}
SEED = int(os.environ.get("EDITOR_SEED", "11"))
LETTERS = ["a", "b", "c", " ", "\n", "\\", "é", "ß", "€", "漢", "𝄞", "\t", "#", "'", '"', "e\u0301"]
FEW = 40  # so many edits without a number
LINK_FAULT = 6  # the status of a follower whose document was renewed
FAULTS = (Wrong, WrongFollower, Ended, Broken, OSError)

tried = 0


def short(value):
    """A value as it is told."""
    told = repr(value)
    return told if len(told) < 400 else f"{told[:200]} .. {told[-100:]}"


def same(what, got, wanted):
    global tried
    tried += 1
    if got != wanted:
        raise Wrong(f"{what}: {short(got)} instead of {short(wanted)}")


def is_named(folder):
    """Whether a program runs that was given a file of a folder."""
    for path in glob.glob("/proc/[0-9]*/cmdline"):
        with suppress(OSError), open(path, "rb") as words:
            if folder.encode() in words.read():
                return True
    return False


def end_editor(editor):
    """Ends an editor. Its follower ends once all is at the host, so that has to be there until then."""
    editor.end()
    if not isinstance(editor, Page):
        with suppress(Wrong):
            wait_for("the end", lambda: not is_named(os.path.join(editor.folder, editor.name, "roastcliff", "")), 5)


class Stage:
    """A document on which Ann writes in an editor, and Ben by a follower."""

    def __init__(self, kind, host, follow, folder):
        self.team = Team(host, folder)
        self.follow, self.folder, self.lives = follow, folder, 0
        self.editor = self.ben = None
        try:
            self.begin(kind)
        except FAULTS:
            self.end()
            raise

    def begin(self, kind):
        ann_secret, self.ann = self.team.invite("writer Ann")
        ben_secret, _ = self.team.invite("writer Ben")
        self.let_ben_in(ben_secret)
        address = self.team.address(ann_secret, is_cut=True)
        self.way = self.team.ways[-1]
        self.editor = EDITORS[kind](kind, self.folder, self.follow, address)

    def let_ben_in(self, secret):
        """Ben opens the document, in a file of its own each time."""
        self.lives += 1
        self.ben = Follower(self.follow, self.team.address(secret), os.path.join(self.folder, f"ben{self.lives}"))
        self.ben.wait_for("a link", lambda: any(line.startswith("linked ") for line in self.ben.news))
        self.ben.reach(self.team.saved)
        self.ben.begin()

    def renew(self):
        """The owner renews the document, and Ben goes on in the new one."""
        same("a renewal", self.team.order("renew"), ["renewed notes"])
        lines = self.ben.last_lines()
        same("what Ben is told", lines[lines.index("closed 4024 the document was renewed") :][1:], ["renewed"])
        same("how his follower ends", self.ben.process.wait(), LINK_FAULT)
        with open(self.ben.words[3] + ".device", encoding="ascii") as kept:
            self.let_ben_in(".".join(next(kept).split()[1:]))

    @property
    def asides(self):
        """How many documents Ann has put aside."""
        return len(glob.glob(os.path.join(self.folder, self.editor.name, "roastcliff", "*.renewed*.device")))

    def meet(self, wanted=None, guests=()):
        """Waits until all have one text, and gives it. What a guest has kept may go out later, so as long as a guest's text is another
        one no text is the last."""
        def one():
            self.ben.take_all()
            texts = {self.editor.text, self.ben.text, self.team.text, *(it.text for it in guests)}
            return len(texts) == 1 and self.ben.unanswered == 0 and (wanted is None or texts == {wanted})
        try:
            wait_for("one text", one)
        except Wrong:
            texts = {"the editor": self.editor.text, "Ben": self.ben.text, "the host": self.team.text, "wanted": wanted}
            texts |= {it.name: it.text for it in guests}
            raise Wrong(f"no one text: {', '.join(f'{who} {short(text)}' for who, text in texts.items())}") from None
        return self.ben.text

    def begin_with(self, text):
        """All have this text, which Ben wrote."""
        self.meet()
        self.ben.replace(0, len(self.ben.text), text)
        self.meet(text)

    def settled(self):
        """Waits until what Ann typed has gone out."""
        wait_for("what was typed", lambda: self.editor.text == self.team.text)

    def apart(self):
        self.way.is_down = True
        self.way.cut()

    def linked(self):
        self.way.is_down = False

    def end(self):
        if self.editor:
            end_editor(self.editor)
        self.team.end()
        if self.ben:
            self.ben.kill()


def play_typing(stage):
    """What is typed comes to the others, and what they write comes here."""
    stage.begin_with("")
    stage.editor.write_at_end("Hello, team.")
    stage.meet("Hello, team.")
    stage.ben.replace(5, 5, " you")
    stage.meet("Hello you, team.")
    stage.editor.write_at_end(" So it goes on")
    stage.meet("Hello you, team. So it goes on")


def play_cursor(stage):
    """The cursor stays at its letter while others write in front of it, on its line, and behind it."""
    stage.begin_with("one\ntwo\nthree four\nfive")
    stage.editor.go(3, 7)
    stage.ben.replace(0, 0, "zero\nand\n")
    stage.meet("zero\nand\none\ntwo\nthree four\nfive")
    same("the cursor behind new lines", stage.editor.place(), [5, 7])
    start = stage.ben.text.index("three")
    stage.ben.replace(start, start + 5, "3é")
    stage.meet("zero\nand\none\ntwo\n3é four\nfive")
    wide = 1 if isinstance(stage.editor, Vim) else 0  # Vim counts bytes
    same("the cursor behind another word", stage.editor.place(), [5, 4 + wide])
    stage.ben.replace(len(stage.ben.text) - 4, len(stage.ben.text), "")
    stage.ben.replace(0, 9, "")
    stage.meet("one\ntwo\n3é four\n")
    same("the cursor in front of what went", stage.editor.place(), [3, 4 + wide])


def play_at_once(stage):
    """Both write at once, Ann without leaving the line that she types."""
    stage.begin_with("begin\n")
    stage.editor.write_at_end("mine")
    for number in range(5):
        stage.ben.replace(0, 0, f"{number}\n")
        stage.editor.write_at_end(f" {number}")
    text = stage.meet()
    same("what both wrote", text, "4\n3\n2\n1\n0\nbegin\nmine 0 1 2 3 4")
    stage.begin_with("line\n")
    stage.editor.begin_to_type_at_end()
    stage.editor.terminal.type("one word ")
    stage.meet("line\none word ")
    stage.ben.replace(5, 5, "Ben: ")
    stage.meet("line\nBen: one word ")
    stage.editor.terminal.type("and another ")
    stage.meet("line\nBen: one word and another ")
    stage.ben.replace(0, 5, "")
    stage.meet("Ben: one word and another ")
    stage.editor.terminal.type("third ")
    stage.editor.end_to_type()
    stage.meet("Ben: one word and another third ")


def play_paste(stage):
    """Three thousand letters and many lines are pasted while Ben writes."""
    stage.begin_with("above\n")
    pasted = "".join(f"line {number} of what is pasted, é漢𝄞\n" for number in range(100))[:3000]
    stage.editor.begin_to_type_at_end()
    stage.editor.terminal.paste(pasted)
    stage.ben.replace(0, 0, "Ben\n")
    stage.editor.end_to_type()
    stage.meet("Ben\nabove\n" + pasted)
    whole = "".join(f"line {number} of a text that is more than one line of the follower has room for\n" for number in range(400))
    stage.editor.change(0, len(stage.editor.text), whole)
    stage.meet(whole)


def play_undo(stage):
    """Undo takes back what Ann wrote, and nothing of what Ben wrote before it, within it and behind it."""
    stage.begin_with("text")
    stage.editor.write_at_end(" abcdef")
    stage.settled()
    stage.ben.take_all()
    stage.meet("text abcdef")
    stage.ben.replace(0, 0, "Ben's ")
    stage.meet("Ben's text abcdef")
    stage.ben.replace(14, 14, "-in-")
    stage.meet("Ben's text abc-in-def")
    stage.ben.replace(len(stage.ben.text), len(stage.ben.text), "!")
    stage.meet("Ben's text abc-in-def!")
    stage.editor.undo()
    stage.meet("Ben's text-in-!")
    stage.ben.replace(0, 6, "")
    stage.meet("text-in-!")
    stage.editor.redo()
    stage.meet("text abc-in-def!")
    stage.editor.undo()
    stage.meet("text-in-!")


def play_many(stage):
    """A command that changes many lines sends each for itself, so that Ben's lines between them stay his."""
    stage.begin_with("".join(f"{'this' if number % 3 else 'that'} is line {number}\n" for number in range(30)))
    wanted = stage.ben.text.replace("this", "This one")
    stage.editor.replace_all("this", "This one")
    stage.meet(wanted)
    stage.editor.undo()
    stage.meet(wanted.replace("This one", "this"))


def play_letters(stage):
    """Letters of every length, those that compose, control signs, and what lines spell by other letters."""
    stage.begin_with("a\u0301 ß€\n漢\t𝄞𝄞\\n\\\n\r\u0001 \u2028\U0010ffff")
    stage.editor.change(1, 3, "ÿ𐍈")
    stage.meet("aÿ𐍈ß€\n漢\t𝄞𝄞\\n\\\n\r\u0001 \u2028\U0010ffff")
    stage.ben.replace(1, 2, "é")
    text = "aé𐍈ß€\n漢\t𝄞𝄞\\n\\\n\r\u0001 \u2028\U0010ffff"
    stage.meet(text)
    stage.editor.write_at_end("äöü 漢字 🙂 \\n")
    stage.meet(text + "äöü 漢字 🙂 \\n")


def play_ends(stage):
    """A text is empty, ends with a line end or without one, and each line end of it is the text's own."""
    for text in ["", "x", "x\n", "\n", "\n\n", "", "\nx", "x\n\n"]:
        stage.begin_with(text)
        start = stage.editor.text
        same("the text in the editor", start, text)
        stage.editor.change(0, len(text), text + "\n")
        stage.meet(text + "\n")
        stage.editor.change(len(text), len(text) + 1, "")
        stage.meet(text)


def play_apart(stage):
    """Both write while the link is lost, and meet when it is back."""
    stage.begin_with("before\nbetween\n")
    stage.apart()
    stage.editor.write_at_end("Ann apart")
    wait_for("that the link is lost", lambda: "apart" in stage.editor.state())
    stage.ben.replace(0, 0, "Ben apart\n")
    stage.editor.change(7, 14, "BETWEEN")
    stage.linked()
    stage.meet("Ben apart\nbefore\nBETWEEN\nAnn apart")


def play_start(stage):
    """An editor that is killed and started again has what it had, without the host."""
    stage.begin_with("kept\n")
    stage.apart()
    stage.editor.write_at_end("Ann's")
    wait_for("what she wrote is kept", stage.editor.is_kept)
    stage.editor.start_again()
    same("what the file has", stage.editor.text, "kept\nAnn's")
    stage.linked()
    stage.meet("kept\nAnn's")


def play_rights(stage):
    """A right goes while Ann is apart: what she wrote is undone, marked at its line, with the reason."""
    stage.begin_with("first\nsecond\n")
    stage.apart()
    stage.editor.write_at_end("written apart")
    wait_for("what she wrote is kept", stage.editor.is_kept)
    stage.team.order(f"admin addauth 0 - @{stage.ann} idu 0")
    stage.linked()
    stage.meet("first\nsecond\n")
    same("the lines that are marked", stage.editor.marks()[-1:], [3])
    same("what was undone, and why", all(it in stage.editor.reasons() for it in ("written apart", "undone", "the rule says: Ann may not write anywhere")), True)
    same("what the screen shows", "“written apart” undone: the rule says: Ann may not" in stage.editor.screen(), True)
    stage.editor.go(1, 1)
    stage.editor.change(0, 0, "denied ")
    wait_for("what is denied is taken back", lambda: stage.editor.text == "first\nsecond\n")
    same("what was denied", "denied" in stage.editor.reasons(), True)
    same("its mark", 1 in stage.editor.marks(), True)
    stage.editor.change(0, 2, "")
    wait_for("a deletion that is denied is taken back", lambda: stage.editor.text == "first\nsecond\n")
    same("who may do what", all(it in stage.editor.who() for it in ("Ann (writer, which is you, is here) may only read", "Ben (writer, is here) may write", "1. Ann may not write anywhere")), True)
    stage.team.order("admin delauth 0")
    wait_for("the right comes back", lambda: "Ann may not" not in stage.editor.who())
    stage.editor.write_at_end("allowed")
    stage.meet("first\nsecond\nallowed")
    play_groups(stage)


def play_groups(stage):
    """A rule about a group is for whom it has a device of, as long as it has; one about an object that is gone is for no place."""
    (site,) = [line.split(" ")[1] for line in stage.team.order("keys") if line.startswith("device ") and line.split(" ")[2] == stage.ann]
    whole, part = "Ann (writer, which is you, is here) may write", "Ann (writer, which is you, is here) may add words and delete"
    for operations, may in (
        (("addgroup 900", "addauth 0 - @900 u 0"), whole),
        ((f"addmember 900 {site}",), part),
        ((f"delmember 900 {site}",), whole),
        ((f"addmember 900 {site}", "addobj 7 all", "delauth 0", "addauth 0 - @900 u 7"), part),
        (("delobj 7",), whole),
        (("addobj 7 all",), part),
        (("delgroup 900",), whole),
        (("delauth 0",), whole),
    ):
        stage.team.order(*(f"admin {it}" for it in operations))
        wait_for(f"what Ann may do behind {operations}", lambda: may in stage.editor.who())


def left_of(editor):
    """What the editor lists as left."""
    if isinstance(editor, Emacs):
        return editor.help("roastcliff-left", "*Roastcliff left*")
    editor.do("RoastcliffLeft")
    lines = editor.tell("getline(1, '$')")
    editor.do("close")
    return "\n".join(lines)


def pieces_left(editor):
    """The pieces that are left."""
    return [line.partition(". ")[2] for line in left_of(editor).split("\n") if line[:1].isdigit()]


def put_left(editor, which):
    """Puts in at the cursor what is left."""
    if isinstance(editor, Emacs):
        editor.tell(f'(progn (roastcliff-put-left "{which}") t)')
    else:
        editor.do(f"RoastcliffLeft {which}")


def drop_left(editor, which):
    """Lets go what is left."""
    if isinstance(editor, Emacs):
        editor.tell(f'(progn (roastcliff-drop-left "{which}") t)')
    else:
        editor.do(f"RoastcliffLeft! {which}")


def play_renewed(stage):
    """The document is renewed while Ann is apart. She goes on in the new one, and what she wrote apart is listed until it is put in or let go."""
    stage.begin_with("one\ntwo\nthree\n")
    stage.apart()
    stage.editor.change(3, 3, " and a half")
    stage.editor.write_at_end("Ann's é漢𝄞, \\n apart")
    wait_for("what she wrote is kept", stage.editor.is_kept)
    stage.ben.replace(0, 0, "zero\n")
    wait_for("what Ben wrote", lambda: stage.team.text.startswith("zero"))
    stage.editor.go(2, 2)
    stage.renew()
    stage.linked()
    stage.meet("zero\none\ntwo\nthree\n")
    wait_for("Ann writes on", stage.editor.is_linked)
    same("where the cursor is", stage.editor.place(), [3, 2])
    same("what is kept of the old one", stage.asides, 1)
    same("what is told", "eft has 2 pieces" in stage.editor.screen(), True)
    same("how it is listed", left_of(stage.editor).startswith("You wrote this while the document was renewed:\n1.  and a half\n2. Ann's"), True)
    same("its number in words", "2 left" in stage.editor.state(), True)
    stage.editor.undo()
    wait_for("an end of undo", lambda: any(it in stage.editor.screen() for it in ("nothing of yours is left", "No further undo information")))
    stage.editor.start_again()
    wait_for("a link", stage.editor.is_linked)
    same("what is left behind the editor's end", pieces_left(stage.editor), [" and a half", "Ann's é漢𝄞, \\n apart"])
    drop_left(stage.editor, 1)
    play_left(stage, "Ann's é漢𝄞, \\n apart")
    play_left_within(stage)
    play_renewed_at_once(stage)
    play_not_opened(stage)


def play_left(stage, piece):
    """What the rules deny stays in the list. What is put in is an edit that can be undone."""
    text = stage.ben.text
    stage.team.order(f"admin addauth 0 - @{stage.ann} idu 0")
    wait_for("the rule", lambda: "Ann may not" in stage.editor.who())
    put_left(stage.editor, 1)
    stage.meet(text)
    same("what is left where it is denied", pieces_left(stage.editor), [piece])
    stage.team.order("admin delauth 0")
    wait_for("the right", lambda: "Ann may not" not in stage.editor.who())
    stage.editor.go(2, 1)
    put_left(stage.editor, "all")
    stage.meet(text.replace("one", piece + "one"))
    same("what is left now", left_of(stage.editor).startswith("Nothing is left"), True)
    stage.editor.undo()
    stage.meet(text)


def play_left_within(stage):
    """Words that Ann writes into a piece are told with the whole of it, and listed alone. What she deletes isn't listed."""
    stage.begin_with("above\nIn a line of one piece, é漢𝄞\nbelow\n")
    stage.apart()
    stage.editor.change(10, 10, " long")
    stage.editor.change(0, 2, "")
    wait_for("what she wrote is kept", stage.editor.is_kept)
    stage.renew()
    stage.linked()
    wait_for("the new document", lambda: stage.asides == 2 and stage.editor.is_linked())
    stage.meet("above\nIn a line of one piece, é漢𝄞\nbelow\n")
    same("what is left of a line", pieces_left(stage.editor), [" long"])
    drop_left(stage.editor, "all")


def play_renewed_at_once(stage):
    """The document is renewed while Ann types: each word that she wrote is in the new one, or listed."""
    stage.begin_with("before\n")
    words = [f"w{number}" for number in range(30)]
    stage.editor.begin_to_type_at_end()
    for word in words:
        stage.editor.terminal.type(word + " ")
        if word == "w9":
            stage.renew()
    stage.editor.end_to_type()
    all_words = lambda: (stage.editor.text + "".join(pieces_left(stage.editor))).split()
    wait_for("the new document", lambda: stage.asides == 3 and stage.editor.is_linked() and words[-1] in all_words())
    text = stage.meet()
    same("what came, with what is left", sorted(all_words()), sorted(["before", *words]))
    if pieces_left(stage.editor):
        drop_left(stage.editor, "all")
    same("what is left", "left" in stage.editor.state(), False)
    stage.editor.write_at_end("and on")
    stage.meet(text + "and on")


def play_not_opened(stage):
    """A new document that can't be opened leaves the old one's text in the editor, and says where it is. It is opened later by its device."""
    stage.begin_with("kept\n")
    do = stage.editor.tell if isinstance(stage.editor, Emacs) else stage.editor.do
    takes_away, gives_back = (
        ("(setq play-program roastcliff-program roastcliff-program '(\"false\"))", "(setq roastcliff-program play-program)")
        if isinstance(stage.editor, Emacs)
        else ("let [g:play_program, g:roastcliff_program] = [g:roastcliff_program, ['false']]", "let g:roastcliff_program = g:play_program")
    )
    do(takes_away)
    stage.renew()
    wait_for("the end", lambda: "ended" in stage.editor.state())
    wait_for("what is told", lambda: "the old document is" in stage.editor.screen() and ".renewed4" in stage.editor.screen())
    same("the old text", (stage.editor.text, stage.editor.is_open()), ("kept\n", False))
    do(gives_back)
    stage.editor.open(stage.editor.address.partition("#")[0])
    wait_for("the new document", stage.editor.is_linked)
    stage.editor.write_at_end("on")
    stage.meet("kept\non")


# The right goes first: later it would undo all that Ann wrote until then.
PARTS = [play_rights, play_typing, play_cursor, play_at_once, play_undo, play_many, play_letters, play_ends, play_paste, play_apart, play_start, play_renewed]


def change(dice, text, make):
    """A random change of a text."""
    start = dice.randint(0, len(text))
    end = min(len(text), start + dice.choice([0, 0, 0, 1, 2, 5, 40]))
    put = "".join(dice.choice(LETTERS) for _ in range(dice.choice([0, 1, 1, 1, 3, 12])))
    if len(text) > 3000:
        end = min(len(text), start + 400)
    make(start, end, put if start < end or put else "z")


def play_random(stages, edits, dice):
    """Random edits of editors and of a follower, with losses of the link, end in one text."""
    (stage, *others) = stages
    editors = [it.editor for it in stages]
    for number in range(edits):
        who = dice.randint(0, len(editors))
        if who == len(editors):
            if dice.random() < 0.5:
                stage.ben.take_all()
            change(dice, stage.ben.text, stage.ben.replace)
        else:
            editor = editors[who]
            change(dice, editor.text, editor.change)
            if dice.random() < 0.05:
                editor.undo()
        if dice.random() < 0.02:
            dice.choice(stages).way.cut()
    wait_for("all is kept", lambda: all(it.is_kept() for it in editors))
    return stage.meet(guests=[it.editor for it in others])


class Guest:
    """Another editor on the document of a stage."""

    def __init__(self, kind, stage, follow, folder):
        secret, _ = stage.team.invite(f"writer {kind}")
        is_page = kind == "page"
        address = stage.team.address(secret, is_cut=not is_page)  # a host lets in pages that came from it
        self.editor = (Page if is_page else EDITORS[kind])(kind + "-guest", folder, follow, address)
        self.way = self.editor if is_page else stage.team.ways[-1]


def play(kinds, host, follow, edits, folder):
    for kind in filter(EDITORS.get, kinds):
        stage = Stage(kind, host, follow, os.path.join(folder, kind))
        try:
            for part in PARTS:
                begun = time.monotonic()
                part(stage)
                print(f"editors: {kind}: {part.__name__[5:]} is as it should be, in {time.monotonic() - begun:.1f} s", flush=True)
        except FAULTS:
            print(stage.editor.terminal.screen())
            raise
        finally:
            stage.end()
    play_together(kinds, host, follow, edits, folder)


def play_together(kinds, host, follow, edits, folder):
    """All editors that are here write in one document."""
    first, *rest = kinds
    stage = Stage(first, host, follow, os.path.join(folder, "together"))
    guests = []
    try:
        guests += [Guest(kind, stage, follow, os.path.join(folder, "together")) for kind in rest]
        text = play_random([stage, *guests], edits, random.Random(SEED))
        print(f"editors: {edits} random edits (seed {SEED}) of {', '.join(kinds)} and a follower ended in one text of {len(text)} letters")
    finally:
        for guest in guests:
            end_editor(guest.editor)
        stage.end()


def main():
    host, follow, *rest = sys.argv[1:]
    edits = int(rest.pop(0)) if rest and rest[0].isdigit() else FEW
    kinds = rest or [kind for kind, made in EDITORS.items() if shutil.which(made.program)]
    folder = tempfile.mkdtemp(prefix="editors-")
    for kind in [*kinds, "together"]:
        os.makedirs(os.path.join(folder, kind))
    try:
        play(kinds, os.path.abspath(host), os.path.abspath(follow), edits, folder)
    except FAULTS as wrong:
        print(f"editors: {wrong!r}" if isinstance(wrong, OSError) else f"editors: {wrong}")
        sys.exit(1)
    finally:
        shutil.rmtree(folder, ignore_errors=True)
    print(f"editors: {tried} answers are as they should be")


main()
