"""A host on a disk that crashes and fails."""
import errno
import os
import random
import shutil
import subprocess
from collections import Counter

from host_peer import Device, Ended, Host
from images import images, lay
from kept import Wrong, want
from layer import Layer, read_log
from link_peer import Broken, frame_of

ENTRY = 4  # the kind of an entry's frame
DISK_FAILED, NO_DOCUMENT = 4011, 4014
CALLS = 100  # of a kind, more than a renewal has
IMAGES = 150  # that are opened, of each way in which names stay
OPENED, NOT_BEGUN, EMPTY_DAMAGED = RIGHT = ("opened", "not begun", "opened but for a document in which nothing was told")


def place(document):
    return f"/d/{document}/link"


class Owner:
    """The owner at a host, who orders and writes, and what he was told."""

    def __init__(self, host, document):
        self.host, self.orders = host, 0
        self.secret = host.line().rsplit("#", 1)[1]
        self.device = Device(host, place(document), self.secret)
        self.links = {}
        self.house = self.device.link(host, "/link")

    def order(self, line):
        """The line of the answer, or of the refusal."""
        self.orders += 1
        self.house.say(f"order {self.orders}\n{line}")
        while True:
            for text in self.house.texts:
                if text.startswith((f"answer {self.orders}\n", f"refused {self.orders} ")):
                    self.house.texts.remove(text)
                    return text
            self.house.take_message()

    def write(self, document, count):
        """Writes so many letters into a document, and waits until they come back. Gives the journal."""
        if document not in self.links:
            self.links[document] = self.device.link(self.host, place(document))
        link = self.links[document]
        link.first_items(link.saved)
        stamps = (int.from_bytes(it[6:12], "big") for it in link.items if it[5] != ENTRY)
        stamp, version = max(stamps, default=0), sum(it[5] == ENTRY for it in link.items)
        # A letter of its own, so that what is told of one document isn't found in another.
        made = [frame_of(f"request {stamp + at}.{self.device.site} {version} insert 0.0 {document[0]}") for at in range(1, count + 1)]
        link.send(*made)
        while not set(made) <= set(link.items):
            link.take_message()
        return list(link.items)


class Played:
    """What a host was played by, and what was told of it: words that stand in what it told, and what has to be so from then on."""

    def __init__(self, host, dice):
        self.owner = owner = Owner(host, "notes")
        self.journals = {"notes": []}
        self.documents = [("made", "notes")]
        for count in (1, 3, 1, 5):
            self.journals["notes"] = owner.write("notes", count)
        want("a person is made", owner.order("person writer Bea").endswith("person 2"))
        invited = owner.order("invite 2")
        self.other = Device(host, place("notes"), invited.rsplit("#", 1)[1])
        want("a document is made", owner.order("make plan").endswith("made plan"))
        for count in (1, dice.randint(1, 4)):
            self.journals["plan"] = owner.write("plan", count)
        owner.links.pop("plan").hang_up()
        want("it is given another name", owner.order("move plan plan-2").endswith("moved plan-2"))
        want("one more is made", owner.order("make old").endswith("made old"))
        want("and put away", owner.order("archive old").endswith("archived"))
        owner.links.pop("notes").hang_up()
        want("the first one is renewed", owner.order("renew notes").endswith("renewed notes"))
        owner.house.hang_up()
        host.ask("/healthz")  # what was told is in the log by then

    def told_words(self):
        """What the host told, by bytes that stand in it, and what it says."""
        yield f"#{self.owner.secret}".encode(), ("invitation",)
        for device in (self.owner.device, self.other):
            yield f"device {device.site} {device.secret}".encode(), ("device", device)
        for line in ("made plan", "moved plan-2", "made old", "archived", "renewed notes"):
            yield b"\n" + line.encode(), ("line", line)
        for name, items in self.journals.items():
            for at, item in enumerate(items):
                if item[5] != ENTRY:  # entries are alike in all documents
                    yield item, ("item", name, at)


def told_when(calls, words):
    """Behind how many calls of a log the words were told, for each."""
    by_file, found = {}, []
    words = list(words)
    for count, call in enumerate(calls):
        if call.word != "told":
            continue
        by_file[call.number] = by_file.get(call.number, b"") + call.some
        for some, what in [it for it in words if it[0] in by_file[call.number]]:
            words.remove((some, what))
            found.append((count + 1, what))
    return found


def words_of(due):
    """What was told, in words."""
    words = [it[1] if it[0] == "line" else it[0] for it in due if it[0] != "item"]
    return ", ".join([*words, f"{sum(it[0] == 'item' for it in due)} messages"])


def sizes_of(image):
    """What stands on a disk, in words."""
    return ", ".join(path if some is None else f"{path} of {len(some)} bytes" for path, some in sorted(image.items()))


class Hosted:
    """The tries, in a folder of their own."""

    def __init__(self, program, library, work, seed):
        self.program, self.library, self.work, self.seed = program, library, work, seed
        self.folder = os.path.join(work, "notes")

    def start(self, only=None):
        """A host on an empty folder, which its owner made, and the layer over it."""
        shutil.rmtree(self.folder, ignore_errors=True)
        os.makedirs(self.folder)
        layer = Layer(self.library, self.folder, self.work, only)
        return layer, Host(layer.program("hosting", self.program, self.work), self.folder)

    # ---- a disk that crashes

    def crash(self, in_order):
        """Images that a crash may leave, at moments of a play."""
        layer, host = self.start()
        try:
            played = Played(host, random.Random(self.seed))
        finally:
            host.kill()
        calls = read_log(layer.log)
        words = list(played.told_words())
        told = told_when(calls, words)
        want("the layer sees all that is told", len(told) == len(words))
        left = list(images(calls, self.folder, in_order, self.seed))
        chosen = random.Random(self.seed).sample(left, min(IMAGES, len(left)))
        met, wrong = Counter(), {}
        for count, image in sorted(chosen, key=lambda it: it[0]):
            due = [what for when, what in told if when <= count]
            outcome = self.open_image(image, due, played)
            met[outcome] += 1
            where = f"behind call {count} of {len(calls)}, where {words_of(due)} was told and there is {sizes_of(image)}"
            wrong.setdefault(outcome, f"{outcome}, {where}")
        wrong = [it for outcome, it in wrong.items() if outcome not in RIGHT]
        want("; ".join([*wrong, str(dict(met))]), not wrong)
        return met

    def open_image(self, image, due, played):
        """What becomes of a host on an image: it has all that was told. Where nothing was, its house may be none."""
        house = os.path.join(self.work, "image", "notes")
        shutil.rmtree(os.path.dirname(house), ignore_errors=True)
        lay(image, house)
        looked = subprocess.run([self.program, "verify", house], capture_output=True, text=True, check=False)
        broken = [line for line in looked.stdout.splitlines() if " before " in line and ": whole, " not in line]
        if broken:
            return f"a former document isn't what it was: {broken}"
        if not due and looked.returncode != 0:
            return NOT_BEGUN
        host = None
        try:
            host = Host(self.program, house)
            return self.check(host, due, played)
        except (Wrong, Broken, Ended, OSError) as wrong:
            return f"{type(wrong).__name__}: {wrong}"
        finally:
            if host is not None:
                host.kill()

    def check(self, host, due, played):
        """What was told is so."""
        devices = [it[1] for it in due if it[0] == "device"]
        lines = [it[1] for it in due if it[0] == "line"]
        if ("invitation",) in due:
            Device(host, "/link", played.owner.secret)
        for device in devices:
            device.link(host, "/link").hang_up()
        if not devices:
            return OPENED
        there = set(os.listdir(host.folder))
        want("the document that was made is there", there & {"plan", "plan-2"} or "made plan" not in lines)
        want("it has the name that it was given", "plan-2" in there or "moved plan-2" not in lines)
        want("what was put away is away", "old" not in there or "archived" not in lines)
        outcomes = {self.check_journal(host, devices[0], name, due, played) for name in there & {"notes", "plan", "plan-2"}}
        want("a renewal that was told is there", "renewed notes" not in lines or os.path.exists(os.path.join(host.folder, "notes", "former")))
        want("nothing of it is left beside", not there & {".notes.renewed"})
        want("the first document is there", "notes" in there or not any(it[:2] == ("item", "notes") for it in due))
        return EMPTY_DAMAGED if EMPTY_DAMAGED in outcomes else OPENED

    def check_journal(self, host, device, name, due, played):
        items = [it for it in due if it[0] == "item" and name.startswith(it[1])]
        status = host.ask(f"/d/{name}/text", device.bearer)[0]
        if not items and status != 200:
            return EMPTY_DAMAGED
        want(f"{name} is served, and not answered by {status}", status == 200)
        if os.path.exists(os.path.join(host.folder, name, "former")):
            text = host.ask(f"/d/{name}/text", device.bearer)[2].decode()
            want(f"a renewed document has all letters that were told, and not {text}", text.count(name[0]) >= len(items))
            return OPENED
        link = device.link(host, place(name))
        journal = link.first_items(link.saved)
        link.hang_up()
        lost = [at for _, document, at in items if journal[at : at + 1] != [played.journals[document][at]]]
        want(f"all messages that were told of {name} are there, and not {len(lost)} lost", not lost)
        return OPENED

    # ---- a disk that fails

    def fail_steps(self, kind, how_many, error):
        """A call of a document's file fails: its links end, all else goes on, and what came back is there later."""
        layer, host = self.start(only="/notes/notes/steps")
        try:
            owner = Owner(host, "notes")
            owner.order("make plan")
            before = owner.write("notes", 3)
            owner.write("plan", 1)
            layer.fail_next(kind, how_many, error)
            try:
                owner.write("notes", 1)
                raise Wrong("a write came back that can't be kept")
            except Ended as ended:
                want(f"its link ends by {ended.code}", ended.code in (DISK_FAILED, NO_DOCUMENT))
            self.goes_on(host, owner, "notes")
            layer.mend()
            host.kill()
            host.start()
            owner.links.clear()
            owner.house = owner.device.link(host, "/link")
            want("what came back is there", owner.write("notes", 1)[: len(before)] == before)
        finally:
            host.kill()

    def goes_on(self, host, owner, broken):
        """All but one document goes on."""
        want("the host lives", host.ask("/healthz")[2] == b"ok\n")
        owner.write("plan", 1)
        want("people are made", "person " in owner.order("person writer Cai"))
        want("it says what is broken", f"document {broken} " in owner.order("documents") and "disk-fault" in owner.order("documents"))

    def fail_people(self, kind, how_many, error):
        """A call of the file of people fails: the order is refused by these words, documents go on, and who was made is there later."""
        layer, host = self.start(only="host.people")
        try:
            owner = Owner(host, "notes")
            want("a person is made", owner.order("person writer Bea").endswith("person 2"))
            layer.fail_next(kind, how_many, error)
            told = owner.order("person writer Cai")
            want(f"it is refused: {told}", told.endswith("the file of people failed"))
            layer.mend()
            owner.write("notes", 3)
            host.kill()
            host.start()
            owner.links.clear()
            owner.house = owner.device.link(host, "/link")
            want("who was made is there", "person 2 writer Bea" in owner.house.text("people"))
            want("one more is made", "person " in owner.order("person reader Dee"))
            owner.write("notes", 1)
        finally:
            host.kill()

    def fail_making(self, kind, how_many, error):
        """A call fails while a document is made: the order is refused by these words, and done once there is no fault any more."""
        layer, host = self.start(only=".plan.new")
        try:
            owner = Owner(host, "notes")
            if kind == "rename":  # the second change of names, behind the making of a folder
                layer.fail_next("name", how_many, error, behind=1)
            else:
                layer.fail_next(kind, how_many, error)
            told = owner.order("make plan")
            want(f"it is refused: {told}", told.endswith("the folder failed"))
            layer.mend()
            want("it is made", owner.order("make plan").endswith("made plan"))
            owner.write("plan", 2)
            owner.write("notes", 2)
        finally:
            host.kill()

    def fail_moving(self, kind, how_many, error):
        """A document can't be given another name or be put away: the order is refused by these words, and the document stays as it is."""
        layer, host = self.start(only="/plan")
        try:
            owner = Owner(host, "notes")
            owner.order("make plan")
            owner.write("plan", 2)
            for order in ("move plan plan-2", "archive plan"):
                layer.fail_next(kind, how_many, error, behind=1)  # the first change of names is that of the seal
                told = owner.order(order)
                want(f"it is refused: {told}", told.endswith("the folder failed"))
                layer.mend()
                owner.links.clear()
                owner.write("plan", 1)
            want("it is given another name", owner.order("move plan plan-2").endswith("moved plan-2"))
        finally:
            host.kill()

    def fail_renewing(self, kind, how_many, error):
        """A call fails while a document is renewed: the order is refused, the document goes on, and is renewed once there is no fault."""
        layer, host = self.start(only=".plan.renew")
        try:
            owner = Owner(host, "notes")
            owner.order("make plan")
            before = len(owner.write("plan", 3))
            layer.fail_next(kind, how_many, error)
            told = owner.order("renew plan")
            want(f"it is refused: {told}", told.endswith(("the folder failed", "the disk failed")))
            layer.mend()
            want("its links go on", len(owner.write("plan", 1)) == before + 1)
            if how_many or kind in ("write", "sync"):  # what can't be removed stays until the next renewal
                want("nothing is left of it", not [it for it in os.listdir(host.folder) if it.startswith(".plan")])
            want("nor of its certificate", not os.path.exists(os.path.join(host.folder, "plan", "certificate")))
            want("it is renewed", owner.order("renew plan").endswith("renewed plan"))
            owner.links.clear()
            owner.write("plan", 1)
        finally:
            host.kill()

    def fail_any(self, kind, how_many, error):
        """Each call of a renewal fails in its turn: what is told is so after a new start, and the text stays, in the old document or the new one."""
        for behind in range(CALLS):
            layer, host = self.start()
            try:
                owner = Owner(host, "notes")
                owner.order("make plan")
                owner.write("plan", 3)
                owner.links.pop("plan").hang_up()
                before = layer.counts()[kind]
                layer.fail_next(kind, how_many, error, behind)
                told = owner.order("renew plan").partition("\n")[2]
                layer.mend()
                if layer.counts()[kind] <= before + behind:
                    return
                self.stays_renewed(host, owner, told, f"call {behind + 1} of {kind}")
            finally:
                host.kill()

    def stays_renewed(self, host, owner, told, what):
        """After a new start a document has its text, and is a new one where that was told."""
        bearer = owner.device.bearer
        host.kill()
        host.start()
        same_text = host.ask("/d/plan/text", bearer)[2] == b"ppp"
        want(f"{what}: the text stays, where was told {told!r}", same_text)
        is_new = os.path.exists(os.path.join(host.folder, "plan", "former"))
        want(f"{what}: {told!r}, and it is {'a new' if is_new else 'the old'} document", is_new == told.startswith("renewed"))
        owner.links.clear()
        owner.write("plan", 1)
        host.kill()
        looked = subprocess.run([self.program, "verify", host.folder], capture_output=True, text=True, check=False)
        want(f"{what}: all is whole, and not {looked.stdout}", looked.returncode == 0)

    def fail_each(self):
        """Each kind of call of each file fails, once and for good."""
        tries = [
            (self.fail_steps, ("write", "sync")),
            (self.fail_people, ("write", "sync")),
            (self.fail_making, ("open", "write", "sync", "name", "rename")),
            (self.fail_moving, ("name",)),
            (self.fail_renewing, ("open", "write", "sync", "name")),
            (self.fail_any, ("open", "write", "sync", "name")),
        ]
        met = {}
        for part, kinds in tries:
            for kind in kinds:
                for how_many in (1, 0):
                    for error in (errno.EIO, errno.ENOSPC):
                        try:
                            part(kind, how_many, error)
                        except (Wrong, Broken, Ended, OSError) as wrong:
                            raise Wrong(f"{part.__name__} {kind} {how_many or 'all'} {errno.errorcode[error]}: {wrong!r}") from None
                        met[part.__name__, kind] = met.get((part.__name__, kind), 0) + 1
        return met
