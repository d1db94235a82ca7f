"""Plays two hosts behind a proxy that speaks TLS, by the configurations of examples/proxy.

    .ci/proxy_tests.py HOST PROXY ..    PROXY is nginx or caddy

In a configuration the ports, the certificate and nothing else are others than in the file that stands there.
"""
import os
import re
import shutil
import socket
import ssl
import subprocess
import sys
import tempfile
import time

TOP = os.path.abspath(os.path.join(os.path.dirname(os.path.abspath(__file__)), ".."))
sys.path.insert(0, os.path.join(TOP, "bench", "hosting"))
from host_peer import Device, Ended, Host
from link_peer import SECONDS, Broken, frame_of, free_port

NAME = "team.example"
ORIGIN = f"Origin: https://{NAME}"
PORTS = {"notes": "7001", "plans": "7002"}  # in the configurations
MANY = 500  # letters, each an edit
CADDY = "{\n\tadmin off\n\tauto_https disable_redirects\n}\n"

tried = 0


class Wrong(Exception):
    pass


def same(what, got, wanted):
    global tried
    tried += 1
    if got != wanted:
        raise Wrong(f"{what}: {got!r} instead of {wanted!r}")


class Proxy:
    """A proxy that runs, in front of hosts at these ports."""

    def __init__(self, kind, folder, ports):
        self.folder = folder
        self.port = free_port()
        self.key, self.certificate = (os.path.join(folder, name) for name in ("key", "pem"))
        self.trust = ssl.create_default_context(cafile=self.certify())
        text, words = getattr(self, kind)(self.configuration(kind, ports))
        with open(os.path.join(folder, "configuration"), "w", encoding="utf-8") as file:
            file.write(text)
        self.said = open(os.path.join(folder, "said"), "wb")
        self.process = subprocess.Popen([kind, *words], cwd=folder, stdout=self.said, stderr=self.said, env={**os.environ, "XDG_DATA_HOME": folder})
        self.wait()

    def certify(self):
        """Makes a certificate of the name, which it signs itself, and gives its file."""
        words = ["-newkey", "rsa:2048", "-nodes", "-days", "2", "-subj", f"/CN={NAME}", "-addext", f"subjectAltName=DNS:{NAME}"]
        subprocess.run(["openssl", "req", "-x509", *words, "-keyout", self.key, "-out", self.certificate], check=True, capture_output=True)
        return self.certificate

    @staticmethod
    def configuration(kind, ports):
        """The text of a configuration, with these ports of the hosts."""
        with open(os.path.join(TOP, "examples", "proxy", {"nginx": "nginx.conf", "caddy": "Caddyfile"}[kind]), encoding="utf-8") as file:
            text = file.read()
        for name, port in ports.items():
            text = text.replace(f"127.0.0.1:{PORTS[name]}", f"127.0.0.1:{port}")
        return text

    def nginx(self, text):
        text = text.replace("listen 443 ssl", f"listen 127.0.0.1:{self.port} ssl")
        text = text.replace(f"/etc/ssl/{NAME}.pem", self.certificate).replace(f"/etc/ssl/{NAME}.key", self.key)
        return text, ["-p", self.folder, "-c", "configuration", "-e", "stderr", "-g", f"daemon off; pid {self.folder}/pid;"]

    def caddy(self, text):
        text = re.sub(rf"(?m)^{NAME} {{", f"{NAME}:{self.port} {{\n\ttls {self.certificate} {self.key}", text)
        return CADDY + text, ["run", "--adapter", "caddyfile", "--config", "configuration"]

    def wait(self):
        last = time.monotonic() + SECONDS
        while True:
            try:
                self.connect().close()
                return
            except OSError as error:
                if time.monotonic() > last or self.process.poll() is not None:
                    with open(self.said.name, "rb") as said:
                        raise Wrong(f"the proxy doesn't listen: {error}: {said.read()[-500:]!r}") from None
                time.sleep(0.05)

    def connect(self):
        plain = socket.create_connection(("127.0.0.1", self.port), SECONDS)
        return self.trust.wrap_socket(plain, server_hostname=NAME)

    def stop(self):
        self.process.terminate()
        self.process.wait()
        self.said.close()


class Behind(Host):
    """A host of a folder, that is reached below its path of a proxy."""

    def __init__(self, program, folder, path):
        self.path = path
        self.proxy = None
        super().__init__(program, os.path.join(folder, path), "--origin", f"https://{NAME}/{path}", "--behind-proxy", web=os.path.join(TOP, "web"))

    @property
    def name(self):
        return NAME

    def connect(self):
        return self.proxy.connect()

    def ask(self, path, *fields, method="GET"):
        return super().ask(f"/{self.path}{path}", *fields, method=method)

    def dial(self, path, *fields):
        return super().dial(f"/{self.path}{path}", *(fields or (ORIGIN,)))


def try_page(notes):
    status, fields, body = notes.ask("/")
    same("the page", (status, fields["content-type"], b"<title>Roastcliff</title>" in body), (200, "text/html; charset=utf-8", True))
    same("a module of it", notes.ask("/main.mjs")[1]["content-type"], "text/javascript; charset=utf-8")
    status, fields, _ = notes.ask("/d/notes")
    same("a document without its slash", (status, fields["location"]), (308, "notes/"))
    same("a document's page", notes.ask("/d/notes/")[2], body)
    same("the path without its slash", notes.ask("")[0], 308)


def try_links(notes, secret):
    """Two devices write to each other through the proxy, also many edits at once."""
    path = "/d/notes/link"
    device, other = Device(notes, path, secret), Device(notes, path, secret)
    link, late = device.link(notes, path), other.link(notes, path)
    version = len(late.first_items(late.saved))
    behind = "0.0"
    frames = []
    for stamp in range(1, MANY + 1):
        frames.append(frame_of(f"request {stamp}.{device.site} {version} insert {behind} x"))
        behind = f"{stamp}.{device.site}"
    link.send(*frames)
    same("what comes to the other", late.first_items(version + MANY)[version:], frames)
    same("what comes back", link.first_items(version + MANY)[-MANY:], frames)
    link.say("caret 3 4")
    same("a caret", late.text("caret"), f"caret {device.site} 3 4")
    same("the text", notes.ask("/d/notes/text", device.bearer)[2], b"x" * MANY)
    same("a page of another place", notes.dial(path, "Origin: https://elsewhere.example"), 403)
    return device, late


def try_two(plans, device):
    """The other host has people of its own."""
    stranger = plans.dial("/d/plans/link")
    stranger.say(device.hello())
    same("a device of another host", stranger.ending(), 4001)
    own = Device(plans, "/d/plans/link", plans.line().rsplit("#", 1)[1])
    same("its own", own.link(plans, "/d/plans/link").role, "owner")


def try_restart(notes, device, late):
    """A link that is lost behind the proxy is made anew."""
    notes.kill()
    try:
        late.first_items(1 << 20)
    except (Broken, Ended):
        pass
    same("a host that is away", notes.ask("/")[0], 502)
    notes.start("--origin", f"https://{NAME}/notes", "--behind-proxy")
    back = device.link(notes, "/d/notes/link")
    same("what it has", len(back.first_items(back.saved)), back.saved)


def play(program, kind, folder):
    hosts = []
    proxy = None
    try:
        for path in PORTS:
            hosts.append(Behind(program, folder, path))
        notes, plans = hosts
        proxy = Proxy(kind, folder, {host.path: host.port for host in hosts})
        notes.proxy = plans.proxy = proxy
        invitation = notes.line()
        same("an invitation", invitation.partition("#")[0], f"https://{NAME}/notes/")
        try_page(notes)
        device, late = try_links(notes, invitation.rsplit("#", 1)[1])
        try_two(plans, device)
        try_restart(notes, device, late)
    finally:
        for host in hosts:
            host.kill()
        if proxy:
            proxy.stop()


def main():
    program = os.path.abspath(sys.argv[1])
    for kind in sys.argv[2:]:
        folder = tempfile.mkdtemp()
        try:
            play(program, kind, folder)
        except (Wrong, Broken, Ended, OSError) as wrong:
            print(f"proxy: {kind}: {wrong!r}")
            sys.exit(1)
        finally:
            shutil.rmtree(folder)
    print(f"proxy: {tried} answers through {' and '.join(sys.argv[2:])} are as they should be")


main()
