#!/usr/bin/python3
"""Shows the boards of a round to the phones and screens of a hall, beside a relay on the same machine.

    relay960 serve --forever --boards 64 --capacity 1024 --grace 120 --watch 127.0.0.1:9601
    hall.py [LIST]                                                   (Debian: apt-get install nginx-light qrencode)

All boards of the relay are shown as they are opened. LIST is a file that names the players, one board per line, as the forms of the pages
take them: its name, perhaps its start number, and its players. A board that it names is shown before it is open, too:

    r3-1 518 Carlsen – Caruana
    r3-2 518 Nakamura – So

--event and --round are for the PGN that a page saves.

It serves the pages for watching at an address of this machine in the hall's network, and passes /watch there on to the relay's watch port,
on which nothing can be changed. It prints that address and its QR code. Boards are opened and played on this machine alone, at the
relay's main port. Ctrl-C ends what is served, and no game.
"""
import argparse
import html
import json
import os
import pathlib
import re
import shutil
import signal
import socket
import struct
import subprocess
import sys
import tempfile
import time
import urllib.parse

HERE = pathlib.Path(__file__).resolve().parent
TOP = HERE.parent.parent
# When installed, the package is beside it.
sys.path.append(str(TOP / "tools"))

from relay_client.frames import REQUEST, frame, read_frame  # noqa: E402
from relay_client.ports import listened  # noqa: E402

PAGES = (TOP / "web", TOP / "share/relay960/pages")
FOR_OPERATORS = ("table.html", "table.js", "operator.js", "opening.js", "playing.js", "comeback.js", "knock.js", "tables.html", "tables.js",
                 "key.js", "claim.js")
FRONT = '<!doctype html><meta charset="utf-8"><meta name="viewport" content="width=device-width"><title>The round</title>' \
        '<meta http-equiv="refresh" content="0; url={0}"><p><a href="{0}">The boards of the round</a>\n'


class Wrong(Exception):
    """What keeps it from serving, in words for the person who started it."""


def first_there(paths):
    for path in paths:
        if path.exists():
            return path
    raise Wrong(f"there is no {paths[0]}")


# Where Debian has nginx, which is in no ordinary user's path.
os.environ["PATH"] = f"{os.environ.get('PATH', os.defpath)}:/usr/sbin:/sbin"


def missing():
    """The packages of Debian that it needs and that are not there. It goes on without qrencode."""
    commands = {"nginx-light": "nginx", "iproute2": "ip"}
    return [package for package, command in commands.items() if shutil.which(command) is None]


# The round.

DASH = re.compile(r"\s*[–—]\s*|\s+-+\s+")


def read_board(line):
    """The name of a board and its players, White first, with a dash between them as the page's address has it."""
    name, start, players = re.fullmatch(r"(\S+)(?:\s+(\d{1,3})(?=\s|$))?\s*(.*)", line).groups()
    if not re.fullmatch(r"[A-Za-z0-9_-]{1,32}", name):
        raise Wrong(f"{name} is no board's name: it has 1 to 32 of A-Z, a-z, 0-9, _ and -")
    white, *black = DASH.split(players, maxsplit=1)
    if int(start or 0) > 959 or re.match(r"\d+(\s|$)", white):
        raise Wrong(f"{name}: the start number is from 0 to 959, and no player's name begins with a number")
    if ";" in players:
        raise Wrong(f"{name}: a player's name may have no ;")
    if black and DASH.search(black[0]):
        raise Wrong(f"{name}: a player's name may have no dash; a hyphen without spaces may stand in it")
    return name, "–".join([white, *black])


def read_round(file):
    """The boards of a round, each with its players, in the order of the file."""
    try:
        lines = pathlib.Path(file).read_text(encoding="utf-8-sig").splitlines()
    except OSError as fault:
        raise Wrong(f"{file} cannot be read: {fault.strerror}") from fault
    except UnicodeDecodeError as fault:
        raise Wrong(f"{file} cannot be read: it is not UTF-8") from fault
    boards = [read_board(line.strip()) for line in lines if line.strip()]
    names = [name for name, _ in boards]
    for name in names:
        if names.count(name) > 1:
            raise Wrong(f"{name} stands in {file} twice")
    if not boards:
        raise Wrong(f"{file} names no board")
    return boards


def page_of(boards, host, event):
    """The address of the round's page, after its host. `event` has its event and round, where they are given."""
    said = {"watch": f"ws://{host}/watch"}
    if boards:
        said["players"] = ";".join(f"{name} {players}".strip() for name, players in boards)
    said |= {key: value for key, value in event.items() if value}
    return "/pages/round.html?" + urllib.parse.urlencode(said, quote_via=urllib.parse.quote, safe=",:/;")


# The hall's network.


def own_addresses():
    """The addresses of this machine that others can reach."""
    words = ["ip", "-4", "-json", "address", "show", "up", "scope", "global"]
    told = json.loads(subprocess.run(words, capture_output=True, check=True).stdout or "[]")
    return [it["local"] for link in told for it in link.get("addr_info", []) if "local" in it]


def outward():
    """The address with which this machine goes to others behind a router, or None if it has no route. Nothing is sent."""
    with socket.socket(socket.AF_INET, socket.SOCK_DGRAM) as probe:
        try:
            probe.connect(("192.0.2.1", 9))
        except OSError:
            return None
        return probe.getsockname()[0]


def hall_address():
    found = own_addresses()
    if len(found) == 1:
        return found[0]
    if not found:
        raise Wrong("this machine is in no network: connect it to the hall's, or give its --address there")
    way = outward()
    if way in found:
        return way
    raise Wrong(f"this machine has more than one address: give the hall's as --address, of {', '.join(found)}")


def try_port(address, port):
    """Whether nginx will be able to listen there."""
    with socket.socket() as probe:
        probe.setsockopt(socket.SOL_SOCKET, socket.SO_REUSEADDR, 1)
        try:
            probe.bind((address, port))
            probe.listen()
        except (OSError, OverflowError) as fault:
            raise Wrong(f"{address}:{port} cannot be listened on: {getattr(fault, 'strerror', fault)}") from fault


# The relay.


def answers_as_watch_port(address):
    """Whether a relay's watch port answers there; None if nothing answers. A main port does not know the command."""
    host, port = address.rsplit(":", 1)
    try:
        with socket.create_connection((host, int(port)), timeout=5) as stream, stream.makefile("rb") as said:
            stream.sendall(REQUEST)
            while said.readline() not in (b"\r\n", b""):
                pass
            stream.sendall(2 * frame('{"cmd":"boards"}'))  # The second is refused if there are no boards.
            return "UnknownCommand" not in read_frame(said.read)
    except OSError:
        return None
    except (ValueError, AssertionError, struct.error):
        return False


# What is served.


class Serving:
    """nginx, with a folder of its own, until the block ends."""

    def __init__(self, given, boards):
        self.given = given
        self.boards = boards
        self.host = f"{given.address}:{given.port}"
        self.folder = pathlib.Path(tempfile.mkdtemp(prefix="relay960-hall-"))
        self.nginx = None
        self.is_watched = False

    def __enter__(self):
        try:
            self.begin()
        except BaseException:
            self.end()
            raise
        return self

    def __exit__(self, *_):
        self.end()

    def begin(self):
        os.umask(0o022)  # nginx reads it as another user, where root starts it.
        self.folder.chmod(0o755)
        self.look_at_relay()
        self.write_pages()
        text = (HERE / "hall.conf").read_text(encoding="utf-8")
        for word, value in ("ADDRESS", self.given.address), ("PORT", self.given.port), ("WATCH", self.given.watch):
            text = text.replace(f"@{word}@", str(value))
        (self.folder / "hall.conf").write_text(text, encoding="utf-8")
        self.start()

    def write_pages(self):
        """The pages for watching, and the front, which leads to the round's page."""
        pages = self.folder / "pages"
        pages.mkdir()
        for file in sorted(first_there(PAGES).iterdir()):
            if file.suffix in (".html", ".js", ".css") and file.name not in FOR_OPERATORS:
                shutil.copyfile(file, pages / file.name)
        event = {"event": self.given.event, "round": self.given.round}
        front, page = self.folder / "front", page_of(self.boards, self.host, event)
        front.mkdir()
        (front / "round.html").write_text(FRONT.format(html.escape(page)), encoding="utf-8")
        (front / "screen.html").write_text(FRONT.format(html.escape(page + "&hall")), encoding="utf-8")

    def start(self):
        with open(self.folder / "nginx.log", "wb") as log:
            # Ctrl-C reaches only this program, which ends the other.
            self.nginx = subprocess.Popen(["nginx", "-p", self.folder, "-c", self.folder / "hall.conf", "-e", "stderr"], stdout=log,
                                          stderr=log, stdin=subprocess.DEVNULL, start_new_session=True)
        until = time.monotonic() + 30
        while self.given.port not in listened():
            self.look()
            if time.monotonic() > until:
                raise Wrong(f"nginx does not listen on {self.given.port}")
            time.sleep(0.05)
        self.look()

    def look_at_relay(self):
        """Whether what /watch leads to can only be watched, once something is there: the hall reaches no other port."""
        answer = answers_as_watch_port(self.given.watch)
        if answer is False:
            raise Wrong(f"{self.given.watch} is no relay's watch port: start it by relay960 serve --watch {self.given.watch}")
        self.is_watched = answer is True

    def look(self):
        """Whether all goes on."""
        if not self.is_watched:
            self.look_at_relay()
        if self.nginx.poll() is not None:
            said = (self.folder / "nginx.log").read_text(encoding="utf-8", errors="replace").splitlines()[-5:]
            raise Wrong("\n".join(["nginx has ended:", *said]))

    def end(self):
        if self.nginx:
            self.nginx.terminate()
            self.nginx.wait()
        shutil.rmtree(self.folder, ignore_errors=True)


def code_of(address):
    """The QR code of an address, or that there is none: the address itself will do."""
    kind = "ANSIUTF8" if sys.stdout.isatty() else "UTF8"
    try:
        return subprocess.run(["qrencode", "-t", kind, "-o", "-", address], stdout=subprocess.PIPE, check=True).stdout.decode()
    except (OSError, subprocess.CalledProcessError):
        return "For a QR code of it: apt-get install qrencode\n"


def tell(serving, given):
    address = f"http://{serving.host}/"
    print(f"The round is at {address}; for a projector: {address}screen")
    print(code_of(address), end="")
    print(f"All boards of the relay with the watch port {given.watch} are shown. Ctrl-C ends what the hall sees, and no game.", flush=True)
    if not serving.is_watched:
        print("No watch port is there yet. Its boards come when it is: relay960 serve --forever --boards 64 --capacity 1024 --grace 120 "
              f"--watch {given.watch}", file=sys.stderr, flush=True)


def read_watch(text):
    """The address of a watch port, HOST:PORT as `relay960 serve --watch` takes it."""
    if not re.fullmatch(r"[0-9.]+:[0-9]{1,5}", text):
        raise argparse.ArgumentTypeError(f"{text} is no address and port, such as 127.0.0.1:9601")
    return text


def read_words():
    words = argparse.ArgumentParser(description="Shows the boards of a round to a hall.")
    words.add_argument("--address", help="this machine's address in the hall's network (found by itself where there is but one)")
    words.add_argument("--port", type=int, default=8960, help="the port for the hall (8960)")
    words.add_argument("--watch", type=read_watch, default="127.0.0.1:9601", help="the relay's watch port (127.0.0.1:9601)")
    words.add_argument("--event", help="the event, for the PGN that a page saves")
    words.add_argument("--round", help="the event's round, for the same")
    words.add_argument("list", nargs="?", help="a file with one board a line: its name, perhaps a start number, perhaps its players")
    return words.parse_args()


def main():
    given = read_words()
    for number in signal.SIGTERM, signal.SIGHUP:
        signal.signal(number, lambda *_: sys.exit(0))
    try:
        lacks = missing()
        if lacks:
            raise Wrong(f"missing of Debian: apt-get install {' '.join(lacks)}")
        boards = read_round(given.list) if given.list else []
        given.address = given.address or hall_address()
        try_port(given.address, given.port)
        with Serving(given, boards) as serving:
            tell(serving, given)
            while True:
                time.sleep(1)
                serving.look()
    except Wrong as fault:
        print(fault, file=sys.stderr)
        return 1
    except KeyboardInterrupt:
        return 0


if __name__ == "__main__":
    sys.exit(main())
