"""What the tests of enter.py share: files with games, what is at the relay, and the program. It needs Debian's python3-websockets."""

import asyncio
import contextlib
import http.server
import json
import logging
import os
import pathlib
import subprocess
import sys
import tempfile
import threading
import unittest

from relay_client.connection import Connection
from relay_client.program import PATIENCE, TOP
from relay_client.relay import Relay
from relay_client.texts import BOARDS, follows

# Not of each callback that was slow.
logging.getLogger("asyncio").setLevel(logging.ERROR)

ENTER = TOP / "apps/pgn_in/enter.py"
ITALIAN = "e4 e5 Nf3 Nc6 Bc4 Bc5 O-O Nf6 d3 O-O c3 d6".split()
ITALIAN_SENT = "e2e4 e7e5 g1f3 b8c6 f1c4 f8c5 e1h1 g8f6 d2d3 e8h8 c2c3 d7d6".split()
DUTCH, DUTCH_SENT = "d4 f5 g3 Nf6".split(), "d2d4 f7f5 g2g3 g8f6".split()
THERE_AND_BACK, THERE_AND_BACK_SENT = "Nf3 Nf6 Ng1 Ng8".split(), "g1f3 g8f6 f3g1 f6g8".split()


def python_words():
    """A Python that has websockets; nothing if there is none."""
    for python in sys.executable, "/usr/bin/python3":
        with contextlib.suppress(OSError):
            if subprocess.run([python, "-c", "import websockets"], capture_output=True).returncode == 0:
                return [python, "-B"]
    return []


def numbered(words):
    return " ".join(f"{at // 2 + 1}. {word}" if at % 2 == 0 else word for at, word in enumerate(words))


def game(words, board=1, result="*", **tags):
    """A game of the file."""
    said = {"Event": "Club", "Round": f"3.{board}", "White": f"White {board}", "Black": "Black", **tags}
    head = "".join(f'[{name} "{value}"]\n' for name, value in said.items())
    return f"{head}\n{numbered(words)} {result}\n\n"


def log_of(port, board, plies):
    """The moves of a board that has so many."""
    look = Connection(port)
    look.send(follows(board, place=0))
    texts = [json.loads(look.receive()) for _ in range(1 + plies)]
    look.close()
    return [it["move"] for it in texts[1:]]


def boards_of(relay):
    """The boards of a relay: start, moves and outcome of each."""
    watch, found = Connection(relay.watch_port), {}
    watch.send(BOARDS, BOARDS)  # The second is refused, behind the list.
    while (text := json.loads(watch.receive()))["reply"] == "board":
        found[text["board"]] = (text["start"], log_of(relay.port, text["board"], text["plies"]), text["outcome"])
    watch.close()
    return found


class Site(http.server.ThreadingHTTPServer):
    """A site on a free port that has one file, and answers with `status` or with a part of it. If it has a `goal`, it sends all there."""

    class Answer(http.server.BaseHTTPRequestHandler):
        protocol_version = "HTTP/1.1"  # As WebSocket wants it.

        def do_GET(self):
            site = self.server
            tag = f'"{hash(site.body)}"'
            status = 301 if site.goal else 304 if site.status == 200 and self.headers["If-None-Match"] == tag else site.status
            site.answered.append(status)
            self.send_response(status)
            self.send_header("ETag", tag)
            if site.goal:
                self.send_header("Location", site.goal + self.path)
            if status == 200:
                self.send_header("Content-Length", str(len(site.body)))
            self.end_headers()
            if status == 200:
                self.wfile.write(site.body[:len(site.body) // 2] if site.is_half else site.body)

        def log_message(self, *_):
            pass

    def __init__(self):
        super().__init__(("127.0.0.1", 0), self.Answer)
        self.body, self.status, self.is_half, self.answered, self.goal = b"", 200, False, [], None
        threading.Thread(target=self.serve_forever, daemon=True).start()


class Entering(unittest.IsolatedAsyncioTestCase):
    async def asyncSetUp(self):
        self.python = await asyncio.to_thread(python_words)
        if not self.python:
            self.skipTest("websockets is missing (Debian: python3-websockets)")
        asyncio.get_running_loop().set_debug(False)
        room = tempfile.TemporaryDirectory()
        self.addCleanup(room.cleanup)
        self.room = pathlib.Path(room.name)
        self.file, self.programs = self.room / "round.pgn", []
        self.relay = await Relay(watch=True, grace=60, boards=64).start()

    async def asyncTearDown(self):
        for program in self.programs:
            if program.returncode is None:
                program.kill()
            await program.wait()
        if self.python:
            await self.relay.kill()

    async def start(self, *words, file=None, state="state", address=None):
        """Starts enter.py on the file."""
        given = [address or self.relay.address, str(file or self.file), "--every", "0.2", "--state", str(self.room / state), *words]
        said, wrong = open(self.room / "said", "ab"), open(self.room / "wrong", "ab")
        program = await asyncio.create_subprocess_exec(*self.python, str(ENTER), *given, stdout=said, stderr=wrong)
        said.close()
        wrong.close()
        self.programs.append(program)
        return program

    async def once(self, *words, **options):
        """The status of a program that reads once."""
        program = await self.start("--once", *words, **options)
        return await asyncio.wait_for(program.wait(), PATIENCE)

    def said(self):
        return (self.room / "said").read_text()

    def wrong(self):
        return (self.room / "wrong").read_text()

    def write(self, *games):
        """Writes the file and puts it in the old one's place."""
        new = self.room / "new"
        new.write_text("".join(games))
        os.replace(new, self.file)

    async def until(self, test):
        end = asyncio.get_running_loop().time() + 60
        while not test():
            self.assertLess(asyncio.get_running_loop().time(), end, f"said: {self.said()}wrong: {self.wrong()}")
            await asyncio.sleep(0.05)

    async def has(self, **boards):
        """The relay comes to have these boards and no others; _ stands for a hyphen, and __ for itself."""
        wanted = {name.replace("__", "/").replace("_", "-").replace("/", "_"): it for name, it in boards.items()}
        found = None
        for _ in range(600):
            found = await asyncio.to_thread(boards_of, self.relay)
            if found == wanted:
                return
            await asyncio.sleep(0.1)
        self.assertEqual(found, wanted, f"said: {self.said()}wrong: {self.wrong()}")
