"""The feed of apps/many_spectators over a stand-in for the channels of nginx: what it publishes of boards that are gone or go on
elsewhere, its beats, and its names. Its own tests, by hand, try it over nginx itself. It needs Debian's python3-websockets."""

import base64
import contextlib
import hashlib
import http.server
import json
import pathlib
import signal
import struct
import subprocess
import sys
import tempfile
import threading
import time
import unittest

from relay_client.ports import free_port
from relay_client.program import PATIENCE, TOP
from relay_client.server import Server
from relay_client.tests.sessions import owner_of
from relay_client.texts import ended, ends, following, moved, over, played, submits, text

FEED = TOP / "apps/many_spectators/feed.py"
ACCEPTS = b"258EAFA5-E914-47DA-95CA-C5AB0DC85B11"  # RFC 6455, section 1.3.
BEAT = 15  # Seconds.
SOON = 10  # Seconds more, on a busy machine.


def python_words():
    """A Python that has websockets; nothing if there is none."""
    for python in sys.executable, "/usr/bin/python3":
        with contextlib.suppress(OSError):
            if subprocess.run([python, "-c", "import websockets"], capture_output=True).returncode == 0:
                return [python, "-B"]
    return []


def follow_on(board):
    return text(reply="next", board=board)


class Asked(http.server.BaseHTTPRequestHandler):
    """What the feed asks of nginx: to publish a text, how many there are, and all of them over WebSocket, each after its number."""

    protocol_version = "HTTP/1.1"

    def texts(self):
        return self.server.texts.setdefault(self.path.rpartition("/")[2], [])

    def answer(self, status, body=b""):
        self.send_response(status)
        self.send_header("Content-Length", str(len(body)))
        self.end_headers()
        self.wfile.write(body)

    def do_POST(self):
        self.texts().append(self.rfile.read(int(self.headers["Content-Length"])).decode())
        self.answer(201)

    def do_GET(self):
        count = len(self.texts())
        if self.path.startswith("/kept/"):
            self.hand_out()
        elif count == 0:
            self.answer(404)
        else:
            self.answer(200, json.dumps({"messages": count, "last_message_id": f"{count}:0"}).encode())

    def hand_out(self):
        accept = base64.b64encode(hashlib.sha1(self.headers["Sec-WebSocket-Key"].encode() + ACCEPTS).digest()).decode()
        self.wfile.write("HTTP/1.1 101 Switching Protocols\r\nUpgrade: websocket\r\nConnection: Upgrade\r\n"
                         f"Sec-WebSocket-Accept: {accept}\r\n"
                         "Sec-WebSocket-Protocol: ws+meta.nchan\r\n\r\n".encode())
        for number, told in enumerate(self.texts(), 1):
            payload = f"id: {number}:0\n\n{told}".encode()
            self.wfile.write(b"\x81\x7e" + struct.pack(">H", len(payload)) + payload)
        self.close_connection = True
        self.rfile.read(1)  # The reader closes.
        self.wfile.write(b"\x88\x00")

    def log_message(self, *_):
        pass


class Channels(http.server.ThreadingHTTPServer):
    """Channels by their names, on a free port."""

    def __init__(self):
        super().__init__(("127.0.0.1", 0), Asked)
        self.texts = {}
        threading.Thread(target=self.serve_forever, daemon=True).start()

    def stop(self):
        self.shutdown()
        self.server_close()

    def handle_error(self, *who):
        """A feed that is ended takes no answer any more."""
        if not isinstance(sys.exc_info()[1], ConnectionError):
            super().handle_error(*who)

    def told(self, name):
        """The texts of a channel, the beats left out."""
        return [it for it in self.texts.get(name, []) if "beat" not in it]

    def beats(self, name):
        return [it for it in self.texts.get(name, []) if "beat" in it]


def until(test, seconds=PATIENCE):
    """Whether it has become true within this many seconds."""
    end = time.monotonic() + seconds
    while not (is_true := test()) and time.monotonic() < end:
        time.sleep(0.02)
    return is_true


class Feeds(unittest.TestCase):
    def setUp(self):
        if not (python := python_words()):
            self.skipTest("websockets is missing (Debian: python3-websockets)")
        self.python, self.port, self.channels = python, free_port(), Channels()
        self.addCleanup(self.channels.stop)

    def server(self):
        return Server("--connections", "1000", port=self.port)

    def feed(self, *words):
        """The feed, until the test ends."""
        goals = "--relay", f"ws://127.0.0.1:{self.port}", "--channels", f"127.0.0.1:{self.channels.server_address[1]}"
        feed = subprocess.Popen([*self.python, FEED, *goals, "--wait", "0.1", *words], stdout=subprocess.DEVNULL, stderr=subprocess.DEVNULL)
        self.addCleanup(feed.wait)
        self.addCleanup(feed.kill)
        return feed

    def names(self, words):
        """A file with these names, until the test ends."""
        room = tempfile.TemporaryDirectory()
        self.addCleanup(room.cleanup)
        names = pathlib.Path(room.name, "names")
        names.write_text(f"{words}\n")
        return names

    def plays(self, server, board, *moves):
        """An owner that opens a board and plays; what its followers receive."""
        owner = owner_of(server, board)
        for place, move in enumerate(moves):
            owner.asks(submits(board, move), played(place))
        return owner, [following(), *(moved(move, place) for place, move in enumerate(moves))]

    def has(self, name, *texts):
        """The channel comes to have these texts, beats left out, and no others."""
        until(lambda: self.channels.told(name) == list(texts), 60)
        self.assertEqual(self.channels.told(name), list(texts))

    def test_the_channel_of_a_board_that_is_gone_tells_its_end_and_where_the_game_goes_on(self):
        """The next name is fed too, unasked, and replaces the first with its first move."""
        self.feed("b1")
        with self.server() as server:
            owner, first = self.plays(server, "b1", "e2e4", "e7e5")
            self.has("b1", *first)
        owner.close()
        with self.server() as server:
            self.has("b1", *first, over("abandoned"))
            owner, second = self.plays(server, "b1_2")
            self.has("b1_2", *second)
            self.has("b1", *first, over("abandoned"))
            owner.asks(submits("b1_2", "e2e4"), played(0))
            second.append(moved("e2e4", 0))
            self.has("b1", *first, over("abandoned"), follow_on("b1_2"))
            self.has("b1_2", *second)
            owner.close()
            self.has("b1_2", *second, over("abandoned"))
            owner, third = self.plays(server, "b1_3", "d2d4")
            self.has("b1_3", *third)
            owner.close()

    def test_a_corrected_game_replaces_the_first_once_it_has_as_many_moves(self):
        """However that ended. An empty board of the next name, which a stale window may open, replaces nothing."""
        self.feed("--names", self.names("b1"))
        with self.server() as server:
            owner, first = self.plays(server, "b1", "e2e4", "e7e5")
            owner.asks(ends("b1", "resign", "white"), ended("white resigns"))
            stale, empty = self.plays(server, "b1_2")
            self.has("b1_2", *empty)
            stale.asks(ends("b1_2", "abandoned"), ended("abandoned"))
            self.has("b1_2", *empty, over("abandoned"))
            right, second = self.plays(server, "b1_3", "e2e4")
            self.has("b1_3", *second)
            self.has("b1", *first, over("white resigns"))
            self.has("b1_2", *empty, over("abandoned"), follow_on("b1_3"))
            right.asks(submits("b1_3", "e7e5"), played(1))
            self.has("b1", *first, over("white resigns"), follow_on("b1_3"))
            right.asks(ends("b1_3", "decided", result="1-0"), ended("white wins by decision"))
            self.has("b1_3", *second, moved("e7e5", 1), over("white wins by decision"))
            for it in owner, stale, right:
                it.close()

    def test_an_empty_board_that_a_stale_window_keeps_open_hides_no_corrected_game(self):
        """A correction passes its name over, and stands under the one behind it. Moves of the board in between are told all the same."""
        self.feed("--names", self.names("b1"))
        with self.server() as server:
            owner, first = self.plays(server, "b1", "e2e4", "e7e5")
            stale, empty = self.plays(server, "b1_2")
            owner.asks(ends("b1", "resign", "white"), ended("white resigns"))
            self.has("b1_2", *empty)
            right, second = self.plays(server, "b1_3", "e2e4", "e7e5")
            right.asks(ends("b1_3", "decided", result="1-0"), ended("white wins by decision"))
            self.has("b1", *first, over("white resigns"), follow_on("b1_3"))
            self.has("b1_3", *second, over("white wins by decision"))
            stale.asks(submits("b1_2", "d2d4"), played(0))
            self.has("b1_2", *empty, moved("d2d4", 0))
            for it in owner, stale, right:
                it.close()

    def test_a_feed_that_comes_after_a_correction_tells_of_it_and_ends(self):
        with self.server() as server:
            owner, first = self.plays(server, "b1", "e2e4", "e7e5")
            owner.asks(ends("b1", "decided", result="0-1"), ended("black wins by decision"))
            right, second = self.plays(server, "b1_2", "e2e4")
            right.asks(ends("b1_2", "time", "black"), ended("black loses on time"))
            feed = self.feed("b1")
            self.assertEqual(feed.wait(PATIENCE), 0)
            self.has("b1", *first, over("black wins by decision"), follow_on("b1_2"))
            self.has("b1_2", *second, over("black loses on time"))
            for it in owner, right:
                it.close()

    def test_another_game_of_the_name_begins_behind_the_end_of_the_first(self):
        """Before, its moves were published after those of the first, as one game."""
        self.feed("b1")
        with self.server() as server:
            owner, first = self.plays(server, "b1", "e2e4", "e7e5")
            self.has("b1", *first)
        owner.close()
        with self.server() as server:
            owner, other = self.plays(server, "b1", "d2d4", "d7d5", "c2c4")
            self.has("b1", *first, over("abandoned"), *other)
            owner.close()

    def test_a_silent_board_has_a_beat_every_fifteen_seconds_as_long_as_it_is_there(self):
        """Before, there was none: a game in which nobody moved looked like one that was gone."""
        self.feed("b1")
        with self.server() as server:
            owner, first = self.plays(server, "b1", "e2e4")
            self.has("b1", *first)
            began = time.monotonic()
            self.assertTrue(until(lambda: len(self.channels.beats("b1")) == 3, 2 * BEAT + SOON))
            self.assertGreater(time.monotonic() - began, 1.5 * BEAT)
        owner.close()
        time.sleep(BEAT + 2)
        self.assertEqual(len(self.channels.beats("b1")), 3)

    def test_names_are_read_again_at_a_hangup(self):
        """One that is new is fed, and one that is gone is left. Before, a feed was restarted for each name."""
        with self.server() as server:
            names = self.names("b1 b2")
            feed = self.feed("--names", names)
            (first, one), (second, two) = self.plays(server, "b1", "e2e4"), self.plays(server, "b2", "e2e4")
            self.has("b1", *one)
            self.has("b2", *two)
            names.write_text("b1\nb3\n")
            feed.send_signal(signal.SIGHUP)
            third, three = self.plays(server, "b3", "d2d4")
            self.has("b3", *three)
            for owner, board in (first, "b1"), (second, "b2"):
                owner.asks(submits(board, "e7e5"), played(1))
            self.has("b1", *one, moved("e7e5", 1))
            self.assertEqual(self.channels.told("b2"), two)
            self.assertIsNone(feed.poll())
            for owner in first, second, third:
                owner.close()
