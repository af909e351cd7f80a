"""The two sample clients of examples/clients, each beside a relay that goes on, goes away, or comes back with another game."""

import asyncio
import importlib.util
import json
import logging
import os
import pathlib
import re
import shutil
import subprocess
import sys
import unittest

from relay_client.connection import Connection
from relay_client.program import PATIENCE, TOP
from relay_client.relay import Relay
from relay_client.texts import NO_BOARD, OPENED, ended, ends, following, moved, opens, over, played, refused, submits, text
from relay_client.wire import Wire

# Not of each callback that was slow.
logging.getLogger("asyncio").setLevel(logging.ERROR)

CLIENTS = TOP / "examples/clients"
STAND_IN = pathlib.Path(__file__).resolve().parent / "stand_in"
TWO_PLIES = "rnbqkbnr/pppp1ppp/8/4p3/4P3/8/PPPP1PPP/RNBQKBNR w HAha e6 0 2"
# A move en passant, a promotion, and both sides' castling, with the position after them.
RICH_GAME = "e2e4 a7a6 e4e5 d7d5 e5d6 a6a5 d6c7 a5a4 c7b8q a4a3 g1f3 g8f6 f1e2 g7g6 e1h1 f8g7 h2h3 e8h8".split()
RICH_END = "rQbq1rk1/1p2ppbp/5np1/8/8/p4N1P/PPPPBPP1/RNBQ1RK1 w - - 1 10"


def node_words():
    """How node runs the client; nothing if there is no node with a WebSocket, which node has from 20 on."""
    node = shutil.which("node")
    release = node and int(re.match(r"v(\d+)", subprocess.run([node, "--version"], capture_output=True, text=True).stdout)[1])
    if not node or release < 20:
        return []
    return [node, *(["--experimental-websocket"] if release < 22 else []), str(CLIENTS / "follow.js")]


class Game:
    """A relay's owner of b1, which plays and is answered."""

    def __init__(self, relay, moves=()):
        self.connection, self.place = Connection(relay.port), 0
        self.connection.asks(opens("b1"), OPENED)
        self.play(moves)

    def play(self, moves):
        for move in moves:
            self.connection.asks(submits("b1", move), played(self.place))
            self.place += 1

    def end(self):
        self.connection.asks(ends("b1", "agreed"), ended("agreed"))
        self.connection.close()


class Clients:
    """What holds of each sample client; `words` is how it is started."""

    words = []
    path = str(TOP / "tools")
    client = None

    async def asyncSetUp(self):
        if not self.words:
            self.skipTest("node 20 or later is missing (Debian: nodejs)")
        # unittest has it on.
        asyncio.get_running_loop().set_debug(False)
        self.relay = await Relay().start()
        self.wire = await Wire(self.relay.port).mend()

    async def asyncTearDown(self):
        if self.client is not None:
            if self.client.returncode is None:
                self.client.kill()
            await self.client.wait()
        await self.wire.cut()
        await self.relay.kill()

    async def restart(self, **options):
        """The relay is restarted, with these options."""
        await self.relay.kill()
        self.relay.options.update(options)
        await self.relay.start()

    async def follow(self):
        """Starts the client on b1, behind the wire."""
        env = {**os.environ, "PYTHONPATH": self.path}
        self.client = await asyncio.create_subprocess_exec(*self.words, self.wire.address, "b1", stdout=asyncio.subprocess.PIPE, env=env)

    async def next_text(self):
        line = await asyncio.wait_for(self.client.stdout.readline(), PATIENCE)
        self.assertTrue(line, "the client has ended")
        return text(**json.loads(line))

    async def hears(self, *texts):
        """The client has got these texts next."""
        for each in texts:
            self.assertEqual(await self.next_text(), each)

    async def hears_at_last(self, *texts):
        """The client has got these texts, and before them that there is no such board, as often as it asked."""
        first = NO_BOARD
        while first == NO_BOARD:
            first = await self.next_text()
        self.assertEqual(first, texts[0])
        await self.hears(*texts[1:])

    async def is_told_of_the_end(self, game):
        """The game ends, the client hears so, and ends too."""
        game.end()
        await self.hears(over("agreed"))
        self.assertEqual(await asyncio.wait_for(self.client.wait(), PATIENCE), 0)
        self.assertEqual(await self.client.stdout.read(), b"")

    def moves(self, moves, first=0):
        return [moved(move, place) for place, move in enumerate(moves, first)]

    async def test_a_client_that_lost_its_connection_goes_on_behind_its_last_move(self):
        """The moves before it have changed the position in every way that a move may."""
        game = Game(self.relay)
        await self.follow()
        await self.hears(following())
        game.play(RICH_GAME)
        await self.hears(*self.moves(RICH_GAME))
        await self.wire.cut()
        game.play(["b8a8"])
        await self.wire.mend()
        await self.hears(following(18, RICH_END), moved("b8a8", 18))
        await self.is_told_of_the_end(game)

    async def another_game(self, first, *moves):
        """The relay is restarted, and another game has the name of the first before the client comes back."""
        await self.wire.cut()
        await self.restart()
        first.connection.close()
        game = Game(self.relay, moves)
        await self.wire.mend()
        return game

    async def test_a_client_notices_another_game_of_the_name_and_follows_it_from_its_first_move(self):
        """The other game is as long, so its place alone says nothing. Before, PROTOCOL said to count places, so that a client made one game
        of two."""
        first = Game(self.relay, ["d2d4", "d7d5"])
        await self.follow()
        await self.hears(following(), *self.moves(["d2d4", "d7d5"]))
        game = await self.another_game(first, "e2e4", "e7e5")
        await self.hears(following(2, TWO_PLIES), following(), *self.moves(["e2e4", "e7e5"]))
        await self.is_told_of_the_end(game)

    async def test_a_client_notices_a_shorter_game_of_the_name_and_follows_it_from_its_first_move(self):
        first = Game(self.relay, RICH_GAME)
        await self.follow()
        await self.hears(following(), *self.moves(RICH_GAME))
        game = await self.another_game(first, "e2e4")
        await self.hears(refused(16, "NotYet"), following(), moved("e2e4", 0))
        await self.is_told_of_the_end(game)

    async def test_a_client_waits_on_one_connection_for_a_board_that_is_not_open_yet(self):
        await self.restart(connections=2)
        await self.follow()
        await self.hears(NO_BOARD, NO_BOARD)
        game = Game(self.relay)
        await self.hears_at_last(following())
        await self.is_told_of_the_end(game)
        await self.relay.has_served(2)

    async def test_a_client_goes_on_at_the_present_where_the_relay_no_longer_gives_a_place(self):
        await self.restart(capacity=1)
        game = Game(self.relay, ["e2e4", "e7e5"])
        await self.follow()
        await self.hears(refused(15, "TooFarBack"), following(2, TWO_PLIES))
        game.play(["g1f3"])
        await self.hears(moved("g1f3", 2))
        await self.is_told_of_the_end(game)


class PythonClient(Clients, unittest.IsolatedAsyncioTestCase):
    """Over Debian's python3-websockets, or over the stand-in if this Python lacks it."""

    words = [sys.executable, "-B", str(CLIENTS / "follow.py")]
    if importlib.util.find_spec("websockets") is None:
        path = f"{STAND_IN}{os.pathsep}{Clients.path}"


class JavaScriptClient(Clients, unittest.IsolatedAsyncioTestCase):
    words = node_words()
