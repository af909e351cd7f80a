"""The test of the channels; test.sh starts it. Every subscriber must have each place of its board once, in order, then the outcome."""
import asyncio
import json
import os
import pathlib
import random
import signal
import subprocess
import sys
import tempfile
import time

import websockets

import test_all
import test_gone
from feeds import RELAY, RELAY_PORT, WATCH_PORT, feed, passed, running, until
from relay_client.client import Client
from relay_client.program import game_by_chance
from relay_client.relay import Relay

BOARDS = ["t1", "t2", "t3", "t4"]
SUBSCRIBERS = 1000
LATE = 40
PLIES = 120
PORTS = (9100, 9101)


class Subscriber:
    """Reads a channel and keeps the place of each move, and the outcome."""

    def __init__(self, board, port):
        self.board = board
        self.address = f"ws://127.0.0.1:{port}/sub/{board}"
        self.places, self.moves, self.follows, self.outcomes = [], [], 0, []

    async def run(self, ready):
        async with websockets.connect(self.address, ping_interval=None, compression=None, open_timeout=60) as socket:
            ready()
            while not self.outcomes:
                self.take(json.loads(await socket.recv()))

    def take(self, text):
        if text["reply"] == "move":
            self.places.append(text["place"])
            self.moves.append(text["move"])
        elif text["reply"] == "following":
            self.follows += 1
        elif text["reply"] == "over":
            self.outcomes.append(text["outcome"])

    def right(self, game):
        return (self.places == list(range(len(game))) and self.moves == game and self.follows == 1
                and self.outcomes == ["agreed"])


async def play(board, start, game, half, relay=RELAY):
    """An operator: plays a board's game, waits in its middle, and ends it."""
    operator = await Client.to(relay)
    await operator.open(board, start)
    for place, move in enumerate(game):
        if place == len(game) // 2:
            await half.wait()
        await operator.submit(board, move)
        await asyncio.sleep(0.01)
    await operator.end(board)
    await operator.close()


async def subscribe_all(subscribers):
    """Starts the subscribers, a hundred at a time, and answers their tasks when all are connected."""
    tasks, count = [], 0

    def ready():
        nonlocal count
        count += 1
    for index, subscriber in enumerate(subscribers):
        tasks.append(asyncio.create_task(subscriber.run(ready)))
        if index % 100 == 99:
            await asyncio.sleep(0.05)
    for _ in range(600):
        if count == len(subscribers):
            return tasks
        await asyncio.sleep(0.1)
    raise AssertionError(f"{count} of {len(subscribers)} subscribers were connected in a minute")


async def disturb(run, subscribers, half):
    """Kills the feed while the games go on, goes on with the games without it, starts it again, and kills it as it publishes."""
    def had():
        return sum(len(it.places) for it in subscribers)
    await until(lambda: had() > 10 * len(subscribers))
    os.kill(int(pathlib.Path(run, "feed.pid").read_text()), signal.SIGKILL)
    half.set()
    await asyncio.sleep(0.3)
    before = had()
    async with feed(*BOARDS, stdout=subprocess.DEVNULL) as second:
        await until(lambda: had() > before + len(subscribers))
        second.kill()
        await second.wait()


async def refuses_one_board():
    """Whether a name that the relay refuses ends only its own feed, and is reported."""
    async with feed("no/name", BOARDS[0], stdout=subprocess.PIPE, stderr=subprocess.PIPE) as process:
        printed, said = await asyncio.wait_for(process.communicate(), 120)
    return process.returncode == 1 and printed.startswith(b"t1: over") and said == b"no/name: refused 24 BadField\n"


async def gives_up_one_board():
    """Whether a board that is not opened within this many tries ends only its own feed, and is reported."""
    words = ("--tries", "3", "--wait", "0.05")
    async with feed("nobody", BOARDS[0], *words, stdout=subprocess.PIPE, stderr=subprocess.PIPE) as process:
        printed, said = await asyncio.wait_for(process.communicate(), 120)
    expected = b"nobody: refused 1 NoSuchBoard\nnobody: given up after 3 tries in a row that brought nothing: refused 1 NoSuchBoard\n"
    return process.returncode == 1 and printed.startswith(b"t1: over") and said == expected


async def waits_on_one_connection(game, start):
    """Whether waiting takes one connection for each board: of four, two boards leave two to open them, and four are served."""
    small = await Relay(connections=4).start()
    half = asyncio.Event()
    half.set()
    try:
        async with feed("w1", "w2", "--wait", "0.05", relay=small.address, stdout=subprocess.DEVNULL, stderr=subprocess.PIPE) as process:
            said = [await asyncio.wait_for(process.stderr.readline(), 20) for _ in "12"]
            await asyncio.sleep(2)
            await asyncio.wait_for(asyncio.gather(*(play(it, start, game, half, small.address) for it in ("w1", "w2"))), 60)
            _, more = await asyncio.wait_for(process.communicate(), 60)
            await asyncio.wait_for(small.has_served(4), 20)
    except (AssertionError, OSError, asyncio.TimeoutError, websockets.WebSocketException):
        return False
    finally:
        await small.kill()
    return sorted(said) == [b"w1: refused 1 NoSuchBoard\n", b"w2: refused 1 NoSuchBoard\n"] and more == b"" and process.returncode == 0


async def main():
    chance = random.Random(960)
    starts = [chance.randrange(960) for _ in BOARDS]
    games = {board: game_by_chance(start, chance, PLIES) for board, start in zip(BOARDS, starts)}
    with tempfile.TemporaryDirectory(ignore_cleanup_errors=True) as run:
        env = {**os.environ, "RUN": run, "RELAY_PORT": RELAY_PORT, "WATCH_PORT": WATCH_PORT}
        async with running("./start.sh", *BOARDS, env=env, stdout=subprocess.PIPE) as everything:
            line = await asyncio.wait_for(everything.stdout.readline(), 120)
            assert line.startswith(b"relay at"), line
            return await tried(games, starts, run)


async def tried(games, starts, run):
    subscribers = [Subscriber(BOARDS[index % 4], PORTS[index // 4 % 2]) for index in range(SUBSCRIBERS)]
    tasks = await subscribe_all(subscribers)
    half = asyncio.Event()
    began = time.monotonic()
    operators = [asyncio.create_task(play(board, start, games[board], half)) for board, start in zip(BOARDS, starts)]
    await disturb(run, subscribers, half)
    async with feed(*BOARDS, stdout=subprocess.DEVNULL) as third:
        await asyncio.wait_for(asyncio.gather(*operators), 120)
        await asyncio.wait(tasks, timeout=60)
        took = time.monotonic() - began
        late = [Subscriber(BOARDS[index % 4], PORTS[index // 4 % 2]) for index in range(LATE)]
        await asyncio.wait(await subscribe_all(late), timeout=30)
        status = await asyncio.wait_for(third.wait(), 60)
    refused = await refuses_one_board() and await gives_up_one_board()
    waited = await waits_on_one_connection(games[BOARDS[0]], starts[0])
    gone = await passed(test_gone)
    every = await passed(test_all)
    right = sum(it.right(games[it.board]) for it in subscribers)
    came_late = sum(it.right(games[it.board]) for it in late)
    moves = ", ".join(f"{len(games[it])}" for it in BOARDS)
    whole = right == SUBSCRIBERS and came_late == LATE and status == 0 and refused and waited and gone and every
    print(f"{'passed' if whole else 'failed'}: {right} of {SUBSCRIBERS} subscribers and {came_late} of {LATE} late ones had every place "
          f"once and in order; games of {moves} moves in {took:.1f} s; the feed was killed twice, and "
          f"{'told' if refused else 'did not tell'} of boards that are refused or not opened; waiting for a board took "
          f"{'one connection' if waited else 'other than one connection'}")
    return 0 if whole else 1


sys.exit(asyncio.run(main()))
