"""What the tests of the feed share: processes that end with their block, readers of channels, games, and waiting for a test to be true."""
import asyncio
import contextlib
import json
import pathlib
import subprocess

import websockets

from relay_client.client import Client
from relay_client.program import fens, start_fen
from relay_client.relay import Relay

HERE = pathlib.Path(__file__).resolve().parent
RELAY_PORT, WATCH_PORT = "9690", "9691"
RELAY = f"ws://127.0.0.1:{RELAY_PORT}"
CHANNELS = "ws://127.0.0.1:9100/sub"
FIRST = ["d2d4", "d7d5"]
OTHER = ["e2e4", "e7e5"]
QUICK = ("--wait", "0.05")
QUIET = {"stdout": subprocess.DEVNULL, "stderr": subprocess.DEVNULL}


@contextlib.asynccontextmanager
async def running(*words, **options):
    """A process that has ended when the block has."""
    process = await asyncio.create_subprocess_exec(*words, cwd=HERE, **options)
    try:
        yield process
    finally:
        with contextlib.suppress(ProcessLookupError):
            process.terminate()
        await process.wait()


def feed(*boards, relay=RELAY, **options):
    return running("./feed.py", "--relay", relay, *boards, **options)


async def until(test, seconds=60):
    """Waits until a test is true."""
    for _ in range(200 * seconds):
        if test():
            return
        await asyncio.sleep(0.005)
    raise AssertionError(f"not within {seconds} s")


class Reader:
    """Reads a channel from its oldest text on, and keeps its texts, the beats apart."""

    def __init__(self, board):
        self.board, self.texts, self.beats = board, [], []

    async def __aenter__(self):
        self.socket = await websockets.connect(f"{CHANNELS}/{self.board}", ping_interval=None, compression=None)
        self.task = asyncio.create_task(self.run())
        return self

    async def run(self):
        with contextlib.suppress(websockets.ConnectionClosed):
            async for message in self.socket:
                text = json.loads(message)
                (self.beats if text["reply"] == "beat" else self.texts).append(text)

    async def has(self, *texts):
        """Waits until the channel has had this, apart from beats, and nothing else."""
        with contextlib.suppress(AssertionError):
            await until(lambda: self.texts == list(texts), 20)
        assert self.texts == list(texts), (self.board, self.texts)

    async def __aexit__(self, *_):
        await self.socket.close()
        await self.task


def following(moves=()):
    return {"fen": fens(518, moves)[-1] if moves else start_fen(518), "joined": len(moves), "reply": "following"}


def moved(moves):
    return [{"move": move, "place": place, "reply": "move"} for place, move in enumerate(moves)]


def over(outcome="abandoned"):
    return {"outcome": outcome, "reply": "over"}


def follow_on(board):
    return {"board": board, "reply": "next"}


async def game(relay, board, moves=()):
    client = await Client.to(relay.address)
    await client.open(board)
    await client.submit(board, *moves)
    return client


async def again(relay):
    await relay.kill()
    await relay.start()


async def passed(module):
    """Whether all tests of a module passed, each beside a relay of its own with a watch port."""
    failed = []
    for name, it in [(name[4:], it) for name, it in vars(module).items() if name.startswith("try_")]:
        relay = await Relay(watch=True, boards=256).start()
        try:
            await asyncio.wait_for(it(relay), 120)
            print(f"ok      {name}: {it.__doc__}", flush=True)
        except Exception as fault:
            failed.append(name)
            print(f"failed  {name}: {type(fault).__name__} {fault}", flush=True)
        finally:
            await Relay.stop_all()
    return not failed
