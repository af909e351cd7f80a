#!/usr/bin/python3
"""Measures what boards and followers cost the machine: starts the built program on loopback and reads /proc.

    ./measure.py        (Debian: apt-get install python3-websockets; RELAY960 names another program than the built one)

Each line is one run, as a row of a table: the boards, the followers of each, `--capacity` and `--plies`; the memory that is resident when
nothing is connected, when all are, and when a hundred moves were played on every board; threads and descriptors when all are connected;
and how long it took until a move that was sent on every board at once had reached every follower, the median and the maximum. The
next move is sent when the one before has arrived everywhere, so nobody is cut. Arguments choose runs: `./measure.py 64x64` does only that
one.
"""
import asyncio
import json
import os
import pathlib
import resource
import statistics
import sys
import time

import websockets

sys.path.append(str(pathlib.Path(__file__).resolve().parents[2] / "tools"))

from relay_client.relay import Relay  # noqa: E402

HOP = ["g1h3", "g8h6", "h3g1", "h6g8"]
OTHER_HOP = ["b1a3", "b8a6", "a3b1", "a6b8"]
RUNS = [(1, 64, 1024, 1024), (16, 64, 64, 1024), (16, 64, 1024, 1024), (64, 0, 1024, 1024), (64, 0, 1024, 16384), (64, 16, 1024, 1024),
        (64, 64, 64, 1024), (64, 64, 1024, 1024), (256, 16, 1024, 1024), (8, 1000, 1024, 1024)]


def hundred():
    """A hundred plies of the standard array: pawns step on, and between their steps the knights hop out and back."""
    steps = [(f"{file}2{file}3", f"{file}7{file}6") for file in "abcdefg"]
    steps += [(f"{file}3{file}4", f"{file}6{file}5") for file in "abcdefg"] + [("h2h4", "h7h5")]
    moves = [move for pair in steps for move in (*pair, *HOP)]
    return [*moves, *OTHER_HOP, *HOP, *OTHER_HOP[:2]]


def status(pid):
    """Resident memory in MB, threads, and descriptors of a process."""
    with open(f"/proc/{pid}/status", encoding="ascii") as file:
        fields = dict(line.split(":", 1) for line in file)
    return int(fields["VmRSS"].split()[0]) / 1024, int(fields["Threads"]), len(os.listdir(f"/proc/{pid}/fd"))


class Count:
    """What the followers have got, together."""

    def __init__(self):
        self.value = 0
        self.wanted = 0
        self.there = asyncio.Event()

    def add(self):
        self.value += 1
        if self.value == self.wanted:
            self.there.set()

    async def reach(self, wanted):
        self.wanted = wanted
        self.there.clear()
        if self.value < wanted:
            await asyncio.wait_for(self.there.wait(), 120)


async def connect(relay):
    return await websockets.connect(relay.address, ping_interval=None, compression=None, open_timeout=60)


async def ask(socket, wanted, **command):
    await socket.send(json.dumps(command))
    answer = json.loads(await socket.recv())
    assert answer["reply"] == wanted, answer


async def follow(relay, board, ready, got):
    """Follows a board until the connection ends."""
    socket = await connect(relay)
    await ask(socket, "following", cmd="follow", board=board, spectator=0)
    ready.add()
    try:
        async for text in socket:
            assert '"reply":"move"' in text, text
            got.add()
    except (asyncio.CancelledError, websockets.ConnectionClosed):
        pass


async def play(operators, followers, got):
    """Plays the hundred moves on every board; answers how long each took to reach everybody, in milliseconds."""
    waits = []
    for ply, move in enumerate(hundred(), 1):
        sent = time.monotonic()
        await asyncio.gather(*(ask(it, "played", cmd="submit", board=f"b{at}", move=move) for at, it in enumerate(operators)))
        await got.reach(ply * followers)
        waits.append(1000 * (time.monotonic() - sent))
    return waits


async def measure(boards, followers, capacity, plies):
    relay = await Relay(boards=boards, followers=max(1, followers), capacity=capacity, plies=plies).start()
    pid = relay.server.process.pid
    tasks = []
    try:
        began = status(pid)
        operators = [await connect(relay) for _ in range(boards)]
        for board, operator in enumerate(operators):
            await ask(operator, "opened", cmd="open", board=f"b{board}", start=518)
        ready, got = Count(), Count()
        for board in range(boards):
            for first in range(0, followers, 50):
                tasks += [asyncio.create_task(follow(relay, f"b{board}", ready, got)) for _ in range(min(50, followers - first))]
                await ready.reach(len(tasks))
        connected = status(pid)
        waits = await play(operators, len(tasks), got)
        played = status(pid)
        print(f"| {boards} | {followers} | {capacity:,} | {plies:,} | {began[0]:.1f} MB | {connected[0]:.1f} MB | {played[0]:.1f} MB | "
              f"{connected[1]:,} | {connected[2]:,} | {statistics.median(waits):.0f} to {max(waits):.0f} ms |", flush=True)
    finally:
        await relay.kill()
        for task in tasks:
            task.cancel()
        await asyncio.gather(*tasks, return_exceptions=True)


async def main():
    most = resource.getrlimit(resource.RLIMIT_NOFILE)[1]
    resource.setrlimit(resource.RLIMIT_NOFILE, (min(most, 16384), most))
    print("| Boards | Followers each | `--capacity` | `--plies` | Nothing connected | All connected | After 100 moves | Threads "
          "| Descriptors | A move to all |\n|---|---|---|---|---|---|---|---|---|---|")
    for run in RUNS:
        if not sys.argv[1:] or f"{run[0]}x{run[1]}" in sys.argv[1:]:
            await measure(*run)


if __name__ == "__main__":
    sys.exit(asyncio.run(main()))
