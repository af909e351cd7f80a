"""What a channel has when its board is gone, goes on under another name, or has another game, and what it has in silence. Each test
is an async function whose name begins with try_; test_channels.py runs them, beside the nginx and the Redis that it has started."""
import asyncio
import os
import pathlib
import signal
import subprocess
import tempfile
import time

from feeds import FIRST, OTHER, QUICK, QUIET, Reader, again, feed, follow_on, following, game, moved, over, until
from relay_client.client import Client
from relay_client.keys import new_key
from relay_client.relay import Relay


async def try_vanished(relay):
    """A relay that was restarted: the channel has the end of the game, then the name under which it goes on, which is fed too. Before, it
    had nothing more, and its readers had a game that was gone."""
    await game(relay, "v1", FIRST)
    async with feed("v1", *QUICK, relay=relay.address, **QUIET), Reader("v1") as first, Reader("v1_2") as second:
        await first.has(following(), *moved(FIRST))
        await again(relay)
        await first.has(following(), *moved(FIRST), over())
        client = await game(relay, "v1_2", FIRST)
        await first.has(following(), *moved(FIRST), over(), follow_on("v1_2"))
        await client.submit("v1_2", "c2c4")
        await second.has(following(), *moved([*FIRST, "c2c4"]))


async def try_abandoned(relay):
    """A lost connection of the operator: the next names are fed in turn, also by a feed that was restarted in between. Before, a feed knew
    no name but those that it was given."""
    client = await game(relay, "a1", FIRST)
    async with Reader("a1") as first, Reader("a1_2") as second, Reader("a1_3") as third:
        async with feed("a1", *QUICK, relay=relay.address, **QUIET):
            await first.has(following(), *moved(FIRST))
            await client.close()
            client = await game(relay, "a1_2", OTHER)
            await second.has(following(), *moved(OTHER))
        await client.close()
        async with feed("a1", *QUICK, relay=relay.address, stdout=subprocess.PIPE, stderr=subprocess.DEVNULL) as process:
            await second.has(following(), *moved(OTHER), over())
            client = await game(relay, "a1_3", FIRST)
            await client.end("a1_3")
            printed, _ = await asyncio.wait_for(process.communicate(), 20)
            assert process.returncode == 0 and printed.endswith(b"a1_3: over, 2 moves\n"), (process.returncode, printed)
        await first.has(following(), *moved(FIRST), over(), follow_on("a1_2"))
        await second.has(following(), *moved(OTHER), over(), follow_on("a1_3"))
        await third.has(following(), *moved(FIRST), over("agreed"))


async def try_corrected(relay):
    """A game that has a result is replaced by the one of its next name that has as many moves: the channel names that, and the feed does
    not end before. An empty board of a next name, which a stale window may open, replaces nothing."""
    wrong = await game(relay, "c1", FIRST)
    async with Reader("c1") as first, Reader("c1_2") as second, Reader("c1_3") as third:
        async with feed("c1", *QUICK, relay=relay.address, **QUIET):
            await first.has(following(), *moved(FIRST))
            stale = await game(relay, "c1_2")
            await wrong.end("c1", "resign", side="white")
            await second.has(following())
            await stale.end("c1_2", "abandoned")
            right = await game(relay, "c1_3", FIRST[:1])
            await third.has(following(), *moved(FIRST[:1]))
            await first.has(following(), *moved(FIRST), over("white resigns"))
        async with feed("c1", *QUICK, relay=relay.address, stdout=subprocess.PIPE, stderr=subprocess.DEVNULL) as process:
            await third.has(following(), *moved(FIRST[:1]))
            await right.submit("c1_3", FIRST[1])
            await first.has(following(), *moved(FIRST), over("white resigns"), follow_on("c1_3"))
            await second.has(following(), over(), follow_on("c1_3"))
            await right.end("c1_3", "decided", result="1-0")
            await asyncio.wait_for(process.communicate(), 20)
            assert process.returncode == 0, process.returncode
        await third.has(following(), *moved(FIRST), over("white wins by decision"))


async def try_late(relay):
    """A name that the relay never had in this run, since its game went on under another: the channel names that one. Before, it had
    nothing."""
    await game(relay, "l1_2", OTHER)
    async with feed("l1", *QUICK, relay=relay.address, **QUIET), Reader("l1") as first, Reader("l1_2") as second:
        await first.has(follow_on("l1_2"))
        await second.has(following(), *moved(OTHER))


async def try_another(relay):
    """Another game of the name, opened before the feed is back: a shorter one of the same moves, and one of other moves. The channel has
    the end of the first, and the other from its start. Before, the feed joined both into one if the other had more moves, and published
    nothing if it had not."""
    for board, other in (("o1", FIRST[:1]), ("o2", OTHER), ("o3", [])):
        await game(relay, board, FIRST)
        async with Reader(board) as reader:
            async with feed(board, *QUICK, relay=relay.address, **QUIET):
                await reader.has(following(), *moved(FIRST))
            await again(relay)
            client = await game(relay, board, other)
            async with feed(board, *QUICK, relay=relay.address, **QUIET):
                await reader.has(following(), *moved(FIRST), over(), following(), *moved(other))
                await client.end(board)
                await reader.has(following(), *moved(FIRST), over(), following(), *moved(other), over("agreed"))


async def try_middle(relay):
    """Another game of which the relay no longer gives the first moves: its position is compared, and it begins at the first place given.
    Before, its moves were published after those of the first game."""
    small = await Relay(capacity=2).start()
    moves = [*OTHER, "g1f3"]
    await game(small, "m1", FIRST)
    async with Reader("m1") as reader:
        async with feed("m1", *QUICK, relay=small.address, **QUIET):
            await reader.has(following(), *moved(FIRST))
        await again(small)
        await game(small, "m1", moves)
        async with feed("m1", *QUICK, relay=small.address, **QUIET):
            await reader.has(following(), *moved(FIRST), over(), following(moves[:1]), *moved(moves)[1:])


async def try_beats(relay):
    """While a board is followed, its channel has a beat as often as asked for, with the time; it has none once the relay or the game is
    gone. Before, there were none, so that a game in which nobody moved looked like one that is gone."""
    client = await game(relay, "p1", FIRST)
    async with feed("p1", *QUICK, "--beat", "0.3", relay=relay.address, **QUIET), Reader("p1") as reader:
        await until(lambda: len(reader.beats) >= 4)
        began = time.monotonic()
        await until(lambda: len(reader.beats) >= 8)
        assert 0.7 < time.monotonic() - began < 10, time.monotonic() - began
        assert all(abs(it["time"] - time.time()) < 60 for it in reader.beats), reader.beats
        await client.end("p1", "abandoned")
        await until(lambda: over() in reader.texts)
        await asyncio.sleep(0.5)
        count = len(reader.beats)
        await asyncio.sleep(1)
        assert len(reader.beats) == count
    await game(relay, "p2", FIRST)
    async with feed("p2", *QUICK, "--beat", "0.3", relay=relay.address, **QUIET), Reader("p2") as reader:
        await until(lambda: len(reader.beats) >= 3)
        await relay.kill()
        await asyncio.sleep(0.5)
        count = len(reader.beats)
        await asyncio.sleep(1)
        assert len(reader.beats) == count
        await relay.start()


async def try_names(relay):
    """At SIGHUP the names are read again: a new one is fed, one that is gone is left, and another is not disturbed. Before, a feed had to
    be restarted for each name."""
    stays, goes = await game(relay, "n1", FIRST), await game(relay, "n2", FIRST)
    with tempfile.TemporaryDirectory() as folder:
        file = pathlib.Path(folder, "names")
        file.write_text("n1 n2\n")
        async with feed("--names", str(file), *QUICK, "--beat", "60", relay=relay.address, stdout=subprocess.PIPE,
                        stderr=subprocess.PIPE) as process:
            async with Reader("n1") as first, Reader("n2") as second, Reader("n3") as third:
                await first.has(following(), *moved(FIRST))
                await second.has(following(), *moved(FIRST))
                file.write_text("n1\nn3\n")
                os.kill(process.pid, signal.SIGHUP)
                await game(relay, "n3", OTHER)
                await third.has(following(), *moved(OTHER))
                file.unlink()
                os.kill(process.pid, signal.SIGHUP)
                await asyncio.wait_for(process.stderr.readuntil(b"so the names stay as they are"), 20)
                await stays.submit("n1", "c2c4")
                await goes.submit("n2", "c2c4")
                await first.has(following(), *moved([*FIRST, "c2c4"]))
                await asyncio.sleep(0.5)
                await second.has(following(), *moved(FIRST))
                assert len(first.beats) == 1 and process.returncode is None, first.beats


async def try_listed(relay):
    """A next name that is given to the feed beside the first: its channel still has each text once."""
    client = await game(relay, "d1", FIRST)
    async with feed("d1", "d1_2", *QUICK, relay=relay.address, **QUIET), Reader("d1") as first, Reader("d1_2") as second:
        await first.has(following(), *moved(FIRST))
        await client.close()
        client = await game(relay, "d1_2", OTHER)
        await first.has(following(), *moved(FIRST), over(), follow_on("d1_2"))
        await client.submit("d1_2", "g1f3")
        await client.end("d1_2")
        await second.has(following(), *moved([*OTHER, "g1f3"]), over("agreed"))
        await asyncio.sleep(0.5)
        await second.has(following(), *moved([*OTHER, "g1f3"]), over("agreed"))


async def try_key(_):
    """An operator that loses its connection and comes back with its key: the channel shows nothing of it."""
    relay = await Relay(grace=60).start()
    client = await Client.to(relay.address, key=new_key())
    await client.open("k1")
    await client.submit("k1", *FIRST)
    async with feed("k1", *QUICK, relay=relay.address, **QUIET), Reader("k1") as reader:
        await reader.has(following(), *moved(FIRST))
        client.socket.transport.abort()
        await asyncio.sleep(1)
        await client.come_back()
        await client.submit("k1", "c2c4")
        await client.end("k1")
        await reader.has(following(), *moved([*FIRST, "c2c4"]), over("agreed"))
