"""A test of the round behind nginx with nchan, as apps/many_spectators sets it up; pages.py runs it with its own."""
import asyncio
import contextlib
import os
import pathlib
import signal
import subprocess
import tempfile
import types

from lists import names_of, until_names
from relay_client.ports import free_port
from relay_client.program import fens, start_fen
from relay_client.wire import Wire
from rounds import MATE, MOVES, START, boards_of, men, until_tiles
from steps import WEB, listed, shows, state, text, until_state, url

EXAMPLE = WEB.parent / "apps" / "many_spectators"
CHANNELS = 9100  # The port of the first nginx, as the example's nginx-a.conf has it.
BEAT = 40  # Seconds: the feed gives a sign every 15 s.


@contextlib.asynccontextmanager
async def running(*words, **options):
    """A process of the example that has ended when the block has."""
    process = await asyncio.create_subprocess_exec(*words, cwd=EXAMPLE, **options)
    try:
        yield process
    finally:
        with contextlib.suppress(ProcessLookupError):
            process.terminate()
        await process.wait()


@contextlib.asynccontextmanager
async def crowd():
    """The example with the feed of all boards: its relay's addresses, and the process of its feed."""
    port, watched = free_port(), free_port()
    with tempfile.TemporaryDirectory(ignore_cleanup_errors=True) as run:
        env = {**os.environ, "RUN": run, "RELAY_PORT": str(port), "WATCH_PORT": str(watched)}
        async with running("./start.sh", env=env, stdout=subprocess.PIPE) as everything:
            line = await asyncio.wait_for(everything.stdout.readline(), 120)
            assert line.startswith(b"relay at"), line
            feed = int(pathlib.Path(run, "feed.pid").read_text())
            yield types.SimpleNamespace(address=f"ws://127.0.0.1:{port}", watch_address=f"ws://127.0.0.1:{watched}", feed=feed)


async def try_broadcast(browser):
    """Behind nginx with nchan the round takes its boards from the feed's list, with positions, last moves and ends; one that is opened
    later comes by itself, also after a lost connection, and from a feed that was killed."""
    async with crowd() as relay:
        wire = await Wire(CHANNELS).mend()
        address = url("round.html", channel=f"{wire.address}/sub")
        page = await browser.open(address)
        await page.until('document.querySelector("#state").textContent === "No boards yet"', BEAT)
        client = await boards_of(relay, ("n3", START, MOVES), ("n1", 518, MATE), ("n2", 0, []))
        await until_names(page, "n3", "n1", "n2")
        wanted = [men(it) for it in (fens(START, MOVES)[-1], fens(518, MATE)[-1], start_fen(0))]
        late = await browser.open(address)
        await until_state(late, "live", BEAT)
        for it in (page, late):
            await it.front()  # A page out of sight draws when it is seen again.
            tiles = await until_tiles(it, lambda them: [tile["men"] for tile in them] == wanted)
            had = [(tile["name"], tile["start"], tile["stand"], tile["turn"], tile["state"]) for tile in tiles]
            assert had == [("n3", "no. 387", "", ["White"], "live"), ("n1", "no. 518", "0–1", [], "over"),
                           ("n2", "no. 0", "", ["White"], "live")], had
        # A page that came late knows no position before the last move.
        assert [it["move"] for it in tiles] == ["3… c5", "2… Qh4#", ""] and tiles[0]["marked"] == ["c5", "c7"], tiles
        assert await text(late, "#state") == "2 live, 1 over"

        await client.submit("n3", "e1d3")
        await client.open("n4", 959)
        await client.submit("n2", "f2f4")
        for it in (page, late):
            await it.front()
            tiles = await until_tiles(it, lambda them: [tile["move"] for tile in them][::2] == ["4. Nd3", "1. f4"]
                                      and them[-1]["start"] == "no. 959")
            assert tiles[0]["men"] == men(fens(START, [*MOVES, "e1d3"])[-1]) and tiles[0]["marked"] == ["d3", "e1"], tiles
            assert (tiles[3]["name"], tiles[3]["men"], tiles[3]["state"]) == ("n4", men(start_fen(959)), "live"), tiles
        await client.end("n2")
        await until_tiles(late, lambda them: them[2]["stand"] == "½–½")
        await late.close()

        await page.front()
        await wire.cut()
        tiles = await until_tiles(page, lambda them: [it["state"] for it in them] == ["lost", "over", "over", "lost"])
        await client.submit("n4", "a2a3", "h7h6")
        await client.open("n5", 100)
        await wire.mend()
        tiles = await until_tiles(page, lambda them: names_of(them) == ["n3", "n1", "n2", "n4", "n5"]
                                  and them[3]["men"] == men(fens(959, ["a2a3", "h7h6"])[-1]))
        await until_state(page, "live", BEAT)
        os.kill(relay.feed, signal.SIGKILL)
        await client.submit("n4", "b2b3")
        await client.end("n5", "abandoned")
        await client.open("n5_2", 100)
        await page.run("window.now = Date.now; window.later = 60; Date.now = () => now() + 1000 * later")
        tiles = await until_tiles(page, lambda them: [it["state"] for it in them] == ["silent", "over", "over", "silent", "silent"])
        assert tiles[3]["stand"].startswith("No signal since ") and await state(page) == "silent", tiles
        await page.run("Date.now = now")
        async with running("./feed.py", "--all", "--watch", relay.watch_address, stdout=subprocess.DEVNULL):
            tiles = await until_tiles(page, lambda them: names_of(them) == ["n3", "n1", "n2", "n4", "n5_2"] and them[3]["move"] == "2. b3"
                                      and them[4]["state"] == "live")
            assert [it["state"] for it in tiles] == ["live", "over", "over", "live", "live"], tiles
            assert tiles[4]["men"] == men(start_fen(100)), tiles
            await page.click(".tile:nth-child(1) .inner")
            await page.until('location.pathname.endsWith("watch.html") && document.readyState === "complete"')
            await shows(page, 7, fens(START, [*MOVES, "e1d3"])[-1], "the channel of a board")
            assert await listed(page) == [[place, move] for place, move in enumerate([*MOVES, "e1d3"])]
            assert await text(page, "#watched") == "n3" and not page.faults, page.faults
            await page.close()
        await client.close()
        await wire.cut()
