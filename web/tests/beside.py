"""The operators' pages beside enter.py, which enters the games of electronic boards; pages.py runs it with its own."""
import asyncio
import contextlib
import pathlib
import tempfile

from back import log_of
from relay_client.acts import PATIENCE
from relay_client.relay import Relay
from relay_client.tests.entering import DUTCH, DUTCH_SENT, ENTER, ITALIAN, ITALIAN_SENT, game
from steps import GRACE, WEB, enter, text, until_moves
from tabs import frame, play, site, until_stand

RECORDER = WEB.parent / "apps/recorder/record.py"


async def start(*words):
    return await asyncio.create_subprocess_exec("/usr/bin/python3", *map(str, words), stdout=asyncio.subprocess.DEVNULL,
                                                stderr=asyncio.subprocess.PIPE)


async def stop(program):
    program.terminate()
    await program.wait()


async def has(relay, board, moves, outcome=None):
    """The relay comes to have a game with these moves and this end."""
    found = None
    for _ in range(300):
        with contextlib.suppress(AssertionError):  # There is none yet.
            found = await log_of(relay, board)
        if found == (moves, outcome):
            return
        await asyncio.sleep(0.1)
    raise AssertionError((board, found))


async def try_beside_boards(browser):
    """The page of a round and enter.py do not play into each other's boards: whoever opens a name has it."""
    relay = await Relay(grace=GRACE).start()
    with site() as address, tempfile.TemporaryDirectory() as name:
        file = pathlib.Path(name) / "games.pgn"
        file.write_text(game(ITALIAN[:4]) + game(DUTCH[:2], 2))
        program = await start(ENTER, relay.address, file, "--every", "0.2", "--state", f"{name}/state")
        await has(relay, "r3-2", DUTCH_SENT[:2])
        page = await browser.open(f"{address}/tables.html?server={relay.address}")
        await page.fill("#lines", "r3-1\nr3-2\nr3-3")
        await page.click("#source .main")
        await until_stand(page, "The board was not opened", "The board was not opened", "White to move")
        for tab in 0, 1:
            assert "That name is taken" in await page.run(frame(tab, 'return document_.querySelector("#said").textContent'))
        await play(page, 2, "e4")
        await has(relay, "r3-3", ["e2e4"])
        file.write_text(game(ITALIAN[:6]) + game(DUTCH, 2) + game(ITALIAN[:3], 3))
        told = await asyncio.wait_for(program.stderr.readline(), PATIENCE)
        assert told == b"r3-3: this name is taken: another operator has the board\n", told
        await has(relay, "r3-1", ITALIAN_SENT[:6])
        await has(relay, "r3-2", DUTCH_SENT)
        await play(page, 2, "c5")
        await has(relay, "r3-3", ["e2e4", "c7c5"])
        await stop(program)
        assert not page.faults, page.faults
        await page.close()


async def try_beside_failed_board(browser):
    """A board that fails goes on by hand, in the page of a board, from its record. enter.py goes on with the others alone."""
    relay = await Relay(watch=True, grace=GRACE).start()
    with site() as address, tempfile.TemporaryDirectory() as name:
        file, words = pathlib.Path(name) / "games.pgn", ("--every", "0.2", "--state", f"{name}/state")
        recorder = await start(RECORDER, relay.watch_address, "--all", name)
        file.write_text(game(ITALIAN[:4]) + game(DUTCH[:2], 2))
        program = await start(ENTER, relay.address, file, *words)
        await has(relay, "r3-1", ITALIAN_SENT[:4])
        await stop(program)
        program = await start(ENTER, relay.address, file, *words, "--without", "r3-1")
        await has(relay, "r3-1", ITALIAN_SENT[:4], "abandoned")
        page = await browser.open(f"{address}/table.html?server={relay.address}")
        await page.give_file("#file", f"{name}/r3-1.record")
        await page.until('document.querySelector("#new-name").value === "r3-1_2"')
        await page.click("#anew button[type=submit]")
        await until_moves(page, 4)
        assert await text(page, "#state") == "Board r3-1_2 is open"
        await enter(page, "Bc4", "type")
        await has(relay, "r3-1_2", ITALIAN_SENT[:5])
        file.write_text(game(ITALIAN) + game(DUTCH, 2, "1-0"))
        await has(relay, "r3-2", DUTCH_SENT, "white wins by decision")
        assert await log_of(relay, "r3-1_2") == (ITALIAN_SENT[:5], None)
        for it in program, recorder:
            await stop(it)
        assert not page.faults, page.faults
        await page.close()
