"""A test of what the pages say on the browser's console; pages.py runs it with its own. Only Chromium tells it."""
import asyncio

from relay_client.relay import Relay
from steps import enter, say_end, text, until_moves, until_state, url
from tabs import until_stand

MOVES = [("e2e4", "drag"), ("e7e5", "click"), ("f2f4", "keys"), ("e5f4", "type")]


async def open_heard(browser, address):
    """A page at an address, whose console is heard from its beginning."""
    page = await browser.open("about:blank")
    page.kept = {"Log.entryAdded": [], "Runtime.consoleAPICalled": []}
    await page.call("Log.enable")
    await page.go(address)
    return page


async def try_silent_console(browser):
    """A game is entered and followed, and a round, from disk: no page says anything on the console."""
    relay = await Relay(watch=True).start()
    table = await open_heard(browser, url("table.html", server=relay.address, board="c1", start=387))
    await table.click("#opening .main")
    await until_state(table, "live")
    watches = [await open_heard(browser, url("watch.html", board="c1", **it))
               for it in ({"server": relay.address}, {"watch": relay.watch_address})]
    rounds = [await open_heard(browser, url("round.html", **it))
              for it in ({"watch": relay.watch_address}, {"server": relay.address, "boards": "c1,c2"},
                         {"watch": relay.watch_address, "hall": ""})]
    tables = await open_heard(browser, url("tables.html", server=relay.address))
    await tables.fill("#lines", "c2 518 White – Black\nc3 0")
    await tables.click("#source .main")
    await until_stand(tables, "White to move", "White to move")
    for ply, (move, way) in enumerate(MOVES, 1):
        await enter(table, move, way)
        for page in table, *watches:
            await until_moves(page, ply)
    for page in rounds:
        await page.front()
        await page.until('[...document.querySelectorAll(".last-move")].some((it) => it.textContent === "2… exf4")')
    await table.click("#ending [data-how=agreed]")
    await table.until('document.querySelector("#sure").open')
    assert await table.run("document.activeElement.textContent") == "Cancel"
    await table.press("Escape")
    await say_end(table, "#ending [data-how=agreed]")
    for page in table, *watches:
        await until_state(page, "over")
    assert "½–½" in await text(watches[0], "#outcome")
    await asyncio.sleep(0.5)
    said = [[*it.faults, *it.kept.values()] for it in (table, *watches, *rounds, tables)]
    assert said == [[[], []]] * 7, said
