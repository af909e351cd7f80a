"""Tests of what an operator has in sight: the field and the buttons beside the board, what is said, and a game that was interrupted;
pages.py runs them with its own."""
import asyncio
import json
import resource
import tempfile

from back import close, table_of, until_open
from relay_client.relay import Relay
from relay_client.server import Server
from steps import GRACE, enter, open_table, said, say_end, state, text, until_moves, until_state, url
from tabs import frame, play, site, until_stand

DESKS = ((1280, 900), (1366, 768))
MEDIA = ({}, {"prefers_color_scheme": "dark", "prefers_reduced_motion": "reduce"})
# What an operator needs from move to move.
NEEDED = ["#move", "#typed button", "#said", "#near", "#correct", *(f"#{it}" for it in ("first", "back", "on", "last", "flip")),
          *(f"#ending [data-how={how}]" for how in ("agreed", "threefold", "fifty", "abandoned")),
          *(f"#ending [data-how={how}][data-side={side}]" for how in ("resign", "time") for side in ("white", "black")),
          *(f"#ending [data-result='{result}']" for result in ("1-0", "1/2-1/2", "0-1"))]

# Those of some parts that are not wholly in sight in their window, whose lower edge may be higher than the frame's.
OUTSIDE = """(document, bottom, wanted) => wanted.filter((it) => {
  const part = document.querySelector(it);
  const box = part.getBoundingClientRect();
  return !part.checkVisibility() || box.left < 0 || box.top < 0 || box.right > document.defaultView.innerWidth || box.bottom > bottom;
})"""


async def at_a_draw(table):
    """Plays until a position has come twice, enters a move that is not legal, and goes back a move: all that may stand on the page stands
    there."""
    for ply, move in enumerate(["Nf3", "Nf6", "Ng1", "Ng8"], 1):
        await enter(table, move, "type")
        await until_moves(table, ply)
    await enter(table, "e2e5", "type")
    await table.until('!document.querySelector("#said").hidden && !document.querySelector("#near").hidden')
    await table.click("#back")
    await table.until('!document.querySelector("#correct").hidden')


async def try_desk(browser):
    """On a desk's screens the field for a move stands beside the board, and every button that a game needs is in sight, with a message, a
    draw that comes near and a correction."""
    relay = await Relay().start()
    table = await open_table(browser, relay, "b1", 518)
    await at_a_draw(table)
    for media in MEDIA:
        await table.media(**media)
        for size in DESKS:
            await table.resize(*size)
            await table.run("scrollTo(0, 0)")
            outside = await table.run(f'({OUTSIDE})(document, innerHeight, {json.dumps([*NEEDED, ".board"])})')
            assert outside == [], (size, outside)
            beside = await table.run('document.querySelector("#move").getBoundingClientRect().left'
                                     ' - document.querySelector(".board").getBoundingClientRect().right')
            assert beside > 0, (size, beside)
            part = await table.run('document.querySelector(".board").getBoundingClientRect().width / innerHeight')
            assert part > 0.7, (size, part)
    groups = await table.run('[...document.querySelectorAll(".endings")]'
                             '.map((it) => [...it.querySelectorAll("button")].map((one) => one.dataset.how))')
    assert groups == [["resign", "resign", "agreed", "time", "time"], ["threefold", "fifty"], [*3 * ["decided"], "abandoned"]], groups
    assert not table.faults, table.faults
    await table.close()


async def try_tabs_desk(browser):
    """In the tab of a board the field and the buttons that end the game are in sight without scrolling, too."""
    relay = await Relay(grace=GRACE).start()
    with site() as address:
        page = await browser.open(f"{address}/tables.html?server={relay.address}")
        await page.fill("#lines", "a1\na2\na3\na4")
        await page.click("#source .main")
        await until_stand(page, *4 * ["White to move"])
        await play(page, 0, "e5")
        await page.until(frame(0, 'return !document_.querySelector("#said").hidden'))
        wanted = [it for it in NEEDED if it not in ("#near", "#correct")]
        for size in DESKS:
            await page.resize(*size)
            await page.run("scrollTo(0, 0)")
            await page.run("new Promise((done) => requestAnimationFrame(() => requestAnimationFrame(done)))")
            outside = await page.run(f'({OUTSIDE})(document.querySelector("iframe").contentDocument, '
                                     f'innerHeight - document.querySelector("iframe").getBoundingClientRect().top, {json.dumps(wanted)})')
            assert outside == [], (size, outside)
        assert not page.faults, page.faults
        await page.close()


PARTS = """(() => {
  const tops = Object.fromEntries(["#settings", "#opening", "#going-on", ".board", "#moves"].map((it) => [it, document.querySelector(it)])
    .filter(([, it]) => it !== null && it.checkVisibility()).map(([name, it]) => [name, it.getBoundingClientRect().top]));
  return Object.keys(tops).sort((one, other) => tops[one] - tops[other]);
})()"""


async def try_phone_form(browser):
    """On a phone what begins a game stands before the board, and what has nothing to show yet behind it; on its side the board stands
    beside the form."""
    relay = await Relay().start()
    for name, form in (("table.html", "#opening"), ("watch.html", "#settings")):
        page = await browser.open(url(name, server=relay.address))
        await page.run('localStorage.removeItem("sirvandu.games")')
        await page.go(url(name, server=relay.address))
        await page.resize(390, 800)
        assert await page.run(PARTS) == [form, ".board", "#moves"], await page.run(PARTS)
        await page.resize(844, 390)
        low = await page.run('document.querySelector(".board").getBoundingClientRect().bottom - innerHeight')
        right = await page.run(f'document.querySelector("{form}").getBoundingClientRect().left'
                               ' - document.querySelector(".board").getBoundingClientRect().right')
        assert low <= 0 < right, (low, right)
        assert not page.faults, page.faults
        await page.close()


OFFERED = 'document.querySelector("#going-on").hidden ? "" : document.querySelector("#interrupted").textContent'


async def try_interrupted(browser):
    """A game that was interrupted is offered at the head of the page when that is loaded again; one that has ended is not, nor while
    another is played."""
    relay = await Relay(grace=GRACE).start()
    address = url("table.html", server=relay.address, board="b1", players="Adams–Baker")
    table = await browser.open(address)
    await table.run('localStorage.removeItem("sirvandu.games")')
    await table.go(address)
    assert await table.run(OFFERED) == ""
    await table.click("#opening .main")
    await until_state(table, "live")
    for ply, move in enumerate(("e4", "e5"), 1):
        await enter(table, move, "type")
        await until_moves(table, ply)
        await table.go(address)
        count = "1 move" if ply == 1 else "2 moves"
        assert (await table.run(OFFERED)).startswith(f"Not finished: b1, Adams–Baker, {count}, saved "), await table.run(OFFERED)
        for size in (*DESKS, (390, 800), (844, 390)):
            await table.resize(*size)
            await table.run("scrollTo(0, 0)")
            assert await table.run(f'({OUTSIDE})(document, innerHeight, ["#go-on"])') == [], size
        await table.click("#go-on")
        await until_open(table, "b1")
        assert await table.run(OFFERED) == ""
    await table.go(address)
    await table.fill("#name", "b1")
    await table.run('document.querySelector("#white").value = ""')
    await table.click("#opening .main")
    await until_state(table, "refused")
    assert (await table.run(OFFERED)).startswith("Not finished: b1, "), "a name that is taken hid the game"
    await table.click("#go-on")
    await until_open(table, "b1")
    await table.click("#ending [data-how=agreed]")
    await table.until('document.querySelector("#sure").open')
    await table.click("#sure .main")
    await until_state(table, "over")
    assert await table.run(OFFERED) == ""
    await table.go(address)
    assert await table.run(OFFERED) == ""
    await until_state(table, "over")
    await table.until('document.querySelector("#outcome b").textContent === "½–½"')
    assert await table.run("document.title") == "½–½, b1 – Operate a board"
    assert not await table.run('document.querySelector("#save-pgn").hidden')
    await table.click("#opening .main")
    await until_open(table, "b1_g2")
    assert not table.faults, table.faults
    await table.close()


async def try_reloaded(browser):
    """A page whose address names no board has its result, too, when it is loaded again, and another window has not."""
    relay = await Relay().start()
    address = url("table.html", server=relay.address)
    table = await browser.open(address)
    await table.fill("#name", "plain")
    await table.click("#opening .main")
    await until_open(table, "plain")
    await enter(table, "e4", "type")
    await until_moves(table, 1)
    await say_end(table, "#ending [data-side=white]")
    await until_state(table, "over")
    await table.go(address)
    await until_moves(table, 1)
    assert await text(table, "#outcome b") == "0–1" and await text(table, "#state") == "The game on plain is over"
    other = await browser.open(address)
    assert await text(other, "#state") == "No board open" and await text(other, "#outcome b") == ""
    for it in table, other:
        assert not it.faults, it.faults
        await it.close()


async def try_freed(browser):
    """That no move can be played is said until one can be; what was said of a text goes when that is changed."""
    relay = await Relay(grace=GRACE).start()
    table, wire = await table_of(browser, relay)
    await wire.cut()
    await until_state(table, "lost")
    await table.run('document.querySelector("#move").value = "d4"; document.querySelector("#typed").requestSubmit()')
    await table.until('document.querySelector("#said").textContent === "No move can be played now."')
    await wire.mend()
    await until_state(table, "live")
    assert await said(table) == "", await said(table)
    await enter(table, "castle", "type")
    await table.until('!document.querySelector("#said").hidden')
    assert '"castle" is not a move' in await text(table, "#said")
    await table.fill("#move", "c")
    assert await said(table) == ""
    await close(table, wire)


# Before a relay, its journal has less room than a board needs, as on a full disk. The limit is one that may be raised again.
WITHOUT_ROOM = ("prlimit", "--fsize=30000:")


async def try_full_disk(browser):
    """A board that the relay's journal has no room for is not opened, and the operator is told what is full. Once there is room, a press
    opens it."""
    with tempfile.TemporaryDirectory() as folder:
        words = ("--forever", "--grace", str(GRACE), "--journal", f"{folder}/games")
        # What the file may not take is then an error as on a full disk, and no signal.
        with await asyncio.to_thread(Server, *words, before=WITHOUT_ROOM, restore_signals=False) as relay:
            table = await browser.open(url("table.html", server=relay.address, board="b1"))
            await table.click("#opening .main")
            await until_state(table, "refused")
            full = "The relay has no room: its memory or its journal's disk is full. Games go on. Try again once there is room."
            assert await said(table) == full, await said(table)
            assert f"b1: {full} (12 OutOfMemory)" in await text(table, "#notices")
            assert await text(table, "#state") == "The board was not opened"
            _, most = resource.prlimit(relay.process.pid, resource.RLIMIT_FSIZE)
            resource.prlimit(relay.process.pid, resource.RLIMIT_FSIZE, (most, most))
            while await state(table) == "refused":  # The relay looks for room about once a second.
                await asyncio.sleep(0.5)
                await table.click("#opening .main")
                await table.until('["refused", "live"].includes(document.querySelector("#state").dataset.state)')
            await until_open(table, "b1")
            assert await said(table) == ""
            assert not table.faults, table.faults
            await table.close()
