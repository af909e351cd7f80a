"""Tests of what is heard and of what moves on the pages; pages.py runs them with its own."""
import asyncio

from relay_client.client import Client
from relay_client.relay import Relay
from relay_client.wire import Wire
from steps import GRACE, enter, open_table, say_end, text, until_moves, until_state, watch

# Counts the tones that a page makes, in window.tones.
COUNT = """window.tones = 0; (() => { const made = AudioContext.prototype.createOscillator;
    AudioContext.prototype.createOscillator = function () { tones += 1; return made.call(this); }; })()"""


async def until_tones(page, count):
    await page.until(f"tones === {count}")


async def try_sounds(browser):
    """Sounds are off until they are switched on; then a move, a capture, a check and the end have each its own, and moves of before have
    none."""
    relay = await Relay().start()
    table = await open_table(browser, relay, "b1", 518)
    await table.run('localStorage.removeItem("sirvandu.settings")')
    seer = await watch(browser, relay, "b1")
    await seer.run(COUNT)
    await until_state(seer, "live")
    assert not await seer.run('document.querySelector("#sounds").checked') and await seer.run('document.querySelector("#silent").hidden')
    await enter(table, "e4", "type")
    for page in (table, seer):
        await until_moves(page, 1)
    assert await seer.run("tones") == 0
    await seer.click("#sounds")
    await until_tones(seer, 1)
    heard = 1
    await asyncio.sleep(0.5)
    for ply, (move, tones) in enumerate((("d5", 1), ("exd5", 2), ("Qxd5", 2), ("Nc3", 1), ("Qe5+", 2)), 2):
        await enter(table, move, "type")
        for page in (table, seer):
            await until_moves(page, ply)
        heard += tones
        await until_tones(seer, heard)
    again = await watch(browser, relay, "b1")
    await again.run(COUNT)
    await until_moves(again, 6)
    assert await again.run('document.querySelector("#sounds").checked && !document.querySelector("#silent").hidden')
    await again.click("#upper")
    await again.until('document.querySelector("#silent").hidden')
    assert await again.run("tones") == 0
    await asyncio.sleep(0.5)
    await say_end(table, "#ending [data-how=agreed]")
    await until_state(again, "over")
    await until_tones(again, 3)
    await again.click("#sounds")
    assert await again.run('document.querySelector("#silent").hidden') and await again.run("tones") == 3
    for page in (table, seer, again):
        assert not page.faults, page.faults
        await page.close()


async def try_alarm(browser):
    """A board that lost its connection is marked in the title of its page, and is heard after some seconds where sounds are on; not where
    it is back by then."""
    relay = await Relay(grace=GRACE).start()
    wire = await Wire(relay.port).mend()
    table = await open_table(browser, relay, "b1", 518, wire.address)
    await table.run('localStorage.removeItem("sirvandu.settings")')
    await table.run('document.querySelector("#sounds").checked = false')
    await table.run(COUNT)
    assert await table.run("document.title") == "b1 – Operate a board"
    for is_on, lasts, tones in ((False, 4, 0), (True, 0, 1), (True, 4, 5)):
        if is_on != await table.run('document.querySelector("#sounds").checked'):
            await table.click("#sounds")
            await until_tones(table, 1)
        await wire.cut()
        await table.until('document.title === "⚠ b1 – Operate a board"')
        await asyncio.sleep(lasts)
        assert await table.run("tones") == tones
        await wire.mend()
        await until_state(table, "live")
        assert await table.run("document.title") == "b1 – Operate a board"
    await asyncio.sleep(4)
    assert await table.run("tones") == 5
    await table.click("#sounds")
    assert not table.faults, table.faults
    await table.close()
    await wire.cut()


async def try_motion(browser):
    """A man glides to its square, unless the reader wants less motion."""
    relay = await Relay().start()
    client = await Client.to(relay.address)
    await client.open("b1")
    for motion, moves in (("no-preference", ["e2e4", "e7e5"]), ("reduce", ["g1f3", "b8c6"])):
        seer = await watch(browser, relay, "b1")
        await seer.media(prefers_reduced_motion=motion)
        await until_state(seer, "live")
        await seer.run("""window.glides = 0; (() => { const made = Element.prototype.animate;
            Element.prototype.animate = function (...given) { glides += 1; return made.apply(this, given); }; })()""")
        count = len(await seer.run('[...document.querySelectorAll(".move[data-place]")].map((it) => it.title)'))
        for move in moves:
            await client.submit("b1", move)
            count += 1
            await until_moves(seer, count)
        assert await seer.run("glides") == (2 if motion == "no-preference" else 0), (motion, await seer.run("glides"))
        assert await text(seer, "#state") == "Live" and not seer.faults, seer.faults
        await seer.close()
    await client.close()
