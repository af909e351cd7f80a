"""Tests of a board that two windows, or two operators, would enter; pages.py runs them with its own."""
import asyncio
import json

from back import close, log_of, table_of, until_open
from relay_client.client import Client
from relay_client.relay import Relay
from steps import GRACE, enter, open_table, said, state, text, until_moves, until_state, url
from tabs import frame, play, site, until_stand

HAS = "Another window of this browser operates {}. Use that window, or take the board over. Nothing was sent."
THERE = "and this page did not open it"


async def is_there(relay, board):
    """Whether the relay has a board, asked without a key."""
    client = await Client.to(relay.address)
    answer = await client.ask(cmd="submit", board=board, move="a1b8")
    await client.close()
    return answer["name"] != "NoSuchBoard"


async def until_doubted(page, words, label):
    await page.until(f'document.querySelector("#said").textContent.includes({json.dumps(words)})')
    assert await state(page) == "refused" and await text(page, "#anyway") == label, await text(page, "#anyway")
    assert not await page.run('document.querySelector("#anyway").hidden')


async def try_two_windows(browser):
    """A board that another window of the browser operates is not opened, nor gone on with, until it is taken over. Then that window says so
    and enters nothing more. Where it is closed, there is no question."""
    relay = await Relay(grace=GRACE).start()
    one = await open_table(browser, relay, "w1", 518)
    await enter(one, "e4", "type")
    await until_moves(one, 1)
    two = await browser.open(url("table.html", server=relay.address, board="w1", start=0))
    for press in ("#opening .main", "#go-on"):
        await two.click(press)
        await until_doubted(two, HAS.format("w1"), "Take the board over")
    await enter(one, "e5", "type")
    await until_moves(one, 2)
    await two.click("#opening .main")
    await until_doubted(two, HAS.format("w1"), "Take the board over")
    assert await log_of(relay, "w1") == (["e2e4", "e7e5"], None)
    await two.click("#anyway")
    await until_open(two, "w1")
    await until_moves(two, 2)
    await until_state(one, "refused")
    assert await text(one, "#state") == "Another window of this browser has taken w1 over."
    assert await one.run('document.querySelector("#typed").hidden') and await text(one, "#go-on") == "Continue w1"
    await enter(two, "Nf3", "type")
    await until_moves(two, 3)
    await relay.kill()
    await relay.start()
    await until_open(two, "w1_2")
    await one.click("#go-on")
    await until_doubted(one, HAS.format("w1"), "Take the board over")
    assert not await is_there(relay, "w1_3")
    await two.close()
    await one.go(await one.run("location.href"))
    await one.click("#go-on")
    await until_open(one, "w1_2")
    await until_moves(one, 3)
    assert not one.faults and not two.faults, (one.faults, two.faults)
    await one.close()


async def try_successor(browser):
    """A page that finds the next game of its board opened by somebody else says so and opens nothing until it is told to: when it opens a
    board, when it reopens one that the relay lost, and when it corrects one."""
    relay = await Relay(grace=GRACE).start()
    stranger = await Client.to(relay.address)
    await stranger.open("s1_3")
    table = await browser.open(url("table.html", server=relay.address, board="s1", start=518))
    await table.click("#opening .main")
    await until_doubted(table, f"s1_3 is at the relay, {THERE}", "Open s1")
    assert not await is_there(relay, "s1") and "Nothing was sent." in await said(table)
    await table.click("#anyway")
    await until_open(table, "s1")
    assert await table.run('document.querySelector("#anyway").hidden') and await said(table) == ""
    await table.close()

    table, wire = await table_of(browser, relay, "s2")
    moves = (await log_of(relay, "s2"))[0]
    await wire.cut()
    await relay.kill()
    await until_state(table, "lost")
    await relay.start()
    await stranger.close()
    stranger = await Client.to(relay.address)
    await stranger.open("s2_2")
    await wire.mend()
    await until_doubted(table, f"s2_2 is at the relay, {THERE}", "Open s2_3")
    await asyncio.sleep(0.5)
    assert not await is_there(relay, "s2_3") and await log_of(relay, "s2_2") == ([], None)
    await table.click("#anyway")
    await until_open(table, "s2_3")
    await until_moves(table, len(moves))
    assert await log_of(relay, "s2_3") == (moves, None)

    await stranger.open("s2_4")
    for press in ("#back", "#correct", "#sure-yes"):
        await table.run(f'document.querySelector("{press}").click()')
    await table.until(f'document.querySelector("#said").textContent.startsWith("s2_4 is at the relay, {THERE}")')
    assert "Nothing was entered." in await said(table) and await state(table) == "live"
    assert await log_of(relay, "s2_3") == (moves, None) and not await is_there(relay, "s2_5")
    await table.click("#correct")
    assert "s2_3 ends as abandoned and goes on as s2_5" in await text(table, "#sure-text")
    await table.click("#sure-yes")
    await until_open(table, "s2_5")
    assert await log_of(relay, "s2_5") == (moves[:-1], None)
    await stranger.close()
    await close(table, wire)


async def try_tabs_windows(browser):
    """Two windows with the boards of a round: the second one's tabs say that the first operates their boards, and a third one that has
    others is told of those."""
    relay = await Relay(grace=GRACE).start()
    with site() as address:
        pages = []
        for lines in ("v1\nv2", "v1\nv2", "u1"):
            pages.append(await browser.open(f"{address}/tables.html?server={relay.address}"))
            await pages[-1].fill("#lines", lines)
            await pages[-1].click("#source .main")
            if len(pages) == 1:
                await until_stand(pages[0], "White to move", "White to move")
        first, second, third = pages
        await until_stand(second, *2 * ["The board was not opened"])
        assert await second.run('[...document.querySelectorAll(".tab")].every((it) => it.dataset.wants === "alarm")')
        assert HAS.format("v2") == await second.run(frame(1, 'return document_.querySelector("#said").textContent'))
        assert await text(second, "#state") == "2 not open"
        await until_stand(third, "White to move")
        words = "Another window of this browser operates boards of this relay: v1, v2. Keep all boards in one window."
        await third.until(f'document.querySelector("#said").textContent === {json.dumps(words)}')
        await play(first, 0, "e4")
        await until_stand(first, "Black to move", "White to move")
        await first.close()
        await third.until('document.querySelector("#said").hidden')
        for it in second, third:
            assert not it.faults, it.faults
            await it.close()
