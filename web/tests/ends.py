"""Tests of the ends that an arbiter enters, and of a result that is corrected: what the operator's page does, and where spectators get it;
pages.py runs them with its own."""
import asyncio
import json

from back import close, log_of, table_of
from desk import OUTSIDE
from gone import until_said
from relay_client.client import Client
from relay_client.relay import Relay
from relay_client.wire import DOWN, UP
from rounds import MATE, boards_of, until_tiles
from steps import (GRACE, catch_files, enter, listed, open_table, pgn, said, say_end, state, text, today, until_moves, until_state, url,
                   watch)
from tabs import frame, play, site, until_stand
from told import Told
from windows import HAS, is_there, until_doubted

MOVES = ["e2e4", "e7e5", "g1f3"]  # Those of back.table_of.
SAN = "1. e4 e5 2. Nf3"
INSTEAD = "cannot mate by any legal moves, enter the decision ½–½ instead."
# The button of each end, what is asked, the program's text, and what pages and PGN say of it.
ENDS = [
    ("[data-how=time][data-side=white]", f"Flag fell: White. Black wins. If Black {INSTEAD}",
     "white loses on time", "0–1 White's flag fell. Black wins.", "{White loses on time.} 0-1", "time forfeit"),
    ("[data-how=time][data-side=black]", f"Flag fell: Black. White wins. If White {INSTEAD}",
     "black loses on time", "1–0 Black's flag fell. White wins.", "{Black loses on time.} 1-0", "time forfeit"),
    ("[data-result='1-0']", "Arbiter's decision: 1–0.", "white wins by decision", "1–0 White wins by the arbiter's decision.",
     "{White wins by the arbiter's decision.} 1-0", "adjudication"),
    ("[data-result='1/2-1/2']", "Arbiter's decision: ½–½.", "drawn by decision", "½–½ Draw by the arbiter's decision.",
     "{Draw by the arbiter's decision.} 1/2-1/2", "adjudication"),
    ("[data-result='0-1']", "Arbiter's decision: 0–1.", "black wins by decision", "0–1 Black wins by the arbiter's decision.",
     "{Black wins by the arbiter's decision.} 0-1", "adjudication"),
]


async def try_arbiter(browser):
    """A fallen flag and an arbiter's decision are asked once more, whoever has the move, and end the game: both pages show the result, and
    save it with its word of the PGN standard."""
    relay = await Relay().start()
    for number, (button, question, outcome, words, written, termination) in enumerate(ENDS):
        board, moves = f"e{number}", MOVES[:2 + number % 2]
        table = await open_table(browser, relay, board, 518)
        seer = await watch(browser, relay, board)
        for ply, move in enumerate(moves, 1):
            await enter(table, move, "type")
            await until_moves(table, ply)
        await table.click(f"#ending {button}")
        await table.until('document.querySelector("#sure").open')
        assert await text(table, "#sure-text") == question, await text(table, "#sure-text")
        await table.press("Escape")
        assert await log_of(relay, board) == (moves, None)
        await say_end(table, f"#ending {button}")
        for page in (table, seer):
            await until_state(page, "over")
            await page.until(f'document.querySelector("#outcome").innerText.startsWith({json.dumps(words)})')
            await catch_files(page)
            await page.click("#save-pgn")
            file = pgn(board, 518, f"{'1. e4 e5' if len(moves) == 2 else SAN} {written}", await today(page), termination=termination)
            assert (await page.run("saved"))[1] == file, (await page.run("saved"), file)
        assert await log_of(relay, board) == (moves, outcome)
        for page in (table, seer):
            assert not page.faults, page.faults
            await page.close()


async def ended(browser, relay, board="b1", how="[data-how=resign][data-side=white]"):
    """An operator's page behind a wire, on which a game of three moves has ended."""
    table, wire = await table_of(browser, relay, board)
    await say_end(table, f"#ending {how}")
    await until_state(table, "over")
    return table, wire


async def choose(table, outcome):
    """Chooses another result, and confirms it."""
    await table.click("#correct-result")
    await table.until('document.querySelector("#other").open')
    labels = '[...document.querySelectorAll("#results label")]'
    await table.run(f"{labels}.find((it) => it.textContent.includes({json.dumps(outcome)})).click()")
    await table.click("#other-yes")


async def until_result(page, words, seconds=30):
    await page.until(f'document.querySelector("#outcome").innerText.startsWith({json.dumps(words)})', seconds)


async def try_corrected(browser):
    """A result that was pressed wrongly is corrected by one choice and one confirmation: the game is played again under its next name and
    ends there. Spectators go on to it and are told so; a mate cannot be corrected."""
    relay = await Relay(grace=GRACE).start()
    table, wire = await ended(browser, relay)
    seer = await watch(browser, relay, "b1")
    await until_result(seer, "0–1 White resigned.")
    for size in ((1280, 720), (1366, 768), (1280, 900)):
        await table.resize(*size)
        await table.run("scrollTo(0, 0)")
        assert await table.run(f'({OUTSIDE})(document, innerHeight, ["#correct-result"])') == [], size
    await table.click("#correct-result")
    await table.until('document.querySelector("#other").open')
    asked = await text(table, "#other-text")
    assert asked == "b1 has: White resigned. Black wins. It goes on as b1_2 with all its moves, and ends there with:", asked
    offered = await table.run('[...document.querySelectorAll("#results label")].map((it) => it.textContent)')
    words = ["1–0 Black resigned. White wins.", "½–½ Draw by agreement.", *(it[3] for it in ENDS)]
    assert offered == [f" {it}" for it in words], offered
    await table.click("#other-yes")
    assert await table.run('document.querySelector("#other").open'), "nothing was chosen"
    await table.run('document.querySelector("#results input").click()')
    await table.click("#other-no")
    await table.until('!document.querySelector("#other").open')
    assert await log_of(relay, "b1") == (MOVES, "white resigns")
    await choose(table, "Black resigned.")
    await until_result(table, "1–0 Black resigned.")
    assert await text(table, "#state") == "The game on b1_2 is over"
    assert await log_of(relay, "b1_2") == (MOVES, "black resigns") and await log_of(relay, "b1") == (MOVES, "white resigns")
    await until_said(seer, "b1 goes on as b1_2, which is shown now.")
    await until_result(seer, "1–0 Black resigned.")
    assert await listed(seer) == [[place, move] for place, move in enumerate(MOVES)]
    await table.go(await table.run("location.href"))
    await until_result(table, "1–0 Black resigned.")
    await choose(table, "Draw by the arbiter's decision.")
    await until_result(table, "½–½ Draw by the arbiter's decision.")
    assert await log_of(relay, "b1_3") == (MOVES, "drawn by decision")
    late = await watch(browser, relay, "b1")
    for page in (seer, late):
        await until_result(page, "½–½ Draw by the arbiter's decision.", 60)
        assert await page.run('document.querySelector("#name").value') == "b1_3"
        assert not page.faults, page.faults
        await page.close()
    assert not table.faults, table.faults
    await close(table, wire)
    table = await open_table(browser, relay, "m1", 518)
    for ply, move in enumerate(MATE, 1):
        await enter(table, move, "type")
        await until_moves(table, ply)
    await until_state(table, "over")
    assert await table.run('document.querySelector("#correct-result").hidden')
    await table.close()


async def until_others(table, board, who, successor):
    """Until a page says that somebody else has the next name, and proposes the one behind it."""
    words = (f"{board} is at the relay, and this page did not open it. {who} Nothing was entered. Correct the result again: it goes on as "
             f"{successor}.")
    await table.until(f'document.querySelector("#said").textContent === {json.dumps(words)}')
    assert await state(table) == "over", await state(table)


async def try_corrected_taken(browser):
    """Where somebody else has the next name, a corrected result is not entered: the page says how the game ended there, and takes the name
    behind it when it is corrected again. So no window overrides another's correction unseen. Where another window of the browser has the
    board, nothing is sent until that is taken over."""
    relay = await Relay(grace=GRACE).start()
    stranger = await Client.to(relay.address)
    table, wire = await ended(browser, relay, "t1", "[data-how=agreed]")
    await stranger.open("t1_2")
    await stranger.submit("t1_2", MOVES[0])
    await stranger.end("t1_2")
    await choose(table, "White resigned.")
    await until_others(table, "t1_2", "It ended there: Draw by agreement.", "t1_3")
    await until_result(table, "½–½ Draw by agreement.")
    assert not await is_there(relay, "t1_3")
    await choose(table, "White resigned.")
    await until_result(table, "0–1 White resigned.")
    assert await log_of(relay, "t1_3") == (MOVES, "white resigns") and await log_of(relay, "t1_2") == (MOVES[:1], "agreed")
    assert await said(table) == ""
    other = await open_table(browser, relay, "t1_4", 518, address=wire.address)
    await choose(table, "Draw by agreement.")
    await until_others(table, "t1_4", "Another window or program seems to go on with the game there.", "t1_5")
    await choose(table, "Draw by agreement.")
    await until_doubted(table, HAS.format("t1_5"), "Take the board over")
    await table.click("#anyway")
    await until_result(table, "½–½ Draw by agreement.")
    assert await log_of(relay, "t1_5") == (MOVES, "agreed") and await log_of(relay, "t1_4") == ([], None)
    assert await text(other, "#state") == "Another window of this browser has taken t1_4 over."
    for page in (table, other):
        assert not page.faults, page.faults
    await stranger.close()
    await other.close()
    await close(table, wire)


async def try_corrected_lost(browser):
    """A connection that is lost while a result is corrected: every move and the end are entered once, under one name. Where the relay is
    started anew meanwhile, the game gets its result under the name after it."""
    relay = await Relay(grace=GRACE).start()
    for board, way, word in (("up", UP, b""), ("down", DOWN, b'"ended"'), ("moves", DOWN, b'"place":1')):
        table, wire = await ended(browser, relay, board)
        wire.lose(way, word=word)
        await choose(table, "Black's flag fell.")
        await asyncio.wait_for(wire.has_lost.wait(), 10)
        await asyncio.sleep(0.3)
        wire.drop()
        await until_result(table, "1–0 Black's flag fell.")
        assert await text(table, "#state") == f"The game on {board}_2 is over"
        assert await log_of(relay, f"{board}_2") == (MOVES, "black loses on time")
        assert not table.faults, table.faults
        await close(table, wire)
    table, wire = await ended(browser, relay, "anew")
    wire.lose(DOWN, word=b'"ended"')
    await choose(table, "Black's flag fell.")
    await asyncio.wait_for(wire.has_lost.wait(), 10)
    await wire.cut()
    await relay.kill()
    await relay.start()
    await wire.mend()
    await until_result(table, "1–0 Black's flag fell.")
    assert await log_of(relay, "anew_3") == (MOVES, "black loses on time")
    await close(table, wire)


async def try_empty_successor(browser):
    """A board that is opened under the next name of one with a result takes its place once it has as many moves, and not before: on the
    spectator's page, on a round's page, in its list and in their files."""
    relay = await Relay(watch=True).start()
    client = await boards_of(relay, ("b1", 518, MOVES))
    await client.end("b1")
    seer = await watch(browser, relay, "b1")
    some = await browser.open(url("round.html", server=relay.address, boards="b1"))
    every = await browser.open(url("round.html", watch=relay.watch_address))
    await client.open("b1_2")
    for move in MOVES[:2]:
        await asyncio.sleep(11)
        await until_result(seer, "½–½")
        for page in (some, every):
            await page.front()
            await until_tiles(page, lambda them: [(it["name"], it["stand"]) for it in them] == [("b1", "½–½")])
        await client.submit("b1_2", move)
    await client.submit("b1_2", MOVES[2])
    await until_said(seer, "b1 goes on as b1_2, which is shown now.")
    await until_state(seer, "live")
    await until_moves(seer, 3)
    for page in (some, every):
        await page.front()
        await until_tiles(page, lambda them: [(it["name"], it["stand"]) for it in them] == [("b1_2", "")])
        await catch_files(page)
        await page.click("#save-round")
        await page.until("window.saved")
        assert (await page.run("saved"))[1] == pgn("b1_2", 518, f"{SAN} *", await today(page)), await page.run("saved")
    for page in (seer, some, every):
        assert not page.faults, page.faults
        await page.close()
    await client.close()


async def try_shorter_successor(browser):
    """A successor that has a result takes the place of a game with more moves: on a page that watches it, at either port, and in the
    list."""
    relay = await Relay(watch=True).start()
    client = await boards_of(relay, ("b1", 518, MOVES))
    await client.end("b1")
    seers = [await watch(browser, relay, "b1", address=it) for it in (relay.address, relay.watch_address)]
    every = await browser.open(url("round.html", watch=relay.watch_address))
    for page in seers:
        await until_result(page, "½–½ Draw by agreement.")
    await boards_of(relay, ("b1_2", 518, MOVES[:1]))
    await client.open("b1_3")
    await client.submit("b1_3", MOVES[0])
    assert (await client.ask(cmd="end", board="b1_3", how="time", side="black"))["reply"] == "ended"
    for page in seers:
        await until_said(page, "b1 goes on as b1_3, which is shown now.")
        await until_result(page, "1–0 Black's flag fell.")
        await until_moves(page, 1)
    await every.front()
    await until_tiles(every, lambda them: [(it["name"], it["stand"], it["move"]) for it in them] == [("b1_3", "1–0", "1. e4")])
    for page in (*seers, every):
        assert not page.faults, page.faults
        await page.close()
    await client.close()


# Counts the connections that a page makes from now on.
COUNTED = """window.made = 0; const Plain = WebSocket; window.WebSocket = class extends Plain {
    constructor(...given) { super(...given); window.made += 1; } };"""


async def try_successor_looked_at(browser):
    """A spectator's page asks for a successor on its one connection. It makes another only where a shorter one might have a result that
    replaces the game's, and seldom. Of an abandoned game the successor needs one move, so nothing more is to be seen of it."""
    relay = await Relay().start()
    client = await boards_of(relay, ("b1", 518, MOVES), ("b1_2", 518, []), ("c1", 518, MOVES), ("c1_2", 518, MOVES[:2]))
    for board, how, made, missing in (("b1", "abandoned", 1, MOVES[:1]), ("c1", "agreed", 2, MOVES[2:])):
        seer = await watch(browser, relay, board)
        await until_moves(seer, 3)
        await seer.run(COUNTED)
        await client.end(board, how)
        await until_state(seer, "over")
        await asyncio.sleep(9)
        assert await seer.run("window.made") == made, (board, await seer.run("window.made"))
        assert await state(seer) == "over", f"{board} has given its place"
        await client.submit(f"{board}_2", *missing)
        await until_said(seer, f"{board} goes on as {board}_2, which is shown now.")
        await until_moves(seer, len((await log_of(relay, f"{board}_2"))[0]))
        assert not seer.faults, seer.faults
        await seer.close()
    await client.close()


# Makes the pauses of a page that asks for a board a thousandth as long, and keeps how long each was to be, in seconds.
PAUSES = """window.pauses = []; const plain = setTimeout; window.setTimeout = (act, pause, ...more) => {
    const isAsked = new Error().stack.includes("refusedAll");
    if (isAsked) { window.pauses.push(pause / 1000); }
    return plain(act, isAsked ? pause / 1000 : pause, ...more); };"""


async def try_successor_asked_rarely(browser):
    """After a result a spectator's page asks for a successor every ten seconds, and every minute once the result has stood for ten minutes.
    It goes to one that comes as late as that."""
    relay = await Relay(watch=True).start()
    client = await boards_of(relay, ("b1", 518, MOVES))
    seer = await watch(browser, relay, "b1", address=relay.watch_address)
    await until_moves(seer, 3)
    await seer.run(PAUSES)
    await client.end("b1")
    await seer.until("window.pauses.length > 65", 60)
    pauses = await seer.run("window.pauses")
    assert pauses == [10] * 60 + [60] * (len(pauses) - 60), pauses
    assert await state(seer) == "over"
    await client.open("b1_2")
    await client.submit("b1_2", *MOVES)
    await until_said(seer, "b1 goes on as b1_2, which is shown now.")
    assert not seer.faults, seer.faults
    await seer.close()
    await client.close()


async def try_tabs_corrected(browser):
    """In a tab, a result is corrected without scrolling; the round's file has the successor alone, and another game of the board beside
    it."""
    relay = await Relay(grace=GRACE).start()
    with site() as address:
        page = await browser.open(f"{address}/tables.html?server={relay.address}", (1280, 720))
        await page.fill("#lines", "c1 518 Adams – Baker\nc2")
        await page.click("#source .main")
        await until_stand(page, *2 * ["White to move"])
        await play(page, 0, "e4")
        await until_stand(page, "Black to move", "White to move")
        for press in ("#ending [data-how=agreed]", "#sure-yes"):
            await page.run(frame(0, f'document_.querySelector("{press}").click()'))
        await until_stand(page, "½–½: Draw by agreement.", "White to move")
        outside = await page.run(f'({OUTSIDE})(document.querySelector("iframe").contentDocument, '
                                 'innerHeight - document.querySelector("iframe").getBoundingClientRect().top, ["#correct-result"])')
        assert outside == [], outside
        for press in ("#correct-result", "#results input", "#other-yes"):
            await page.run(frame(0, f'document_.querySelector("{press}").click()'))
        await until_stand(page, "0–1: White resigned. Black wins.", "White to move")
        await catch_files(page)
        await page.click("#save-round")
        day = await today(page)
        first = pgn("c1_2", 518, "1. e4 {White resigns.} 0-1", day, ("Adams", "Baker"), "normal")
        other = pgn("c2", 518, "*", day)
        assert (await page.run("saved"))[1] == f"{first}\n{other}", await page.run("saved")
        await page.run(frame(0, 'document_.querySelector("#opening").requestSubmit()'))
        await until_stand(page, "White to move", "White to move")
        await page.click("#save-round")
        file = "\n".join([first, pgn("c1_g2", 518, "*", day), other])
        assert (await page.run("saved"))[1] == file, await page.run("saved")
        await page.go(await page.run("location.href"))
        await until_stand(page, *2 * ["No board open"])
        assert await page.run(frame(0, 'return document_.querySelector("#go-on").textContent')) == "Continue c1_g2"
        assert not page.faults, page.faults
        await page.close()


async def try_unknown_end(browser):
    """An outcome that a page does not know is shown as its text, and its result is open, also in a file."""
    async with Told() as relay:
        seer = await browser.open(url("watch.html", server=relay.address, board="b1"))
        await relay.hears(cmd="follow", board="b1", spectator=0, **{"from": 0})
        await relay.says(fen="rnbqkbnr/pppppppp/8/8/8/8/PPPPPPPP/RNBQKBNR w HAha - 0 1", joined=0, reply="following")
        await relay.says(move="e2e4", place=0, reply="move")
        await relay.says(outcome="white wins by lot", reply="over")
        await until_state(seer, "over")
        await seer.until('document.querySelector("#outcome span").textContent === "white wins by lot"')
        assert await text(seer, "#outcome b") == "" and await seer.run("document.title") == "white wins by lot, b1 – Watch a board"
        await catch_files(seer)
        await seer.click("#save-pgn")
        assert (await seer.run("saved"))[1] == pgn("b1", 518, "1. e4 {white wins by lot} *", await today(seer))
        assert not seer.faults, seer.faults
        await seer.close()
