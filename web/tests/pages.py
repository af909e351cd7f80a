"""The tests of the pages; test.sh starts them. Each is an async function whose name begins with try_."""
import asyncio
import json
import pathlib
import random
import sys
import tempfile
import time

import websockets

import back
import beside
import broadcast
import console
import contrast
import desk
import ends
import gone
import lists
import notation
import rounds
import senses
import tabs
import windows
from relay_client.browser import Browser
from relay_client.client import Client
from relay_client.firefox import Firefox
from relay_client.program import Player, fens, start_fen
from relay_client.relay import Relay
from relay_client.tests.test_log import Reader
from relay_client.tests.test_watching_loops import SLOW, long_game
from relay_client.webkit import WebKit
from relay_client.wire import Wire
from steps import (WEB, enter, listed, open_table, placement, said, say_end, shows, state, text, to_square, unfold, until_moves,
                   until_state, url, watch)
from told import KNOCK, Told

RECORDER = WEB.parent / "apps" / "recorder" / "record.py"
SEED = 960
GAMES = 6
PLIES = 60


def weigh(moves, fen, chance):
    """A move by chance, with a liking for pawn moves, and more for castling, promotions and captures en passant, which are rare."""
    squares = board_of(fen)
    target = fen.split(" ")[3]
    rare = [it for it in moves if len(it) == 5 or squares.get(it[2:4], "").lower() == "r" and squares[it[:2]] in "kK"
            and squares[it[2:4]].isupper() == squares[it[:2]].isupper() or it[2:4] == target and squares[it[:2]] in "pP"]
    pawns = [it for it in moves if squares[it[:2]] in "pP"]
    if rare and chance.random() < 0.8:
        return chance.choice(rare)
    return chance.choice(pawns if pawns and chance.random() < 0.4 else moves)


def board_of(fen):
    squares = {}
    for rank, line in zip("87654321", fen.split(" ")[0].split("/")):
        file = 0
        for letter in line:
            if letter.isdigit():
                file += int(letter)
            else:
                squares["abcdefgh"[file] + rank] = letter
                file += 1
    return squares


class Count:
    plies = castlings = passing = promotions = 0


async def one_game(browser, relay, number, chance):
    """A game of a start by chance, played on a table's page and watched on another; both are compared after each move."""
    start, board = chance.randrange(960), f"chance-{number}"
    table = await open_table(browser, relay, board, start)
    seer = await watch(browser, relay, board)
    player = Player(start)
    await until_state(seer, "live")
    assert await placement(seer) == player.fen.split(" ")[0]
    if number % 2:
        await seer.click("#flip")
    for ply in range(1, PLIES + 1):
        moves = player.legal()
        if not moves:
            break
        move = weigh(moves, player.fen, chance)
        before = board_of(player.fen)
        target = player.fen.split(" ")[3]
        Count.castlings += before[move[:2]] in "kK" and before.get(move[2:4], "") == ("R" if before[move[:2]] == "K" else "r")
        Count.passing += before[move[:2]] in "pP" and move[2:4] == target and move[0] != move[2]
        Count.promotions += len(move) == 5
        way = chance.choice(["click", "drag", "type", "keys"])
        await enter(table, move, way)
        fen = player.play(move)
        try:
            await shows(table, ply, fen, "table")
        except AssertionError as fault:
            raise AssertionError(f"{board} {start} ply {ply} {move} by {way}: {await text(table, '#said')}; {fault}") from fault
        await shows(seer, ply, fen, "watch")
        Count.plies += 1
    if player.legal():
        await say_end(table, "#ending [data-how=agreed]")
        await until_state(table, "over")
    await until_state(seer, "over")
    assert [place for place, _ in await listed(seer)] == list(range(len(await listed(seer))))
    assert await listed(seer) == await listed(table)
    assert not table.faults and not seer.faults, (table.faults, seer.faults)
    player.close()
    await table.close()
    await seer.close()


async def try_games(browser):
    """Games of starts by chance, watched from their first move."""
    relay = await Relay().start()
    chance = random.Random(SEED)
    for number in range(GAMES):
        await one_game(browser, relay, number, chance)
    print(f"    {Count.plies} plies, {Count.castlings} castlings, {Count.passing} en passant, {Count.promotions} promotions")
    assert min(Count.castlings, Count.passing, Count.promotions) > 0


CASTLINGS = [
    (7, ["f1g1"], ["f1", "g1"], "O-O", "castles, king f1 to g1, rook g1 to f1"),
    (243, ["d1c1"], ["c1", "d1"], "O-O-O", "castles, king d1 to c1, rook c1 to d1"),
    (865, ["g1h3", "e7e6", "e1f1"], ["e1", "f1", "g1"], "O-O", "castles, king e1 to g1, the rook stays on f1"),
    (291, ["c1b3", "h7h6", "e1d1"], ["c1", "d1", "e1"], "O-O-O", "castles, king e1 to c1, the rook stays on d1"),
    (100, ["f1e3", "a7a5", "g1h1"], ["f1", "g1", "h1"], "O-O", "castles, the king stays on g1, rook h1 to f1"),
    (287, ["d1e3", "f7f5", "c1b1"], ["b1", "c1", "d1"], "O-O-O", "castles, the king stays on c1, rook b1 to d1"),
]


async def try_castling(browser):
    """Castling where king and rook swap, where the rook stays, and where the king stays: all their squares are marked."""
    relay = await Relay().start()
    for index, (start, moves, marks, sheet, spoken) in enumerate(CASTLINGS):
        table = await open_table(browser, relay, f"castling-{index}", start)
        seer = await watch(browser, relay, f"castling-{index}")
        await until_state(seer, "live")
        for ply, (move, fen) in enumerate(zip(moves, fens(start, moves)), 1):
            await enter(table, move, "drag" if index % 2 else "click")
            await shows(table, ply, fen, "castling")
            await shows(seer, ply, fen, "castling")
        for page in (table, seer):
            marked = await page.run('[...document.querySelectorAll(".square.last")].map((it) => it.dataset.square).sort()')
            assert marked == marks, (marked, marks)
            assert (await text(page, ".move.current span")) == sheet
            assert spoken in await text(page, "#spoken"), await text(page, "#spoken")
        await table.close()
        await seer.close()


async def try_mate(browser):
    """A mate ends the game on both pages, check is marked, and the words are read aloud."""
    relay = await Relay().start()
    table = await open_table(browser, relay, "mate", 518)
    seer = await watch(browser, relay, "mate")
    await until_state(seer, "live")
    for ply, move in enumerate(["f2f3", "e7e5", "g2g4", "d8h4"], 1):
        await enter(table, move, "click")
        await until_moves(table, ply)
    for page in (table, seer):
        await until_state(page, "over")
        assert "Black wins by checkmate." in await text(page, "#outcome")
        assert "0–1" in await text(page, "#outcome")
        for written in ("Qh4#", "Qd8-h4#"):
            assert written in await text(page, "#moves"), await text(page, "#moves")
            await page.click("#long")
        assert await page.run('document.querySelector(".square.check").dataset.square') == "e1"
    await seer.until('document.querySelector("#spoken").textContent.includes("Black wins by checkmate.")')
    assert await seer.run('document.querySelector("#spoken").getAttribute("aria-live")') == "polite"
    await seer.press("Home")
    assert await placement(seer) == "rnbqkbnr/pppppppp/8/8/8/8/PPPPPPPP/RNBQKBNR"
    assert await text(seer, "#spoken") == "The start position."
    await seer.press("ArrowRight")
    assert await text(seer, "#spoken") == "Move 1, White: pawn f2 to f3."
    for page in (seer, table):
        await page.press("f")
        assert await page.run('document.querySelector(".square").dataset.square') == "a8", "a letter turned the board"
    await seer.click("#flip")
    assert await seer.run('document.querySelector(".square").dataset.square') == "h1"
    assert await placement(seer) == "rnbqkbnr/pppppppp/8/8/8/5P2/PPPPP1PP/RNBQKBNR"
    for page in (table, seer):
        await page.close()


async def try_names(browser):
    """The names of games that are opened anew: none is the name of another table, and none is too long."""
    page = await browser.open(url("watch.html"))
    chain = ["r1-1"]
    while len(chain) < 120:
        chain.append(await page.run(f"Names.next({json.dumps(chain[-1])})"))
    assert chain == ["r1-1"] + [f"r1-1_{count}" for count in range(2, 121)], chain
    for name, following in [("b", "b_2"), ("b-9", "b-9_2"), ("b_9", "b_10"), ("b_x", "b_x_2"), ("_2", "_2_2"), ("b_", "b__2"),
                            ("b_999", "b_1000"), (28 * "n", 28 * "n" + "_2"), (32 * "n", 30 * "n" + "_2"),
                            (30 * "n" + "_2", 30 * "n" + "_3"), (30 * "n" + "_9", 29 * "n" + "_10")]:
        had = await page.run(f"Names.next({json.dumps(name)})")
        assert had == following, (name, had)
    assert not page.faults, page.faults
    await page.close()


async def try_access(browser):
    """Narrow or wide, nothing stands beside the window, and each control of both pages has a name for a screen reader."""
    relay = await Relay().start()
    table = await open_table(browser, relay, "b1", 518)
    await enter(table, "e2e4", "type")
    await until_moves(table, 1)
    seer = await watch(browser, relay, "b1")
    await until_moves(seer, 1)
    fresh = await browser.open(url("table.html", server=relay.address))
    for page in (table, seer, fresh):
        for width in (320, 600, 1280):
            await page.resize(width, 800)
            over = await page.run('document.documentElement.scrollWidth - innerWidth')
            assert over <= 0, (await text(page, "h1"), width, over)
        await page.run('document.querySelector("details").open = true')
        named = await contrast.names(page)
        assert len(named) > 70 and all(name for _, name in named), named
        assert not page.faults, page.faults
        await page.close()


async def try_seen_whole(browser):
    """The whole board is in sight on screens of several sizes, also beside a message, in the dark, and with less motion; a list of moves is
    one stop for the Tab key; a title has the result."""
    relay = await Relay().start()
    table = await open_table(browser, relay, "b1", 518)
    seer = await watch(browser, relay, "b1")
    for ply, move in enumerate(["f2f3", "e7e5", "g2g4"], 1):
        await enter(table, move, "type")
        await until_moves(table, ply)
    await until_moves(seer, 3)
    await enter(table, "e2e5", "type")
    await table.until('!document.querySelector("#said").hidden')
    for page in (table, seer):
        for media in ({}, {"prefers_color_scheme": "dark", "prefers_reduced_motion": "reduce"}):
            await page.media(**media)
            for width, height in ((844, 390), (390, 800), (1366, 768), (1280, 900)):
                await page.resize(width, height)
                await page.run("scrollTo(0, 0)")
                low, wide = await page.run('[document.querySelector(".board").getBoundingClientRect().bottom - innerHeight, '
                                           'document.documentElement.scrollWidth - innerWidth]')
                assert low <= 0 and wide <= 0, (await text(page, "h1"), width, height, low, wide)
        stops = await page.run('[...document.querySelectorAll("#moves, #moves *")].filter((it) => it.tabIndex >= 0).map((it) => it.id)')
        assert stops == ["moves"]
    await enter(table, "d8h4", "type")
    for page, words in ((table, "0–1, b1 – Operate a board"), (seer, "0–1, b1 – Watch a board")):
        await until_state(page, "over")
        await page.until(f"document.title === {json.dumps(words)}")
        assert not page.faults, page.faults
    await table.close()
    await seer.close()


async def try_refusals(browser):
    """Each refusal that a table can meet is shown in words, and play goes on."""
    relay = await Relay(boards=1, plies=9).start()
    other = await Client.to(relay.address)
    table = await open_table(browser, relay, "b1", 518)
    await enter(table, "e2e5", "click")
    await table.until('document.querySelector("#said").textContent.includes("not legal")')
    await enter(table, "e2x", "type")
    await table.until('document.querySelector("#said").textContent.includes("is not a move")')
    await say_end(table, "#ending [data-how=threefold]")
    await table.until('document.querySelector("#said").textContent.includes("Claim refused")')
    moves = ["g1f3", "g8f6", "f3g1", "f6g8", "g1f3", "g8f6", "f3g1", "f6g8", "e2e4"]
    for ply, move in enumerate(moves, 1):
        await enter(table, move, "type")
        await until_moves(table, ply)
    assert await table.run('document.querySelector("#said").hidden')
    await enter(table, "e7e5", "type")
    await table.until('document.querySelector("#said").textContent.includes("reached the relay\'s limit")')
    assert "(7 LogFull)" in await text(table, "#notices") and "LogFull" not in await said(table)
    await say_end(table, '#ending [data-side=black]')
    await until_state(table, "over")
    assert "Black resigned. White wins." in await text(table, "#outcome")
    for board, word in (("b1", "That name is taken"), ("b2", "no room for another board")):
        await table.fill("#name", board)
        await table.click("#opening .main")
        await table.until(f'document.querySelector("#said").textContent.includes("{word}")')
        await until_state(table, "refused")
    assert not table.faults, table.faults
    await other.close()
    await table.close()


ENABLED = '[...document.querySelectorAll("#ending button")].map((it) => it.getAttribute("aria-disabled"))'


async def try_refused_claim(browser):
    """Behind a refused claim the game goes on as before it: a move is played, and a resignation ends the game."""
    relay = await Relay().start()
    table = await open_table(browser, relay, "b1", 518)
    seer = await watch(browser, relay, "b1")
    await until_state(seer, "live")
    for count, (how, move) in enumerate((("threefold", "e2e4"), ("fifty", "e7e5")), 1):
        await say_end(table, f"#ending [data-how={how}]")
        await table.until('document.querySelector("#said").textContent.startsWith("Claim refused")')
        assert await state(table) == "live" and await text(table, "#state") == "Board b1 is open"
        assert await table.run(ENABLED) == ["false"] * 11 and not await table.run('document.querySelector("#typed").hidden')
        await enter(table, move, "type")
        for page in (table, seer):
            await until_moves(page, count)
        assert await said(table) == ""
    await say_end(table, "#ending [data-how=threefold]")
    await table.until('document.querySelector("#said").textContent.startsWith("Claim refused")')
    assert await state(seer) == "live" and await seer.run('document.querySelector("#outcome").hidden')
    await say_end(table, "#ending [data-how=resign][data-side=black]")
    for page in (table, seer):
        await until_state(page, "over")
        await page.until('!document.querySelector("#outcome").hidden')
        assert "1–0 Black resigned. White wins." in await text(page, "#outcome"), await text(page, "#outcome")
    assert await said(table) == "" and await table.run('document.querySelector("#ending").hidden')
    for page in (table, seer):
        assert not page.faults, page.faults
        await page.close()


async def try_next_name(browser):
    """Behind an end the page proposes a name for another game of the board, and one press opens it; where it is taken, the one behind it. A
    name that was typed is opened or refused."""
    relay = await Relay().start()
    other = await Client.to(relay.address)
    table = await browser.open(url("table.html", server=relay.address, board="b1", start=518, players="Adams–Baker"))
    fields = '["name", "white", "black"].map((it) => document.querySelector(`#${it}`).value)'
    for name, following in (("b1", "b1_g2"), ("b1_g2", "b1_g3"), ("b1_g4", "b1_g5")):
        await table.click("#opening .main")
        await table.until(f'document.querySelector("#state").textContent === "Board {name} is open"')
        if name == "b1":
            await other.open("b1_g3")
        await say_end(table, "#ending [data-how=agreed]")
        await until_state(table, "over")
        assert await table.run(fields) == [following, "", ""], await table.run(fields)
    await table.fill("#name", "b1_g3")
    await table.click("#opening .main")
    await until_state(table, "refused")
    assert await said(table) == "That name is taken. Choose another."
    await table.fill("#name", "b2")
    await table.click("#opening .main")
    await table.until('document.querySelector("#state").textContent === "Board b2 is open"')
    assert not table.faults, table.faults
    await table.close()
    await other.close()


async def try_threefold(browser):
    """A claim of the third time is granted to the side that has the move, and both pages say so."""
    relay = await Relay().start()
    table = await open_table(browser, relay, "claim", 518)
    seer = await watch(browser, relay, "claim")
    await until_state(seer, "live")
    for ply, move in enumerate(["g1f3", "g8f6", "f3g1", "f6g8"] * 2, 1):
        await enter(table, move, "type")
        await until_moves(table, ply)
    await say_end(table, "#ending [data-how=threefold]")
    await until_claimed(table, seer, "threefold repetition")


async def try_fifty(browser):
    """A claim of fifty moves is refused after 99 plies without a capture or a pawn move, and granted after 100; both pages say so."""
    relay = await Relay().start()
    moves = quiet_game(518, 100, random.Random(SEED + 3))
    table = await open_table(browser, relay, "claim", 518)
    seer = await watch(browser, relay, "claim")
    await until_state(seer, "live")
    for ply, move in enumerate(moves[:99], 1):
        await enter(table, move, "type")
        await until_moves(table, ply)
    await say_end(table, "#ending [data-how=fifty]")
    await table.until('document.querySelector("#said").textContent.includes("Claim refused")')
    assert await state(table) == "live"
    await enter(table, moves[99], "type")
    await until_moves(table, 100)
    assert await table.run('document.querySelector("#said").hidden')
    await say_end(table, "#ending [data-how=fifty]")
    await until_claimed(table, seer, "the fifty-move rule")


async def until_claimed(table, seer, words):
    """Waits until both pages say that the game is drawn by a claim, in these words, and closes them."""
    for page in (table, seer):
        await until_state(page, "over")
        await page.until('!document.querySelector("#outcome").hidden')
        said = await text(page, "#outcome")
        assert words in said and "claimed" in said and "½–½" in said, said
        assert not page.faults, page.faults
        await page.close()


def quiet_game(start, plies, chance):
    """A game by chance of knights and rooks that stay behind or just before their own pawns, so that nothing is taken or in check."""
    player, moves = Player(start), []
    try:
        while len(moves) < plies:
            squares = board_of(player.fen)
            near = "123" if len(moves) % 2 == 0 else "678"
            moves.append(chance.choice([it for it in player.legal() if squares[it[:2]] in "nNrR" and it[2:4] not in squares
                                        and it[3] in near]))
            player.play(moves[-1])
        return moves
    finally:
        player.close()


async def try_order(browser):
    """One thing is asked at a time, and an answer is that to what was asked: a claim, a move, and moves that are sent again."""
    async with Told() as relay:
        table = await browser.open(url("table.html", server=relay.address, board="b1", start=518))
        await table.click("#opening .main")
        await relay.hears(cmd="open", board="b1", start=518)
        await relay.says(reply="opened")
        await until_state(table, "live")
        await say_end(table, "#ending [data-how=threefold]")
        await relay.hears(cmd="end", board="b1", how="threefold", side="white")
        await enter(table, "e2e4", "type")
        await enter(table, "d2d4", "drag")
        await table.click("#ending [data-how=agreed]")
        assert await said(table) == "No move can be played now." and not await table.run('document.querySelector("#sure").open')
        await relay.refuses(8, "ClaimRefused")
        await table.until('document.querySelector("#said").textContent.startsWith("Claim refused")')
        await enter(table, "e2e4", "type")
        await relay.hears(cmd="submit", board="b1", move="e2e4")
        await table.click("#ending [data-how=threefold]")
        assert not await table.run('document.querySelector("#sure").open')
        await relay.plays(0)
        await shows(table, 1, fens(518, ["e2e4"])[-1], "a move behind a refused claim")
        await say_end(table, "#ending [data-how=abandoned]")
        await relay.hears(cmd="end", board="b1", how="abandoned")
        await relay.says(outcome="abandoned", reply="ended")
        await until_state(table, "over")
        await table.choose("#kept", await table.run('document.querySelector("#kept").options[1].value'))
        await table.click("#anew button[type=submit]")
        await relay.hears(cmd="open", board="b1_2", start=518)
        await relay.says(reply="opened")
        await relay.hears(cmd="submit", board="b1_2", move="e2e4")
        assert await table.run('[...document.querySelectorAll("#ending button")]'
                               '.every((it) => it.getAttribute("aria-disabled") === "true")')
        for how in ("threefold", "agreed"):
            await table.click(f"#ending [data-how={how}]")
            assert not await table.run('document.querySelector("#sure").open')
        await relay.plays(0)
        await until_moves(table, 1)
        await until_state(table, "live")
        assert await table.run('[...document.querySelectorAll("#ending button")]'
                               '.every((it) => it.getAttribute("aria-disabled") === "false")')
        assert relay.asked.empty() and not table.faults, table.faults
        await table.close()


async def try_meanwhile(browser):
    """A connection that is lost while a question stands open: the answer to the question ends no game, and all moves can be saved."""
    async with Told() as relay:
        table = await browser.open(url("table.html", server=relay.address, board="b1", start=518))
        await table.click("#opening .main")
        await relay.hears(cmd="open", board="b1", start=518)
        await relay.says(reply="opened")
        await until_state(table, "live")
        await enter(table, "e2e4", "type")
        await relay.hears(cmd="submit", board="b1", move="e2e4")
        await relay.plays(0)
        await until_moves(table, 1)
        await table.click("#ending [data-how=fifty]")
        await table.until('document.querySelector("#sure").open')
        await relay.forgets("b1")
        await relay.hears(cmd="open", board="b1_2", start=518)
        await table.run('HTMLAnchorElement.prototype.click = () => {}; window.write = RecordFile.write; '
                        'RecordFile.write = (game) => { window.game = game; return write(game); }')
        await table.run('document.querySelector("#save").click()')
        assert await table.run("game.moves") == ["e2e4"]
        await relay.says(reply="opened")
        await relay.hears(cmd="submit", board="b1_2", move="e2e4")
        await relay.plays(0)
        await until_moves(table, 1)
        await table.click("#sure .main")
        await table.until('document.querySelector("#said").textContent.includes("Nothing was entered")')
        assert relay.asked.empty() and await state(table) == "live"
        await enter(table, "e7e5", "type")
        await relay.hears(cmd="submit", board="b1_2", move="e7e5")
        await relay.refuses(7, "LogFull")
        await table.until('document.querySelector("#said").textContent.startsWith("e7e5: ")')
        assert not table.faults, table.faults
        await table.close()


async def try_without_memory(browser):
    """A relay without memory to say how a board stands has not lost it: the page that comes back asks again, and goes on with the game."""
    async with Told() as relay:
        table = await browser.open(url("table.html", server=relay.address, board="b1", start=518))
        await table.click("#opening .main")
        await relay.hears(cmd="open", board="b1", start=518)
        await relay.says(reply="opened")
        await until_state(table, "live")
        await relay.socket.close()
        for _ in range(2):
            await relay.hears(cmd="submit", board="b1", move=KNOCK)
            await relay.refuses(12, "OutOfMemory")
            await until_state(table, "lost")
        await relay.hears(cmd="submit", board="b1", move=KNOCK)
        await relay.refuses(6, "Illegal")
        await relay.hears(cmd="follow", board="b1", spectator=0)
        await relay.says(fen="rnbqkbnr/pppppppp/8/8/8/8/PPPPPPPP/RNBQKBNR w HAha - 0 1", joined=0, reply="following")
        await gone.until_said(table, "Board b1 goes on.")
        await until_state(table, "live")
        assert relay.asked.empty() and not table.faults, table.faults
        await table.close()


STRANGE = ["hello", "", "null", "[]", "7", "{}", '{"reply":"pong"}', '{"reply":"constructor"}', '{"reply":["move"]}',
           '{"cmd":"follow","board":"b1"}', '{"reply":"refused","code":6}', '{"reply":"following","joined":0}',
           '{"fen":"rnbqkbnr/pppppppp/8/8/8/8/PPPPPPPP/RNBQKBNRR w HAha - 0 1","joined":0,"reply":"following"}',
           '{"fen":"<b>x</b>","joined":0,"reply":"following"}', '{"move":"e2e9","place":0,"reply":"move"}',
           '{"move":"e2e4","place":"0","reply":"move"}', '{"reply":"over"}', '{"outcome":null,"reply":"ended"}']


async def try_strangers(browser):
    """A server that is no relay: each page says so at its first such text, closes the connection, and can be sent elsewhere."""
    others = [b"bytes", '{"outcome":null,"place":0,"reply":"played"}', '{"outcome":"agreed","reply":"ended"}']
    async with Told() as relay:
        table = await browser.open(url("table.html", server=relay.address, board="b1", start=518))
        seer = await browser.open(url("watch.html", server=relay.address))
        await seer.fill("#name", "b1")
        for page, press, question, more in (
                (table, "#opening .main", {"cmd": "open", "board": "b1", "start": 518}, [*others, json.dumps({"reply": "cut"})]),
                (seer, "#source .main", {"cmd": "follow", "board": "b1", "spectator": 0, "from": 0},
                 [*others, json.dumps({"reply": "opened"})])):
            for strange in [*STRANGE, *more]:
                await page.click(press)
                await relay.hears(**question)
                assert await state(page) == "connecting"
                await relay.says_so(strange)
                await until_state(page, "refused")
                assert "This is not a relay" in await text(page, "#state"), await text(page, "#state")
                await asyncio.wait_for(relay.socket.wait_closed(), 10)
        await table.click("#opening .main")
        await relay.hears(cmd="open", board="b1", start=518)
        await relay.says(reply="opened")
        await until_state(table, "live")
        await enter(table, "e2e4", "type")
        await relay.hears(cmd="submit", board="b1", move="e2e4")
        await relay.plays(5)
        await until_state(table, "refused")
        await seer.click("#source .main")
        await relay.hears(cmd="follow", board="b1", spectator=0, **{"from": 0})
        await relay.says(fen="rnbqkbnr/pppppppp/8/8/8/8/PPPPPPPP/RNBQKBNR w HAha - 0 1", joined=0, reply="following")
        await relay.says(move="e4e5", place=0, reply="move")
        await relay.says(move="e2e4", place=0, reply="move")
        await until_moves(seer, 1)
        for page in (table, seer):
            assert not page.faults, page.faults
            await page.close()
        for page, form, press in (("table.html", "#opening", "#opening .main"), ("watch.html", "#source", "#source .main")):
            wrong = await browser.open(url(page, server=relay.address.replace("ws:", "http:")))
            await wrong.fill("#name", "b1")
            await wrong.click(press)
            await until_state(wrong, "refused")
            assert "ws://" in await text(wrong, "#state") and await wrong.run(f'!document.querySelector("{form}").hidden')
            await wrong.close()


LINES = 'document.querySelectorAll("#notices li").length'


async def try_claims(browser):
    """Before a claim is sent, the page says who claims what, and that the relay tests it; nothing is ended by a key that is held."""
    async with Told() as relay:
        table = await browser.open(url("table.html", server=relay.address, board="b1", start=518))
        await table.click("#opening .main")
        await relay.hears(cmd="open", board="b1", start=518)
        await relay.says(reply="opened")
        await until_state(table, "live")
        lines = await table.run(LINES)
        for colour, move in (("White", "g1f3"), ("Black", "g8f6")):
            for how, label, ground in (("threefold", "Claim: threefold repetition", "has occurred at least three times"),
                                       ("fifty", "Claim: fifty moves", "fifty moves by each side")):
                assert await text(table, f"#ending [data-how={how}]") == label
                await table.click(f"#ending [data-how={how}]")
                await table.until('document.querySelector("#sure").open')
                words = await text(table, "#sure-text")
                assert words.startswith(f"{colour}, to move, claims a draw: ") and ground in words, words
                assert "The relay checks the claim." in words and "for the arbiter." in words, words
                assert await text(table, "#sure-head") == "Claim a draw?" and await text(table, "#sure .main") == "Claim"
                await table.press("Enter")
                await table.until('!document.querySelector("#sure").open')
                await say_end(table, f"#ending [data-how={how}]")
                await relay.hears(cmd="end", board="b1", how=how, side=colour.lower())
                await relay.refuses(8, "ClaimRefused")
                lines += 1  # What is said may be said of the claim before.
                await table.until(f'{LINES} === {lines}')
                assert (await said(table)).startswith("Claim refused")
            await enter(table, move, "type")
            await relay.hears(cmd="submit", board="b1", move=move)
            await relay.plays(0 if colour == "White" else 1)
            await until_moves(table, 1 if colour == "White" else 2)
        await table.click("#ending [data-side=black]")
        await table.until('document.querySelector("#sure").open')
        assert await text(table, "#sure-head") == "End the game?" and await text(table, "#sure-text") == "Black resigns."
        assert await text(table, "#sure .main") == "End the game"
        await table.click("#sure .main")
        await relay.hears(cmd="end", board="b1", how="resign", side="black")
        await relay.says(outcome="black resigns", reply="ended")
        await until_state(table, "over")
        assert not table.faults, table.faults
        await table.close()


async def try_questions(browser):
    """An answer is that to the question that stands there, however fast one follows another: what was cancelled is never sent."""
    async with Told() as relay:
        table = await browser.open(url("table.html", server=relay.address, board="b1", start=518))
        await table.click("#opening .main")
        await relay.hears(cmd="open", board="b1", start=518)
        await relay.says(reply="opened")
        await until_state(table, "live")
        presses = ["#ending [data-side=white]", "#sure-no", "#ending [data-how=agreed]", "#sure-yes"]
        await table.run(f"{json.dumps(presses)}.forEach((it) => document.querySelector(it).click())")
        await relay.hears(cmd="end", board="b1", how="agreed")
        await relay.refuses(20, "BadField")
        await table.until('!document.querySelector("#said").hidden')
        for how in ("threefold", "fifty"):
            await table.click(f"#ending [data-how={how}]")
            await table.until('document.querySelector("#sure").open')
            await table.press("Escape")
            await table.until('!document.querySelector("#sure").open')
        await say_end(table, "#ending [data-side=black]")
        await relay.hears(cmd="end", board="b1", how="resign", side="black")
        assert relay.asked.empty() and not table.faults, table.faults
        await table.close()


async def try_fingers(browser):
    """A finger scrolls on a board where nothing can be dragged; two fingers never make a move, one makes it."""
    async with Told() as relay:
        seer = await browser.open(url("watch.html"))
        table = await browser.open(url("table.html", server=relay.address, board="b1", start=518))
        for page in (seer, table):
            assert await page.style(".board", "touch-action") == "auto"
        await table.click("#opening .main")
        await relay.hears(cmd="open", board="b1", start=518)
        await relay.says(reply="opened")
        await until_state(table, "live")
        await table.until('document.querySelector(".board").classList.contains("usable")')
        assert await table.style(".board", "touch-action") == "pinch-zoom"
        first, second = (0, "[data-square=e2]"), (1, "[data-square=e4]")
        await table.touch("touchStart", first)
        await table.touch("touchStart", first, second)
        await table.touch("touchEnd", first)
        await table.touch("touchEnd")
        await asyncio.sleep(0.2)
        assert relay.asked.empty(), await relay.asked.get()
        await table.run('document.querySelector("#name").focus()')
        await table.press("Escape")
        await table.touch("touchStart", (0, "[data-square=d2]"))
        await table.touch("touchMove", (0, "[data-square=d3]"))
        await table.touch("touchMove", (0, "[data-square=d4]"))
        await table.touch("touchEnd")
        await relay.hears(cmd="submit", board="b1", move="d2d4")
        assert not table.faults, table.faults
        for page in (seer, table):
            await page.close()


async def try_forced(browser):
    """In forced colours the last move, a check, the focus and the man picked up have each a line of its own style."""
    async with Told() as relay:
        table = await browser.open(url("table.html", server=relay.address, board="b1", start=518))
        await table.forced_colors()
        await table.click("#opening .main")
        await relay.hears(cmd="open", board="b1", start=518)
        await relay.says(reply="opened")
        await until_state(table, "live")
        for place, move in enumerate(["e2e4", "f7f6", "d1h5"]):
            await enter(table, move, "type")
            await relay.hears(cmd="submit", board="b1", move=move)
            await relay.plays(place)
            await until_moves(table, place + 1)
        await table.run('document.querySelector(".square[tabindex=\\"0\\"]").focus()')
        await to_square(table, "e7")
        assert await table.run('document.activeElement.matches("[data-square=e7]:focus-visible")')
        focus = [await table.style("[data-square=e7]", "outline-style"), await table.style("[data-square=e7]", "outline-width")]
        assert focus == ["dashed", "5px"], focus
        await to_square(table, "a7")
        await table.press("Enter")
        await table.press("ArrowDown")
        lines = [await table.style("[data-square=a7]", "outline-style"), await table.style("[data-square=a6]", "outline-style"),
                 await table.style("[data-square=e8]", "border-top-style"), await table.style("[data-square=h5]", "border-top-style")]
        assert lines == ["double", "dashed", "dotted", "solid"], lines
        assert await table.style(".move.current", "background-color") != await table.style(".move:not(.current)", "background-color")
        assert not table.faults, table.faults
        await table.close()


async def try_nowhere(browser):
    """A board that does not exist is refused in words; the page asks again, and is live once it is opened."""
    relay = await Relay().start()
    seer = await watch(browser, relay, "later")
    await until_state(seer, "refused")
    assert "no board of this name" in await text(seer, "#state")
    client = await Client.to(relay.address)
    await client.open("later", 100)
    await client.submit("later", "e2e4")
    await until_moves(seer, 1)
    assert await state(seer) == "live"
    nobody = await browser.open(url("watch.html", server="nonsense", board="b"))
    await until_state(nobody, "refused")
    for page in (seer, nobody):
        await page.close()
    await client.close()


async def try_middle(browser):
    """A follow in the middle: from the present, from the first move, and where the first moves are no longer given."""
    moves = ["e2e4", "e7e5", "g1f3", "b8c6", "f1b5", "a7a6", "b5c6"]
    relay = await Relay(capacity=4).start()
    client = await Client.to(relay.address)
    await client.open("b1")
    await client.submit("b1", *moves[:3])
    first = await watch(browser, relay, "b1")
    present = await watch(browser, relay, "b1", **{"from": "present"})
    await until_moves(first, 3)
    await until_state(present, "live")
    assert await placement(present) == fens(518, moves[:3])[-1].split(" ")[0]
    assert "Joined after 3 half-moves." in await text(present, "#notices")
    for move in moves[3:]:
        await client.submit("b1", move)
    late = await watch(browser, relay, "b1")
    await until_state(late, "live")
    assert "no longer has the first moves" in await text(late, "#notices")
    await client.submit("b1", "d7c6")
    final = fens(518, [*moves, "d7c6"])[-1]
    for page, count in ((first, 8), (present, 5), (late, 1)):
        await shows(page, count, final, "middle")
        places = [place for place, _ in await listed(page)]
        assert places == list(range(8 - count, 8)), places
        await page.close()
    await client.close()


async def try_wire(browser):
    """A spectator's lost connection: the page comes back from its next place, misses nothing and shows nothing twice."""
    relay = await Relay().start()
    wire = await Wire(relay.port).mend()
    client = await Client.to(relay.address)
    await client.open("b1", 0)
    player, chance, moves = Player(0), random.Random(SEED + 1), []
    for _ in range(30):
        moves.append(weigh(player.legal(), player.fen, chance))
        player.play(moves[-1])
    seer = await watch(browser, relay, "b1", address=wire.address)
    await client.submit("b1", *moves[:10])
    await until_moves(seer, 10)
    for cut in (10, 20):
        await wire.cut()
        await until_state(seer, "lost")
        await client.submit("b1", *moves[cut:cut + 10])
        await wire.mend()
        await shows(seer, cut + 10, fens(0, moves[:cut + 10])[-1], "wire")
        assert await state(seer) == "live"
    assert await listed(seer) == [[place, move] for place, move in enumerate(moves)]
    assert "missed" not in await text(seer, "#notices")
    player.close()
    await client.close()
    await until_state(seer, "over")
    assert "Ended without a result" in await text(seer, "#outcome")
    assert await text(seer, "#anew") == "Watch b1_2"
    await seer.close()
    await wire.cut()


# How many moves the relay keeps for a page, how many a game has, and how many come at once, so that few come between a cut and its line.
CAPACITY, MOST, BURST = 256, 3875, 10
GAPS = '[...document.querySelectorAll("#moves .gap")].map((it) => it.textContent)'
FELL = 'document.querySelector("#notices").textContent.match(/after (\\d+) half-moves, because this page fell behind \\(4001\\)/)[1]'


async def fall_behind(client, board, wire, log, more):
    """Plays on while a page's wire is held, until the relay has cut the page off, and then so many moves more; the moves."""
    game, count = long_game(MOST), 0
    cut = asyncio.create_task(asyncio.to_thread(log.reads, f"{board} has cut a follower off", 60))
    with wire.held():
        while not cut.done() and count + BURST + more <= MOST:
            await client.burst(board, game[count:count + BURST])
            count += BURST
            await asyncio.wait([cut], timeout=0.05)
        await cut
        await client.burst(board, game[count:count + more])
    return game[:count + more]


async def try_behind(browser):
    """A page that takes nothing falls behind and is closed with 4001. It says so, comes back, and goes on from its place; or, where the
    relay no longer has that, from the current position, and says what it missed."""
    relay = await Relay(log=True, capacity=CAPACITY, plies=MOST + 1).start()
    client, log = await Client.to(relay.address), Reader(relay.server)
    for board, more in ("b1", 1), ("b2", CAPACITY + 1):
        wire = await Wire(relay.port, **SLOW).mend()
        await client.open(board)
        seer = await watch(browser, relay, board, address=wire.address)
        await until_state(seer, "live")
        await seer.run('window.states = []; new MutationObserver(() => states.push(document.querySelector("#state").dataset.state))'
                       '.observe(document.querySelector("#state"), {attributes: true})')
        moves = await fall_behind(client, board, wire, log, more)
        await seer.until('states.includes("behind") && states.at(-1) === "live"')
        closing = int(await seer.run(FELL))
        await client.submit(board, *(last := long_game(len(moves) + 1)[-1:]))
        missed = len(moves) - closing if more > CAPACITY else 0
        await seer.until(f'document.querySelector("#fen").value === {json.dumps(fens(518, moves + last)[-1])}')
        had = [[place, move] for place, move in enumerate(moves + last) if not closing <= place < closing + missed]
        assert await listed(seer) == had, (closing, len(moves), len(await listed(seer)))
        assert await seer.run(GAPS) == ([f"{missed} half-moves were missed."] if missed else []), missed
        assert await placement(seer) == fens(518, moves + last)[-1].split(" ")[0]
        assert not seer.faults, seer.faults
        print(f"    cut off after {closing} of {len(moves)} moves, {missed} of them missed and said to be")
        await seer.close()
        await wire.cut()
    await client.close()


async def try_crash(browser):
    """The relay is killed and started anew: the table opens its game under a new name and play goes on; spectators go with it."""
    relay = await Relay().start()
    start, moves = 387, ["e2e4", "e7e5", "f1g1", "f8g8", "d2d4", "e5d4"]
    table = await open_table(browser, relay, "b1", start)
    seer = await watch(browser, relay, "b1")
    for ply, move in enumerate(moves, 1):
        await enter(table, move, "type")
        await until_moves(table, ply)
    await until_moves(seer, 6)
    await relay.kill()
    await until_state(table, "lost")
    await until_state(seer, "lost")
    began = time.monotonic()
    await relay.start()
    await table.until('document.querySelector("#state").textContent === "Board b1_2 is open"')
    await until_moves(table, 6)
    print(f"    play went on {time.monotonic() - began:.1f} s after the relay was back")
    assert await listed(table) == [[place, move] for place, move in enumerate(moves)]
    await seer.until('document.querySelector("#notices").textContent.includes("b1 goes on as b1_2, which is shown now.")')
    second = await watch(browser, relay, "b1_2")
    for page in (seer, second):
        await until_moves(page, 6)
    await enter(table, "c2c3", "drag")
    final = fens(start, [*moves, "c2c3"])[-1]
    for page in (table, seer, second):
        await shows(page, 7, final, "anew")
        assert await listed(page) == [[place, move] for place, move in enumerate([*moves, "c2c3"])]
        assert not page.faults, page.faults
        await page.close()


async def try_table_wire(browser):
    """A table's lost connection while the relay goes on: its game ends as abandoned, and it opens a new board by itself, to which a
    spectator goes."""
    relay = await Relay().start()
    wire = await Wire(relay.port).mend()
    table = await open_table(browser, relay, "b1", 200, address=wire.address)
    seer = await watch(browser, relay, "b1")
    player, chance, moves = Player(200), random.Random(SEED + 2), []
    for ply in range(1, 13):
        moves.append(weigh(player.legal(), player.fen, chance))
        player.play(moves[-1])
        await enter(table, moves[-1], "type")
        await until_moves(table, ply)
    player.close()
    await wire.cut()
    await until_state(table, "lost")
    await until_state(seer, "over")
    assert "abandoned" in await text(seer, "#outcome")
    await wire.mend()
    await table.until('document.querySelector("#state").textContent === "Board b1_2 is open"')
    await until_moves(table, 12)
    await seer.until('document.querySelector("#name").value === "b1_2"')
    await until_moves(seer, 12)
    assert "b1 goes on as b1_2" in await text(seer, "#notices") and await state(seer) == "live"
    assert await listed(seer) == [[place, move] for place, move in enumerate(moves)]
    await table.close()
    await seer.close()
    await wire.cut()


async def try_channel(browser):
    """A channel: repeated places are dropped, a gap is said, and another game under the same name takes the place of the first."""
    moves = ["e2e4", "e7e5", "g1f3", "b8c6", "f1b5", "a7a6"]
    after = fens(518, moves)
    said = asyncio.Queue()

    async def channel(socket, path):
        assert path == "/sub/b1", path
        while (it := await said.get()) is not None:
            await socket.send(json.dumps(it))

    def following(joined):
        return {"fen": after[joined - 1] if joined else start_fen(518), "joined": joined, "reply": "following"}

    def told(first, last):
        return [{"move": moves[place], "place": place, "reply": "move"} for place in range(first, last)]

    async with websockets.serve(channel, "127.0.0.1", 0, compression=None, ping_interval=None) as server:
        port = server.sockets[0].getsockname()[1]
        seer = await browser.open(url("watch.html", channel=f"ws://127.0.0.1:{port}/sub", board="b1"))
        for it in [following(0), {"reply": "beat", "time": int(time.time())}, *told(0, 2), following(0), *told(0, 3), *told(2, 4)]:
            said.put_nowait(it)
        await shows(seer, 4, after[3], "channel")
        assert await listed(seer) == [[place, move] for place, move in enumerate(moves[:4])]
        for it in [following(5), *told(5, 6), {"outcome": "agreed", "reply": "over"}]:
            said.put_nowait(it)
        await shows(seer, 5, after[5], "channel after a gap")
        assert "1 half-move was missed." in await text(seer, "#moves")
        await until_state(seer, "over")
        said.put_nowait({"fen": start_fen(0), "joined": 0, "reply": "following"})
        await shows(seer, 0, start_fen(0), "another game")
        assert await state(seer) == "live"
        assert not seer.faults, seer.faults
        said.put_nowait(None)
        await seer.close()


async def try_records(browser):
    """A game is opened anew from what the browser kept and from the recorder's file, whole and without its last move."""
    relay = await Relay().start()
    start, moves = 518, ["e2e4", "e7e5", "g1f3", "b8c6", "f1b5"]
    with tempfile.TemporaryDirectory() as folder:
        file = pathlib.Path(folder, "hall.record")
        recorder = await asyncio.create_subprocess_exec("/usr/bin/python3", str(RECORDER), relay.address, "hall", str(file))
        table = await open_table(browser, relay, "hall", start)
        for ply, move in enumerate(moves, 1):
            await enter(table, move, "type")
            await until_moves(table, ply)
        for _ in range(200):
            if file.exists() and len(file.read_text().splitlines()) == 7:
                break
            await asyncio.sleep(0.05)
        lines = [json.loads(it) for it in file.read_text().splitlines()]
        assert lines[0] == {"board": "hall", "record": 1, "start": start}, lines
        assert [it["move"] for it in lines[2:]] == moves, lines
        await relay.kill()
        recorder.terminate()
        await recorder.wait()
        await table.close()
        await relay.start()
        again = await browser.open(url("table.html", server=relay.address))
        kept = await again.run('[...document.querySelector("#kept").options]'
                               '.find((it) => it.textContent.startsWith("hall, start 518, 5 moves")).value')
        await again.choose("#kept", kept)
        await again.click("#anew button[type=submit]")
        await until_moves(again, 5)
        assert await text(again, "#state") == "Board hall_2 is open"
        await say_end(again, "#ending [data-how=abandoned]")
        await until_state(again, "over")
        await again.fill("#count", "0")
        await again.give_file("#file", file)
        await again.until('document.querySelector("#count").value === "5" && document.querySelector("#new-name").value === "hall_2"')
        await again.fill("#count", "4")
        await again.click("#anew button[type=submit]")
        await again.until('document.querySelector("#state").textContent === "Board hall_3 is open"')
        await shows(again, 4, fens(start, moves[:4])[-1], "without the last move")
        assert not again.faults, again.faults
        await again.close()


FILES = [
    (None, "cannot be read"), ("", "no record"), ("hello", "no record"), ("null\n", "no record"),
    ('{"board":"b","record":2,"start":518}\n', "no record"),
    ('{"board":"b","record":1,"start":960}\n', "does not begin with"), ('{"board":"b","record":1}\n', "does not begin with"),
    ('{"board":"b","record":1,"start":518}\nnull\n[]\n{"fen":7,"joined":0,"reply":"following"}\n', "b: start 518, 0 moves"),
    ('{"board":"b","record":1,"start":518}\n{"move":"e2e4","place":0,"reply":"move"}\n', "has a gap"),
    ("GAME" + '{"move":"e7e5","place":0,"reply":"move"}\n', "has a gap"),
    ("GAME" + '{"move":7,"place":0,"reply":"move"}\n{"move":"e7e5","place":1,"reply":"move"}\n', "has a gap"),
    ("GAME" + '{"move":"e2e4","place":0,"reply":"move"}\n{"move":"e7e5","pl', "b: start 518, 1 moves"),
]


async def try_files(browser):
    """A file that is no record, or a damaged one, is said to be one; what came before a line that was cut off counts."""
    game = '{"board":"b","record":1,"start":518}\n' + json.dumps({"fen": start_fen(518), "joined": 0, "reply": "following"}) + "\n"
    table = await browser.open(url("table.html"))
    with tempfile.TemporaryDirectory() as folder:
        for number, (content, words) in enumerate(FILES):
            file = pathlib.Path(folder, f"{number}.record")
            file.write_text((content or "").replace("GAME", game))
            await table.give_file("#file", file)
            await table.until('document.querySelector("#anew-said").textContent !== ""')
            await table.run('document.querySelector("#anew-said").textContent = ""')
            if content is None:
                file.unlink()
            await table.run('document.querySelector("#file").dispatchEvent(new Event("change"))')
            await table.until('document.querySelector("#anew-said").textContent !== ""')
            assert words in await text(table, "#anew-said"), (content, await text(table, "#anew-said"))
    await table.run('localStorage.setItem("sirvandu.games", "7")')
    await table.go(url("table.html"))
    assert await text(table, "#kept") == "none yet"
    await table.run('localStorage.removeItem("sirvandu.games")')
    assert not table.faults, table.faults
    await table.close()


async def try_next(browser):
    """A page that is sent to a board which is not open yet no longer shows the game that it showed before."""
    relay = await Relay().start()
    client = await Client.to(relay.address)
    await client.open("b1")
    await client.submit("b1", "e2e4")
    seer = await watch(browser, relay, "b1")
    await until_moves(seer, 1)
    await unfold(seer)
    await seer.fill("#name", "b2")
    await seer.click("#source .main")
    await until_state(seer, "refused")
    await until_moves(seer, 0)
    assert await placement(seer) == "8/8/8/8/8/8/8/8" and await seer.run('document.querySelector("#fen").value') == ""
    await client.open("b2", 0)
    await shows(seer, 0, start_fen(0), "another board")
    assert not seer.faults, seer.faults
    await seer.close()
    await client.close()


OTHERS = {"firefox": Firefox, "webkit": WebKit}
# What is tried in these too: what a person does most. Without a device for sound it makes none, so sounds are not among it.
OFTEN = ["games", "castling", "mate", "typed", "goals", "refused_claim", "next_name", "next", "wire", "cut", "on_its_way", "ending_lost",
         "correct", "crash", "interrupted", "freed", "kept_pgn", "records", "list", "newer", "round", "round_pgn", "listed",
         "broadcast", "watch_port", "tabs", "tabs_pgn", "tabs_attention", "tabs_from_disk", "tabs_desk", "tabs_reloaded",
         "questions", "two_windows", "listed_results", "arbiter", "corrected"]


async def main():
    words = sys.argv[1:]
    pictures = words[1] if words[:1] == ["--pictures"] else None
    other = OTHERS.get(words[0]) if words else None
    words = (words[1:] or OFTEN) if other else words
    modules = (back, beside, broadcast, console, contrast, desk, ends, gone, lists, notation, rounds, senses, tabs, windows)
    tries = {name[4:]: it for module in (globals(), *map(vars, modules)) for name, it in module.items() if name.startswith("try_")}
    # A test's site makes its own certificate, and has a name of its own.
    hosts = f"--host-resolver-rules=MAP {rounds.OTHER_HOST} 127.0.0.1, MAP * ~NOTFOUND, EXCLUDE 127.0.0.1, EXCLUDE localhost"

    async def begin():
        begun = other() if other else Browser()
        try:
            return await (begun.start() if other else begun.start("--ignore-certificate-errors", hosts))
        except BaseException:
            await begun.stop()  # One that did not come up is not left behind.
            raise

    browser = await begin()
    failed = []
    began = time.monotonic()
    try:
        if pictures:
            from pictures import take_pictures
            await take_pictures(browser, pathlib.Path(pictures))
            return 0
        for name in words or tries:
            try:
                await asyncio.wait_for(tries[name](browser), 900)
                await browser.close_all()
                print(f"ok      {name}: {tries[name].__doc__}", flush=True)
            except Exception as fault:
                failed.append(name)
                print(f"failed  {name}: {type(fault).__name__} {fault}", flush=True)
                # A browser that did not answer in time may not answer the next test either.
                await browser.stop()
                browser = await begin()
            finally:
                await Relay.stop_all()
    finally:
        await browser.stop()
    count = len(words or tries)
    print(f"{count - len(failed)} of {count} passed in {time.monotonic() - began:.0f} s")
    return 1 if failed else 0


if __name__ == "__main__":
    sys.exit(asyncio.run(main()))
