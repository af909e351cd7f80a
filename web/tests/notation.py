"""The tests of chess as it is written on the pages: what is typed, where a man may go, and what the pages show of moves and of draws that
come near."""
import asyncio
import json
import pathlib
import tempfile

from relay_client.client import Client
from relay_client.program import fens, start_fen
from relay_client.relay import Relay
from steps import (catch_files, enter, listed, open_table, pgn, said, say_end, shows, state, text, today, until_moves, until_state, url,
                   watch)
from told import Told

# What is typed, move by move, and the relay's text that it is; where it is ambiguous, the candidates as they are offered.
TYPED = [
    ("Nf3", "g1f3", []), ("d7-d5", "d7d5", []), ("d4", "d2d4", []), ("nf6", "g8f6", []),
    ("Nd2", "b1d2", ["Nbd2", "Nfd2"]), ("g6", "g7g6", []), ("g2g3", "g2g3", []), ("Bf8-g7", "f8g7", []), ("Bg2", "f1g2", []),
    ("0-0", "e8h8", []), ("e1g1", "e1h1", []), ("c5", "c7c5", []), ("dxc5", "d4c5", []), ("b5", "b7b5", []), ("cxb6 e.p.", "c5b6", []),
    ("Bd7", "c8d7", []), ("b7", "b6b7", []), ("a6", "a7a6", []), ("bxa8", "b7a8n", ["queen", "rook", "bishop", "knight"]),
]


async def try_typed(browser):
    """Moves typed as players write them reach the relay as its own texts; an ambiguous one is asked back, and is not sent where one goes
    back."""
    relay = await Relay().start()
    table = await open_table(browser, relay, "typed", 518)
    moves = [move for _, move, _ in TYPED]
    for ply, ((words, move, offered), fen) in enumerate(zip(TYPED, fens(518, moves)), 1):
        await enter(table, words, "type")
        if offered:
            await table.until('document.querySelector("#which").open')
            assert await table.run('[...document.querySelectorAll("#choices button")].map((it) => it.textContent)') == offered
            await table.click("#which form button")
            await table.until('!document.querySelector("#which").open')
            assert await table.run('document.querySelector("#move").value') == words and len(await listed(table)) == ply - 1
            await enter(table, words, "type")
            await table.until('document.querySelector("#which").open')
            await table.click(f"#choices [data-move={move}]")
        await shows(table, ply, fen, words)
        assert await table.run('document.querySelector("#move").value') == "" and await said(table) == ""
    assert await listed(table) == [[place, move] for place, move in enumerate(moves)]
    assert not table.faults, table.faults
    await table.close()


SIDES = '["lower", "upper"].map((it) => document.querySelector(`#${it} .side`).textContent)'


async def try_pgn(browser):
    """Both pages save the game that they show as PGN with its players, while it goes on and when it has ended, and nothing before there is
    one."""
    relay = await Relay().start()
    players = ("Müller, A", "O'Neil")
    table = await browser.open(url("table.html", server=relay.address, board="pgn", start=0))
    for name in ("Smith – Jones", "M&uuml;ller, A"):
        await table.fill("#white", name)
        assert "a player's name may have no" in await table.run('document.querySelector("#white").validationMessage'), name
    await table.fill("#white", players[0])
    await table.fill("#black", players[1])
    await table.click("#opening .main")
    await until_state(table, "live")
    seer = await watch(browser, relay, "pgn", players="–".join(players))
    for page in (table, seer):
        await catch_files(page)
        assert await page.run(SIDES) == list(players)
    for count, move in enumerate(("g2g3", "g7g6", "e1f3"), 1):
        await enter(table, move, "type")
        await until_moves(table, count)
    moves = "1. g3 g6 2. Nf3"
    for termination, words in (("unterminated", f"{moves} *"), ("normal", f"{moves} {{White resigns.}} 0-1")):
        for page in (table, seer):
            await until_moves(page, 3)
            await page.until(f'document.querySelector("#outcome").hidden === {json.dumps(termination == "unterminated")}')
            await page.click("#save-pgn")
            file = pgn("pgn", 0, words, await today(page), players, termination)
            assert await page.run("saved") == ["pgn.pgn", file, "application/vnd.chess-pgn"], await page.run("saved")
        if termination == "unterminated":
            await table.click("#ending [data-how=resign][data-side=white]")
            await table.until('document.querySelector("#sure").open')
            await table.click("#sure .main")
    empty = await browser.open(url("watch.html"))
    assert await empty.run('document.querySelector("#save-pgn").hidden')
    for page in (table, seer, empty):
        assert not page.faults, page.faults
        await page.close()


async def try_kept_pgn(browser):
    """A game that the browser kept, and one of a record's file, are saved as PGN with their players; a file tells no day."""
    relay = await Relay().start()
    address = url("table.html", server=relay.address, board="pgn", start=0, players="Adams–O'Neil")
    table = await browser.open(address)
    await table.run('localStorage.removeItem("sirvandu.games")')
    await table.go(address)
    assert await table.run('["white", "black"].map((it) => document.querySelector("#" + it).value)') == ["Adams", "O'Neil"]
    await table.click("#opening .main")
    await until_state(table, "live")
    await enter(table, "g3", "type")
    await until_moves(table, 1)
    await say_end(table, "#ending [data-how=agreed]")
    await until_state(table, "over")
    assert await table.run('["white", "black"].map((it) => document.querySelector("#" + it).value)') == ["", ""]
    await catch_files(table)
    await table.click("#save")
    with tempfile.TemporaryDirectory() as folder:
        file = pathlib.Path(folder, "pgn.record")
        file.write_text((await table.run("saved"))[1])
        head = json.loads(file.read_text().splitlines()[0])
        assert head == {"board": "pgn", "record": 1, "start": 0, "white": "Adams", "black": "O'Neil"}, head
        again = await browser.open(url("table.html", server=relay.address))
        await catch_files(again)
        assert await again.run('document.querySelector("#kept-pgn").hidden')
        kept = await again.run('[...document.querySelector("#kept").options]'
                               '.find((it) => it.textContent.startsWith("pgn, Adams–O\'Neil, start 0, 1 moves")).value')
        for day, act in ((await today(again), lambda: again.choose("#kept", kept)), ("????.??.??", lambda: again.give_file("#file", file))):
            await again.run('document.querySelector("#anew-said").textContent = ""')
            await act()
            # A file is read in its own time.
            await again.until('document.querySelector("#anew-said").textContent !== "" && !document.querySelector("#kept-pgn").hidden')
            await again.until(f'document.querySelector("#kept").value === {json.dumps(kept if day[0] != "?" else "")}')
            await again.click("#kept-pgn")
            words = pgn("pgn", 0, "1. g3 {Draw agreed.} 1/2-1/2", day, ("Adams", "O'Neil"), "normal")
            await again.until(f"window.saved && saved[1] === {json.dumps(words)}")
    await again.click("#anew button[type=submit]")
    await again.until('document.querySelector("#state").textContent === "Board pgn_2 is open"')
    assert await again.run(SIDES) == ["Adams", "O'Neil"]
    for page in (table, again):
        assert not page.faults, page.faults
        await page.close()


async def try_unsent(browser):
    """What is not legal, or no move at all, is not sent, and the page says why; what the relay refuses all the same is said too."""
    async with Told() as relay:
        table = await browser.open(url("table.html", server=relay.address, board="b1", start=518))
        await table.click("#opening .main")
        await relay.hears(cmd="open", board="b1", start=518)
        await relay.says(reply="opened")
        await until_state(table, "live")
        for words in ("e5", "Nd2", "O-O", "e1g1", "e7e5"):
            await enter(table, words, "type")
            await table.until(f'document.querySelector("#said").textContent === "{words}: This move is not legal here."')
            assert await table.run('document.querySelector("#move").value') == words
        for words in ("castle", "e4 e5", ""):
            await enter(table, words, "type")
            await table.until(f'document.querySelector("#said").textContent.startsWith({json.dumps(chr(34) + words + chr(34))})')
            assert "is not a move" in await said(table), await said(table)
        for move in ("e2e5", "e1h1", "d1d3"):
            for way in ("drag", "click"):
                await enter(table, "castle", "type")
                await table.until('document.querySelector("#said").textContent.includes("is not a move")')
                await enter(table, move, way)
                await table.until(f'document.querySelector("#said").textContent.startsWith("{move}: ")')
        await asyncio.sleep(0.2)
        assert relay.asked.empty() and await state(table) == "live"
        await enter(table, "Nf3", "type")
        await relay.hears(cmd="submit", board="b1", move="g1f3")
        await relay.refuses(6, "Illegal")
        await relay.hears(cmd="follow", board="b1", spectator=0)
        await relay.says(fen=start_fen(518), joined=0, reply="following")
        await table.until('document.querySelector("#notices").textContent.includes("g1f3: This move is not legal here. (6 Illegal)")')
        assert await said(table) == "g1f3: This move is not legal here."
        assert not table.faults, table.faults
        await table.close()


async def try_doubt(browser):
    """A connection that is lost while the page asks which move is meant: what is chosen then is not sent to the game that was reopened."""
    moves = ["g1f3", "d7d5", "d2d4", "g8f6"]
    async with Told() as relay:
        table = await browser.open(url("table.html", server=relay.address, board="b1", start=518))
        await table.click("#opening .main")
        await relay.hears(cmd="open", board="b1", start=518)
        await relay.says(reply="opened")
        for place, move in enumerate(moves):
            await until_state(table, "live")
            await enter(table, move, "type")
            await relay.hears(cmd="submit", board="b1", move=move)
            await relay.plays(place)
            await until_moves(table, place + 1)
        await enter(table, "Nd2", "type")
        await table.until('document.querySelector("#which").open')
        await relay.forgets("b1")
        await relay.hears(cmd="open", board="b1_2", start=518)
        await relay.says(reply="opened")
        for place, move in enumerate(moves):
            await relay.hears(cmd="submit", board="b1_2", move=move)
            await relay.plays(place)
        await until_state(table, "live")
        await table.click("#choices [data-move=b1d2]")
        await table.until('document.querySelector("#said").textContent === "No move can be played now."')
        await asyncio.sleep(0.2)
        assert relay.asked.empty() and not table.faults, table.faults
        await enter(table, "Nbd2", "type")
        await relay.hears(cmd="submit", board="b1_2", move="b1d2")
        await table.close()


GOALS = '[...document.querySelectorAll(".square.goal")].map((it) => it.dataset.square).sort()'


async def try_goals(browser):
    """A man that is picked up shows where it may go, castling on the rook; a king that is dropped two squares off castles too."""
    relay = await Relay().start()
    table = await open_table(browser, relay, "goals", 518)
    for square, goals in (("g1", ["f3", "h3"]), ("e2", ["e3", "e4"]), ("a1", []), ("e1", [])):
        await table.click(f"[data-square={square}]")
        assert await table.run(GOALS) == goals, (square, await table.run(GOALS))
        await table.press("Escape")
        assert await table.run(GOALS) == []
    moves = ["e2e4", "e7e5", "g1f3", "b8c6", "f1c4", "g8f6"]
    for ply, move in enumerate(moves, 1):
        await enter(table, move, "type")
        await until_moves(table, ply)
    await table.click("[data-square=e1]")
    assert await table.run(GOALS) == ["e2", "f1", "h1"], await table.run(GOALS)
    labels = {it: await table.run(f'document.querySelector("[data-square={it}]").getAttribute("aria-label")') for it in ("e2", "h1", "g1")}
    assert labels == {"e2": "e2, empty, may go here", "h1": "h1, white rook, castles here", "g1": "g1, empty"}, labels
    plain = await table.style("[data-square=g1]", "background-image")
    marked = {it: await table.style(f"[data-square={it}]", "background-image") for it in ("e2", "h1")}
    assert plain == "none" and "gradient" in marked["e2"] and "gradient" in marked["h1"] and marked["e2"] != marked["h1"], (plain, marked)
    await table.press("Escape")
    await enter(table, "e1g1", "drag")
    await shows(table, 7, fens(518, [*moves, "e1h1"])[-1], "two squares")
    await enter(table, "f6e4", "click")
    await until_moves(table, 8)
    assert await table.run(GOALS) == [] and await listed(table) == [[place, it] for place, it in enumerate([*moves, "e1h1", "f6e4"])]
    assert not table.faults, table.faults
    await table.close()


SAN = "Nf3 d5 d4 Nf6 Nbd2 g6 g3 Bg7 Bg2 O-O O-O c5 dxc5 b5 cxb6 Bd7 b7 a6 bxa8=N".split()
LONG = ["Ng1-f3", "d7-d5", "d2-d4", "Ng8-f6", "Nb1-d2", "g7-g6", "g2-g3", "Bf8-g7", "Bf1-g2", "O-O", "O-O", "c7-c5", "d4xc5", "b7-b5",
        "c5xb6 e.p.", "Bc8-d7", "b6-b7", "a7-a6", "b7xa8=N"]
WRITTEN = '[...document.querySelectorAll(".move[data-place]")].map((it) => it.firstElementChild.textContent)'


async def try_list(browser):
    """The list of moves is in SAN, or in the long form where that was chosen, on both pages and after a reload; the start's number stands
    by it."""
    relay = await Relay().start()
    client = await Client.to(relay.address)
    await client.open("b1")
    await client.submit("b1", *(move for _, move, _ in TYPED[:-1]))
    seer = await watch(browser, relay, "b1")
    await until_moves(seer, len(TYPED) - 1)
    assert await seer.run(WRITTEN) == SAN[:-1]
    await seer.click("#long")
    assert await seer.run(WRITTEN) == LONG[:-1]
    await client.submit("b1", TYPED[-1][1])
    await until_moves(seer, len(TYPED))
    assert await seer.run(WRITTEN) == LONG
    table = await open_table(browser, relay, "b2", 387)
    await enter(table, "Ne3", "type")
    await until_moves(table, 1)
    late = await watch(browser, relay, "b1", **{"from": "present"})
    await until_state(late, "live")
    for page, written in ((table, ["Nd1-e3"]), (late, [])):
        assert await page.run('document.querySelector("#long").checked') and await page.run(WRITTEN) == written
    await seer.click("#long")
    assert await seer.run(WRITTEN) == SAN
    again = await watch(browser, relay, "b1")
    await until_moves(again, len(TYPED))
    assert await again.run(WRITTEN) == SAN and not await again.run('document.querySelector("#long").checked')
    assert await text(again, "#began") == "Start number 518" and await text(table, "#began") == "Start number 387"
    assert await late.run('document.querySelector("#began").hidden')
    for page in (seer, table, late, again):
        assert not page.faults, page.faults
        await page.close()
    await client.close()


async def try_newer(browser):
    """Who looks at an earlier position is told how many moves came meanwhile, and gets to them by a press; a move of the list has its place
    in its tooltip alone."""
    relay = await Relay().start()
    client = await Client.to(relay.address)
    await client.open("b1")
    await client.submit("b1", "e2e4", "e7e5")
    seer = await watch(browser, relay, "b1")
    await until_moves(seer, 2)
    assert await seer.run('document.querySelector("#newer").hidden')
    await seer.press("ArrowLeft")
    for count, move in enumerate(("g1f3", "b8c6"), 1):
        await client.submit("b1", move)
        await until_moves(seer, 2 + count)
        await seer.until(f'document.querySelector("#newer").textContent === "{count} new {"move" if count == 1 else "moves"} »"')
    assert not await seer.run('document.querySelector("#newer").hidden')
    assert await seer.run('document.querySelector("#fen").value') == fens(518, ["e2e4"])[-1]
    await seer.click("#newer")
    await seer.until('document.querySelector("#newer").hidden')
    assert await seer.run('document.querySelector("#fen").value') == fens(518, ["e2e4", "e7e5", "g1f3", "b8c6"])[-1]
    await client.submit("b1", "f1b5")
    await until_moves(seer, 5)
    assert await seer.run('document.querySelector("#newer").hidden')
    written = await seer.run('[...document.querySelectorAll(".move[data-place]")].map((it) => it.textContent)')
    assert written == ["e4", "e5", "Nf3", "Nc6", "Bb5"]
    assert await seer.run('document.querySelector(".move[data-place]").title') == "e2e4, place 0"
    assert not seer.faults, seer.faults
    await seer.close()
    await client.close()


async def near(page):
    return await page.run('document.querySelector("#near").hidden ? "" : document.querySelector("#near").textContent')


TOLD = {1: "", 2: "This position has occurred twice. At the third time a draw can be claimed.",
        3: "This position has occurred three times. A draw can be claimed. At the fifth time the game is drawn.",
        4: "This position has occurred four times. A draw can be claimed. At the fifth time the game is drawn."}


async def try_near(browser):
    """Both pages say how often the present position has appeared, from the second time on; who came in the middle is told the least
    number."""
    relay = await Relay().start()
    table = await open_table(browser, relay, "b1", 518)
    seer = await watch(browser, relay, "b1")
    await until_state(seer, "live")
    late = None
    for ply in range(1, 15):
        await enter(table, ["Nf3", "Nf6", "Ng1", "Ng8"][(ply - 1) % 4], "type")
        told = TOLD[(ply + 4) // 4]
        for page in (table, seer):
            await until_moves(page, ply)
            await page.until(f"document.querySelector('#fen').value.split(' ')[4] === '{ply}'")
            assert await near(page) == told, (ply, await near(page))
        if ply == 6:
            late = await watch(browser, relay, "b1", **{"from": "present"})
            await until_state(late, "live")
    await until_moves(late, 8)
    assert await near(late) == TOLD[3].replace("three", "at least three"), await near(late)
    await seer.press("ArrowLeft")
    assert "four times" in await near(seer)
    await enter(table, "e4", "type")
    await until_moves(seer, 15)
    await seer.until('document.querySelector("#near").hidden')
    for page in (table, seer, late):
        assert not page.faults, page.faults
        await page.close()


async def try_clock(browser):
    """The half-move clock is told from 80 on, that a draw can be claimed from 100 on; a capture, a pawn move and the game's end take it
    away."""
    count = "half-moves without a capture or a pawn move"
    soon, now = "At 100 a draw can be claimed.", "A draw can be claimed. At 150 the game is drawn."
    for half_moves, moves in ((78, [("e1e2", ""), ("e8e7", f"80 {count}. {soon}"), ("e2e1", f"81 {count}. {soon}"), ("h7h6", "")]),
                              (98, [("e1e2", f"99 {count}. {soon}"), ("e8e7", f"100 {count}. {now}"), ("a1h1", f"101 {count}. {now}")])):
        async with Told() as relay:
            seer = await browser.open(url("watch.html", server=relay.address, board="b1"))
            await relay.hears(cmd="follow", board="b1", spectator=0, **{"from": 0})
            await relay.says(fen=f"4k3/7p/8/8/8/8/8/R3K3 w - - {half_moves} 90", joined=200, reply="following")
            await until_state(seer, "live")
            for ply, (move, told) in enumerate(moves):
                await relay.says(move=move, place=200 + ply, reply="move")
                await until_moves(seer, ply + 1)
                assert await near(seer) == told, (move, await near(seer))
            await relay.says(outcome="agreed", reply="over")
            await until_state(seer, "over")
            await seer.until('document.querySelector("#near").hidden')
            assert not seer.faults, seer.faults
            await seer.close()
