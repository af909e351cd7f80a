"""Tests of the pages at the relay's watch port, and of a round that comes from the list of boards; pages.py runs them with its own."""
import asyncio
import contextlib

from gone import beat, moved, over, states_of, until_said
from relay_client.client import Client
from relay_client.program import fens, start_fen
from relay_client.relay import Relay
from relay_client.wire import DOWN, UP, Wire
from rounds import MATE, MOVES, QUIET, START, boards_of, men, smooth_for, tiles_of, until_tiles
from steps import catch_files, listed, pgn, shows, state, text, today, unfold, until_moves, until_state, url, watch
from told import Channels

PATIENCE = 40  # Seconds: a watch port that says nothing is asked after 20, and has 10 to answer.


def told(board, start=518, moves=(), outcome=None):
    """A text of the list."""
    fen = fens(start, moves)[-1] if moves else start_fen(start)
    return {"board": board, "fen": fen, "last": moves[-1] if moves else None, "outcome": outcome, "plies": len(moves), "reply": "board",
            "start": start}


async def open_round(browser, address, size=(1280, 900), **more):
    return await browser.open(url("round.html", watch=address, **more), size)


def names_of(tiles):
    return [it["name"] for it in tiles]


async def until_names(page, *names):
    """Waits until these boards are shown, in this order, and their tiles no longer change: new moves of a board are told once a second."""
    before = None
    for _ in range(40):
        tiles = await until_tiles(page, lambda them: names_of(them) == list(names))
        if tiles == before:
            return tiles
        before = tiles
        await asyncio.sleep(1.1)
    raise AssertionError(f"the tiles go on changing: {tiles}")


async def try_listed(browser):
    """Without names in its address the round shows every board, in the order of opening, from one connection: also those that are opened
    later."""
    relay = await Relay(watch=True, boards=64).start()
    wire = await Wire(relay.watch_port).mend()
    page = await open_round(browser, wire.address)
    await page.until('document.querySelector("#state").textContent === "No boards yet"')
    assert await page.run('document.querySelector("#save-round").hidden')
    client = await boards_of(relay, ("r1-3", START, MOVES), ("r1-1", 518, MATE), ("r1-2", 0, []))
    await until_names(page, "r1-3", "r1-1", "r1-2")
    await client.open("r0", 959)
    await until_names(page, "r1-3", "r1-1", "r1-2", "r0")
    positions = [men(it) for it in (fens(START, MOVES)[-1], fens(518, MATE)[-1], start_fen(0), start_fen(959))]
    # New moves are told within a second, and drawn in the next frames.
    tiles = await until_tiles(page, lambda them: [it["men"] for it in them] == positions)
    late = await open_round(browser, wire.address)
    await until_names(late, "r1-3", "r1-1", "r1-2", "r0")
    later = await until_tiles(late, lambda them: [it["men"] for it in them] == positions)
    for them in (tiles, later):
        had = [(it["start"], it["parts"], it["stand"], it["turn"], it["state"]) for it in them]
        assert had == [("no. 387", ["", "to move"], "", ["White"], "live"), ("no. 518", ["1", "0"], "0–1", [], "over"),
                       ("no. 0", ["", "to move"], "", ["White"], "live"), ("no. 959", ["", "to move"], "", ["White"], "live")], had
    assert [it["move"] for it in later] == ["3… c5", "2… Qh4#", "", ""], later
    assert later[0]["marked"] == ["c5", "c7"] and later[0]["label"] == "r1-3, start 387, last move 3… c5, White to move", later[0]
    assert await text(late, "#state") == "3 live, 1 over"
    await late.run("""localStorage.setItem("sirvandu.settings", '{"long":true}')""")
    long = await open_round(browser, wire.address)
    await until_tiles(long, lambda them: [it["move"] for it in them] == ["3… c7-c5", "2… Qd8-h4#", "", ""])
    await long.run('localStorage.removeItem("sirvandu.settings")')
    await long.close()
    await late.front()
    await client.submit("r1-3", "e1d3")
    await client.submit("r1-2", "f2f4")
    for it in (page, late):
        await it.front()  # A page out of sight draws when it is seen again.
        tiles = await until_tiles(it, lambda them: [tile["move"] for tile in them][::2] == ["4. Nd3", "1. f4"])
        assert tiles[0]["men"] == men(fens(START, [*MOVES, "e1d3"])[-1]) and tiles[0]["turn"] == ["Black"]
        assert tiles[0]["marked"] == ["d3", "e1"]
    await client.end("r1-2")
    await page.front()
    tiles = await until_tiles(page, lambda them: them[2]["stand"] == "½–½")
    label = tiles[2]["label"].removesuffix(f", {tiles[2]['fresh']}")  # On a slow machine what is new is marked by then.
    assert label == "r1-2, start 0, last move 1. f4, Draw by agreement" and tiles[2]["parts"] == ["½", "½"], tiles[2]
    assert len(wire.writers) == 4, "each page has one connection, which the wire has twice"
    await page.click(".tile:nth-child(1) .inner")
    await page.until('location.pathname.endsWith("watch.html") && document.readyState === "complete"')
    await until_moves(page, 7)
    assert await text(page, "#watched") == "r1-3" and await page.run("location.search") == f"?watch={wire.address}&board=r1-3"
    for it in (page, late):
        assert not it.faults, it.faults
        await it.close()
    await client.close()
    await wire.cut()


async def try_listed_many(browser):
    """64 boards that are opened one after another, with moves each second, and ends: each tile shows its board, in the order of opening."""
    relay = await Relay(watch=True, boards=64).start()
    page = await open_round(browser, relay.watch_address, (1920, 1080))
    client = await Client.to(relay.address)
    names = [f"t{(29 * number) % 64}" for number in range(64)]
    moves = {}
    for number, name in enumerate(names):
        await client.open(name, number)
        moves[name] = []
        if number % 16 == 15:
            await until_names(page, *names[:number + 1])
    tiles = await tiles_of(page)
    assert [it["men"] for it in tiles] == [men(start_fen(number)) for number in range(64)]
    for move in ("a2a3", "h7h6", "b2b3", "g7g6"):
        for name in names:
            await client.submit(name, move)
            moves[name].append(move)
        await asyncio.sleep(1)
    for name in names[::5]:
        await client.end(name)
    tiles = await until_tiles(page, lambda them: [it["state"] for it in them] == ["live" if number % 5 else "over" for number in range(64)]
                              and all(it["move"].startswith("2… ") for it in them))
    assert names_of(tiles) == names
    assert [it["men"] for it in tiles] == [men(fens(number, moves[name])[-1]) for number, name in enumerate(names)]
    assert [it["start"] for it in tiles] == [f"no. {number}" for number in range(64)] and await text(page, "#state") == "51 live, 13 over"
    assert not page.faults, page.faults
    await page.close()
    await client.close()


async def try_listed_anew(browser):
    """The relay is restarted: each game is another one of its name, whether it has another start, fewer moves or the same place, and what
    is gone is not shown."""
    relay = await Relay(watch=True).start()
    await boards_of(relay, ("a", START, MOVES), ("b", 518, MATE[:2]), ("c", 518, MATE[:2]), ("d", 518, MATE[:3]), ("e", 518, MATE),
                    ("f", 0, []))
    page = await open_round(browser, relay.watch_address)
    await until_names(page, *"abcdef")
    for number in range(1, 7):
        await page.hover(f".tile:nth-child({number})")
    await page.run(MARKS)
    await relay.kill()
    tiles = await until_tiles(page, lambda them: [it["state"] for it in them] == ["lost"] * 4 + ["over", "lost"])
    assert [it["stand"] for it in tiles] == ["No connection"] * 4 + ["0–1", "No connection"], tiles
    await page.until('document.querySelector("#state").textContent.startsWith("No connection to the server. Trying again in ")')
    await until_state(page, "lost")
    await relay.start()
    games = {"e": (518, []), "d": (518, MATE[:1]), "c": (518, ["d2d4", "d7d5"]), "b": (959, MATE[:1]), "a": (START, MOVES[:3])}
    await boards_of(relay, *((board, *game) for board, game in games.items()))
    await until_names(page, *games)
    wanted = [men(fens(start, moves)[-1] if moves else start_fen(start)) for start, moves in games.values()]
    tiles = await until_tiles(page, lambda them: [it["men"] for it in them] == wanted)
    had = [(it["start"], it["move"].split(" ")[0], it["stand"], it["state"]) for it in tiles]
    assert had == [("no. 518", "", "", "live"), ("no. 518", "1.", "", "live"), ("no. 518", "1…", "", "live"), ("no. 959", "1.", "", "live"),
                   ("no. 387", "2.", "", "live")], had
    await page.until('["d", "c", "b", "a"].map((it) => marks[it]).join() === "1 new,2 new,1 new,3 new" && marks.e === undefined')
    assert await state(page) == "live" and not page.faults, page.faults
    await relay.kill()
    await until_state(page, "lost")
    await relay.start()
    await page.until('document.querySelector("#state").textContent === "No boards yet"')
    assert await tiles_of(page) == [] and not page.faults, page.faults
    await page.close()


async def try_listed_wire(browser):
    """A lost connection of the list is said on each board that goes on, and when it is back each shows the present."""
    relay = await Relay(watch=True).start()
    wire = await Wire(relay.watch_port).mend()
    client = await boards_of(relay, ("a", 518, []), ("b", 518, MATE))
    page = await open_round(browser, wire.address)
    await until_names(page, "a", "b")
    await wire.cut()
    tiles = await until_tiles(page, lambda them: [it["state"] for it in them] == ["lost", "over"])
    assert [it["stand"] for it in tiles] == ["No connection", "0–1"], tiles
    await until_state(page, "lost")
    await client.submit("a", *MATE[:2])
    await client.open("c")
    await wire.mend()
    tiles = await until_names(page, "a", "b", "c")
    assert tiles[0]["men"] == men(fens(518, MATE[:2])[-1]) and [it["state"] for it in tiles] == ["live", "over", "live"], tiles
    await client.submit("a", MATE[2])
    await until_tiles(page, lambda them: them[0]["move"] == "2. g4")
    assert await text(page, "#state") == "2 live, 1 over" and not page.faults, page.faults
    await page.close()
    await client.close()
    await wire.cut()


async def try_dead_wire(browser):
    """A connection that is dead without a word, as where a laptop lost its network: the pages at a watch port say so and come back; a
    silent board stays live."""
    relay = await Relay(watch=True).start()
    wire = await Wire(relay.watch_port).mend()
    client = await boards_of(relay, ("a", 518, MATE[:1]))
    for page in (await open_round(browser, wire.address), await browser.open(url("watch.html", watch=wire.address, board="a"))):
        await page.front()
        await until_state(page, "live")
        await states_of(page)
        await asyncio.sleep(PATIENCE)
        assert await page.run("states") == [] or set(await page.run("states")) == {"live"}, await page.run("states")
        wire.lose(UP, DOWN)
        await until_state(page, "lost", PATIENCE)
        wire.drop()
        await until_state(page, "live", PATIENCE)
        assert not page.faults, page.faults
        await page.close()
    await client.close()
    await wire.cut()


async def try_listed_heirs(browser):
    """The boards that the address names stand in its order, open or not. One whose game was abandoned gives its place to its successor,
    with its players, at the first move; one that has a result, once that has as many moves; none to one without a move."""
    relay = await Relay(watch=True).start()
    client = await boards_of(relay, ("r1", 518, MATE[:2]), ("r2", 518, MATE), ("r3", 518, []))
    page = await open_round(browser, relay.watch_address, players="r1%20Carlsen–Caruana;r2%20So;r3%20Ding%20-%20Nepo;r4%20Adams–Baker;r5")
    tiles = await until_names(page, "r1", "r2", "r3", "r4", "r5")
    assert [it["sides"] for it in tiles] == [["Caruana", "Carlsen"], ["Black", "So"], ["Nepo", "Ding"], ["Baker", "Adams"],
                                             ["Black", "White"]], tiles
    assert [it["stand"] for it in tiles[3:]] == ["Not open yet"] * 2 and tiles[3]["label"] == "r4, Adams – Baker, Not open yet", tiles[3]
    assert await text(page, "#state") == "2 live, 1 over, 2 waiting"
    for old in ("r1", "r1_2"):
        await client.end(old, "abandoned")
        await until_tiles(page, lambda them, name=old: them[0]["name"] == name and them[0]["stand"] == "No result")
        successor = await page.run(f'Names.next("{old}")')
        await client.open(successor)
        await client.submit(successor, MATE[0])
    await client.open("r2_2")
    await client.open("x")
    await client.open("r5", 959)
    tiles = await until_names(page, "r1_3", "r2", "r3", "r4", "r5", "x")
    assert [it["sides"] for it in tiles] == [["Caruana", "Carlsen"], ["Black", "So"], ["Nepo", "Ding"], ["Baker", "Adams"],
                                             ["Black", "White"], ["Black", "White"]], tiles
    assert tiles[1]["stand"] == "0–1", tiles[1]
    await client.submit("r2_2", *QUIET[:3])
    assert (await until_names(page, "r1_3", "r2", "r3", "r4", "r5", "x"))[1]["stand"] == "0–1"
    await client.submit("r2_2", QUIET[3])
    tiles = await until_names(page, "r1_3", "r2_2", "r3", "r4", "r5", "x")
    assert tiles[1]["stand"] == "" and tiles[1]["sides"] == ["Black", "So"], tiles[1]
    assert tiles[0]["href"].endswith("&board=r1_3&players=Carlsen–Caruana") or "r1_3" in tiles[0]["href"], tiles[0]
    await relay.kill()
    await relay.start()
    await boards_of(relay, ("r2_3", 518, []), ("r1_4", 518, MATE[:2]))
    tiles = await until_names(page, "r1_4", "r2", "r3", "r4", "r5")
    assert [it["sides"] for it in tiles][:2] == [["Caruana", "Carlsen"], ["Black", "So"]], tiles
    assert tiles[1]["stand"] == "0–1" and tiles[2]["men"] == "8/8/8/8/8/8/8/8", tiles
    assert not page.faults, page.faults
    await page.close()


async def until_stands(page, *stands):
    return await until_tiles(page, lambda them: [it["stand"] for it in them] == list(stands))


async def try_listed_results(browser):
    """When the relay is restarted, the results of a round stay in their places, also on a page that is loaded again, until a board of
    another round is opened."""
    relay = await Relay(watch=True).start()
    client = await boards_of(relay, ("r1", 518, MATE[:2]), ("r2", 518, MATE), ("r3", 518, MATE[:3]))
    page = await open_round(browser, relay.watch_address, players="r1%20Adams–Baker;r2%20So–Ding;r3;r4", hall="")
    await until_names(page, "r1", "r2", "r3", "r4")
    await client.end("r3")
    await until_stands(page, "", "0–1", "½–½", "Not open yet")
    for heir in ("r1_2", "r1_3"):
        await relay.kill()
        await until_stands(page, "No connection", "0–1", "½–½", "No connection")
        await relay.start()
        await until_stands(page, "Not open yet", "0–1", "½–½", "Not open yet")
        await boards_of(relay, (heir, 518, MATE[:2]))
        for _ in "12":
            tiles = await until_names(page, heir, "r2", "r3", "r4")
            assert [it["stand"] for it in tiles] == ["", "0–1", "½–½", "Not open yet"], tiles
            assert tiles[1]["men"] == men(fens(518, MATE)[-1]) and tiles[1]["sides"] == ["Ding", "So"], tiles
            assert tiles[2]["move"] == "2. g4", tiles
            await page.go(await page.run("location.href"))
    await relay.kill()
    await relay.start()
    await boards_of(relay, ("s1", 518, []), ("r3", 518, []))
    tiles = await until_names(page, "r1", "r2", "r3", "r4", "s1")
    assert [it["stand"] for it in tiles] == ["Not open yet", "Not open yet", "", "Not open yet", ""], tiles
    assert not page.faults, page.faults
    await page.close()


async def try_listed_channel(browser):
    """The list in a channel: of what was kept the last of each board counts, and no old beat is a sign; silence, a lost connection and
    other games are shown."""
    async with Channels() as channels:
        await channels.says("_boards", told("a"), beat(7200), told("b", 0), told("a", moves=MATE[:1]), told("c", 959),
                            told("b", 0, ["f2f4"]), beat(3600), told("a", moves=MATE[:2]))
        page = await browser.open(url("round.html", channel=channels.address))
        tiles = await until_names(page, "a", "b", "c")
        assert [it["state"] for it in tiles] == ["connecting"] * 3, tiles
        assert await text(page, "#state") == "Connected. Waiting for a signal …", tiles
        assert [it["move"] for it in tiles] == ["1… e5", "1. f4", ""]
        await channels.says("_boards", beat())
        await until_tiles(page, lambda them: [it["state"] for it in them] == ["live"] * 3)
        await channels.says("_boards", told("a", moves=MATE[:3]), told("d", 100))
        tiles = await until_names(page, "a", "b", "c", "d")
        assert tiles[0]["move"] == "2. g4" and tiles[0]["href"] == f"watch.html?channel={channels.address}&board=a", tiles[0]
        await page.run("window.now = Date.now; window.later = 60; Date.now = () => now() + 1000 * later")
        tiles = await until_tiles(page, lambda them: {it["state"] for it in them} == {"silent"}, 5)
        assert all(it["stand"].startswith("No signal since ") for it in tiles) and await state(page) == "silent", tiles
        await channels.says("_boards", told("c", 959, [], "abandoned"))
        await until_tiles(page, lambda them: [it["state"] for it in them] == ["live", "live", "over", "live"], 5)
        await page.run("Date.now = now")
        await channels.says("_boards", told("c_2", 959))
        await until_names(page, "a", "b", "c_2", "d")
        await channels.loses("_boards")
        await until_tiles(page, lambda them: {it["stand"] for it in them} == {"No connection"})
        await channels.says("_boards", told("a", 387), told("b", 0), told("d", 100, ["e2e4", "e7e5"]), beat())
        tiles = await until_names(page, "c_2", "d", "a", "b")
        assert [it["men"] for it in tiles[1:]] == [men(fens(100, ["e2e4", "e7e5"])[-1]), men(start_fen(387)), men(start_fen(0))], tiles
        assert [it["start"] for it in tiles] == ["no. 959", "no. 100", "no. 387", "no. 0"] and tiles[2]["move"] == ""
        assert not page.faults, page.faults
        await page.close()


async def try_listed_pgn(browser):
    """The games of a list are saved whole, from the watch port and from channels, though the page knew their last moves alone."""
    relay = await Relay(watch=True).start()
    client = await boards_of(relay, ("r1", START, MOVES), ("r2", 518, MATE), ("r3", 0, []), ("r4", 518, MATE[:1]))
    await client.end("r4", "abandoned")
    await boards_of(relay, ("r4_2", 518, MATE[:2]))
    games = [("r1", START, "1. Ne3 Nd6 2. O-O O-O 3. f4 c5 *", ("A", "B")),
             ("r2", 518, "1. f3 e5 2. g4 Qh4# {Black mates.} 0-1", ("?", "?")),
             ("r3", 0, "*", ("?", "?")), ("r4_2", 518, "1. f3 e5 *", ("?", "?"))]
    async with Channels() as channels:
        for board, start, moves, outcome in (("r1", START, MOVES, None), ("r2", 518, MATE, "black mates"), ("r3", 0, [], None),
                                             ("r4_2", 518, MATE[:2], None)):
            await channels.says(board, {"fen": start_fen(518), "joined": 0, "reply": "following"}, *moved(["d2d4", "d7d5", "c2c4"]), over(),
                                {"fen": start_fen(start), "joined": 0, "reply": "following"}, *moved(moves),
                                *([over(outcome)] if outcome else []), beat())
            await channels.says("_boards", told(board, start, moves, outcome))
        await channels.says("_boards", told("lost", 518, MATE), beat())
        for given, missing in (({"watch": relay.watch_address}, []), ({"channel": channels.address}, ["lost"])):
            page = await browser.open(url("round.html", **given, players="r1%20A–B"))
            await until_names(page, "r1", "r2", "r3", "r4_2", *missing)
            await catch_files(page)
            await page.click("#save-round")
            await page.until('document.querySelector("#save-round").disabled')
            await page.until('!document.querySelector("#save-round").disabled', PATIENCE)
            day = await today(page)
            wanted = [pgn(board, start, words, day, players, "normal" if "mates" in words else "unterminated")
                      for board, start, words, players in games]
            assert await page.run("saved") == ["round.pgn", "\n".join(wanted), "application/vnd.chess-pgn"], await page.run("saved")
            said = await page.run('document.querySelector("#said").hidden ? "" : document.querySelector("#said").textContent')
            assert said == ("Not saved, since their moves did not come: lost." if missing else ""), said
            assert not page.faults, page.faults
            await page.close()
    await client.close()


async def try_listed_smooth(browser):
    """64 boards of the list on one screen, each with a move a second for a minute: no task of the page takes 50 ms, but for one that the
    machine may have disturbed."""
    relay = await Relay(watch=True, boards=64).start()
    names = [f"m{number}" for number in range(64)]
    await smooth_for(browser, relay, names, url("round.html", watch=relay.watch_address))


async def try_no_list(browser):
    """The relay's own port has no list, and the page says so; where a watch port is there later, the round comes by itself."""
    relay = await Relay().start()
    client = await boards_of(relay, ("a", 518, MATE[:1]))
    wire = await Wire(relay.port).mend()
    page = await browser.open(url("round.html", server=wire.address))
    await page.until('document.querySelector("#state").textContent'
                     '.startsWith("This is not a watch port, so it has no list of boards. Trying again in ")')
    await client.close()
    await wire.cut()
    other = await Relay(watch=True).start()
    client = await boards_of(other, ("b", 518, MATE[:1]))
    wire.goal = other.watch_port
    await wire.mend()
    await until_names(page, "b")
    assert await text(page, "#state") == "1 live" and not page.faults, page.faults
    await page.close()
    await client.close()
    await wire.cut()


async def try_watch_port(browser):
    """At the watch port a page has the whole game at once, whatever the relay's queues hold, and is neither cut nor refused; at the relay's
    own port it is as before."""
    relay = await Relay(watch=True, capacity=1, followers=1, plies=16384).start()
    client = await boards_of(relay, ("b1", 518, QUIET[:40]))
    pages = [await browser.open(url("watch.html", watch=relay.watch_address, board="b1")) for _ in range(3)]
    pages.append(await watch(browser, relay, "b1", address=relay.watch_address))
    for page in pages:
        await states_of(page)
        await until_moves(page, 40)
    await client.burst("b1", QUIET[40:])
    await client.end("b1")
    for page in pages:
        await until_state(page, "over")
        await shows(page, len(QUIET), fens(518, QUIET)[-1], "the whole game")
        assert await listed(page) == [[place, move] for place, move in enumerate(QUIET)]
        assert set(await page.run("states")) <= {"live", "over"} and await text(page, "#notices") == "", await text(page, "#notices")
        assert not page.faults, page.faults
    present = await browser.open(url("watch.html", watch=relay.watch_address, board="b1", **{"from": "present"}))
    await until_said(present, f"Joined after {len(QUIET)} half-moves.")
    later = await browser.open(url("watch.html", watch=relay.watch_address, board="b2"))
    await until_state(later, "refused")
    await client.open("b2")
    await until_state(later, "live")
    own = await watch(browser, relay, "b1")
    await until_said(own, "The relay no longer has the first moves of this game.")
    for page in (*pages, present, later, own):
        await page.close()
    await client.close()


async def try_full(browser):
    """A watch port that has no room says so, and lets the page in when somebody has gone."""
    relay = await Relay(watch=True, **{"watch-most": 1}).start()
    client = await boards_of(relay, ("b1", 518, MATE[:2]))
    first = await browser.open(url("watch.html", watch=relay.watch_address, board="b1"))
    await until_moves(first, 2)
    for name, given in (("watch.html", {"board": "b1"}), ("round.html", {})):
        page = await browser.open(url(name, watch=relay.watch_address, **given))
        await page.until('document.querySelector("#state").textContent'
                         '.startsWith("The relay has no room for another spectator. Trying again in ")')
        await first.close()
        await until_state(page, "live")
        assert not page.faults, page.faults
        first = page
    await first.close()
    await client.close()


# Keeps the last mark of what is new on each board: one that is in sight for some seconds goes.
MARKS = """window.marks = {}; new MutationObserver(() => document.querySelectorAll(".tile.new").forEach((it) => {
  marks[it.querySelector(".name").textContent] = it.querySelector(".fresh").textContent;
})).observe(document.querySelector("#boards"), {subtree: true, childList: true, characterData: true, attributes: true}); 0"""


# A page's own WebSocket, but that the ports of a machine's relay are those of the test's.
PORTS = """(() => {
  const ports = {9600: %d, 9601: %d};
  const Real = WebSocket;
  window.asked = [];
  window.WebSocket = class extends Real {
    constructor(address) {
      asked.push(address);
      super(address.replace(/:(960[01])$/, (_, port) => `:${ports[port]}`));
    }
  };
})();"""
OWN, WATCH = "ws://127.0.0.1:9600", "ws://127.0.0.1:9601"


@contextlib.asynccontextmanager
async def from_disk(browser, relay, name, **given):
    """A page without a source in its address, beside a relay that has the ports of the documents."""
    page = await browser.open("about:blank")
    await page.call("Page.addScriptToEvaluateOnNewDocument", source=PORTS % (relay.port, relay.watch_port or 9))
    await page.go(url(name, **given))
    yield page
    assert not page.faults, page.faults
    await page.close()


async def try_default(browser):
    """A page from disk takes its machine's relay: at its watch port, and where it has none at its own, asked for in vain by the first
    connections alone."""
    for has_port in (True, False):
        relay = await Relay(watch=has_port).start()
        client = await boards_of(relay, *((f"b{number}", 518, MATE[:2]) for number in range(12)))
        async with from_disk(browser, relay, "watch.html", board="b1") as page:
            await until_moves(page, 2)
            assert await page.run("asked") == ([WATCH] if has_port else [WATCH, OWN]), await page.run("asked")
            had = await page.run('[document.querySelector("#server").value, document.querySelector("#kind").value]')
            assert had == [WATCH, "watch"] and await text(page, "#notices") == "", (had, await text(page, "#notices"))
            await relay.kill()
            await until_state(page, "lost")
            await relay.start()
            client = await boards_of(relay, *((f"b{number}", 518, MATE[:3]) for number in range(12)))
            await until_moves(page, 3)
        async with from_disk(browser, relay, "round.html", boards=",".join(f"b{number}" for number in range(12))) as page:
            await until_tiles(page, lambda them: [it["move"] for it in them] == ["2. g4"] * 12)
            asked = await page.run("asked")
            assert asked.count(OWN) == (0 if has_port else 12) and asked.count(WATCH) <= 12, asked
            assert has_port or asked.count(WATCH) < 12, asked
        if has_port:
            async with from_disk(browser, relay, "round.html") as page:
                await until_names(page, *(f"b{number}" for number in range(12)))
                assert await page.run("asked") == [WATCH] and await page.run("location.search") == ""
                assert await page.run('document.querySelector(".inner").getAttribute("href")') == "watch.html?board=b0"
        await client.close()
        await relay.kill()


async def try_form_of_list(browser):
    """The form without boards makes the address of a list; with boards and the mark for all, they only name players."""
    relay = await Relay(watch=True).start()
    client = await boards_of(relay, ("f1", START, MOVES), ("f2", 518, []))
    page = await browser.open(url("round.html"))
    await page.fill("#server", relay.watch_address)
    await page.click("#source .main")
    await until_names(page, "f1", "f2")
    assert await page.run("location.search") == f"?watch={relay.watch_address}"
    assert not await page.run('document.querySelector("#settings").open')
    await unfold(page)
    await page.fill("#lines", "f2 518 Carlsen, Magnus – Caruana\nf3")
    await page.click("#every")
    await page.click("#source .main")
    tiles = await until_names(page, "f2", "f3", "f1")
    assert [it["sides"] for it in tiles] == [["Caruana", "Carlsen, Magnus"], ["Black", "White"], ["Black", "White"]], tiles
    assert await page.run("decodeURIComponent(location.search)") == f"?watch={relay.watch_address}&players=f2 Carlsen, Magnus–Caruana;f3"
    await unfold(page)
    entered = await page.run('[document.querySelector("#lines").value, document.querySelector("#every").checked]')
    assert entered == ["f2 Carlsen, Magnus–Caruana\nf3", True]
    await page.click("#hall")
    await page.click("#source .main")
    await page.until('document.body && document.body.classList.contains("hall")')
    await until_names(page, "f2", "f3", "f1")
    assert not page.faults, page.faults
    await page.close()
    hall = await browser.open(url("round.html", watch="ws://127.0.0.1:9", hall=""), (1280, 720))
    await hall.until('document.querySelector("#none").checkVisibility()'
                     ' && document.querySelector("#none").textContent.startsWith("No connection")')
    await hall.close()
    await client.close()
