"""Tests of the page of a round; pages.py runs them with its own."""
import asyncio
import contextlib
import http
import json
import mimetypes
import pathlib
import ssl
import statistics
import subprocess
import tempfile

import websockets

from gone import beat, following, moved, over
from relay_client.client import Client
from relay_client.program import fens, start_fen
from relay_client.relay import Relay
from steps import WEB, catch_files, pgn, text, tightened, today, unfold, until_moves, until_state, url, watch
from told import Channels

START = 387
MOVES = ["d1e3", "e8d6", "f1g1", "f8g8", "f2f4", "c7c5"]
MATE = ["f2f3", "e7e5", "g2g4", "d8h4"]
OTHER_HOST = "site.test"  # A name of this machine's that does not say so; pages.py gives it to the browser.
LOOKED = 8  # Seconds for which a tile is in sight until it counts as seen.

TILES = """[...document.querySelectorAll(".tile")].map((it) => {
  const said = (name) => it.querySelector(name).textContent;
  const men = [..."87654321"].map((rank) => [..."abcdefgh"].map((file) => {
    const cell = it.querySelector(`[data-square=${file}${rank}]`);
    const isDrawn = getComputedStyle(cell).backgroundImage.includes("data:image/svg+xml");
    return isDrawn === Boolean(cell.dataset.man) ? cell.dataset.man || "1" : "?";
  }).join(""));
  return {name: said(".name"), start: said(".head .number"), fresh: said(".fresh"), state: it.dataset.state, men, move: said(".last-move"),
          stand: said(".stand"), turn: [...it.querySelectorAll(".plate.turn .side")].map((side) => side.textContent),
          sides: [...it.querySelectorAll(".side")].map((side) => side.textContent),
          parts: [...it.querySelectorAll(".part")].map((part) => part.textContent),
          label: it.querySelector(".inner").getAttribute("aria-label"), href: it.querySelector(".inner").getAttribute("href"),
          marked: [...it.querySelectorAll(".square.last")].map((square) => square.dataset.square).sort()};
})"""


async def tiles_of(page):
    tiles = await page.run(TILES)
    for tile in tiles:
        tile["men"] = "/".join(tightened(it) for it in tile["men"])
    return tiles


async def until_tiles(page, test, seconds=30):
    """Waits until the tiles are as they are to be."""
    for _ in range(int(seconds * 20)):
        tiles = await tiles_of(page)
        if test(tiles):
            return tiles
        await asyncio.sleep(0.05)
    raise AssertionError(f"not within {seconds} s: {tiles}")


async def until_settled(page, count):
    """Waits until so many boards have come, and nothing more is said of them."""
    await until_tiles(page, lambda tiles: len(tiles) == count and all(it["state"] in ("live", "over") for it in tiles))
    await asyncio.sleep(0.5)


def men(fen):
    return fen.split(" ")[0]


async def boards_of(relay, *games):
    """An operator who plays these games, each as its board, its start and its moves."""
    client = await Client.to(relay.address)
    for board, start, moves in games:
        await client.open(board, start)
        await client.submit(board, *moves)
    return client


async def try_round(browser):
    """The boards of a round: names, players, starts, positions, last moves, who has the move, and results; a click opens the board."""
    relay = await Relay().start()
    client = await boards_of(relay, ("r1-1", START, MOVES), ("r1-2", 518, MATE), ("r1-3", START, MOVES[:3]), ("r1-4", 0, []),
                             ("r1-5", 959, []))
    await client.ask(cmd="end", board="r1-3", how="resign", side="white")
    await client.end("r1-5", "abandoned")
    page = await browser.open(url("round.html", server=relay.address, boards="r1-1,r1-2,r1-3,r1-4,r1-5,r1-6",
                                  players="Carlsen, Magnus–Caruana;Vachier-Lagrave%20-%20So;;Ding"))
    tiles = await until_tiles(page, lambda them: len(them) == 6
                              and [it["state"] for it in them] == ["live", "over", "over", "live", "over", "refused"])
    await asyncio.sleep(0.5)
    tiles = await tiles_of(page)
    had = [(it["name"], it["start"], it["sides"], it["parts"], it["move"], it["stand"], it["turn"]) for it in tiles]
    assert had == [
        ("r1-1", "no. 387", ["Caruana", "Carlsen, Magnus"], ["", "to move"], "3… c5", "", ["Carlsen, Magnus"]),
        ("r1-2", "no. 518", ["So", "Vachier-Lagrave"], ["1", "0"], "2… Qh4#", "0–1", []),
        ("r1-3", "no. 387", ["Black", "White"], ["1", "0"], "2. O-O", "0–1", []),
        ("r1-4", "no. 0", ["Black", "Ding"], ["", "to move"], "", "", ["Ding"]),
        ("r1-5", "no. 959", ["Black", "White"], ["", ""], "", "No result", []),
        ("r1-6", "", ["Black", "White"], ["", ""], "", "Not open yet", []),
    ], had
    positions = [fens(START, MOVES)[-1], fens(518, MATE)[-1], fens(START, MOVES[:3])[-1], start_fen(0), start_fen(959)]
    assert [it["men"] for it in tiles[:5]] == [men(it) for it in positions] and tiles[5]["men"] == "8/8/8/8/8/8/8/8"
    assert tiles[0]["marked"] == ["c5", "c7"] and tiles[2]["marked"] == ["f1", "g1"]
    assert tiles[0]["label"] == "r1-1, Carlsen, Magnus – Caruana, start 387, last move 3… c5, White to move", tiles[0]["label"]
    assert tiles[1]["label"] == "r1-2, Vachier-Lagrave – So, start 518, last move 2… Qh4#, Black wins by checkmate", tiles[1]["label"]
    assert tiles[3]["label"] == "r1-4, Ding, start 0, White to move" and tiles[5]["label"] == "r1-6, Not open yet", tiles
    assert await text(page, "#state") == "2 live, 3 over, 1 waiting"
    await client.submit("r1-4", "f2f4")
    await client.open("r1-6", 100)
    tiles = await until_tiles(page, lambda them: them[3]["move"] == "1. f4" and them[5]["state"] == "live")
    assert tiles[3]["men"] == men(fens(0, ["f2f4"])[-1]) and tiles[3]["turn"] == ["Black"] and tiles[5]["men"] == men(start_fen(100))
    assert not await page.run('document.querySelector("#settings").open')
    await page.click(".tile:nth-child(4) .inner")
    await page.until('location.pathname.endsWith("watch.html") && document.readyState === "complete"')
    await until_moves(page, 1)
    assert await text(page, "#watched") == "r1-4" and await page.run("document.title") == "r1-4 – Watch a board"
    assert await text(page, "#lower .side") == "Ding" and await text(page, "#upper .side") == "Black"
    assert not await page.run('document.querySelector("#settings").open')
    assert not page.faults, page.faults
    await page.close()
    await client.close()


async def try_round_pgn(browser):
    """The games of a round are saved as one file, one of each board that is or was open, in their order; a board that goes on has its next
    name. The round is that of the board's name, or of the address, which has the event, too."""
    relay = await Relay().start()
    page = await browser.open(url("round.html", server=relay.address, boards="r1-1,r1-2,r1-3,r1-4,r1-5",
                                  players="Carlsen, Magnus–Caruana;Ding"))
    await until_tiles(page, lambda them: [it["state"] for it in them] == ["refused"] * 5)
    await catch_files(page)
    assert await page.run('document.querySelector("#save-round").hidden'), "there is nothing to be saved yet"
    client = await boards_of(relay, ("r1-1", START, MOVES), ("r1-2", 518, MATE), ("r1-4", 0, []), ("r1-5", 518, MATE[:1]))
    await client.end("r1-5", "abandoned")
    await client.open("r1-5_2", 518)
    await client.submit("r1-5_2", "d2d4")
    await until_tiles(page, lambda them: [it["move"] for it in them] == ["3… c5", "2… Qh4#", "", "", "1. d4"]
                      and them[3]["state"] == "live")
    day = await today(page)
    mate = "1. f3 e5 2. g4 Qh4# {Black mates.} 0-1"
    others = [pgn("r1-2", 518, mate, day, ("Ding", "?"), "normal", round_="1.2"), pgn("r1-4", 0, "*", day, round_="1.4")]
    await page.click("#save-round")
    first = pgn("r1-1", START, "1. Ne3 Nd6 2. O-O O-O 3. f4 c5 *", day, ("Carlsen, Magnus", "Caruana"), round_="1.1")
    file = "\n".join([first, *others, pgn("r1-5_2", 518, "1. d4 *", day, round_="1.5")])
    assert await page.run("saved") == ["round.pgn", file, "application/vnd.chess-pgn"], await page.run("saved")
    await client.end("r1-1")
    await client.submit("r1-5_2", "d7d5")
    await until_tiles(page, lambda them: them[0]["state"] == "over" and them[4]["move"] == "1… d5")
    await page.click("#save-round")
    drawn = "1. Ne3 Nd6 2. O-O O-O 3. f4 c5 {Draw agreed.} 1/2-1/2"
    first = pgn("r1-1", START, drawn, day, ("Carlsen, Magnus", "Caruana"), "normal", round_="1.1")
    file = "\n".join([first, *others, pgn("r1-5_2", 518, "1. d4 d5 *", day, round_="1.5")])
    assert (await page.run("saved"))[1] == file, await page.run("saved")
    one = await watch(browser, relay, "r1-4", event="Club%20final", round="3")
    await until_state(one, "live")
    await catch_files(one)
    await one.until('!document.querySelector("#save-pgn").hidden')
    await one.click("#save-pgn")
    assert (await one.run("saved"))[1] == pgn("r1-4", 0, "*", day, event="Club final", round_="3"), await one.run("saved")
    await one.close()
    assert not page.faults, page.faults
    await page.close()
    await client.close()


async def try_check(browser):
    """A check is said beside the player who stands in it, and marked on the board."""
    relay = await Relay().start()
    client = await boards_of(relay, ("r1", 518, ["e2e4", "f7f6", "d1h5"]))
    page = await browser.open(url("round.html", server=relay.address, boards="r1"))
    tiles = await until_tiles(page, lambda them: them and them[0]["move"] == "2. Qh5+")
    assert tiles[0]["parts"] == ["in check", ""] and tiles[0]["label"] == "r1, start 518, last move 2. Qh5+, Black in check", tiles
    assert await page.run('document.querySelector(".square.check").dataset.square') == "e8"
    await page.close()
    await client.close()


async def try_new(browser):
    """What came since the visitor looked last is marked, also in a later visit: until it was in sight for some seconds, or was pointed
    at."""
    relay = await Relay().start()
    names = [f"n{number}" for number in range(1, 9)]
    client = await boards_of(relay, *((name, START, MOVES[:1]) for name in names))
    address = url("round.html", server=relay.address, boards=",".join(names))
    page = await browser.open(address, (390, 460))
    await until_settled(page, 8)
    assert [it["fresh"] for it in await tiles_of(page)] == [""] * 8, "a first visit has nothing new"
    for number in (1, 2, 3, 8):
        await page.hover(f".tile:nth-child({number})")
    await page.close()
    await client.submit("n1", *MOVES[1:4])
    await client.end("n2")
    await client.submit("n8", MOVES[1])
    page = await browser.open(address, (390, 460))
    await until_settled(page, 8)
    tiles = await tiles_of(page)
    assert [it["fresh"] for it in tiles] == ["3 new", "new", "", "", "", "", "", "1 new"], tiles
    assert tiles[0]["label"].endswith("White to move, 3 new"), tiles[0]["label"]
    assert await page.run('getComputedStyle(document.querySelector(".tile.new .inner")).borderColor !== '
                          'getComputedStyle(document.querySelector(".tile:not(.new) .inner")).borderColor')
    await page.hover(".tile:nth-child(1)")
    assert [it["fresh"] for it in await tiles_of(page)] == ["", "new", "", "", "", "", "", "1 new"]
    assert await page.run('document.querySelector(".tile:nth-child(8)").getBoundingClientRect().top > innerHeight')
    await asyncio.sleep(LOOKED)
    tiles = await until_tiles(page, lambda them: them[1]["fresh"] == "", 5)
    assert tiles[7]["fresh"] == "1 new", "a tile out of sight was not seen"
    await page.run('document.querySelector(".tile:nth-child(8)").scrollIntoView()')
    await until_tiles(page, lambda them: them[7]["fresh"] == "", LOOKED + 5)
    await client.submit("n1", MOVES[4])
    await until_tiles(page, lambda them: them[0]["fresh"] == "1 new")
    await page.run('document.querySelector(".tile:nth-child(1) .inner").focus()')
    await until_tiles(page, lambda them: them[0]["fresh"] == "", 2)
    await page.close()
    page = await browser.open(address, (390, 460))
    await until_settled(page, 8)
    assert [it["fresh"] for it in await tiles_of(page)] == [""] * 8
    assert not page.faults, page.faults
    await page.close()
    await client.close()


async def try_heirs(browser):
    """Boards of channels: one that goes on under its next name leads there, one that is silent says so, and one that comes back shows no
    move twice."""
    async with Channels() as channels:
        for board in ("c1", "c2"):
            await channels.says(board, following(), beat(), *moved(["d2d4", "d7d5"]))
        page = await browser.open(url("round.html", channel=channels.address, boards="c1,c2,c3"))
        tiles = await until_tiles(page, lambda them: [it["state"] for it in them] == ["live", "live", "connecting"])
        assert tiles[2]["stand"] == "Not open yet"
        assert tiles[0]["href"] == f"watch.html?channel={channels.address}&board=c1", tiles[0]["href"]
        await channels.says("c1_2", following(), beat(), *moved(["e2e4"]))
        await channels.says("c1", over(), {"board": "c1_2", "reply": "next"})
        tiles = await until_tiles(page, lambda them: them[0]["name"] == "c1_2" and them[0]["move"] == "1. e4")
        assert tiles[0]["href"].endswith("&board=c1_2") and tiles[0]["men"] == men(fens(518, ["e2e4"])[-1])
        await page.run("window.now = Date.now; Date.now = () => now() + 60000")
        tiles = await until_tiles(page, lambda them: them[1]["state"] == "silent", 5)
        assert tiles[1]["stand"].startswith("No signal since "), tiles[1]
        await page.run("Date.now = now")
        await channels.loses("c2")
        await until_tiles(page, lambda them: them[1]["stand"] == "No connection")
        await channels.says("c2", *moved(["c2c4"], 2))
        tiles = await until_tiles(page, lambda them: them[1]["move"] == "2. c4")
        assert tiles[1]["men"] == men(fens(518, ["d2d4", "d7d5", "c2c4"])[-1])
        assert not page.faults, page.faults
        await page.close()


SIZES = """(() => {
  const tiles = [...document.querySelectorAll(".tile")].map((it) => it.getBoundingClientRect());
  const boards = [...document.querySelectorAll(".tile .board")].map((it) => it.getBoundingClientRect());
  const meets = (a, b) => a.left < b.right && b.left < a.right && a.top < b.bottom && b.top < a.bottom;
  return {over: document.documentElement.scrollWidth - innerWidth, width: Math.min(...tiles.map((it) => it.width)),
          inside: tiles.every((it) => it.left >= 0 && it.top >= 0 && it.right <= innerWidth && it.bottom <= innerHeight),
          filled: Math.max((Math.max(...tiles.map((it) => it.right)) - Math.min(...tiles.map((it) => it.left))) / innerWidth,
                           (Math.max(...tiles.map((it) => it.bottom)) - Math.min(...tiles.map((it) => it.top))) / innerHeight),
          meeting: tiles.some((a, index) => tiles.slice(index + 1).some((b) => meets(a, b))),
          square: boards.every((it) => Math.abs(it.width - it.height) < 1),
          cut: [...document.querySelectorAll(".inner")].filter((it) => it.scrollHeight > it.clientHeight + 1).length,
          controls: [...document.querySelectorAll("a, button, input, select, textarea, summary, [tabindex]")]
            .filter((it) => it.checkVisibility()).length};
})()"""


async def sizes(page, size):
    """What stands where in a window of that size, once the page has laid itself out."""
    await page.resize(*size)
    await page.run("new Promise((done) => requestAnimationFrame(() => requestAnimationFrame(done)))")
    return await page.run(SIZES)


async def try_room(browser):
    """From a phone to a projector: nothing beside the window and no tile on another; in a hall all boards are in sight, and nothing is a
    control."""
    relay = await Relay(boards=64).start()
    names = [f"s{number}" for number in range(1, 65)]
    client = await boards_of(relay, *((name, START, MOVES[:number % 7]) for number, name in enumerate(names)))
    await client.end("s2")
    for count in (1, 6, 64):
        address = url("round.html", server=relay.address, boards=",".join(names[:count]),
                      players=";".join(["Vachier-Lagrave, Maxime–So"] * count))
        page = await browser.open(address)
        await until_settled(page, count)
        if count == 6:
            await page.media(prefers_color_scheme="dark", prefers_reduced_motion="reduce")
        for size in ((390, 800), (844, 390), (768, 1024), (1280, 900), (1366, 768), (1920, 1080)):
            had = await sizes(page, size)
            assert had["over"] <= 0 and not had["meeting"] and had["square"] and not had["cut"] and had["width"] >= 136, (count, size, had)
            assert had["controls"] == count + 2, had
        if count == 64:
            assert had["inside"], "64 boards are on one screen of 1920 by 1080"
        tree = (await page.call("Accessibility.getFullAXTree"))["nodes"]
        links = [it["name"]["value"] for it in tree if it.get("role", {}).get("value") == "link" and not it["ignored"]]
        assert len(links) == count and all(it.startswith(f"{name}, ") for it, name in zip(links, names)), links
        assert not page.faults, page.faults
        await page.close()
        hall = await browser.open(f"{address}&hall", (1920, 1080))
        await until_settled(hall, count)
        for size in ((1024, 768), (1280, 720), (1920, 1080)):
            had = await sizes(hall, size)
            assert had["inside"] and not had["meeting"] and had["square"] and not had["cut"] and had["controls"] == 0, (count, size, had)
            assert had["filled"] > 0.95, (count, size, had)
        await hall.click(".tile .inner")
        await asyncio.sleep(0.2)
        assert "round.html" in await hall.run("location.href") and not hall.faults, hall.faults
        await hall.close()
    await client.close()


async def try_form(browser):
    """The form makes an address that shows the boards: an operator's list can be pasted, and a wrong name is refused."""
    relay = await Relay().start()
    client = await boards_of(relay, ("f1", START, MOVES), ("f2", 518, []))
    page = await browser.open(url("round.html"))
    assert await page.run('document.querySelector("#settings").open')
    assert await page.run('["server", "kind"].map((it) => document.querySelector(`#${it}`).value)') == ["ws://127.0.0.1:9601", "watch"]
    await page.fill("#server", relay.address)
    await page.choose("#kind", "relay")
    for lines, words in (("f1\nf/2", "f/2 is no board's name"), ("f1\nf2\nf1", "f1 stands here twice"),
                         ("f_1\nf_2", "f_2 is the next name of another board here"),
                         ("f1 A;B – C\nf2", "f1: a player's name may have no ;"),
                         ("f1\nf2 Smith – Jones - Brown", "f2: a player's name may have no dash")):
        await page.fill("#lines", lines)
        await page.click("#source .main")
        assert words in await page.run('document.querySelector("#lines").validationMessage')
    await page.fill("#lines", "f1 387 Carlsen, Magnus – Caruana\n\n  f2 518\n")
    await page.click("#source .main")
    await until_tiles(page, lambda them: [it["state"] for it in them] == ["live", "live"])
    had = [(it["name"], it["sides"]) for it in await tiles_of(page)]
    assert had == [("f1", ["Caruana", "Carlsen, Magnus"]), ("f2", ["Black", "White"])], had
    assert await page.run("decodeURIComponent(location.search)") == f"?server={relay.address}&boards=f1,f2&players=Carlsen, Magnus–Caruana;"
    await unfold(page)
    assert await page.run('document.querySelector("#lines").value') == "f1 Carlsen, Magnus–Caruana\nf2"
    await page.click("#hall")
    await page.click("#source .main")
    await page.until('document.body && document.body.classList.contains("hall")')
    await page.close()
    page = await browser.open(url("round.html", server=relay.address, boards="f1,f/2"))
    await until_tiles(page, lambda them: [it["name"] for it in them] == ["f1"])
    assert await text(page, "#said") == "No board can have this name: f/2." and not page.faults, page.faults
    await page.close()
    for given, words in (({"boards": "f1,f2", "players": "A;B–C;D–E"}, "The address has more pairs of players than boards"),
                         ({"players": "f1 A;B–C;f2 D–E"}, "No board can have this name: B–C.")):
        page = await browser.open(url("round.html", server=relay.address, **given))
        assert words in await text(page, "#said") and not page.faults, (given, page.faults)
        await page.close()
    await client.close()


async def try_turns(browser):
    """A server that takes each connection slowly: none of many is given up while it waits for the others."""
    count, lost = 0, []

    async def slowly(path, headers):
        await asyncio.sleep(0.6)

    async def follow(socket, path):
        nonlocal count
        count += 1
        await socket.send(json.dumps(following()))
        await socket.wait_closed()
        lost.append(socket)

    async with websockets.serve(follow, "127.0.0.1", 0, compression=None, ping_interval=None, process_request=slowly) as server:
        address = f"ws://127.0.0.1:{server.sockets[0].getsockname()[1]}"
        names = [f"t{number}" for number in range(24)]
        page = await browser.open(url("round.html", channel=address, boards=",".join(names)))
        await page.run("""window.losses = 0;
          new MutationObserver((them) => { losses += them.filter((it) => it.target.dataset.state === "lost").length; })
          .observe(document.querySelector("#boards"), {attributes: true, subtree: true, attributeFilter: ["data-state"]})""")
        await page.until('document.querySelectorAll(".square[data-man=p]").length === 24 * 8', 40)
        assert count == 24 and not lost and await page.run("losses") == 0, (count, len(lost), await page.run("losses"))
        await page.close()


SECONDS = 60
QUIET = [move for step in (("2", "3", "7", "6"), ("3", "4", "6", "5")) for file in "abcdeh"
         for move in ["g1f3", "g8f6", "f3g1", "f6g8", f"{file}{step[0]}{file}{step[1]}", f"{file}{step[2]}{file}{step[3]}"]]


async def traced(page, act):
    """The tasks of a page while something is done: for each its second, its time by the clock, and that of the processor, in
    milliseconds."""
    page.kept.update({"Tracing.dataCollected": [], "Tracing.tracingComplete": []})
    await page.call("Tracing.start", categories="-*,toplevel,disabled-by-default-devtools.timeline,__metadata", transferMode="ReportEvents")
    await act()
    await page.call("Tracing.end")
    while not page.kept["Tracing.tracingComplete"]:
        await asyncio.sleep(0.05)
    events = [event for params in page.kept["Tracing.dataCollected"] for event in params["value"]]
    mains = {(it["pid"], it["tid"]) for it in events if it["name"] == "thread_name" and it["args"]["name"] == "CrRendererMain"}
    return [(it["ts"] // 1000000, it["dur"] / 1000, it["tdur"] / 1000) for it in events if it["name"] == "RunTask"
            and (it["pid"], it["tid"]) in mains and "tdur" in it]


def longest_of(tasks):
    """The longest task of each second, by the processor's time."""
    longest = {}
    for second, _, own in tasks:
        longest[second] = max(own, longest.get(second, 0))
    return list(longest.values())


LONG = 50  # Milliseconds: a task that takes longer is felt.
SPARE = 1  # So many of a minute's tasks may: a processor is now and then charged with what others do there.
HARDLY = 0.02  # The part of the time that tasks worked for which they wait where nothing else runs.


async def try_smooth(browser):
    """64 boards on one screen, each with a move a second for a minute: no task of the page takes 50 ms, but for one that the machine may
    have disturbed."""
    relay = await Relay(boards=64, connections=100).start()
    names = [f"m{number}" for number in range(64)]
    await smooth_for(browser, relay, names, url("round.html", server=relay.address, boards=",".join(names)))


async def smooth_for(browser, relay, names, address):
    """Whether the page at an address is smooth while each of these boards of the relay has a move a second."""
    client = await boards_of(relay, *((name, 518, []) for name in names))
    page = await browser.open(address, (1920, 1080))
    await until_settled(page, 64)
    await page.run('window.long = []; '
                   'new PerformanceObserver((list) => list.getEntries().forEach((it) => long.push(Math.round(it.duration))))'
                   '.observe({entryTypes: ["longtask"]})')

    async def play():
        began = asyncio.get_running_loop().time()
        for number, move in enumerate(QUIET[:SECONDS]):
            for board in names:
                await client.submit(board, move)
            await asyncio.sleep(max(0, began + number + 1 - asyncio.get_running_loop().time()))

    async def block():
        await page.run("""new Promise((done) => setTimeout(() => {
          const goal = performance.now() + 400;
          while (performance.now() < goal) { Math.random(); }
          setTimeout(done, 300);
        }, 0))""")

    tasks = await traced(page, play)
    seen = await page.run("long")
    expected = men(fens(518, QUIET[:SECONDS])[-1])
    tiles = await until_tiles(page, lambda them: all(it["men"] == expected for it in them))
    assert len(tiles) == 64 and len(tasks) > 64 * SECONDS, len(tasks)
    # By the clock a task takes longer where it waits for the processor, which others have. What counts on any machine is its time of the
    # processor; where tasks hardly wait, the clock counts too.
    waited, worked = sum(taken - own for _, taken, own in tasks), sum(own for _, _, own in tasks)
    longest = longest_of(tasks)
    print(f"    {len(tasks)} tasks in {len(longest)} s, which waited {waited / worked:.0%} of the time that they worked; "
          "the longest of each second, in ms of the "
          f"processor: {statistics.median(longest):.0f} in the median, {', '.join(f'{it:.0f}' for it in sorted(longest)[-3:])} at most; "
          f"{len(seen)} over {LONG} ms by the clock")
    assert len(longest) >= SECONDS, len(longest)
    assert sum(own > LONG for _, _, own in tasks) <= SPARE, sorted(longest)
    if waited < HARDLY * worked:
        assert len(seen) <= SPARE, seen
    blocked = await traced(page, block)
    assert max(own for _, _, own in blocked) > LONG and len(await page.run("long")) > len(seen), "a long task is noticed"
    assert not page.faults, page.faults
    await page.close()
    await client.close()


def tls():
    """What a server behind TLS is given, with a new certificate."""
    with tempfile.TemporaryDirectory() as folder:
        key, certificate = pathlib.Path(folder, "key.pem"), pathlib.Path(folder, "certificate.pem")
        subprocess.run(["openssl", "req", "-x509", "-newkey", "ec", "-pkeyopt", "ec_paramgen_curve:prime256v1", "-nodes", "-days", "2",
                        "-subj", "/CN=localhost", "-keyout", str(key), "-out", str(certificate)], check=True, capture_output=True)
        context = ssl.SSLContext(ssl.PROTOCOL_TLS_SERVER)
        context.load_cert_chain(certificate, key)
        return context


@contextlib.asynccontextmanager
async def site(channels, context):
    """A site, behind TLS where a context is given, with the pages under /pages/ and the channels under /sub/; answers its port."""
    async def serve_page(path, _):
        if path.startswith("/sub/"):
            return None
        file = WEB / path.split("?")[0].removeprefix("/pages/")
        kind = mimetypes.guess_type(file.name)[0]
        policy = "default-src 'self'; img-src 'self' data:"
        return http.HTTPStatus.OK, {"Content-Type": kind, "Content-Security-Policy": policy}, file.read_bytes()

    async with websockets.serve(channels.read, "127.0.0.1", 0, ssl=context, compression=None, ping_interval=None,
                                process_request=serve_page) as server:
        yield server.sockets[0].getsockname()[1]


SETTINGS = '[document.querySelector("#server").value, document.querySelector("#kind").value, document.querySelector("#settings").open]'


async def try_front(browser):
    """A site's front, behind TLS and without: both pages take the channels of their own host, and fold the form away where the address says
    what to watch."""
    for scheme, host in (("https", "127.0.0.1"), ("http", OTHER_HOST)):
        async with Channels() as channels, site(channels, tls() if scheme == "https" else None) as port:
            await look_at_front(browser, channels, scheme, f"{host}:{port}")


async def look_at_front(browser, channels, scheme, host):
    wire = scheme.replace("http", "ws")
    for board in ("w1", "w2"):
        await channels.says(board, following(), beat(), *moved(["d2d4"]))
    page = await browser.open(f"{scheme}://{host}/pages/round.html?boards=w1,w2")
    tiles = await until_tiles(page, lambda them: [it["state"] for it in them] == ["live", "live"])
    assert [it["move"] for it in tiles] == ["1. d4"] * 2 and tiles[0]["href"] == "watch.html?board=w1", tiles
    assert not await page.run('document.querySelector("#settings").open')
    await page.click(".tile:nth-child(2) .inner")
    await page.until('location.pathname.endsWith("watch.html") && document.readyState === "complete"')
    await until_moves(page, 1)
    await until_state(page, "live")
    assert not await page.run('document.querySelector("#settings").open') and await text(page, "#watched") == "w2"
    for name, is_open in (("round.html", False), ("watch.html", True)):  # Without the name of a board there is none to watch.
        front = await browser.open(f"{scheme}://{host}/pages/{name}")
        assert await front.run(SETTINGS) == [f"{wire}://{host}/sub", "channel", is_open], await front.run(SETTINGS)
        await front.close()
    elsewhere = await browser.open(f"{scheme}://{host}/pages/watch.html?server={wire}://{host}/relay")
    assert (await elsewhere.run(SETTINGS))[:2] == [f"{wire}://{host}/relay", "relay"], await elsewhere.run(SETTINGS)
    tables = await browser.open(f"{scheme}://{host}/pages/tables.html?boards=a")
    assert await tables.run('document.querySelector("#watch").hidden'), "a site's spectators have its channels"
    for it in (page, elsewhere, tables):
        assert not it.faults, it.faults
        await it.close()


async def try_own_machine(browser):
    """A page that its own machine serves takes the machine's relay, as one from disk does."""
    async with Channels() as channels, site(channels, None) as port:
        for name in ("round.html", "watch.html"):
            page = await browser.open(f"http://127.0.0.1:{port}/pages/{name}")
            assert await page.run(SETTINGS) == ["ws://127.0.0.1:9601", "watch", True], await page.run(SETTINGS)
            await page.close()
        tables = await browser.open(f"http://127.0.0.1:{port}/pages/tables.html?boards=a")
        assert not await tables.run('document.querySelector("#watch").hidden')
        await tables.close()


async def try_numbers(browser):
    """The start number of each of the 960 arrays is read off its position; another position has none."""
    page = await browser.open(url("round.html"))
    assert await page.run("[...Array(960).keys()].filter((it) => Position.startNumber(Position.start(it)) !== it)") == []
    read = "Position.startNumber(Position.read({}))"
    for number in (0, 1, 4, 16, 95, 96, 387, 518, 700, 959):
        assert await page.run(read.format(json.dumps(start_fen(number)))) == number
    for fen in (fens(518, ["e2e4"])[-1], "4k3/8/8/8/8/8/8/QQQQKQQQ w - - 0 1", "bnrqkbnr/pppppppp/8/8/8/8/PPPPPPPP/RNBQKBNR w HAhc - 0 1"):
        assert await page.run(read.format(json.dumps(fen))) is None
    await page.close()
