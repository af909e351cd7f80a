"""Tests of the page on which one operator has all boards of a round; pages.py runs them with its own."""
import asyncio
import contextlib
import functools
import http.server
import json
import textwrap
import threading
import time

import websockets

from back import log_of
from relay_client.client import Client
from relay_client.relay import Relay
from relay_client.wire import Wire
from steps import GRACE, WEB, catch_files, pgn, text, today, url

LINES = "t1 387 Carlsen, Magnus – Caruana\n\nt2 So - Ding\nt3 0"
TABS = """[...document.querySelectorAll(".tab")].map((it) => ({name: it.querySelector("b").textContent,
    players: it.querySelector(".players").textContent,
    stand: it.querySelector(".stand").textContent, wants: it.dataset.wants, isShown: it.getAttribute("aria-selected")}))"""


class Quiet(http.server.SimpleHTTPRequestHandler):
    def log_message(self, *_):
        pass


@contextlib.contextmanager
def site():
    """The pages over HTTP, so that a test reads the frames."""
    with http.server.ThreadingHTTPServer(("127.0.0.1", 0), functools.partial(Quiet, directory=str(WEB))) as server:
        threading.Thread(target=server.serve_forever, daemon=True).start()
        yield f"http://127.0.0.1:{server.server_address[1]}"
        server.shutdown()


async def until_stand(page, *stands):
    """Waits until the tabs say this, one after another."""
    try:
        await page.until(f'JSON.stringify({TABS}.map((it) => it.stand)) === JSON.stringify({json.dumps(stands)})')
    except AssertionError as fault:
        raise AssertionError(await page.run(TABS)) from fault


def frame(index, script):
    return f'(() => {{ const frame = document.querySelectorAll("iframe")[{index}]; const document_ = frame.contentDocument; {script} }})()'


async def play(page, index, move):
    await page.run(frame(index, f'document_.querySelector("#move").value = "{move}"; document_.querySelector("#typed").requestSubmit();'))


async def open_round(browser, address, relay):
    page = await browser.open(f"{address}/tables.html?server={relay.address}")
    await page.fill("#lines", LINES)
    await page.click("#source .main")
    return page


async def try_tabs(browser):
    """A round is opened from pasted lines, a board a tab: each says whose move it is, and an end; one key has them all."""
    relay = await Relay(grace=GRACE).start()
    with site() as address:
        page = await open_round(browser, address, relay)
        await until_stand(page, "White to move", "White to move", "White to move")
        tabs = await page.run(TABS)
        assert [(it["name"], it["players"], it["wants"], it["isShown"]) for it in tabs] == [
            ("t1", "Carlsen, Magnus–Caruana", "live", "true"), ("t2", "So–Ding", "live", "false"), ("t3", "", "live", "false")], tabs
        assert await text(page, "#state") == "3 open"
        await play(page, 1, "e4")
        await until_stand(page, "White to move", "Black to move", "White to move")
        assert await log_of(relay, "t2") == (["e2e4"], None)
        for move in ("f6", "d4", "g5", "Qh5#"):
            await play(page, 1, move)
            await page.until(frame(1, f'return document_.querySelector("#moves").textContent.includes("{move}")'))
        await until_stand(page, "White to move", "1–0: White wins by checkmate.", "White to move")
        assert await text(page, "#state") == "2 open, 1 over"
        assert await page.run(frame(0, 'return document_.querySelector("#lower .side").textContent')) == "Carlsen, Magnus"
        await page.run('document.querySelector(".tab").focus()')
        await page.press("ArrowRight")
        await page.press("End")
        assert [it["isShown"] for it in await page.run(TABS)] == ["false", "false", "true"]
        assert await page.run('getComputedStyle(document.querySelectorAll("iframe")[2]).visibility') == "visible"
        key = await page.run(f"localStorage.getItem('sirvandu.key 127.0.0.1:{relay.port}')")
        other = await Client.to(relay.address, key)
        await other.submit("t1", "d1e3")
        await other.submit("t3", "f2f4")
        await other.close()
        assert not page.faults, page.faults
        await page.close()


async def try_tabs_attention(browser):
    """A board whose connection is lost, and one that comes near a draw, are marked; a page that is loaded again opens nothing by itself."""
    relay = await Relay(grace=GRACE).start()
    wire = await Wire(relay.port).mend()
    with site() as address:
        page = await browser.open(f"{address}/tables.html?server={wire.address}")
        await page.fill("#lines", "a1\na2")
        await page.click("#source .main")
        await until_stand(page, "White to move", "White to move")
        for place, move in enumerate(["g1f3", "g8f6", "f3g1", "f6g8"], 1):
            await play(page, 0, move)
            await page.until(frame(0, f'return document_.querySelectorAll(".move[data-place]").length === {place}'))
        await page.until('document.querySelector(".tab").dataset.wants === "near"')
        assert "White to move. This position has occurred twice" in (await page.run(TABS))[0]["stand"]
        assert await page.run("document.title") == "⚠ a1 – Operate a round"
        await wire.cut()
        await page.until('[...document.querySelectorAll(".tab")].every((it) => it.dataset.wants === "alarm")')
        assert await page.run("document.title") == "⚠ a1, a2 – Operate a round"
        assert await text(page, "#state") == "2 without connection" and "No connection" in (await page.run(TABS))[1]["stand"]
        await wire.mend()
        await page.until('document.querySelector("#state").textContent === "2 open"')
        await page.go(await page.run("location.href"))
        await until_stand(page, "No board open", "No board open")
        assert await page.run("document.title") == "Operate a round"
        await asyncio.sleep(0.5)
        assert (await log_of(relay, "a2")) == ([], None)
        # A game that went on under its next name is offered too.
        await page.run(frame(0, 'const games = JSON.parse(localStorage.getItem("sirvandu.games")); '
                                'games.find((it) => it.board === "a1").board = "a1_2"; '
                                'localStorage.setItem("sirvandu.games", JSON.stringify(games));'))
        await page.go(await page.run("location.href"))
        await until_stand(page, "No board open", "No board open")
        assert await page.run(frame(0, 'return document_.querySelector("#go-on").textContent')) == "Continue a1_2"
        assert not page.faults, page.faults
        await page.close()
    await wire.cut()


class Slow:
    """A relay that is slow to open boards: it refuses o2, is gone for a while when it is asked for o3, and never answers for o5."""

    async def __aenter__(self):
        self.said, self.back = [], 0
        self.server = await websockets.serve(self.listen, "127.0.0.1", 0, compression=None, ping_interval=None, process_request=self.greet)
        self.address = f"ws://127.0.0.1:{self.server.sockets[0].getsockname()[1]}"
        return self

    async def greet(self, path, headers):
        return (503, [], b"") if time.monotonic() < self.back else None

    async def listen(self, socket, path):
        with contextlib.suppress(websockets.ConnectionClosed):
            async for said in socket:
                command = json.loads(said)
                if command["cmd"] == "open":
                    await self.open(socket, command["board"])
                else:
                    await socket.send('{"reply":"refused","code":1,"name":"NoSuchBoard"}')

    async def open(self, socket, board):
        self.said.append(f"asked {board}")
        if board == "o3" and not self.back:
            self.back = time.monotonic() + 3
            await socket.close()
        elif board != "o5":
            await asyncio.sleep(0.3)
            self.said.append(f"told {board}")
            await socket.send('{"reply":"refused","code":2,"name":"BoardExists"}' if board == "o2" else '{"reply":"opened"}')

    async def __aexit__(self, *_):
        self.server.close()
        await self.server.wait_closed()


async def try_tabs_order(browser):
    """The boards of a list are opened in its order, each once the one before was answered, also when the relay was gone for a while. One
    that gets no answer does not keep back those behind it, and any may be opened by hand before."""
    async with Slow() as relay:
        with site() as address:
            page = await browser.open(f"{address}/tables.html?server={relay.address}")
            await page.fill("#lines", "\n".join(f"o{number}" for number in range(1, 9)))
            await page.click("#source .main")
            await page.until(f'({TABS}[3] || {{}}).stand === "White to move"', 90)
            words = ["asked o1", "told o1", "asked o2", "told o2", "asked o3", "asked o3", "told o3", "asked o4", "told o4"]
            assert relay.said[:len(words)] == words, relay.said
            stands = [it["stand"] for it in await page.run(TABS)]
            assert stands[0] == stands[2] == "White to move" and stands[1] == "The board was not opened", stands
            assert stands[5:] == 3 * ["Opens after the boards before it"], stands
            await page.run(frame(6, 'document_.querySelector("#opening").requestSubmit()'))
            await page.until(f'({TABS}[6] || {{}}).stand === "White to move"', 90)
            assert relay.said[len(words):] == ["asked o5", "asked o7", "told o7"], relay.said
            await page.until(f'({TABS}[7] || {{}}).stand === "White to move"', 90)
            assert [it for it in relay.said if it != "asked o5"] == [*words, "asked o7", "told o7", "asked o6", "told o6", "asked o8",
                                                                     "told o8"], relay.said
            assert relay.said.count("asked o5") >= 2, relay.said
            assert not page.faults, page.faults
            await page.close()


ROOM = """(() => {
  const tabs = [...document.querySelectorAll(".tab")];
  const boxes = tabs.map((it) => it.getBoundingClientRect());
  const meets = (a, b) => a.left < b.right && b.left < a.right && a.top < b.bottom && b.top < a.bottom;
  const frame = document.querySelector(".shown iframe");
  const {documentElement: inner} = frame.contentDocument;
  const board = inner.querySelector(".board").getBoundingClientRect();
  return {over: document.documentElement.scrollWidth - innerWidth, beside: inner.scrollWidth - inner.clientWidth,
          inside: boxes.every((it) => it.left >= 0 && it.right <= innerWidth),
          meeting: boxes.some((a, index) => boxes.slice(index + 1).some((b) => meets(a, b))),
          cut: tabs.flatMap((it) => [it, it.querySelector(".stand")])
            .filter((it) => it.scrollWidth > it.clientWidth + 1 || it.scrollHeight > it.clientHeight + 1).length,
          tall: frame.getBoundingClientRect().height - innerHeight, board: board.width,
          low: frame.getBoundingClientRect().top + board.bottom - innerHeight};
})()"""
NAMES = ["r1-1 518 Vachier-Lagrave, Maxime – Nepomniachtchi, Ian", "r1-2 518 So – Ding", "r1-3",
         "a_long_name_of_thirty_two_letter 0 Vachier-Lagrave, Maxime – Ding"]


async def try_tabs_room(browser):
    """On a desk nothing has to be scrolled to see tabs and board; on a phone a frame is no higher than the screen, and its whole board is
    in sight there."""
    relay = await Relay(grace=GRACE).start()
    with site() as address:
        page = await browser.open(f"{address}/tables.html?server={relay.address}")
        await page.fill("#lines", "\n".join(NAMES))
        await page.click("#source .main")
        await until_stand(page, *4 * ["White to move"])
        for count, move in enumerate(["Nf3", "Nf6", "Ng1", "Ng8"], 1):
            await play(page, 0, move)
            await page.until(frame(0, f'return document_.querySelectorAll(".move[data-place]").length === {count}'))
        await page.until('document.querySelector(".tab").dataset.wants === "near"')
        for media in ({}, {"prefers_color_scheme": "dark", "prefers_reduced_motion": "reduce"}):
            await page.media(**media)
            for size, is_phone in (((1280, 900), False), ((1366, 768), False), ((390, 800), True), ((844, 390), True)):
                await page.resize(*size)
                await page.run("scrollTo(0, 0)")
                for index in range(4):
                    await page.run(f'document.querySelectorAll(".tab")[{index}].click()')
                    if is_phone:
                        await page.run('document.querySelector("#frames").scrollIntoView()')
                    await page.run("new Promise((done) => requestAnimationFrame(() => requestAnimationFrame(done)))")
                    had = await page.run(ROOM)
                    seen = size, index, had
                    assert had["over"] <= 0 and had["beside"] <= 0 and had["inside"] and not had["meeting"] and not had["cut"], seen
                    assert had["tall"] <= 0 and had["low"] <= 0 and had["board"] >= 240, (size, index, had)
        assert not page.faults, page.faults
        await page.close()


ABANDONED = "Abandoned: the game ended without a result, or its board lost its connection."
ROUND = [["Ne3"], ["f3", "e5", "g4", "Qh4#"], ["g3", "g6"]]


async def try_tabs_pgn(browser):
    """All games of the window are saved as one file, with the event and the round: a corrected one is in it under its next name alone, from
    the first move there on, and one with a result stays beside the next of its tab."""
    relay = await Relay(grace=GRACE).start()
    event = {"event": "Club final", "round_": "3"}
    with site() as address:
        page = await browser.open(f"{address}/tables.html?server={relay.address}")
        assert await page.run('document.querySelector("#save-round").hidden'), "there is nothing to be saved yet"
        await page.fill("#event", "Club final")
        await page.fill("#round", "3")
        await page.fill("#lines", LINES)
        await page.click("#source .main")
        await until_stand(page, *3 * ["White to move"])
        await catch_files(page)
        for index, moves in enumerate(ROUND):
            for count, move in enumerate(moves, 1):
                await play(page, index, move)
                await page.until(frame(index, f'return document_.querySelectorAll(".move[data-place]").length === {count}'))
        await until_stand(page, "Black to move", "0–1: Black wins by checkmate.", "White to move")
        day = await today(page)
        first = pgn("t1", 387, "1. Ne3 *", day, ("Carlsen, Magnus", "Caruana"), **event)
        mate = pgn("t2", 518, "1. f3 e5 2. g4 Qh4# {Black mates.} 0-1", day, ("So", "Ding"), "normal", **event)
        await page.click("#save-round")
        file = "\n".join([first, mate, pgn("t3", 0, "1. g3 g6 *", day, **event)])
        assert await page.run("saved") == ["round.pgn", file, "application/vnd.chess-pgn"], await page.run("saved")
        for press in ("#first", "#correct", "#sure-yes"):
            await page.run(frame(2, f'document_.querySelector("{press}").click()'))
        await page.until('document.querySelectorAll(".tab")[2].querySelector("b").textContent === "t3_2"')
        await until_stand(page, "Black to move", "0–1: Black wins by checkmate.", "White to move")
        await page.click("#save-round")
        left = pgn("t3", 0, textwrap.fill(f"1. g3 g6 {{{ABANDONED}}} *", 79), day, termination="abandoned", **event)
        assert (await page.run("saved"))[1] == "\n".join([first, mate, left]), await page.run("saved")
        await play(page, 2, "b3")
        await page.run(frame(1, 'document_.querySelector("#opening").requestSubmit()'))
        await until_stand(page, "Black to move", "White to move", "Black to move")
        await page.click("#save-round")
        file = "\n".join([first, mate, pgn("t2_g2", 518, "*", day, **event), pgn("t3_2", 0, "1. b3 *", day, **event)])
        assert (await page.run("saved"))[1] == file, await page.run("saved")
        players = "Carlsen,%20Magnus–Caruana;So–Ding;"
        link = f"round.html?server={relay.address}&boards=t1,t2,t3&players={players}&event=Club%20final&round=3"
        assert (await page.run('document.querySelector("#watch").getAttribute("href")')).replace("%E2%80%93", "–") == link
        assert await page.run('[...document.querySelectorAll("iframe")].map((it) => it.title)') == ["t1", "t2_g2", "t3_2"]
        assert [it["players"] for it in await page.run(TABS)] == ["Carlsen, Magnus–Caruana", "", ""]
        assert not page.faults, page.faults
        await page.close()


async def try_tabs_reloaded(browser):
    """A page that is loaded again has its results, in its tabs and in its file, also when the relay was restarted; a press opens the next
    game. A game without an end is offered, and one of another relay or of another day is not shown."""
    relay = await Relay(grace=GRACE).start()
    with site() as address:
        page = await open_round(browser, address, relay)
        await until_stand(page, *3 * ["White to move"])
        for count, move in enumerate(ROUND[1], 1):
            await play(page, 1, move)
            await page.until(frame(1, f'return document_.querySelectorAll(".move[data-place]").length === {count}'))
        await play(page, 0, "Ne3")
        await until_stand(page, "Black to move", "0–1: Black wins by checkmate.", "White to move")
        for press in ("#ending [data-side=black]", "#sure-yes"):
            await page.run(frame(0, f'document_.querySelector("{press}").click()'))
        stands = ["1–0: Black resigned. White wins.", "0–1: Black wins by checkmate.", "No board open"]
        await until_stand(page, *stands[:2], "White to move")
        day = await today(page)
        for restarts in (False, True):
            if restarts:
                await relay.kill()
                await relay.start()
            await page.go(await page.run("location.href"))
            await until_stand(page, *stands)
            had = [await text(page, "#state"), *(it["name"] for it in await page.run(TABS))]
            assert had == ["2 over", "t1", "t2", "t3"], had
            await catch_files(page)
            await page.click("#save-round")
            first = pgn("t1", 387, "1. Ne3 {Black resigns.} 1-0", day, ("Carlsen, Magnus", "Caruana"), "normal")
            mate = pgn("t2", 518, "1. f3 e5 2. g4 Qh4# {Black mates.} 0-1", day, ("So", "Ding"), "normal")
            assert (await page.run("saved"))[1] == f"{first}\n{mate}", await page.run("saved")
            assert await page.run(frame(2, 'return document_.querySelector("#go-on").textContent')) == "Continue t3"
        await page.run(frame(1, 'document_.querySelector("#opening").requestSubmit()'))
        await until_stand(page, stands[0], "White to move", stands[2])
        assert (await page.run(TABS))[1]["name"] == "t2_g2"
        # In a window of its own nothing but the board's name is known.
        other = await browser.open(f"{address}/table.html?server={relay.address}&board=t1")
        await other.until('document.querySelector("#outcome b").textContent === "1–0"')
        assert await other.run('document.querySelector("#name").value') == "t1_g2"
        for change in ('"server", "ws://127.0.0.1:1"', '"saved", new Date(Date.now() - 13 * 3600000).toISOString()'):
            await other.run(f"""{{ const games = Kept.all(); const set = (name, value) => games.forEach((it) => {{ it[name] = value; }});
                set({change}); localStorage.setItem("sirvandu.games", JSON.stringify(games)); sessionStorage.clear(); }}""")
            await other.go(f"{address}/table.html?server={relay.address}&board=t1")
            await asyncio.sleep(0.2)
            assert await text(other, "#outcome b") == "" and await text(other, "#state") == "No board open", change
            await other.run(f"""{{ const games = Kept.all(); games.forEach((it) => Object.assign(it,
                {{ server: "{relay.address}", saved: new Date().toISOString() }}));
                localStorage.setItem("sirvandu.games", JSON.stringify(games)); }}""")
        for it in page, other:
            assert not it.faults, it.faults
            await it.close()


async def try_tabs_from_disk(browser):
    """The page of tabs works from disk, too, and saves the round."""
    relay = await Relay(grace=GRACE).start()
    page = await browser.open(url("tables.html", server=relay.address))
    for lines, words in (("f1\nf/2", "f/2 is no board's name"), ("f1\nf2\nf1", "f1 stands here twice"),
                         ("f1 960", "f1: the start number is from 0 to 959"), ("f1 1000 A – B", "f1: the start number is from 0 to 959"),
                         ("f1 518 Andr&eacute; Petit – Bauer\nf2 518 Carla – Dora", "f1: a player's name may have no ;"),
                         ("f1\nf2 518 Smith – Jones – Brown", "f2: a player's name may have no dash")):
        await page.fill("#lines", lines)
        await page.click("#source .main")
        assert words in await page.run('document.querySelector("#lines").validationMessage')
    await page.fill("#lines", "d1\nd2 0")
    await page.click("#source .main")
    await until_stand(page, "White to move", "White to move")
    assert await log_of(relay, "d2") == ([], None)
    await catch_files(page)
    await page.click("#save-round")
    day = await today(page)
    assert (await page.run("saved"))[1] == "\n".join([pgn("d1", 518, "*", day), pgn("d2", 0, "*", day)]), await page.run("saved")
    await page.go(url("tables.html", server=relay.address, boards="d1,d2", players="A;B–C;D–E"))
    await page.until('document.querySelector("#said").textContent.startsWith("The address has more pairs of players than boards")')
    await page.go(url("tables.html", server=relay.address, boards="d1,d2", players="A–B;"))
    await until_stand(page, "No board open", "No board open")
    assert await page.run('document.querySelector("#said").hidden')
    assert not page.faults, page.faults
    await page.close()
