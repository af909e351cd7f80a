"""Tests of the spectator's page where a game is gone, goes on elsewhere, or another has its name; pages.py runs them with its own."""
import asyncio
import contextlib
import functools
import http.server
import json
import re
import threading
import time

from relay_client.client import Client
from relay_client.program import fens, start_fen
from relay_client.relay import Relay
from relay_client.wire import Wire
from steps import WEB, listed, placement, shows, state, text, unfold, until_moves, until_state, url, watch
from told import Channels

FIRST = ["d2d4", "d7d5"]
OTHER = ["e2e4", "e7e5"]
UNIT = WEB.parent / "apps" / "deployment" / "relay960.service"


def following(moves=()):
    return {"fen": fens(518, moves)[-1] if moves else start_fen(518), "joined": len(moves), "reply": "following"}


def moved(moves, first=0):
    return [{"move": move, "place": place, "reply": "move"} for place, move in enumerate(moves, first)]


def over(outcome="abandoned"):
    return {"outcome": outcome, "reply": "over"}


def beat(ago=0):
    return {"reply": "beat", "time": int(time.time()) - ago}


async def until_said(page, words):
    await page.until(f'document.querySelector("#notices").textContent.includes({json.dumps(words)})')


async def until_board(page, board):
    await page.until(f'document.querySelector("#name").value === {json.dumps(board)}')


async def states_of(page):
    """Keeps each state that the page says from now on."""
    await page.run('window.states = []; new MutationObserver(() => states.push(document.querySelector("#state").dataset.state))'
                   '.observe(document.querySelector("#state"), {attributes: true})')


async def game_of(relay, moves, board="b1"):
    client = await Client.to(relay.address)
    await client.open(board)
    await client.submit(board, *moves)
    return client


async def another_game(browser, first, other, **options):
    """A page that watches a game, loses its connection, and comes back when the relay was started anew and has another game of the name."""
    relay = await Relay(**options).start()
    wire = await Wire(relay.port).mend()
    await game_of(relay, [])
    seer = await watch(browser, relay, "b1", address=wire.address)
    await until_state(seer, "live")
    await relay.kill()
    await wire.cut()
    await relay.start()
    client = await game_of(relay, first)
    await wire.mend()
    await until_moves(seer, len(first))
    await wire.cut()
    await relay.kill()
    await relay.start()
    client = await game_of(relay, other)
    await wire.mend()
    return seer, client, wire


async def try_another(browser):
    """Another game of the name that is as long, longer or shorter is shown from its start, and the page says so; no move of the first
    stays. Before, it said nothing, and joined the two games into one."""
    for other, words in ((OTHER, "reopened with another game"), ([*OTHER, "g1f3", "b8c6"], "reopened with another game"),
                         (OTHER[:1], "fewer moves than before")):
        seer, client, wire = await another_game(browser, FIRST, other)
        await until_said(seer, words)
        await shows(seer, len(other), fens(518, other)[-1], "another game")
        await until_state(seer, "live")
        assert await listed(seer) == [[place, move] for place, move in enumerate(other)]
        await client.submit("b1", "a2a3" if len(other) % 2 == 0 else "a7a6")
        await until_moves(seer, len(other) + 1)
        assert not seer.faults, seer.faults
        await seer.close()
        await client.close()
        await wire.cut()


async def try_uncompared(browser):
    """Where the relay gives no place at which the games could be compared, the page shows the present and nothing of the game before.
    Before, it said nothing of another game."""
    moves = [*OTHER, "g1f3", "b8c6", "f1b5"]
    relay = await Relay(capacity=2).start()
    wire = await Wire(relay.port).mend()
    client = await game_of(relay, [])
    seer = await watch(browser, relay, "b1", address=wire.address)
    await until_state(seer, "live")
    await client.submit("b1", moves[0])
    await until_moves(seer, 1)
    await wire.cut()
    await client.submit("b1", *moves[1:])
    await wire.mend()
    await until_said(seer, "so this may be another game")
    await shows(seer, 0, fens(518, moves)[-1], "the present alone")
    assert "missed" not in await text(seer, "#moves")
    await seer.close()
    await client.close()
    await wire.cut()


async def try_heir(browser):
    """A board that the relay no longer has, or never had in this run: the page goes to the next name by itself, and says so. Before, it
    showed the game that was gone, and stayed."""
    relay = await Relay().start()
    client = await game_of(relay, FIRST, "r1")
    seer = await watch(browser, relay, "r1")
    await until_moves(seer, 2)
    await relay.kill()
    await until_state(seer, "lost")
    await relay.start()
    client = await game_of(relay, OTHER, "r1_3")
    late = await watch(browser, relay, "r1", **{"from": "present"})
    for page, count in ((seer, 2), (late, 0)):
        await until_said(page, "r1 goes on as r1_3, which is shown now.")
        await shows(page, count, fens(518, OTHER)[-1], "the next name")
        assert await page.run('document.querySelector("#name").value') == "r1_3" and (await page.run("document.title")).startswith("r1_3 ")
    await client.end("r1_3", "abandoned")
    for page in (seer, late):
        await until_state(page, "over")
    client = await game_of(relay, FIRST, "r1_4")
    for page in (seer, late):
        await until_said(page, "r1_3 goes on as r1_4")
        await page.until(f'document.querySelector("#fen").value === {json.dumps(fens(518, FIRST)[-1])}')
        await until_state(page, "live")
    await client.end("r1_4", "agreed")
    for page in (seer, late):
        await until_state(page, "over")
        assert not page.faults, page.faults
        await page.close()


async def try_moved(browser):
    """A channel whose game has ended as abandoned: no green is left, and the page goes to the name that the feed tells, and says so.
    Before, it stayed where it was, with a button for the next name."""
    async with Channels() as channels:
        await channels.says("b1", following(), beat(), *moved(FIRST))
        seer = await browser.open(url("watch.html", channel=channels.address, board="b1"))
        await until_state(seer, "live")
        await channels.says("b1", over())
        await until_state(seer, "over")
        await seer.until('document.querySelector("#outcome").textContent.includes("Ended without a result")')
        await channels.says("b1_2", following(), beat(), *moved(OTHER))
        await channels.says("b1", {"board": "b1_2", "reply": "next"})
        await until_said(seer, "b1 goes on as b1_2, which is shown now.")
        await shows(seer, 2, fens(518, OTHER)[-1], "the next channel")
        await until_state(seer, "live")
        late = await browser.open(url("watch.html", channel=channels.address, board="b1"))
        await until_board(late, "b1_2")
        await shows(late, 2, fens(518, OTHER)[-1], "the next channel for a late spectator")
        await channels.says("b1", following(), beat(), *moved(OTHER))
        again = await browser.open(url("watch.html", channel=channels.address, board="b1"))
        await shows(again, 2, fens(518, OTHER)[-1], "the name's own new game, behind the name of the next")
        await asyncio.sleep(1)
        assert await again.run('document.querySelector("#name").value') == "b1" and await state(again) == "live"
        for page in (seer, late, again):
            assert not page.faults, page.faults
            await page.close()


async def try_again(browser):
    """A channel's lost connection: all is told again, nothing is shown twice, the move that is looked at stays, and nothing is said to be
    new."""
    async with Channels() as channels:
        await channels.says("b1", following(), beat(), *moved(FIRST), over(), following(), beat(), *moved(OTHER))
        seer = await browser.open(url("watch.html", channel=channels.address, board="b1"))
        await shows(seer, 2, fens(518, OTHER)[-1], "the second game")
        await until_state(seer, "live")
        await seer.press("ArrowLeft")
        await channels.loses("b1")
        await until_state(seer, "lost")
        await until_state(seer, "live")
        await channels.says("b1", *moved(["g1f3"], 2))
        await until_moves(seer, 3)
        assert await seer.run('document.querySelector("#fen").value') == fens(518, OTHER)[0]
        await channels.says("b1", over("agreed"))
        await until_state(seer, "over")
        await channels.loses("b1")
        await until_said(seer, "No connection")
        await until(lambda: channels.readers["b1"])
        await asyncio.sleep(0.5)
        said = await text(seer, "#notices")
        assert "reopened" not in said and await state(seer) == "over", said
        assert await listed(seer) == [[place, move] for place, move in enumerate([*OTHER, "g1f3"])]
        assert not seer.faults, seer.faults
        await seer.close()


async def until(test):
    for _ in range(600):
        if test():
            return
        await asyncio.sleep(0.05)
    raise AssertionError("not within 30 s")


async def try_anew(browser):
    """A channel that tells a new game of the same start behind an end: nothing of the game before stays, also behind a lost connection."""
    async with Channels() as channels:
        await channels.says("b1", following(), beat(), *moved(FIRST))
        seer = await browser.open(url("watch.html", channel=channels.address, board="b1"))
        await until_moves(seer, 2)
        await channels.says("b1", over(), following(), beat())
        await shows(seer, 0, start_fen(518), "the new game")
        await until_state(seer, "live")
        await channels.says("b1", *moved(FIRST[:1]))
        await until_moves(seer, 1)
        await channels.loses("b1")
        await until_state(seer, "lost")
        await until_state(seer, "live")
        await shows(seer, 1, fens(518, FIRST[:1])[-1], "the new game, told again")
        assert not seer.faults, seer.faults
        await seer.close()


CLOCK = "new Date({time} * 1000).toLocaleTimeString([], {{hour: '2-digit', minute: '2-digit', hourCycle: 'h23'}})"


async def try_silent(browser):
    """A channel without a beat and a move for 45 seconds: `No signal since`, and no green until the next sign. Before, it was green for as
    long as one waited."""
    async with Channels() as channels:
        await channels.says("b1", following(), beat(), *moved(FIRST))
        seer = await browser.open(url("watch.html", channel=channels.address, board="b1"))
        await until_state(seer, "live")
        await seer.run("window.now = Date.now; window.later = 40; Date.now = () => now() + 1000 * later")
        await asyncio.sleep(1.2)
        began = await state(seer)
        await seer.run("later = 60")
        await until_state(seer, "silent", 5)
        said = await text(seer, "#state")
        assert re.fullmatch(r"No signal since \d\d:\d\d", said), said
        await channels.says("b1", beat())
        await until_state(seer, "live", 5)
        await seer.run("later = 120")
        await until_state(seer, "silent", 5)
        await channels.says("b1", *moved(["c2c4"], 2))
        await until_state(seer, "live", 5)
        assert began == "live", began
        assert not seer.faults, seer.faults
        await seer.close()


async def try_dead(browser):
    """Who opens the page of a channel whose feed has gone sees its last position and no green; the time is that of the last beat. Before,
    it was green."""
    async with Channels() as channels:
        old = beat(3600)
        await channels.says("b1", following(), old, *moved(FIRST))
        seer = await browser.open(url("watch.html", board="b1"))
        await states_of(seer)
        await unfold(seer)
        await seer.run(f'document.querySelector("#server").value = {json.dumps(channels.address)}')
        await seer.choose("#kind", "channel")
        await seer.click("#source .main")
        await until_moves(seer, 2)
        assert await text(seer, "#state") == "Connected. Waiting for a signal …"
        await seer.run("window.now = Date.now; Date.now = () => now() + 46000")
        await until_state(seer, "silent", 5)
        clock = await seer.run(CLOCK.format(time=old["time"]))
        assert await text(seer, "#state") == f"No signal since {clock}"
        assert "live" not in await seer.run("states"), await seer.run("states")
        assert not seer.faults, seer.faults
        await seer.close()


class Pages(http.server.SimpleHTTPRequestHandler):
    """The pages over HTTP, under a content policy as nginx sends it."""

    def end_headers(self):
        self.send_header("Content-Security-Policy", "default-src 'self'; img-src 'self' data:")
        super().end_headers()

    def log_message(self, *_):
        pass


@contextlib.contextmanager
def site():
    with http.server.ThreadingHTTPServer(("127.0.0.1", 0), functools.partial(Pages, directory=str(WEB))) as server:
        threading.Thread(target=server.serve_forever, daemon=True).start()
        yield f"http://127.0.0.1:{server.server_address[1]}"
        server.shutdown()


async def try_policy(browser):
    """An address that the page's own policy blocks: both pages say that there is no connection, and can be stopped. Before, the spectator's
    page said for ever that it connects: a browser tells of a policy by `error` alone."""
    with site() as address:
        seer = await browser.open(f"{address}/watch.html?server=ws://127.0.0.1:9&board=b1")
        table = await browser.open(f"{address}/table.html?server=ws://127.0.0.1:9&board=b1")
        await unfold(seer)
        await table.click("#opening .main")
        for page, button in ((seer, "#stop"), (table, "#give-up")):
            await until_state(page, "lost", 5)
            assert "No connection" in await text(page, "#state")
            await page.click(button)
            await until_state(page, "idle")
            assert not page.faults, page.faults
            await page.close()


async def try_unanswered(browser):
    """A server that takes the connection and says nothing: the page gives up after ten seconds, and tries again. Before, it waited without
    end."""
    accepted = []
    server = await asyncio.start_server(lambda *streams: accepted.append(streams), "127.0.0.1", 0)
    address = f"ws://127.0.0.1:{server.sockets[0].getsockname()[1]}"
    seer = await browser.open(url("watch.html", server=address, board="b1"))
    began = time.monotonic()
    assert await state(seer) == "connecting"
    await until_state(seer, "lost", 20)
    assert 8 < time.monotonic() - began < 16, time.monotonic() - began
    await until_state(seer, "connecting")
    assert not seer.faults, seer.faults
    await seer.close()
    server.close()


async def try_late(browser):
    """A spectator that comes after 80 moves sees the whole game, at a relay that is started as the unit starts it. Before, the documents'
    own commands kept 64 moves, and it began at the present."""
    words = re.search(r"^ExecStart=.* serve (.*)$", UNIT.read_text(), re.M)[1].split()
    # The tests' relay counts its connections, ends with them, and keeps no journal.
    for word in "--forever", "--until-input-ends":
        words.remove(word)
    options = {name.removeprefix("--"): value for name, value in zip(words[::2], words[1::2]) if name not in ("--port", "--journal")}
    relay = await Relay(**options).start()
    moves = []
    for file in "abcdeh":
        moves += ["g1f3", "g8f6", "f3g1", "f6g8"] * 3 + [f"{file}2{file}3", f"{file}7{file}6"]
    client = await game_of(relay, moves)
    assert len(moves) > 80
    seer = await watch(browser, relay, "b1")
    await shows(seer, len(moves), fens(518, moves)[-1], "late")
    await seer.press("Home")
    assert await placement(seer) == "rnbqkbnr/pppppppp/8/8/8/8/PPPPPPPP/RNBQKBNR"
    await seer.close()
    await client.close()


async def try_phases(browser):
    """A state accepts what its table says, and nothing else changes it. One with a limit is told when it is late, and no other. Before,
    what a page accepted followed from nine fields."""
    page = await browser.open(url("watch.html"))
    had = await page.run("""(() => {
      const entered = [];
      const phase = createPhase({
        idle: { start: (_, link) => phase.go("open", { link }) },
        open: { text: ({ link }, text) => text === link, end: () => phase.go("idle") },
      }, (value) => entered.push(value.name));
      const answers = [phase.take("text", "a"), phase.take("constructor"), phase.take("start", "a"), phase.take("start", "b"),
                       phase.take("text", "b"), phase.take("text", "a"), phase.now().link, phase.is("idle", "open"), phase.take("end"),
                       phase.now().link === undefined];
      return [answers, entered];
    })()""")
    late = await page.run("""new Promise((resolve) => {
      const states = { idle: { late: () => resolve("never") }, asked: { late: ({ command }) => resolve(command) } };
      const phase = createPhase(states, () => {}, { asked: 0.2 });
      phase.go("asked", { command: "first" });
      phase.go("idle");
      phase.go("asked", { command: "second" });
    })""")
    assert late == "second", late
    assert had == [[False, False, True, False, False, True, "a", True, True, True], ["open", "idle"]], had
    await page.close()
