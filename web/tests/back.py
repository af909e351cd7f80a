"""Tests of the operator's page that loses its connection and comes back; pages.py runs them with its own."""
import asyncio
import json
import re

from relay_client.client import Client
from relay_client.program import fens, start_fen
from relay_client.relay import Relay
from relay_client.wire import DOWN, UP, Wire
from steps import GRACE, enter, listed, open_table, said, say_end, shows, state, text, until_moves, until_state, url, watch

MOVES = ["e2e4", "e7e5", "g1f3"]


async def table_of(browser, relay, board="b1", moves=MOVES):
    """An operator's page behind a wire, on which these moves were played."""
    wire = await Wire(relay.port).mend()
    table = await open_table(browser, relay, board, 518, address=wire.address)
    for ply, move in enumerate(moves, 1):
        await enter(table, move, "type")
        await until_moves(table, ply)
    return table, wire


async def log_of(relay, board):
    """The moves and the outcome that a spectator of a board is told, until nothing more comes."""
    client, moves, outcome = await Client.to(relay.address), [], None
    answer = await client.ask(cmd="follow", board=board, spectator=0, **{"from": 0})
    assert answer["reply"] == "following", answer
    try:
        while outcome is None:
            told = json.loads(await asyncio.wait_for(client.socket.recv(), 0.4))
            outcome = told.get("outcome")
            moves += [told["move"]] if told["reply"] == "move" else []
    except asyncio.TimeoutError:
        pass
    client.socket.transport.abort()  # A relay answers no close of a connection that follows.
    return moves, outcome


async def drop(table, wire):
    """Loses the connections, and waits until the page has noticed it."""
    count = await text(table, "#notices")
    wire.drop()
    await table.until(f'document.querySelector("#notices").textContent !== {json.dumps(count)}')


async def until_open(table, board, seconds=30):
    await table.until(f'document.querySelector("#state").textContent === "Board {board} is open"', seconds)


async def goes_on(table, relay, board, moves):
    """The board is open under this name with these moves, each once, and the next one is played."""
    await until_open(table, board)
    await shows(table, len(moves), fens(518, moves)[-1] if moves else start_fen(518), board)
    assert (await log_of(relay, board))[0] == moves, await log_of(relay, board)
    further = [*moves, "a2a3" if len(moves) % 2 == 0 else "a7a6"]
    await enter(table, further[-1], "drag")
    await shows(table, len(further), fens(518, further)[-1], board)
    assert await log_of(relay, board) == (further, None)
    assert not table.faults, table.faults


async def key_of(table, wire):
    """The key that the browser keeps for the relay behind a wire."""
    return await table.run(f'localStorage.getItem("sirvandu.key 127.0.0.1:{wire.port}")')


async def close(table, wire):
    await table.close()
    await wire.cut()


async def try_cut(browser):
    """A connection that is lost before a move is entered, or after it was answered: the game goes on under its name, and nothing is entered
    before. A page without a key had its game abandoned, and went on under another name."""
    relay = await Relay(grace=GRACE).start()
    table, wire = await table_of(browser, relay)
    for times in range(2):
        await wire.cut()
        await until_state(table, "lost")
        await table.run('document.querySelector("#move").value = "b8c6"; document.querySelector("#typed").requestSubmit()')
        assert await said(table) == "No move can be played now."
        await asyncio.sleep(times)
        await wire.mend()
        await until_open(table, "b1")
    await goes_on(table, relay, "b1", MOVES)
    assert "goes on" in await text(table, "#notices")
    await close(table, wire)


async def try_on_its_way(browser):
    """A connection that is lost while a move is on its way, before or behind the relay: the move is played once, under the same name.
    Before, it went on under another name."""
    relay = await Relay(grace=GRACE).start()
    for board, way in (("up", UP), ("down", DOWN)):
        table, wire = await table_of(browser, relay, board)
        wire.lose(way)
        await enter(table, "b8c6", "type")
        await asyncio.wait_for(wire.has_lost.wait(), 10)
        await asyncio.sleep(0.3)
        assert await log_of(relay, board) == ([*MOVES, "b8c6"] if way == DOWN else MOVES, None)
        await drop(table, wire)
        await goes_on(table, relay, board, [*MOVES, "b8c6"])
        await close(table, wire)


async def try_pulled(browser):
    """A cable that is pulled tells nothing, whether it is pulled before a move is sent or before it is answered. A move without an answer
    for 10 s counts as lost on its way, and the page comes back. Before, a page waited for the answer for as long as the browser took the
    connection for alive."""
    relay = await Relay(grace=GRACE).start()
    for board, ways in (("sent", [UP, DOWN]), ("answered", [DOWN])):
        table, wire = await table_of(browser, relay, board)
        wire.lose(*ways)
        await enter(table, "b8c6", "type")
        await until_state(table, "lost")
        assert await log_of(relay, board) == (MOVES if UP in ways else [*MOVES, "b8c6"], None)
        wire.losses = {}
        await goes_on(table, relay, board, [*MOVES, "b8c6"])
        await close(table, wire)


async def try_delayed(browser):
    """A move that reaches the relay only after the page has come back: it is played once, and the page finds it when it sends it again."""
    relay = await Relay(grace=GRACE).start()
    table, wire = await table_of(browser, relay)
    wire.lose(UP)
    await enter(table, "b8c6", "type")
    await asyncio.wait_for(wire.has_lost.wait(), 10)
    key = await key_of(table, wire)
    await table.run('window.send = WebSocket.prototype.send; window.held = []; WebSocket.prototype.send = function (text) {'
                    ' if (text.includes("b8c6")) { held.push(() => send.call(this, text)); } else { send.call(this, text); } }')
    wire.drop()
    other = await Client.to(relay.address, key)
    await table.until("held.length === 1")
    await other.submit("b1", "b8c6")
    await table.run("held.pop()(); WebSocket.prototype.send = send; null")
    await goes_on(table, relay, "b1", [*MOVES, "b8c6"])
    await other.close()
    await close(table, wire)


async def try_ending_lost(browser):
    """An ending on its way when the connection is lost is entered once."""
    relay = await Relay(grace=GRACE).start()
    for board, way in (("up", UP), ("down", DOWN)):
        table, wire = await table_of(browser, relay, board)
        wire.lose(way)
        await say_end(table, "#ending [data-how=agreed]")
        await asyncio.wait_for(wire.has_lost.wait(), 10)
        await asyncio.sleep(0.3)
        assert await log_of(relay, board) == (MOVES, "agreed" if way == DOWN else None)
        wire.drop()
        await until_state(table, "over")
        assert "Draw by agreement." in await text(table, "#outcome")
        assert await log_of(relay, board) == (MOVES, "agreed")
        assert not table.faults, table.faults
        await close(table, wire)


async def try_opening_lost(browser):
    """A board whose opening was not answered is this page's, and gets no other name. Before, it went on under another name."""
    relay = await Relay(grace=GRACE).start()
    wire = await Wire(relay.port).mend()
    wire.lose(DOWN, word=b'"opened"')
    table = await browser.open(url("table.html", server=wire.address, board="b1", start=518))
    await table.click("#opening .main")
    await asyncio.wait_for(wire.has_lost.wait(), 10)
    wire.drop()
    await until_open(table, "b1")
    await goes_on(table, relay, "b1", [])
    stranger = await browser.open(url("table.html", server=relay.address, board="b1", start=518))
    await stranger.click("#opening .main")
    await until_state(stranger, "refused")
    assert await said(stranger) == "That name is taken. Choose another." and "(2 BoardExists)" in await text(stranger, "#notices")
    await stranger.close()
    await close(table, wire)


async def try_restarted(browser):
    """The relay is started anew while a move is on its way: the game goes on under the next name, with that move."""
    relay = await Relay(grace=GRACE).start()
    for way in (UP, DOWN):
        table, wire = await table_of(browser, relay)
        wire.lose(way)
        await enter(table, "b8c6", "type")
        await asyncio.wait_for(wire.has_lost.wait(), 10)
        await wire.cut()
        await relay.kill()
        await until_state(table, "lost")
        await relay.start()
        await wire.mend()
        await goes_on(table, relay, "b1_2", [*MOVES, "b8c6"])
        await close(table, wire)
        await relay.kill()
        await relay.start()


async def try_other_game(browser):
    """Another game has the name when the page comes back: none of its moves is mixed with the page's, which goes on under the next name."""
    for others in (["d2d4", "d7d5", "c2c4"], ["d2d4"], ["d2d4", "d7d5", "c2c4", "c7c6"]):
        relay = await Relay(grace=GRACE).start()
        table, wire = await table_of(browser, relay)
        key = await key_of(table, wire)
        await wire.cut()
        await relay.kill()
        await until_state(table, "lost")
        await relay.start()
        other = await Client.to(relay.address, key)
        await other.open("b1")
        await other.submit("b1", *others)
        await wire.mend()
        await goes_on(table, relay, "b1_2", MOVES)
        assert await log_of(relay, "b1") == (others, None)
        await other.close()
        await close(table, wire)
        await relay.kill()


async def try_no_grace(browser):
    """A relay that looks at no key ends the game as abandoned: it goes on under the next name, with the move that was on its way."""
    relay = await Relay().start()
    for board, way in (("up", UP), ("down", DOWN)):
        table, wire = await table_of(browser, relay, board)
        wire.lose(way)
        await enter(table, "b8c6", "type")
        await asyncio.wait_for(wire.has_lost.wait(), 10)
        await drop(table, wire)
        await goes_on(table, relay, f"{board}_2", [*MOVES, "b8c6"])
        assert (await log_of(relay, board))[1] == "abandoned"
        await close(table, wire)


async def try_grace_over(browser):
    """A page that comes back too late finds its game abandoned. Where it is not to reopen it by itself, it offers that."""
    relay = await Relay(grace=1).start()
    table, wire = await table_of(browser, relay)
    await wire.cut()
    await until_state(table, "lost")
    await asyncio.sleep(2.5)
    assert (await log_of(relay, "b1"))[1] == "abandoned"
    await wire.mend()
    await goes_on(table, relay, "b1_2", MOVES)
    await table.click("#alone")
    await wire.cut()
    await until_state(table, "lost")
    await asyncio.sleep(2.5)
    await wire.mend()
    await table.until('document.querySelector("#state").textContent === "The relay no longer has the game of b1_2"')
    assert await table.run('document.querySelector("#new-name").value') == "b1_3"
    assert await table.run('document.querySelector("#going-on").hidden')
    await table.click("#anew button[type=submit]")
    await goes_on(table, relay, "b1_3", [*MOVES, "a7a6"])
    await close(table, wire)


async def try_no_room(browser):
    """A board that has no room for another follower: the page comes back all the same, and the move on its way is played once."""
    relay = await Relay(grace=GRACE, followers=1).start()
    for board, way in (("up", UP), ("down", DOWN)):
        table, wire = await table_of(browser, relay, board)
        seer = await Client.to(relay.address)
        assert (await seer.ask(cmd="follow", board=board, spectator=0, **{"from": 0}))["reply"] == "following"
        wire.lose(way)
        await enter(table, "b8c6", "type")
        await asyncio.wait_for(wire.has_lost.wait(), 10)
        await asyncio.sleep(0.3)
        await drop(table, wire)
        await until_open(table, board)
        await shows(table, 4, fens(518, [*MOVES, "b8c6"])[-1], board)
        await enter(table, "a2a3", "type")
        await shows(table, 5, fens(518, [*MOVES, "b8c6", "a2a3"])[-1], board)
        had = [json.loads(await asyncio.wait_for(seer.socket.recv(), 10)).get("move") for _ in range(5)]
        assert had == [*MOVES, "b8c6", "a2a3"], had
        await seer.close()
        await close(table, wire)


async def try_page_gone(browser):
    """A page that was closed is opened again, and goes on with the kept game under its name, also with a move that it did not see answered.
    Before, it went on under another name."""
    relay = await Relay(grace=GRACE).start()
    table, wire = await table_of(browser, relay)
    wire.lose(DOWN)
    await enter(table, "b8c6", "type")
    await asyncio.wait_for(wire.has_lost.wait(), 10)
    await table.close()
    wire.drop()
    table = await browser.open(url("table.html", server=wire.address))
    kept = await table.run('[...document.querySelector("#kept").options]'
                           '.find((it) => it.textContent.startsWith("b1, start 518, 3 moves")).value')
    count = await table.run('document.querySelector("#kept").options.length')
    assert await table.run('document.querySelector("#kept").value') == kept, "the last game without an end is offered"
    assert await text(table, "#go-on") == "Continue b1"
    await table.click("#go-on")
    await goes_on(table, relay, "b1", [*MOVES, "b8c6"])
    assert await table.run('document.querySelector("#kept").options.length') == count, "the game is kept twice"
    await close(table, wire)


async def try_key(browser):
    """The key is made by chance, kept by the browser, and goes to the relay alone: no text, link, field, title or file of the page has
    it."""
    relay = await Relay(grace=GRACE).start()
    table, wire = await table_of(browser, relay)
    key = await key_of(table, wire)
    assert re.fullmatch(r"[A-Za-z0-9_-]{32}", key)
    other = await Client.to(relay.address, key)
    await other.submit("b1", "b8c6")
    await other.close()
    await table.run('HTMLAnchorElement.prototype.click = function () { '
                    'window.files = [...(window.files || []), fetch(this.href).then((it) => it.text())]; }')
    wire.drop()
    await until_state(table, "lost")
    await until_open(table, "b1")
    await table.click("#save")
    await table.click("#save-pgn")
    files = await table.run("Promise.all(files)")
    assert len(files) == 2 and "e2e4" in files[0] and "b8c6" in files[0] and not any(key in it for it in files), files
    seen = await table.run('[document.documentElement.outerHTML, document.title, location.href, '
                           'JSON.stringify(localStorage.getItem("sirvandu.games")),'
                           ' ...[...document.querySelectorAll("input, select")].map((it) => it.value)]')
    assert not any(key in it for it in seen)
    keys = await table.run('[1, 2, 3].map(() => { localStorage.removeItem("sirvandu.key a"); Key.into("ws://a/"); '
                           'return localStorage.getItem("sirvandu.key a"); })')
    assert len(set(keys)) == 1 and key not in keys, "a page has one key for a relay for as long as it is open, and another for another"
    await table.run('localStorage.setItem("sirvandu.key a", "too short")')
    await table.go(url("table.html"))
    made = (await table.run('Key.into("ws://a/")')).removeprefix("ws://a/?key=")
    assert re.fullmatch(r"[A-Za-z0-9_-]{32}", made) and made not in keys, made
    for given, wanted in (("ws://a/b?key=x&c=d", "ws://a/b?key=KEY&c=d"), ("wss://a/op", "wss://a/op?key=KEY"), ("nonsense", "nonsense")):
        had = await table.run(f"Key.into({json.dumps(given)})")
        assert had == wanted.replace("KEY", made), had
    assert key not in await table.run('Key.into("ws://a:1/")') and made not in await table.run('Key.into("ws://a:1/")')
    assert await state(table) == "idle" and not table.faults, table.faults
    await close(table, wire)


async def try_stop_trying(browser):
    """Who stops trying is offered the game, to go on with under its name."""
    relay = await Relay(grace=GRACE).start()
    table, wire = await table_of(browser, relay)
    await wire.cut()
    await until_state(table, "lost")
    await table.click("#give-up")
    await until_state(table, "idle")
    await wire.mend()
    await table.click("#go-on")
    await goes_on(table, relay, "b1", MOVES)
    assert [it for it, _ in await listed(table)] == [0, 1, 2, 3]
    await close(table, wire)


async def correct(table, place):
    """Goes back to the position before the move of a place, and corrects the game from there."""
    await table.click(f".move[data-place='{place}']")
    await table.press("ArrowLeft")
    await table.click("#correct")
    await table.until('document.querySelector("#sure").open')


async def try_correct(browser):
    """A game is corrected in one act with one question: it goes on under the next name from the position that is shown, and spectators with
    it at once, or at its first move where none was kept."""
    relay = await Relay().start()
    table, wire = await table_of(browser, relay)
    seer = await watch(browser, relay, "b1")
    await until_moves(seer, 3)
    assert await table.run('document.querySelector("#correct").hidden'), "the present needs no correction"
    await correct(table, 2)
    assert await text(table, "#sure-head") == "Correct the game?"
    assert await text(table, "#sure-text") == (
        "b1 ends as abandoned and goes on as b1_2, with the first 2 moves. The last move will be lost. "
        "Spectators go to b1_2 at once.")
    await table.press("Enter")
    await table.until('!document.querySelector("#sure").open')
    assert await log_of(relay, "b1") == (MOVES, None), "the button that has the focus goes back"
    await table.click("#correct")
    await table.until('document.querySelector("#sure").open')
    await table.click("#sure .main")
    await until_open(table, "b1_2")
    await seer.until('document.querySelector("#notices").textContent.includes("b1 goes on as b1_2, which is shown now.")')
    await until_moves(seer, 2)
    await goes_on(table, relay, "b1_2", MOVES[:2])
    assert await log_of(relay, "b1") == (MOVES, "abandoned")
    await until_moves(seer, 3)
    await correct(table, 0)
    asked = await text(table, "#sure-text")
    assert asked.endswith("with no move. The last 3 moves will be lost. Spectators see b1_3 once it has a move."), asked
    await table.click("#sure .main")
    await until_state(seer, "over")
    await goes_on(table, relay, "b1_3", [])
    await seer.until('document.querySelector("#notices").textContent.includes("b1_2 goes on as b1_3, which is shown now.")')
    await until_moves(seer, 1)
    assert not seer.faults, seer.faults
    await seer.close()
    await close(table, wire)


async def try_correct_lost(browser):
    """A connection that is lost while a game is corrected: it is corrected once, whether the relay had ended the game or not."""
    for make in (lambda: Relay(grace=GRACE), lambda: Relay()):
        relay = await make().start()
        for board, way in (("up", UP), ("down", DOWN)):
            table, wire = await table_of(browser, relay, board)
            await correct(table, 2)
            wire.lose(way)
            await table.click("#sure .main")
            await asyncio.wait_for(wire.has_lost.wait(), 10)
            await asyncio.sleep(0.3)
            await drop(table, wire)
            await goes_on(table, relay, f"{board}_2", MOVES[:2])
            assert await log_of(relay, board) == (MOVES, "abandoned")
            await close(table, wire)
