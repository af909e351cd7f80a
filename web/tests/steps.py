"""What the tests of the pages do on them and read off them: a board's placement, its moves, the state, a move entered."""
import json
import pathlib

from relay_client.acts import PATIENCE
from relay_client.program import start_fen

WEB = pathlib.Path(__file__).resolve().parent.parent
GRACE = 120  # Seconds for which a relay waits for an operator with a key, as in the documents' own commands.

PLACEMENT = """(() => {
  const rows = [...document.querySelectorAll(".square")].map((it) => {
    const box = it.getBoundingClientRect();
    const man = it.querySelector(".piece");
    return {x: box.x, y: box.y, name: it.dataset.square, man: man ? man.dataset.piece : "1",
            drawn: !man || (man.getBoundingClientRect().width > 8 && man.querySelectorAll("path").length > 1)};
  });
  const lines = new Map();
  rows.forEach((it) => { const key = Math.round(it.y); lines.set(key, [...(lines.get(key) || []), it]); });
  const ordered = [...lines.entries()].sort((a, b) => a[0] - b[0]).map(([, it]) => it.sort((a, b) => a.x - b.x));
  return {names: ordered.flat().map((it) => it.name), men: ordered.map((it) => it.map((cell) => cell.man).join("")),
          drawn: rows.every((it) => it.drawn)};
})()"""


def tightened(rank):
    """A rank's men with a run of vacant squares as its length."""
    text = ""
    for man in rank:
        if man == "1" and text[-1:].isdigit():
            text = text[:-1] + str(int(text[-1]) + 1)
        else:
            text += man
    return text


async def placement(page):
    """The placement that a page shows, read off where its men stand on the screen, in the form of a FEN's first field."""
    seen = await page.run(PLACEMENT)
    assert seen["drawn"], "a man is not drawn"
    names = [file + rank for rank in "87654321" for file in "abcdefgh"]
    if seen["names"] == names:
        ranks = seen["men"]
    else:
        assert seen["names"] == names[::-1], "the squares are out of order"
        ranks = [it[::-1] for it in seen["men"][::-1]]
    return "/".join(tightened(it) for it in ranks)


def url(name, **given):
    words = "&".join(f"{key}={value}" for key, value in given.items())
    return f"{(WEB / name).as_uri()}?{words}"


async def state(page):
    return await page.run('document.querySelector("#state").dataset.state')


async def until_state(page, name, seconds=PATIENCE):
    await page.until(f'document.querySelector("#state").dataset.state === "{name}"', seconds)


async def text(page, selector):
    return await page.run(f'document.querySelector("{selector}").textContent')


async def until_moves(page, count, seconds=PATIENCE):
    await page.until(f'document.querySelectorAll(".move[data-place]").length === {count}', seconds)


async def listed(page):
    """The places and moves of the list, in its order."""
    return await page.run('[...document.querySelectorAll(".move[data-place]")]'
                          '.map((it) => [Number(it.dataset.place), it.title.split(",")[0]])')


async def open_table(browser, relay, board, start, address=None):
    page = await browser.open(url("table.html", server=address or relay.address, board=board, start=start))
    await page.click("#opening .main")
    await until_state(page, "live")
    return page


async def watch(browser, relay, board, address=None, **more):
    return await browser.open(url("watch.html", server=address or relay.address, board=board, **more))


async def unfold(page):
    """Opens the form, which is folded away where the address says what to watch."""
    await page.click("#settings summary")
    await page.until('document.querySelector("#settings").open')


async def to_square(page, name):
    """Goes to a square by the arrow keys, from the square that has the focus."""
    at = await page.run('document.activeElement.dataset.square')
    for _ in range(abs(ord(name[0]) - ord(at[0]))):
        await page.press("ArrowRight" if name[0] > at[0] else "ArrowLeft")
    for _ in range(abs(int(name[1]) - int(at[1]))):
        await page.press("ArrowUp" if name[1] > at[1] else "ArrowDown")


async def enter(page, move, way):
    """Plays a move on a table's page by clicking, dragging, typing or keys."""
    start, goal = f"[data-square={move[:2]}]", f"[data-square={move[2:4]}]"
    if way == "type":
        await page.fill("#move", move)
        await page.press("Enter")
        return
    if way == "drag":
        await page.drag(start, goal)
    elif way == "click":
        await page.click(start)
        await page.click(goal)
    else:
        await page.run('document.querySelector(".square[tabindex=\\"0\\"]").focus()')
        await to_square(page, move[:2])
        await page.press("Enter")
        await to_square(page, move[2:4])
        await page.press("Enter")
    if len(move) == 5:
        await page.until('document.querySelector("#which").open')
        await page.click(f"#choices [data-move={move}]")


async def shows(page, count, fen, what):
    await until_moves(page, count)
    await page.until(f'document.querySelector("#fen").value === {json.dumps(fen)}')
    assert await placement(page) == fen.split(" ")[0], (what, fen, await placement(page))


async def say_end(page, selector):
    await page.click(selector)
    await page.until('document.querySelector("#sure").open')
    await page.click("#sure .main")


PGN = """[Event "{event}"]
[Site "?"]
[Date "{day}"]
[Round "{round_}"]
[White "{white}"]
[Black "{black}"]
[Result "{score}"]
[BoardName "{board}"]
[FEN "{fen}"]
[SetUp "1"]
[Termination "{termination}"]
[Variant "Chess960"]

{words}
"""


def pgn(board, start, words, day, players=("?", "?"), termination="unterminated", event="?", round_="?"):
    """The PGN of a game from a start, whose words end with the score."""
    placement_, turn, _, *others = start_fen(start).split(" ")
    return PGN.format(day=day, event=event, round_=round_, white=players[0], black=players[1], score=words.split()[-1], board=board,
                      termination=termination, words=words, fen=" ".join([placement_, turn, "KQkq", *others]))


async def catch_files(page):
    """Lets a page keep the file that it saves, as window.saved: its name, content and type."""
    await page.run("Saved.file = (...given) => { window.saved = given; }; 0")


async def today(page):
    """The day as PGN has it."""
    return await page.run('new Date().toLocaleDateString("sv").replaceAll("-", ".")')


async def said(page):
    return await page.run('document.querySelector("#said").hidden ? "" : document.querySelector("#said").textContent')
