"""Pictures of the pages for the guides, in light and dark, wide and narrow."""
import asyncio

from relay_client.client import Client
from relay_client.relay import Relay
from steps import GRACE, enter, open_table, until_moves, url, watch
from tabs import frame, play, site, until_stand

START = 387
MOVES = ["d1e3", "e8d6", "f1g1", "f8g8", "f2f4", "c7c5", "e1d3", "d8e6", "f4f5", "e6d4", "d3f4", "d6e4", "e3d5", "b7b6", "d2d3", "e4f6",
         "d5e7"]


PAIRS = ["Steinitz–Zukertort", "Lasker–Capablanca", "Morphy–Anderssen", "Alekhine–Euwe", "Menchik–Graf", "Rudenko–Bykova"]
MORPHY = ("e2e4 e7e5 g1f3 d7d6 d2d4 c8g4 d4e5 g4f3 d1f3 d6e5 f1c4 g8f6 f3b3 d8e7 b1c3 c7c6 c1g5 b7b5 c3b5 c6b5 c4b5 b8d7 e1a1 a8d8 "
          "d1d7 d8d7 h1d1 e7e6 b5d7 f6d7 b3b8 d7b8 d1d8").split()
SPANISH = "e2e4 e7e5 g1f3 b8c6 f1b5 a7a6 b5a4 g8f6 e1h1 f8e7 f1e1 b7b5 a4b3 d7d6".split()
SICILIAN = "e2e4 c7c5 g1f3 d7d6 d2d4 c5d4 f3d4 g8f6 b1c3 a7a6 c1g5".split()
ROUND = [(START, MOVES), (518, SPANISH), (518, MORPHY), (START, MOVES[:12]), (518, SICILIAN), (START, MOVES[:7])]


async def take_round(browser, relay, folder):
    """Six boards: one mated, one drawn, and one with two moves since it was looked at last."""
    client = await Client.to(relay.address)
    names = [f"r1-{table}" for table in range(1, 7)]
    for name, (start, moves) in zip(names, ROUND):
        await client.open(name, start)
        await client.submit(name, *(moves[:-2] if name == "r1-5" else moves))
    await client.end("r1-4")
    address = url("round.html", server=relay.address, boards=",".join(names), players=";".join(PAIRS))
    for is_first in (True, False):
        page = await browser.open(address, (1240, 900))
        await page.until('document.querySelectorAll(".tile[data-state=live], .tile[data-state=over]").length === 6')
        await asyncio.sleep(1)
        if is_first:
            for number in range(1, 7):
                await page.hover(f".tile:nth-child({number})")
            await page.close()
            await client.submit("r1-5", *SICILIAN[-2:])
    await page.picture(folder / "round.png")
    await page.close()
    await client.close()


# Four boards of a round: the line that opens each, and its moves. One comes near a draw, and one is over.
TABLES = [("r1-1 387 Steinitz – Zukertort", "Ne3 Nd6 O-O O-O f4 c5 Nd3".split()),
          ("r1-2 518 Lasker – Capablanca", "e4 e5 Nf3 Nc6 Bb5".split()),
          ("r1-3 518 Alekhine – Euwe", "Nf3 Nf6 Ng1 Ng8".split()), ("r1-4 518 Morphy – Anderssen", "f3 e5 g4 Qh4#".split())]


async def take_tables(browser, folder):
    """Four boards of one operator, each in a tab."""
    relay = await Relay(grace=GRACE).start()
    with site() as address:
        page = await browser.open(f"{address}/tables.html?server={relay.address}", (1280, 900))
        await page.fill("#lines", "\n".join(line for line, _ in TABLES))
        await page.click("#source .main")
        await until_stand(page, *4 * ["White to move"])
        for index, (_, moves) in enumerate(TABLES):
            for count, move in enumerate(moves, 1):
                await play(page, index, move)
                await page.until(frame(index, f'return document_.querySelectorAll(".move[data-place]").length === {count}'))
        await page.until('document.querySelectorAll(".tab[data-wants=near]").length === 1'
                         ' && document.querySelectorAll(".tab[data-wants=over]").length === 1')
        await page.run("document.activeElement.blur()")
        await asyncio.sleep(0.5)
        await page.picture(folder / "tables.png")
        await page.close()


async def take_phone(browser, relay, folder):
    """A spectator's phone, upright and on its side."""
    seer = await watch(browser, relay, "final", players="Steinitz–Zukertort")
    await until_moves(seer, len(MOVES))
    for name, size in (("phone", (390, 800)), ("phone-side", (844, 390))):
        await seer.resize(*size)
        await asyncio.sleep(0.3)
        await seer.picture(folder / f"{name}.png")
    await seer.close()


async def take_pictures(browser, folder):
    folder.mkdir(parents=True, exist_ok=True)
    relay = await Relay().start()
    client = await Client.to(relay.address)
    await client.open("final", START)
    await client.submit("final", *MOVES)
    seer = await watch(browser, relay, "final")
    await until_moves(seer, len(MOVES))
    table = await open_table(browser, relay, "hall-1", START)
    for ply, move in enumerate(MOVES[:7], 1):
        await enter(table, move, "type")
        await until_moves(table, ply)
    await table.click("[data-square=d8]")
    fields = 'document.querySelectorAll("#server").forEach((it) => { it.value = "ws://127.0.0.1:9600"; })'
    for page, name in ((seer, "watch"), (table, "table")):
        await page.run(fields)
        await page.run("document.activeElement.blur()")
        await page.resize(1240, 900)
        await asyncio.sleep(0.3)
        await page.picture(folder / f"{name}.png")
    await seer.scheme("dark")
    await seer.picture(folder / "watch-dark.png")
    await take_phone(browser, relay, folder)
    await take_round(browser, relay, folder)
    await take_tables(browser, folder)
    await client.close()
    await browser.close_all()
    await Relay.stop_all()
