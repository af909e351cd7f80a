"""What a phone of the hall reaches and what not; test_hall.py starts it in the phone's network.

    phone.py reaches ADDRESS PORT..      what each path and each other port of the laptop answers, before any board is open
    phone.py tries ADDRESS KEY           is refused all but watching, with the key of the operator who has r3-1 too
    phone.py follows ADDRESS BOARD       says `ready`, then each text of the board until its game is over
    phone.py browses ADDRESS             opens the address in a browser, as the QR code leads it there
    phone.py lists ADDRESS BOARD..       sees these boards, in this order, without their players
    phone.py stays ADDRESS               has the round open, says `ready` when r3-2 has d4, and ends when it has d5
"""
import asyncio
import contextlib
import json
import socket
import sys
import urllib.error
import urllib.parse
import urllib.request

import websockets

from relay_client.browser import Browser
from relay_client.texts import ends, follows, leaves, opens, submits, takes

WATCHING = {"/": 200, "/screen": 200, "/pages/round.html": 200, "/pages/watch.html": 200, "/pages/style.css": 200, "/pages/round.js": 200}
NOTHING = {
    ("GET", "/pages/table.html"): 404, ("GET", "/pages/table.js"): 404, ("GET", "/pages/operator.js"): 404,
    ("GET", "/pages/tables.html"): 404, ("GET", "/table.html"): 404, ("GET", "/pages/tests/pages.py"): 404,
    ("GET", "/pages/../names"): 404, ("GET", "/pages/%2e%2e/names"): 404, ("GET", "/names"): 404, ("GET", "/hall.conf"): 404,
    ("GET", "/nginx.log"): 404, ("GET", "/front/round.html"): 404, ("GET", "/pages/"): 403, ("GET", "/operators/relay"): 404,
    ("GET", "/relay"): 404, ("GET", "/kept/r3-1"): 404, ("POST", "/publish/r3-1"): 404, ("GET", "/sub/r3-1"): 404,
    ("GET", "/watch/"): 404, ("GET", "/watch/relay"): 404, ("GET", "/watch/../relay"): 404, ("GET", "/watches"): 404,
    ("GET", "/watch"): 400, ("POST", "/watch"): 403, ("PUT", "/watch"): 403, ("DELETE", "/watch"): 403,
    ("POST", "/"): 403, ("PUT", "/pages/round.html"): 403, ("DELETE", "/pages/round.html"): 403,
}


def status(address, method="GET"):
    request = urllib.request.Request(address, method=method, data=b"x" if method in ("POST", "PUT") else None)
    try:
        with urllib.request.urlopen(request, timeout=10) as answer:
            return answer.status
    except urllib.error.HTTPError as fault:
        return fault.code


def try_paths(address):
    for path, wanted in WATCHING.items():
        assert status(address + path) == wanted, (path, status(address + path))
    for (method, path), wanted in NOTHING.items():
        had = status(address + path, method)
        assert had == wanted, (method, path, had)


def try_ports(address, ports):
    """None of the laptop's ports but the hall's lets the phone in."""
    host = urllib.parse.urlsplit(address).hostname
    for port in ports:
        with socket.socket() as probe:
            probe.settimeout(5)
            assert probe.connect_ex((host, port)) != 0, f"port {port} is reached from the hall"


async def try_wires(address):
    """No path but /watch takes a WebSocket, and there no command but those for watching is accepted."""
    wire = address.replace("http", "ws", 1)
    for path in "/", "/relay", "/operators/relay", "/pages/round.html", "/sub/r3-1", "/publish/r3-1", "/watch/", "/watch/relay":
        try:
            async with websockets.connect(wire + path, compression=None):
                raise AssertionError(f"{path} takes a WebSocket")
        except websockets.InvalidStatusCode:
            pass
    await try_words(f"{wire}/watch", opens("r3-1"), submits("r3-1", "e2e4"))


async def try_words(wire, *others):
    """Each of these is refused, and so is everything else that a board's operator or a script may say."""
    async with websockets.connect(wire, compression=None) as phone:
        for word in (*others, ends("r3-1", "agreed"), takes(0), leaves(0)):
            await phone.send(word)
            answer = json.loads(await asyncio.wait_for(phone.recv(), 30))
            assert answer == {"code": 14, "name": "WrongMode", "reply": "refused"}, (word, answer)


async def try_key(address, key):
    """Not even with the key of a board can it be played from there."""
    wire = address.replace("http", "ws", 1)
    await try_words(f"{wire}/watch?key={key}", submits("r3-1", "g1f3"), opens("r3-9"))


async def follow(address, board):
    wire = address.replace("http", "ws", 1)
    async with websockets.connect(f"{wire}/watch", compression=None) as wire_:
        await wire_.send(follows(board, place=0))
        print("ready", flush=True)
        text = {"reply": None}
        while text["reply"] != "over":
            text = json.loads(await asyncio.wait_for(wire_.recv(), 300))
            print(json.dumps(text), flush=True)


@contextlib.asynccontextmanager
async def browser_for(address):
    """A browser that goes to this address and no other; opens a page and waits until it was led to the round."""
    host = urllib.parse.urlsplit(address).hostname
    browser = await Browser().start(f"--host-resolver-rules=MAP * ~NOTFOUND, EXCLUDE 127.0.0.1, EXCLUDE {host}")

    async def led(path, **size):
        page = await browser.open(address + path, **size)
        await page.until('location.pathname === "/pages/round.html" && document.readyState === "complete"')
        return page
    try:
        yield led
    finally:
        await browser.stop()


async def browse(address):
    """The round with its players, those boards too that are not open yet; then a board of it, live."""
    async with browser_for(address) as led:
        page = await led("/screen", size=(1280, 720))
        await page.until('document.body.classList.contains("hall") && document.querySelectorAll(".tile").length === 3')
        page = await led("/", size=(390, 800))
        await page.until('document.querySelectorAll(".tile").length === 3')
        assert await page.run('[...document.querySelectorAll(".side")].slice(0, 4).map((it) => it.textContent)') == [
            "Caruana", "Carlsen", "So", "Nakamura"]
        await page.until('document.querySelector(".tile [data-man=P][data-square=e4]") !== null')
        await page.click(".tile .inner")
        await page.until('document.querySelector("#state")?.dataset.state === "live"')
        await page.until('document.querySelectorAll(".move[data-place]").length === 2')
        assert not page.faults, page.faults


async def see(address, *boards):
    """The round has these boards, in the order of their opening."""
    async with browser_for(address) as led:
        page = await led("/")
        await page.until(f'[...document.querySelectorAll(".tile .name")].map((it) => it.textContent).join() === "{",".join(boards)}"')
        sides = await page.run('[...document.querySelectorAll(".side")].map((it) => it.textContent)')
        assert set(sides) == {"White", "Black"} and not page.faults, page.faults


async def stay(address):
    """The page of the round stays open while what serves it is ended and started again."""
    async with browser_for(address) as led:
        page = await led("/")
        await page.until('document.querySelector(".tile:nth-child(2) [data-man=P][data-square=d4]") !== null')
        print("ready", flush=True)
        await page.until('document.querySelector(".tile:nth-child(2) [data-man=p][data-square=d5]") !== null', seconds=200)
        assert not page.faults, page.faults


def main():
    job, address, *rest = sys.argv[1:]
    if job == "reaches":
        try_paths(address)
        try_ports(address, map(int, rest))
        asyncio.run(try_wires(address))
    elif job == "tries":
        asyncio.run(try_key(address, *rest))
    elif job == "follows":
        asyncio.run(follow(address, *rest))
    else:
        asyncio.run({"browses": browse, "lists": see, "stays": stay}[job](address, *rest))


main()
