"""The test of the smallest site, whose nginx has no module of channels; test.sh starts it. Spectators watch through it, and nobody reaches
more. The package's recorder, exporter and health check are tried beside it."""
import asyncio
import contextlib
import json
import os
import pathlib
import re
import shlex
import ssl
import subprocess
import sys
import urllib.error
import urllib.request

import websockets

from relay_client.browser import Browser
from relay_client.client import Client

SITE, WIRE, PLAIN = "https://localhost:9444", "wss://localhost:9444", "http://localhost:9980"
CERTIFICATE, ROOT = sys.argv[1], pathlib.Path(sys.argv[2])
TLS = ssl.create_default_context(cafile=CERTIFICATE)
LIBRARY, PGN, RECORDS = ROOT / "usr/lib/relay960", ROOT / "srv/relay960/pgn", ROOT / "srv/relay960/records"
OPERATOR, WATCH = "ws://127.0.0.1:9600", "ws://127.0.0.1:9601"  # By SSH an operator comes to the first.


class NoRedirect(urllib.request.HTTPRedirectHandler):
    def redirect_request(self, *_):
        return None


def get(path, method="GET", site=SITE):
    """The status, the header and the text of an answer; no redirection is followed."""
    opener = urllib.request.build_opener(NoRedirect, urllib.request.HTTPSHandler(context=TLS))
    request = urllib.request.Request(site + path, method=method, data=b"x" if method == "POST" else None)
    try:
        with opener.open(request, timeout=10) as answer:
            return answer.status, answer.headers, answer.read().decode()
    except urllib.error.HTTPError as fault:
        return fault.code, fault.headers, ""


def try_paths():
    expected = {
        ("/", "GET"): 302, ("/pages/round.html", "GET"): 200, ("/pages/watch.html", "GET"): 200, ("/pages/watch.html", "POST"): 403,
        ("/pages/table.html", "GET"): 404, ("/pages/tables.html", "GET"): 404, ("/operators/table.html", "GET"): 404,
        ("/operators/relay", "GET"): 404, ("/sub/b1", "GET"): 404, ("/watch", "GET"): 400, ("/watch", "POST"): 400,
        ("/watch/x", "GET"): 404, ("/pgn/", "GET"): 403, ("/pgn/none.pgn", "GET"): 404, ("/pgn/../records/s1.record", "GET"): 404,
        ("/other", "GET"): 404,
    }
    for (path, method), wanted in expected.items():
        assert get(path, method)[0] == wanted, (path, method, get(path, method)[0])
    assert get("/")[1]["Location"] == f"{SITE}/pages/round.html?watch={WIRE}/watch"
    status, header, _ = get("/pages/round.html?x=1", site=PLAIN)
    assert (status, header["Location"]) == (301, "https://localhost/pages/round.html?x=1")


async def try_spectator():
    """A spectator has each move, and the list; what an operator may, is refused there."""
    operator = await Client.to(OPERATOR)
    await operator.open("s1")
    async with websockets.connect(f"{WIRE}/watch", ssl=TLS) as spectator:
        async def ask(**command):
            await spectator.send(json.dumps(command))
            return json.loads(await asyncio.wait_for(spectator.recv(), 10))
        refused = {"code": 14, "name": "WrongMode", "reply": "refused"}
        assert await ask(cmd="open", board="s9", start=518) == refused
        assert await ask(cmd="submit", board="s1", move="e2e4") == refused
        assert (await ask(cmd="follow", board="s1", spectator=1))["reply"] == "following"
        for place, move in enumerate(("e2e4", "e7e5")):
            await operator.submit("s1", move)
            assert json.loads(await asyncio.wait_for(spectator.recv(), 10)) == {"move": move, "place": place, "reply": "move"}
    return operator


async def try_browser():
    """The front shows the boards, and a click shows one, under the site's content policy."""
    browser = await Browser().start("--ignore-certificate-errors")
    try:
        seer = await browser.open(f"{SITE}/")
        await seer.until('[...document.querySelectorAll(".tile")].some((it) => it.textContent.includes("s1"))')
        await seer.click(".tile .inner")
        await seer.until('document.querySelectorAll(".move[data-place]").length === 2')
        assert not seer.faults, seer.faults
    finally:
        await browser.stop()


async def try_pgn(operator):
    """Whoever asks for the recorder's file again and again has each move of several games, with the type of PGN, and from no cache."""
    words = [LIBRARY / "record.py", WATCH, "--all", RECORDS, "--pgn", PGN / "round.pgn", "--players", "s1", "White", "Black"]
    recorder = subprocess.Popen(words)
    try:
        assert "1. e4 e5 *" in await polled("1. e4 e5")
        await operator.submit("s1", "g1f3")
        await operator.open("s2", 0)
        await operator.submit("s2", "d2d4")
        await operator.end("s2")
        text = await polled("2. Nf3", "1/2-1/2")
        assert text.count("[Event ") == 2 and '[White "White"]' in text and '[FEN "bbqnnrkr/' in text, text
        _, header, _ = get("/pgn/round.pgn")
        had = [header[it] for it in ("Content-Type", "Cache-Control", "Access-Control-Allow-Origin")]
        assert had == ["application/vnd.chess-pgn; charset=utf-8", "no-store", "*"], had
        assert get("/pgn/round.pgn", "POST")[0] == 403
    finally:
        recorder.terminate()
        recorder.wait()


async def polled(*words):
    """The file once it has these words."""
    text = ""
    for _ in range(100):
        _, _, text = get("/pgn/round.pgn")
        if all(it in text for it in words):
            return text
        await asyncio.sleep(0.1)
    raise AssertionError((words, text))


JOURNAL = """#!/bin/sh
[ "$*" = "--follow --lines=0 --output=cat --unit=relay960" ] || exit 1
echo "[INFO  relay960] connections 5, boards 2, ended 1, followers 4, cut off 3"
exec sleep 100
"""


async def try_figures():
    """The package's exporter, by its unit's own words: what the relay has, and what the journal says, for which another program stands."""
    journal = ROOT / "bin/journalctl"
    journal.parent.mkdir()
    journal.write_text(JOURNAL)
    journal.chmod(0o755)
    unit = (ROOT / "usr/lib/systemd/system/relay960-metrics.service").read_text()
    words = shlex.split(re.search("^ExecStart=(.*)$", unit, re.M)[1])
    env = {**os.environ, "PATH": f"{journal.parent}:{os.environ['PATH']}", "PYTHONPATH": ""}
    with subprocess.Popen(words, env=env) as exporter:
        try:
            await says("relay960_up 1.0", "relay960_boards_live 1.0", "relay960_moves_total 4.0", "relay960_followers 4.0")
        finally:
            exporter.terminate()


async def says(*lines):
    """Waits until Prometheus would read these lines."""
    text = ""
    for _ in range(100):
        with contextlib.suppress(OSError):
            _, _, text = get("/metrics", site="http://127.0.0.1:9961")
        if set(lines) <= set(text.splitlines()):
            return
        await asyncio.sleep(0.1)
    raise AssertionError((lines, text))


def try_health():
    """The package's health check, through nginx, whose certificate it is told to trust, and where it does not."""
    words = [LIBRARY / "healthy", f"{SITE}/watch"]
    done = subprocess.run(words, env={**os.environ, "CURL_CA_BUNDLE": CERTIFICATE}, capture_output=True, text=True, timeout=20)
    assert (done.stdout, done.returncode) == ("ok\n", 0), done
    done = subprocess.run(words, capture_output=True, text=True, timeout=20)
    assert done.returncode == 1 and done.stdout.startswith(f"no answer from {SITE}/watch: SSL certificate problem: "), done


async def main():
    for folder in PGN, RECORDS:
        folder.mkdir(parents=True)
    try_paths()
    print("ok      smallest paths", flush=True)
    operator = await try_spectator()
    print("ok      smallest spectator", flush=True)
    await try_browser()
    print("ok      smallest browser", flush=True)
    await try_pgn(operator)
    print("ok      smallest PGN", flush=True)
    await try_figures()
    try_health()
    print("ok      smallest figures and health", flush=True)
    await operator.close()


asyncio.run(main())
