"""The test of a relay that is killed in the middle of its games; test.sh starts it. The relay runs by its unit's own words, and is started
again as systemd does that after a failure. An operator with a key plays a board, the package's enter.py another, a spectator follows both,
and the recorder writes them. Nothing is entered twice: whoever had an answer on its way asks again, as the protocol says."""
import asyncio
import contextlib
import os
import pathlib
import re
import shlex
import signal
import subprocess
import sys

import websockets

from relay_client.client import Client
from relay_client.journals import lines_in, sound_size
from relay_client.keys import new_key
from relay_client.line import Line, Refused

ROOT, RUN = pathlib.Path(sys.argv[1]), pathlib.Path(sys.argv[2])
LIBRARY, PROGRAM, JOURNAL = ROOT / "usr/lib/relay960", ROOT / "usr/bin/relay960", ROOT / "var/lib/relay960/journal"
UNIT = (ROOT / "usr/lib/systemd/system/relay960.service").read_text()
MAIN, WATCH = "ws://127.0.0.1:9600", "ws://127.0.0.1:9601"
ENV = {**os.environ, "PYTHONPATH": "", "HOME": str(RUN)}
FAULTS = (OSError, asyncio.TimeoutError, websockets.WebSocketException)
MOVES = "e2e4 e7e5 g1f3 b8c6 f1b5 a7a6 b5a4 g8f6 e1h1 f8e7".split()
WORDS = "e4 e5 Nf3 Nc6 Bb5 a6 Ba4 Nf6 O-O Be7".split()
PGN = '[Event "Club final"]\n[Round "3"]\n[White "Lasker"]\n[Black "Capablanca"]\n\n{} {}\n\n'
GAME = "1. e4 e5 2. Nf3 Nc6 3. Bb5 a6 4. Ba4 Nf6 5. O-O Be7"
ILLEGAL, OVER = "Illegal", "GameOver"


def of_unit(name):
    return re.search(f"^{name}=(.*)$", UNIT, re.M)[1]


class Relay:
    """The relay as its unit says it, without the unit's sandbox."""

    async def start(self):
        assert of_unit("Restart") == "on-failure"
        self.log = open(RUN / "kills.log", "ab")
        self.main = await asyncio.create_subprocess_exec(*shlex.split(of_unit("ExecStart")), stdin=asyncio.subprocess.DEVNULL,
                                                         stdout=self.log, stderr=self.log)
        self.again = asyncio.create_task(self.start_again())

    async def start_again(self):
        if await self.main.wait() != 0:
            await asyncio.sleep(float(of_unit("RestartSec")))
            await self.start()

    async def kill(self, leaves=None):
        """Kills the program, and leaves the journal as `leaves` does that, before it is started again."""
        killed = self.main
        program = int(pathlib.Path(f"/proc/{killed.pid}/task/{killed.pid}/children").read_text().split()[0])
        os.kill(program, signal.SIGKILL)
        assert await killed.wait() == 128 + signal.SIGKILL
        if leaves:
            leaves()

    async def stop(self):
        self.main.terminate()
        assert await self.main.wait() == 0
        await self.again


def half_a_line():
    """The half of a line stands where the next would be written."""
    with open(JOURNAL, "r+b") as file:
        lines = lines_in(file.read())
        file.seek(sound_size(lines))
        file.write(f"{'0' * 16}>{lines[-1].body.decode()}".encode()[:40])


def half_behind_all():
    """And behind the zeros with which the file ends."""
    with open(JOURNAL, "ab") as file:
        file.write(b"0123456789abcdef>half of a li")


class Operator:
    """Asks again, over a new connection, what was not answered: it was done before where it is refused with `done`."""

    async def comes(self):
        self.client = await Client.to(MAIN, self.key)

    async def asks(self, done, **command):
        for count in range(200):
            try:
                answer = await self.client.ask(**command)
            except FAULTS:
                await asyncio.sleep(0.1)
                with contextlib.suppress(*FAULTS):
                    await self.client.come_back()
                continue
            assert answer["reply"] in ("opened", "played", "ended") or count and answer["name"] == done, (command, answer)
            return
        raise AssertionError(f"the relay did not come back for {command}")

    async def plays(self, relay, entered):
        """A move is written to the file and another entered by hand. The relay is killed while every third is on its way, and the end."""
        self.key = new_key()
        await self.comes()
        await self.asks(None, cmd="open", board="r3-1", start=518)
        for place, move in enumerate(MOVES):
            entered.write_text(PGN.format(" ".join(WORDS[:place + 1]), "*"))
            asked = asyncio.create_task(self.asks(ILLEGAL, cmd="submit", board="r3-1", move=move))
            if place % 3 == 1:
                await asyncio.sleep(0)
                await relay.kill((None, half_a_line, half_behind_all)[place // 3])
            await asked
        entered.write_text(PGN.format(" ".join(WORDS), "1-0"))
        asked = asyncio.create_task(self.asks(OVER, cmd="end", board="r3-1", how="resign", side="white"))
        await asyncio.sleep(0)
        await relay.kill()
        await asked


async def follow(board):
    """What a spectator is told, who comes again from the place for which he waits: each move, and the end."""
    line, moves, outcome = Line(WATCH), [], None

    async def hear(_, text):
        nonlocal outcome
        if text["reply"] == "following":
            assert text["joined"] == len(moves), text
        elif text["reply"] == "move":
            assert text["place"] == len(moves), text
            moves.append(text["move"])
        else:
            outcome = text["outcome"]
    while outcome is None:
        with contextlib.suppress(Refused, *FAULTS):
            await line.follow(board, hear, len(moves))
        await asyncio.sleep(0.1)
    return moves, outcome


async def until_written(file, *games):
    """Waits until the recorder's file has these games, each as its board and the words of its moves."""
    text = ""
    for _ in range(200):
        text = " ".join(file.read_text().split()) if file.exists() else ""
        if text.count("[Event ") == len(games) and all(f'[BoardName "{board}"]' in text and words in text for board, words in games):
            return
        await asyncio.sleep(0.1)
    raise AssertionError(text)


def boards_in(journal):
    """What the program says of a journal."""
    done = subprocess.run([PROGRAM, "journal", journal], capture_output=True, text=True, timeout=60)
    assert done.returncode == 0, done
    return done.stdout.splitlines()


async def main():
    JOURNAL.unlink(missing_ok=True)
    relay, entered, pgn, records = Relay(), RUN / "entered.pgn", RUN / "kills.pgn", RUN / "kills"
    records.mkdir()
    (RUN / "kills.txt").write_text("r3-1 518 Steinitz – Zukertort\nr3-2 518 Lasker – Capablanca\n")
    entered.write_text("")
    await relay.start()
    words = [[LIBRARY / "enter.py", MAIN, entered, "--list", RUN / "kills.txt"],
             [LIBRARY / "record.py", WATCH, "--all", records, "--pgn", pgn]]
    beside = [await asyncio.create_subprocess_exec(*map(str, it), env=ENV, stdout=relay.log, stderr=relay.log) for it in words]
    try:
        async with asyncio.timeout(120):
            seen = asyncio.gather(follow("r3-1"), follow("r3-2"))
            await Operator().plays(relay, entered)
            assert await seen == [(MOVES, "white resigns"), (MOVES, "white wins by decision")], await seen
            await until_written(pgn, ("r3-1", f"{GAME} {{White resigns.}} 0-1"),
                                ("r3-2", f"{GAME} {{White wins by the arbiter's decision.}} 1-0"))
        assert len(list(JOURNAL.parent.glob("journal.torn-*"))) >= 2
        print("ok      kills", flush=True)
        for it in beside:
            it.terminate()
            await it.wait()
        # The next round: its journal has no boards, and that of this round has them.
        await relay.stop()
        JOURNAL.rename(JOURNAL.with_name("round3.journal"))
        await relay.start()
        said = boards_in(JOURNAL.with_name("round3.journal"))
        assert sorted(said[:2]) == [f"board {it}" for it in ("r3-1: start 518, plies 10, white resigns",
                                                             "r3-2: start 518, plies 10, white wins by decision")], said
        for _ in range(100):
            with contextlib.suppress(*FAULTS):
                await (await Client.to(MAIN)).open("r3-1")  # The name is free.
                break
            await asyncio.sleep(0.1)
        assert boards_in(JOURNAL)[0].startswith("board r3-1: start 518, plies 0")
        await relay.stop()
        print("ok      the next round", flush=True)
    finally:
        for it in [*beside, relay.main]:
            if it.returncode is None:
                it.terminate()
                await it.wait()


asyncio.run(main())
