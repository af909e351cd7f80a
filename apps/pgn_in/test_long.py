"""A round of 64 boards in a file that grows by ten moves a second: test_long.py [SECONDS]. test.sh long starts it.

It tells how soon a move that stands in the file is at the relay, and the program's time of the processor and its memory: at rest, with 64
games of 400 plies; and while the file grows, in the first and the last tenth of the time.
"""
import asyncio
import json
import os
import pathlib
import random
import statistics
import sys
import tempfile
import time

import websockets

from position import Position
from relay_client.relay import Relay
from rules import legal
from san import san
from setup import fen_of

HERE = pathlib.Path(__file__).resolve().parent
BOARDS, PER_SECOND, EVERY, REST = 64, 10, 0.5, 30
TICKS = os.sysconf("SC_CLK_TCK")


class Game:
    def __init__(self, board, chance):
        self.board, self.chance, self.number = board, chance, chance.randrange(960)
        self.position, self.words, self.moves = Position.read(fen_of(self.number)), [], []

    def move(self):
        """One more move by chance; none where there is none or the relay might end the game."""
        texts = list(legal(self.position)) if self.position.half_moves < 140 else []
        if not texts:
            return False
        text = self.chance.choice([it for it in texts if self.position.squares[int(it[1]) * 8 - 8 + ord(it[0]) - 97] in "Pp"] or texts
                                  if self.position.half_moves > 60 else texts)
        self.words.append(("" if len(self.words) % 2 else f"{len(self.words) // 2 + 1}. ") + san(self.position, text) + " {[%clk 1:30:00]}")
        self.moves.append(text)
        self.position = self.position.after(text)
        return True

    def text(self):
        fen = fen_of(self.number)
        tags = {"Event": "Long", "Round": f"1.{self.board}", "White": f"White {self.board}", "Black": "Black", "FEN": fen}
        return "".join(f'[{name} "{value}"]\n' for name, value in tags.items()) + f"\n{' '.join(self.words)} *\n\n"


def write(path, games):
    new = path.with_name("new")
    new.write_text("".join(it.text() for it in games))
    os.replace(new, path)


def spent(process):
    """Its seconds of the processor."""
    fields = pathlib.Path(f"/proc/{process.pid}/stat").read_text().rpartition(")")[2].split()
    return (int(fields[11]) + int(fields[12])) / TICKS


def memory(process):
    """Its memory in MB."""
    lines = pathlib.Path(f"/proc/{process.pid}/status").read_text().splitlines()
    return next(int(it.split()[1]) for it in lines if it.startswith("VmRSS")) / 1024


async def enter(relay, folder):
    words = [relay.address, str(folder / "round.pgn"), "--every", str(EVERY), "--state", str(folder / "state")]
    return await asyncio.create_subprocess_exec("/usr/bin/python3", str(HERE / "enter.py"), *words, stdout=asyncio.subprocess.DEVNULL)


async def hear(relay, board, seen):
    """Notes when each move of a board is heard."""
    async with websockets.connect(relay.address, ping_interval=None, compression=None) as socket:
        text = {"reply": "refused"}
        while text["reply"] == "refused":
            await socket.send(json.dumps({"cmd": "follow", "board": board, "spectator": 1, "from": 0}))
            text = json.loads(await socket.recv())
            await asyncio.sleep(0.05)
        async for message in socket:
            text = json.loads(message)
            if text["reply"] == "move":
                seen[board, text["place"]] = time.monotonic(), text["move"]


async def until_there(games, seen):
    until = time.monotonic() + 60
    while not all((f"r1-{it.board}", len(it.moves) - 1) in seen for it in games if it.moves) and time.monotonic() < until:
        await asyncio.sleep(0.1)


async def at_rest(chance):
    """64 games of 400 plies that do not change."""
    games = [Game(it, chance) for it in range(1, BOARDS + 1)]
    for game in games:
        while len(game.moves) < 400 and game.move():
            pass
    with tempfile.TemporaryDirectory() as name:
        folder, relay = pathlib.Path(name), await Relay(grace=60, boards=64, capacity=1024).start()
        write(folder / "round.pgn", games)
        program = await enter(relay, folder)
        seen = {}
        ears = [asyncio.create_task(hear(relay, f"r1-{it.board}", seen)) for it in games]
        began = time.monotonic()
        await until_there(games, seen)
        first = time.monotonic() - began
        await asyncio.sleep(2)
        before = spent(program)
        await asyncio.sleep(REST)
        size = (folder / "round.pgn").stat().st_size
        share = 100 * (spent(program) - before) / REST
        print(f"at rest, {sum(len(it.moves) for it in games)} plies in {size / 1e6:.1f} MB: {share:.1f} % of a processor, "
              f"{memory(program):.0f} MB; it took {first:.1f} s to enter them", flush=True)
        await end(program, ears, relay)


async def end(program, ears, relay):
    for ear in ears:
        ear.cancel()
    program.terminate()
    await program.wait()
    await relay.kill()


def told(waits):
    waits = sorted(waits)
    return f"median {statistics.median(waits):.2f} s, 99 of 100 within {waits[len(waits) * 99 // 100]:.2f} s, worst {waits[-1]:.2f} s"


async def grow(chance, seconds):
    games = [Game(it, chance) for it in range(1, BOARDS + 1)]
    with tempfile.TemporaryDirectory() as name:
        folder, relay = pathlib.Path(name), await Relay(grace=60, boards=64, capacity=1024, plies=1024).start()
        write(folder / "round.pgn", games)
        program = await enter(relay, folder)
        seen, written = {}, {}
        ears = [asyncio.create_task(hear(relay, f"r1-{it.board}", seen)) for it in games]
        await asyncio.sleep(3)
        began, at, marks = time.monotonic(), 0, []
        while (passed := time.monotonic() - began) < seconds:
            game = games[at % BOARDS]
            if await asyncio.to_thread(game.move):
                await asyncio.to_thread(write, folder / "round.pgn", games)
                written[f"r1-{game.board}", len(game.moves) - 1] = time.monotonic(), game.moves[-1]
            at += 1
            if len(marks) <= 10 * passed / seconds:
                marks.append((memory(program), spent(program), passed))
            await asyncio.sleep(max(0, began + at / PER_SECOND - time.monotonic()))
        marks.append((memory(program), spent(program), time.monotonic() - began))
        await until_there(games, seen)
        missing = [it for it in written if it not in seen or seen[it][1] != written[it][1]]
        share = [100 * (later[1] - one[1]) / (later[2] - one[2]) for one, later in (marks[:2], marks[-2:])]
        waits = [seen[it][0] - written[it][0] for it in written if it in seen]
        print(f"{len(written)} moves in {seconds:.0f} s: {told(waits)}; memory {marks[0][0]:.0f} MB and at the end {marks[-1][0]:.0f} MB; "
              f"{share[0]:.0f} % of a processor in the first tenth, {share[1]:.0f} % in the last")
        await end(program, ears, relay)
    print(f"{len(written) - len(missing)} of {len(written)} moves are at the relay as they stand in the file")
    return 1 if missing else 0


async def main(seconds):
    chance = random.Random(55)
    await at_rest(chance)
    return await grow(chance, seconds)


if __name__ == "__main__":
    sys.exit(asyncio.run(main(float(sys.argv[1]) if len(sys.argv) > 1 else 1440)))
