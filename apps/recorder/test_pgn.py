"""The PGN of the recorder, read by programs that are not ours: test_pgn.py [GAMES], 200 by default. test.sh starts it.

Random games with all kinds of ends are played through the built relay, and recorded as rounds of several boards. Debian's pgn-extract
reads each file without complaint, and finds the moves that were played. Debian's Stockfish plays them through and ends in the position
that the relay reports, and so does Debian's PyChess, which reads each game of a file.
"""
import asyncio
import collections
import json
import pathlib
import random
import re
import subprocess
import sys
import tempfile

import plays
from position import Position
from relay_client.client import Client
from relay_client.program import start_fen
from relay_client.readers import Stockfish, games_in, is_same, read_by_pychess
from relay_client.relay import Relay

HERE = pathlib.Path(__file__).resolve().parent
PATIENCE = 600  # Seconds that a round may take on a busy machine.
BOARDS = 10  # Of a round.
SCORES = {"white mates": "1-0", "black mates": "0-1", "white resigns": "0-1", "black resigns": "1-0", "abandoned": "*",
          "white loses on time": "0-1", "black loses on time": "1-0", "white wins by decision": "1-0", "black wins by decision": "0-1"}
DRAW = "1/2-1/2"
ENDS = {*SCORES, "stalemate", "agreed", "threefold", "fifty moves", "fivefold", "seventy-five moves", "drawn by decision"}
# Of the PGN standard, 9.8.1; all others are normal.
TERMINATIONS = {"abandoned": "abandoned", "white loses on time": "time forfeit", "black loses on time": "time forfeit",
                **dict.fromkeys(("white wins by decision", "black wins by decision", "drawn by decision"), "adjudication")}


def extract(file, *words):
    """What pgn-extract makes of a file. It must not complain."""
    ran = subprocess.run(["/usr/games/pgn-extract", "-s", "-w100000", *words, str(file)], capture_output=True, text=True, check=True)
    assert ran.stderr == "", ran.stderr
    return ran.stdout


def games_of(text):
    """The tags and the words of each game of a text of pgn-extract, which sets the comment of a game without a move apart from its
    result."""
    games = []
    for part in filter(str.strip, text.split("\n\n")):
        if part.lstrip().startswith("["):
            games.append((part, []))
        else:
            games[-1][1].append(part)
    for tags, parts in games:
        yield dict(re.findall(r'^\[(\w+) "(.*)"\]$', tags, re.M)), re.sub(r"\{[^}]*\}", "", " ".join(parts)).split()


async def position_told(address, board, plies):
    """The position that the relay gives for a place."""
    client = await Client.to(address)
    text = await client.ask(cmd="follow", board=board, spectator=0, **{"from": plies})
    await client.close()
    return text["fen"]


async def recorded(folder, address, names):
    words = [word for it in names for word in (it, str(folder / f"{it}.record"))]
    return await asyncio.create_subprocess_exec(
        "/usr/bin/python3", str(HERE / "record.py"), address, *words, "--wait", "0.1", "--pgn", str(folder / "round.pgn"),
        "--event", 'The "Open"', "--round", "3", "--players", names[0], "Müller, A", "O'Neil", stderr=asyncio.subprocess.PIPE)


async def play_round(folder, chance, kinds):
    """Plays a round of a game of each of these kinds. Answers them with the relay's last position of each."""
    relay = await Relay(capacity=1024, plies=1024).start()
    names = [f"b{index}" for index in range(len(kinds))]
    recorder = await recorded(folder, relay.address, names)
    starts = [chance.randrange(960) for _ in names]
    games = [await plays.Play.on(relay.address, name, start, Position.read(start_fen(start)), chance) for name, start in zip(names, starts)]
    await asyncio.gather(*(plays.play_out(game, kind) for game, kind in zip(games, kinds)))
    _, said = await asyncio.wait_for(recorder.communicate(), PATIENCE)
    assert recorder.returncode == 0, said
    finals = [await position_told(relay.address, game.board, len(game.moves)) for game in games]
    await Relay.stop_all()
    return list(zip(games, finals))


def seen_in(game, words):
    """What of the rarer things of a game it has."""
    yield game.outcome
    for index, (deed, word) in enumerate(zip(game.deeds, words)):
        side = "black" if index % 2 else "white"
        if deed.castles:
            yield f"{side} {word.rstrip('+#')}"
        elif deed.promotion:
            yield f"={deed.promotion.upper()}"
        elif deed.passing:
            yield "passing"
        elif re.match("[NR][a-h]x?[a-h]", word):
            yield f"{word[0]} by file"
        elif re.match("[NR][1-8]", word):
            yield f"{word[0]} by rank"


WANTED = ENDS | {f"{side} {wing}" for side in ("white", "black") for wing in ("O-O", "O-O-O")} | {f"={it}" for it in "QRBN"}
WANTED |= {"passing", "N by file", "N by rank", "R by file", "R by rank"}


def compare(file, round_played, stockfish, seen):
    """Compares what others read in a round's file with what was played."""
    moved = list(games_of(extract(file, "-Wuci")))
    written = list(games_of(extract(file)))
    alone = games_in(file.read_text(encoding="utf-8"))
    for (game, final), (tags, moves), (_, words), text in zip(round_played, moved, written, alone, strict=True):
        score = SCORES.get(game.outcome, DRAW)
        assert (tags["BoardName"], tags["Variant"], tags["SetUp"], tags["Round"]) == (game.board, "Chess960", "1", "3"), tags
        assert tags["Event"] == 'The \\"Open\\"' and tags["Result"] == moves[-1] == score, (tags, game.outcome)
        assert tags["Termination"] == TERMINATIONS.get(game.outcome, "normal"), (tags, game.outcome)
        assert (tags["White"], tags["Black"]) == (("Müller, A", "O'Neil") if game.board == "b0" else ("?", "?")), tags
        assert [it.lower() for it in moves[:-1]] == game.moves, (game.start, game.moves, moves)
        head = json.loads((file.parent / f"{game.board}.record").read_text().splitlines()[0])
        assert (head.get("white"), head.get("black")) == (("Müller, A", "O'Neil") if game.board == "b0" else (None, None)), head
        found = stockfish.final(tags["FEN"], [it.lower() for it in moves[:-1]])
        assert is_same(found, final), (tags, found, final)
        assert read_by_pychess(text) == (len(game.moves), final.split(" ")[:2]), text
        seen.update(seen_in(game, [it for it in words if not it.endswith(".")]))


async def main(count):
    chance = random.Random(960)
    kinds = (plays.KINDS * count)[:count]
    seen, compared = collections.Counter(), 0
    with Stockfish() as stockfish:
        for first in range(0, count, BOARDS):
            with tempfile.TemporaryDirectory() as name:
                folder = pathlib.Path(name)
                played = await play_round(folder, chance, kinds[first:first + BOARDS])
                compare(folder / "round.pgn", played, stockfish, seen)
                compared += len(played)
    print(", ".join(f"{name}: {times}" for name, times in sorted(seen.items())))
    missed = WANTED - set(seen) if count >= 200 else set()
    print(f"{compared} of {count} games are read by others as they were played" + (f"; never came: {sorted(missed)}" if missed else ""))
    return 1 if missed else 0


sys.exit(asyncio.run(main(int(sys.argv[1]) if len(sys.argv) > 1 else 200)))
