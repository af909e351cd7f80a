"""Rounds of games that other programs wrote, through enter.py to the built relay and from there into records: test_rounds.py [GAMES], 40 by
default. test.sh starts it.

The moves are drawn from Debian's Stockfish's, the words for them are Debian's PyChess's. Files are written by pgn-extract in each of its
notations, by PyChess, and by a writer that uses every form and everything that may stand beside moves. Each game must come into its record
move for move. What pgn-extract reads in the files is compared, too. At last come all 960 starts, with rights written in both ways.
"""
import asyncio
import io
import json
import pathlib
import random
import subprocess
import sys
import tempfile
import warnings

warnings.simplefilter("ignore")

from position import Position  # noqa: E402
from pychess.Savers import pgn as pychess_pgn  # noqa: E402
from pychess.Utils.const import FISCHERRANDOMCHESS  # noqa: E402
from pychess.Utils.lutils.LBoard import LBoard  # noqa: E402
from pychess.Utils.lutils.lmove import parseAny, toSAN  # noqa: E402
from relay_client.program import start_fen  # noqa: E402
from relay_client.readers import Stockfish  # noqa: E402
from relay_client.relay import Relay  # noqa: E402
from test_entry import forms  # noqa: E402

HERE = pathlib.Path(__file__).resolve().parent
RECORD = HERE.parent / "recorder/record.py"
PATIENCE = 600
NOTATIONS = ("san", "lalg", "halg", "elalg", "xlalg", "uci")
OUTCOMES = {"1-0": ("white wins by decision", "white mates"), "0-1": ("black wins by decision", "black mates"),
            "1/2-1/2": ("agreed", "threefold", "fifty moves", "stalemate", "fivefold", "seventy-five moves")}
# Of a file that says how its games ended, as PyChess's.
NORMAL = b'[Termination "normal"]'
NORMAL_OUTCOMES = {**OUTCOMES, "1-0": ("black resigns", "white mates"), "0-1": ("white resigns", "black mates")}
BESIDE = ("{a comment}", "{[%clk 1:30:00] [%eval 0.17]}", "\n% a line of its own {\n", "$1", "$146 $14", "{(1. a3 [x)}",
          "{" + "long " * 2000 + "}", "{\n[Event \"none\"]\n}", "!", "?!")
MORE = (*BESIDE, "; to the end (of the line {\n")  # pgn-extract 19 does not read this.


class Game:
    """A game of moves by chance from a start, with PyChess's words for them."""

    def __init__(self, board, number, chance, stockfish):
        self.board, self.number, self.fen = board, number, start_fen(number)
        self.moves, self.words = [], []
        self.result = chance.choice(list(OUTCOMES))
        position = LBoard(FISCHERRANDOMCHESS)
        position.applyFen(self.fen)
        for _ in range(chance.randrange(10, 110)):
            legal = sorted(stockfish.counts(f"{self.fen} moves {' '.join(self.moves)}" if self.moves else self.fen, 1))
            if not legal:
                break
            move = self.draw(position, legal, chance)
            deed = parseAny(position, move)
            self.moves.append(move)
            self.words.append(toSAN(position, deed))
            position.applyMove(deed)
        if not legal or not stockfish.counts(f"{self.fen} moves {' '.join(self.moves)}", 1):
            self.result = "1/2-1/2" if not position.isChecked() else "0-1" if len(self.moves) % 2 == 0 else "1-0"

    @staticmethod
    def draw(position, legal, chance):
        """Castling and promotions come more often than by chance."""
        is_sought = chance.random() < 0.3
        rare = [it for it in legal if it[4:] or is_sought and Game.word(position, it)[0] == "O"]
        return chance.choice(rare or legal)

    @staticmethod
    def word(position, move):
        return toSAN(position, parseAny(position, move))

    def positions(self):
        position = Position.read(self.fen)
        for move in self.moves:
            yield position, move
            position = position.after(move)

    def head(self, **tags):
        said = {"Event": "Tröst", "Site": "?", "Date": "2026.11.27", "Round": "3", "White": "Müller", "Black": "O'Neil",
                "Result": self.result, "BoardName": self.board, "Variant": "Chess960", "SetUp": "1",
                "FEN": Position.read(self.fen).write(shredder=False), **tags}
        return "".join(f'[{name} "{value}"]\n' for name, value in said.items()) + "\n"

    def plain(self):
        words = (f"{at // 2 + 1}. {it}" if at % 2 == 0 else it for at, it in enumerate(self.words))
        return self.head() + " ".join(words) + f" {self.result}\n\n"

    def beside(self, chance, choices=MORE):
        """PyChess's words, and beside them what a PGN may have."""
        pieces = []
        for at, word in enumerate(self.words):
            pieces.append(chance.choice((f"{at // 2 + 1}.", f"{at // 2 + 1}...", f"{at // 2 + 1} ", "")) if at % 2 else f"{at // 2 + 1}.")
            pieces.append(word)
            if chance.random() < 0.2:
                pieces.append(chance.choice(choices))
            if at % 2 and chance.random() < 0.1:  # In place of the last move another: the same.
                pieces.append(f"({at // 2 + 1}... {word} {{in}} ({at // 2 + 1}... {word} $2) )")
        return self.head() + " ".join(pieces) + f" {self.result}\n\n"

    def formed(self, chance):
        """Words in every form that is read."""
        words = [chance.choice(list(forms(position, move))) for position, move in self.positions()]
        numbered = (f"{at // 2 + 1}.{it}" if at % 2 == 0 else it for at, it in enumerate(words))
        return self.head(FEN=self.fen) + " ".join(numbered) + f" {self.result}\n\n"


def extracted(folder, text, notation):
    """A file as pgn-extract writes it. It must not complain."""
    file = folder / "given.pgn"
    file.write_text(text, encoding="utf-8")
    ran = subprocess.run(["/usr/games/pgn-extract", "-s", f"-W{notation}", str(file)], capture_output=True, check=True)
    assert ran.stderr == b"", ran.stderr.decode(errors="replace")[:1000]
    return ran.stdout


class Saved(io.StringIO):
    """A file for PyChess's saver, which is read when that has closed it."""

    def close(self):
        pass


def saved_by_pychess(text):
    """A game as PyChess saves it, once it has loaded it."""
    saved = Saved()
    pychess_pgn.save(saved, pychess_pgn.load(io.StringIO(text)).loadToModel(None))
    return saved.getvalue()


def seen_by_extract(folder, text):
    """The moves that pgn-extract reads."""
    file = folder / "seen.pgn"
    file.write_text(text, encoding="utf-8")
    words = ["/usr/games/pgn-extract", "-s", "-Wuci", "-w100000", "-C", "-N", "-V", str(file)]
    ran = subprocess.run(words, capture_output=True, check=True)
    assert ran.stderr == b"", ran.stderr.decode(errors="replace")[:1000]
    lines = [it for it in ran.stdout.decode(errors="replace").splitlines() if it and not it.startswith("[")]
    return [line.lower().split()[:-1] for line in lines]


async def through(folder, data, games, source=None):
    """Takes a file to a relay and records what is there. Compares the records with the games."""
    relay = await Relay(grace=60, boards=256, capacity=1024).start()
    file = folder / "round.pgn"
    file.write_bytes(data)
    words = ["/usr/bin/python3", str(HERE / "enter.py"), relay.address, str(source or file), "--once", "--state", str(folder / "state")]
    entering = await asyncio.create_subprocess_exec(*words, stdout=asyncio.subprocess.DEVNULL, stderr=asyncio.subprocess.PIPE)
    _, wrong = await asyncio.wait_for(entering.communicate(), PATIENCE)
    assert (entering.returncode, wrong) == (0, b""), wrong.decode()[:2000]
    pairs = [word for it in games for word in (it.board, str(folder / f"{it.board}.record"))]
    recording = await asyncio.create_subprocess_exec("/usr/bin/python3", str(RECORD), relay.address, *pairs, stderr=asyncio.subprocess.PIPE)
    _, wrong = await asyncio.wait_for(recording.communicate(), PATIENCE)
    assert recording.returncode == 0, wrong.decode()
    await relay.kill()
    outcomes = NORMAL_OUTCOMES if NORMAL in data else OUTCOMES
    for it in games:
        compare(it, [json.loads(line) for line in (folder / f"{it.board}.record").read_text().splitlines()], outcomes)


def compare(game, lines, outcomes):
    head, _, *moves, over = lines
    assert head["start"] == game.number, (head, game.number)
    assert [it["move"] for it in moves] == game.moves, (game.board, game.moves, moves)
    assert over["outcome"] in outcomes[game.result], (game.board, over, game.result)


async def in_room(data, games):
    with tempfile.TemporaryDirectory() as name:
        await through(pathlib.Path(name), data, games)


async def by_writers(games, chance):
    """Each writer's file; the number of files."""
    plain = "".join(it.plain() for it in games)
    beside = "".join(it.beside(chance) for it in games)
    with tempfile.TemporaryDirectory() as name:
        folder = pathlib.Path(name)
        written = [extracted(folder, plain, it) for it in NOTATIONS]
        for text in plain, "".join(it.beside(chance, BESIDE) for it in games):
            seen = seen_by_extract(folder, text)
            assert seen == [it.moves for it in games], [(a, b.moves) for a, b in zip(seen, games) if a != b.moves][:1]
    formed = "".join(it.formed(chance) for it in games)
    written += ["".join(saved_by_pychess(it.plain()) for it in games).encode()]
    written += [plain.encode(), beside.encode(), formed.encode("latin-1"), formed.replace("\n", "\r\n").encode("utf-8-sig")]
    for data in written:
        await in_room(data, games)
    return len(written)


class Start:
    """A game of no move from a start."""

    def __init__(self, number):
        self.board, self.number, self.moves, self.result = f"s{number}", number, [], "1/2-1/2"
        self.fen = start_fen(number)

    def text(self, is_shredder):
        fen = self.fen if is_shredder else Position.read(self.fen).write(shredder=False)
        assert is_shredder or fen.split(" ")[2] == "KQkq", fen
        return f'[Event "?"]\n[BoardName "{self.board}"]\n[FEN "{fen}"]\n\n1/2-1/2\n\n'


async def all_starts():
    for is_shredder in True, False:
        for first in range(0, 960, 240):
            starts = [Start(it) for it in range(first, first + 240)]
            await in_room("".join(it.text(is_shredder) for it in starts).encode(), starts)


async def main(count):
    chance, files, plies, castlings, promotions = random.Random(960), 0, 0, 0, 0
    with Stockfish() as stockfish:
        for first in range(0, count, 20):
            games = [Game(f"b{it}", chance.randrange(960), chance, stockfish) for it in range(first, min(first + 20, count))]
            plies += sum(len(it.moves) for it in games)
            castlings += sum(word[0] == "O" for it in games for word in it.words)
            promotions += sum(len(move) == 5 for it in games for move in it.moves)
            files += await by_writers(games, chance)
    await all_starts()
    print(f"{count} games of {plies} plies, {castlings} castlings and {promotions} promotions in {files} files, and 960 starts in both "
          "ways: all are at the relay as they were played")


if __name__ == "__main__":
    asyncio.run(main(int(sys.argv[1]) if len(sys.argv) > 1 else 40))
