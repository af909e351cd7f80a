"""Programs that are not ours, as the tests ask them what a game is: Debian's Stockfish and PyChess."""
import io
import shutil
import subprocess

from pychess.Savers import pgn


class Stockfish:
    """Stockfish, as it counts lines of play and as it plays a game through."""

    def __init__(self):
        path = shutil.which("stockfish") or "/usr/games/stockfish"
        self.process = subprocess.Popen([path], stdin=subprocess.PIPE, stdout=subprocess.PIPE, text=True)
        self.say("setoption name UCI_Chess960 value true")

    def say(self, line):
        self.process.stdin.write(f"{line}\n")
        self.process.stdin.flush()

    def counts(self, fen, depth):
        """The moves of a position, each with the number of lines of this many plies that it begins."""
        self.say(f"position fen {fen}")
        self.say(f"go perft {depth}")
        found = {}
        for line in self.process.stdout:
            if line.startswith("Nodes searched"):
                return found
            move, _, count = line.strip().partition(": ")
            if count.isdigit():
                found[move] = int(count)
        raise RuntimeError("Stockfish ended")

    def final(self, fen, moves):
        """The FEN in which these moves end. Stockfish stops at the first that is not legal."""
        self.say(f"position fen {fen} moves {' '.join(moves)}\nd")
        found = next(line for line in self.process.stdout if line.startswith("Fen: "))
        next(line for line in self.process.stdout if line.startswith("Checkers:"))
        return found[5:].strip()

    def __enter__(self):
        return self

    def __exit__(self, *_):
        self.say("quit")
        self.process.wait()
        self.process.stdin.close()
        self.process.stdout.close()


def is_same(fen, other):
    """Compares two FENs. Stockfish writes the square of an en passant capture only if a pawn is ready for it."""
    one, two = fen.split(" "), other.split(" ")
    return one[3] in ("-", two[3]) and one[:3] + one[4:] == two[:3] + two[4:]


def games_in(file):
    """The PGN of each game of a file that has several."""
    return [f"[Event {it}" for it in f"\n{file}".split("\n[Event ")[1:]]


def read_by_pychess(text):
    """How many moves PyChess reads in a game's PGN, and the men and the side to move after them. It raises an error at one that it cannot
    play."""
    model = pgn.load(io.StringIO(text)).loadToModel(None)
    return len(model.moves), model.boards[-1].asFen().split(" ")[:2]
