"""The built program: where it is, how long to wait for it, and its commands that answer at once."""

import os
import pathlib
import subprocess

TOP = pathlib.Path(__file__).resolve().parents[2]
# The environment's RELAY960 names another program to try.
PROGRAM = pathlib.Path(os.environ.get("RELAY960") or TOP / "crates/relay960/out/relay960").resolve()
# Seconds: more than any run takes, on a slow machine too.
PATIENCE = 300


def printed(*words):
    """The lines that a run of the program prints, which must end with status 0."""
    return subprocess.run([PROGRAM, *words], capture_output=True, text=True, check=True, timeout=PATIENCE).stdout.splitlines()


def start_fen(number):
    """The FEN of a starting position."""
    return printed("start", str(number))[0]


class Player:
    """`relay960 play N`: the position after each move as a FEN, and the legal moves of the present one."""

    def __init__(self, start):
        self.process = subprocess.Popen([PROGRAM, "play", str(start)], stdin=subprocess.PIPE, stdout=subprocess.PIPE, text=True)
        self.fen = start_fen(start)
        self.outcome = None

    def __enter__(self):
        return self

    def __exit__(self, *_):
        self.close()

    def legal(self):
        """The legal moves. If there are none, `outcome` says why."""
        moves, state = printed("moves", self.fen)
        self.outcome = None if state == "going" else state
        return moves.split()

    def play(self, move):
        self.process.stdin.write(f"{move}\n")
        self.process.stdin.flush()
        self.fen = self.process.stdout.readline().strip()
        assert not self.fen.startswith(("refused", "fault")), (move, self.fen)
        return self.fen

    def close(self):
        self.process.stdin.close()
        self.process.wait()
        self.process.stdout.close()


def fens(start, moves):
    """The FEN after each of the moves of a game."""
    with Player(start) as player:
        return [player.play(move) for move in moves]


def game_by_chance(start, chance, plies):
    """A game of random legal moves, until it ends or has this many plies."""
    moves = []
    with Player(start) as player:
        while len(moves) < plies and (legal := player.legal()):
            moves.append(chance.choice(legal))
            player.play(moves[-1])
    return moves
