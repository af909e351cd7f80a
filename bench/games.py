#!/usr/bin/env python3
"""Writes the games that all.sh and plays.py play: games.py FOLDER PLIES.

FOLDER/chance has games from random starts, each move drawn from the legal ones, of at most 120 plies. FOLDER/shuffle has games of 148 plies
in which nothing is captured, no pawn moves and no position comes for the fifth time, so that neither rule on draws without a claim ends
one. A file NUMBER.START holds a game's moves, a line each; each folder's games have PLIES plies together. Legal moves are those of Debian's
Stockfish, so no part of this repository says what to expect of them.
"""
import os
import random
import subprocess
import sys

KNIGHTS = [(0, 1), (0, 2), (0, 3), (0, 4), (1, 2), (1, 3), (1, 4), (2, 3), (2, 4), (3, 4)]


class Stockfish:
    def __init__(self):
        self.process = subprocess.Popen(["/usr/games/stockfish"], stdin=subprocess.PIPE, stdout=subprocess.PIPE, text=True)
        self.say("setoption name UCI_Chess960 value true")

    def say(self, line):
        self.process.stdin.write(line + "\n")
        self.process.stdin.flush()

    def legal_moves(self, start, moves):
        self.say(f"position fen {start} moves {' '.join(moves)}\ngo perft 1")
        found = []
        for line in self.process.stdout:
            if line.startswith("Nodes searched"):
                return found
            text, colon, _ = line.partition(":")
            if colon and len(text) in (4, 5):
                found.append(text)


def array_of(number):
    """The white array of a start number (FIDE Guidelines II)."""
    row = [None] * 8
    number, light = divmod(number, 4)
    row[1 + 2 * light] = "B"
    number, dark = divmod(number, 4)
    row[2 * dark] = "B"
    knights, queen = divmod(number, 6)

    def free():
        return [at for at in range(8) if row[at] is None]

    row[free()[queen]] = "Q"
    first, second = (free()[at] for at in KNIGHTS[knights])
    row[first] = row[second] = "N"
    for at, kind in zip(free(), "RKR"):
        row[at] = kind
    return "".join(row)


def start_of(number):
    array = array_of(number)
    rooks = "".join("abcdefgh"[at] for at in (array.rindex("R"), array.index("R")))
    return f"{array.lower()}/pppppppp/8/8/8/8/PPPPPPPP/{array} w {rooks.upper()}{rooks} - 0 1"


def by_chance(stockfish, start):
    moves = []
    while len(moves) < 120:
        legal = stockfish.legal_moves(start, moves)
        if not legal:
            break
        moves.append(random.choice(legal))
    return moves


def shuffled(stockfish, number):
    """A game of pieces that only go to empty squares, or none if it gets stuck; the cells are kept here to see which moves those are."""
    array = array_of(number)
    cells = {f"{'abcdefgh'[at]}1": kind for at, kind in enumerate(array)}
    cells |= {f"{'abcdefgh'[at]}8": kind.lower() for at, kind in enumerate(array)}
    cells |= {f"{name}2": "P" for name in "abcdefgh"} | {f"{name}7": "p" for name in "abcdefgh"}
    seen, moves = {}, []
    while len(moves) < 148:
        quiet = []
        for move in stockfish.legal_moves(start_of(number), moves):
            origin, goal = move[:2], move[2:]
            if cells[origin] in "Pp" or goal in cells:
                continue
            after = frozenset(({**cells, goal: cells[origin]}.items() - {(origin, cells[origin])}))
            if seen.get((len(moves) % 2, after), 0) < 4:
                quiet.append((origin, goal, after))
        if not quiet:
            return []
        origin, goal, after = random.choice(quiet)
        cells[goal] = cells.pop(origin)
        seen[len(moves) % 2, after] = seen.get((len(moves) % 2, after), 0) + 1
        moves.append(origin + goal)
    return moves


def main(folder, plies):
    random.seed(960)
    stockfish = Stockfish()
    for kind, make in (("chance", lambda number: by_chance(stockfish, start_of(number))),
                       ("shuffle", lambda number: shuffled(stockfish, number))):
        os.makedirs(f"{folder}/{kind}", exist_ok=True)
        written = games = 0
        while written < plies:
            number = random.randrange(960)
            moves = make(number)[: plies - written]
            if not moves:
                continue
            with open(f"{folder}/{kind}/{games:05}.{number}", "w", encoding="ascii") as file:
                file.write("".join(move + "\n" for move in moves))
            written, games = written + len(moves), games + 1
        print(f"{kind}: {games} games, {written} plies")


if __name__ == "__main__":
    main(sys.argv[1], int(sys.argv[2]))
