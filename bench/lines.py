#!/usr/bin/env python3
"""Writes 990,000 lines of commands for `relay960 script --boards 256 --followers 64 --plies 16384`: lines.py FOLLOWERS.

Games of 3,876 plies, one after another on boards of their own, each move taken by this many followers. Between two pawns' moves there are
148 moves of pieces in a circle of 40 positions, so no game ends by itself.
"""
import itertools
import sys

LINES = 990_000
PAWNS = ("a2a3 a7a6 a3a4 a6a5 b2b3 b7b6 b3b4 b6b5 c2c3 c7c6 c3c4 c6c5 d2d3 d7d6 d3d4 d6d5 "
         "e2e3 e7e6 e3e4 e6e5 g2g3 g7g6 g3g4 g6g5 h2h3 h7h6 h3h4 h6h5").split()
WHITE = "a1a2 g1f3 a2a3 f3g1 a3a1".split()
BLACK = "a8a7 g8f6 a7a8 f6g8".split()


def plies():
    pieces = [itertools.cycle(WHITE), itertools.cycle(BLACK)]
    for at, pawn in enumerate(PAWNS):
        yield pawn
        # The rooks have a way out from the third move on.
        for ply in range(148 if at > 1 else 0):
            yield next(pieces[(at + 1 + ply) % 2])


def lines(followers):
    game = list(plies())
    for board in itertools.count(1):
        yield f'{{"cmd":"open","board":"b{board}","start":518}}'
        seats = [board * 1024 + follower for follower in range(followers)]
        for seat in seats:
            yield f'{{"cmd":"follow","board":"b{board}","spectator":{seat}}}'
        for move in game:
            yield f'{{"cmd":"submit","board":"b{board}","move":"{move}"}}'
            for seat in seats:
                yield f'{{"cmd":"take","spectator":{seat}}}'


def main():
    made = lines(int(sys.argv[1]))
    for _ in range(LINES):
        print(next(made))


if __name__ == "__main__":
    main()
