"""A game of as many plies as there may be, of which each move is taken at once, since a queue holds one."""

import itertools

from relay_client.texts import NOTHING, OPENED, following, follows, leaves, left, moved, opens, played, refused, submits, takes
from runs import Run, lines

# The most that a game may have.
PLIES = 16384

# A game of 16,494 plies from start 518, in parts: how many moves come before each of the last ones; the first of these; a cycle of
# White's moves and one of Black's, which are repeated from then on; and the last ones, moves that can't be taken back. Between two of
# these come 149 others, or 148 if the other side makes the second: one more, and the game is drawn. The cycles are five and four
# moves long, so that no position occurs five times. Pawns go single steps; they take pieces to pass each other, and all become knights;
# then pieces take pieces. A search found the moves, over a plain model of the board made for it.
GAME = [
    "0////e2e3",
    "149//d1f3 g1h3 f3h5 h3g1 h5d1/g8h6 b8c6 h6g8 c6b8/e3e4 d2d3 d3d4 a2a3 a3a4 b2b3 b3b4 c2c3 c3c4 f2f3",
    "149//c1a3 d1c2 a3b2 c2d1 b2c1/h6g8 c6b8 g8h6 b8c6/f3f4 g2g3 g3g4 h2h3 h3h4",
    "148//f1h3 b1a3 h3g2 a3b1 g2f1/h8g8 h6f5 g8h8 f5h6/a7a6",
    "149//g2f1 f1h3 b1a3 h3g2 a3b1/g8h8 f5h6 h8g8 h6f5/a6a5 c7c6 c6c5 e7e6 e6e5 g7g6 g6g5",
    "148/a1a2 d8b6 a2a1 b6b5/d1e2 h1h2 e2d2 h2h1 d2d1/b8c6 e8e7 c6b8 e7e8/a4b5",
    "149/h6f5 g1h3 f5e3 h3g1 e3d5/e2c2 h2h3 c2b2 h3h2 b2e2/d5c7 b8c6 c7d5 c6b8/c4d5",
    "149/a8a6 e1e2 a6f6 e2e1 f6f5/e1f1 g1e2 f1e1 e2g1/f8d6 e8d8 d6e7 d8e8 e7f8/e4f5",
    "149/h8g8 a1a2 g8g6 a2a1 g6h6 a1a2 h6h5/e1f2 c1a3 f2f1 a3c1 f1e1/d8c7 d6f8 c7d8 f8d6/g4h5",
    "148/f8d6 b1c3 d6f8 c3e4 f8d6 e4f6 d6f8 f6e8 f8d6 e8c7 d6f8 c7a6/f2g3 a2b2 g3f3 b2a2 f3f2/f8h6 d8e8 h6f8 e8d8/b7a6",
    "149/c2c3 d8c7 g1e2 c7b6 e2g3 b6c7 g3e4 c7b6 e4f6 b6c7 f6g8 c7b6 g8e7 b6c7 e7c6/c3d3 f3g3 d3b3 g3f3 b3c3/c7b6 f8g7 b6c7 g7f8/d7c6",
    "148//g3f3 b2e2 f3f2 e2b2 f2g3/c7d8 g7f8 d8c7 f8g7/b5b6",
    "149//b2c2 d3c4 c2a2 c4d3 a2b2/b8d7 d8e7 d7b8 e7d8/b6b7 b7b8n",
    "149//c1d2 h3h1 d2c1 h1h3/f8h6 c8b7 h6g7 b7c8 g7f8/b4b5 b5b6 b6b7",
    "149/d7b6 a2a3 b6a8 b8d7/a3a2 d2c1 a2a4 c1d2 a4a3/a8c7 e7e8 c7a8 e8e7/b7b8n",
    "149//c4c3 c1b2 c3b4 b2c1 b4c4/f8h6 e7d8 h6f8 d8e7/d5d6",
    "149//f2e3 d7f6 e3f2 f6d7/f8g7 c7a8 g7h6 a8c7 h6f8/d6d7",
    "149/d8e7/b4b5 a2f2 b5b1 f2a2 b1b4/e7d6 f8h6 d6e7 h6f8/d7d8n",
    "149//b1b2 c1d2 b2b5 d2c1 b5b1/h6f8 c8e6 f8h6 e6c8/d4d5",
    "149/d6e7 h1e1 e7f8/a2f2 e1h1 f2e2 h1e1 e2a2/c7e8 e6d7 e8c7 d7e6/d5d6 d6d7",
    "149/e6d5 d8b7/b5b6 f2c2 b6b2 c2f2 b2b5/d5c4 f8g7 c4d5 g7f8/d7d8n",
    "148/g7f8 g2d5 f8g7 d5e6/c2g2 b2c3 g2c2 c3b2/c4d5 c7e8 d5b3 e8c7 b3c4/f7e6",
    "149/f6g8 d5g2 g8e7 g2d5 e7g6/e3d2 h1f1 d2e3 f1h1/d5f3 e8d6 f3e4 d6e8 e4d5/h7g6",
    "148//b2b5 c2e2 b5b4 e2c2 b4b2/g7f8 f3d5 f8g7 d5f3/f5f6",
    "149//b4d2 e3f2 d2b4 f2e3/d5a2 f8e8 a2c4 e8f8 c4d5/f6f7",
    "149/f8g7/d2b4 c1a3 b4c3 a3c1 c3d2/d6e8 g7h8 e8d6 h8g7/f7f8n",
    "149//c3a3 f8h7 a3g3 h7f8 g3c3/e8g7 d5g2 g7e8 g2d5/f4f5 f5f6 f6f7",
    "149//h1f1 c1e3 f1h1 e3c1/d5e4 g7e8 e4f3 e8g7 f3d5/f7f8n",
    "149/g7e8 a3a1 h6g7/a1e1 c2e2 e1c1 e2c2 c1a1/d5h1 e8d6 h1d5 d6e8/h5h6",
    "149/e8d6 h7f6/c1d1 f8d7 d1b1 d7f8 b1c1/d6e8 h1g2 e8d6 g2h1/h6h7",
    "149/g7f8 f6g4 h8g7/f1c1 g4h2 c1e1 h2g4 e1f1/g2h1 e8d6 h1g2 d6e8/h7h8n",
    "149//e2c2 e1f1 c2a2 f1e1 a2e2/g7g8 h1f3 g8g7 f3h1/h4h5 h5h6",
    "149/e8f6 b1e1 f8d6 d7b6 d6c7 e1e2 f3h1 f1b1 c7d6 f2e1 g8f8/e2c2 e3f4 c2d3 f4e3 d3e2/h1g2 f6d7 g2h1 d7f6/h6h7",
    "149//d3d4 h8f7 d4d3 f7h8/g2f1 f8e7 f1h3 e7f8 h3g2/h7h8n",
    "148//b1a1 e3d2 a1b1 d2e3/g2f3 f6h7 f3d5 h7f6 d5g2/a5a4",
    "149//a1b1 d2e3 b1a1 e3d2/d5g2 g2f3 f6h7 f3d5 h7f6/a4a3",
    "149//a1c1 a2d2 c1a1 d2a2/f8e8 d5h1 e8e7 h1d5 e7f8/a3a2",
    "149//d2e2 a1d1 e2d2 d1a1/d5c4 d6c7 c4b3 c7d6 b3d5/a2a1n",
    "149//d4h4 b6d7 h4b4 d7b6 b4d4/e7e8 h7f6 e8e7 f6h7/a6a5 a5a4 a4a3 a3a2",
    "149/d4c3 b3a4 d2f2 a1b3/f2c2 c3c4 c2b2 c4c3 b2f2/h7f8 d6c7 f8h7 c7d6/a2a1n",
    "149//b2d2 c4b4 d2b2 b4c4/e7f8 b3c1 f8e8 c1b3 e8e7/c5c4",
    "149//e1f1 b6a8 f1e1 a8b6/d6f8 h7f6 f8c5 f6h7 c5d6/c4c3 c3c2 c2c1n",
    "149//d1d5 b6c8 d5d4 c8b6 d4d1/f8h6 c1e2 h6f8 e2c1/c6c5 c5c4 c4c3 c3c2 c2c1n",
    "149//b4c4 e3f4 c4b4 f4e3/h6f8 c1d3 f8g7 d3c1 g7h6/e5e4 e4e3",
    "149/b2c2 e2d4 f1g2/d1h1 g2g3 h1c1 g3g2 c1d1/d3f2 e8f8 f2d3 f8e8/e3e2 e2e1n",
    "149//c2a2 c4c3 a2d2 c3c4 d2c2/d4b5 e1g2 b5d4 g2e1/e6e5 e5e4 e4e3 e3e2 e2e1n",
    "149//b7c5 f4e3 c5b7 e3f4/f8e7 b5d4 e7e8 d4b5 e8f8/g5g4",
    "149/b6a8 d3c5 g3f2 c5e6 f2g1/e3g5 b7a5 g5f4 a5b7 f4e3/g2h4 e1d3 h4g2 d3e1/g4g3 g3g2",
    "149/c4b4 d3e1 g1f2/c2c4 f7e5 c4c3 e5f7 c3c2/b5d6 h4f5 d6b5 f5h4/g2g1n",
    "149/g5h6/c3c6 b4e4 c6c2 e4b4 c2c3/d6f7 f6h7 f7d6 h7f6/g6g5 g5g4",
    "149/f2e3/h6g5 c1d1 g5f4 d1c1 f4h6/a4b5 g1e2 b5a4 e2g1/g4g3 g3g2 g2g1n",
    "148//c2d2 b4c5 d2b2 c5b4 b2c2/b3d4 e6f8 d4b3 f8e6/b4d6",
    "149//a5b7 h2f1 b7a5 f1h2/b5c6 e2g3 c6d7 g3e2 d7b5/c1e1",
    "149//d6b4 e5f7 b4d6 f7e5/b5a6 g1f3 a6c4 f3g1 c4b5/b2e2",
    "149//e2b2 h8g6 b2h2 g6h8 h2e2/g1h3 b5d3 h3g1 d3b5/e1a1",
    "149//a1a4 b7c5 a4a1 c5b7/d3c4 f6g8 c4b5 g8f6 b5d3/h2h4",
    "149//a4a3 c5e6 a3a6 e6c5 a6a4/d4b5 f8h7 b5d4 h7f8/b4d4",
    "149//c5a4 a8b6 a4c5 b6a8/d3c2 g1h3 c2f5 h3g1 f5d3/h4h7",
    "149//a6a8 f1d2 a8a6 d2f1/d3c2 g1h3 c2g6 h3g1 g6d3/h7g7",
    "148/f6e4/d4c3 f4h2 c3a1 h2f4 a1d4/g1f3 e8f8 f3g1 f8e8/e4d2",
    "149/a1d4 d3b5/g7g1 a8a6 g1g3 a6a8 g3g7/e8e7 b5d3 e7e8 d3b5/b5a4",
    "149/b6c4 d2e4/d4d5 b8a6 d5d1 a6b8 d1d4/a4b5 e7f8 b5a4 f8e7/e4g3",
    "149//d1d3 b8a6 d3b1 a6b8 b1d1/f3e1 e7f6 e1f3 f6e7/b5c4",
    "149//d1d5 d8b7 d5d7 b7d8 d7d1/f6g7 g3h1 g7f6 h1g3/c4f7",
    "1/d1d3///e1d3",
    "149//e3e2 h8g6 e2e3 g6h8/f7g8 g7h7 g8c4 h7g7 c4f7/d3f4",
    "149//e3d4 a8a6 d4e3 a6a8/c4f1 h1f2 f1e2 f2h1 e2c4/f4g6",
]


def all_moves():
    """The moves of all parts."""
    moves = []
    for count, first, white, black, last in (part.split("/") for part in GAME):
        before, sides = iter(first.split()), [itertools.cycle(white.split()), itertools.cycle(black.split())]
        for one in last.split():
            for _ in range(int(count)):
                moves.append(next(before, None) or next(sides[len(moves) % 2]))
            moves.append(one)
    return moves


def each_is_taken():
    """One follower takes each move at once, and another none. Behind the last one there is no room for a move."""
    moves = all_moves()
    rows = [(opens("b1"), OPENED), (follows("b1", 1), following()), (follows("b1", 2), following())]
    for place, move in enumerate(moves[:PLIES]):
        rows += [(submits("b1", move), played(place)), (takes(1), moved(move, place))]
    rows += [
        (submits("b1", moves[PLIES]), refused(7, "LogFull")),
        (takes(1), NOTHING),
        (leaves(1), left(0, PLIES, PLIES, False)),
        (leaves(2), left(0, 0, 1, True)),
    ]
    asked, told = zip(*rows)
    return Run(("script", "--capacity=1", f"--plies={PLIES}"), reads=lines(asked), prints=lines(told))


RUNS = [each_is_taken()]
