"""The limits of a relay, by what the program answers at them and past them."""

from collections import Counter

from relay_client.texts import CUT, NOTHING, OPENED, following, follows, leaves, left, moved, opens, played, refused, submits, takes
from runs import Run, lines

TOO_MANY_BOARDS = refused(4, "TooManyBoards")
TOO_MANY_FOLLOWERS = refused(11, "TooManyFollowers")
LOG_FULL = refused(7, "LogFull")
TAKE = takes(1)

# Two boards, two followers and three moves, with the answers within the default limits.
TWO_BOARDS = [
    (opens("a"), OPENED),
    (opens("b", 0), OPENED),
    (follows("a", 1), following()),
    (follows("a", 2), following()),
    (submits("a", "e2e4"), played(0)),
    (submits("a", "e7e5"), played(1)),
    (submits("a", "g1f3"), played(2)),
    (TAKE, moved("e2e4", 0)),
    (TAKE, moved("e7e5", 1)),
]


def two_boards(options, others):
    """The two boards under these options, by which these answers are other ones."""
    answers = [others.get(at, answer) for at, (_, answer) in enumerate(TWO_BOARDS)]
    return Run(("script", *options), reads=lines(line for line, _ in TWO_BOARDS), prints=lines(answers))


def rooms(options, boards, followers):
    """As many boards as there may be and one more, and as many followers of the first and one more."""
    given = [opens(f"b{at}") for at in range(boards + 1)] + [follows("b0", at) for at in range(followers + 1)]
    answers = [OPENED] * boards + [TOO_MANY_BOARDS] + [following()] * followers + [TOO_MANY_FOLLOWERS]
    return Run(("script", *options), reads=lines(given), prints=lines(answers))


# The home of each of the four knights of the standard array, White's first, and the squares to and from which it goes.
KNIGHTS = [[("b1", "a3", "c3"), ("g1", "f3", "h3")], [("b8", "a6", "c6"), ("g8", "f6", "h6")]]
# Pawns that stand in no knight's way: each goes two single steps.
PAWNS = [[f"{file}{rank}{file}{rank + ahead}" for file in "bdeg" for rank in ranks] for ranks, ahead in (((2, 3), 1), ((7, 6), -1))]


def knight_moves(stand, side):
    """The moves of a side's knights, each with where all knights stand after it."""
    for which, (home, *fields) in enumerate(KNIGHTS[side]):
        at = stand[side][which]
        for to in fields if at == home else [home]:
            after = [list(pair) for pair in stand]
            after[side][which] = to
            yield at + to, after


def long_game(plies):
    """Legal moves from the standard array that end no game by themselves, since no position comes five times and a pawn steps before the
    seventy-fifth move without: knights to and fro, and now and then a pawn."""
    stand = [[home for home, *_ in pair] for pair in KNIGHTS]
    pawns = [list(steps) for steps in PAWNS]
    seen, moves, since_pawn = Counter({(str(stand), 0): 1}), [], 0
    while len(moves) < plies:
        side = len(moves) % 2
        text, after = min(knight_moves(stand, side), key=lambda it: seen[str(it[1]), 1 - side])
        since_pawn += 1
        if seen[str(after), 1 - side] == 4 or since_pawn == 140:
            # No position from before a pawn's step can come again.
            text, after = pawns[side].pop(0), stand
            seen.clear()
            since_pawn = 0
        moves.append(text)
        stand = after
        seen[str(stand), 1 - side] += 1
    return moves


def full_log(options, plies):
    """A game of as many plies as there may be, and the move after it."""
    given = [opens("b")] + [submits("b", text) for text in long_game(plies + 1)]
    return Run(("script", *options), reads=lines(given), prints=lines([OPENED, *map(played, range(plies)), LOG_FULL]))


def full_queue(options, capacity):
    """A follower that is a capacity behind is closed by the next move, and has its moves."""
    moves = long_game(capacity + 1)
    given = [opens("b"), follows("b", 1)] + [submits("b", text) for text in moves] + [TAKE] * (capacity + 1)
    answers = [OPENED, following(), *map(played, range(capacity + 1)), *map(moved, moves, range(capacity)), CUT]
    return Run(("script", *options), reads=lines(given), prints=lines(answers))


def a_crowd():
    """As many followers as a board may have. Of those who come before the first move every second one takes it, and the others are closed
    by the second; of those who come behind it each takes it."""
    crowd = range(1024)
    rows = [(opens("b1"), OPENED)]
    rows += [(follows("b1", who), following()) for who in crowd] + [(follows("b1", 1024), TOO_MANY_FOLLOWERS)]
    rows += [(submits("b1", "e2e4"), played(0))] + [(takes(who), moved("e2e4", 0)) for who in crowd[::2]]
    rows += [(submits("b1", "e7e5"), played(1))]
    for who in crowd:
        rows += [
            (takes(who), moved("e2e4", 0) if who % 2 else moved("e7e5", 1)),
            (takes(who), CUT if who % 2 else NOTHING),
            (leaves(who), left(0, 1, 1, True) if who % 2 else left(0, 2, 2, False)),
        ]
    at_place_1 = following(1, "rnbqkbnr/pppppppp/8/8/4P3/8/PPPP1PPP/RNBQKBNR b HAha e3 0 1")
    rows += [(follows("b1", who, 1), at_place_1) for who in crowd] + [(follows("b1", 1024, 1), TOO_MANY_FOLLOWERS)]
    for who in crowd:
        rows += [(takes(who), moved("e7e5", 1)), (takes(who), NOTHING)]
    asked, told = zip(*rows)
    return Run(("script", "--followers=1024", "--capacity=1"), reads=lines(asked), prints=lines(told))


RUNS = [
    two_boards([], {}),
    two_boards(["--boards=1"], {1: TOO_MANY_BOARDS}),
    two_boards(["--followers=1"], {3: TOO_MANY_FOLLOWERS}),
    two_boards(["--capacity=1"], {8: CUT}),
    two_boards(["--plies=2"], {6: LOG_FULL}),
    two_boards(["--boards=1", "--followers=1", "--capacity=1", "--plies=2"],
               {1: TOO_MANY_BOARDS, 3: TOO_MANY_FOLLOWERS, 6: LOG_FULL, 8: CUT}),
    # The defaults.
    rooms([], 16, 64),
    full_queue([], 64),
    full_log([], 1024),
    # Each option reaches its own limit, in any order and spelling, up to the greatest.
    *[make(["--boards", "3", "--followers=5", "--capacity", "7", "--plies=9"], *counts)
      for make, counts in ((rooms, (3, 5)), (full_queue, (7,)), (full_log, (9,)))],
    rooms(["--plies=16384", "--capacity=1024", "--followers", "1024", "--boards", "256"], 256, 1024),
    full_queue(["--plies=16384", "--capacity=1024"], 1024),
    a_crowd(),
]
