"""Texts that give a command, each by what it does: the same commands in several forms, numbers at their bounds, and names."""

from relay_client.texts import (BAD_FIELD, NO_BOARD, NO_FOLLOWER, NOT_JSON, NOTHING, OPENED, START_518, ended, ends, following, follows,
                                left, moved, opens, over, played, refused, submits, takes)
from relays import KNIGHTS_OUT_AND_HOME, ONE_PLY, START_0, case, plays
from runs import Run, lines

ILLEGAL = refused(6, "Illegal")
BAD_START = refused(3, "BadStart")
BOARD_EXISTS = refused(2, "BoardExists")
CLAIM_REFUSED = refused(8, "ClaimRefused")
THREE_PLIES = "rnbqkbnr/pppp1ppp/8/4p3/4P3/5N2/PPPP1PPP/RNBQKB1R b HAha - 1 2"

# Twelve moves of knights, after which the position is the one before.
SHUFFLE = "g1f3 g8f6 f3g1 f6g8 " * 3

# A hundred moves from start 518 without a pawn's move or a capture; and the one behind them, after which the other side may claim too.
HUNDRED = (SHUFFLE + "b1c3 b8c6 " + SHUFFLE + "a1b1 a8b8 " + SHUFFLE + "b1a1 b8a8 " + SHUFFLE + "c3b1 c6b8 " + SHUFFLE + "b1a3 b8a6 "
           + SHUFFLE + "a1b1 a8b8 " + SHUFFLE + "a3c4 a6c5 " + "g1f3 g8f6")
ONE_MORE = "f3g1"

# A pawn of White's comes to a7, from which a8 is free.
TO_A7 = "a2a4 b7b5 a4b5 a7a6 b5a6 b8c6 a6a7 a8b8"

# Each form in which a board is opened, and its first position.
OPENINGS = [
    ('{"cmd":"open","board":"b1","start":518}', START_518),
    ('{"start":518,"cmd":"open","board":"b1"}', START_518),
    ('{"cmd":"open","\\u0062oard":"b\\u0031","start":518}', START_518),
    ('{ "cmd": "open", "board": "b1", "start": 518 }', START_518),
    ('{"cmd":"open","board":"b1","start":0}', START_0),
]

# Each form in which a board with three moves is followed, whom that lets follow, and from where.
FOLLOWS = [
    ('{"cmd":"follow","board":"b1","spectator":1}', 1, following(3, THREE_PLIES)),
    ('{"cmd":"follow","board":"b1","spectator":1,"from":1}', 1, following(1, ONE_PLY)),
    ('{"from":1,"spectator":1,"board":"b1","cmd":"follow"}', 1, following(1, ONE_PLY)),
    ('{"cmd":"follow","board":"b1","spectator":1,"from":3}', 1, following(3, THREE_PLIES)),
    ('{"cmd":"follow","board":"b1","spectator":0,"from":0}', 0, following(0, START_518)),
    ('{"cmd":"follow","board":"b1","spectator":4294967295}', 4294967295, following(3, THREE_PLIES)),
    ('{"cmd":"follow","board":"b1","spectator":65536}', 65536, following(3, THREE_PLIES)),
]

# Each form of a take and of a leave, and for whom it is.
TAKES = [
    ('{"cmd":"take","spectator":2}', 2),
    ('{"cmd":"take","spectator":0}', 0),
    ('{"cmd":"take","spectator":4294967295}', 4294967295),
    (' {\t"cmd" : "take" ,\r "spectator" : 7 } \t', 7),
    ('{"\\u0063\\u006D\\u0064":"t\\u0061ke","spectator":7}', 7),
    ('{"spectator":7,"cmd":"take"}', 7),
    # For a repeated key the last value counts.
    ('{"cmd":"take","spectator":1,"spectator":2}', 2),
    ('{"cmd":"take","spectator":1,"\\u0073pectator":2}', 2),
    ('{"cmd":0,"spectator":null,"cmd":"take","spectator":3}', 3),
    ('{"cmd":"boards","cmd":"take","spectator":4}', 4),
]
LEAVES = [
    ('{"cmd":"leave","spectator":3}', 3),
    ('{"cmd":"leave","spectator":65536}', 65536),
    ('{"cmd": "leave", "spectator": 7}', 7),
    ('{"cmd":"take","spectator":1,"cmd":"leave"}', 1),
]

# Each form of an end on a new board of start 518, and how the game has ended.
ENDS = [
    ('{"cmd":"end","board":"b1","how":"resign","side":"white"}', "white resigns"),
    ('{"cmd":"end","board":"b1","how":"resign","side":"black"}', "black resigns"),
    ('{"side":"black","how":"resign","board":"b1","cmd":"end"}', "black resigns"),
    ('{"cmd":"end","board":"b1","how":"agreed"}', "agreed"),
    ('{"how": "agreed", "cmd": "end", "board": "b1"}', "agreed"),
    ('{"cmd":"end","board":"b1","how":"abandoned"}', "abandoned"),
    ('{"cmd":"end","board":"b1","how":"time","side":"white"}', "white loses on time"),
    ('{"cmd":"end","board":"b1","how":"time","side":"black"}', "black loses on time"),
    (' { "cmd" : "end", "side" : "black", "how" : "time", "board" : "b1" } ', "black loses on time"),
    ('{"cmd":"end","board":"b1","how":"decided","result":"1-0"}', "white wins by decision"),
    ('{"cmd":"end","board":"b1","how":"decided","result":"0-1"}', "black wins by decision"),
    ('{"cmd":"end","board":"b1","how":"decided","result":"1/2-1/2"}', "drawn by decision"),
    ('{"result":"1-0","how":"decided","board":"b1","cmd":"end"}', "white wins by decision"),
    ('{"cmd":"end","board":"b1","how":"decided","result":"1\\/2-1\\u002f2"}', "drawn by decision"),
    ('{"cmd":"end","board":"b1","how":"decided","result":"1-0","result":"0-1"}', "black wins by decision"),
]

# Each claim, the side for which it is, moves behind which that side has the ground and the move, and how the game ends.
THREEFOLD, FIFTY = ended("threefold"), ended("fifty moves")
CLAIMS = [
    ("threefold", "white", "g1f3 g8f6 f3g1 f6g8 " * 2, THREEFOLD),
    ("threefold", "black", "e2e4 " + KNIGHTS_OUT_AND_HOME + " " + KNIGHTS_OUT_AND_HOME, THREEFOLD),
    ("fifty", "white", HUNDRED, FIFTY),
    ("fifty", "black", HUNDRED + " " + ONE_MORE, FIFTY),
]


def claimed(how, side, line, told):
    """The other side's claim is refused, and so is a claim of fifty moves where a position has come three times."""
    other = "black" if side == "white" else "white"
    rows = [(opens("b1"), OPENED), *plays("b1", line, 0)]
    rows += [(f'{{"cmd":"end","board":"b1","how":"{how}","side":"{other}"}}', CLAIM_REFUSED)]
    if how == "threefold":
        rows += [(ends("b1", "fifty", side), CLAIM_REFUSED)]
    return case([*rows, (f'{{"cmd":"end","board":"b1","how":"{how}","side":"{side}"}}', told)])


def promoted(piece, fen):
    """A pawn becomes this piece."""
    return case([
        (opens("b1"), OPENED),
        (follows("b1", 1, 0), following()),
        *plays("b1", TO_A7, 0),
        (f'{{"cmd":"submit","board":"b1","move":"a7a8{piece}"}}', played(8)),
        *[(takes(1), moved(move, place)) for place, move in enumerate(f"{TO_A7} a7a8{piece}".split())],
        (follows("b1", 2), following(9, fen)),
    ])


SUBMITTED = [
    (opens("b1"), OPENED),
    (follows("b1", 1), following()),
    ('{"cmd":"submit","board":"b1","move":"a7a8q"}', ILLEGAL),
    ('{"cmd":"submit","board":"b1","move":"e2e4"}', played(0)),
    ('{"move":"e7e5","board":"b1","cmd":"submit"}', played(1)),
    (takes(1), moved("e2e4", 0)),
    (takes(1), moved("e7e5", 1)),
]

# A start number at each side of its bounds, and a place past all moves.
REFUSED = [
    ('{"cmd":"open","board":"b1","start":960}', BAD_START),
    ('{"cmd":"open","board":"b1","start":961}', BAD_START),
    ('{"cmd":"open","board":"b1","start":65535}', BAD_START),
    ('{"cmd":"open","board":"b1","start":959}', OPENED),
    ('{"cmd":"follow","board":"b1","spectator":0,"from":65535}', refused(16, "NotYet")),
    ('{"cmd":"follow","board":"boards","spectator":1}', NO_BOARD),
    ('{"cmd":"end","board":"b1","how":"decided","side":"white","result":"1-0"}', BAD_FIELD),
    ('{"cmd":"end","board":"b1","how":"decided","result":""}', BAD_FIELD),
]


def followed(line, who, told):
    """Only that spectator follows then."""
    rows = [(opens("b1"), OPENED), *plays("b1", "e2e4 e7e5 g1f3", 0), (takes(who), NO_FOLLOWER), (line, told)]
    return case([*rows, (takes(who ^ 1), NO_FOLLOWER), (follows("b1", who), refused(10, "FollowerExists"))])


def taken(line, who):
    """That spectator takes, and no other."""
    return case([(line, NO_FOLLOWER), (opens("b1"), OPENED), (follows("b1", who), following()), (submits("b1", "e2e4"), played(0)),
                 (line, moved("e2e4", 0)), (line, NOTHING)])


def gone(line, who):
    return case([(line, NO_FOLLOWER), (opens("b1"), OPENED), (follows("b1", who), following()), (line, left(0, 0, 0, False)),
                 (takes(who), NO_FOLLOWER)])


def over_by(line, outcome):
    return case([(line, NO_BOARD), (opens("b1"), OPENED), (line, ended(outcome)), (follows("b1", 1), following()),
                 (takes(1), over(outcome))])


NAME = "AZaz09_-AZaz09_-AZaz09_-AZaz09_-"
NAMES = [*(NAME[:length] for length in range(1, 33)), "ab", "a", "abc", "ab0", "ba", "Ab"]
NO_NAMES = ["", NAME + "x", "a b", "a.b", "a\u0080", "\u00e9", "\u00ff", "a\\u0000", "/", ":", "@", "[", "`", "{"]

# Each is another name than all others.
NAMED = [
    *[(f'{{"cmd":"open","board":"{name}","start":0}}', OPENED) for name in NAMES],
    *[(f'{{"cmd":"open","board":"{name}","start":0}}', BOARD_EXISTS) for name in NAMES],
    *[(f'{{"cmd":"open","board":"{name}","start":0}}', BAD_FIELD) for name in NO_NAMES],
    # Bytes that are no UTF-8.
    *[(b'{"cmd":"open","board":"' + name + b'","start":0}', NOT_JSON) for name in (b"a\x80", b"\xff")],
]


def as_bytes(line):
    return line if isinstance(line, bytes) else line.encode()


RUNS = [
    *[case([(line, OPENED), (follows("b1", 1), following(0, fen))]) for line, fen in OPENINGS],
    case(SUBMITTED),
    *[promoted(piece, f"{piece.upper()}rbqkbnr/2pppppp/2n5/8/8/8/1PPPPPPP/RNBQKBNR b HAh - 0 5") for piece in "nbrq"],
    *[followed(*row) for row in FOLLOWS],
    *[taken(*row) for row in TAKES],
    *[gone(*row) for row in LEAVES],
    *[over_by(*row) for row in ENDS],
    *[claimed(*row) for row in CLAIMS],
    case(REFUSED),
    Run(("script", "--boards=64"), reads=b"".join(as_bytes(line) + b"\n" for line, _ in NAMED), prints=lines(told for _, told in NAMED)),
]
