"""Relays over scripts: queues that are full, ends of games, seats and places, a case a table."""

from relay_client.texts import (CUT, GAME_OVER, NO_BOARD, NO_FOLLOWER, NOTHING, OPENED, START_518, ended, ends, following, follows, leaves,
                                left, moved, opens, over, played, refused, submits, takes)
from games import FIVEFOLD
from runs import Run, lines

START_0 = "bbqnnrkr/pppppppp/8/8/8/8/PPPPPPPP/BBQNNRKR w HFhf - 0 1"

# The position of start 518 after e2e4, and after e2e4 e7e5.
ONE_PLY = "rnbqkbnr/pppppppp/8/8/4P3/8/PPPP1PPP/RNBQKBNR b HAha e3 0 1"
TWO_PLIES = "rnbqkbnr/pppp1ppp/8/4p3/4P3/8/PPPP1PPP/RNBQKBNR w HAha e6 0 2"

# The shortest known game from the standard array that ends in stalemate, by Sam Loyd, but for its last move.
LOYDS_STALEMATE = "e2e3 a7a5 d1h5 a8a6 h5a5 h7h5 h2h4 a6h6 a5c7 f7f6 c7d7 e8f7 d7b7 d8d3 b7b8 d3h7 b8c8 f7g6"

# Four moves after which the position is as before.
KNIGHTS_OUT_AND_HOME = "g8f6 g1f3 f6g8 f3g1"


def plays(board, moves, first):
    """Rows of moves that are played from this place on, of which none ends the game."""
    return [(submits(board, move), played(place)) for place, move in enumerate(moves.split(), first)]


def decides(board, result):
    """Tells of an arbiter's decision."""
    return ends(board, "decided", result=result)


def case(rows, boards=16, followers=64, capacity=64, plies=1024):
    """The rows as a script under these limits."""
    limits = {"boards": boards, "followers": followers, "capacity": capacity, "plies": plies}
    words = ("script", *(f"--{name}={limit}" for name, limit in limits.items()))
    return Run(words, reads=lines(asked for asked, _ in rows), prints=lines(told for _, told in rows))


A_BOARD_THAT_WAS_NOT_OPENED_IS_NO_BOARD = [
    (submits("b1", "e2e4"), NO_BOARD),
    (ends("b1", "abandoned"), NO_BOARD),
    (follows("b1", 1), NO_BOARD),
    (opens("b1", 960), refused(3, "BadStart")),
    (opens("b1", 65535), refused(3, "BadStart")),
    (submits("b1", "e2e4"), NO_BOARD),
    (opens("b1", 959), OPENED),
    (opens("b1", 959), refused(2, "BoardExists")),
    (follows("b1", 1), following(0, "rkrnnqbb/pppppppp/8/8/8/8/PPPPPPPP/RKRNNQBB w CAca - 0 1")),
    (opens("B1", 518), OPENED),
    (opens("b", 518), OPENED),
    (submits("B1", "e2e4"), played(0)),
    (takes(1), NOTHING),
]

MATE_AND_OVER_WITH_A_QUEUE_OF_FOUR = [
    (opens("b1", 518), OPENED),
    (follows("b1", 1), following(0, START_518)),
    *plays("b1", "f2f3 e7e5 g2g4", 0),
    (submits("b1", "d8h4"), played(3, "black mates")),
    (takes(1), moved("f2f3", 0)),
    (takes(1), moved("e7e5", 1)),
    (takes(1), moved("g2g4", 2)),
    (takes(1), moved("d8h4", 3)),
    (takes(1), over("black mates")),
    (leaves(1), left(0, 4, 4, False)),
]

MATE_AND_OVER_WITH_A_QUEUE_OF_THREE = [
    (opens("b1", 518), OPENED),
    (follows("b1", 1), following(0, START_518)),
    *plays("b1", "f2f3 e7e5 g2g4", 0),
    (submits("b1", "d8h4"), played(3, "black mates")),
    (takes(1), moved("f2f3", 0)),
    (takes(1), moved("e7e5", 1)),
    (takes(1), moved("g2g4", 2)),
    (takes(1), CUT),
    (leaves(1), left(0, 3, 3, True)),
]

ONE_FULL_QUEUE_CLOSES_NO_OTHER = [
    (opens("b1", 518), OPENED),
    (follows("b1", 1), following(0, START_518)),
    (follows("b1", 2), following(0, START_518)),
    (submits("b1", "e2e4"), played(0)),
    (takes(2), moved("e2e4", 0)),
    (submits("b1", "e7e5"), played(1)),
    (takes(2), moved("e7e5", 1)),
    (takes(2), NOTHING),
    (takes(1), moved("e2e4", 0)),
    (takes(1), CUT),
    (leaves(1), left(0, 1, 1, True)),
    (leaves(2), left(0, 2, 2, False)),
]

THE_LIMIT_OF_ONE_WHO_WAS_CLOSED_IS_THE_LENGTH_AT_ITS_CLOSING = [
    (opens("b1", 518), OPENED),
    (follows("b1", 1), following(0, START_518)),
    *plays("b1", "e2e4 e7e5 g1f3", 0),
    (follows("b1", 2), following(3, "rnbqkbnr/pppp1ppp/8/4p3/4P3/5N2/PPPP1PPP/RNBQKB1R b HAha - 1 2")),
    *plays("b1", "b8c6 f1b5 g8f6", 3),
    (leaves(1), left(0, 0, 1, True)),
    (takes(2), moved("b8c6", 3)),
    (submits("b1", "b5c6"), played(6)),
    (takes(2), CUT),
    (leaves(2), left(3, 1, 4, True)),
]

AN_END_TAKES_NO_PLACE_IN_A_QUEUE = [
    (opens("b1", 518), OPENED),
    (follows("b1", 1), following(0, START_518)),
    (submits("b1", "e2e4"), played(0)),
    (ends("b1", "agreed"), ended("agreed")),
    (takes(1), moved("e2e4", 0)),
    (takes(1), over("agreed")),
    (leaves(1), left(0, 1, 1, False)),
]

ONE_WHO_WAS_CLOSED_IS_TOLD_SO_AND_NOT_OF_THE_END = [
    (opens("b1", 518), OPENED),
    (follows("b1", 1), following(0, START_518)),
    *plays("b1", "e2e4 e7e5", 0),
    (ends("b1", "abandoned"), ended("abandoned")),
    (takes(1), moved("e2e4", 0)),
    (takes(1), CUT),
    (leaves(1), left(0, 1, 1, True)),
    (follows("b1", 1), following(2, "rnbqkbnr/pppp1ppp/8/4p3/4P3/8/PPPP1PPP/RNBQKBNR w HAha e6 0 2")),
    (takes(1), over("abandoned")),
]

A_MOVE_MAY_STALEMATE = [
    (opens("b1", 518), OPENED),
    *plays("b1", LOYDS_STALEMATE, 0),
    (submits("b1", "c8e6"), played(18, "stalemate")),
    (follows("b1", 1), following(19, "5bnr/4p1pq/4Qpkr/7p/7P/4P3/PPPP1PP1/RNB1KBNR b HA - 2 10")),
    (takes(1), over("stalemate")),
    (submits("b1", "h7g8"), GAME_OVER),
]

A_BOARD_THAT_HAS_ENDED_MAY_BE_FOLLOWED = [
    (opens("b1", 518), OPENED),
    (submits("b1", "e2e4"), played(0)),
    (ends("b1", "agreed"), ended("agreed")),
    (follows("b1", 1), following(1, "rnbqkbnr/pppppppp/8/8/4P3/8/PPPP1PPP/RNBQKBNR b HAha e3 0 1")),
    (takes(1), over("agreed")),
    (takes(1), over("agreed")),
    (leaves(1), left(1, 0, 1, False)),
]

A_GAME_ENDS_AS_ITS_PLAYERS_SAY_AND_ONCE = [
    # Before the first move.
    (opens("agreed", 518), OPENED),
    (ends("agreed", "agreed"), ended("agreed")),
    (ends("agreed", "agreed"), GAME_OVER),
    # By one who does not have the move.
    (opens("black", 518), OPENED),
    (ends("black", "resign", "black"), ended("black resigns")),
    (ends("black", "resign", "white"), GAME_OVER),
    (opens("white", 518), OPENED),
    (submits("white", "e2e4"), played(0)),
    (ends("white", "resign", "white"), ended("white resigns")),
    (submits("white", "e7e5"), GAME_OVER),
    (opens("none", 518), OPENED),
    (ends("none", "abandoned"), ended("abandoned")),
    (submits("none", "e2e4"), GAME_OVER),
    (ends("none", "threefold", "white"), GAME_OVER),
]

A_GAME_ENDS_AS_ITS_ARBITER_SAYS_WHOEVER_IS_ON_MOVE_AND_ONCE = [
    # Before the first move, of the side on move and of the other.
    (opens("white", 518), OPENED),
    (ends("white", "time", "white"), ended("white loses on time")),
    (submits("white", "e2e4"), GAME_OVER),
    (ends("white", "time", "black"), GAME_OVER),
    (decides("white", "1-0"), GAME_OVER),
    (opens("black", 518), OPENED),
    (ends("black", "time", "black"), ended("black loses on time")),
    # Behind a move, for both sides and for neither.
    (opens("1-0", 518), OPENED),
    (follows("1-0", 1), following(0, START_518)),
    (submits("1-0", "e2e4"), played(0)),
    (decides("1-0", "1-0"), ended("white wins by decision")),
    (takes(1), moved("e2e4", 0)),
    (takes(1), over("white wins by decision")),
    (ends("1-0", "resign", "white"), GAME_OVER),
    (opens("0-1", 518), OPENED),
    (submits("0-1", "e2e4"), played(0)),
    (decides("0-1", "0-1"), ended("black wins by decision")),
    (follows("0-1", 2), following(1, ONE_PLY)),
    (takes(2), over("black wins by decision")),
    (opens("drawn", 518), OPENED),
    (decides("drawn", "1/2-1/2"), ended("drawn by decision")),
    (decides("drawn", "1/2-1/2"), GAME_OVER),
    # After a mate, and on a board that was not opened.
    (opens("mate", 518), OPENED),
    *plays("mate", "f2f3 e7e5 g2g4", 0),
    (submits("mate", "d8h4"), played(3, "black mates")),
    (ends("mate", "time", "black"), GAME_OVER),
    (decides("mate", "1/2-1/2"), GAME_OVER),
    (ends("none", "time", "white"), NO_BOARD),
    (decides("none", "1-0"), NO_BOARD),
]

A_THIRD_APPEARANCE_IS_GRANTED_TO_THE_SIDE_ON_MOVE = [
    (opens("b1", 518), OPENED),
    (submits("b1", "e2e4"), played(0)),
    (ends("b1", "threefold", "black"), refused(8, "ClaimRefused")),
    *plays("b1", KNIGHTS_OUT_AND_HOME, 1),
    (ends("b1", "threefold", "black"), refused(8, "ClaimRefused")),
    *plays("b1", KNIGHTS_OUT_AND_HOME, 5),
    (follows("b1", 1), following(9, "rnbqkbnr/pppppppp/8/8/4P3/8/PPPP1PPP/RNBQKBNR b HAha - 8 5")),
    (ends("b1", "threefold", "white"), refused(8, "ClaimRefused")),
    (ends("b1", "fifty", "black"), refused(8, "ClaimRefused")),
    (takes(1), NOTHING),
    (ends("b1", "threefold", "black"), ended("threefold")),
    (takes(1), over("threefold")),
    (submits("b1", "e7e5"), GAME_OVER),
]

A_FIFTH_APPEARANCE_ENDS_THE_GAME = [
    (opens("b1", 518), OPENED),
    (follows("b1", 1), following(0, START_518)),
    *plays("b1", " ".join(FIVEFOLD[:-1]), 0),
    (submits("b1", FIVEFOLD[-1]), played(15, "fivefold")),
    (submits("b1", "e2e4"), GAME_OVER),
    *[(takes(1), moved(move, place)) for place, move in enumerate(FIVEFOLD)],
    (takes(1), over("fivefold")),
]

TOO_FAR_BACK_COMES_BEFORE_TOO_MANY_FOLLOWERS = [
    (opens("b1", 518), OPENED),
    *plays("b1", "e2e4 e7e5 g1f3", 0),
    (follows("b1", 1, 1), following(1, ONE_PLY)),
    (submits("b1", "b8c6"), played(3)),
    (follows("b1", 2, 0), refused(15, "TooFarBack")),
    (follows("b1", 2, 5), refused(16, "NotYet")),
    (follows("b1", 2, 2), refused(11, "TooManyFollowers")),
    (follows("b1", 2), refused(11, "TooManyFollowers")),
    # Who follows is told so before all else but a board that is not there.
    (follows("b1", 1, 0), refused(10, "FollowerExists")),
    (follows("b1", 1, 65535), refused(10, "FollowerExists")),
    (follows("b9", 1, 65535), NO_BOARD),
]

A_WHOLE_CAPACITY_BACK_STAYS_OPEN_AFTER_A_TAKE = [
    (opens("b1", 518), OPENED),
    *plays("b1", "e2e4 e7e5", 0),
    (follows("b1", 1, 0), following(0, START_518)),
    (follows("b1", 2, 0), following(0, START_518)),
    (takes(1), moved("e2e4", 0)),
    (submits("b1", "g1f3"), played(2)),
    (takes(1), moved("e7e5", 1)),
    (takes(1), moved("g1f3", 2)),
    (takes(1), NOTHING),
    (leaves(1), left(0, 3, 3, False)),
    (leaves(2), left(0, 0, 2, True)),
]

A_REFUSED_SUBMIT_CLOSES_NOBODY_A_WHOLE_CAPACITY_BACK = [
    (opens("b1", 518), OPENED),
    (submits("b1", "e2e4"), played(0)),
    (follows("b1", 1, 0), following(0, START_518)),
    (submits("b1", "e2e4"), refused(6, "Illegal")),
    (takes(1), moved("e2e4", 0)),
    (takes(1), NOTHING),
    (leaves(1), left(0, 1, 1, False)),
]

A_MATE_BY_THE_LAST_PLY_IS_A_MATE = [
    (opens("b1", 518), OPENED),
    (follows("b1", 1), following(0, START_518)),
    *plays("b1", "f2f3 e7e5 g2g4", 0),
    (submits("b1", "d8h4"), played(3, "black mates")),
    (submits("b1", "a2a3"), GAME_OVER),
]

ONE_WHO_FOLLOWS_AGAIN_JOINS_AT_THE_PRESENT = [
    (opens("b1", 518), OPENED),
    (follows("b1", 1), following(0, START_518)),
    *plays("b1", "e2e4 e7e5", 0),
    (leaves(1), left(0, 0, 1, True)),
    (takes(1), NO_FOLLOWER),
    (follows("b1", 1), following(2, TWO_PLIES)),
    (takes(1), NOTHING),
    (submits("b1", "g1f3"), played(2)),
    (takes(1), moved("g1f3", 2)),
    (takes(1), NOTHING),
    (leaves(1), left(2, 1, 3, False)),
]

A_LEAVE_GIVES_THE_SEAT_BACK = [
    (opens("b1", 518), OPENED),
    (follows("b1", 1), following(0, START_518)),
    (follows("b1", 2), refused(11, "TooManyFollowers")),
    (takes(2), NO_FOLLOWER),
    (leaves(2), NO_FOLLOWER),
    (leaves(1), left(0, 0, 0, False)),
    (follows("b1", 2), following(0, START_518)),
    (follows("b1", 1), refused(11, "TooManyFollowers")),
]

ONE_WHO_WAS_CLOSED_KEEPS_ITS_SEAT = [
    (opens("b1", 518), OPENED),
    (follows("b1", 1), following(0, START_518)),
    *plays("b1", "e2e4 e7e5", 0),
    (follows("b1", 2), refused(11, "TooManyFollowers")),
    (takes(1), moved("e2e4", 0)),
    (takes(1), CUT),
    (follows("b1", 2), refused(11, "TooManyFollowers")),
    (leaves(1), left(0, 1, 1, True)),
    (follows("b1", 2), following(2, TWO_PLIES)),
]

SEATS_ARE_COUNTED_BOARD_BY_BOARD = [
    (opens("a", 518), OPENED),
    (opens("b", 0), OPENED),
    (follows("a", 1), following(0, START_518)),
    (follows("b", 2), following(0, START_0)),
    (follows("b", 3), refused(11, "TooManyFollowers")),
]

A_SPECTATOR_FOLLOWS_ONE_BOARD_AT_A_TIME = [
    (opens("a", 518), OPENED),
    (opens("b", 0), OPENED),
    (follows("a", 4294967295), following(0, START_518)),
    (follows("b", 4294967295), refused(10, "FollowerExists")),
    (follows("b", 0), following(0, START_0)),
    # The board is full too.
    (follows("b", 4294967295), refused(10, "FollowerExists")),
    (submits("b", "d2d4"), played(0)),
    (takes(4294967295), NOTHING),
    (leaves(4294967295), left(0, 0, 0, False)),
    (follows("b", 4294967295), refused(11, "TooManyFollowers")),
    (leaves(0), left(0, 0, 1, False)),
    (follows("b", 4294967295), following(1, "bbqnnrkr/pppppppp/8/8/3P4/8/PPP1PPPP/BBQNNRKR b HFhf d3 0 1")),
]

RUNS = [
    case(A_BOARD_THAT_WAS_NOT_OPENED_IS_NO_BOARD),
    case(MATE_AND_OVER_WITH_A_QUEUE_OF_FOUR, capacity=4),
    case(MATE_AND_OVER_WITH_A_QUEUE_OF_THREE, capacity=3),
    case(ONE_FULL_QUEUE_CLOSES_NO_OTHER, capacity=1),
    case(THE_LIMIT_OF_ONE_WHO_WAS_CLOSED_IS_THE_LENGTH_AT_ITS_CLOSING, capacity=1),
    case(AN_END_TAKES_NO_PLACE_IN_A_QUEUE, capacity=1),
    case(ONE_WHO_WAS_CLOSED_IS_TOLD_SO_AND_NOT_OF_THE_END, capacity=1),
    case(A_MOVE_MAY_STALEMATE),
    case(A_BOARD_THAT_HAS_ENDED_MAY_BE_FOLLOWED),
    case(A_GAME_ENDS_AS_ITS_PLAYERS_SAY_AND_ONCE),
    case(A_GAME_ENDS_AS_ITS_ARBITER_SAYS_WHOEVER_IS_ON_MOVE_AND_ONCE),
    case(A_THIRD_APPEARANCE_IS_GRANTED_TO_THE_SIDE_ON_MOVE),
    case(A_FIFTH_APPEARANCE_ENDS_THE_GAME),
    case(TOO_FAR_BACK_COMES_BEFORE_TOO_MANY_FOLLOWERS, followers=1, capacity=2),
    case(A_WHOLE_CAPACITY_BACK_STAYS_OPEN_AFTER_A_TAKE, capacity=2),
    case(A_REFUSED_SUBMIT_CLOSES_NOBODY_A_WHOLE_CAPACITY_BACK, capacity=1),
    case(A_MATE_BY_THE_LAST_PLY_IS_A_MATE, plies=4),
    case(ONE_WHO_FOLLOWS_AGAIN_JOINS_AT_THE_PRESENT, capacity=1),
    case(A_LEAVE_GIVES_THE_SEAT_BACK, followers=1),
    case(ONE_WHO_WAS_CLOSED_KEEPS_ITS_SEAT, followers=1, capacity=1),
    case(SEATS_ARE_COUNTED_BOARD_BY_BOARD, followers=1),
    case(A_SPECTATOR_FOLLOWS_ONE_BOARD_AT_A_TIME, followers=1),
]
