"""Commands and answers as the JSON texts that the relay reads and writes: no white space, keys in the order of their bytes."""

import json


def text(**members):
    return json.dumps(members, separators=(",", ":"), sort_keys=True)


# Commands.


def opens(board, start=518):
    return text(cmd="open", board=board, start=start)


def submits(board, move):
    return text(cmd="submit", board=board, move=move)


def ends(board, how, side=None, result=None):
    return text(cmd="end", board=board, how=how, **({"side": side} if side else {}), **({"result": result} if result else {}))


def follows(board, spectator=1, place=None):
    """Asks to follow a board from a place on, or from now on."""
    return text(cmd="follow", board=board, spectator=spectator, **({} if place is None else {"from": place}))


BOARDS = text(cmd="boards")  # On the port for those who only watch.


def takes(spectator):
    return text(cmd="take", spectator=spectator)


def leaves(spectator):
    return text(cmd="leave", spectator=spectator)


# Answers.

START_518 = "rnbqkbnr/pppppppp/8/8/8/8/PPPPPPPP/RNBQKBNR w HAha - 0 1"
OPENED = text(reply="opened")
NOTHING = text(reply="nothing")
CUT = text(reply="cut")


def played(place, outcome=None):
    return text(reply="played", place=place, outcome=outcome)


def ended(outcome):
    return text(reply="ended", outcome=outcome)


def following(joined=0, fen=START_518):
    return text(reply="following", joined=joined, fen=fen)


def moved(move, place):
    return text(reply="move", move=move, place=place)


def over(outcome):
    return text(reply="over", outcome=outcome)


def stands(board, start=518, fen=None, last=None, plies=0, outcome=None):
    """How a board stands, on the port for those who only watch."""
    return text(reply="board", board=board, start=start, fen=fen or START_518, last=last, plies=plies, outcome=outcome)


def left(joined, taken, limit, cut):
    return text(reply="left", joined=joined, taken=taken, limit=limit, cut=cut)


def refused(code, name):
    return text(reply="refused", code=code, name=name)


NO_BOARD = refused(1, "NoSuchBoard")
GAME_OVER = refused(5, "GameOver")
NO_FOLLOWER = refused(9, "NoSuchFollower")
NO_MEMORY = refused(12, "OutOfMemory")
NOT_JSON = refused(21, "NotJson")
NOT_OBJECT = refused(22, "NotObject")
UNKNOWN_COMMAND = refused(23, "UnknownCommand")
BAD_FIELD = refused(24, "BadField")
