"""Refuses each allocation of the loop of the main port in turn, for refusals.py: those not concerned notice nothing.

Before anything is refused an operator has opened the board b1, and one follows it. Then a newcomer acts, and meanwhile one allocation of
the loop is refused. It gets its usual answer, or 12 instead, or its connection ends. The operator's answers are as always, and who follows
b1 gets all that it is due. Then the newcomer comes again and is served.

A board for which there was no memory is not opened. A move is never told as made a second time: one whose answer there was no memory for
was made, or it was not, and its connection ends.
"""
import os
from dataclasses import dataclass

from refused_watching import (CROWD, DONE, LOST, MOVES, NOT_YET, SERVED, TOLD_12, House, Sheet, Wrong, always, told,
                              until_nothing_is_refused)
from relay_client.connection import Connection
from relay_client.frames import PING, frame, masked
from relay_client.server import Server
from relay_client.tests.sessions import owner_of
from relay_client.texts import (BAD_FIELD, GAME_OVER, NO_BOARD, NOT_JSON, OPENED, ended, ends, following, follows, moved, opens, over,
                                played, refused, submits)

TAKEN = refused(2, "BoardExists")
KEY = "a-key-of-twenty-eight-letter"
MOST_BACK = 3


class Hall(House):
    """A server whose main port has one loop, an operator, and one who follows b1."""

    def __init__(self, sheet, allocator):
        words = "--forever", "--boards", "256", "--grace", "60"
        self.sheet = sheet
        self.server = Server(*words, env={**os.environ, "LD_PRELOAD": allocator, "SHEET": str(sheet.path), "LOOP": "main"})
        self.made = 0
        self.owner = owner_of(self.server)
        self.follower = self.newcomer()
        self.follower.asks(follows("b1"), following())

    def newcomer(self, key=None):
        return Connection(self.server.port, key=key)

    def place_back(self):
        """Where a follower joins that asks for the last moves. Each move that it gets then takes memory for its text: as many as the board
        has would be more with each attempt."""
        return max(0, self.made - MOST_BACK)

    def follows_back(self):
        return follows("b1", place=self.place_back())

    def from_back(self):
        place = self.place_back()
        return [following(place, self.fen(place)), *(moved(move, at) for at, move in enumerate(MOVES[place:self.made], place))]


@dataclass(frozen=True)
class Act:
    name: str
    # By the hall and a number that no other act has: what is said, and the texts that answer it.
    says: object
    wanted: object
    # Whether its request is part of it, whether it comes with a key, and whether it follows b1 then.
    comes: bool = False
    key: str = None
    follows: bool = False


def asks(name, line, *answers):
    """An act that says one line and always gets the same answers."""
    return Act(name, lambda hall, number: frame(line), lambda hall: answers)


def in_two(text):
    """A text in two fragments."""
    return masked(0x01, text[:9]) + masked(0x80, text[9:])


def of_a_board(number):
    return f"n{number}"


ACTS = [
    Act("comes", lambda hall, number: b"", always([]), comes=True),
    Act("comes with a key", lambda hall, number: b"", always([]), comes=True, key=KEY),
    Act("opens a board", lambda hall, number: frame(opens(of_a_board(number))), always([OPENED])),
    Act("opens a board, plays and ends it", lambda hall, number: b"".join(map(frame, [
        opens(of_a_board(number)), submits(of_a_board(number), "e2e4"), ends(of_a_board(number), "agreed")])),
        always([OPENED, played(0), ended("agreed")])),
    Act("follows from now on", lambda hall, number: frame(follows("b1")), House.from_now_on, follows=True),
    Act("follows from some moves back", lambda hall, number: frame(hall.follows_back()), Hall.from_back, follows=True),
    Act("follows in two fragments", lambda hall, number: in_two(hall.follows_back().encode()), Hall.from_back, follows=True),
    asks("is refused for its board", follows("b3"), NO_BOARD),
    asks("is refused for its place", follows("b1", place=60000), NOT_YET),
    asks("is refused for a name", opens("b1"), TAKEN),
    asks("sends what is no JSON", "[", NOT_JSON),
    asks("sends a long text", "[" * 1025, BAD_FIELD),
    asks("sends a text that is too long", "[" * 65537, BAD_FIELD, "close 1009"),
    Act("sends pings", lambda hall, number: masked(PING, b"960") * 3, always(["pong"] * 3)),
    asks("closes", DONE, DONE),
]


def acts(hall, act, number, connection):
    """How the act of a newcomer came out."""
    try:
        if connection is None:
            connection = hall.newcomer(act.key)
        connection.stream.sendall(act.says(hall, number))
    except (ConnectionError, AssertionError):
        return LOST, connection
    return told(connection, act.wanted(hall)), connection


def has_what_is_due(hall, act, how, connection):
    """After the act a move is made. One that follows has it, or has lost its connection."""
    move = hall.plays()
    hall.follower_hears(move)
    if how == SERVED and act.follows and told(connection, [move]) == TOLD_12:
        raise Wrong("one that follows is told 12")


def refuse_one(hall, act, number):
    """How the act came out with this allocation refused, and whether it came to that."""
    first = None if act.comes else hall.newcomer(act.key)
    hall.sheet.refuses(number)
    how, first = acts(hall, act, 2 * number, first)
    met = hall.sheet.ends()
    has_what_is_due(hall, act, how, first)
    again, second = acts(hall, act, 2 * number + 1, None)
    if again != SERVED:
        raise Wrong(f"who comes again is {again}")
    for connection in filter(None, (first, second)):
        connection.close()
    return how, met


# ---- What the operator does.


def moves(hall, number):
    """A move is made, and the operator has its answer, or is lost."""
    board, operator = of_a_board(number), hall.newcomer()
    operator.asks(opens(board), OPENED)
    follower = hall.newcomer()
    follower.asks(follows(board), following())
    hall.sheet.refuses(number)
    operator.send(submits(board, "e2e4"))
    how = told(operator, [played(0)])
    met = hall.sheet.ends()
    if how == TOLD_12:
        raise Wrong("a move is told 12")
    operator.close()
    follower.close()
    hall.follower_hears(hall.plays())
    return how, met


def goes(hall, number):
    """An operator goes, and who follows its board is told its end."""
    board, operator = of_a_board(number), hall.newcomer()
    operator.asks(opens(board), OPENED)
    follower = hall.newcomer()
    follower.asks(follows(board), following())
    hall.sheet.refuses(number)
    operator.close()
    how = told(follower, [over("abandoned"), DONE])
    follower.close()
    if how != SERVED:
        raise Wrong("who follows the board was lost")
    return how, hall.sheet.ends()


def goes_with_a_key(hall, number):
    """An operator with a key goes, and comes back in time."""
    board, operator = of_a_board(number), hall.newcomer(KEY)
    operator.asks(opens(board), OPENED)
    hall.sheet.refuses(number)
    operator.close()
    met = hall.sheet.ends()
    back = hall.newcomer(KEY)
    back.asks(submits(board, "e2e4"), played(0))
    back.asks(ends(board, "agreed"), ended("agreed"))
    back.asks(ends(board, "agreed"), GAME_OVER)
    back.close()
    return SERVED, met


DEEDS = {"a move": moves, "an operator that goes": goes, "an operator with a key that goes": goes_with_a_key}
# The list of operators that are due a turn takes memory when the first one is. That may have been before anything was to be refused, if
# the system reported once more that one may be written to.
TAKE_NONE = goes, goes_with_a_key


# ---- Several come at once.


def crowd_comes(sheet, allocator, number):
    """Several come and follow b1, for whom the loop's lists grow. At most one is not served."""
    with Hall(sheet, allocator) as hall:
        act = ACTS[4]
        sheet.refuses(number)
        came = [acts(hall, act, number, None) for _ in range(CROWD)]
        met = sheet.ends()
        move = hall.plays()
        hall.follower_hears(move)
        lost = 0
        for how, connection in came:
            lost += how != SERVED or told(connection, [move]) != SERVED
        if lost > 1:
            raise Wrong(f"{lost} of {CROWD} newcomers were not served")
        return LOST if lost else SERVED, met


def refuse_in_main(allocator, mark):
    """Refuses each allocation of the loop; returns whether something was wrong."""
    sheet, wrong = Sheet(mark.with_name("sheet")), False
    for act in ACTS:
        with Hall(sheet, allocator) as hall:
            wrong |= until_nothing_is_refused(f"one {act.name}", lambda number: refuse_one(hall, act, number))
    for name, deed in DEEDS.items():
        with Hall(sheet, allocator) as hall:
            wrong |= until_nothing_is_refused(name, lambda number: deed(hall, number), deed in TAKE_NONE)
    return wrong | until_nothing_is_refused("several come", lambda number: crowd_comes(sheet, allocator, number))
