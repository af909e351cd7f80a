"""Refuses each allocation of the loop of a watch port in turn, for refusals.py: those not concerned notice nothing.

Before anything is refused one spectator follows the board b1, and another one watches all boards. Then somebody acts, and meanwhile one
allocation of the loop is refused. The actor gets its usual answer, or 12 instead, or its connection ends. All others get all
that they are due, and the operator's answers are as always. Then a move is made, and the actor comes again and is served.

A move or a board for which there was no memory is reported at the next news or a second later. Someone who watches all boards may be lost
if there was no memory for its own text.
"""
import collections
import contextlib
import functools
import itertools
import json
import mmap
import os
import pathlib
import select
import struct
import time
from dataclasses import dataclass

from relay_client.connection import Connection
from relay_client.frames import PING, frame, masked
from relay_client.program import fens
from relay_client.server import NotListening, Server
from relay_client.tests.sessions import moves_without_a_draw, owner_of
from relay_client.texts import (BAD_FIELD, BOARDS, NO_BOARD, NO_MEMORY, NOT_JSON, OPENED, START_518, ended, ends, following, follows, moved,
                                opens, over, played, refused, stands, submits)

NOT_YET, WRONG_MODE = refused(16, "NotYet"), refused(14, "WrongMode")
DONE = "close 1000"
MOVES = list(moves_without_a_draw())
SOON = 20  # Seconds within which each thing has come, on a busy machine.
WOKEN = 0.01  # Seconds within which the loop's thread runs once it is woken.
CROWD = 3  # How many come at once.
MOST_WRONG = 30
LOOPS = 2  # Of the server whose start is refused.
SERVED, TOLD_12, LOST, WRONG = "served", "told 12", "lost", "wrong"


class Wrong(Exception):
    """What is not as it should be."""


class Sheet:
    """What the allocator reads and writes: which allocation of the loop is refused, how many it was asked for since, and whether the loop
    waits."""

    FORM = "qqq"

    def __init__(self, path):
        self.path = path
        path.write_bytes(bytes(struct.calcsize(self.FORM)))
        with path.open("r+b") as file:
            self.memory = mmap.mmap(file.fileno(), struct.calcsize(self.FORM))

    def numbers(self):
        return struct.unpack(self.FORM, self.memory)

    def settles(self):
        """Waits until the loop has done what it was woken for."""
        time.sleep(WOKEN)
        until = time.monotonic() + SOON
        while not self.numbers()[2]:
            if time.monotonic() > until:
                raise Wrong("the loop does not wait any more")
            time.sleep(WOKEN)

    def refuses(self, number):
        """From now on this one is refused."""
        self.settles()
        self.memory[:16] = struct.pack("qq", number, 0)

    def ends(self):
        """Refuses nothing any more. Returns whether something was refused."""
        self.settles()
        number, asked, _ = self.numbers()
        self.memory[:16] = bytes(16)
        return number <= asked


def received(connection):
    """The next text or close; None if the connection has ended."""
    connection.stream.settimeout(SOON)
    try:
        return connection.receive()
    except ConnectionError:
        return None
    except AssertionError as fault:
        if str(fault) != "the connection ended":
            raise
        return None


def told(connection, wanted):
    """How one received these texts, each of which may be one of a set: SERVED, TOLD_12 if that came instead of one, or LOST if the
    connection ended before."""
    for text in wanted:
        heard = received(connection)
        if heard is None:
            return LOST
        if heard == NO_MEMORY:
            return TOLD_12
        if heard not in (text if isinstance(text, set) else {text}):
            raise Wrong(f"{heard} came, and not {text}")
    return SERVED


class Observer:
    """One who watches all boards. Each text is right, and says more than the one before. For each board it keeps how much was reported, its
    plies and its end."""

    def __init__(self, house):
        self.house = house
        self.known = {}
        self.connection = Connection(house.server.watch_port)
        self.connection.send(BOARDS)

    def takes(self):
        """Takes the next text; False if the connection has ended."""
        text = received(self.connection)
        if text is None:
            return False
        stand = json.loads(text)
        board, plies, outcome = stand["board"], stand["plies"], stand["outcome"]
        much = plies + (outcome is not None)
        if text != self.house.stands(board, plies, outcome) or much <= self.known.get(board, -1):
            raise Wrong(f"{text} came to who watches all boards, who knew {self.known}")
        self.known[board] = much
        return True

    def is_told(self, board, much=0):
        """Takes texts until it knows this much of a board; False if the connection ended before."""
        while self.known.get(board, -1) < much:
            if not self.takes():
                return False
        return True

    def takes_all(self):
        """Takes what has come by now, which is no end."""
        while select.select([self.connection.stream], [], [], 0)[0]:
            if not self.takes():
                raise Wrong("who watches all boards was lost")


@functools.cache
def positions():
    """Those after each of the moves."""
    return fens(518, MOVES)


class House:
    """A server with one loop, an operator, one who follows b1, and, if asked for, one who watches all boards."""

    def __init__(self, sheet, allocator, observed=False):
        words = "--forever", "--watch-threads", "1", "--boards", "256"
        self.sheet = sheet
        self.server = Server(*words, watch=True, env={**os.environ, "LD_PRELOAD": allocator, "SHEET": str(sheet.path)})
        self.made = 0
        self.owner = owner_of(self.server)
        self.follower = self.newcomer()
        self.follower.asks(follows("b1"), following())
        self.observer = None
        if observed:
            self.is_observed("b1")

    def __enter__(self):
        return self

    def __exit__(self, *_):
        self.server.kill()

    def newcomer(self):
        return Connection(self.server.watch_port)

    def fen(self, plies):
        return positions()[plies - 1] if plies else START_518

    def stands(self, board, plies, outcome=None):
        """The text of a board after this many plies."""
        return stands(board, fen=self.fen(plies), last=MOVES[plies - 1] if plies else None, plies=plies, outcome=outcome)

    def opens(self, board):
        self.owner.asks(opens(board), OPENED)

    def plays(self):
        """Makes a move on b1 and returns its text."""
        move, place = MOVES[self.made], self.made
        self.owner.asks(submits("b1", move), played(place))
        self.made += 1
        return moved(move, place)

    def follower_hears(self, text):
        if told(self.follower, [text]) != SERVED:
            raise Wrong("who follows b1 was lost")

    def is_observed(self, board):
        """The one who watches all boards hears of this one: SERVED. If it was LOST it comes again."""
        if self.observer and self.observer.is_told(board):
            return SERVED
        self.observer = Observer(self)
        if not self.observer.is_told(board):
            raise Wrong("who watches all boards and comes again is lost")
        return LOST

    def from_now_on(self):
        """What one gets that follows b1 without a place."""
        return [following(self.made, self.fen(self.made))]

    def from_the_first(self):
        """What one gets that follows b1 from the first place."""
        return [following(), *(moved(move, place) for place, move in enumerate(MOVES[:self.made]))]

    def all_boards(self):
        """What one who watches all boards gets, b1 and b2. The last moves of b1 may not be reported yet."""
        return [{self.stands("b1", plies) for plies in range(self.made + 1)}, self.stands("b2", 0)]


# ---- One who comes and acts.


@dataclass(frozen=True)
class Act:
    name: str
    # By the house: what it sends, and the texts that it gets then.
    sends: object
    wanted: object
    # Whether its request is part of it, and whether it follows b1 then.
    comes: bool = False
    follows: bool = False


def always(it):
    return lambda _: it


def asks(name, line, *answers):
    """An act that sends one line and always gets the same answer."""
    return Act(name, always(frame(line)), always(answers))


FROM_THE_FIRST = follows("b1", place=0).encode()
ACTS = [
    Act("comes", always(b""), always([]), comes=True),
    Act("follows from now on", always(frame(follows("b1"))), House.from_now_on, follows=True),
    Act("follows from the first place", always(frame(follows("b1", place=0))), House.from_the_first, follows=True),
    Act("follows in two fragments", always(masked(0x01, FROM_THE_FIRST[:9]) + masked(0x80, FROM_THE_FIRST[9:])), House.from_the_first,
        follows=True),
    asks("follows a board that nobody else follows", follows("b2", place=0), following()),
    Act("asks for all boards", always(frame(BOARDS)), House.all_boards),
    asks("is refused for its board", follows("b3"), NO_BOARD),
    asks("is refused for its place", follows("b1", place=60000), NOT_YET),
    asks("is refused for its command", opens("b3"), WRONG_MODE),
    asks("sends what is no JSON", "[", NOT_JSON),
    asks("sends a long text", "[" * 1025, BAD_FIELD),
    asks("sends a text that is too long", "[" * 65537, BAD_FIELD, "close 1009"),
    Act("sends pings", always(masked(PING, b"960") * 3), always(["pong"] * 3)),
    asks("closes", DONE, DONE),
]


def acts(house, act, connection):
    """How the act of a newcomer came out."""
    try:
        if connection is None:
            connection = house.newcomer()
        connection.stream.sendall(act.sends(house))
    except (ConnectionError, AssertionError):
        return LOST, connection
    return told(connection, act.wanted(house)), connection


def has_what_is_due(house, act, how, connection):
    """After the act a move is made. One that follows has it, or has lost its connection. One that got 12 may ask again."""
    move = house.plays()
    house.follower_hears(move)
    house.observer.takes_all()
    if how == TOLD_12:
        how, _ = acts(house, act, connection)
        if how != SERVED:
            raise Wrong("one that asks again after a 12 is not served")
    elif how == SERVED and act.follows and told(connection, [move]) == TOLD_12:
        raise Wrong("one that follows is told 12")


def refuse_one(house, act, number):
    """How the act came out with this allocation refused, and whether it came to that."""
    first = None if act.comes else house.newcomer()
    house.sheet.refuses(number)
    how, first = acts(house, act, first)
    met = house.sheet.ends()
    has_what_is_due(house, act, how, first)
    again, second = acts(house, act, None)
    if again != SERVED:
        raise Wrong(f"who comes again is {again}")
    for connection in filter(None, (first, second)):
        connection.close()
    return how, met


# ---- What the operator does.


def moves(house, number):
    """A move is made."""
    house.sheet.refuses(number)
    house.follower_hears(house.plays())
    return SERVED, house.sheet.ends()


def ends_a_game(house, number):
    """A game ends that one follows."""
    board = f"e{number}"
    house.opens(board)
    follower = house.newcomer()
    follower.asks(follows(board), following())
    house.sheet.refuses(number)
    house.owner.asks(ends(board, "agreed"), ended("agreed"))
    how = told(follower, [over("agreed"), DONE])
    follower.close()
    if how != SERVED:
        raise Wrong("who follows the board was lost")
    return how, house.sheet.ends()


def opens_a_board(house, number):
    """Another board is opened. Those who watch all boards hear of it at once. One may be lost, since the memory is for its own text."""
    house.sheet.refuses(number)
    house.opens(f"n{number}")
    how = house.is_observed(f"n{number}")
    met = house.sheet.ends()
    house.follower_hears(house.plays())
    return how, met


DEEDS = {"a move": moves, "an end": ends_a_game, "a board that is opened": opens_a_board}


# ---- Several come at once.


def crowd_comes(sheet, allocator, number):
    """Several come and follow b1, for whom the loop's lists grow. At most one is not served."""
    with House(sheet, allocator) as house:
        act = ACTS[1]
        sheet.refuses(number)
        came = [acts(house, act, None) for _ in range(CROWD)]
        met = sheet.ends()
        move = house.plays()
        house.follower_hears(move)
        lost = 0
        for how, connection in came:
            lost += how != SERVED or told(connection, [move]) != SERVED
        if lost > 1:
            raise Wrong(f"{lost} of {CROWD} newcomers were not served")
        return LOST if lost else SERVED, met


# ---- The start.


def runs_its_loops(server):
    """Waits until the loops run of a server that has said where it is watched; returns whether they did."""
    until = time.monotonic() + SOON
    while server.process.poll() is None and time.monotonic() < until:
        with contextlib.suppress(FileNotFoundError):
            if len(list(pathlib.Path(f"/proc/{server.process.pid}/task").iterdir())) > LOOPS:
                return True
        time.sleep(WOKEN)
    return False


def start_is_refused(allocator, mark, number):
    """How a start turned out in which this allocation was refused: SERVED, or LOST if it says only that there is no memory."""
    mark.unlink(missing_ok=True)
    env = {**os.environ, "LD_PRELOAD": allocator, "REFUSED": str(number), "MARK": str(mark)}
    words = "--forever", "--boards", "1", "--followers", "1", "--watch-threads", str(LOOPS)
    try:
        with Server(*words, watch=True, env=env) as server:
            if not runs_its_loops(server):
                raise Wrong("the server said that it listens and where it is watched, and ended")
            met = mark.exists()
            if met:
                owner_of(server).close()
            return SERVED, met
    except NotListening as fault:
        _, said, status = fault.args
        if status != 4 or not said.endswith(b"fault 12 OutOfMemory\n"):
            raise Wrong(f"the server ended with status {status} and {said}") from fault
        return LOST, True


def until_nothing_is_refused(name, refuse, may_take_none=False):
    """Refuses each allocation, until there is none of the number, or too much was wrong. Returns whether something was wrong, or nothing
    was refused where something has to be."""
    counts = collections.Counter()
    for number in itertools.count(1):
        try:
            how, met = refuse(number)
        except (Wrong, AssertionError, OSError) as fault:
            print(f"{name}, allocation {number}: {fault!r}")
            how, met = WRONG, True
        if not met and how == SERVED:
            break
        counts[how] += 1
        if not met or counts[WRONG] == MOST_WRONG:
            print(f"{name}: given up at allocation {number}")
            return True
    print(f"{name}, {number - 1} allocations refused:", ", ".join(f"{how}: {count}" for how, count in sorted(counts.items())), flush=True)
    return counts[WRONG] > 0 or (number == 1 and not may_take_none)


def refuse_in_watching(allocator, mark):
    """Refuses each allocation of the loop; returns whether something was wrong."""
    sheet = Sheet(mark.with_name("sheet"))
    wrong = until_nothing_is_refused("the start with a watch port", lambda number: start_is_refused(allocator, mark, number))
    for act in ACTS:
        with House(sheet, allocator, observed=True) as house:
            house.opens("b2")
            wrong |= until_nothing_is_refused(f"one {act.name}", lambda number: refuse_one(house, act, number))
    for name, deed in DEEDS.items():
        with House(sheet, allocator, observed=deed is opens_a_board) as house:
            wrong |= until_nothing_is_refused(name, lambda number: deed(house, number))
    return wrong | until_nothing_is_refused("several come", lambda number: crowd_comes(sheet, allocator, number))
