"""What the tests of sessions share: an owner and a guest of a board, and a long game."""

import contextlib

from relay_client.connection import Connection
from relay_client.server import Server
from relay_client.texts import OPENED, following, follows, moved, opens, over, played, submits

ABANDONED = over("abandoned")


@contextlib.contextmanager
def main_port(count):
    """The port of a server that serves this many connections."""
    with Server("--connections", str(count)) as server:
        yield server.port
        server.has_served(count)


@contextlib.contextmanager
def watch_port(_count):
    """The port of a server for those who only watch. It counts no connections."""
    with Server("--forever", watch=True) as server:
        yield server.watch_port


def owner_of(server, board="b1", **options):
    """A connection that has opened the board."""
    owner = Connection(server.port, **options)
    owner.asks(opens(board), OPENED)
    return owner


def guest_of(server, board="b1", **options):
    """A connection that follows the board from its start."""
    guest = Connection(server.port, **options)
    guest.asks(follows(board), following())
    return guest


def moves_without_a_draw():
    """168 moves: no position comes for a fifth time, since a pawn of each side moves after every twelve."""
    for rank in (2, 3):
        for file in "abcdeh":
            yield from ["g1f3", "g8f6", "f3g1", "f6g8"] * 3
            yield from [f"{file}{rank}{file}{rank + 1}", f"{file}{9 - rank}{file}{8 - rank}"]


def play(owner, moves):
    """Plays these moves on b1 in one piece; the texts that a follower from the first place gets."""
    owner.send(*(submits("b1", move) for move in moves))
    owner.hears(*map(played, range(len(moves))))
    return [moved(move, place) for place, move in enumerate(moves)]
