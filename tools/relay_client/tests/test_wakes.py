"""When the followers of a board are woken: after its operator is answered, even if the operator reads no answers."""

import json
import socket
import time
import unittest

from relay_client.connection import Connection
from relay_client.frames import frame
from relay_client.server import Server
from relay_client.tests.sessions import guest_of, moves_without_a_draw, owner_of
from relay_client.texts import OPENED, follows, moved, opens, played, submits

SO_TIMESTAMPNS = 35  # Linux, asm-generic/socket.h: what is received comes with the time at which the system had it.
FOLLOWERS = 256
MOVES = 20


def noted(connection):
    """The connection, with the times of what it receives."""
    connection.stream.setsockopt(socket.SOL_SOCKET, SO_TIMESTAMPNS, 1)
    return connection


def came_at(connection):
    """The seconds and nanoseconds at which the system had the next text, which is read later."""
    _, notes, _, _ = connection.stream.recvmsg(1, 64, socket.MSG_PEEK)
    seconds, nanoseconds = (int.from_bytes(notes[0][2][at:at + 8], "little") for at in (0, 8))
    return seconds, nanoseconds


def moves_made(server):
    """How many moves the board has."""
    late = Connection(server.port)
    late.send(follows("b1"))
    joined = json.loads(late.receive())["joined"]
    late.close()
    return joined


def moves_until_it_stops(server):
    """How many moves the board has, once no more come for a second."""
    before = None
    while (made := moves_made(server)) != before:
        before = made
        time.sleep(1)
    return made


class Wakes(unittest.TestCase):
    def is_early(self, owner, guests, *burst):
        """Plays moves in one piece while all sleep, and says whether the system had a follower's text before the operator's answers. Each
        is a board, a place and a move, and the followers are those of b1."""
        time.sleep(0.05)
        owner.send(*(submits(board, move) for board, _, move in burst))
        answered, told = came_at(owner), min(map(came_at, guests))
        owner.hears(*(played(place) for _, place, _ in burst))
        for guest in guests:
            guest.hears(*(moved(move, place) for board, place, move in burst if board == "b1"))
        return told < answered

    def few_are_early(self, bursts, *words):
        """Before, the followers were woken first, and the answer came late at each of 20 moves. A follower that does not sleep yet
        may have its move at once: so a few may come early."""
        count = FOLLOWERS + 1
        with Server("--connections", str(count), "--followers", str(FOLLOWERS), *words) as server:
            owner = noted(owner_of(server))
            owner.asks(opens("b2"), OPENED)
            guests = [noted(guest_of(server)) for _ in range(FOLLOWERS)]
            early = sum(self.is_early(owner, guests, *burst) for burst in bursts)
            self.assertLessEqual(early, len(bursts) // 4)
            for connection in owner, *guests:
                connection.close()
            server.has_served(count)

    def test_an_operator_is_answered_before_its_followers_wake(self):
        self.few_are_early([[("b1", place, move)] for place, move in enumerate(list(moves_without_a_draw())[:MOVES])])

    def test_an_operator_is_answered_before_its_followers_wake_for_two_moves_in_one_piece(self):
        """As many wakes as may be are postponed at the second, since queues hold eight."""
        moves = [("b1", place, move) for place, move in enumerate(list(moves_without_a_draw())[:2 * MOVES])]
        self.few_are_early([moves[at:at + 2] for at in range(0, len(moves), 2)], "--capacity", "8")

    def test_an_operator_is_answered_before_its_followers_wake_for_moves_on_two_boards_in_one_piece(self):
        """None is postponed at the second, since it is another board's."""
        moves = enumerate(list(moves_without_a_draw())[:MOVES])
        self.few_are_early([[(board, place, move) for board in ("b1", "b2")] for place, move in moves])


class Unread(unittest.TestCase):
    def test_an_operator_that_reads_no_answers_does_not_hold_up_its_followers(self):
        """They have all its moves within ten seconds, while the server tries for thirty to write the answers. Each piece that the server
        reads has a move, and so does the one whose answers it cannot write."""
        with Server("--forever", "--capacity", "1024") as server:
            owner, guest = owner_of(server, room=4096, segment=536), guest_of(server)
            moves = list(moves_without_a_draw())
            owner.stream.sendall(b"".join(frame(submits("b1", move)) + frame("[") * 300 for move in moves))
            made = moves_until_it_stops(server)
            self.assertLess(made, len(moves))
            guest.stream.settimeout(10)
            guest.hears(*(moved(move, place) for place, move in enumerate(moves[:made])))
            owner.close()
            guest.close()
