"""Conversations of a few clients with a server."""

import time
import unittest

from relay_client.connection import Connection
from relay_client.frames import PING, frame, masked
from relay_client.server import Server
from relay_client.tests.sessions import ABANDONED, guest_of, owner_of
from relay_client.tests.test_spectators import FREE, FULL, close_all, seconds_until_followed
from relay_client.tests.test_watching_loops import LONG, SLOW, Stopped, long_game
from relay_client.texts import (CUT, NO_BOARD, OPENED, ended, ends, following, follows, moved, opens, over, played, refused, submits, takes)

EXISTS, NOT_YOURS, WRONG_MODE = refused(2, "BoardExists"), refused(13, "NotYourBoard"), refused(14, "WrongMode")
TOO_FAR_BACK, NOT_YET = refused(15, "TooFarBack"), refused(16, "NotYet")
ASLEEP = 0.1  # Seconds after which a follower sleeps.
BEFORE_A_PING = 20  # Seconds. A ping, which comes after thirty, would wake who sleeps, too.
PINGS = 500
ROUNDS = 20
# The place from which a board of three moves, whose queues hold two, is to be followed, and the refusal.
IN_ORDER = [(4, NOT_YET), (0, TOO_FAR_BACK), (1, FULL), (3, FULL), (None, FULL)]


def hears_behind_pongs(guest, *texts):
    """Receives these texts next, apart from pongs."""
    for text in texts:
        while (received := guest.receive()) == "pong":
            pass
        assert received == text, f"{text!r}, but received {received!r}"


class Conversations(unittest.TestCase):
    def loopback(self):
        with Server("--connections", "3") as server:
            owner, guest = owner_of(server), guest_of(server)
            owner.asks(submits("b1", "e2e4"), played(0))
            owner.asks(follows("b1"), WRONG_MODE)
            owner.asks(ends("b1", "agreed"), ended("agreed"))
            guest.hears(moved("e2e4", 0), over("agreed"), "close 1000")
            stranger = Connection(server.port)
            stranger.asks(submits("b1", "e7e5"), NOT_YOURS)
            stranger.asks(submits("b9", "e7e5"), NO_BOARD)
            stranger.asks(takes(1), WRONG_MODE)
            close_all(owner, guest, stranger)
            server.has_served(3)

    def follow_from(self):
        """The follower asks for moves that were played before. Then the board's owner goes without a close, and its game is abandoned."""
        moves = ["e2e4", "e7e5", "g1f3"]
        with Server("--connections", "2") as server:
            owner, guest = owner_of(server), Connection(server.port)
            for place, move in enumerate(moves):
                owner.asks(submits("b1", move), played(place))
            guest.asks(follows("b1", place=4), NOT_YET)
            guest.asks(follows("b1", place=0), following())
            guest.hears(*(moved(move, place) for place, move in enumerate(moves)))
            owner.close()
            guest.hears(ABANDONED, "close 1000")
            guest.close()
            server.has_served(2)

    def two_boards(self):
        """The moves of both boards come in one piece while their followers sleep, so that the wakes are postponed."""
        with Server("--connections", "3") as server:
            owner = owner_of(server)
            owner.asks(opens("b2"), OPENED)
            first, second = guest_of(server), guest_of(server, "b2")
            time.sleep(ASLEEP)
            owner.send(submits("b1", "e2e4"), submits("b2", "d2d4"), submits("b1", "e7e5"))
            owner.hears(played(0), played(0), played(1))
            first.hears(moved("e2e4", 0), moved("e7e5", 1))
            second.hears(moved("d2d4", 0))
            owner.close()
            for guest in first, second:
                guest.hears(ABANDONED, "close 1000")
                guest.close()
            server.has_served(3)

    def a_follower_that_sends(self):
        """The server has closed when the follower reads on, and a reset would have destroyed its texts. Its pings are answered between
        them, if a loop tells it."""
        with Server("--connections", "2") as server:
            owner, guest = owner_of(server), guest_of(server)
            guest.stream.sendall(masked(PING, bytes(100)) * PINGS)
            owner.asks(submits("b1", "e2e4"), played(0))
            owner.asks(ends("b1", "agreed"), ended("agreed"))
            time.sleep(ASLEEP)
            hears_behind_pongs(guest, moved("e2e4", 0), over("agreed"), "close 1000")
            close_all(owner, guest)
            server.has_served(2)

    def test_loopback_and_follow_from_loopback(self):
        for conversation in self.loopback, self.follow_from, self.two_boards, self.a_follower_that_sends:
            with self.subTest(conversation.__name__):
                conversation()

    def test_two_at_once(self):
        """The first connection has half of its command on its way until the second is answered. A server that serves one after the other
        would not answer the second, and would have given up the first. Then both open one name at once, and one of them succeeds."""
        with Server("--connections", "2", "--boards", str(2 + ROUNDS)) as server:
            first, opening = Connection(server.port), frame(opens("b1"))
            first.stream.sendall(opening[:9])
            second = owner_of(server, "b2", patience=BEFORE_A_PING)
            first.stream.sendall(opening[9:])
            first.hears(OPENED)
            for number in range(ROUNDS):
                name = f"c{number}"
                with Stopped(server):
                    first.send(opens(name))
                    second.send(opens(name))
                self.assertEqual({first.receive(), second.receive()}, {OPENED, EXISTS})
            close_all(first, second)
            server.has_served(2)

    def test_all_who_sleep_are_woken(self):
        """One wake is for all of them. After its last text a follower is told at once that no more will come, although it has not
        closed."""
        with Server("--connections", "4") as server:
            owner, guests = owner_of(server), [guest_of(server) for _ in range(3)]
            for guest in guests:
                guest.stream.settimeout(BEFORE_A_PING)
            time.sleep(ASLEEP)
            owner.asks(submits("b1", "e2e4"), played(0))
            for guest in guests:
                guest.hears(moved("e2e4", 0))
            time.sleep(ASLEEP)
            owner.asks(ends("b1", "agreed"), ended("agreed"))
            for guest in guests:
                guest.hears(over("agreed"))
            for guest in guests:
                guest.hears("close 1000")
                # A server that did not close would wait for ten seconds, and then go.
                guest.stream.settimeout(9)
                guest.has_ended()
            close_all(owner, *guests)
            server.has_served(4)

    def test_a_follower_that_was_about_to_sleep_hears_the_end(self):
        """Its connection takes no more than some hundreds of moves, so it is still being sent a move that it was told of before the others
        were played and the game ended. Nobody wakes it behind that."""
        moves = long_game(LONG)
        with Server("--connections", "2", "--capacity", "1024", "--plies", "1500") as server:
            owner, guest = owner_of(server), guest_of(server, **SLOW)
            for start in range(0, LONG, 10):
                owner.send(*(submits("b1", move) for move in moves[start:start + 10]))
                owner.hears(*map(played, range(start, start + 10)))
            owner.asks(ends("b1", "agreed"), ended("agreed"))
            guest.stream.settimeout(BEFORE_A_PING)
            guest.hears(*(moved(move, place) for place, move in enumerate(moves)), over("agreed"), "close 1000")
            close_all(owner, guest)
            server.has_served(2)

    def test_a_full_queue_is_cut_off_and_serving_ends_behind_the_last_session(self):
        """The follower's connection takes no more than some hundreds of moves. It is cut off, and the server goes on until it has read
        all."""
        moves = long_game(LONG)
        with Server("--connections", "2", "--capacity", "2", "--plies", "1500") as server:
            owner, guest = owner_of(server), guest_of(server, **SLOW)
            for start in range(0, LONG, 10):
                owner.send(*(submits("b1", move) for move in moves[start:start + 10]))
                owner.hears(*map(played, range(start, start + 10)))
            owner.close()
            time.sleep(1)
            self.assertIsNone(server.process.poll())
            texts = []
            while (received := guest.receive()) != CUT:
                texts.append(received)
            self.assertGreaterEqual(len(texts), 2)
            self.assertEqual(texts, [moved(move, place) for place, move in enumerate(moves[:len(texts)])])
            guest.hears("close 4001")
            guest.close()
            server.has_served(2)

    def test_a_full_board_refuses_in_order(self):
        with Server("--connections", "3", "--followers", "1", "--capacity", "2") as server:
            owner, guest, other = owner_of(server), guest_of(server), Connection(server.port)
            # Its follower gets each move before the next one is made. If a queue of two held three, it would be cut, and its place free.
            for place, move in enumerate(["e2e4", "e7e5", "g1f3"]):
                owner.asks(submits("b1", move), played(place))
                guest.hears(moved(move, place))
            # The second time the server knows that the board is full.
            for place, refusal in [*IN_ORDER, *IN_ORDER]:
                other.asks(follows("b1", place=place), refusal)
            other.asks(follows("b9"), NO_BOARD)
            owner.asks(opens("b2"), OPENED)
            other.asks(follows("b2"), following())
            close_all(owner, guest, other)
            server.has_served(3)

    def test_a_place_is_free_once_its_follower_has_left(self):
        with Server("--connections", str(1 + ROUNDS), "--followers", "1", "--capacity", "2") as server:
            owner = owner_of(server)
            owner.asks(ends("b1", "agreed"), ended("agreed"))
            for _ in range(ROUNDS):
                guest, answer, took = seconds_until_followed(server)
                self.assertEqual(answer, following())
                self.assertLess(took, FREE)
                guest.hears(over("agreed"), "close 1000")
                guest.close()
            owner.close()
            server.has_served(1 + ROUNDS)


if __name__ == "__main__":
    unittest.main()
