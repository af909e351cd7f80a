"""Peers that are refused as followers and ask again: how soon they are read again, and who does not wait for that."""

import time
import unittest

from relay_client.connection import Connection
from relay_client.frames import PING, frame, masked
from relay_client.server import Server
from relay_client.tests.sessions import guest_of, owner_of
from relay_client.tests.test_wakes import came_at, noted
from relay_client.texts import follows, played, refused, submits

FULL = refused(11, "TooManyFollowers")
NO_SUCH_BOARD = refused(1, "NoSuchBoard")
WRONG_MODE = refused(14, "WrongMode")
REST = 0.02  # Seconds in which a peer is not read behind a refusal.
MOST_REST = 0.5  # However many there were.
AT_ONCE = 40  # Questions in one piece, which would be held up for longer if each counted.
OF_AN_OPERATOR = 2000  # Questions that the server reads in some thirty pieces.


def seconds_of(job):
    began = time.monotonic()
    job()
    return time.monotonic() - began


def seconds_between(earlier, later):
    return later[0] - earlier[0] + (later[1] - earlier[1]) / 1e9


class AskingAgain(unittest.TestCase):
    """Before, each question was answered at once, and some hundred peers that asked again at each answer took all processors."""

    def setUp(self):
        self.server = self.enterContext(Server("--forever", "--followers", "1"))
        self.owner, self.guest, self.asker = noted(owner_of(self.server)), guest_of(self.server), noted(Connection(self.server.port))
        time.sleep(0.05)  # From then on the system notes the times.
        for connection in self.owner, self.guest, self.asker:
            self.addCleanup(connection.close)

    def ask_again(self, asker, board, answer, times):
        for _ in range(times):
            asker.asks(follows(board), answer)

    def test_one_that_asks_again_at_each_refusal_is_answered_fifty_times_a_second_at_most(self):
        for board, answer in (("b1", FULL), ("b2", NO_SUCH_BOARD)):
            with self.subTest(answer):
                self.assertGreaterEqual(seconds_of(lambda: self.ask_again(self.asker, board, answer, 26)), 25 * REST)

    def test_refusals_in_one_piece_hold_up_what_comes_later_for_half_a_second_together(self):
        def ask_at_once_and_again():
            self.asker.send(*[follows("b1")] * AT_ONCE)
            self.asker.hears(*[FULL] * AT_ONCE)
            self.asker.asks(follows("b1"), FULL)

        self.assertGreaterEqual(seconds_of(ask_at_once_and_again), MOST_REST)

    def test_answers_and_the_pong_to_what_came_with_the_questions_leave_at_once(self):
        """They leave in one piece. What comes later waits."""
        self.asker.stream.sendall(frame(follows("b1")) * AT_ONCE + masked(PING, b""))
        first = came_at(self.asker)
        self.asker.hears(*[FULL] * AT_ONCE)
        self.assertLess(seconds_between(first, came_at(self.asker)), MOST_REST / 2)
        self.assertEqual(self.asker.receive_any(), "pong")
        self.asker.stream.sendall(masked(PING, b""))
        self.assertGreaterEqual(seconds_between(first, came_at(self.asker)), MOST_REST)

    def test_nobody_else_waits(self):
        self.asker.send(*[follows("b1")] * AT_ONCE)
        self.asker.hears(*[FULL] * AT_ONCE)
        self.asker.send(follows("b1"))
        self.owner.send(submits("b1", "e2e4"))
        answered, refused_again = came_at(self.owner), came_at(self.asker)
        self.assertGreater(seconds_between(answered, refused_again), 0)
        self.owner.hears(played(0))

    def test_an_operator_that_asks_for_its_own_board_is_not_held_up(self):
        """It takes many reads. Each would be followed by half a second."""
        def ask_at_once():
            self.owner.send(*[follows("b1")] * OF_AN_OPERATOR)
            self.owner.hears(*[WRONG_MODE] * OF_AN_OPERATOR)

        self.assertLess(seconds_of(ask_at_once), 10 * MOST_REST)


if __name__ == "__main__":
    unittest.main()
