"""What followers are pushed, however the moves come."""

import socket
import time
import unittest

from relay_client.connection import Connection
from relay_client.server import Server
from relay_client.tests.sessions import ABANDONED, guest_of, moves_without_a_draw, owner_of, play
from relay_client.texts import following, follows, moved, played, submits


def lasts_a_burst(burst):
    """Whether a follower that sleeps when the moves come gets the end of the game, and is not closed before."""
    with Server("--connections", "2") as server:
        owner, guest = owner_of(server), guest_of(server)
        time.sleep(0.02)
        play(owner, burst)
        owner.close()
        received = guest.receive()
        while "move" in received:
            received = guest.receive()
        guest.close()
        server.has_served(2)
    return received == ABANDONED


class Pushing(unittest.TestCase):
    def test_moves_that_come_two_by_two_reach_a_follower_before_the_next_two(self):
        """They come in two pieces. A follower that looks for more between them finds the second, or is woken for it."""
        with Server("--connections", "16") as server:
            for board in range(8):
                name = f"p{board}"
                owner, guest = owner_of(server, name), guest_of(server, name)
                owner.stream.setsockopt(socket.IPPROTO_TCP, socket.TCP_NODELAY, 1)
                moves = list(moves_without_a_draw())
                for place in range(0, len(moves), 2):
                    for move in moves[place:place + 2]:
                        owner.send(submits(name, move))
                    guest.hears(moved(moves[place], place), moved(moves[place + 1], place + 1))
                    owner.hears(played(place), played(place + 1))
                owner.close()
                guest.hears(ABANDONED, "close 1000")
                guest.close()
            server.has_served(16)

    def test_a_long_log_that_waits_for_a_follower_comes_in_order(self):
        with Server("--connections", "2", "--capacity", "200") as server:
            owner, guest = owner_of(server), Connection(server.port)
            texts = play(owner, list(moves_without_a_draw()))
            guest.asks(follows("b1", place=0), following())
            guest.hears(*texts)
            owner.close()
            guest.hears(ABANDONED, "close 1000")
            guest.close()
            server.has_served(2)

    def test_a_follower_that_sends_and_reads_late_still_gets_all_texts_and_its_close(self):
        """It has little room, and what it sends nobody reads."""
        with Server("--connections", "2", "--capacity", "200") as server:
            owner, guest = owner_of(server), guest_of(server, room=2048)
            guest.send(*["["] * 1000)
            texts = play(owner, list(moves_without_a_draw()))
            owner.close()
            time.sleep(1)
            guest.hears(*texts, ABANDONED, "close 1000")
            guest.close()
            server.has_served(2)

    def test_a_follower_that_sends_once_the_game_has_ended_still_gets_all_texts_and_its_close(self):
        """It has little room, so that most of the texts are still on their way. A server that read no more would reset the connection."""
        with Server("--connections", "2", "--capacity", "200") as server:
            owner, guest = owner_of(server), guest_of(server, room=2048)
            texts = play(owner, list(moves_without_a_draw()))
            owner.close()
            time.sleep(1)
            guest.send(*["["] * 10)
            time.sleep(0.2)
            guest.hears(*texts, ABANDONED, "close 1000")
            guest.close()
            server.has_served(2)

    def test_a_burst_wakes_its_followers(self):
        """80 moves that come with one read would close a follower with room for 64 that sleeps meanwhile, but it is woken after 16. Whether
        it is fast enough then depends on the machine, so it is tried until one is."""
        burst = list(moves_without_a_draw())[:80]
        self.assertTrue(any(lasts_a_burst(burst) for _ in range(200)))

    def test_a_move_does_not_wait_until_the_one_before_is_acknowledged(self):
        """A follower's system acknowledges late what it answers nothing to: after 40 milliseconds and more."""
        with Server("--connections", "2", "--capacity", "200") as server:
            owner, guest = owner_of(server), guest_of(server)
            took = []
            for place, move in enumerate(moves_without_a_draw()):
                guest.stream.setsockopt(socket.IPPROTO_TCP, socket.TCP_QUICKACK, 0)
                began = time.monotonic()
                owner.send(submits("b1", move))
                guest.hears(moved(move, place))
                took.append(time.monotonic() - began)
                owner.hears(played(place))
            self.assertLess(sorted(took)[len(took) // 2], 0.03)
            owner.close()
            guest.hears(ABANDONED, "close 1000")
            guest.close()
            server.has_served(2)
