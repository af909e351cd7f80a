"""What the loops of the main port keep of those who follow: who hears at once, whatever others come, go, flood or stop reading."""

import concurrent.futures
import random
import socket
import threading
import time
import unittest

from relay_client.connection import Connection
from relay_client.frames import PING, masked
from relay_client.server import Server
from relay_client.tests.sessions import ABANDONED, guest_of, moves_without_a_draw, owner_of
from relay_client.tests.test_spectators import AWAY, GOING, PAYLOAD, SOON, close_all, frames_until_pong, rests, seconds_until_followed
from relay_client.tests.test_watching_loops import AT_ONCE, LONG, ROUNDS, SLOW, long_game
from relay_client.texts import OPENED, following, follows, moved, opens, played, submits

LOST = 0.85  # Seconds. What comes while a loop writes, and does not wake it, is seen a second later.


class Crowds(unittest.TestCase):
    """Who follows one board, or another one, in either loop."""

    def is_told_at_once(self, act):
        """At least three of ten hear at once; on a busy machine others are late. A loop that nobody wakes looks each second."""
        took = []
        for number in range(ROUNDS):
            time.sleep(0.1)  # The loops wait again.
            began = time.monotonic()
            act(number)
            took.append(time.monotonic() - began)
        self.assertLess(sorted(took)[2], AT_ONCE, took)

    def test_a_move_comes_at_once_whichever_loop_it_is_told_by(self):
        moves = list(moves_without_a_draw())
        with Server("--forever") as server:
            owner, guests = owner_of(server), [guest_of(server) for _ in range(4)]
            owner.stream.setsockopt(socket.IPPROTO_TCP, socket.TCP_NODELAY, 1)

            def act(number):
                owner.send(submits("b1", moves[number]))
                for guest in guests:
                    guest.hears(moved(moves[number], number))
                owner.hears(played(number))

            self.is_told_at_once(act)
            close_all(owner, *guests)

    def test_a_move_comes_at_once_though_one_on_a_board_that_nobody_follows_came_with_it(self):
        moves = list(moves_without_a_draw())
        with Server("--forever") as server:
            owner, guest = owner_of(server), guest_of(server)
            owner.asks(opens("b2"), OPENED)

            def act(number):
                owner.send(submits("b1", moves[number]), submits("b2", moves[number]))
                guest.hears(moved(moves[number], number))
                owner.hears(played(number), played(number))

            self.is_told_at_once(act)
            close_all(owner, guest)

    def test_a_move_that_comes_while_a_loop_writes_wakes_it_again(self):
        """The second of two that come close together is late by a second where the wake is lost. On a busy machine others are late."""
        moves = list(moves_without_a_draw())
        with Server("--forever", "--followers", "60") as server:
            owner, guests = owner_of(server), [guest_of(server) for _ in range(60)]
            owner.stream.setsockopt(socket.IPPROTO_TCP, socket.TCP_NODELAY, 1)
            took = []
            for place in range(0, 60, 2):
                began = time.monotonic()
                for place_of_one in place, place + 1:
                    owner.send(submits("b1", moves[place_of_one]))
                    owner.hears(played(place_of_one))
                for guest in guests[0], guests[1], guests[-2], guests[-1]:
                    guest.hears(moved(moves[place], place), moved(moves[place + 1], place + 1))
                took.append(time.monotonic() - began)
            self.assertLess(sorted(took)[24], LOST, took)
            close_all(owner, *guests)

    def test_who_has_just_come_is_heard_at_once(self):
        with Server("--forever") as server:
            owner, guests = owner_of(server), []

            def act(_):
                guests.append(guest_of(server))
                guests[-1].stream.settimeout(SOON)
                guests[-1].stream.sendall(masked(PING, PAYLOAD))
                self.assertEqual(frames_until_pong(guests[-1]), [])

            self.is_told_at_once(act)
            close_all(owner, *guests)

    def test_each_hears_of_its_own_board_and_a_newcomer_of_a_quiet_board_of_all_that_it_asks_for(self):
        """Five boards, of which the loops have the followers in turn."""
        moves = long_game(600)
        boards = [f"b{number}" for number in range(1, 6)]
        with Server("--forever", "--capacity", "1024") as server:
            owners = {board: owner_of(server, board) for board in boards}
            guests = [(board, guest_of(server, board)) for _ in range(3) for board in boards]
            for place in range(3):
                for board in boards:
                    owners[board].asks(submits(board, moves[place]), played(place))
                for board, guest in guests:
                    guest.stream.settimeout(SOON)
                    guest.hears(moved(moves[place], place))
            owners["b2"].send(*(submits("b2", move) for move in moves[3:]))
            owners["b2"].hears(*map(played, range(3, len(moves))))
            # They come in one rush, to a board at which nothing happens any more.
            late = [Connection(server.port) for _ in range(40)]
            for guest in late:
                guest.send(follows("b2", place=0))
            for guest in late:
                guest.stream.settimeout(SOON)
                guest.hears(following(), *(moved(move, place) for place, move in enumerate(moves)))
            for board, guest in guests:
                if board == "b2":
                    guest.hears(*(moved(move, place) for place, move in enumerate(moves) if place > 2))
            close_all(*owners.values(), *(guest for _, guest in guests), *late)

    def test_all_hear_each_move_whoever_comes_and_goes(self):
        moves, chance = list(moves_without_a_draw()), random.Random(32)
        with Server("--forever", "--capacity", "200") as server:
            owner, guests = owner_of(server), [guest_of(server) for _ in range(20)]
            for place, move in enumerate(moves):
                for way in chance.sample(list(GOING.values()), chance.randrange(3)):
                    way(guests.pop(chance.randrange(len(guests))))
                while len(guests) < 20:
                    guests.append(Connection(server.port))
                    guests[-1].send(follows("b1"))
                    self.assertIn(f'"joined":{place}', guests[-1].receive())
                owner.asks(submits("b1", move), played(place))
                for guest in guests:
                    guest.stream.settimeout(SOON)
                    guest.hears(moved(move, place))
            close_all(owner, *guests)

    def test_a_follower_that_goes_is_not_counted_as_one_that_holds_its_key(self):
        """Its key's board would else not be ended when its operator goes."""
        key = "k" * 32
        with Server("--forever", "--grace", "1") as server:
            owner, guest = owner_of(server), guest_of(server, key=key)
            operator = owner_of(server, "b2", key=key)
            guest.stream.sendall(AWAY)
            guest.hears("close 1001")
            guest.close()
            late = guest_of(server, "b2")
            operator.close()
            late.stream.settimeout(1 + SOON)
            late.hears(ABANDONED, "close 1000")
            close_all(owner, late)


class Slow(unittest.TestCase):
    """Who reads late or nothing."""

    def test_output_that_is_not_taken_has_thirty_seconds_and_one_that_takes_it_stays(self):
        """The connection takes some hundreds of moves. The queue has room for all others."""
        moves = long_game(LONG)
        with Server("--forever", "--followers", "1", "--capacity", "1024", "--plies", "1500") as server:
            began = time.monotonic()
            owners = [owner_of(server, board) for board in ("b1", "b2")]
            never, late = (guest_of(server, board, **SLOW) for board in ("b1", "b2"))
            for board, owner in zip(("b1", "b2"), owners):
                for start in range(0, LONG, 100):
                    owner.send(*(submits(board, move) for move in moves[start:start + 100]))
                    owner.hears(*(played(place) for place in range(start, start + 100)))
            time.sleep(1)
            late.stream.settimeout(SOON)
            late.hears(*(moved(move, place) for place, move in enumerate(moves)))
            newcomer, _, _ = seconds_until_followed(server)
            self.assertTrue(29 < time.monotonic() - began < 60 + SOON)
            # By now it has been there for longer than that, too.
            late.stream.settimeout(60 + SOON)
            heard = threading.Thread(target=lambda: texts.append(late.receive()))
            texts = []
            heard.start()  # Pings are answered meanwhile.
            time.sleep(32)
            owners[1].asks(submits("b2", long_game(LONG + 1)[LONG]), played(LONG))
            heard.join()
            self.assertEqual(texts, [moved(long_game(LONG + 1)[LONG], LONG)])
            close_all(*owners, never, late, newcomer)

    def test_those_whose_connections_take_no_more_keep_no_move_from_the_others(self):
        """Pongs nearly fill their connections. So each takes some of the moves, and others than the next one."""
        with Server("--forever", "--capacity", "1024") as server:
            owner = owner_of(server)
            slow = [guest_of(server, **SLOW) for _ in range(6)]
            guests = [guest_of(server) for _ in range(6)]
            for number, guest in enumerate(slow):
                guest.stream.sendall(masked(PING, PAYLOAD) * (200 + 20 * number))
            rests(server)
            for place, move in enumerate(moves_without_a_draw()):
                owner.asks(submits("b1", move), played(place))
                for guest in guests:
                    guest.stream.settimeout(SOON)
                    guest.hears(moved(move, place))
            close_all(owner, *slow, *guests)

    def test_pings_without_end_are_answered_as_the_pongs_are_taken(self):
        """Behind some of them it is not read, in the middle of one and for longer than half a message may take. No frame is broken, and it
        hears of a move that came meanwhile."""
        count = 2000
        with Server("--forever") as server, concurrent.futures.ThreadPoolExecutor(1) as pool:
            owner, guest = owner_of(server), guest_of(server, **SLOW)
            sent = pool.submit(guest.stream.sendall, masked(PING, PAYLOAD) * count)
            time.sleep(12)
            owner.asks(submits("b1", "e2e4"), played(0))
            time.sleep(0.5)
            guest.stream.settimeout(SOON)
            texts = [text for _ in range(count) for text in frames_until_pong(guest)]
            sent.result()
            self.assertEqual(texts, [moved("e2e4", 0)])
            owner.asks(submits("b1", "e7e5"), played(1))
            guest.hears(moved("e7e5", 1))
            close_all(owner, guest)

    def test_one_that_takes_no_pongs_is_not_read_without_end(self):
        """The server would else keep them all. The system's buffers take some millions of bytes of pings, and then no more."""
        pings, sent, began = masked(PING, PAYLOAD) * 100, 0, time.monotonic()
        with Server("--forever") as server:
            owner, guest = owner_of(server), guest_of(server, **SLOW)
            guest.stream.settimeout(3)
            with self.assertRaises(TimeoutError):
                while sent < 200_000_000 and time.monotonic() - began < 25:
                    sent += guest.stream.send(pings)
            close_all(owner, guest)


if __name__ == "__main__":
    unittest.main()
