"""How long the server waits for its peers, and for which it does not wait."""

import concurrent.futures
import socket
import threading
import time
import unittest

from relay_client.connection import Connection
from relay_client.frames import MASK, PING, TEXT, frame, head, pong
from relay_client.program import PATIENCE
from relay_client.server import Server
from relay_client.tests.sessions import ABANDONED, guest_of, owner_of
from relay_client.texts import NOT_JSON, following, follows, moved, played, submits


FIRST_FRAGMENT, FRAGMENT = head(0x01, 1) + MASK[:1], head(0x00, 1) + MASK[:1]
# What comes at first, and then each second.
HALVES = {
    "half a head": (b"\x81", b""),
    "half a frame": (frame("[1,2,3]")[:-1], b""),
    "a frame byte by byte": (head(TEXT, 60_000), b"x"),
    "a first fragment": (FIRST_FRAGMENT, b""),
    "fragment by fragment": (FIRST_FRAGMENT, FRAGMENT),
    "a ping behind each fragment": (FIRST_FRAGMENT, FRAGMENT + head(PING, 0)),
    "many pings in a piece": (FIRST_FRAGMENT, head(PING, 0) * 680),
}


def seconds_until_given_up(stream):
    """Sends a byte each second until nobody takes it: that is after ten seconds, however often one came."""
    began = time.monotonic()
    try:
        while time.monotonic() - began < 25:
            stream.sendall(b"G")
            time.sleep(1)
    except (BrokenPipeError, ConnectionResetError):
        pass
    return time.monotonic() - began


def seconds_of_half(name, stream):
    """Sends a half of a message, and more of it each second, until the connection ends: that is after ten seconds."""
    first, more = HALVES[name]
    began = time.monotonic()
    stream.settimeout(1)
    try:
        stream.sendall(first)
        while time.monotonic() - began < 25:
            try:
                if not stream.recv(4096):
                    break
            except TimeoutError:
                stream.sendall(more)
    except (BrokenPipeError, ConnectionResetError):
        pass
    return time.monotonic() - began


class Deadlines(unittest.TestCase):
    def lasts(self, began, least, most):
        """This many seconds have passed since. Of a vanished one it takes a loop 88.95 at the least, three times 29.65."""
        took = time.monotonic() - began
        self.assertTrue(least < took < most, took)

    def is_given_up(self, stream):
        """It is given up after ten seconds, though it sends a byte each second."""
        took = seconds_until_given_up(stream)
        self.assertTrue(9 < took < 24, took)

    def asks_until_nothing_is_taken(self, owner):
        """Sends faulty texts until the server takes no more, since their answers are not read."""
        owner.stream.settimeout(1)
        began = time.monotonic()
        try:
            while time.monotonic() < began + 180:
                owner.stream.sendall(frame("[") * 1000)
        except TimeoutError:
            pass

    def takes(self, stream, is_over):
        """Takes some of what comes each second, until it is over."""
        while not is_over.wait(1):
            try:
                stream.recv(4096)
            except (TimeoutError, ConnectionResetError):
                pass

    def answers_the_second_ping(self, peer, heard):
        """Leaves a ping unanswered, answers the second, and waits for a third."""
        for _ in range(2):
            heard.append(peer.receive_any())
        peer.stream.sendall(pong())
        heard.append(peer.receive_any())

    def test_what_a_board_is_sent_has_thirty_seconds_in_all_whether_it_takes_none_or_some(self):
        """The board is abandoned. Before, each part that was taken started the thirty seconds again."""
        with Server("--connections", "4") as server:
            silent, slow = (owner_of(server, room=4096, board=board) for board in ("b1", "b2"))
            guests = [guest_of(server, board=board) for board in ("b1", "b2")]
            heard = {}
            # They answer pings while they wait.
            hearing = [threading.Thread(target=lambda it=it: heard.update({it: it.receive()})) for it in guests]
            for it in hearing:
                it.start()
            began, is_over = time.monotonic(), threading.Event()
            for owner in silent, slow:
                self.asks_until_nothing_is_taken(owner)
            taking = threading.Thread(target=self.takes, args=(slow.stream, is_over))
            taking.start()
            try:
                for it in hearing:
                    it.join(PATIENCE)
                self.assertEqual(heard, dict.fromkeys(guests, ABANDONED))
                self.lasts(began, 29, 58)
                for guest in guests:
                    guest.hears("close 1000")
            finally:
                is_over.set()
                taking.join()
            for connection in *guests, silent, slow:
                connection.close()
            server.has_served(4)

    def test_a_peer_without_a_request_and_a_follower_that_never_closes_are_given_up_after_ten_seconds(self):
        with Server("--connections", "3") as server:
            began = time.monotonic()
            silent = socket.create_connection(("127.0.0.1", server.port), timeout=PATIENCE)
            owner, guest = owner_of(server), guest_of(server)
            owner.asks("close 1000", "close 1000")
            owner.close()
            guest.hears(ABANDONED, "close 1000")
            self.assertEqual(silent.recv(1), b"")
            server.has_served(3)
            self.lasts(began, 9, 20)
            silent.close()
            guest.close()

    def test_a_head_that_comes_byte_by_byte_has_ten_seconds_in_all(self):
        with Server("--connections", "1") as server:
            with socket.create_connection(("127.0.0.1", server.port)) as slow:
                self.is_given_up(slow)
            server.has_served(1)

    def test_half_a_message_has_ten_seconds_in_all_however_it_comes(self):
        """Before, each of them was waited for without end."""
        with Server("--connections", str(len(HALVES))) as server, concurrent.futures.ThreadPoolExecutor(len(HALVES)) as pool:
            peers = {name: Connection(server.port) for name in HALVES}
            took = dict(pool.map(lambda it: (it[0], seconds_of_half(it[0], it[1].stream)), peers.items()))
            for name, seconds in took.items():
                with self.subTest(name):
                    self.assertTrue(9 < seconds < 24, seconds)
            for peer in peers.values():
                peer.close()
            server.has_served(len(HALVES))

    def test_messages_without_a_pause_between_them_have_no_deadline_together(self):
        """Each piece ends in the middle of a text, for longer than a text may take."""
        with Server("--connections", "1") as server:
            peer, text = Connection(server.port), frame("[")
            peer.stream.sendall(text[:1])
            for _ in range(12):
                peer.stream.sendall(text[1:] + text[:1])
                peer.hears(NOT_JSON)
                time.sleep(1)
            peer.stream.sendall(text[1:])
            peer.hears(NOT_JSON)
            peer.close()
            server.has_served(1)

    def test_a_follower_that_sends_on_behind_its_close_has_ten_seconds_in_all(self):
        with Server("--connections", "2") as server:
            owner, guest = owner_of(server), guest_of(server)
            owner.close()
            guest.hears(ABANDONED, "close 1000")
            self.is_given_up(guest.stream)
            server.has_served(2)
            guest.close()

    def test_neither_who_plays_nor_who_follows_is_given_up_for_saying_nothing(self):
        with Server("--connections", "2") as server:
            owner, guest = owner_of(server), guest_of(server)
            time.sleep(12)
            owner.asks(submits("b1", "e2e4"), played(0))
            guest.hears(moved("e2e4", 0))
            owner.close()
            guest.hears(ABANDONED, "close 1000")
            guest.close()
            server.has_served(2)

    def test_a_board_is_abandoned_and_a_place_is_free_once_the_server_has_closed(self):
        """It waits for no close of an owner or a follower that stay."""
        with Server("--connections", "3", "--followers", "1") as server:
            owner, guest, next_guest = owner_of(server), guest_of(server), Connection(server.port)
            began = time.monotonic()
            owner.asks("close 1000", "close 1000")
            guest.hears(ABANDONED, "close 1000")
            answer = None
            while answer != following():
                next_guest.send(follows("b1"))
                answer = next_guest.receive()
                self.assertLess(time.monotonic() - began, 9, answer)
            next_guest.hears(ABANDONED, "close 1000")
            for connection in owner, guest, next_guest:
                connection.close()
            server.has_served(3)

    def test_an_operator_that_answers_no_ping_has_gone_after_ninety_seconds_and_one_that_does_stays(self):
        """One that answers the second stays too, and from then on it is waited for as before. Before, none was sent a ping, and a board
        stayed open as long as its operator's connection did."""
        with Server("--connections", "5") as server:
            began, heard = time.monotonic(), {}
            vanished, guest = owner_of(server), guest_of(server)
            present, next_guest = owner_of(server, board="b2"), guest_of(server, board="b2")
            # They answer pings while they wait.
            waiting = [threading.Thread(target=lambda it=it: heard.update({it: it.receive()})) for it in (present, next_guest)]
            late, pings = owner_of(server, board="b3"), []
            waiting.append(threading.Thread(target=self.answers_the_second_ping, args=(late, pings)))
            for it in waiting:
                it.start()
            guest.hears(ABANDONED, "close 1000")
            self.lasts(began, 88, 120)
            self.assertEqual([vanished.receive_any() for _ in range(2)], ["ping", "ping"])
            vanished.has_ended()
            present.send(submits("b2", "e2e4"))
            for it in waiting:
                it.join(PATIENCE)
            self.assertEqual(heard, {present: played(0), next_guest: moved("e2e4", 0)})
            self.assertEqual(pings, ["ping"] * 3)
            late.asks(submits("b3", "e2e4"), played(0))
            present.close()
            next_guest.hears(ABANDONED, "close 1000")
            for connection in vanished, guest, next_guest, late:
                connection.close()
            server.has_served(5)

    def test_an_operator_whose_machine_has_vanished_has_gone_after_ninety_seconds_though_no_move_is_played(self):
        """Nothing is acknowledged any more, and no end of the connection comes. Before, there
        were no pings, and its board was still open after 1,100 seconds."""
        with Server("--connections", "2") as server:
            vanished, guest = owner_of(server), guest_of(server)
            vanished.vanish()
            began = time.monotonic()
            guest.hears(ABANDONED, "close 1000")
            self.lasts(began, 88, 120)
            for connection in vanished, guest:
                connection.close()
            server.has_served(2)
