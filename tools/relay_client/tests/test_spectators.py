"""What those who follow on the main port may rely on: places that come free, pings and closes that are answered, and an end in order."""

import concurrent.futures
import socket
import subprocess
import threading
import time
import unittest

from relay_client.connection import Connection
from relay_client.frames import CLOSE, PING, REQUEST, TEXT, frame, masked
from relay_client.server import Server
from relay_client.tests.sessions import ABANDONED, guest_of, moves_without_a_draw, owner_of, play
from relay_client.tests.test_deadlines import HALVES, seconds_of_half
from relay_client.tests.test_log import Reader
from relay_client.tests.test_watching_loops import SLOW, Stopped, long_game, processor_seconds
from relay_client.texts import CUT, NOT_JSON, following, follows, moved, played, refused, submits

SOON = 10  # Seconds within which what happens at once has happened, on a machine that is busy with proofs too.
FREE = 2 + SOON  # Within which a place is free whose follower has gone.
FULL = refused(11, "TooManyFollowers")
PAYLOAD = bytes(range(125))
FLOODS = 350, 600  # Pings, whose pongs are more than a slow connection takes; and more than the server keeps for one that it hears.
AWAY = masked(CLOSE, b"\x03\xe9")  # What a page sends that is left: 1001.
# How one goes.
GOING = {
    "a close": lambda guest: (guest.stream.sendall(AWAY), guest.close()),
    "the end of its bytes": lambda guest: guest.close(),
    "a reset": lambda guest: guest.reset(),
}


def seconds_until_followed(server, board="b1"):
    """Asks to follow until that is not refused, by one connection that refusals leave as it was; the connection, and how long it took."""
    began, newcomer = time.monotonic(), Connection(server.port)
    while True:
        newcomer.send(follows(board))
        if (answer := newcomer.receive()) != FULL:
            return newcomer, answer, time.monotonic() - began
        if time.monotonic() - began > 120:
            raise AssertionError("no place comes free")
        time.sleep(0.05)


def rests(server):
    """Waits until the server has done what there was to be done."""
    before = None
    while (taken := processor_seconds(server)) != before:
        before = taken
        time.sleep(1)


def close_all(*connections):
    for connection in connections:
        connection.close()


def frames_until_pong(guest):
    """The frames up to a pong, whose payload has to be that of the ping: the texts among them."""
    texts = []
    while True:
        first, length = guest.exactly(2)
        if length == 126:
            length = int.from_bytes(guest.exactly(2), "big")
        payload = guest.exactly(length)
        if first == 0x8A:
            assert payload == PAYLOAD, payload
            return texts
        assert first == TEXT, first
        texts.append(payload.decode())


class Places(unittest.TestCase):
    """Before, nobody read the connection of a follower, and one that had gone kept its place until a write to it failed."""

    def test_a_page_is_reloaded_1000_times_on_a_quiet_board(self):
        """Sixty-four may follow it. Whatever the pages send as they are left, the next one follows."""
        with Server("--forever") as server:
            owner = owner_of(server)
            for number in range(1000):
                guest, answer, _ = seconds_until_followed(server)
                self.assertEqual(answer, following())
                list(GOING.values())[number % 3](guest)
                if number % 50 == 0:
                    owner.asks("[", NOT_JSON)  # So are the pings answered that came meanwhile.
            guest = guest_of(server)
            owner.asks(submits("b1", "e2e4"), played(0))
            guest.hears(moved("e2e4", 0))
            close_all(owner, guest)

    def test_a_place_is_free_within_two_seconds_however_its_follower_goes(self):
        with Server("--forever", "--followers", "1") as server:
            owner, guest = owner_of(server), guest_of(server)
            for way, goes in GOING.items():
                with self.subTest(way):
                    goes(guest)
                    guest, answer, took = seconds_until_followed(server)
                    self.assertEqual(answer, following())
                    self.assertLess(took, FREE)
            close_all(owner, guest)

    def test_a_follower_that_vanished_is_noticed_within_ninety_seconds(self):
        with Server("--forever", "--followers", "1") as server:
            owner, guest = owner_of(server), guest_of(server)
            guest.vanish()
            # It answers pings while it waits: with it the board would go, and its followers.
            waiting = threading.Thread(target=owner.receive)
            waiting.start()
            newcomer, answer, took = seconds_until_followed(server)
            self.assertEqual(answer, following())
            self.assertGreater(took, 80)
            self.assertLess(took, 90 + SOON)
            owner.send(submits("b1", "e2e4"))
            waiting.join()
            newcomer.hears(moved("e2e4", 0))
            close_all(owner, guest, newcomer)

    def test_one_that_reads_nothing_and_was_cut_gives_its_place_back_while_its_texts_are_on_their_way(self):
        """Its connection takes some hundreds of moves. Behind these its queue has room for four."""
        moves = long_game(1400)
        with Server("--forever", "--followers", "1", "--capacity", "4", "--plies", "1500") as server:
            owner, guest = owner_of(server), guest_of(server, room=1024, segment=536)
            for start in range(0, len(moves), 100):
                owner.send(*(submits("b1", move) for move in moves[start:start + 100]))
                owner.hears(*(played(place) for place in range(start, min(start + 100, len(moves)))))
                time.sleep(0.01)
            newcomer, _, took = seconds_until_followed(server)
            self.assertLess(took, FREE)
            texts, received = [], guest.receive()
            while received != CUT:
                texts.append(received)
                received = guest.receive()
            self.assertEqual(texts, [moved(move, place) for place, move in enumerate(moves[:len(texts)])])
            guest.hears("close 4001")
            close_all(owner, guest, newcomer)

    def test_one_whose_connection_takes_nothing_is_cut_all_the_same_and_sent_the_rest_once_it_takes_it(self):
        """Pongs fill its connection before the moves come: the server keeps some, or so many that it hears no more. Once it is cut it says
        that it sends no more, and still is sent all."""
        moves = list(moves_without_a_draw())[:10]
        for flood in FLOODS:
            with self.subTest(flood), Server("--forever", "--followers", "1", "--capacity", "4") as server:
                owner, guest = owner_of(server), guest_of(server, **SLOW)
                guest.stream.sendall(masked(PING, PAYLOAD) * flood)
                rests(server)
                play(owner, moves)
                newcomer, _, took = seconds_until_followed(server)
                self.assertLess(took, FREE)
                guest.stream.shutdown(socket.SHUT_WR)
                time.sleep(0.5)
                guest.stream.settimeout(SOON)
                texts = []
                while (received := guest.receive()) != CUT:
                    texts += [received] if received != "pong" else []
                self.assertEqual(texts, [moved(move, place) for place, move in enumerate(moves[:4])])
                guest.hears("close 4001")
                guest.has_ended()
                close_all(owner, guest, newcomer)


class Frames(unittest.TestCase):
    """Before, a follower's ping and its close had no answer while it followed."""

    def test_a_ping_is_answered_on_a_quiet_board(self):
        with Server("--forever") as server:
            owner, guest = owner_of(server), guest_of(server)
            guest.stream.settimeout(SOON)
            for _ in range(10):
                guest.stream.sendall(masked(PING, PAYLOAD))
                self.assertEqual(frames_until_pong(guest), [])
            close_all(owner, guest)

    def test_pings_are_answered_between_whole_texts_in_a_burst(self):
        moves = list(moves_without_a_draw())
        with Server("--forever", "--capacity", "1024") as server:
            owner, guest = owner_of(server), guest_of(server)
            guest.stream.settimeout(SOON)
            heard = []
            for start in range(0, len(moves), 24):
                owner.send(*(submits("b1", move) for move in moves[start:start + 24]))
                guest.stream.sendall(masked(PING, PAYLOAD))
                heard += frames_until_pong(guest)
            owner.hears(*map(played, range(len(moves))))
            expected = [moved(move, place) for place, move in enumerate(moves)]
            self.assertEqual(heard, expected[:len(heard)])
            guest.hears(*expected[len(heard):])
            close_all(owner, guest)

    def test_a_close_is_answered_with_its_code_and_a_second_one_is_not(self):
        with Server("--forever", "--followers", "1") as server:
            owner = owner_of(server)
            for code in 1000, 1001, 3000:
                guest, _, _ = seconds_until_followed(server)
                guest.stream.settimeout(SOON)
                guest.send(f"close {code}", f"close {code}")
                guest.hears(f"close {code}")
                guest.has_ended()
                guest.close()
            close_all(owner)

    def test_a_broken_frame_is_told_by_its_code(self):
        with Server("--forever") as server:
            owner, guest = owner_of(server), guest_of(server)
            guest.stream.settimeout(SOON)
            guest.stream.sendall(b"\x81\x00")
            guest.hears("close 1002")
            guest.has_ended()
            close_all(owner, guest)

    def test_texts_behind_a_follow_are_not_answered(self):
        with Server("--forever") as server:
            owner, guest = owner_of(server), Connection(server.port)
            # The follow and what stands behind it come in one piece, which the thread has read.
            guest.send(follows("b1"), follows("b2"), submits("b1", "e2e4"), "[")
            guest.stream.sendall(masked(0x82, b"\x01\x02"))
            guest.hears(following())
            guest.stream.sendall(masked(PING, PAYLOAD) + frame("half of it")[:-3])
            self.assertEqual(frames_until_pong(guest), [])
            owner.asks(submits("b1", "d2d4"), played(0))
            guest.hears(moved("d2d4", 0))
            guest.stream.sendall(frame("half of it")[-3:] + masked(PING, PAYLOAD))
            self.assertEqual(frames_until_pong(guest), [])
            close_all(owner, guest)

    def test_what_came_with_the_follow_is_answered(self):
        """All of it comes in one piece, as a client may send it that does not wait for answers."""
        with Server("--forever", "--followers", "1") as server:
            for board, messages in ("b1", 0), ("b2", 5):
                owner = owner_of(server, board)
                behind = masked(TEXT, b"[" * 1000) * messages + masked(PING, PAYLOAD)
                with socket.create_connection(("127.0.0.1", server.port), timeout=SOON) as stream:
                    stream.sendall(REQUEST + frame(follows(board)) + behind + AWAY)
                    told = b""
                    while piece := stream.recv(4096):
                        told += piece
                    self.assertEqual(told.partition(b"\r\n\r\n")[2].partition(b"}")[2], b"\x8a\x7d" + PAYLOAD + b"\x88\x02\x03\xe9")
                newcomer, _, took = seconds_until_followed(server, board)
                self.assertLess(took, FREE)
                close_all(owner, newcomer)

    def test_one_that_sends_messages_without_end_is_closed_and_its_place_is_free(self):
        with Server("--forever", "--followers", "1") as server:
            owner, guest = owner_of(server), guest_of(server)
            guest.stream.settimeout(SOON)
            guest.stream.sendall(masked(TEXT, b"x" * 1000) * 60)
            guest.stream.sendall(masked(PING, PAYLOAD))
            self.assertEqual(frames_until_pong(guest), [])
            guest.stream.sendall(masked(TEXT, b"x" * 1000) * 10)
            guest.hears("close 1008")
            newcomer, answer, took = seconds_until_followed(server)
            self.assertEqual(answer, following())
            self.assertLess(took, FREE)
            close_all(owner, guest, newcomer)

    def test_half_a_message_has_ten_seconds(self):
        with Server("--forever", "--followers", "1") as server:
            owner, guest = owner_of(server), guest_of(server)
            guest.stream.sendall(frame("[")[:-1])
            newcomer, _, took = seconds_until_followed(server)
            self.assertTrue(9 < took < 12 + SOON, took)
            close_all(owner, guest, newcomer)

    def test_half_a_message_has_ten_seconds_in_all_however_it_comes(self):
        with Server("--forever") as server, concurrent.futures.ThreadPoolExecutor(len(HALVES)) as pool:
            owner, guests = owner_of(server), {name: guest_of(server) for name in HALVES}
            for name, took in pool.map(lambda it: (it[0], seconds_of_half(it[0], it[1].stream)), guests.items()):
                with self.subTest(name):
                    self.assertTrue(9 < took < 24, took)
            close_all(owner, *guests.values())

    def test_messages_without_a_pause_between_them_have_no_deadline_together(self):
        """Each piece ends in the middle of a text, for longer than a text may take."""
        with Server("--forever") as server:
            owner, guest, text = owner_of(server), guest_of(server), frame("[")
            guest.stream.settimeout(SOON)
            guest.stream.sendall(text[:1])
            for _ in range(13):
                guest.stream.sendall(text[1:] + text[:1])
                time.sleep(1)
            guest.stream.sendall(text[1:] + masked(PING, PAYLOAD))
            self.assertEqual(frames_until_pong(guest), [])
            close_all(owner, guest)

    def test_nobody_goes_for_what_came_in_time_while_the_server_stood_still(self):
        with Server("--forever") as server:
            owner, guests, text = owner_of(server), [guest_of(server) for _ in range(4)], frame("[")
            for guest in guests:
                guest.stream.sendall(text[:1])
            time.sleep(1)
            with Stopped(server):
                for guest in guests:
                    guest.stream.sendall(text[1:])
                time.sleep(12)
            for guest in guests:
                guest.stream.settimeout(SOON)
                guest.stream.sendall(masked(PING, PAYLOAD))
                self.assertEqual(frames_until_pong(guest), [])
            close_all(owner, *guests)


class Ends(unittest.TestCase):
    def test_a_cut_comes_at_the_move_at_which_the_queue_was_full(self):
        """The server stands still while three moves come, so that nobody takes one between them."""
        moves = ["e2e4", "e7e5", "g1f3"]
        with Server("--forever", "--capacity", "2", "--boards", "20") as server:
            for number in range(20):
                board = f"c{number}"
                owner, guest = owner_of(server, board), guest_of(server, board)
                with Stopped(server):
                    owner.send(*(submits(board, move) for move in moves))
                owner.hears(*map(played, range(3)))
                first, second = guest.receive(), guest.receive()
                self.assertEqual([first, second], [moved(moves[0], 0), moved(moves[1], 1)])
                third = guest.receive()
                # The loop was woken behind the first move, and may have been quicker than the third.
                if third == CUT:
                    guest.hears("close 4001")
                else:
                    self.assertEqual(third, moved(moves[2], 2))
                close_all(owner, guest)

    def test_all_hear_the_end_of_serving(self):
        moves = ["e2e4", "e7e5"]
        with Server("--until-input-ends", "--forever", "--followers", "200", stdin=subprocess.PIPE) as server:
            owner = owner_of(server)
            guests = [guest_of(server) for _ in range(200)]
            texts = play(owner, moves)
            server.process.stdin.close()
            server.process.stdin = None
            began = time.monotonic()
            for guest in guests:
                guest.hears(*texts, ABANDONED, "close 1001")
            self.assertLess(time.monotonic() - began, 5 + SOON)
            close_all(owner, *guests)
            server.has_served(201)

    def test_all_hear_the_end_of_serving_where_no_other_connection_is_left(self):
        """Their board waits for its key. So no thread is waited for but those of the loops."""
        with Server("--until-input-ends", "--forever", "--grace", "600", "--followers", "200", stdin=subprocess.PIPE) as server:
            owner = owner_of(server, key="k" * 32)
            guests = [guest_of(server) for _ in range(200)]
            texts = play(owner, ["e2e4", "e7e5"])
            owner.asks("close 1000", "close 1000")
            owner.close()
            guests[-1].hears(*texts)
            time.sleep(0.5)
            server.process.stdin.close()
            server.process.stdin = None
            guests[-1].hears(ABANDONED, "close 1001")
            for guest in guests[:-1]:
                guest.hears(*texts, ABANDONED, "close 1001")
            close_all(*guests)
            server.has_served(201)

    def test_the_log_counts_those_who_follow_no_more(self):
        with Server("--log", "--forever") as server:
            log, owner = Reader(server), owner_of(server)
            guests = [guest_of(server) for _ in range(6)]
            for number, guest in enumerate(guests):
                list(GOING.values())[number % 3](guest)
            self.assertIn("connections 1, boards 1, ended 0, followers 0, cut off 0", log.reads("connections", 60 + SOON))
            close_all(owner)


if __name__ == "__main__":
    unittest.main()
