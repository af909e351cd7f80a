"""Frames that are broken or cut off, texts that are too long or too deep, and whole sessions."""

import socket
import time
import unittest
from concurrent.futures import ThreadPoolExecutor

from relay_client.connection import Connection
from relay_client.frames import MASK, PING, REQUEST, frame, head, masked, pong
from relay_client.program import PATIENCE
from relay_client.server import Server
from relay_client.tests.sessions import ABANDONED, guest_of, owner_of
from relay_client.tests.test_events import BINARY, FIRST_OF_TEXT, GOES, GONE, LAST, heard, told
from relay_client.tests.test_watching_loops import SLOW
from relay_client.texts import (BAD_FIELD, NOT_JSON, NOT_OBJECT, OPENED, ended, ends, following, follows, moved, opens, over, played,
                                refused, submits, takes)

NO_KIND = b"\x83\x80" + MASK
WRONG_MODE = refused(14, "WrongMode")
AFTER_E4 = "rnbqkbnr/pppppppp/8/8/4P3/8/PPPP1PPP/RNBQKBNR b HAha e3 0 1"
MOST_MESSAGES = 1_000_000
# What peers of one server send, one after another, and what each gets behind the handshake until the connection ends.
ROWS = {
    "no command": (masked(PING, b"") + GOES, b"\x8a\x00" + GONE),
    "a ping, a binary message, texts too long and not, a text in two parts, a command that nobody may make": (
        frame(opens("b1")) + masked(PING, b"here") + masked(BINARY, opens("b1").encode()) + frame(" " * 1025) + frame(" " * 1024)
        + masked(FIRST_OF_TEXT, b'{"cmd":"submit","bo') + masked(LAST, b'ard":"b1","move":"e2e4"}') + frame(takes(1)) + GOES,
        told(OPENED) + b"\x8a\x04here" + told(NOT_JSON) + told(BAD_FIELD) + told(NOT_JSON) + told(played(0)) + told(WRONG_MODE) + GONE),
    "its board is over": (frame(follows("b1", 9)), told(following(1, AFTER_E4)) + told(ABANDONED) + GONE),
    "a binary message at first": (masked(BINARY, opens("b2").encode()) + GOES, told(NOT_JSON) + GONE),
    "an end in the middle of a frame": (frame(opens("b2")) + frame(opens("b2"))[:-9], told(OPENED)),
    "the board that was opened before": (frame(follows("b2", 9)), told(following()) + told(ABANDONED) + GONE),
}


class BrokenFrames(unittest.TestCase):
    def test_a_command_before_a_broken_frame_is_answered_and_the_session_ends_with_1002(self):
        """Before, it ended without a close."""
        with Server("--connections", "2") as server:
            owner = Connection(server.port)
            owner.stream.sendall(frame(opens("b1")) + NO_KIND)
            owner.hears(OPENED, "close 1002")
            owner.has_ended()
            guest = guest_of(server)
            guest.hears(ABANDONED, "close 1000")
            owner.close()
            guest.close()
            server.has_served(2)

    def test_a_move_and_an_end_before_a_broken_frame_are_answered_and_the_peer_is_not_waited_for_once_it_closes(self):
        with Server("--connections", "2") as server:
            owner, guest = owner_of(server), guest_of(server)
            began = time.monotonic()
            owner.stream.sendall(frame(submits("b1", "e2e4")) + frame(ends("b1", "agreed")) + NO_KIND)
            owner.hears(played(0), ended("agreed"), "close 1002")
            owner.has_ended()
            guest.hears(moved("e2e4", 0), over("agreed"), "close 1000")
            guest.close()
            owner.close()
            server.has_served(2)
            self.assertLess(time.monotonic() - began, 9)


class Pings(unittest.TestCase):
    def test_one_that_reads_late_gets_each_pong_in_its_order(self):
        """Behind some of them it is not read until it takes some."""
        pings = [number.to_bytes(125, "big") for number in range(4000)]
        with Server("--connections", "1") as server, ThreadPoolExecutor(1) as pool:
            peer = Connection(server.port, **SLOW)
            sent = pool.submit(peer.stream.sendall, b"".join(masked(PING, payload) for payload in pings))
            time.sleep(1)
            self.assertEqual([peer.exactly(127) for _ in pings], [b"\x8a\x7d" + payload for payload in pings])
            sent.result()
            peer.asks("[]", NOT_OBJECT)
            peer.close()
            server.has_served(1)


class LongTexts(unittest.TestCase):
    def test_a_text_of_65536_bytes_is_refused_and_one_byte_more_ends_the_session(self):
        """It is refused too, and the session ends with 1009, whether the frame says so, before its bytes have come, or a second one makes
        the message that long. Before, the connection ended without an answer and without a close: someone who pasted too much did not learn
        why."""
        with Server("--connections", "4") as server:
            longer = head(0x81, 65537)
            in_two = head(0x01, 65536) + bytes(65536) + head(0x80, 1) + bytes(1)
            for board, message in ("b1", longer), ("b2", in_two):
                owner = owner_of(server, board)
                owner.asks("x" * 65536, BAD_FIELD)
                owner.stream.sendall(message)
                owner.hears(BAD_FIELD, "close 1009")
                owner.has_ended()
                guest = guest_of(server, board)
                guest.hears(ABANDONED, "close 1000")
                owner.close()
                guest.close()
            server.has_served(4)

    def test_the_stack_of_a_session_bears_the_deepest_json(self):
        with Server("--connections", "1") as server:
            peer = Connection(server.port)
            peer.asks("[" * 127 + "]" * 127, NOT_OBJECT)
            peer.asks("[" * 128 + "]" * 128, NOT_JSON)
            peer.asks("[" * 1024, NOT_JSON)
            peer.close()
            server.has_served(1)


class Sessions(unittest.TestCase):
    def test_sessions_end_as_their_bytes_say(self):
        with Server("--connections", str(len(ROWS))) as server:
            for name, (sent, wanted) in ROWS.items():
                with self.subTest(name):
                    peer = Connection(server.port)
                    peer.stream.sendall(sent)
                    if not wanted.endswith(GONE):
                        peer.stream.shutdown(socket.SHUT_WR)
                    self.assertEqual(heard(peer), wanted)
            server.has_served(len(ROWS))

    def test_a_handshake_that_is_cut_off_is_none_and_neither_is_a_command(self):
        """Wherever it is cut off. A request that does not come to its end has no answer."""
        whole = REQUEST + frame(opens("b1"))
        with Server("--connections", str(len(whole) + 1)) as server:
            for until in range(len(whole)):
                with self.subTest(until), socket.create_connection(("127.0.0.1", server.port), timeout=PATIENCE) as peer:
                    peer.sendall(whole[:until])
                    peer.shutdown(socket.SHUT_WR)
                    answer = b""
                    while piece := peer.recv(4096):
                        answer += piece
                    if until < len(REQUEST):
                        self.assertEqual(answer, b"")
                    else:
                        self.assertRegex(answer, rb"\AHTTP/1\.1 101 [^\n]*\n([^\r\n]+\r\n)+\r\n\Z")
            # None of them has opened the board.
            owner_of(server).close()
            server.has_served(len(whole) + 1)

    def test_the_millionth_message_is_the_last(self):
        with Server("--connections", "1") as server:
            peer = Connection(server.port)
            peer.stream.sendall(pong() * (MOST_MESSAGES - 1) + frame(opens("b1")) * 2)
            peer.hears(OPENED, "close 1000")
            peer.has_ended()
            peer.close()
            server.has_served(1)
