"""Heads of requests: their size, their header fields, and lines before them."""

import signal
import socket
import time
import unittest

from relay_client.frames import PING, REQUEST, masked
from relay_client.program import PATIENCE
from relay_client.server import Server
from relay_client.tests.test_events import GOES, GONE
from relay_client.tests.test_requests import TOO_LARGE

# RFC 6455, section 1.3, has the key of the request and its answer.
ACCEPTED = (b"HTTP/1.1 101 Switching Protocols\r\nconnection: Upgrade\r\nupgrade: websocket\r\n"
            b"sec-websocket-accept: s3pPLMBiTxaQ9kYGzzhZRbK+xOo=\r\n\r\n")

# How many bytes at each end of a head come one after another.
BYTE_BY_BYTE = 100


def all_that_comes(peer):
    """What a peer receives until the connection ends."""
    told = b""
    while piece := peer.recv(4096):
        told += piece
    return told


class Heads(unittest.TestCase):
    def is_answered(self, peer, status):
        """The peer gets the beginning of an answer with this status."""
        self.assertEqual(peer.recv(13), f"HTTP/1.1 {status} ".encode())

    def test_a_head_in_pieces_may_have_8192_bytes_and_not_8250(self):
        """Its first piece has 100 bytes, and not those that are read at a time. Before, the longer one was closed without a word."""
        with Server("--connections", "2") as server:
            for size, status in (8192, 101), (8250, 431):
                with socket.create_connection(("127.0.0.1", server.port), timeout=9) as peer:
                    request = REQUEST[:-2] + b"A: " + b"x" * (size - len(REQUEST) - 5) + b"\r\n\r\n"
                    self.assertEqual(len(request), size)
                    peer.sendall(request[:100])
                    time.sleep(0.2)
                    peer.sendall(request[100:])
                    self.is_answered(peer, status)
            server.has_served(2)

    def test_a_head_whose_ends_come_byte_by_byte_may_have_8192_bytes_and_not_8193(self):
        """What is between comes at once: 8,192 calls beside all other tests may take longer than a head may."""
        with Server("--connections", "2") as server:
            for size, status in (8192, 101), (8193, 431):
                with socket.create_connection(("127.0.0.1", server.port), timeout=PATIENCE) as peer:
                    peer.setsockopt(socket.IPPROTO_TCP, socket.TCP_NODELAY, 1)
                    request = REQUEST[:-2] + b"A: " + b"x" * (size - len(REQUEST) - 5) + b"\r\n\r\n"
                    self.assertEqual(len(request), size)
                    for byte in request[:BYTE_BY_BYTE]:
                        peer.sendall(bytes([byte]))
                    peer.sendall(request[BYTE_BY_BYTE:-BYTE_BY_BYTE])
                    for byte in request[-BYTE_BY_BYTE:]:
                        peer.sendall(bytes([byte]))
                    self.is_answered(peer, status)
            server.has_served(2)

    def test_a_head_without_an_end_is_refused_at_8192_bytes_and_waited_for_before(self):
        """One that ends before that has no answer."""
        with Server("--connections", "2") as server:
            for size, wanted in (8191, b""), (8192, TOO_LARGE):
                with self.subTest(size), socket.create_connection(("127.0.0.1", server.port), timeout=PATIENCE) as peer:
                    peer.sendall(b"a" * size)
                    if not wanted:
                        peer.shutdown(socket.SHUT_WR)
                    self.assertEqual(all_that_comes(peer), wanted)
            server.has_served(2)

    def test_a_request_and_a_ping_behind_it_are_answered_wherever_they_are_cut(self):
        sent = REQUEST + masked(PING, b"hm") + GOES
        with Server("--connections", str(len(sent))) as server:
            peers = [socket.create_connection(("127.0.0.1", server.port), timeout=PATIENCE) for _ in sent]
            for at, peer in enumerate(peers):
                peer.setsockopt(socket.IPPROTO_TCP, socket.TCP_NODELAY, 1)
                peer.sendall(sent[:at])
            time.sleep(0.5)
            for at, peer in enumerate(peers):
                peer.sendall(sent[at:])
            for at, peer in enumerate(peers):
                with self.subTest(at), peer:
                    self.assertEqual(all_that_comes(peer), ACCEPTED + b"\x8a\x02hm" + GONE)
            server.has_served(len(sent))

    def test_a_request_may_have_64_header_fields_and_not_65(self):
        """Each takes room on its session's stack. Before, 65 were let in."""
        with Server("--connections", "2") as server:
            for extra, status in (59, 101), (60, 431):
                with socket.create_connection(("127.0.0.1", server.port), timeout=PATIENCE) as peer:
                    peer.sendall(REQUEST[:-2] + b"A: b\r\n" * extra + b"\r\n")
                    self.is_answered(peer, status)
            server.has_served(2)

    def test_a_head_that_begins_with_an_empty_line_is_none(self):
        """It is answered at once, and nothing after it is waited for. Before, it was closed without an answer."""
        with Server("--connections", "2") as server:
            for before in (b"\r\n\r\n", b"\n"):
                with socket.create_connection(("127.0.0.1", server.port), timeout=9) as peer:
                    peer.sendall(before + REQUEST)
                    self.is_answered(peer, 400)
            server.has_served(2)

    def test_a_server_that_is_stopped_and_goes_on_still_answers_who_had_not_sent_its_head(self):
        """Its read is interrupted, and made again."""
        with Server("--connections", "1") as server:
            with socket.create_connection(("127.0.0.1", server.port), timeout=PATIENCE) as peer:
                time.sleep(0.2)
                for number in signal.SIGSTOP, signal.SIGCONT:
                    server.process.send_signal(number)
                    time.sleep(0.2)
                peer.sendall(REQUEST)
                self.is_answered(peer, 101)
            server.has_served(1)
