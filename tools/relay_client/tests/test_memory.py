"""How much of the server's memory a peer pins."""

import socket
import unittest

from relay_client.connection import Connection
from relay_client.frames import REQUEST
from relay_client.pinning import DEEP_ARRAYS, EVERYTHING, FIELDS_64, resident, senders
from relay_client.program import PATIENCE
from relay_client.server import Server
from relay_client.texts import NOT_OBJECT, UNKNOWN_COMMAND

PEERS, FIRST, MANY = 60, 5, 200
SHORT = "[]"
DEEP_OBJECTS = '{"a":' * 127 + "0" + "}" * 127
MOST = 8  # Kibibytes that a deep text or a long head may pin beside what a short one does.
MOST_IN_ALL = 128  # Kibibytes that a peer may pin.


def asked(server, text, answer, count):
    """This many peers, each of which got an answer to the text and has been silent since."""
    peers = [Connection(server.port) for _ in range(count)]
    for peer in peers:
        peer.asks(text, answer)
    return peers


def shaken(server, request, count):
    """This many peers, each of which was let in with this request and has been silent since."""
    peers = []
    for _ in range(count):
        peer = socket.create_connection(("127.0.0.1", server.port), timeout=PATIENCE)
        peer.sendall(request)
        if not peer.recv(4096).startswith(b"HTTP/1.1 101 "):
            raise AssertionError("not let in")
        peers.append(peer)
    return peers


def pinned(joined, *how, count=PEERS):
    """Kibibytes that a peer of this kind pins. The first peers come before, so that what all share is there."""
    with Server() as server:
        peers = joined(server, *how, FIRST)
        before = resident(server)
        peers += joined(server, *how, count)
        taken = (resident(server) - before) / count
        for peer in peers:
            peer.close()
        return taken


class Memory(unittest.TestCase):
    def test_a_text_that_nests_deep_takes_no_more_of_the_stack_than_a_short_one(self):
        """Before, a peer that had sent 127 nested arrays pinned 173 KiB, and a silent one 46."""
        short = pinned(asked, SHORT, NOT_OBJECT)
        for deep, answer in ((DEEP_ARRAYS, NOT_OBJECT), (DEEP_OBJECTS, UNKNOWN_COMMAND)):
            self.assertLess(pinned(asked, deep, answer), short + MOST, deep[:6])

    def test_a_request_of_64_header_fields_takes_no_more_of_the_stack_than_one_of_5(self):
        """Before, each field more took 1 KiB more."""
        self.assertLess(pinned(shaken, FIELDS_64), pinned(shaken, REQUEST) + MOST)

    def test_a_peer_that_uses_all_that_is_kept_for_it_pins_128_kibibytes_at_most(self):
        """Before, 332 KiB."""
        self.assertLess(pinned(senders, EVERYTHING, count=MANY), MOST_IN_ALL)
