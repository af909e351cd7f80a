"""Peers that break the protocol: each gets the close code that RFC 6455 names for what it did, and no reset in its place."""

import contextlib
import socket
import struct
import time
import unittest

from relay_client.connection import Connection
from relay_client.frames import CLOSE, MASK, PING, PONG, TEXT, head, masked
from relay_client.server import Server
from relay_client.tests.sessions import main_port, owner_of, watch_port
from relay_client.texts import BAD_FIELD, NOT_JSON, following, follows

BINARY = 0x82
FIRST_OF_TEXT, FIRST_OF_BINARY, MIDDLE, LAST = 0x01, 0x02, 0x00, 0x80
FINAL = 0x80

# Section 7.4.1.
PROTOCOL, NOT_UTF8, TOO_BIG = "close 1002", "close 1007", "close 1009"

# Section 8.1 and RFC 3629: a byte that no character has, an overlong form, a surrogate, beyond the last character, cut short.
NO_TEXTS = b"a\xff", b"\xc0\xaf", b"\xed\xa0\x80", b"\xf4\x90\x80\x80", b"a\xe2\x82"


def code(number, reason=b""):
    """A close with this code."""
    return masked(CLOSE, struct.pack(">H", number) + reason)


UNMASKED = {
    "an unmasked text (5.1)": b"\x81\x02[]",
    "an unmasked ping (5.1)": b"\x89\x00",
    "an unmasked close (5.1)": b"\x88\x02\x03\xe8",
}

HEADS = {
    **{f"reserved bit {bit:#x} (5.2)": masked(TEXT | bit, b"[]") for bit in (0x40, 0x20, 0x10)},
    **{f"opcode {opcode} (5.2)": masked(FINAL | opcode, b"[]") for opcode in (3, 4, 5, 6, 7, 11, 12, 13, 14, 15)},
    "a length with its top bit set (5.2)": b"\x82\xff" + struct.pack(">Q", 1 << 63) + MASK,
    "a length in two bytes that fits one (5.2)": b"\x82\xfe\x00\x7d" + MASK,
    "a length in eight bytes that fits two (5.2)": b"\x82\xff" + struct.pack(">Q", 65535) + MASK,
}

CONTROLS = {
    **{f"control frame {first:#x} in fragments (5.5)": masked(first ^ FINAL, b"") for first in (PING, PONG, CLOSE)},
    **{f"control frame {first:#x} of 126 bytes (5.5)": masked(first, bytes(126)) for first in (PING, PONG, CLOSE)},
    "a close of one byte (5.5.1)": masked(CLOSE, b"\x03"),
    **{f"a close with code {number} (7.4)": code(number) for number in (0, 999, 1004, 1005, 1006, 1014, 1015, 1016, 2999, 5000, 65535)},
}

PLACES = {
    "the last fragment of nothing (5.4)": masked(LAST, b"[]"),
    "a fragment of nothing (5.4)": masked(MIDDLE, b"[]"),
    "a text within a text (5.4)": masked(FIRST_OF_TEXT, b"[") + masked(TEXT, b"]"),
    "a binary message within a text (5.4)": masked(FIRST_OF_TEXT, b"[") + masked(BINARY, b"]"),
    "a first fragment within a text (5.4)": masked(FIRST_OF_TEXT, b"[") + masked(FIRST_OF_TEXT, b"]"),
    "a first fragment of a binary message within a text (5.4)": masked(FIRST_OF_TEXT, b"[") + masked(FIRST_OF_BINARY, b"]"),
    "a first fragment within a binary message (5.4)": masked(FIRST_OF_BINARY, b"[") + masked(FIRST_OF_TEXT, b"]"),
}

TEXTS = {
    **{f"a text of {text} (8.1)": masked(TEXT, text) for text in NO_TEXTS},
    **{f"a text of {text} in fragments (8.1)": masked(FIRST_OF_TEXT, text[:1]) + masked(LAST, text[1:]) for text in NO_TEXTS},
    **{f"a text of a and {text} in fragments (8.1)": masked(FIRST_OF_TEXT, b"a") + masked(LAST, text) for text in NO_TEXTS},
    **{f"a close with the reason {text} (8.1)": code(1000, text) for text in NO_TEXTS},
}

LONG = {
    **{f"a text of {size} bytes": masked(TEXT, bytes(size)) for size in (65_537, 100_000, 1_000_000)},
    "a text of 100,000 bytes in two fragments": masked(FIRST_OF_TEXT, bytes(50_000)) + masked(LAST, bytes(50_000)),
    **{f"a last fragment of {size} bytes behind 32,768": masked(FIRST_OF_TEXT, bytes(32_768)) + head(LAST, size)
       for size in (32_769, 50_000)},
}

# Each is told once the head is there.
LONG_HEADS = {
    f"the head of a {kind} of {size} bytes": head(first, size)
    for kind, first in (("text", TEXT), ("fragment", FIRST_OF_BINARY)) for size in (65_537, 100_000, 1_000_000, 1 << 40)
}

FRAGMENTS = {
    "1,025 empty fragments": masked(FIRST_OF_TEXT, b"") + masked(MIDDLE, b"") * 1023 + masked(LAST, b""),
    "1,025 fragments of a byte": masked(FIRST_OF_TEXT, b"[") + masked(MIDDLE, b"]") * 1024,
}

# The bytes of a breach that are sent in pieces; its rest, if there is one, is sent at once.
IN_PIECES = 24


def pieces(sent, size):
    """A breach in pieces, and a text behind it."""
    first = sent[:IN_PIECES]
    return [first[at:at + size] for at in range(0, len(first), size)] + [sent[IN_PIECES:] + masked(TEXT, b"[]")]


class Breaches(unittest.TestCase):
    listening = staticmethod(main_port)

    def get(self, breaches, *told):
        """Each of these breaches gets these lines and then the end, after an answer to what was sent before it."""
        with self.listening(len(breaches)) as port:
            for name, sent in breaches.items():
                with self.subTest(name):
                    peer = Connection(port)
                    peer.send("[")
                    peer.stream.sendall(sent)
                    self.assertEqual([peer.receive_any() for _ in range(1 + len(told))], [NOT_JSON, *told])
                    peer.has_ended()
                    peer.close()

    def test_frames_that_break_the_protocol_are_told_1002(self):
        """Before, the connection ended without a close. Only closes with a bad code got 1002."""
        self.get({**UNMASKED, **HEADS, **CONTROLS, **PLACES}, PROTOCOL)

    def test_texts_and_reasons_that_are_no_utf8_are_told_1007(self):
        """Before, the connection ended without a close."""
        self.get(TEXTS, NOT_UTF8)

    def test_a_text_of_more_than_65536_bytes_is_answered_24_and_told_1009(self):
        """Before, the connection was reset, or ended without an answer and without a close."""
        self.get({**LONG, **LONG_HEADS}, BAD_FIELD, TOO_BIG)

    def test_a_message_of_more_than_1024_fragments_is_told_1009(self):
        """Before, empty fragments were taken without end, and others up to the bytes that a text may have."""
        self.get(FRAGMENTS, TOO_BIG)

    def test_a_message_of_1024_fragments_is_answered(self):
        with self.listening(1) as port:
            peer = Connection(port)
            peer.stream.sendall(masked(FIRST_OF_TEXT, b"") + masked(MIDDLE, b"") * 1022 + masked(LAST, b"["))
            peer.hears(NOT_JSON)
            peer.close()

    def test_a_breach_in_pieces_is_told_as_at_once_and_a_text_behind_it_is_not_answered(self):
        breaches = [
            *[(name, sent, [PROTOCOL]) for name, sent in {**UNMASKED, **HEADS, **CONTROLS, **PLACES}.items()],
            *[(name, sent, [NOT_UTF8]) for name, sent in TEXTS.items()],
            *[(name, sent, [BAD_FIELD, TOO_BIG]) for name, sent in LONG_HEADS.items()],
        ]
        for size in 1, 2, 7:
            with self.listening(len(breaches)) as port:
                peers = [Connection(port) for _ in breaches]
                for peer in peers:
                    peer.stream.setsockopt(socket.IPPROTO_TCP, socket.TCP_NODELAY, 1)
                    peer.send("[")
                sends = [pieces(sent, size) for _, sent, _ in breaches]
                for at in range(max(map(len, sends))):
                    for peer, parts in zip(peers, sends):
                        peer.stream.sendall(b"".join(parts[at:at + 1]))
                    time.sleep(0.01)
                for peer, (name, _, told) in zip(peers, breaches):
                    with self.subTest(name, size=size):
                        self.assertEqual([peer.receive_any() for _ in range(1 + len(told))], [NOT_JSON, *told])
                        peer.has_ended()
                        peer.close()

    def test_a_peer_that_sends_on_behind_its_breach_still_reads_why(self):
        """What still comes is read and dropped: a reset would take the close away. Before, there was no close, and a reset."""
        with self.listening(1) as port:
            peer = Connection(port)
            peer.stream.sendall(b"\x83\x80" + MASK)
            for _ in range(100):
                peer.stream.sendall(masked(TEXT, b"[" * 10_000))
            peer.hears(PROTOCOL)
            peer.has_ended()
            peer.close()


class BreachesOfThoseWhoWatch(Breaches):
    listening = staticmethod(watch_port)


class BreachesBehindAFollow(unittest.TestCase):
    def test_a_message_that_is_too_long_is_told_1009_and_on_the_watch_port_24_before(self):
        with Server("--forever", watch=True) as server, contextlib.closing(owner_of(server)):
            for port, told in (server.port, [TOO_BIG]), (server.watch_port, [BAD_FIELD, TOO_BIG]):
                for name, sent in {**LONG, **LONG_HEADS}.items():
                    with self.subTest(name, told=told), contextlib.closing(Connection(port)) as peer:
                        peer.asks(follows("b1"), following())
                        peer.stream.sendall(sent)
                        self.assertEqual([peer.receive_any() for _ in told], told)
                        peer.has_ended()
