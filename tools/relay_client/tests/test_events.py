"""What whole frames mean, with the examples of RFC 6455, section 5.7, however the bytes are cut; and the bytes of the answers."""

import socket
import struct
import time
import unittest

from relay_client.connection import Connection
from relay_client.frames import CLOSE, PING, PONG, TEXT, masked
from relay_client.tests.sessions import main_port, watch_port
from relay_client.texts import BAD_FIELD, NOT_JSON, NOT_OBJECT, UNKNOWN_COMMAND

FIRST_OF_TEXT, FIRST_OF_BINARY, MIDDLE, LAST, BINARY = 0x01, 0x02, 0x00, 0x80, 0x82
# The mask of the examples, and "Hello" under it.
HELLO = b"\x37\xfa\x21\x3d\x7f\x9f\x4d\x51\x58"
GOES = masked(CLOSE, b"\x03\xe8")
GONE = b"\x88\x02\x03\xe8"


def told(text):
    """The frame of an answer."""
    return bytes([TEXT, len(text)]) + text.encode()


# The payload of a close, and that of its answer. The last is no close.
CLOSES = [
    (b"", b""),
    (b"\x03\xe8", b"\x03\xe8"),
    (b"\x03\xe9bye", b"\x03\xe9"),
    *[(struct.pack(">H", code),) * 2 for code in (1001, 1003, 1007, 1011, 3000, 4001, 4999)],
    (b"\x03", b"\x03\xea"),
]

# A text in three fragments with a ping between them, an empty text, a pong, and a close; a text to which nothing is said; and what is said.
STREAM = b"".join(masked(first, payload) for first, payload in [
    (FIRST_OF_TEXT, b"["), (PING, b"?"), (MIDDLE, b""), (LAST, b"]"), (TEXT, b""), (PONG, b"!"), (CLOSE, b"\x03\xe8")])
LATE = masked(TEXT, b"[]")
SAID = b"\x8a\x01?" + told(NOT_OBJECT) + told(NOT_JSON) + GONE


def heard(peer):
    """All that comes until the connection ends."""
    data = b""
    while piece := peer.stream.recv(65_536):
        data += piece
    peer.close()
    return data


class Events(unittest.TestCase):
    listening = staticmethod(main_port)

    def get(self, *cases):
        """Each of these gets these bytes, and then the end."""
        with self.listening(len(cases)) as port:
            for sent, wanted in cases:
                with self.subTest(sent[:40]):
                    peer = Connection(port)
                    peer.stream.sendall(sent)
                    self.assertEqual(heard(peer), wanted)

    def peer(self, port):
        """One whose pieces are sent as they come."""
        peer = Connection(port)
        peer.stream.setsockopt(socket.IPPROTO_TCP, socket.TCP_NODELAY, 1)
        return peer

    def test_the_examples_of_a_text_and_of_a_ping_and_its_pong(self):
        """The answer to a ping has its bytes, and no mask. A pong has none."""
        self.get((b"\x81\x85" + HELLO + b"\x89\x85" + HELLO + b"\x8a\x85" + HELLO + GOES, told(NOT_JSON) + b"\x8a\x05Hello" + GONE))

    def test_a_ping_may_have_125_bytes_and_none(self):
        self.get((masked(PING, b"p" * 125) + GOES, b"\x8a\x7d" + b"p" * 125 + GONE), (masked(PING, b"") + GOES, b"\x8a\x00" + GONE))

    def test_a_close_is_answered_by_its_code(self):
        self.get(*[(masked(CLOSE, payload), bytes([CLOSE, len(answer)]) + answer) for payload, answer in CLOSES])

    def test_the_longest_message_has_65536_bytes_in_one_frame_and_in_two_with_a_ping_between_them(self):
        half, ping = bytes(32_768), masked(PING, b"p" * 125)
        pong = b"\x8a\x7d" + b"p" * 125
        self.get(*[
            (masked(whole, half + half) + masked(first, half) + ping + masked(LAST, half) + GOES, told(answer) + pong + told(answer) + GONE)
            for whole, first, answer in ((BINARY, FIRST_OF_BINARY, NOT_JSON), (TEXT, FIRST_OF_TEXT, BAD_FIELD))
        ])

    def test_fragments_may_cut_characters(self):
        """Each text is UTF-8, and of the second JSON knows the characters."""
        self.get(
            (masked(FIRST_OF_TEXT, b"\xe2") + masked(MIDDLE, b"\x82") + masked(LAST, b"\xac!") + GOES, told(NOT_JSON) + GONE),
            (masked(FIRST_OF_TEXT, b'{"cmd":"\xe2') + masked(MIDDLE, b"\x82") + masked(LAST, b'\xac"}') + GOES,
             told(UNKNOWN_COMMAND) + GONE),
        )

    def test_a_stream_in_two_pieces_says_the_same_wherever_it_is_cut(self):
        """What comes behind the close comes with its last byte, since the server may end the connection then."""
        with self.listening(len(STREAM)) as port:
            peers = [self.peer(port) for _ in STREAM]
            for at, peer in enumerate(peers):
                peer.stream.sendall(STREAM[:at])
            time.sleep(0.5)
            for at, peer in enumerate(peers):
                peer.stream.sendall(STREAM[at:] + LATE)
            for at, peer in enumerate(peers):
                with self.subTest(at):
                    self.assertEqual(heard(peer), SAID)

    def test_a_stream_byte_by_byte_says_the_same(self):
        with self.listening(1) as port:
            peer = self.peer(port)
            for byte in STREAM[:-1]:
                peer.stream.sendall(bytes([byte]))
                time.sleep(0.01)
            peer.stream.sendall(STREAM[-1:] + LATE)
            self.assertEqual(heard(peer), SAID)


class EventsOfThoseWhoWatch(Events):
    listening = staticmethod(watch_port)
