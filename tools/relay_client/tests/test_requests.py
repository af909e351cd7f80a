"""Requests that are no handshake: each gets the status that RFC 9110, 9112 and 6455 name, and no reset in its place."""

import socket
import unittest

from relay_client.frames import REQUEST
from relay_client.program import PATIENCE
from relay_client.tests.sessions import main_port, watch_port

# The answers, which have no body.
BAD_REQUEST = b"HTTP/1.1 400 Bad Request\r\nConnection: close\r\nContent-Length: 0\r\n\r\n"
NO_GET = b"HTTP/1.1 405 Method Not Allowed\r\nAllow: GET\r\nConnection: close\r\nContent-Length: 0\r\n\r\n"
NO_VERSION = (b"HTTP/1.1 426 Upgrade Required\r\nUpgrade: websocket\r\nConnection: Upgrade, close\r\nSec-WebSocket-Version: 13\r\n"
              b"Content-Length: 0\r\n\r\n")
TOO_LARGE = b"HTTP/1.1 431 Request Header Fields Too Large\r\nConnection: close\r\nContent-Length: 0\r\n\r\n"

LINE, *FIELDS = REQUEST.removesuffix(b"\r\n\r\n").split(b"\r\n")
HOST, CONNECTION, UPGRADE, VERSION, KEY = FIELDS


def request(*fields, line=LINE):
    return b"\r\n".join([line, *fields, b"", b""])


def without(field, *instead):
    """The good request without this field, and with these in its place."""
    return request(*(it for it in FIELDS if it != field), *instead)


# RFC 9112, sections 2.2, 3, 3.2, 5.1; RFC 6455, section 4.2.1.
BAD = {
    "no HTTP": b"hello\r\n\r\n",
    "a plain GET": request(HOST),
    "no Host": without(HOST),
    "two Hosts": without(HOST, HOST, HOST),
    "no key": without(KEY),
    "a key of 4 bytes": without(KEY, b"Sec-WebSocket-Key: AQIDBA=="),
    "no Upgrade": without(UPGRADE),
    "another Upgrade": without(UPGRADE, b"Upgrade: h2c"),
    "Upgrade with websocket as one of two": without(UPGRADE, b"Upgrade: h2c, websocket"),
    "no Connection": without(CONNECTION),
    "Upgrade in the second Connection": without(CONNECTION, b"Connection: keep-alive", CONNECTION),
    "HTTP/1.0": request(*FIELDS, line=b"GET / HTTP/1.0"),
    "HTTP/2.0": request(*FIELDS, line=b"GET / HTTP/2.0"),
    "two spaces before the target": request(*FIELDS, line=b"GET  / HTTP/1.1"),
    "a space before a colon": without(HOST, b"Host : a"),
    "a field without a colon": request(*FIELDS, b"no colon"),
    "an empty line before it": b"\r\n" + REQUEST,
    "a line feed before it": b"\n" + REQUEST,
}
# RFC 6455, section 4.4.
VERSIONS = {
    "no version": without(VERSION),
    "version 12": without(VERSION, b"Sec-WebSocket-Version: 12"),
}
# RFC 9110, section 15.5.6.
METHODS = {method: request(*FIELDS, line=f"{method} / HTTP/1.1".encode()) for method in ("POST", "HEAD", "PUT")}
# RFC 6585, section 5.
LARGE = {
    "a head of 8,193 bytes": without(HOST, HOST, b"A: " + b"x" * (8193 - len(REQUEST) - 5)),
    "a head of 20,000 bytes": request(*FIELDS, b"A: " + b"x" * 20_000),
    "65 fields": request(*FIELDS, *[b"A: b"] * 60),
    "300 fields": request(*FIELDS, *[b"A: b"] * 295),
}


class Requests(unittest.TestCase):
    listening = staticmethod(main_port)

    def get(self, requests, wanted):
        """Each of these requests, with a good one and more after it, gets this answer alone, and then comes the end."""
        with self.listening(len(requests)) as port:
            for name, sent in requests.items():
                with self.subTest(name), socket.create_connection(("127.0.0.1", port), timeout=PATIENCE) as peer:
                    peer.sendall(sent + REQUEST)
                    peer.sendall(b"more" * 1000)
                    answer = b""
                    while piece := peer.recv(4096):
                        answer += piece
                    self.assertEqual(answer, wanted)

    def test_a_broken_request_and_one_for_no_websocket_are_answered_400(self):
        """Before, each was closed without a word, but that one without Host, and one with two, were let in."""
        self.get(BAD, BAD_REQUEST)

    def test_another_version_is_answered_426_and_told_which_is_spoken(self):
        """Before, it was closed without a word."""
        self.get(VERSIONS, NO_VERSION)

    def test_another_method_is_answered_405(self):
        """Before, it was closed without a word."""
        self.get(METHODS, NO_GET)

    def test_a_head_of_more_than_8192_bytes_or_64_fields_is_answered_431(self):
        """Before, a long head was reset, 300 fields were closed without a word, and 65 were let in."""
        self.get(LARGE, TOO_LARGE)


class RequestsOfThoseWhoWatch(Requests):
    listening = staticmethod(watch_port)
