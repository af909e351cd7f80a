"""Peers that make the server keep memory for them: they send and never read."""

import pathlib
import re
import socket
import time

from .frames import MASK, REQUEST, TEXT, frame, head
from .program import PATIENCE

FIRST_PART, LAST_PART = 0x01, 0x80
FIELDS_64 = REQUEST[:-2] + b"A: b\r\n" * 59 + b"\r\n"
SHORT_TEXTS = frame("[]") * 600
DEEP_ARRAYS = "[" * 127 + "]" * 127


def spaces(first, size, missing=0):
    """The frame of so many spaces, without the last ones if some are missing."""
    return head(first, size) + bytes(32 ^ MASK[at % 4] for at in range(size - missing))


HALF_A_MESSAGE = spaces(FIRST_PART, 60_000) + spaces(LAST_PART, 5_000, missing=1)
# The request, many answers, a deep text and half a message: all that the server has room for.
EVERYTHING = FIELDS_64 + SHORT_TEXTS + frame(DEEP_ARRAYS) + HALF_A_MESSAGE
HALF_A_FRAME = REQUEST + spaces(TEXT, 65_000, missing=1)


def resident(server):
    """What the server has in memory, in kibibytes."""
    rollup = pathlib.Path(f"/proc/{server.process.pid}/smaps_rollup").read_text()
    return int(re.search(r"^Rss:\s+(\d+) kB$", rollup, re.M)[1])


def senders(server, sent, count):
    """So many peers, each of which has sent this, once the server's memory has been the same for a second."""
    peers = [socket.create_connection(("127.0.0.1", server.port), timeout=PATIENCE) for _ in range(count)]
    for peer in peers:
        peer.sendall(sent)
    before = None
    while (now := resident(server)) != before:
        before = now
        time.sleep(1)
    return peers
