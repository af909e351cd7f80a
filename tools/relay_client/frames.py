"""What a client sends and receives by RFC 6455: its handshake, and the frames of texts and closes."""

import re
import struct


def request(target="/"):
    """The head of a handshake that asks for this target."""
    return (f"GET {target} HTTP/1.1\r\nHost: a\r\nConnection: upgrade\r\nUpgrade: websocket\r\nSec-WebSocket-Version: 13\r\n"
            "Sec-WebSocket-Key: dGhlIHNhbXBsZSBub25jZQ==\r\n\r\n").encode()


REQUEST = request()
MASK = b"\x11\x22\x33\x44"
TEXT, CLOSE, PING, PONG = 0x81, 0x88, 0x89, 0x8A


def frame(line):
    """The frame of a text, or of `close CODE`."""
    closing = re.fullmatch(r"close (\d+)", line)
    return masked(CLOSE, struct.pack(">H", int(closing[1]))) if closing else masked(TEXT, line.encode())


def masked(first, payload):
    """A client's frame of this first byte."""
    return head(first, len(payload)) + bytes(byte ^ MASK[at % 4] for at, byte in enumerate(payload))


def pong():
    """The frame of a pong without a payload."""
    return masked(PONG, b"")


def head(first, size):
    """The head of a frame of this many bytes."""
    if size < 126:
        length = bytes([0x80 | size])
    else:
        length = b"\xfe" + struct.pack(">H", size) if size < 65536 else b"\xff" + struct.pack(">Q", size)
    return bytes([first]) + length + MASK


def read_frame(read):
    """The server's next text, `close CODE`, `ping` or `pong`. `read` gives that many bytes of the stream."""
    first, length = read(2)
    if length == 126:
        length = struct.unpack(">H", read(2))[0]
    return said(first, read(length))


async def read_frame_of(read):
    """The same over a stream whose bytes are awaited."""
    first, length = await read(2)
    if length == 126:
        length = struct.unpack(">H", await read(2))[0]
    return said(first, await read(length))


def said(first, payload):
    """What a frame of this first byte says."""
    if first == CLOSE:
        return f"close {struct.unpack('>H', payload[:2])[0]}"
    if first in (PING, PONG):
        return "ping" if first == PING else "pong"
    assert first == TEXT, first
    return payload.decode()
