"""The peers of evening.py: a WebSocket client of asyncio that waits for each text, and those that come beside the games: newcomers, halves
of requests and messages, refused commands, pings, and random bytes. What each has to be told is known beforehand.
"""
import asyncio
import collections
import contextlib
import random
import socket
import struct
import time

from relay_client.frames import PING, PONG, REQUEST, frame, masked, request, said
from relay_client.keys import new_key, target_of
from relay_client.texts import (BAD_FIELD, BOARDS, GAME_OVER, NO_BOARD, NOT_JSON, NOT_OBJECT, OPENED, UNKNOWN_COMMAND, ended, ends,
                                following, follows, moved, opens, over, played, refused, submits, takes)

SOON = 60  # Seconds within which an answer comes, on a busy machine too.
HALF = 10  # Seconds for which the server waits for the rest of a request or a message.
ROOM = 4096  # Bytes that the system keeps for a peer that reads slowly.
# What is answered to the key that all requests have (RFC 6455, 1.3).
ACCEPTED = b"\r\nsec-websocket-accept: s3pplmbitxaq9kygzzhzrbk+xoo="
SHAKEN, ENDED, LOST = "101", "the end", "a reset"
# How a connection is ended, and what comes last on it after that.
CLOSE, END, RESET = "close", "end of bytes", "reset"
LAST = {CLOSE: "close 1000", END: ENDED}
WAYS = CLOSE, END, RESET

ILLEGAL, WRONG_MODE = refused(6, "Illegal"), refused(14, "WrongMode")
GOING, GONE, FULL, NOWHERE = "going", "gone", "full", "nowhere"
# What the operator of two boards is refused, of which the game of one is over: each text and its answer.
REFUSED_TO_AN_OPERATOR = [
    (submits(GOING, "e2e5"), ILLEGAL),
    (submits(GONE, "e2e4"), GAME_OVER),
    (ends(GONE, "agreed"), GAME_OVER),
    (ends(GOING, "threefold", "white"), refused(8, "ClaimRefused")),
    (follows(GOING), WRONG_MODE),
    (opens(GOING), refused(2, "BoardExists")),
    (opens(NOWHERE, 960), refused(3, "BadStart")),
    (submits(NOWHERE, "e2e4"), NO_BOARD),
    (submits(GOING, "e2e9"), BAD_FIELD),
    ("{", NOT_JSON),
]
# And one who has no board.
REFUSED_TO_A_STRANGER = [
    (submits(GOING, "e2e4"), refused(13, "NotYourBoard")),
    (submits(NOWHERE, "e2e4"), NO_BOARD),
    (follows(NOWHERE), NO_BOARD),
    (follows(GOING, place=1), refused(16, "NotYet")),
    (takes(1), WRONG_MODE),
    (BOARDS, UNKNOWN_COMMAND),
    ('{"cmd":"follow"}', BAD_FIELD),
    ("[]", NOT_OBJECT),
    ("", NOT_JSON),
]
REFUSED_WHERE_FULL = [(follows(FULL), refused(11, "TooManyFollowers")), (follows(FULL, place=0), refused(11, "TooManyFollowers"))]
# Half a request, which has no answer, and halves of a frame and of a message, with the request before them.
HALVES = [REQUEST[:40], REQUEST + frame(opens(NOWHERE))[:9], REQUEST + masked(0x01, b"{")]


class Wrong(Exception):
    """Something was not as it should be."""


def whole_frame(data):
    """The first byte and the payload of the frame with which these bytes begin, and how many it takes; nothing if it is not whole yet. No
    text of the server has 65,536 bytes."""
    size, at = data[1] if len(data) > 1 else 0, 2
    if size == 126:
        size, at = int.from_bytes(data[2:4], "big"), 4
    return (data[0], bytes(data[at:at + size]), at + size) if len(data) >= at + size else None


class Peer(asyncio.Protocol):
    """A client that waits for each text. It answers pings at once, whoever waits, until it has ended its bytes. The end of the connection
    is told like a text. A slow one lets the system take no more bytes before the texts that came are read."""

    pings = 0  # How many were answered, by all of them.

    def __init__(self, name, is_slow=False):
        self.name, self.is_slow = name, is_slow
        self.transport = self.waiting = None
        self.is_shaken = self.has_ended = False
        self.come, self.texts = bytearray(), collections.deque()

    def connection_made(self, transport):
        self.transport = transport

    def data_received(self, data):
        self.come += data
        if self.is_shaken or self.shakes():
            self.take_frames()
        if self.is_slow and self.texts:
            self.transport.pause_reading()

    def shakes(self):
        """Whether the answer to the request is there; it is told as a text, 101 if the relay accepted."""
        head, found, rest = self.come.partition(b"\r\n\r\n")
        if found:
            accepted = head.startswith(b"HTTP/1.1 101 ") and ACCEPTED in head.lower()
            self.tell(SHAKEN if accepted else head.decode(errors="replace"))
            self.is_shaken, self.come = True, rest
        return bool(found)

    def take_frames(self):
        while found := whole_frame(self.come):
            first, payload, size = found
            del self.come[:size]
            if first == PING:
                Peer.pings += 1
                if not self.has_ended:
                    self.transport.write(masked(PONG, payload))
            else:
                self.tell(f"pong {payload.hex()}" if first == PONG else said(first, payload))

    def connection_lost(self, error):
        self.tell(LOST if error else ENDED)

    def tell(self, text):
        self.texts.append(text)
        if self.waiting and not self.waiting.done():
            self.waiting.set_result(None)

    def send(self, *lines):
        self.transport.write(b"".join(map(frame, lines)))

    async def something(self, seconds):
        """Waits until a text is there, and for no more than that; whether one is."""
        if not self.texts:
            self.transport.resume_reading()
            self.waiting = asyncio.get_running_loop().create_future()
            with contextlib.suppress(TimeoutError):
                async with asyncio.timeout(seconds):
                    await self.waiting
        return bool(self.texts)

    async def receive(self, seconds=SOON):
        """The next text, close, pong or end."""
        if not await self.something(seconds):
            raise Wrong(f"{self.name}: nothing came for {seconds:.0f} s")
        return self.texts.popleft()

    async def hears(self, *wanted):
        """Receives one of these next; which one it is."""
        text = await self.receive()
        if text not in wanted:
            raise Wrong(f"{self.name}: {' or '.join(wanted)} was due, but {text} came")
        return text

    async def asks(self, line, *wanted):
        self.send(line)
        return await self.hears(*wanted)

    async def rests(self, seconds):
        """For so long nothing may come but pings."""
        if await self.something(seconds):
            raise Wrong(f"{self.name}: nothing was due, but {self.texts[0]} came")

    def begins_to_go(self, way):
        """Ends the connection in this way, as far as it is the peer's turn. It may have ended, where what came last is not read yet."""
        if way == CLOSE:
            self.send("close 1000")
        elif way == END:
            self.has_ended = True
            self.transport.write_eof()
        elif not self.transport.is_closing():
            self.transport.get_extra_info("socket").setsockopt(socket.SOL_SOCKET, socket.SO_LINGER, struct.pack("ii", 1, 0))
            self.transport.abort()

    async def goes(self, way=CLOSE):
        """Ends the connection in this way, where no text is on its way."""
        self.begins_to_go(way)
        if way in LAST:
            await self.hears(LAST[way])
        self.transport.close()


async def connected(port, name, key=None, is_slow=False):
    """A peer that has shaken hands."""
    loop, stream = asyncio.get_running_loop(), socket.socket()
    if is_slow:
        stream.setsockopt(socket.SOL_SOCKET, socket.SO_RCVBUF, ROOM)
    stream.setblocking(False)
    await loop.sock_connect(stream, ("127.0.0.1", port))
    _, peer = await loop.create_connection(lambda: Peer(name, is_slow), sock=stream)
    peer.transport.write(request(target_of(key)))
    await peer.hears(SHAKEN)
    return peer


# ---- Beside the games. Each act is done again and again until the evening is over; a hall has the port, how many
# followers a board may have, what was counted, and whether the evening is over.


async def again_and_again(hall, pace, act, *words):
    """Does this so many times a second, and not while it is still being done."""
    while not hall.is_over:
        await asyncio.sleep(random.uniform(0, 2 / pace))
        await act(hall, *words)


async def comes_and_goes(hall):
    """Shakes hands, and goes in any way."""
    peer = await connected(hall.port, "a newcomer")
    await peer.goes(random.choice(WAYS))
    hall.counts["newcomers"] += 1


async def is_refused(hall, peer, refusals):
    """Sends something that the relay refuses."""
    await peer.asks(*random.choice(refusals))
    hall.counts["refusals"] += 1


async def pings(hall, peer=None):
    """Pings five times, each with something else, on a connection where nothing else comes, or on one of its own."""
    pinging = peer or await connected(hall.port, "who pings")
    for _ in range(5):
        payload = random.randbytes(random.randrange(126))
        pinging.transport.write(masked(PING, payload))
        await pinging.hears(f"pong {payload.hex()}")
        hall.counts["pongs"] += 1
    if not peer:
        await pinging.goes()


async def everything(reader):
    """What comes until the end of the connection, however it ends."""
    come = bytearray()
    with contextlib.suppress(OSError):
        while piece := await reader.read(65536):
            come += piece
    return bytes(come)


async def says_half(hall):
    """Says half of something. It goes soon, or it stays until the server ends the connection in time, without a word."""
    half = random.choice(HALVES)
    began = time.monotonic()
    reader, writer = await asyncio.open_connection("127.0.0.1", hall.port)
    writer.write(half)
    if random.random() < 0.5:
        await asyncio.sleep(random.uniform(0, 2))
    else:
        try:
            async with asyncio.timeout(HALF + SOON):
                come = await everything(reader)
        except TimeoutError:
            raise Wrong(f"half of something was waited for longer than {HALF + SOON} s") from None
        took = time.monotonic() - began
        head, _, rest = come.partition(b"\r\n\r\n")
        is_right = head.startswith(b"HTTP/1.1 101 ") if half.startswith(REQUEST) else not head
        if not is_right or rest or took < HALF - 0.5:
            raise Wrong(f"half of something, {half!r}, was answered {come!r} and ended after {took:.1f} s")
    writer.transport.abort()
    hall.counts["halves"] += 1


async def says_anything(hall):
    """Random bytes, with a request before them and without. The answer may be anything."""
    reader, writer = await asyncio.open_connection("127.0.0.1", hall.port)
    writer.write(random.choice([b"", REQUEST]) + random.randbytes(random.randrange(1, 5000)))
    with contextlib.suppress(TimeoutError):
        async with asyncio.timeout(HALF + 2):
            await everything(reader)
    writer.transport.abort()
    hall.counts["random"] += 1


async def operator_of(hall, *boards):
    peer = await connected(hall.port, f"the operator of {' and '.join(boards)}")
    for board in boards:
        await peer.asks(opens(board), OPENED)
    return peer


async def a_full_board(hall):
    """The operator of the full board, and its followers: they are as many as there may be, and are told nothing all evening."""
    operator, crowd = await operator_of(hall, FULL), []
    for _ in range(hall.places):
        crowd.append(await connected(hall.port, "a follower of the full board"))
        await crowd[-1].asks(follows(FULL), following())
    return operator, crowd


async def ends_full_board(operator, crowd):
    await operator.asks(ends(FULL, "agreed"), ended("agreed"))
    for peer in crowd:
        await peer.hears(over("agreed"))
        await peer.hears(LAST[CLOSE])
        peer.transport.close()
    await operator.goes()


async def is_as_usual(hall, board):
    """One comes with a key, opens a board and plays; another follows it."""
    operator = await connected(hall.port, f"the operator of {board}", new_key())
    guest = await connected(hall.port, f"a follower of {board}")
    await operator.asks(opens(board), OPENED)
    await guest.asks(follows(board, place=0), following())
    await operator.asks(submits(board, "e2e4"), played(0))
    await guest.hears(moved("e2e4", 0))
    await operator.asks(ends(board, "agreed"), ended("agreed"))
    await guest.hears(over("agreed"))
    await guest.hears(LAST[CLOSE])
    guest.transport.close()
    await operator.goes()


async def beside(hall, crowd):
    """Those who come beside the games, as coroutines that end with the evening; and those of them that stay."""
    operator, stranger = await operator_of(hall, GOING, GONE), await connected(hall.port, "a stranger")
    await operator.asks(ends(GONE, "agreed"), ended("agreed"))
    asker = await connected(hall.port, "one too many")
    acts = [
        *[(1, says_half)] * 12,
        *[(1, says_anything)] * 6,
        (6, comes_and_goes),
        (1, pings),
        (1, pings, crowd[0]),
        (5, is_refused, operator, REFUSED_TO_AN_OPERATOR),
        (5, is_refused, stranger, REFUSED_TO_A_STRANGER),
        (3, is_refused, asker, REFUSED_WHERE_FULL),
    ]
    return [again_and_again(hall, *act) for act in acts], [operator, stranger, asker]
