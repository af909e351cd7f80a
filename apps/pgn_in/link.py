"""The connection to the relay: one for all boards, with the key; and others, without it, that look how far a game has come."""

import asyncio
import collections
import contextlib
import json
import re
import urllib.parse

import websockets

from plan import Have
from starts import start_number

PATIENCE = 10  # Seconds for an answer. A cable that was pulled tells nothing.
FAULTS = (OSError, asyncio.TimeoutError, websockets.WebSocketException)
LOOKS = 8  # At a time: each takes a connection.
AT_ONCE = 1  # Seconds: a spectator of a game that is over is told so with the first answer.
KNOCK = "a1b8"
NOBODYS = "-"  # A name that hardly any board has.


class Lost(Exception):
    """There is no connection, in words."""


class Later(Exception):
    """The relay has no room or memory to look at a board now."""


class WatchPort(Exception):
    """The address is that of a relay's watch port, in words."""


def is_address(text):
    """Whether a text can be the address of a relay."""
    try:
        parts = urllib.parse.urlsplit(text)
        is_whole = parts.hostname is not None and parts.port != 0 and (parts.username is None or parts.password is not None)
    except ValueError:  # Of a port, or of brackets.
        return False
    return is_whole and parts.scheme in ("ws", "wss") and not parts.fragment and not re.search(r"\s", text)


def public(words):
    """Words without what is secret in the addresses that they name: a name and password, and the query, where the key is."""
    return re.sub(r"\?\S*", "", re.sub(r"://[^\s/]*@", "://", words))


def with_key(server, key):
    """The address with the key in its query."""
    parts = urllib.parse.urlsplit(server)
    query = "&".join(filter(None, [f"key={key}", parts.query]))
    return urllib.parse.urlunsplit((parts.scheme, parts.netloc, parts.path or "/", query, ""))


async def connect(address):
    try:
        return await websockets.connect(address, ping_interval=None, compression=None, open_timeout=PATIENCE, close_timeout=1)
    except (*FAULTS, ValueError) as fault:
        words = public(str(fault)) or type(fault).__name__
        raise Lost(f"no connection to the relay: {words}") from None  # Without its cause, which may have the key.


class Link:
    """Answers come in the order of the commands."""

    def __init__(self, server, key):
        self.server, self.key = server, key
        self.socket, self.reader, self.turn = None, None, asyncio.Lock()
        self.waiting = collections.deque()
        self.looks = asyncio.Semaphore(LOOKS)

    @property
    def is_up(self):
        return self.socket is not None and not self.reader.done()

    async def open(self):
        await self.close()
        self.socket = await connect(with_key(self.server, self.key))
        self.reader = asyncio.create_task(self.read(self.socket))
        await self.try_port()

    async def try_port(self):
        """Whether it is a main port, on which games are entered: a watch port has one refusal for whatever would enter something."""
        answer = await self.knock(NOBODYS)
        if answer == "WrongMode":
            raise WatchPort(f"{public(self.server)} is a relay's watch port, where games are only watched: give its main port, "
                            "as ws://127.0.0.1:9600")

    async def knock(self, name):
        """The name of the refusal of a move that no man makes. It tells whether the board is there, whose it is, and whether it is over."""
        return (await self.ask(cmd="submit", board=name, move=KNOCK))["name"]

    async def read(self, socket):
        with contextlib.suppress(*FAULTS, ValueError, LookupError):  # The last two where it is no relay.
            async for message in socket:
                answer = self.waiting.popleft()
                if not answer.done():
                    answer.set_result(json.loads(message))
        while self.waiting:
            answer = self.waiting.popleft()
            if not answer.done():
                answer.set_exception(Lost("the connection to the relay was lost"))

    async def close(self):
        """Ends the connection. The boards wait for the key."""
        if self.socket is not None:
            with contextlib.suppress(*FAULTS):
                await self.socket.close()
            await self.reader
            self.socket = self.reader = None

    async def ask(self, **command):
        """The relay's answer."""
        if not self.is_up:
            raise Lost("the connection to the relay was lost")
        answer = asyncio.get_running_loop().create_future()
        try:
            async with self.turn:
                self.waiting.append(answer)
                await self.socket.send(json.dumps(command))
            return await asyncio.wait_for(answer, PATIENCE)
        except FAULTS as fault:
            answer.cancel()
            self.socket.transport.abort()
            raise Lost("the connection to the relay was lost") from fault

    async def ask_all(self, commands, hear):
        """Asks without waiting for the answer before. `hear` gets each command with its answer, up to the first that did not come."""
        answers = await asyncio.gather(*(self.ask(**it) for it in commands), return_exceptions=True)
        for command, answer in zip(commands, answers):
            if isinstance(answer, BaseException):
                raise answer
            hear(command, answer)
        return answers

    async def look(self, name, want, is_over):
        """The game of a board as it stands."""
        async with self.looks:
            joined, fen = await self.measure(name)
            try:
                return await self.follow(name, joined, is_over)
            except IndexError:  # The relay gives no more the first moves: the position must do.
                is_same = joined <= len(want.moves) and want.sheet.position(joined).write() == fen
                return Have(name, want.start, want.moves[:joined] if is_same else ["?"] * joined)

    async def outcome(self, name):
        """How the game of a board has ended; nothing if it goes on."""
        async with self.looks, contextlib.aclosing(self.texts(name)) as texts:
            await anext(texts)
            with contextlib.suppress(asyncio.TimeoutError):
                return (await asyncio.wait_for(anext(texts), AT_ONCE)).get("outcome")
            return None

    async def measure(self, name):
        """How many moves it has, and the position behind them."""
        async with contextlib.aclosing(self.texts(name)) as texts:
            async for text in texts:
                return text["joined"], text["fen"]

    async def follow(self, name, joined, is_over):
        """Its moves from the first, and how it ended if it is over."""
        have = None
        async with contextlib.aclosing(self.texts(name, **{"from": 0})) as texts:
            async for text in texts:
                if text["reply"] == "following":
                    have = Have(name, start_number(text["fen"]))
                elif text["reply"] == "move":
                    have.moves.append(text["move"])
                else:
                    have.outcome = text.get("outcome")
                if have.outcome or len(have.moves) >= joined and not is_over:
                    return have

    async def texts(self, name, **place):
        """What a spectator hears of a board, in a connection without the key."""
        socket = await connect(self.server)
        try:
            await socket.send(json.dumps({"cmd": "follow", "board": name, "spectator": 0, **place}))
            while True:
                text = json.loads(await asyncio.wait_for(socket.recv(), PATIENCE))
                if text["reply"] == "refused":
                    is_late = text["name"] == "TooFarBack"
                    raise IndexError if is_late else Later(f"{name} cannot be looked at: {text['code']} {text['name']}")
                yield text
        except FAULTS as fault:
            raise Lost("the connection to the relay was lost") from fault
        finally:
            socket.transport.abort()
