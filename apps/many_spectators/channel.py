"""A channel of nchan: what it has had, and what is published there."""
import asyncio
import http.client
import json
import threading
import time
import urllib.parse

import websockets

from relay_client.men import men_after, men_of
from relay_client.outcomes import ABANDONED
from relay_client.successors import takes_place

FAULTS = (OSError, asyncio.TimeoutError, websockets.WebSocketException, http.client.HTTPException)


def written(text):
    return json.dumps(text, separators=(",", ":"), sort_keys=True)


class Channel:
    """A channel by its name. Its two kinds keep what its texts say, and have `forget()` and
    `note(text, seconds)` with the time of its publication."""

    def __init__(self, server, name, beat):
        self.server = server
        self.name = name
        self.beat = beat
        self.link = None
        self.asking = threading.Lock()
        self.turn = asyncio.Lock()
        self.is_read = False
        self.published = 0
        self.forget()

    def request(self, method, body=None):
        with self.asking:  # A try that was given up may be on its way.
            if self.link is None:
                self.link = http.client.HTTPConnection(self.server, timeout=10)
            try:
                path = f"/publish/{urllib.parse.quote(self.name)}"
                self.link.request(method, path, body, {"Accept": "application/json", "Content-Type": "text/plain"})
                answer = self.link.getresponse()
                return answer.status, answer.read()
            except (OSError, http.client.HTTPException):
                self.link.close()
                self.link = None
                raise

    async def read(self):
        """Reads what the channel has had, unless that is known."""
        async with self.turn:
            await self.read_once()

    async def read_once(self):
        if not self.is_read:
            await self.read_all()

    async def read_all(self):
        """Reads up to the last text by its number, since nginx may hand out more texts than it says it has."""
        self.forget()
        status, answer = await asyncio.to_thread(self.request, "GET")
        if status not in (200, 404):
            raise http.client.HTTPException(f"the channel answered {status}")
        told = json.loads(answer) if status == 200 else {"messages": 0}
        if told["messages"] > 0:
            address = f"ws://{self.server}/kept/{self.name}"
            async with websockets.connect(address, compression=None, subprotocols=["ws+meta.nchan"]) as socket:
                number = None
                while number != told["last_message_id"]:
                    head, _, text = (await asyncio.wait_for(socket.recv(), 10)).partition("\n\n")
                    number = head.split("\n")[0].removeprefix("id: ")
                    self.note(json.loads(text), int(number.split(":")[0]))
        self.is_read = True

    async def publish(self, message):
        status, _ = await asyncio.to_thread(self.request, "POST", message)
        if status not in (201, 202):
            raise http.client.HTTPException(f"the channel answered {status}")
        self.published = time.monotonic()
        self.note(json.loads(message), time.time())

    async def publish_beat(self):
        await self.publish(written({"reply": "beat", "time": int(time.time())}))

    async def beats(self):
        """Publishes a beat after this many seconds without another text, for ever."""
        while True:
            await asyncio.sleep(max(0, self.published + self.beat - time.monotonic()))
            try:
                async with self.turn:
                    if time.monotonic() >= self.published + self.beat:
                        await self.publish_beat()
            except FAULTS:
                await asyncio.sleep(self.beat)  # The relay's next text reports it.


class BoardChannel(Channel):
    """A board's channel, and the game in its texts: `plies` and `outcome` are also those of a game that is gone. A board may be one of the
    feed's names and a next name of another, so two may use its channel."""

    def forget(self):
        self.origin = None
        self.first = 0
        self.moves = []
        self.plies = 0
        self.outcome = None
        self.heir = None

    @property
    def board(self):
        return self.name

    @property
    def next(self):
        return self.first + len(self.moves)

    def had_game(self):
        return self.origin is not None or self.outcome is not None

    def is_going_on(self):
        return self.origin is not None and self.outcome is None

    async def hear(self, message, text):
        """Publishes a text of the board, if the channel lacks it."""
        async with self.turn:
            await self.read_once()
            if not self.has(text):
                await self.publish(message)
            if text["reply"] == "following":
                await self.publish_beat()

    async def gone(self):
        """The relay does not have the game in the channel: ends it there. What comes next is another game."""
        async with self.turn:
            if self.is_going_on():
                await self.publish(written({"outcome": ABANDONED, "reply": "over"}))
            plies, outcome, heir = self.plies, self.outcome, self.heir
            self.forget()
            self.plies, self.outcome, self.heir = plies, outcome, heir

    async def give_place(self, successor):
        """Publishes that a game of a next name stands for this board, once it takes the place of the game here, or if there was none. One
        that stood for it already goes on by itself."""
        async with self.turn:
            await self.read_once()
            if self.heir is None and not self.is_going_on() and (self.outcome is None or takes_place(successor, self)):
                await self.publish(written({"board": successor.board, "reply": "next"}))

    def note(self, text, _):
        """Takes a text that the channel has."""
        if text["reply"] == "following":
            self.forget()
            self.origin, self.first, self.plies = text["fen"], text["joined"], text["joined"]
        elif text["reply"] == "move":
            del self.moves[max(0, text["place"] - self.first):]
            self.moves.append(text["move"])
            self.plies = self.next
            self.outcome = None
        elif text["reply"] == "over":
            self.outcome = text["outcome"]
        elif text["reply"] == "next":
            self.heir = text["board"]

    def fits(self, text):
        """Whether a board with this position has, as far as it shows, the game in the channel."""
        if text["joined"] == self.first:
            return text["fen"] == self.origin
        return men_of(text["fen"]) == men_after(self.origin, self.moves[:text["joined"] - self.first])

    def has(self, text):
        """Whether the channel needs no such text."""
        if text["reply"] == "following":
            return self.origin is not None and self.first <= text["joined"] <= self.next and self.fits(text)
        if text["reply"] == "move":
            index = text["place"] - self.first
            return index < 0 or self.moves[index:index + 1] == [text["move"]]
        return self.outcome == text["outcome"]
