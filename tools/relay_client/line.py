"""A connection that follows boards, or hears how all boards stand. One on which a board was refused is kept and may be asked again, since
the relay accepts a limited number (--connections); any other is closed when the following has ended, and a new one is made."""

import asyncio
import contextlib
import json

import websockets

# Refusals after which the same question may be answered otherwise.
LATER = ("NoSuchBoard", "TooManyFollowers", "OutOfMemory", "NotYet")


class Refused(Exception):
    """Why a board cannot be followed; `later` if it may be asked for again."""

    def __init__(self, code, name):
        super().__init__(f"refused {code} {name}")
        self.name = name
        self.later = name in LATER


class Line:
    def __init__(self, server):
        self.server = server
        self.socket = None

    async def follow(self, board, hear, place=0):
        """Follows the board from a place on, and awaits `hear` of each message and what it says, until the connection ends. Answers whether
        the game has ended."""
        return await self.keep_where_refused(self.listen(board, place, hear))

    async def position(self, board, place):
        """The position that the relay gives for a place of the board, as a FEN. It takes the connection."""
        return await self.keep_where_refused(self.look(board, place))

    async def boards(self, hear):
        """Asks a watch port for its boards, and awaits `hear` of each message and what it says, until the connection ends."""
        await self.keep_where_refused(self.listen_to_all(hear))

    async def stand(self, board):
        """How a board that is there stands now, as a watch port reports it. It takes the connection."""
        return await self.keep_where_refused(self.look_for(board))

    async def keep_where_refused(self, asking):
        try:
            answer = await asking
        except Refused:
            raise
        except BaseException:
            await self.close()
            raise
        await self.close()
        return answer

    async def ask(self, board, place):
        await self.send({"cmd": "follow", "board": board, "spectator": 0, "from": place})

    async def send(self, command):
        await self.connect()
        await self.socket.send(json.dumps(command))

    async def connect(self):
        """Connects, unless it is connected."""
        if self.socket is None:
            self.socket = await websockets.connect(self.server, ping_interval=None, compression=None, open_timeout=10)

    async def look(self, board, place):
        await self.ask(board, place)
        return self.said(await asyncio.wait_for(self.socket.recv(), 10))["fen"]

    async def listen(self, board, place, hear):
        await self.ask(board, place)
        async for message in self.socket:
            text = self.said(message)
            if text["reply"] == "cut":
                return False
            await hear(message, text)
            if text["reply"] == "over":
                return True
        return False

    async def look_for(self, board):
        await self.send({"cmd": "boards"})
        while True:
            text = self.said(await asyncio.wait_for(self.socket.recv(), 10))
            if text["board"] == board:
                return text

    async def listen_to_all(self, hear):
        await self.send({"cmd": "boards"})
        async for message in self.socket:
            await hear(message, self.said(message))

    def said(self, message):
        """What a message says, if it is no refusal."""
        text = json.loads(message)
        if text["reply"] == "refused":
            raise Refused(text["code"], text["name"])
        return text

    async def close(self):
        """Ends the connection, without a close frame: the relay does not read one of a connection that follows."""
        socket, self.socket = self.socket, None
        if socket is not None:
            socket.transport.close()
            with contextlib.suppress(websockets.ConnectionClosed):
                async for _ in socket:  # What has come already; the connection ends after it.
                    pass
            await socket.wait_closed()
