"""A server that says to a page what a test tells it to."""
import asyncio
import json

import websockets

KNOCK = "a1b8"  # What a page asks for to see how a board stands.


class Told:
    """A server that says to the page what a test tells it to, and keeps what the page asks for."""

    async def __aenter__(self):
        self.asked = asyncio.Queue()
        self.wanted, self.opened = None, set()  # The board that the page asked for last, and those that it was given.
        self.socket = None
        self.server = await websockets.serve(self.listen, "127.0.0.1", 0, compression=None, ping_interval=None)
        self.address = f"ws://127.0.0.1:{self.server.sockets[0].getsockname()[1]}"
        return self

    async def listen(self, socket, path):
        self.socket = socket
        try:
            async for text in socket:
                await self.hear(json.loads(text))
        except websockets.ConnectionClosed:
            pass

    async def hear(self, command):
        """Keeps what the page asks for, but for its look at a board and its next names before it opens one: none of them is there."""
        if command["cmd"] == "open":
            self.wanted = command["board"]
        if command.get("move") == KNOCK and command["board"] not in self.opened:
            await self.refuses(1, "NoSuchBoard")
        else:
            self.asked.put_nowait(command)

    async def hears(self, **command):
        """Waits for the page's next command, which has to be this one."""
        heard = await asyncio.wait_for(self.asked.get(), 30)
        assert heard == command, heard

    async def says(self, **text):
        if text["reply"] == "opened":
            self.opened.add(self.wanted)
        await self.says_so(json.dumps(text))

    async def says_so(self, text):
        await self.socket.send(text)

    async def refuses(self, code, name):
        await self.says(code=code, name=name, reply="refused")

    async def plays(self, place, outcome=None):
        await self.says(outcome=outcome, place=place, reply="played")

    async def forgets(self, board):
        """Loses the connection, and no longer has the board when the page comes back."""
        await self.socket.close()
        await self.hears(cmd="submit", board=board, move=KNOCK)
        await self.refuses(1, "NoSuchBoard")

    async def __aexit__(self, *_):
        self.server.close()
        await self.server.wait_closed()


class Channels:
    """A server of channels: each reader gets what its channel has kept, from the oldest text on, and then what is said there."""

    async def __aenter__(self):
        self.kept, self.readers = {}, {}
        self.server = await websockets.serve(self.read, "127.0.0.1", 0, compression=None, ping_interval=None)
        self.address = f"ws://127.0.0.1:{self.server.sockets[0].getsockname()[1]}/sub"
        return self

    async def read(self, socket, path):
        board = path.removeprefix("/sub/")
        for text in self.kept.setdefault(board, []):
            await socket.send(text)
        self.readers.setdefault(board, set()).add(socket)
        await socket.wait_closed()
        self.readers[board].discard(socket)

    async def says(self, board, *texts):
        for text in map(json.dumps, texts):
            self.kept.setdefault(board, []).append(text)
            for socket in self.readers.get(board, ()):
                await socket.send(text)

    async def loses(self, board):
        """Closes the connections of a channel's readers."""
        for socket in list(self.readers.get(board, ())):
            await socket.close()

    async def __aexit__(self, *_):
        self.server.close()
        await self.server.wait_closed()
