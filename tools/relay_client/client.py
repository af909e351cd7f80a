"""An asynchronous client: one command, one answer."""

import asyncio
import json

import websockets

from relay_client.keys import target_of


class Client:
    @classmethod
    async def to(cls, address, key=None):
        """Connects, with a key if one is given. The address ends with its host and port."""
        self = cls()
        self.address = address + target_of(key)
        self.socket = None
        await self.come_back()
        return self

    async def come_back(self):
        """Connects again, with the same key."""
        self.socket = await websockets.connect(self.address, ping_interval=None, compression=None)

    async def ask(self, **command):
        await self.socket.send(json.dumps(command))
        return json.loads(await asyncio.wait_for(self.socket.recv(), 10))

    async def open(self, board, start=518):
        answer = await self.ask(cmd="open", board=board, start=start)
        assert answer == {"reply": "opened"}, answer

    async def submit(self, board, *moves):
        for move in moves:
            answer = await self.ask(cmd="submit", board=board, move=move)
            assert answer["reply"] == "played", (move, answer)

    async def end(self, board, how="agreed", **more):
        """Ends a game; `more` is the side or the result."""
        answer = await self.ask(cmd="end", board=board, how=how, **more)
        assert answer["reply"] == "ended", answer

    async def burst(self, board, moves):
        """Sends many moves before the first answer is read."""
        texts = [json.dumps({"cmd": "submit", "board": board, "move": it}) for it in moves]
        await asyncio.gather(*(self.socket.send(it) for it in texts))
        for _ in texts:
            answer = json.loads(await asyncio.wait_for(self.socket.recv(), 10))
            assert answer["reply"] == "played", answer

    async def close(self):
        await self.socket.close()
