"""As much of Debian's python3-websockets as examples/clients/follow.py needs, for machines without it: a client of texts over RFC 6455."""

import asyncio
import urllib.parse

from relay_client.frames import REQUEST, frame, pong, read_frame_of


class WebSocketException(Exception):
    """The connection has ended."""


class connect:
    def __init__(self, address, ping_interval, close_timeout):
        self.goal = urllib.parse.urlsplit(address)

    async def __aenter__(self):
        self.reader, self.writer = await asyncio.open_connection(self.goal.hostname, self.goal.port)
        self.writer.write(REQUEST)
        head = await self.exactly(self.reader.readuntil(b"\r\n\r\n"))
        assert head.startswith(b"HTTP/1.1 101 "), head
        return self

    async def __aexit__(self, *_):
        self.writer.close()

    async def exactly(self, reading):
        try:
            return await reading
        except asyncio.IncompleteReadError as fault:
            raise WebSocketException("the connection ended") from fault

    async def send(self, text):
        self.writer.write(frame(text))
        await self.writer.drain()

    async def recv(self):
        while (text := await read_frame_of(lambda count: self.exactly(self.reader.readexactly(count)))) == "ping":
            self.writer.write(pong())
        if text.startswith("close "):
            raise WebSocketException(text)
        return text
