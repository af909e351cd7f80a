"""A wire of TCP between a client and a relay that can be cut and mended, lose what it carries or be held, while the relay goes on."""

import asyncio
import contextlib
import time

from relay_client.connection import stream_to
from relay_client.ports import free_port
from relay_client.program import PATIENCE

UP, DOWN = "up", "down"


class Wire:
    def __init__(self, port, **how):
        """A wire to the relay at this port, whose streams to the relay are made as `how` says."""
        self.goal = port
        self.how = how
        self.port = free_port()
        self.server = None
        self.writers = set()
        self.losses = {}  # By the way, UP to the relay or DOWN to the client: from which word on it loses what it carries.
        self.has_lost = asyncio.Event()

    @property
    def address(self):
        return f"ws://127.0.0.1:{self.port}"

    async def mend(self):
        """A process that another test starts holds the port for a moment longer, until it runs its own program."""
        end = time.monotonic() + PATIENCE
        while True:
            try:
                self.server = await asyncio.start_server(self.carry, "127.0.0.1", self.port)
                return self
            except OSError:
                if time.monotonic() > end:
                    raise
                await asyncio.sleep(0.05)

    async def carry(self, reader, writer):
        try:
            far_reader, far_writer = await asyncio.open_connection(sock=stream_to("127.0.0.1", self.goal, **self.how))
        except OSError:
            writer.close()
            return
        self.writers |= {writer, far_writer}
        await asyncio.gather(self.copy(UP, reader, far_writer), self.copy(DOWN, far_reader, writer))

    async def copy(self, way, reader, writer):
        try:
            while data := await reader.read(65536):
                if way in self.losses and self.losses[way] in data:
                    self.losses[way] = b""
                    self.has_lost.set()
                else:
                    writer.write(data)
                    await writer.drain()
        except OSError:
            pass
        finally:
            writer.close()
            self.writers.discard(writer)

    def lose(self, *ways, word=b""):
        """Loses without a word what comes on these ways, from the piece on that has the word, as a cable that was pulled does."""
        self.has_lost.clear()
        self.losses = dict.fromkeys(ways, word)

    @contextlib.contextmanager
    def held(self):
        """Within this block the connections that there are carry nothing, and nothing of them is lost."""
        transports = [it.transport for it in self.writers]
        for it in transports:
            it.pause_reading()
        try:
            yield
        finally:
            for it in transports:
                it.resume_reading()

    def drop(self):
        """Loses the connections that there are; new ones are carried."""
        self.losses = {}
        for writer in list(self.writers):
            writer.transport.abort()

    async def cut(self):
        """Loses the connections, and carries no new one until it is mended."""
        self.server.close()
        await self.server.wait_closed()
        self.drop()
