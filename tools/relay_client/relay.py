"""A relay beside asynchronous tests, which can be killed and restarted on the same port."""

import asyncio

from relay_client.ports import free_port
from relay_client.server import Server


class Relay:
    """`relay960 serve` with these options, of which one that is true takes no value, and with a watch port if that is wanted; its queues
    hold as many moves as the documents' own commands give them."""

    running = []

    def __init__(self, watch=False, **options):
        self.port = free_port()
        self.watch_port = free_port() if watch else None
        self.options = {"connections": 10000, "capacity": 1024, **options}
        self.server = None

    @property
    def address(self):
        return f"ws://127.0.0.1:{self.port}"

    @property
    def watch_address(self):
        return f"ws://127.0.0.1:{self.watch_port}"

    async def start(self):
        words = [word for name, value in self.options.items() for word in (f"--{name}", str(value))[:1 if value is True else 2]]
        self.server = await asyncio.to_thread(Server, *words, port=self.port, watch=self.watch_port or False)
        Relay.running.append(self)
        return self

    async def kill(self):
        if self.server is not None:
            await asyncio.to_thread(self.server.kill)
            self.server = None

    async def has_served(self, count):
        """Waits for its end: this many connections were served."""
        await asyncio.to_thread(self.server.has_served, count)

    @classmethod
    async def stop_all(cls):
        for relay in cls.running:
            await relay.kill()
        cls.running.clear()
