"""The boards of a round at the relay, all over one connection."""

import asyncio
import time

from link import Link, Lost
from seat import Seat

WAITS = (0.2, 0.5, 1, 2)  # Seconds between two tries to connect; the last goes on.
BESIDE = 16  # Boards that are at work at a time, so that no answer waits behind thousands.


class Desk:
    """`say(want, name, words, is_needed)` tells what is done. `faults` has what is wrong, by the boards."""

    def __init__(self, server, key, say, leaving=()):
        self.link, self.say = Link(server, key), say
        self.leaving = list(leaving)  # Boards whose games are left to other operators.
        self.seats, self.faults, self.places = {}, {}, asyncio.Semaphore(BESIDE)
        self.tried, self.next_try = 0, 0

    def is_due(self):
        """Whether there is something to do before the next reading: the connection is lost, and the grace runs."""
        return not self.link.is_up and time.monotonic() >= self.next_try

    async def connect(self):
        """Connects, if it is not connected and the time has come. What the boards have there has to be found out again."""
        if self.link.is_up:
            return
        if time.monotonic() < self.next_try:
            raise Lost(self.faults.get("relay", "the connection to the relay was lost"))
        try:
            await self.link.open()
        finally:
            self.next_try = time.monotonic() + WAITS[min(self.tried, len(WAITS) - 1)]
            self.tried += 1
        self.tried = 0
        for seat in self.seats.values():
            seat.forget()

    async def settle(self, wants):
        """Does what is to be done for all boards, side by side."""
        try:
            await self.connect()
            await self.leave()
            present = [it for it in wants if not it.is_missing]
            found = await asyncio.gather(*(self.settle_one(it) for it in present), return_exceptions=True)
            for fault in found:
                if isinstance(fault, BaseException):
                    raise fault
        except Lost as fault:
            self.faults = {"relay": str(fault)}
            return
        self.faults = {want.name: fault for want, fault in zip(present, found) if fault}

    async def leave(self):
        while self.leaving:
            if words := await Seat(self.link, self.say).leave(self.leaving[0]):
                print(words, flush=True)
            self.leaving.pop(0)

    async def settle_one(self, want):
        seat = self.seats.setdefault(want.name, Seat(self.link, self.say))
        async with self.places:
            return await seat.settle(want)

    async def close(self):
        await self.link.close()
