"""The feed of all boards that the relay's watch port reports."""
import asyncio
import sys
import weakref

from channel import FAULTS, BoardChannel
from follower import Follower
from list_channel import NAME, ListChannel
from relay_client.line import Line, Refused
from relay_client.names import first_name
from relay_client.successors import Standing, names_before, standing


class Teller:
    """Says on standard error what a board or the list waits for, once and when it changes."""

    def __init__(self, name):
        self.name, self.told = name, None

    def say(self, words):
        if words != self.told:
            print(f"{self.name}: {words}", file=sys.stderr, flush=True)
        self.told = words


def named(fault):
    return f"{type(fault).__name__} {fault}"


class Told(Follower):
    """A board that the relay reported, until its game is over or the relay no longer has it."""

    def __init__(self, every, board):
        super().__init__(every.given.watch)
        self.every = every
        self.channel = every.channel(board)
        self.again = True  # It was reported on a new connection since the last following began.
        self.teller = Teller(board)

    async def grown(self, channel):
        self.teller.told = None
        await self.every.tell_names_before(channel)

    async def feed(self):
        try:
            while self.again:
                self.again = False
                await self.follow_to_end()
        finally:
            del self.every.fed[self.channel.name]  # Nothing is awaited between the last test and this, so no report is missed.
            await self.line.close()

    async def follow_to_end(self):
        while True:
            try:
                if await self.follow():
                    return
                self.teller.say("the connection ended")
            except Refused as fault:
                self.teller.say(str(fault))
                if not fault.later:
                    return
            except FAULTS as fault:
                self.teller.say(named(fault))
            self.channel.is_read = False  # The relay or the channels may have been restarted.
            await asyncio.sleep(self.every.given.wait)

    async def follow(self):
        """Follows until the connection ends, and answers whether the game is over or gone."""
        known = self.every.list.told.get(self.channel.name)
        try:
            await self.compare_ends(known)
            await self.compare(self.channel)
            outcome = await self.fill(self.channel)
        except Refused as fault:
            if fault.name != "NoSuchBoard":
                raise
            return await self.gone(known)
        if outcome is not None:
            await self.every.tell_successor(self.channel)
        return outcome is not None

    async def compare_ends(self, known):
        """A board that goes on under the name of a game that is over has another game, though it may have the same moves. What the relay
        reported may have been reported before the end."""
        await self.channel.read()
        has_ended = self.channel.origin is not None and self.channel.outcome is not None
        if has_ended and known is not None and known["outcome"] is None:
            if (await self.line.stand(self.channel.name))["outcome"] is None:
                await self.channel.gone()

    async def gone(self, known):
        """The relay has not the board: ends its game in its channel and in the list."""
        await self.channel.read()
        await self.channel.gone()
        if not await self.every.list.gone(self.channel.name, known):
            return False
        if self.channel.had_game():
            await self.every.tell_successor(self.channel)
        return True


class Every:
    """The list of the relay's boards, and a task for each board until its game is over."""

    def __init__(self, given):
        self.given = given
        self.line = Line(given.watch)
        self.list = ListChannel(given.channels, given.beat, given.repeat)
        self.fed = {}  # The boards that are followed, each with its task.
        self.channels = weakref.WeakValueDictionary()  # As long as somebody uses them.
        self.teller = Teller(NAME)
        self.tasks = None

    def channel(self, board):
        """The channel of a board, the same for all who use it."""
        it = self.channels.get(board) or BoardChannel(self.given.channels, board, self.given.beat)
        self.channels[board] = it
        return it

    async def for_ever(self):
        """Answers only where what listens there is no watch port."""
        async with asyncio.TaskGroup() as self.tasks:
            repeats = self.tasks.create_task(self.list.repeats())
            while await self.follow_list():
                await asyncio.sleep(self.given.wait)
            for task in (repeats, *(task for _, task in self.fed.values())):
                task.cancel()
        return 1

    async def follow_list(self):
        """Follows the list until its connection ends, and answers whether it may be asked for again."""
        beats = None
        try:
            await self.line.connect()
            self.list.begin()
            await self.list.read()
            beats = self.tasks.create_task(self.watch_over())
            await self.line.boards(self.hear)
            self.teller.say("the connection ended")
        except Refused as fault:
            self.teller.say(str(fault))
            return fault.later
        except FAULTS as fault:
            self.teller.say(named(fault))
        finally:
            self.list.lost()
            if beats is not None:
                beats.cancel()
        return True

    async def hear(self, message, text):
        if text["board"] == NAME:
            self.teller.say("a board has the name of the list, so it has no channel")
            return
        if text["board"] not in self.list.told:
            self.follow_board(text["board"])
        await self.list.hear(message, text)

    async def watch_over(self):
        """Once the relay has had time to report its boards: asks for those that go on as the channel has it and that it did not report, so
        that they are ended if they are gone. Then it publishes beats."""
        await asyncio.sleep(self.given.wait)
        for board in self.list.unheard():
            self.follow_board(board)
        await self.list.beats()

    def follow_board(self, board):
        """Follows a board; one that is followed already once more when its game is over."""
        if board in self.fed:
            self.fed[board][0].again = True
        else:
            told = Told(self, board)
            self.fed[board] = told, self.tasks.create_task(told.feed())

    async def tell_names_before(self, channel):
        """The game of a channel may stand for boards of names before: publishes this on their channels. One that the relay has and that is
        not in its channel yet is told so at its end."""
        if first_name(channel.name) == channel.name:
            return
        known = {*self.list.told, *self.list.stands}
        for name in {first_name(channel.name), *names_before(channel.name, known)} - {channel.name}:
            before = self.channel(name)
            await before.read()
            if before.outcome is not None or name not in known:
                await before.give_place(channel)

    async def tell_successor(self, channel):
        """The game of a channel is over or gone: publishes there which board stands for it, if one does already."""
        games = {board: Standing(board, it["plies"], it["outcome"]) for board, it in self.list.told.items()}
        successor = standing(channel, games)
        if successor is not channel:
            await channel.give_place(successor)
