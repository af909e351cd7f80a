"""What follows a board of the relay into its channel."""
import asyncio
import contextlib

from relay_client.line import Line, Refused


class Follower:
    """Follows boards on one line, one after another. `grown(channel)` is awaited when a text of a following is in its channel."""

    def __init__(self, relay):
        self.line = Line(relay)

    async def grown(self, channel):
        pass

    async def fill(self, channel):
        """Follows a board from its first move until its connection ends, and publishes what its channel lacks. Answers how the game ended,
        or None."""
        async with contextlib.AsyncExitStack() as stack:
            async def hear(message, text):
                await channel.hear(message, text)
                if text["reply"] == "following":
                    beats = asyncio.create_task(channel.beats())
                    stack.callback(beats.cancel)
                await self.grown(channel)
            if not await self.follow_from_first(channel.name, hear):
                return None
        print(f"{channel.name}: over, {channel.next} moves", flush=True)
        return channel.outcome

    async def follow_from_first(self, board, hear):
        """Follows a board until its connection ends, and answers whether the game has. If the relay no longer gives the first moves, it
        begins at the first place that is still given."""
        place = 0
        while True:
            try:
                return await self.line.follow(board, hear, place)
            except Refused as fault:
                if fault.name != "TooFarBack" or place == 16384:
                    raise
                place += 1

    async def compare(self, channel):
        """Ends the channel's game if the relay has another under its name: one of fewer moves, or one with another position now."""
        await channel.read()
        if not channel.moves:
            return
        try:
            fen = await self.line.position(channel.name, channel.next)
        except Refused as fault:
            if fault.name == "NotYet":
                await channel.gone()
            elif fault.name != "TooFarBack":
                raise
        else:
            if not channel.fits({"fen": fen, "joined": channel.next}):
                await channel.gone()
