"""The channel of the list: how each board of the relay stands."""
import asyncio
import time

from channel import FAULTS, Channel, written
from relay_client.names import first_name
from relay_client.outcomes import ABANDONED, has_result
from relay_client.successors import Standing, shown

NAME = "_boards"
KEPT = 6 * 3600  # Seconds that the last known list, and a result, outlast the relay, as the games in their channels do (channels.conf).


class ListChannel(Channel):
    """What the relay reported of its boards, each text published once, and again after --repeat seconds without another one of its board.
    The channel keeps texts for some minutes (publish.conf). So a reader of these has the list, however long a board is silent."""

    def __init__(self, server, beat, repeat):
        self.repeat = repeat
        self.told = {}  # What the relay reported last of each board, on the present connection.
        self.lost_at = time.time()  # When the relay was lost; None while it is there.
        self.gone_at = {}  # When the relay was first without a board that has a result.
        super().__init__(server, NAME, beat)

    def begin(self):
        """The relay reports its boards from the first on. The channels may have been restarted too."""
        self.told.clear()
        self.lost_at = None
        self.is_read = False

    def lost(self):
        self.lost_at = self.lost_at or time.time()

    def forget(self):
        self.stands = {}  # The last text of each board in the channel, with its time.

    def note(self, text, seconds):
        """Takes a text that the channel has."""
        if text["reply"] == "board":
            self.stands[text["board"]] = seconds, text

    def stand(self, board):
        """The last text of the board in the channel, or None."""
        return self.stands.get(board, (0, None))[1]

    def unheard(self):
        """The boards that go on according to the channel, and that the relay has not reported."""
        return [board for board, (_, text) in self.stands.items() if text["outcome"] is None and board not in self.told]

    async def hear(self, message, text):
        """Publishes how a board stands, if the channel lacks it."""
        self.told[text["board"]] = text
        self.gone_at.pop(text["board"], None)
        async with self.turn:
            await self.read_once()
            if self.stand(text["board"]) != text:
                await self.publish(message)

    async def gone(self, board, known):
        """The relay does not have the board, of which it had reported `known`, or None: publishes its end. Returns False, and does nothing,
        if the relay has reported something else since."""
        async with self.turn:
            if self.told.get(board) is not known:
                return False
            self.told.pop(board, None)
            await self.read_once()
            text = self.stand(board)
            if text is not None and text["outcome"] is None:
                await self.publish(written({**text, "outcome": ABANDONED}))
            return True

    async def repeats(self):
        """Publishes again what would leave the channel, for ever."""
        while True:
            await asyncio.sleep(min(1, self.repeat))
            async with self.turn:
                try:
                    for board in self.due():
                        await self.publish(written(self.stand(board)))
                except FAULTS:
                    pass  # The relay's next text reports it.

    def due(self):
        """The boards whose last text must be published again."""
        if not self.is_read or self.lost_at is not None and time.time() > self.lost_at + KEPT:
            return []
        games = {board: Standing(board, text["plies"], text["outcome"]) for board, (_, text) in self.stands.items()
                 if self.outlasts(board, text["outcome"])}
        return [it.board for it in shown(games) if time.time() >= self.stands[it.board][0] + self.repeat]

    def outlasts(self, board, outcome):
        """Whether a board is still shown: the relay has it, or is away, or the board has a result and its round goes on. Any other may
        leave the channel, and so may one whose place another takes."""
        if self.lost_at is not None or board in self.told:
            return True
        return has_result(outcome) and self.is_same_round() and time.time() <= self.gone_at.setdefault(board, time.time()) + KEPT

    def is_same_round(self):
        """Whether the relay, which was restarted, has boards of the round of before: none as yet, or one that goes on under its next name
        with a game that the relay no longer has. Other boards are of another round."""
        firsts = {board: first_name(board) for board in self.told}
        return not firsts or any(first != board and first not in firsts for board, first in firsts.items())
