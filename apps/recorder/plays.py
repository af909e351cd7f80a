"""Random games for the tests, played on a board of the relay until they end as wanted. The relay says how each ended."""

from position import Deed
from rules import legal
from relay_client.client import Client

ROOM = 1000  # Plies: a game that is longer is ended as agreed, before its log is full.


class Play:
    """A game on a board of its own connection, played to one of the ends below."""

    @classmethod
    async def on(cls, address, board, start, position, chance):
        self = cls()
        self.client = await Client.to(address)
        self.board, self.start, self.position, self.chance = board, start, position, chance
        self.moves, self.outcome, self.deeds = [], None, []
        await self.client.open(board, start)
        return self

    async def move(self, text):
        answer = await self.client.ask(cmd="submit", board=self.board, move=text)
        assert answer["reply"] == "played" and answer["place"] == len(self.moves), (text, answer)
        self.moves.append(text)
        self.deeds.append(Deed(self.position, text))
        self.position = self.position.after(text)
        self.outcome = answer["outcome"]

    async def end(self, how, **more):
        """Asks for an ending, with its side or its result, and answers whether it was accepted."""
        answer = await self.client.ask(cmd="end", board=self.board, how=how, **more)
        if answer["reply"] == "ended":
            self.outcome = answer["outcome"]
        return answer["reply"] == "ended"

    async def claim(self, how):
        return await self.end(how, side="white" if self.position.white else "black")

    def drawn(self):
        """A random move, castlings and promotions before others, since they are rare; captures more often than they come."""
        moves = list(legal(self.position))
        rare = [it for it in moves if it[4:] or Deed(self.position, it).castles]
        takes = [it for it in moves if Deed(self.position, it).takes]
        return self.chance.choice(rare or (takes if takes and self.chance.random() < 0.3 else moves))

    def last(self):
        """A move after which there is none, or None if there is no such move."""
        for text in legal(self.position):
            after = self.position.after(text)
            few = sum(after.is_own(it) for it in after.squares) < 4
            if (few or after.is_check()) and next(legal(after), None) is None:
                return text
        return None

    async def plies(self, count):
        while count > 0 and self.outcome is None:
            await self.move(self.drawn())
            count -= 1

    def quiet(self):
        """The moves that neither take nor move a pawn nor castle."""
        for text in legal(self.position):
            deed = Deed(self.position, text)
            if deed.kind != "p" and not deed.takes and not deed.castles:
                yield text

    def there_and_back(self):
        """Four moves after which the men are where they were, or none."""
        ways = list(self.quiet())
        self.chance.shuffle(ways)
        for first in ways:
            away = Play.at(self.position.after(first))
            for second in away.quiet():
                back = [first, second, first[2:] + first[:2], second[2:] + second[:2]]
                if away.position.after(second) and Play.are_quiet(away.position.after(second), back[2:]):
                    return back
        return []

    @classmethod
    def at(cls, position):
        self = cls()
        self.position = position
        return self

    @classmethod
    def are_quiet(cls, position, texts):
        for text in texts:
            if text not in cls.at(position).quiet():
                return False
            position = position.after(text)
        return True


async def by_itself(play):
    """Until mate or stalemate, which are taken when they are possible."""
    while play.outcome is None and len(play.moves) < ROOM:
        await play.move(play.last() or play.drawn())


async def resigned(play):
    await play.plies(play.chance.randrange(80))
    if play.outcome is None:
        await play.end("resign", side=play.chance.choice(("white", "black")))


async def flagged(play):
    """A side's time runs out, whoever has the move."""
    await play.plies(play.chance.randrange(80))
    if play.outcome is None:
        await play.end("time", side=play.chance.choice(("white", "black")))


async def decided(play):
    await play.plies(play.chance.randrange(80))
    if play.outcome is None:
        await play.end("decided", result=play.chance.choice(("1-0", "0-1", "1/2-1/2")))


async def agreed(play):
    await play.plies(play.chance.randrange(80))
    if play.outcome is None:
        await play.end("agreed")


async def abandoned(play):
    await play.plies(play.chance.randrange(80))
    if play.outcome is None:
        await play.end("abandoned")


async def lost(play):
    """Its connection ends, and with it the game."""
    await play.plies(play.chance.randrange(1, 40))
    if play.outcome is None:
        await play.client.close()
        play.outcome = "abandoned"


async def repeated(play, claims):
    """The same men there and back, until the game ends by itself or a claim is accepted."""
    await play.plies(play.chance.randrange(6, 30))
    while play.outcome is None and not (back := play.there_and_back()):
        await play.plies(1)
    while play.outcome is None:
        for text in back:
            if play.outcome is None:
                await play.move(text)
        if claims and play.outcome is None:
            await play.claim("threefold")


async def threefold(play):
    await repeated(play, True)


async def fivefold(play):
    await repeated(play, False)


async def without_progress(play, claims):
    """No capture and no pawn move if possible, and no position too often, until the game ends by itself or a claim is accepted."""
    seen = {}
    await play.plies(play.chance.randrange(4, 20))
    while play.outcome is None and len(play.moves) < ROOM:
        def often(text):
            return seen.get((play.position.white, play.position.after(text).placement()), 0)

        ways = [it for it in play.quiet() if often(it) < 2] or [play.drawn()]
        text = play.chance.choice(ways)
        key = (play.position.white, play.position.after(text).placement())
        seen[key] = seen.get(key, 0) + 1
        await play.move(text)
        if claims and play.outcome is None and play.position.half_moves >= 100:
            await play.claim("fifty")


async def fifty(play):
    await without_progress(play, True)


async def seventy_five(play):
    await without_progress(play, False)


KINDS = [by_itself, by_itself, by_itself, by_itself, resigned, flagged, decided, agreed, abandoned, lost, threefold, fivefold, fifty,
         seventy_five]


async def play_out(play, kind):
    """Plays a game of that kind to its end."""
    await kind(play)
    if play.outcome is None:
        await play.end("agreed")
    assert play.outcome is not None, (play.board, kind)
