"""One board at the relay: what is there is found out, and what the file has beyond it is sent."""

from link import Later
from plan import ABANDONED, Have, Step, step
from relay_client.names import next_name

BURST = 32  # Moves that are sent before their answers are read.
AHEAD = 3  # Next names that are looked for, as the pages do.
NAMES = 20  # Next names that are tried, as the pages do.
OURS = ("Illegal", "LogFull", "GameOver")  # Answers to a move that no man makes, if the board belongs to the key.


class Stuck(Exception):
    """Why nothing more can be done with the board now."""


class Seat:
    """`have` is its game, as far as it is known; `is_known` whether that holds on the present connection. `told` is how many of its moves
    were said. `taken` has why a name of it is taken, as that was found on the present connection."""

    def __init__(self, link, say):
        self.link, self.say = link, say
        self.have, self.is_known, self.told, self.taken = None, False, 0, {}

    def forget(self):
        """On another connection, all has to be found out again."""
        self.is_known, self.taken = False, {}

    async def settle(self, want):
        """Does what is to be done. Answers what is wrong, or nothing."""
        try:
            if not self.is_known:
                await self.find(want)
            for _ in range(8 + len(want.moves)):
                here = step(want, self.have)
                if here is Step.REST:
                    return None
                if here is Step.CORRECT and not want.is_settled:
                    return None if want.fault else f"{want.name}: the file has another game than was sent: it waits for three readings"
                if here is Step.OTHERWISE:
                    has = f"the file has {len(want.moves)} plies and {want.game.result or 'no result'}"
                    raise Stuck(f"{self.have.name} has ended: {self.have.outcome}; {has}")
                await self.act(here, want)
            raise Stuck(f"{want.name}: the relay does not take its moves")
        except (Stuck, Later) as fault:
            return str(fault)

    async def act(self, here, want):
        if here is Step.OPEN:
            await self.open_first(want)
        elif here is Step.SEND:
            await self.send(want)
        elif here is Step.END:
            await self.end(want)
        else:
            await self.reopen(want)

    # What is there.

    async def knock(self, name):
        """The relay's refusal of a knock. If it has no memory to look, the board waits."""
        answer = await self.link.knock(name)
        if answer == "OutOfMemory":
            raise Later(f"{name} cannot be looked at: 12 OutOfMemory")
        return answer

    async def find(self, want):
        """Finds the game: under the name that it had, or at the first time under the last of its names that is of this key."""
        if self.have is None:
            self.have = await self.find_last(want)
            self.told = len(self.have.moves) if self.have else 0
            if self.have:
                self.say(want, self.have.name, f"is at the relay with {len(self.have.moves)} plies")
        elif (answer := await self.knock(self.have.name)) in OURS:
            self.have = await self.link.look(self.have.name, want, answer == "GameOver")
            self.tell(want)
        elif self.have.outcome is None:
            self.have.outcome = ABANDONED  # The relay was restarted, or looks at no key.
        self.is_known = True

    async def last_name(self, name):
        """The last of the names of a game that the relay has, and the answer there; the first name if it has none of them."""
        last, answer, missed = name, "NoSuchBoard", 0
        while missed < AHEAD + (answer == "NoSuchBoard"):
            said = await self.knock(name)
            missed += 1
            if said != "NoSuchBoard":
                last, answer, missed = name, said, 0
            name = next_name(name)
        return last, answer

    async def find_last(self, want):
        name, answer = await self.last_name(want.name)
        if answer in OURS:
            return await self.link.look(name, want, answer == "GameOver")
        if answer == "NoSuchBoard":
            return None
        raise Stuck(await self.why_taken(name, want))

    async def why_taken(self, name, want):
        """Why a name is not this key's. A relay without --grace knows no keys: there it may have been this program's, and was abandoned."""
        if name not in self.taken:
            if await self.link.outcome(name) == ABANDONED:
                why = " by a game that was abandoned: start the relay with --grace, so that games wait for this program"
            else:
                why = ": another operator has the board" + (f" that goes on with {want.name}" if name != want.name else "")
            self.taken[name] = f"{name}: this name is taken{why}"
        return self.taken[name]

    async def leave(self, name):
        """Ends a game of this key that another operator is to go on with."""
        name, answer = await self.last_name(name)
        if answer in OURS and answer != "GameOver":
            await self.link.ask(cmd="end", board=name, how="abandoned")
            return f"{name} abandoned: another operator goes on with it, as {next_name(name)}"
        return None

    # What is sent.

    async def open_first(self, want):
        answer = await self.link.ask(cmd="open", board=want.name, start=want.start)
        if answer["reply"] == "opened":
            self.begin(want, want.name)
        elif answer["name"] == "BoardExists":
            self.is_known = False
            await self.find(want)
        else:
            raise Stuck(f"{want.name} is not opened: {answer['code']} {answer['name']}")

    def begin(self, want, name):
        self.have, self.told = Have(name, want.start), 0
        self.say(want, name, f"is open with start {want.start}")

    async def send(self, want):
        """Sends the next moves. Whatever is not answered as it should be is looked at again."""
        have, first = self.have, len(self.have.moves)
        wanted = want.moves[first:first + BURST]
        answers = await self.link.ask_all([{"cmd": "submit", "board": have.name, "move": it} for it in wanted], self.take)
        self.tell(want)
        if any(it.get("name") == "LogFull" for it in answers):
            raise Stuck(f"{have.name} is full after {len(have.moves)} plies: the relay's --plies")
        if have.outcome is None and len(have.moves) < first + len(wanted):
            self.is_known = False
            await self.find(want)

    def take(self, command, answer):
        if answer["reply"] == "played" and answer["place"] == len(self.have.moves):
            self.have.moves.append(command["move"])
            self.have.outcome = answer["outcome"]

    def tell(self, want):
        """Says the moves that are new."""
        have = self.have
        count = len(have.moves) - self.told
        if count > 0 and have.begins(want):
            more = f" ({count} plies)" if count > 1 else ""
            self.say(want, have.name, want.word(len(have.moves) - 1) + more)
            if have.outcome not in (None, ABANDONED):
                self.say(want, have.name, have.outcome)
        self.told = len(have.moves)

    async def end(self, want):
        """Ends the game as the file does."""
        note = f": note the result {want.result} ({want.termination})" if want.is_given_up else ""
        for ending in want.endings():
            if await self.enter_end(want, ending, note):
                return

    async def enter_end(self, want, ending, note=""):
        """Whether it was accepted."""
        have = self.have
        answer = await self.link.ask(cmd="end", board=have.name, **ending)
        if answer["reply"] == "ended":
            have.outcome = answer["outcome"]
            self.say(want, have.name, have.outcome + note, is_needed=bool(note))
            return True
        if answer["name"] != "ClaimRefused":
            self.is_known = False
            await self.find(want)
        return self.have.outcome is not None

    async def reopen(self, want):
        """Goes on under the next name that is free."""
        if self.have.outcome is None:
            await self.enter_end(want, {"how": "abandoned"})
            if self.have.outcome is None:
                raise Stuck(f"{self.have.name} is not ended")
        name = self.have.name
        for _ in range(NAMES):
            name = next_name(name)
            answer = await self.link.ask(cmd="open", board=name, start=want.start)
            if answer["reply"] == "opened":
                self.begin(want, name)
                return
            if answer["name"] != "BoardExists":
                raise Stuck(f"{name} is not opened: {answer['code']} {answer['name']}")
            if await self.knock(name) in ("Illegal", "LogFull"):  # It was opened, and the answer was lost.
                self.have, self.told = await self.link.look(name, want, False), 0
                return
        raise Stuck(f"{want.name}: the next {NAMES} names are taken")
