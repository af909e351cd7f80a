#!/usr/bin/python3
"""Fills channels of nchan from boards of the relay, so that any number of spectators can watch them.

    feed.py --relay ws://127.0.0.1:9600 --channels 127.0.0.1:9110 b1 b2        (Debian: apt-get install python3-websockets)
    feed.py --names FILE                                                       the names are in a file, separated by white space
    feed.py --all --watch ws://127.0.0.1:9601                                  all boards that are there or are opened later

It follows each board from its first move and publishes the relay's texts, as they are, to the channel of the board's name: one after
another for each board, each answered before the next, so their places come in order. It begins by reading what the channel has
had and publishes only what is missing there, so it can be killed and restarted at any moment. It adds three texts of its own:

    {"reply":"beat","time":SECONDS}                  the board is followed at this time (since 1970); each --beat seconds with no other text
    {"outcome":"abandoned","reply":"over"}           also if the relay no longer has a board that had a game: it was restarted
    {"board":"b1_2","reply":"next"}                  the game of this name replaces it: it goes on there, or was corrected

It follows b1_2, b1_3 and so on by itself, if b1 is one of its names and its game is over or lost. relay_client/successors.py says when such
a game replaces that of b1. It waits for boards that are not open yet, without limit, and asks for each again on the same connection, since
the relay accepts a limited number (--connections). It ends when the games of all its boards have a result, and none goes on under a next
name. With --names it does not end: on SIGHUP it reads the file again, begins with the names that are new there or were given up, leaves
those that are gone, and disturbs no other. A board that the relay refuses for good, as for its name, and one for which --tries tries in a
row brought nothing, is given up with a line on standard error; the others go on, and the status is 1. What a board waits for is reported
there too, once and when it changes.

With --all it asks the relay's watch port, follows each board that this reports, and does not end. It publishes the texts of the list on a
channel of its own, _boards, where a board that is gone ends as abandoned too. That channel keeps texts only for minutes, so the last text
of a board is published again every --repeat seconds.
"""
import argparse
import asyncio
import pathlib
import signal
import sys

# When installed, the package is beside it.
sys.path.append(str(pathlib.Path(__file__).resolve().parent.parent.parent / "tools"))

from channel import FAULTS, BoardChannel  # noqa: E402
from every import Every  # noqa: E402
from follower import Follower  # noqa: E402
from relay_client.line import Refused  # noqa: E402
from relay_client.names import next_name  # noqa: E402
from relay_client.outcomes import has_result  # noqa: E402
from relay_client.successors import standing  # noqa: E402

SELDOM = 10  # Once in this many tries it looks for next names, if the name has had no game so far, or has a result.
HEIRS = 3  # How many names after the last known one a game is looked for under.


class Name(Follower):
    """One of the feed's names: its board, and those on which its game goes on."""

    def __init__(self, name, given, channel):
        super().__init__(given.relay)
        self.name = name
        self.given = given
        self.channel = channel  # The channel of a board.
        self.channels = {name: channel(name)}  # Of the boards that had a game.
        self.over = set()  # The boards whose games have ended, since the relay was reached.
        self.had_game = False
        self.tries = 0
        self.left = 0  # How often a board whose game goes on was left for others.
        self.told = None  # What it waits for, as that was said last.

    def boards(self):
        """The boards under which the game may be found: the first, those that had a game or are said to have it, and a few more."""
        found, unknown = [self.name], 0
        while unknown < HEIRS:
            found.append(next_name(found[-1]))
            unknown = 0 if found[-1] in self.channels else unknown + 1
        return found

    async def read(self):
        """Reads the channels of the boards that had a game, as far as one names the next."""
        board = self.name
        while board is not None:
            channel = self.channels.setdefault(board, self.channel(board))
            await channel.read()
            self.had_game = self.had_game or channel.origin is not None or channel.heir is not None
            names = self.boards()
            board = channel.heir if channel.heir in names[names.index(board) + 1:] else None

    def forget(self):
        """The connection to the relay or to the channels was lost: either may have been restarted."""
        self.over.clear()
        for channel in self.channels.values():
            channel.is_read = False

    async def follow(self):
        """Follows the first of the boards that the relay has, until its connection ends. Answers its outcome, or None. One that stands for
        nothing yet is left again and again for those behind it: it may be an empty board that a stale window keeps open."""
        await self.read()
        refused = None
        asked = self.boards() if self.had_game or self.tries % SELDOM == 0 else [self.name]
        self.tries += 1
        for board in asked:
            if board in self.over:
                continue
            channel = self.channels.get(board) or self.channel(board)
            try:
                async with asyncio.timeout(None if self.stands(channel) else SELDOM * self.given.wait) as limit:
                    return await self.follow_board(channel)
            except TimeoutError:
                if not limit.expired():
                    raise
                channel.is_read = False  # A text may have been on its way there.
                self.left += 1
                refused = refused or Refused(1, "NoSuchBoard")
            except Refused as fault:
                if fault.name != "NoSuchBoard":
                    raise
                refused = refused or fault
                if board in self.channels:
                    await channel.read()
                    await channel.gone()
        raise refused

    async def follow_board(self, channel):
        if channel.name in self.channels:
            await self.compare(channel)
        outcome = await self.fill(channel)
        if outcome is not None:
            self.over.add(channel.name)
        return outcome

    async def grown(self, channel):
        """Publishes on the channels of the names before where the game goes on, once it stands for them."""
        self.had_game = True
        for board in self.boards()[:self.boards().index(channel.name)]:
            await self.channels.setdefault(board, self.channel(board)).give_place(channel)
        self.channels.setdefault(channel.name, channel)

    def stands(self, channel):
        """Whether the game of a channel, as far as it is known, stands for the name, or no other does."""
        games = {board: self.channels[board] for board in self.boards() if board in self.channels and self.channels[board].had_game()}
        return not games or standing(next(iter(games.values())), {**games, channel.name: channel}) is channel

    def has_result(self):
        """Whether the game that stands for the name has one, at a relay that is there, and no other is being entered."""
        games = {board: self.channels[board] for board in self.boards() if board in self.channels and self.channels[board].had_game()}
        if not games or any(it.is_going_on() for it in games.values()):
            return False
        last = standing(next(iter(games.values())), games)
        return last.name in self.over and has_result(last.outcome)

    def progress(self):
        return self.left, [(board, it.next, it.origin) for board, it in self.channels.items()]

    async def feed(self):
        """Follows until the game has a result, and no other replaces it, or until it is given up. Answers which. A try that brought nothing
        is followed by a wait."""
        failed, tries, is_over = 0, self.given.tries, False
        try:
            while tries is None or failed < tries:
                had = self.progress()
                try:
                    is_over, why = await self.follow_once()
                except Refused as fault:
                    self.say(fault)
                    return False
                if is_over and not self.given.names:
                    return True
                failed = failed + 1 if had == self.progress() else 0
                self.wait_for(why)
                await asyncio.sleep(self.given.wait * (SELDOM if is_over else 1))
            if not is_over:
                self.say(f"given up after {tries} tries in a row that brought nothing: {self.told}")
            return is_over
        finally:
            await self.line.close()

    async def follow_once(self):
        """Follows until its connection ends, and answers whether nothing more is to come, and else what is waited for."""
        try:
            outcome = await self.follow()
            if outcome is None:
                self.forget()
                return False, "the connection ended"
            return False, None if self.has_result() else "the game was abandoned"
        except Refused as fault:
            if not fault.later:
                raise
            is_over = fault.name == "NoSuchBoard" and self.has_result()
            return is_over, None if is_over else str(fault)
        except FAULTS as fault:
            is_over = self.has_result()  # As far as this relay was there.
            self.forget()
            return is_over, None if is_over else f"{type(fault).__name__} {fault}"

    def wait_for(self, why):
        if why is not None and why != self.told:
            self.say(why)
        self.told = why

    def say(self, words):
        print(f"{self.name}: {words}", file=sys.stderr, flush=True)


class Feed:
    """The names that are fed at present, each by a task of its own."""

    def __init__(self, given):
        self.given = given
        self.tasks = {}
        self.channels = {}

    def channel(self, board):
        """The channel of a board, the same for all names."""
        if board not in self.channels:
            self.channels[board] = BoardChannel(self.given.channels, board, self.given.beat)
        return self.channels[board]

    def take(self, names):
        """Feeds these names and no others. One that is fed already is not disturbed."""
        for name in set(self.tasks) - set(names):
            self.tasks.pop(name).cancel()
        for name in names:
            if name not in self.tasks or self.tasks[name].done():
                self.tasks[name] = asyncio.create_task(Name(name, self.given, self.channel).feed())

    async def until_over(self, names):
        self.take(names)
        return 0 if all(await asyncio.gather(*self.tasks.values())) else 1

    async def for_ever(self, file):
        """Feeds the names of a file, which is read again at SIGHUP."""
        again = asyncio.Event()
        asyncio.get_running_loop().add_signal_handler(signal.SIGHUP, again.set)
        while True:
            again.clear()
            try:
                self.take(pathlib.Path(file).read_text().split())
                print(f"feeds {' '.join(self.tasks)}", flush=True)
            except (OSError, UnicodeDecodeError) as fault:
                print(f"{file} cannot be read, so the names stay as they are: {fault}", file=sys.stderr, flush=True)
            await again.wait()


def arguments():
    words = argparse.ArgumentParser(description="Fills channels of nchan from boards of the relay.")
    words.add_argument("--relay", default="ws://127.0.0.1:9600", help="the relay, for boards by their names (ws://127.0.0.1:9600)")
    words.add_argument("--watch", default="ws://127.0.0.1:9601", help="the relay's watch port, for --all (ws://127.0.0.1:9601)")
    words.add_argument("--channels", default="127.0.0.1:9110", help="where nginx takes texts (127.0.0.1:9110)")
    words.add_argument("--tries", type=int, help="give a board up after so many tries in a row that brought nothing (never)")
    words.add_argument("--wait", type=float, default=0.5, help="seconds between two tries (0.5)")
    words.add_argument("--beat", type=float, default=15, help="seconds without another text, after which a beat is published (15)")
    words.add_argument("--repeat", type=float, default=60, help="seconds after which a text of the list is published again (60)")
    words.add_argument("--names", help="a file with the boards, parted by white space; it is read again at SIGHUP")
    words.add_argument("--all", action="store_true", help="all boards that the relay has or opens, and their list")
    words.add_argument("boards", nargs="*")
    given = words.parse_args()
    if bool(given.names) + bool(given.boards) + given.all != 1:
        words.error("give either boards or --names FILE or --all")
    if given.all and given.tries is not None:
        words.error("--tries is for boards by their names")
    return given


async def main():
    given = arguments()
    if given.all:
        return await Every(given).for_ever()
    feed = Feed(given)
    return await (feed.for_ever(given.names) if given.names else feed.until_over(given.boards))


if __name__ == "__main__":
    sys.exit(asyncio.run(main()))
