"""An evening of games on a server with a journal that is killed again and again and started with the same file, for evening.py.

All operators but one have a key: they come back to their games, and send what was on its way once more. A game of the one without a key
ends as abandoned, and it opens another board. Those who follow, on the main port or on the watch port, come again from the place for which
they wait. At the end each game is compared with what was played, as PGN too (kept_games.py).
"""
import asyncio
import itertools
import random
import tempfile
import time

from evening_peers import ENDED, LOST, SOON, Wrong, connected
from kept_games import Played, what_is_wrong
from relay_client.keys import new_key
from relay_client.server import Server
from relay_client.texts import GAME_OVER, NO_BOARD, OPENED, ended, ends, following, follows, moved, opens, over, played, refused, submits

TAKEN, ILLEGAL = refused(2, "BoardExists"), refused(6, "Illegal")
DONE = "close 1000"


class Gone(Exception):
    """The server is gone, or this connection with it."""


async def comes(port, name, key=None):
    """A peer that has shaken hands, as soon as there is a server."""
    until = time.monotonic() + SOON
    while True:
        try:
            return await connected(port, name, key)
        except (OSError, Wrong) as none_there:
            if time.monotonic() > until:
                raise Wrong(f"{name}: no server for {SOON} s, {none_there}") from None
            await asyncio.sleep(0.05)


async def hears(peer, seconds=SOON):
    """The next text."""
    text = await peer.receive(seconds)
    if text in (ENDED, LOST):
        raise Gone
    if text.startswith("close") and text != DONE:
        raise Wrong(f"{peer.name}: {text}")
    return text


class Game:
    """A game on a board: how many moves were sent, and of how many the answer has come; and the ends that it may have by now."""

    def __init__(self, board, start, moves, positions, length):
        self.board, self.start, self.moves, self.positions, self.length = board, start, moves, positions, length
        self.sent = self.answered = 0
        self.outcomes = set()


class Evening:
    """What all share."""

    def __init__(self, hall, server):
        self.hall, self.server = hall, server
        self.games, self.kills, self.seconds_away = [], 0, []


class Operator:
    """Plays one game after another, each on a board of its own."""

    def __init__(self, evening, number):
        self.evening, self.hall, self.number = evening, evening.hall, number
        self.key = new_key() if number else None
        self.name = f"operator {number}"
        self.peer = self.game = None

    async def comes(self):
        self.peer = await comes(self.hall.port, self.name, self.key)

    async def asks(self, line):
        self.peer.send(line)
        return await hears(self.peer)

    async def asks_until_answered(self, line, wanted, otherwise):
        """Asks again, over a new connection, while the server goes before it answers. From the second time on it may have been done."""
        for count in itertools.count():
            try:
                answer = await self.asks(line)
            except Gone:
                if not self.key:
                    raise
                await self.comes()
                continue
            if answer not in ([wanted, otherwise] if count else [wanted]):
                raise Wrong(f"{self.name}: {answer} came to {line}, try {count + 1}")
            self.hall.counts["found done"] += answer == otherwise
            return

    async def plays_all_evening(self):
        await self.comes()
        for count in itertools.count():
            if self.hall.is_over:
                break
            try:
                length = int(self.hall.length * random.uniform(0.8, 1.2))
                await self.plays(Game(f"k{self.number}_{count}", *random.choice(self.hall.games), length))
            except Gone:
                await self.comes()

    async def plays(self, game):
        """Without a key the board is gone with the connection: an open may not have been heard, and the last move neither."""
        await self.asks_until_answered(opens(game.board, game.start), OPENED, TAKEN)
        self.evening.games.append(game)
        game.outcomes |= set() if self.key else {"abandoned"}
        self.game = game
        try:
            while game.sent < game.length and not self.hall.is_over:
                await asyncio.sleep(random.uniform(0, 2 / self.hall.given.pace))
                began = time.monotonic()
                game.sent += 1
                await self.asks_until_answered(submits(game.board, game.moves[game.sent - 1]), played(game.sent - 1), ILLEGAL)
                game.answered = game.sent
                self.hall.waits.append(time.monotonic() - began)
                self.hall.counts["moves"] += 1
            game.outcomes.add("agreed")
            await self.asks_until_answered(ends(game.board, "agreed"), ended("agreed"), GAME_OVER)
            game.outcomes = {"agreed"}
        finally:
            self.game = None


class Follower:
    """Follows one game from a place on, over as many connections as that takes."""

    def __init__(self, evening, game, is_watching):
        self.evening, self.hall, self.game = evening, evening.hall, game
        self.port = evening.server.watch_port if is_watching else self.hall.port
        self.name = f"a follower of {game.board}"
        self.place = max(0, game.answered - random.randrange(60))
        self.is_over = False

    async def follows(self):
        while not self.is_over:
            peer = await comes(self.port, self.name)
            try:
                await self.follows_over(peer)
            except Gone:
                self.hall.counts["comings again"] += 1
            finally:
                peer.transport.close()

    async def follows_over(self, peer):
        """What was seen before is there again."""
        peer.send(follows(self.game.board, place=self.place))
        answer = await hears(peer)
        if answer == NO_BOARD:
            # A server that was just started has not told the watch port of all boards yet.
            self.hall.counts["too early"] += 1
            await asyncio.sleep(0.1)
            return
        if answer != following(self.place, self.game.positions[self.place]):
            raise Wrong(f"{self.name}: from place {self.place} it is answered {answer}; {self.game.answered} were answered")
        while not self.is_over:
            text = await hears(peer, self.hall.patience)
            if self.place < self.game.sent and text == moved(self.game.moves[self.place], self.place):
                self.place += 1
                self.hall.counts["compared"] += 1
            elif text in map(over, self.game.outcomes):
                self.is_over = True
            else:
                raise Wrong(f"{self.name}: {text} came at place {self.place}, and {self.game.sent} were sent")


async def a_seat(evening, operator, is_watching):
    """One follower of this operator's boards after another."""
    while not evening.hall.is_over:
        if operator.game:
            await Follower(evening, operator.game, is_watching).follows()
        await asyncio.sleep(0.1)


async def kills(evening, seconds):
    """Kills the server now and then, and starts it again."""
    while True:
        until = time.monotonic() + random.uniform(0.5, 1.5) * seconds
        while time.monotonic() < until:
            if evening.hall.is_over:
                return
            await asyncio.sleep(0.1)
        began = time.monotonic()
        await asyncio.to_thread(evening.server.again)
        evening.seconds_away.append(time.monotonic() - began)
        evening.kills += 1


async def evening_of_kills(hall, server, file):
    """Plays, kills and compares; what was otherwise than it should be is raised."""
    evening = Evening(hall, server)
    operators = [Operator(evening, number) for number in range(hall.given.boards)]
    acts = [operator.plays_all_evening() for operator in operators]
    acts += [a_seat(evening, operator, number % 2) for operator in operators for number in range(hall.given.followers)]
    tasks = [asyncio.create_task(act) for act in [*acts, kills(evening, hall.given.kill_each)]]
    done, _ = await asyncio.wait(tasks, timeout=hall.given.seconds, return_when=asyncio.FIRST_EXCEPTION)
    hall.is_over = True
    rest = await asyncio.wait(tasks, timeout=hall.patience + SOON, return_when=asyncio.FIRST_EXCEPTION)
    for task in [*done, *rest[0]]:
        task.result()
    if rest[1]:
        raise Wrong(f"{len(rest[1])} peers are not yet through")
    games = [Played(game.board, game.start, game.moves[:game.sent], game.answered, game.outcomes) for game in evening.games]
    wrong = await asyncio.to_thread(what_is_wrong, hall.port, file, games)
    if wrong:
        raise Wrong("\n".join(wrong[:10]))
    return evening


def tell(evening):
    counts = evening.hall.counts
    away = sorted(evening.seconds_away)
    print(f"{evening.kills} kills; away for {away[len(away) // 2]:.2f} s in the median, {away[-1]:.2f} at the most" if away else "no kill")
    print(f"{len(evening.games)} games of {counts['moves']} moves, each as it was played; followers compared {counts['compared']}, "
          f"and came again {counts['comings again']} times")
    print(f"{counts['found done']} times what was asked for again had been done; {counts['too early']} times a follower came before its "
          "board was there")


def run(hall_of, options):
    """The evening on a server with a journal in a folder of its own; what was otherwise than it should be is raised."""
    with tempfile.TemporaryDirectory() as room:
        file = f"{room}/games"
        with Server(*options, "--journal", file, watch=True) as server:
            evening = asyncio.run(evening_of_kills(hall_of(server.port), server, file))
            tell(evening)
            status = server.process.poll()
            if status is not None:
                raise Wrong(f"the server has ended with status {status}")
