#!/usr/bin/env -S python3 -B
"""Lets an evening of games pass on the main port of one server: each is told all that is due, once and in order, and nothing else.

    bench/evening.py                                              an hour, 16 boards, 40 followers of each
    bench/evening.py --seconds 120 --pace 2 -- --idle 60          further words are those of `serve`
    bench/evening.py --kill-each 60                               on a server with a journal that is killed (evening_kills.py)

Half of the operators have a key. From time to time such a one loses its connection, by a close, an end of its bytes or a reset, comes back
within the grace and plays on. A game is ended as agreed after a random number of moves, and its operator opens a board of another name.
Followers join at the present or some places back. Some leave early, some read slowly, and those of a game that is over go to the next one.
Beside them there are newcomers, halves of requests and of messages, refused commands, followers of a full board and one that asks to follow
it, pings, and random bytes (evening_peers.py).

Games are random legal moves; their positions come from `relay960 play`, none from the server. At the end the server must have as few
descriptors and threads as before, and serve a newcomer as usual. All peers are in one loop of Python's, so what an operator waits has the
loop's own work in it; how late that loop was by itself is reported, too. The program is the built one, or that of the environment's
RELAY960. The status is 1 if anything was not as it should be.
"""
import argparse
import asyncio
import collections
import itertools
import pathlib
import random
import resource
import sys
import time

HERE = pathlib.Path(__file__).resolve().parent
sys.path.append(str(HERE.parent / "tools"))

import evening_kills  # noqa: E402
from evening_peers import (CLOSE, ILLEGAL, LAST, RESET, SOON, WAYS, Peer, Wrong, a_full_board, beside, connected,  # noqa: E402
                           ends_full_board, is_as_usual)
from relay_client.keys import new_key  # noqa: E402
from relay_client.pinning import resident  # noqa: E402
from relay_client.program import Player  # noqa: E402
from relay_client.server import Server  # noqa: E402
from relay_client.texts import OPENED, ended, ends, following, follows, moved, opens, over, played, submits  # noqa: E402

GRACE = 60
AWAY = 40  # Seconds for which an operator is away at the most.
BACK = 60  # How many places back a follower joins at the most.
MOST_BOARDS, OTHER_BOARDS = 256, 6  # In one run of the server, and those that no operator of the evening opens.
LEAST_LENGTH, MOST_LENGTH = 50, 300  # Moves of a game, in the mean.
VARIANCE = 0.2  # How much shorter or longer than that a game is.
DIFFERENT = 8  # How many games there are to choose from.
SPARE = 24  # Places of a board that are free: one that left takes its place for two seconds more.


# ---- The games.


def chance_game(length):
    """A game of that many random legal moves which goes on after them: its start, its moves, and the positions before and after them."""
    while True:
        start, moves = random.randrange(960), []
        with Player(start) as player:
            positions = [player.fen]
            while (legal := player.legal()) and len(moves) < length:
                moves.append(random.choice(legal))
                positions.append(player.play(moves[-1]))
        if legal:
            return start, moves, positions


class Game:
    """A game on a board, and how far it has come: how many moves were sent, and of how many the answer has come."""

    def __init__(self, board, start, moves, positions, length):
        self.board, self.start, self.moves, self.positions = board, start, moves, positions
        self.length = length
        self.sent = self.answered = 0
        self.is_ending = False
        self.times = []  # When each move was sent.

    def next_move(self):
        """The move that is sent now."""
        self.times.append(time.monotonic())
        self.sent += 1
        return submits(self.board, self.moves[self.sent - 1])

    def due(self, place):
        """What a follower is told at this place, if anything."""
        if place < self.sent:
            return moved(self.moves[place], place)
        return over("agreed") if self.is_ending else None


class Hall:
    """What all share: the port, how many followers a board may have, how the evening is to be, what was counted, and whether it is over."""

    def __init__(self, port, given):
        self.port, self.given, self.places = port, given, given.followers + SPARE
        self.is_over = False
        self.counts, self.waits, self.latest = collections.Counter(), [], 0
        self.lags = []  # How late the loop of the peers was by itself.
        self.length = length_of_games(given)
        longest = int(self.length * (1 + VARIANCE)) + 1
        self.games = [chance_game(longest) for _ in range(DIFFERENT)]
        # How long a follower waits for a move at the most: its operator thinks, and may be away.
        self.patience = 2 / given.pace + AWAY + SOON


def length_of_games(given):
    """The mean length for which there are boards enough, with some to spare."""
    games = (MOST_BOARDS - OTHER_BOARDS) // given.boards
    length = max(LEAST_LENGTH, given.pace * given.seconds / max(games - 2, 1) * 1.15)
    if length > MOST_LENGTH:
        raise SystemExit(f"games of {length:.0f} moves: choose fewer --boards or --seconds, or another --pace")
    return length


# ---- Operators.


class Operator:
    """Plays one game after another, each on a board of its own; all with a key or all without."""

    def __init__(self, hall, number):
        self.hall, self.number = hall, number
        self.name = f"operator {number}"
        self.key = new_key() if number % 2 else None
        self.ways = itertools.cycle(WAYS)
        self.peer = self.game = None

    async def asks(self, line, *wanted):
        """Asks, and keeps how long that took."""
        began = time.monotonic()
        answer = await self.peer.asks(line, *wanted)
        self.hall.waits.append(time.monotonic() - began)
        return answer

    async def connect(self):
        self.peer = await connected(self.hall.port, self.name, self.key)

    async def plays_all_evening(self):
        await self.connect()
        for count in itertools.count():
            if self.hall.is_over:
                break
            await self.plays(f"e{self.number}_{count}")
        await self.peer.goes()

    async def plays(self, board):
        length = int(self.hall.length * random.uniform(1 - VARIANCE, 1 + VARIANCE))
        game = Game(board, *random.choice(self.hall.games), length)
        await self.asks(opens(board, game.start), OPENED)
        self.game = game
        while game.sent < length and not self.hall.is_over:
            await self.peer.rests(random.uniform(0, 2 / self.hall.given.pace))
            if self.key and random.random() < self.hall.given.losses:
                await self.comes_back(game)
            else:
                await self.asks(game.next_move(), played(game.sent - 1))
                game.answered = game.sent
                self.hall.counts["moves"] += 1
        self.game, game.is_ending = None, True
        await self.asks(ends(board, "agreed"), ended("agreed"))
        self.hall.counts["games"] += 1

    async def comes_back(self, game):
        """Loses the connection, sometimes just after a move was sent, and comes back with the key. After a reset nobody knows whether the
        move was played, so it is sent again: it is no longer legal if it was."""
        way, is_under_way = next(self.ways), random.random() < 0.5
        if is_under_way:
            self.peer.send(game.next_move())
        self.peer.begins_to_go(way)
        if way in LAST:
            if is_under_way:
                await self.peer.hears(played(game.sent - 1))
            await self.peer.hears(LAST[way])
            self.peer.transport.close()
        await asyncio.sleep(min(random.expovariate(1 / 5), AWAY))
        await self.connect()
        if is_under_way and way == RESET:
            game.times[-1] = time.monotonic()
            again = submits(game.board, game.moves[game.sent - 1])
            self.hall.counts["moves on their way"] += await self.asks(again, played(game.sent - 1), ILLEGAL) == ILLEGAL
        self.hall.counts["moves"] += game.sent - game.answered
        game.answered = game.sent
        self.hall.counts["comings back"] += 1


# ---- Followers.


class Follower:
    """Follows one game, from one connection."""

    def __init__(self, hall, game):
        self.hall, self.game = hall, game
        self.is_slow = random.random() < 0.15
        self.way = random.choice(WAYS) if random.random() < 0.4 else None  # In which it leaves before the end, if it does.
        self.stays = random.randrange(int(hall.length)) if self.way else None  # For how many texts.
        self.place = self.present = None
        self.has_heard_end = False
        self.peer = None

    async def follows(self):
        name = f"a {'slow ' if self.is_slow else ''}follower of {self.game.board}"
        self.peer = await connected(self.hall.port, name, is_slow=self.is_slow)
        await self.joins()
        self.hall.counts["joinings"] += 1
        while self.stays is None or self.stays > 0:
            text = await self.peer.receive(self.hall.patience)
            self.compare(text)
            if text == LAST[CLOSE]:
                break
            self.stays = self.stays and self.stays - 1
            await asyncio.sleep(0.1 if self.is_slow else 0)
        else:
            await self.leaves()
        self.peer.transport.close()

    async def joins(self):
        """Joins some places back, or at the present: that is any place from the answers that have come to the moves that were sent."""
        game, least = self.game, self.game.answered
        place = max(0, least - random.randrange(BACK)) if random.random() < 0.5 else None
        self.peer.send(follows(game.board, place=place))
        text = await self.peer.receive()
        may_be = range(least, game.sent + 1) if place is None else [place]
        joined = [it for it in may_be if text == following(it, game.positions[it])]
        if not joined:
            wanted = following(may_be[0], game.positions[may_be[0]])
            raise Wrong(f"{self.peer.name}: {wanted} was due, or one of the {len(may_be) - 1} places after it, but {text} came")
        self.place, self.present = joined[0], game.sent

    def compare(self, text):
        """Compares a text with the one that is due, which depends on what was sent by now."""
        due = LAST[CLOSE] if self.has_heard_end else self.game.due(self.place)
        if text != due:
            raise Wrong(f"{self.peer.name}: {due or 'nothing'} was due, but {text} came")
        if self.place < self.game.sent:
            self.time_of_move()
            self.place += 1
        else:
            self.has_heard_end = True

    def time_of_move(self):
        """Keeps how long a move took that was sent after the follower came."""
        self.hall.counts["compared"] += 1
        if self.place >= self.present and not self.is_slow:
            late = time.monotonic() - self.game.times[self.place]
            self.hall.latest = max(self.hall.latest, late)
            self.hall.counts["late"] += late > 1
            if late > SOON:
                raise Wrong(f"{self.peer.name}: move {self.place} came {late:.0f} s after it was sent")

    async def leaves(self):
        """Leaves early. What is on its way until then is as it should be, too."""
        self.peer.begins_to_go(self.way)
        while self.way in LAST and (text := await self.peer.receive()) != LAST[self.way]:
            self.compare(text)
        self.hall.counts["leavings"] += 1


async def a_seat(hall, operator):
    """One follower of this operator's boards after another."""
    await asyncio.sleep(random.uniform(0, min(10, hall.given.seconds / 4)))
    while not hall.is_over:
        if operator.game:
            await Follower(hall, operator.game).follows()
        else:
            await asyncio.sleep(0.1)


# ---- The evening.


def held(server):
    """How many descriptors and threads the server has."""
    folder = pathlib.Path(f"/proc/{server.process.pid}")
    return [len(list((folder / name).iterdir())) for name in ("fd", "task")]


async def comes_down(server, before):
    """Waits until the server holds no more than before."""
    until = time.monotonic() + SOON
    while any(now > then for now, then in zip(held(server), before)):
        if time.monotonic() > until:
            raise Wrong(f"descriptors and threads are {held(server)}, and were {before}")
        await asyncio.sleep(0.1)


def tell(hall, server, when):
    descriptors, threads = held(server)
    print(f"{when}: {resident(server)} KiB, {descriptors} descriptors, {threads} threads; {hall.counts['moves']} moves, "
          f"{hall.counts['compared']} compared", flush=True)


def milliseconds(taken):
    """These times, as three of them."""
    times = sorted(1000 * seconds for seconds in taken)
    middle, late = times[len(times) // 2], times[len(times) * 99 // 100]
    return f"{middle:.2f} ms in the median, {late:.2f} in the 99th percentile, {times[-1]:.1f} at the most"


def tell_all(hall):
    counts = hall.counts
    print(f"{counts['games']} games of {counts['moves']} moves; followers compared {counts['compared']}")
    print(f"{counts['joinings']} joinings, {counts['leavings']} left early")
    print(f"{counts['comings back']} comings back, {counts['moves on their way']} after a move that was played and whose answer was lost")
    print(f"{counts['refusals']} refusals, {counts['newcomers']} newcomers, {counts['halves']} halves, {counts['random']} of random bytes, "
          f"{counts['pongs']} pongs; {Peer.pings} pings of the server")
    print(f"an operator waited {milliseconds(hall.waits)}")
    print(f"the loop of the peers, whose lateness is in that, was late by {milliseconds(hall.lags)}")
    print(f"a move came to a follower {hall.latest * 1000:.1f} ms after it was sent at the most, and {counts['late']} later than a second")


async def each_minute(hall, server):
    for minute in itertools.count(1):
        await asyncio.sleep(60)
        tell(hall, server, f"after {minute} min")


async def lags(hall):
    """How late the loop of the peers is, ten times a second."""
    while True:
        began = time.monotonic()
        await asyncio.sleep(0.1)
        hall.lags.append(time.monotonic() - began - 0.1)


async def ends_well(tasks, seconds):
    """Waits for so long, or until all have ended or something was wrong. Whether all have ended."""
    done, pending = await asyncio.wait(tasks, timeout=seconds, return_when=asyncio.FIRST_EXCEPTION)
    for wrong in [task.exception() for task in done if task.exception()]:
        raise wrong
    return not pending


async def evening(server, given):
    hall = Hall(server.port, given)
    await is_as_usual(hall, "first")
    await asyncio.sleep(1)
    before = held(server)
    tell(hall, server, "at the start")
    owner, crowd = await a_full_board(hall)
    operators = [Operator(hall, number) for number in range(given.boards)]
    acts, stay = await beside(hall, crowd)
    acts += [operator.plays_all_evening() for operator in operators]
    acts += [a_seat(hall, operator) for operator in operators for _ in range(given.followers)]
    tasks = [asyncio.create_task(act) for act in acts]
    watching = [asyncio.create_task(act) for act in (each_minute(hall, server), lags(hall))]
    await ends_well([*tasks, *watching], given.seconds)
    hall.is_over = True
    if not await ends_well(tasks, hall.patience + SOON):
        raise Wrong(f"{sum(not task.done() for task in tasks)} peers are not yet through")
    for task in watching:
        task.cancel()
    await ends_full_board(owner, crowd)
    for peer in stay:
        await peer.goes()
    await comes_down(server, before)
    await is_as_usual(hall, "last")
    await comes_down(server, before)
    tell(hall, server, "at the end")
    tell_all(hall)


def is_well(server, given):
    """Whether all was as it should be; what was not is said."""
    try:
        asyncio.run(evening(server, given))
    except (Wrong, OSError) as wrong:
        print(f"wrong: {wrong}", file=sys.stderr)
        well = False
        time.sleep(1)  # A server that breaks down is given the time to say why.
    else:
        well = True
    status = server.process.poll()
    server.process.kill()
    complaint = server.process.stderr.read().decode()
    if status is not None or complaint:
        print(f"the server complained {complaint!r}, and its status was {status}", file=sys.stderr)
    return well and status is None and not complaint


def outlives_kills(given, options):
    """Whether all was as it should be; what was not is said."""
    try:
        evening_kills.run(lambda port: Hall(port, given), options)
    except (Wrong, OSError, AssertionError) as wrong:
        print(f"wrong: {wrong}", file=sys.stderr)
        return False
    return True


def main():
    words = argparse.ArgumentParser(description=__doc__, formatter_class=argparse.RawDescriptionHelpFormatter, allow_abbrev=False)
    words.add_argument("--seconds", type=float, default=3600)
    words.add_argument("--boards", type=int, default=16, help="at a time")
    words.add_argument("--followers", type=int, default=40, help="of each board")
    words.add_argument("--pace", type=float, default=0.5, help="moves a second of each board")
    words.add_argument("--losses", type=float, default=0.03, help="how often an operator with a key loses its connection instead of a move")
    words.add_argument("--kill-each", type=float, metavar="SECONDS",
                       help="kill the server so often in the mean, and start it with the same journal; nobody else comes then")
    given, further = words.parse_known_args()
    further = [word for word in further if word != "--"]
    most = resource.getrlimit(resource.RLIMIT_NOFILE)[1]
    resource.setrlimit(resource.RLIMIT_NOFILE, (most, most))
    options = ["--forever", "--boards", MOST_BOARDS, "--followers", given.followers + SPARE, "--capacity", 1024, "--grace", GRACE]
    if given.kill_each:
        return 0 if outlives_kills(given, [*map(str, options), *further]) else 1
    with Server(*map(str, options), *further) as server:
        return 0 if is_well(server, given) else 1


if __name__ == "__main__":
    sys.exit(main())
