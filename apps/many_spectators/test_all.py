"""The feed of all boards and the channel of their list. Each test is an async function whose name begins with try_; test_channels.py runs
them, beside the nginx and the Redis that it has started. The channels are there from one test to the next, and so is the list, so each test
has boards of other names."""
import asyncio
import json
import random
import subprocess

import websockets

from feeds import CHANNELS, FIRST, OTHER, QUICK, QUIET, Reader, again, follow_on, following, game, moved, over, running, until
from relay_client.client import Client
from relay_client.program import fens, game_by_chance, start_fen
from relay_client.texts import BOARDS

LIST = "_boards"
SILENCE = 1  # Seconds without a text, after which a list or a channel has sent what it had.


def every(relay, *words, **options):
    return running("./feed.py", "--all", "--watch", relay.watch_address, *QUICK, "--repeat", "600", *words, **{**QUIET, **options})


def stand(board, moves=(), outcome=None, start=518):
    """How a board stands after these moves, as the watch port says it."""
    return {"board": board, "fen": fens(start, moves)[-1] if moves else start_fen(start), "last": moves[-1] if moves else None,
            "outcome": outcome, "plies": len(moves), "reply": "board", "start": start}


async def handed_out(address, *commands, silence=SILENCE):
    """What a connection receives until it is silent."""
    texts = []
    async with websockets.connect(address, ping_interval=None, compression=None) as socket:
        for command in commands:
            await socket.send(command)
        try:
            while True:
                texts.append(json.loads(await asyncio.wait_for(socket.recv(), silence)))
        except asyncio.TimeoutError:
            return texts


def last_of_each(texts):
    """The list, as a reader keeps it."""
    return {it["board"]: it for it in texts if it["reply"] == "board"}


class ListReader(Reader):
    """Reads the channel of the list. What earlier tests left there is dropped: a relay is another in each test, and so are the boards."""

    def __init__(self, boards):
        super().__init__(LIST)
        self.boards = boards

    def of(self, board):
        return [it for it in self.texts if it["board"] == board]

    def list(self):
        return {board: text for board, text in last_of_each(self.texts).items() if board in self.boards}

    async def shows(self, *stands):
        """Waits until the list is this."""
        wanted = last_of_each(stands)
        try:
            await until(lambda: self.list() == wanted, 20)
        except AssertionError:
            raise AssertionError(f"{self.list()}, but not {wanted}") from None

    async def shows_what_is_watched(self, relay):
        """What the watch port says is the list, for those who read it from the start and for one that comes now."""
        told = await handed_out(relay.watch_address, BOARDS)
        await self.shows(*told)
        late = last_of_each(await handed_out(f"{CHANNELS}/{LIST}"))
        assert {board: late.get(board) for board in self.boards} == last_of_each(told), (late, told)

    def is_orderly(self):
        """Within one run of the relay each text of a board is another one, and no older than the one before."""
        for board in self.boards:
            texts = self.of(board)
            assert all(one != other for one, other in zip(texts, texts[1:])), texts
            assert [it["plies"] for it in texts] == sorted(it["plies"] for it in texts), texts


async def plays(relay, board, start, moves, pause, how="agreed"):
    client = await Client.to(relay.address)
    await client.open(board, start)
    for move in moves:
        await client.submit(board, move)
        await asyncio.sleep(pause)
    await client.end(board, how)
    await client.close()


def whole(start, moves, outcome="agreed"):
    return [{"fen": start_fen(start), "joined": 0, "reply": "following"}, *moved(moves), over(outcome)]


async def try_opened(relay):
    """Boards that are there before the feed, and boards opened later: their channels have each game, and the list what the watch
    port says."""
    first = await game(relay, "all-e1", FIRST)
    await game(relay, "all-e2")
    everyone = ListReader(["all-e1", "all-e2", "all-e3"])
    async with everyone as heard, Reader("all-e1") as one, Reader("all-e2") as two, Reader("all-e3") as three:
        async with every(relay):
            await one.has(following(), *moved(FIRST))
            await two.has(following())
            await heard.shows(stand("all-e1", FIRST), stand("all-e2"))
            third = await game(relay, "all-e3", OTHER)
            await three.has(following(), *moved(OTHER))
            await first.submit("all-e1", "c2c4")
            await one.has(following(), *moved([*FIRST, "c2c4"]))
            await third.end("all-e3")
            await three.has(following(), *moved(OTHER), over("agreed"))
            await heard.shows(stand("all-e1", [*FIRST, "c2c4"]), stand("all-e2"), stand("all-e3", OTHER, "agreed"))
            await heard.shows_what_is_watched(relay)
            heard.is_orderly()


async def try_games(relay):
    """Eight whole games, some opened before the feed, some while it is there, some while there is none; the feed is killed three times.
    Each channel has each place once and in order, and in the list a board's moves never go backwards."""
    chance = random.Random(961)
    names = [f"all-g{index}" for index in range(8)]
    starts = {name: chance.randrange(960) for name in names}
    moves = {name: game_by_chance(starts[name], chance, 30) for name in names}

    def begin(*chosen, pause):
        return [asyncio.create_task(plays(relay, it, starts[it], moves[it], pause)) for it in chosen]

    readers = [Reader(name) for name in names]
    async with ListReader(names) as heard:
        for reader in readers:
            await reader.__aenter__()

        def had():
            return sum(len(it.texts) for it in readers)
        games = begin(*names[:3], pause=0.1)
        for batch in (names[3:4], names[4:5], names[5:6]):
            async with every(relay) as process:
                before = had()
                games += begin(*batch, pause=0.1)
                await until(lambda: had() > before + 25)
                process.kill()
                await process.wait()
            if batch == names[4:5]:
                games += begin(*names[6:], pause=0)
            await asyncio.sleep(0.5)
        async with every(relay):
            await asyncio.gather(*games)
            for reader in readers:
                await reader.has(*whole(starts[reader.board], moves[reader.board]))
            await heard.shows_what_is_watched(relay)
        heard.is_orderly()
        for reader in readers:
            await reader.__aexit__()


async def try_restarted(relay):
    """The relay is restarted beside the feed: one of its boards has another game, one had ended, and one is gone, whose end is in the list
    and its channel."""
    await game(relay, "all-r1", FIRST)
    await game(relay, "all-r2", FIRST)
    ended = await game(relay, "all-r3", OTHER)
    await ended.end("all-r3")
    names = ["all-r1", "all-r2", "all-r3"]
    async with every(relay), ListReader(names) as heard, Reader(names[0]) as one, Reader(names[1]) as two, Reader(names[2]) as three:
        before = [following(), *moved(FIRST)]
        await one.has(*before)
        await two.has(*before)
        await three.has(following(), *moved(OTHER), over("agreed"))
        await heard.shows(stand("all-r1", FIRST), stand("all-r2", FIRST), stand("all-r3", OTHER, "agreed"))
        await again(relay)
        await game(relay, "all-r1", OTHER[:1])
        await one.has(*before, over(), following(), *moved(OTHER[:1]))
        await two.has(*before, over())
        await heard.shows(stand("all-r1", OTHER[:1]), stand("all-r2", FIRST, "abandoned"), stand("all-r3", OTHER, "agreed"))
        await game(relay, "all-r2", FIRST)
        await two.has(*before, over(), *before)
        await game(relay, "all-r3", FIRST)
        await three.has(following(), *moved(OTHER), over("agreed"), *before)
        await heard.shows(stand("all-r1", OTHER[:1]), stand("all-r2", FIRST), stand("all-r3", FIRST))
        await heard.shows_what_is_watched(relay)


async def try_both_anew(relay):
    """The relay is restarted while there is no feed. The next feed ends what is gone, in its channel and in the list, once."""
    await game(relay, "all-n1", FIRST)
    await game(relay, "all-n2", FIRST)
    async with ListReader(["all-n1", "all-n2"]) as heard, Reader("all-n1") as one, Reader("all-n2") as two:
        async with every(relay):
            await one.has(following(), *moved(FIRST))
            await two.has(following(), *moved(FIRST))
            await heard.shows(stand("all-n1", FIRST), stand("all-n2", FIRST))
        await again(relay)
        await game(relay, "all-n2", [*FIRST, "c2c4"])
        for _ in "12":
            async with every(relay):
                await one.has(following(), *moved(FIRST), over())
                await two.has(following(), *moved([*FIRST, "c2c4"]))
                await heard.shows(stand("all-n1", FIRST, "abandoned"), stand("all-n2", [*FIRST, "c2c4"]))
                await asyncio.sleep(1)
        assert heard.of("all-n1") == [stand("all-n1", FIRST), stand("all-n1", FIRST, "abandoned")], heard.of("all-n1")
        await one.has(following(), *moved(FIRST), over())


async def try_next(relay):
    """Next names: of a game that was abandoned before the next board was opened or after, that has a result, that was lost with the relay,
    or that never was there. A shorter game replaces none that has a result, and an empty one none."""
    client = await game(relay, "all-x1", FIRST)
    later = await game(relay, "all-y1", FIRST)
    await game(relay, "all-y1_2", OTHER)
    agreed = await game(relay, "all-z1", FIRST)
    await agreed.end("all-z1")
    shorter = await game(relay, "all-z1_2", OTHER[:1])
    await game(relay, "all-w1_3", OTHER)
    lost = await game(relay, "all-v1", FIRST)
    names = ["all-x1", "all-x1_2", "all-x1_3", "all-y1", "all-y1_2", "all-z1", "all-z1_2", "all-w1", "all-v1", "all-v1_2"]
    async with every(relay):
        readers = {it: Reader(it) for it in names}
        for reader in readers.values():
            await reader.__aenter__()
        before, other = [following(), *moved(FIRST)], [following(), *moved(OTHER)]
        await readers["all-w1"].has(follow_on("all-w1_3"))
        await client.close()
        await readers["all-x1"].has(*before, over())
        second = await game(relay, "all-x1_2", OTHER)
        await readers["all-x1"].has(*before, over(), follow_on("all-x1_2"))
        await later.close()
        await readers["all-y1"].has(*before, over(), follow_on("all-y1_2"))
        await second.close()
        third = await game(relay, "all-x1_3", OTHER)
        await third.submit("all-x1_3", "g1f3")
        await readers["all-x1_2"].has(*other, over(), follow_on("all-x1_3"))
        await readers["all-x1_3"].has(*other, *moved([*OTHER, "g1f3"])[2:])
        await readers["all-z1_2"].has(*other[:2])
        await readers["all-z1"].has(*before, over("agreed"))
        await shorter.submit("all-z1_2", OTHER[1])
        await readers["all-z1"].has(*before, over("agreed"), follow_on("all-z1_2"))
        await lost.submit("all-v1", "c2c4")
        await readers["all-v1"].has(*before, *moved([*FIRST, "c2c4"])[2:])
        await again(relay)
        await readers["all-v1"].has(*before, *moved([*FIRST, "c2c4"])[2:], over())
        resent = await game(relay, "all-v1_2")
        await readers["all-v1_2"].has(following())
        await readers["all-v1"].has(*before, *moved([*FIRST, "c2c4"])[2:], over())
        await resent.submit("all-v1_2", FIRST[0])
        await readers["all-v1"].has(*before, *moved([*FIRST, "c2c4"])[2:], over(), follow_on("all-v1_2"))
        await readers["all-x1"].has(*before, over(), follow_on("all-x1_2"))
        await readers["all-y1_2"].has(*other, over())
        await readers["all-w1"].has(follow_on("all-w1_3"))
        for reader in readers.values():
            await reader.__aexit__()


async def try_repeats(relay):
    """The last text of a silent board is published again and again, as it was, even while the relay is away. A feed that is restarted
    does so no earlier. A board that is gone is not published again after its end."""
    client = await game(relay, "all-s1", FIRST)
    await game(relay, "all-s2")
    repeats = ("--repeat", "2")
    first, second, moved_on = stand("all-s1", FIRST), stand("all-s2"), stand("all-s1", [*FIRST, "c2c4"])
    async with ListReader(["all-s1", "all-s2"]) as heard:
        async with every(relay, *repeats):
            await until(lambda: len(heard.of("all-s1")) >= 3 and len(heard.of("all-s2")) >= 3)
            for board, text in (("all-s1", first), ("all-s2", second)):
                assert heard.of(board) == [text] * len(heard.of(board)), heard.texts
            await client.submit("all-s1", "c2c4")
            await until(lambda: heard.of("all-s1").count(moved_on) >= 2)
        had = len(heard.texts)
        async with every(relay):
            await (await game(relay, "all-s3")).end("all-s3")
            await until(lambda: stand("all-s3", (), "agreed") in heard.texts)
            await asyncio.sleep(SILENCE)
            assert {it["board"] for it in heard.texts[had:]} == {"all-s3"}, heard.texts[had:]
        async with every(relay, *repeats):
            await until(lambda: heard.of("all-s1").count(moved_on) >= 4)
            await relay.kill()
            await until(lambda: heard.of("all-s1").count(moved_on) >= 6)
            await relay.start()
            await heard.shows(stand("all-s1", [*FIRST, "c2c4"], "abandoned"), stand("all-s2", (), "abandoned"))
            await asyncio.sleep(5)
        texts = heard.of("all-s1")
        last = texts.index(moved_on)
        assert texts == [first] * last + [moved_on] * (len(texts) - last - 1) + [stand("all-s1", [*FIRST, "c2c4"], "abandoned")], texts


async def try_replaced(relay):
    """The list repeats the successor alone, once it has taken the place of the first."""
    wrong = await game(relay, "all-o1", FIRST)
    await wrong.end("all-o1")
    right = await game(relay, "all-o1_2", FIRST[:1])
    result, corrected = stand("all-o1", FIRST, "agreed"), stand("all-o1_2", FIRST, "white wins by decision")
    async with ListReader(["all-o1", "all-o1_2"]) as heard, every(relay, "--repeat", "2"):
        await until(lambda: heard.of("all-o1").count(result) >= 3)
        await right.submit("all-o1_2", FIRST[1])
        await right.end("all-o1_2", "decided", result="1-0")
        await until(lambda: corrected in heard.texts)
        had = len(heard.of("all-o1"))
        await until(lambda: heard.of("all-o1_2").count(corrected) >= 3)
        assert len(heard.of("all-o1")) == had, heard.of("all-o1")


async def try_results(relay):
    """When the relay was restarted, a result is published again as long as its round goes on: while there is no board, and beside a game
    that goes on under its next name. Beside a board of another round it is not."""
    ended = await game(relay, "all-k1", OTHER)
    await ended.end("all-k1")
    await game(relay, "all-k2", FIRST)
    result = stand("all-k1", OTHER, "agreed")
    async with ListReader(["all-k1", "all-k2"]) as heard:
        async with every(relay, "--repeat", "2"):
            await until(lambda: result in heard.texts and stand("all-k2", FIRST) in heard.texts)
            for heirs in ((), ("all-k2_2",)):
                await again(relay)
                for heir in heirs:
                    await game(relay, heir, FIRST)
                    await until(lambda: stand("all-k2_2", FIRST) in heard.texts)
                had = heard.of("all-k1").count(result)
                await until(lambda: heard.of("all-k1").count(result) >= had + 2)
        async with every(relay, "--repeat", "2"):  # So does a feed that knows of the round no more than the channel has.
            had = heard.of("all-k1").count(result)
            await until(lambda: heard.of("all-k1").count(result) >= had + 2)
            await again(relay)
            await game(relay, "all-l1")
            await until(lambda: stand("all-l1") in heard.texts)
            had = len(heard.of("all-k1"))
            await asyncio.sleep(5)
            assert len(heard.of("all-k1")) == had, heard.of("all-k1")
    assert all(it == result for it in heard.of("all-k1") if it["outcome"] is not None), heard.of("all-k1")


async def try_list_beats(relay):
    """The list has beats as long as the relay is there, even if it has no board, and none once it is gone."""
    async with every(relay, "--beat", "0.3"), ListReader([]) as heard:
        await until(lambda: len(heard.beats) >= 4)
        await relay.kill()
        await asyncio.sleep(0.5)
        count = len(heard.beats)
        await asyncio.sleep(1)
        assert len(heard.beats) == count
        await relay.start()
        await until(lambda: len(heard.beats) >= count + 3)


async def try_list_name(relay):
    """A board that has the name of the list is reported on standard error and has no channel; others are fed."""
    await game(relay, LIST, FIRST)
    await game(relay, "all-q1", FIRST)
    async with every(relay, stderr=subprocess.PIPE) as process, ListReader([LIST, "all-q1"]) as heard, Reader("all-q1") as reader:
        assert await asyncio.wait_for(process.stderr.readline(), 20) == b"_boards: a board has the name of the list, so it has no channel\n"
        await reader.has(following(), *moved(FIRST))
        await heard.shows(stand("all-q1", FIRST))
        assert all(it["reply"] == "board" for it in heard.texts), heard.texts


async def try_own_port(relay):
    """On the main port there is no list: that is said, and the feed ends."""
    words = ("./feed.py", "--all", "--watch", relay.address)
    async with running(*words, stdout=subprocess.PIPE, stderr=subprocess.PIPE) as process:
        printed, said = await asyncio.wait_for(process.communicate(), 20)
    assert (process.returncode, printed, said) == (1, b"", b"_boards: refused 23 UnknownCommand\n"), (process.returncode, said)


async def try_words(_):
    """Words that do not belong together."""
    for words in ((), ("--all", "b1"), ("--all", "--names", "file"), ("--all", "--tries", "3"), ("--names", "file", "b1")):
        async with running("./feed.py", *words, **QUIET) as process:
            assert await asyncio.wait_for(process.wait(), 20) == 2, words
