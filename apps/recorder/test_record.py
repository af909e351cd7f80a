"""The tests of the recorder; test.sh starts them. Each is an async function whose name begins with try_."""
import asyncio
import contextlib
import json
import pathlib
import resource
import sys
import tempfile

from relay_client.client import Client
from relay_client.program import start_fen
from relay_client.relay import Relay
from relay_client.wire import Wire

HERE = pathlib.Path(__file__).resolve().parent
PATIENCE = 30  # Seconds: a machine that is busy with proofs needs some.
MOVES = ["e2e4", "e7e5", "g1f3", "g8f6", "b1c3", "b8c6"]


class Recorder:
    """record.py on board b1, and the file that it writes."""

    @classmethod
    async def start(cls, folder, address, *words, stderr=asyncio.subprocess.PIPE):
        self = cls()
        self.file = pathlib.Path(folder, "b1.record")
        self.process = await asyncio.create_subprocess_exec(
            "/usr/bin/python3", str(HERE / "record.py"), address, "b1", str(self.file), "--wait", "0.1", *words, stderr=stderr)
        return self

    async def until(self, moves):
        """Waits until the record has this many moves."""
        for _ in range(20 * PATIENCE):
            if self.file.exists() and len(self.file.read_text().splitlines()) == 2 + moves:
                return
            await asyncio.sleep(0.05)
        raise AssertionError(f"no {moves} moves: {self.file.read_text()}")

    async def ended(self, status, start, moves, outcome=None):
        """Waits for the end with that status, compares the whole file, and answers what standard error said."""
        _, said = await asyncio.wait_for(self.process.communicate(), PATIENCE)
        texts = [{"board": "b1", "record": 1, "start": start}, {"fen": start_fen(start), "joined": 0, "reply": "following"}]
        texts += [{"move": move, "place": place, "reply": "move"} for place, move in enumerate(moves)]
        texts += [{"outcome": outcome, "reply": "over"}] if outcome else []
        had = [json.loads(it) for it in self.file.read_text().splitlines()]
        assert self.process.returncode == status, (self.process.returncode, said)
        assert had == texts, (had, texts)
        return said.decode() if said else ""


async def until(test):
    """Waits until a test is true, of which a file may not be there yet."""
    for _ in range(20 * PATIENCE):
        with contextlib.suppress(FileNotFoundError):
            if test():
                return
        await asyncio.sleep(0.05)
    raise AssertionError("it has not become true")


async def begun(folder, start, moves, *words, **options):
    """A relay with a game so far and a recorder that has it."""
    relay = await Relay(**options).start()
    client = await Client.to(relay.address)
    await client.open("b1", start)
    recorder = await Recorder.start(folder, relay.address, *words)
    await recorder.until(0)
    await client.submit("b1", *moves)
    await recorder.until(len(moves))
    return relay, recorder


async def anew(relay, start, moves, outcome=True):
    """The relay is killed and restarted, and a game has the same name; it is ended as agreed, or goes on."""
    await relay.kill()
    await relay.start()
    client = await Client.to(relay.address)
    await client.open("b1", start)
    await client.submit("b1", *moves)
    if outcome:
        await client.end("b1")
    return client


async def try_whole(folder):
    """A game from before its opening until its end."""
    relay = await Relay().start()
    recorder = await Recorder.start(folder, relay.address)
    await asyncio.sleep(0.5)
    client = await Client.to(relay.address)
    await client.open("b1", 387)
    await client.submit("b1", *MOVES[:2])
    await client.ask(cmd="end", board="b1", how="resign", side="white")
    await recorder.ended(0, 387, MOVES[:2], "white resigns")


async def try_wire(folder):
    """More lost connections than tries: each brought a move, so they are not in a row, and the record is whole."""
    relay = await Relay().start()
    wire = await Wire(relay.port).mend()
    client = await Client.to(relay.address)
    await client.open("b1", 518)
    recorder = await Recorder.start(folder, wire.address, "--tries", "3")
    await recorder.until(0)
    for count, move in enumerate(MOVES, 1):
        await client.submit("b1", move)
        await recorder.until(count)
        wire.drop()
    await client.end("b1")
    await recorder.ended(0, 518, MOVES, "agreed")
    wire.server.close()


async def try_tries(folder):
    """This many tries in a row that bring nothing end it."""
    relay, recorder = await begun(folder, 518, MOVES[:2], "--tries", "5")
    await relay.kill()
    said = await recorder.ended(2, 518, MOVES[:2])
    assert said.count("no connection") == 6, said  # The one that was lost, and five that were not made.


async def try_connections(folder):
    """Waiting takes one connection, however often the board is asked for: a relay of two has one left to open it, and serves two."""
    relay = await Relay(connections=2).start()
    recorder = await Recorder.start(folder, relay.address)
    asked = [await asyncio.wait_for(recorder.process.stderr.readline(), PATIENCE) for _ in range(10)]
    assert asked == [b"b1: refused 1 NoSuchBoard\n"] * 10, asked
    client = await Client.to(relay.address)
    await client.open("b1", 518)
    await recorder.until(0)
    await client.submit("b1", *MOVES)
    await client.end("b1")
    await recorder.ended(0, 518, MOVES, "agreed")
    await client.close()
    await relay.has_served(2)


async def try_waiting(folder):
    """A board that is not opened is given up after this many tries, and that is reported."""
    relay = await Relay().start()
    recorder = await Recorder.start(folder, relay.address, "--tries", "3")
    _, said = await asyncio.wait_for(recorder.process.communicate(), PATIENCE)
    assert recorder.process.returncode == 2 and not recorder.file.exists(), recorder.process.returncode
    assert said == b"b1: refused 1 NoSuchBoard\n" * 3 + b"b1: given up after 3 tries in a row that brought nothing new\n", said


async def try_start(folder):
    """Another start under the same name, before the first move."""
    relay, recorder = await begun(folder, 518, [])
    await anew(relay, 0, ["a2a4", "a7a5"])
    assert "another game: it begins with" in await recorder.ended(3, 518, [])


async def try_move(folder):
    """Another move under the same name: at the first place and at the last, by a game that is longer than the record."""
    for index, moves in enumerate((["d2d4", *MOVES[1:]], [*MOVES[:3], "d7d6", *MOVES[4:]])):
        inside = pathlib.Path(folder, str(index))
        inside.mkdir()
        relay, recorder = await begun(inside, 518, MOVES[:4])
        await anew(relay, 518, moves)
        assert "another game: its move of place" in await recorder.ended(3, 518, MOVES[:4])


async def try_order(folder):
    """The same position by the same moves in another order."""
    relay, recorder = await begun(folder, 518, MOVES[2:])
    await anew(relay, 518, [*MOVES[4:], *MOVES[2:4]])
    assert "another game: its move of place 0" in await recorder.ended(3, 518, MOVES[2:])


async def try_shorter(folder):
    """A game of the same moves that ended earlier."""
    relay, recorder = await begun(folder, 518, MOVES[:4])
    await anew(relay, 518, MOVES[:3])
    assert "another game: it ended after 3 moves" in await recorder.ended(3, 518, MOVES[:4])


async def try_same(folder):
    """The same game under the same name in a new run: nothing is written twice, and it goes on."""
    relay, recorder = await begun(folder, 518, MOVES[:4])
    client = await anew(relay, 518, MOVES[:3], outcome=False)
    await asyncio.sleep(0.5)
    await client.submit("b1", *MOVES[3:])
    await client.end("b1")
    await recorder.ended(0, 518, MOVES, "agreed")


async def try_capacity(folder):
    """A relay that no longer gives the first moves."""
    relay = await Relay(capacity=2).start()
    wire = await Wire(relay.port).mend()
    client = await Client.to(relay.address)
    await client.open("b1", 518)
    recorder = await Recorder.start(folder, wire.address)
    await recorder.until(0)
    await client.submit("b1", *MOVES[:1])
    await recorder.until(1)
    await wire.cut()
    await client.submit("b1", *MOVES[1:3])
    await wire.mend()
    assert "TooFarBack" in await recorder.ended(1, 518, MOVES[:1])
    wire.server.close()


async def try_nothing(folder):
    """A run that brought nothing leaves no file, whether it ended by itself or was stopped. The same command then works."""
    relay = Relay()
    recorder = await Recorder.start(folder, relay.address)
    while not recorder.file.exists():
        await asyncio.sleep(0.05)
    recorder.process.terminate()
    await asyncio.wait_for(recorder.process.communicate(), PATIENCE)
    assert not recorder.file.exists()
    recorder = await Recorder.start(folder, relay.address, "--tries", "2")
    _, said = await asyncio.wait_for(recorder.process.communicate(), PATIENCE)
    assert recorder.process.returncode == 2 and said.count(b"no connection") == 2, said
    assert not recorder.file.exists()
    await relay.start()
    client = await Client.to(relay.address)
    await client.open("b1", 518)
    await client.end("b1")
    recorder = await Recorder.start(folder, relay.address, "--tries", "2")
    await recorder.ended(0, 518, [], "agreed")


async def try_full(folder):
    """A disk that is full where the record begins and in mid-game, by a limit for the size of files. What failed is reported, the file ends
    with a whole line meanwhile, and has each line once when there is room."""
    relay = await Relay().start()
    client = await Client.to(relay.address)
    recorder = await Recorder.start(folder, relay.address)
    await until(recorder.file.exists)

    async def full_at(size, command, *words):
        """Does this while the file can have so many bytes, and makes room after three tries."""
        had = recorder.file.read_bytes()
        hard = resource.prlimit(recorder.process.pid, resource.RLIMIT_FSIZE)[1]
        resource.prlimit(recorder.process.pid, resource.RLIMIT_FSIZE, (size, hard))
        await command("b1", *words)
        said = []
        while len(said) < 3:
            line = await asyncio.wait_for(recorder.process.stderr.readline(), PATIENCE)
            said += [line] if b"NoSuchBoard" not in line else []
        assert said == [f"b1: {recorder.file} is not written: [Errno 27] File too large\n".encode()] * 3, said
        await until(lambda: recorder.file.read_bytes() == had)
        resource.prlimit(recorder.process.pid, resource.RLIMIT_FSIZE, (hard, hard))

    await full_at(60, client.open, 518)  # The first line has 38 bytes.
    await recorder.until(0)
    await client.submit("b1", *MOVES[:2])
    await recorder.until(2)
    await full_at(recorder.file.stat().st_size + 10, client.submit, *MOVES[2:5])
    await recorder.until(5)
    await client.submit("b1", MOVES[5])
    await client.end("b1")
    await recorder.ended(0, 518, MOVES, "agreed")


async def try_said_nowhere(folder):
    """What it says goes to a file of a full disk: it records on."""
    relay = await Relay().start()
    with open("/dev/full", "wb") as full:
        recorder = await Recorder.start(folder, relay.address, "--pgn", f"{folder}/none/round.pgn", stderr=full)
    await asyncio.sleep(0.5)
    client = await Client.to(relay.address)
    await client.open("b1", 518)
    await client.submit("b1", *MOVES)
    await client.end("b1")
    await recorder.ended(0, 518, MOVES, "agreed")


async def try_file(folder):
    """A file that exists already is left as it is."""
    file = pathlib.Path(folder, "b1.record")
    file.write_text("kept\n")
    recorder = await Recorder.start(folder, "ws://127.0.0.1:1")
    _, said = await asyncio.wait_for(recorder.process.communicate(), PATIENCE)
    assert recorder.process.returncode == 1 and b"is there already" in said, said
    assert file.read_text() == "kept\n"


async def try_pgn(folder):
    """The PGN has each move when it comes, without a result until the end, and two boards in one file."""
    file = pathlib.Path(folder, "round.pgn")
    relay = await Relay().start()
    client = await Client.to(relay.address)
    await client.open("b1", 518)
    await client.open("b2", 0)
    recorder = await Recorder.start(folder, relay.address, "b2", f"{folder}/b2.record", "--pgn", str(file), "--players", "b2", "A", 'B "C"')
    for move, text in zip(MOVES, ("1. e4 *", "1. e4 e5 *", "1. e4 e5 2. Nf3 *")):
        await client.submit("b1", move)
        for _ in range(20 * PATIENCE):
            if file.exists() and f"\n{text}\n" in file.read_text():
                break
            await asyncio.sleep(0.05)
        assert f"\n{text}\n" in file.read_text(), file.read_text()
    await client.end("b1")
    await client.ask(cmd="end", board="b2", how="resign", side="white")
    await recorder.ended(0, 518, MOVES[:3], "agreed")
    first, second = file.read_text().split("\n\n[")
    assert first.endswith("1. e4 e5 2. Nf3 {Draw agreed.} 1/2-1/2") and '[Result "1/2-1/2"]' in first, first
    assert second.endswith("{White resigns.} 0-1\n") and '[White "A"]\n[Black "B \\"C\\""]\n[Result "0-1"]' in second, second
    assert '[FEN "bbqnnrkr/pppppppp/8/8/8/8/PPPPPPPP/BBQNNRKR w KQkq - 0 1"]' in second, second
    assert {it.name for it in pathlib.Path(folder).iterdir()} == {"b1.record", "b2.record", "round.pgn"}


async def try_pgn_ends(folder):
    """A flag that fell and an arbiter's decisions are in the record as the relay said them, and in the PGN as its standard has them."""
    relay, file = await Relay().start(), pathlib.Path(folder, "round.pgn")
    ends = {"b1": ("white loses on time", "0-1", "time forfeit", {"how": "time", "side": "white"}),
            "b2": ("black loses on time", "1-0", "time forfeit", {"how": "time", "side": "black"}),
            "b3": ("white wins by decision", "1-0", "adjudication", {"how": "decided", "result": "1-0"}),
            "b4": ("black wins by decision", "0-1", "adjudication", {"how": "decided", "result": "0-1"}),
            "b5": ("drawn by decision", "1/2-1/2", "adjudication", {"how": "decided", "result": "1/2-1/2"})}
    more = [word for board in list(ends)[1:] for word in (board, f"{folder}/{board}.record")]
    recorder = await Recorder.start(folder, relay.address, *more, "--pgn", str(file))
    client = await Client.to(relay.address)
    for board, (_, _, _, ending) in ends.items():
        await client.open(board)
        await client.submit(board, *MOVES[:3])
        await client.end(board, **ending)
    await recorder.ended(0, 518, MOVES[:3], "white loses on time")
    for game, (board, (outcome, result, termination, _)) in zip(file.read_text().split("\n\n[Event"), ends.items(), strict=True):
        last = json.loads(pathlib.Path(folder, f"{board}.record").read_text().splitlines()[-1])
        assert last == {"outcome": outcome, "reply": "over"}, last
        for tag in f'[BoardName "{board}"]', f'[Result "{result}"]', f'[Termination "{termination}"]':
            assert tag in game, (tag, game)
        assert game.endswith(f"}} {result}") or game.endswith(f"}} {result}\n"), game


async def try_pgn_there(folder):
    """A PGN that exists already is left as it is, and no record is begun."""
    file = pathlib.Path(folder, "round.pgn")
    file.write_text("kept\n")
    recorder = await Recorder.start(folder, "ws://127.0.0.1:1", "--pgn", str(file))
    _, said = await asyncio.wait_for(recorder.process.communicate(), PATIENCE)
    assert recorder.process.returncode == 1 and said == f"{file} is there already\n".encode(), said
    assert file.read_text() == "kept\n" and not recorder.file.exists()


async def try_pgn_unwritten(folder):
    """If the PGN cannot be written, that is reported at each text at least, and the record is whole."""
    relay = await Relay().start()
    client = await Client.to(relay.address)
    await client.open("b1", 518)
    recorder = await Recorder.start(folder, relay.address, "--pgn", f"{folder}/none/round.pgn")
    await client.submit("b1", *MOVES[:2])
    await client.end("b1")
    said = await recorder.ended(0, 518, MOVES[:2], "agreed")
    assert said.count("round.pgn is not written: ") >= 4, said


async def try_pgn_later(folder):
    """A PGN that could not be written is written once it can, without another text."""
    relay = await Relay(watch=True).start()
    recorder = await All.start(folder, relay, "--pgn", f"{folder}/later/all.pgn")
    await opened(relay, "a1", 518, MOVES[:2], "agreed")
    await recorder.has("a1.record", "a1", 518, MOVES[:2], "agreed")
    later = pathlib.Path(folder, "later")
    later.mkdir()
    await until(lambda: (later / "all.pgn").read_text().endswith("\n\n1. e4 e5 {Draw agreed.} 1/2-1/2\n"))
    await recorder.end()


class All:
    """record.py of all boards, and the folder to which it writes."""

    @classmethod
    async def start(cls, folder, relay, *words):
        self = cls()
        self.folder = pathlib.Path(folder)
        self.process = await asyncio.create_subprocess_exec(
            "/usr/bin/python3", str(HERE / "record.py"), relay.watch_address, "--all", folder, "--wait", "0.1", *words,
            stderr=asyncio.subprocess.DEVNULL)
        return self

    def had(self, name):
        file = self.folder / name
        return [json.loads(it) for it in file.read_text().splitlines()] if file.exists() else []

    async def has(self, name, board, start, moves, outcome=None):
        """Waits until the file has this game, and nothing else."""
        texts = [{"board": board, "record": 1, "start": start}, {"fen": start_fen(start), "joined": 0, "reply": "following"}]
        texts += [{"move": move, "place": place, "reply": "move"} for place, move in enumerate(moves)]
        texts += [{"outcome": outcome, "reply": "over"}] if outcome else []
        for _ in range(20 * PATIENCE):
            if self.had(name) == texts:
                return
            await asyncio.sleep(0.05)
        raise AssertionError((name, self.had(name), texts))

    def files(self):
        return {it.name for it in self.folder.iterdir() if it.stat().st_size > 0}

    async def end(self):
        self.process.terminate()
        await asyncio.wait_for(self.process.wait(), PATIENCE)
        assert self.process.returncode == 128 + 15, self.process.returncode


async def opened(relay, board, start, moves, outcome=None):
    client = await Client.to(relay.address)
    await client.open(board, start)
    await client.submit(board, *moves)
    if outcome:
        await client.end(board, outcome)
    return client


async def try_all(folder):
    """All boards, some there before and some opened later, each in its file, and in one PGN. A game that goes on under its next name has
    the players of the first. A recorder that is started again begins new files with the whole games."""
    relay = await Relay(watch=True).start()
    first = await opened(relay, "a1", 518, MOVES[:2])
    await opened(relay, "a2", 0, [], "agreed")
    recorder = await All.start(folder, relay, "--pgn", f"{folder}/all.pgn", "--players", "a3", "Adams", "Baker")
    await recorder.has("a1.record", "a1", 518, MOVES[:2])
    await recorder.has("a2.record", "a2", 0, [], "agreed")
    third = await opened(relay, "a3", 518, MOVES[:1])
    for _ in range(20 * PATIENCE):
        if len(recorder.had("a3.record")) == 3:
            break
        await asyncio.sleep(0.05)
    await third.end("a3")
    heir = await opened(relay, "a3_2", 518, MOVES[:1], "agreed")
    for _ in range(20 * PATIENCE):
        if len(recorder.had("a3_2.record")) == 4:
            break
        await asyncio.sleep(0.05)
    had = recorder.had("a3_2.record")
    assert had[0] == {"black": "Baker", "board": "a3_2", "record": 1, "start": 518, "white": "Adams"}, had
    await heir.close()
    await first.submit("a1", *MOVES[2:])
    await recorder.has("a1.record", "a1", 518, MOVES)
    for _ in range(20 * PATIENCE):
        if len(recorder.had("a3.record")) == 4:
            break
        await asyncio.sleep(0.05)
    head, *texts = recorder.had("a3.record")
    assert head == {"black": "Baker", "board": "a3", "record": 1, "start": 518, "white": "Adams"}, head
    assert texts[1:] == [{"move": MOVES[0], "place": 0, "reply": "move"}, {"outcome": "agreed", "reply": "over"}], texts
    await recorder.end()
    lines = (recorder.folder / "all.pgn").read_text().splitlines()
    names, whites = ([line.split('"')[1] for line in lines if line.startswith(f"[{tag} ")] for tag in ("BoardName", "White"))
    assert names == ["a1", "a2", "a3_2"] and whites == ["?", "?", "Adams"], (names, whites)
    assert recorder.files() == {"a1.record", "a2.record", "a3.record", "a3_2.record", "all.pgn"}, recorder.files()
    recorder = await All.start(folder, relay)
    await recorder.has("a1.2.record", "a1", 518, MOVES)
    await first.end("a1")
    await recorder.has("a1.2.record", "a1", 518, MOVES, "agreed")
    await recorder.has("a1.record", "a1", 518, MOVES)
    await recorder.end()


async def try_all_anew(folder):
    """The relay is restarted: one of its boards has the same game again, one another after it had ended, one another that is going on, and
    one is gone. Each other game has its own file, and nothing is written twice."""
    relay = await Relay(watch=True).start()
    await opened(relay, "same", 518, MOVES[:2])
    await opened(relay, "ended", 518, MOVES[:2], "agreed")
    await opened(relay, "other", 518, MOVES[:2])
    await opened(relay, "gone", 518, MOVES[:2])
    recorder = await All.start(folder, relay)
    for name in ("same", "other", "gone"):
        await recorder.has(f"{name}.record", name, 518, MOVES[:2])
    await recorder.has("ended.record", "ended", 518, MOVES[:2], "agreed")
    await relay.kill()
    await relay.start()
    same = await opened(relay, "same", 518, MOVES[:3])
    await opened(relay, "ended", 518, MOVES[:3])
    await opened(relay, "other", 0, ["a2a4"])
    await recorder.has("same.record", "same", 518, MOVES[:3])
    await recorder.has("ended.2.record", "ended", 518, MOVES[:3])
    await recorder.has("other.2.record", "other", 0, ["a2a4"])
    await same.end("same")
    await recorder.has("same.record", "same", 518, MOVES[:3], "agreed")
    await recorder.has("ended.record", "ended", 518, MOVES[:2], "agreed")
    await opened(relay, "gone", 518, MOVES[:2], "agreed")
    await recorder.has("gone.record", "gone", 518, MOVES[:2], "agreed")
    await recorder.end()
    wanted = {f"{it}.record" for it in ("same", "ended", "ended.2", "other", "other.2", "gone")}
    assert recorder.files() == wanted, recorder.files()


def names_in(file):
    """The boards of a PGN, in its order."""
    return [line.split('"')[1] for line in file.read_text().splitlines() if line.startswith("[BoardName ")]


async def try_all_replaced(folder):
    """A game that has a result is replaced in the PGN, at its place, by the one of its next name that has as many moves, an abandoned one
    by the first move. The empty board of a next name replaces none, and is left out. With --replaced all are there. The records have all.
    """
    both = pathlib.Path(folder, "both")
    both.mkdir()
    relay = await Relay(watch=True).start()
    wrong = await opened(relay, "a1", 518, MOVES[:4])
    await wrong.end("a1", "resign", side="white")
    await opened(relay, "a2", 518, MOVES[:4], "agreed")
    await opened(relay, "a2_2", 518, [], "abandoned")
    lost = await opened(relay, "a3", 518, MOVES[:4], "abandoned")
    right = await opened(relay, "a1_2", 518, MOVES[:3])
    recorder = await All.start(folder, relay, "--pgn", f"{folder}/all.pgn")
    whole = await All.start(str(both), relay, "--pgn", f"{both}/all.pgn", "--replaced")
    await recorder.has("a1.record", "a1", 518, MOVES[:4], "white resigns")
    await recorder.has("a1_2.record", "a1_2", 518, MOVES[:3])
    await recorder.has("a2_2.record", "a2_2", 518, [], "abandoned")
    await recorder.has("a3.record", "a3", 518, MOVES[:4], "abandoned")
    await until(lambda: sorted(names_in(recorder.folder / "all.pgn")) == ["a1", "a2", "a3"])
    await right.submit("a1_2", MOVES[3])
    await lost.open("a3_2")
    await recorder.has("a3_2.record", "a3_2", 518, [])
    await until(lambda: sorted(names_in(recorder.folder / "all.pgn")) == ["a1_2", "a2", "a3"])
    await lost.submit("a3_2", MOVES[0])
    await until(lambda: sorted(names_in(recorder.folder / "all.pgn")) == ["a1_2", "a2", "a3_2"])
    await right.end("a1_2", "decided", result="1-0")
    await lost.end("a3_2", "time", side="black")
    await until(lambda: set(names_in(both / "all.pgn")) == {"a1", "a1_2", "a2", "a2_2", "a3", "a3_2"})
    await until(lambda: 'Termination "time forfeit"' in (both / "all.pgn").read_text())
    await whole.has("a1.record", "a1", 518, MOVES[:4], "white resigns")
    await whole.has("a1_2.record", "a1_2", 518, MOVES[:4], "white wins by decision")
    await recorder.end()
    await whole.end()


async def try_all_replaced_anew(folder):
    """A game that was lost with the relay stands until its successor has a move, and is replaced at its place then."""
    relay = await Relay(watch=True).start()
    await opened(relay, "a1", 518, MOVES[:2])
    await opened(relay, "a2", 518, [])
    recorder = await All.start(folder, relay, "--pgn", f"{folder}/all.pgn")
    await until(lambda: sorted(names_in(recorder.folder / "all.pgn")) == ["a1", "a2"])
    before = names_in(recorder.folder / "all.pgn")
    await relay.kill()
    await relay.start()
    again = await opened(relay, "a1_2", 518, [])
    await recorder.has("a1_2.record", "a1_2", 518, [])
    await until(lambda: names_in(recorder.folder / "all.pgn") == before)
    await again.submit("a1_2", MOVES[0])
    await until(lambda: names_in(recorder.folder / "all.pgn") == [{"a1": "a1_2"}.get(it, it) for it in before])
    await recorder.has("a1.record", "a1", 518, MOVES[:2])
    await recorder.end()


async def try_all_unbegun(folder):
    """Records that cannot be begun, since their folder is not there, are begun once they can."""
    inside = pathlib.Path(folder, "records")
    inside.mkdir()
    relay = await Relay(watch=True).start()
    recorder = await All.start(str(inside), relay)
    await opened(relay, "b1", 518, [])
    await recorder.has("b1.record", "b1", 518, [])
    inside.rename(f"{folder}/elsewhere")
    client = await opened(relay, "b2", 518, MOVES[:2])
    await asyncio.sleep(1)
    await client.submit("b2", *MOVES[2:])
    inside.mkdir()
    await recorder.has("b2.record", "b2", 518, MOVES)
    await client.end("b2")
    await recorder.has("b2.record", "b2", 518, MOVES, "agreed")
    await recorder.end()


async def try_all_wire(folder):
    """Lost connections while games go on and after they have ended: each record is whole, and nothing is written twice."""
    relay = await Relay(watch=True).start()
    wire = await Wire(relay.watch_port).mend()
    relay.watch_port = wire.port
    client = await opened(relay, "b1", 518, [])
    await opened(relay, "b2", 518, MOVES[:1], "agreed")
    recorder = await All.start(folder, relay)
    for count, move in enumerate(MOVES, 1):
        await client.submit("b1", move)
        await recorder.has("b1.record", "b1", 518, MOVES[:count])
        wire.drop()
    await client.end("b1")
    await recorder.has("b1.record", "b1", 518, MOVES, "agreed")
    wire.drop()
    await asyncio.sleep(2)
    await opened(relay, "b3", 518, [], "agreed")
    await recorder.has("b3.record", "b3", 518, [], "agreed")
    await recorder.has("b1.record", "b1", 518, MOVES, "agreed")
    await recorder.has("b2.record", "b2", 518, MOVES[:1], "agreed")
    await recorder.end()
    assert recorder.files() == {"b1.record", "b2.record", "b3.record"}, recorder.files()
    wire.server.close()


async def try_all_refused(folder):
    """On the main port there is no list, and without a relay it gives up."""
    relay = await Relay(watch=True).start()
    watch_port, relay.watch_port = relay.watch_port, relay.port
    recorder = await All.start(folder, relay)
    assert await asyncio.wait_for(recorder.process.wait(), PATIENCE) == 1
    relay.watch_port = watch_port
    await relay.kill()
    recorder = await All.start(folder, relay, "--tries", "3")
    assert await asyncio.wait_for(recorder.process.wait(), PATIENCE) == 2
    assert recorder.files() == set()


async def main():
    wanted = sys.argv[1:]
    tries = {name[4:]: it for name, it in globals().items() if name.startswith("try_") and (not wanted or name[4:] in wanted)}
    failed = []
    for name, it in tries.items():
        with tempfile.TemporaryDirectory() as folder:
            try:
                await asyncio.wait_for(it(folder), 120)
                print(f"ok      {name}: {it.__doc__}", flush=True)
            except Exception as fault:
                failed.append(name)
                print(f"failed  {name}: {type(fault).__name__} {fault}", flush=True)
            finally:
                await Relay.stop_all()
    print(f"{len(tries) - len(failed)} of {len(tries)} passed")
    return 1 if failed else 0


sys.exit(asyncio.run(main()))
