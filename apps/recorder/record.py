#!/usr/bin/python3
"""Keeps the records of boards: follows each from its first move and writes each text of the relay to a file, as it comes.

    record.py ws://127.0.0.1:9600 b1 b1.record        (Debian: apt-get install python3-websockets)
    record.py ws://127.0.0.1:9600 b1 b1.record b2 b2.record --pgn round.pgn --event "Club final" --round 3 --players b1 Adams Baker
    record.py ws://127.0.0.1:9601 --all FOLDER        over the relay's watch port, which reports what boards there are

With --pgn it also writes the games of all its boards to one file that other chess programs read, again at each text.

A record has one JSON text per line: first {"board":..,"record":1,"start":..}, with the players if they are given ("white", "black"), then
the relay's texts. It is written through to the disk after each move, so it is whole up to the last move that came, and web/table.html
resumes the game from it. If that fails (the disk is full), it is tried again as after a lost connection. It waits for a board that is not
open yet, and asks for it again on the same connection: the relay accepts a limited number (--connections). After a lost connection it
follows from the first move again and compares what it receives with what it has: if the relay was restarted, another game may have the
board's name, and nothing of that is added. It ends with the game (status 0), if the relay no longer gives the first moves (1), if the file
exists already (1), after --tries in a row that brought nothing new (2), or if the board has another game than the record (3). If nothing
came, it leaves no file. With several boards it ends when all have ended, with the highest status.

With --all it records each board that is there or is opened, to FOLDER/BOARD.record, until it is stopped. A name that exists already
gets a number: b1.2.record. So does another game of a board. After --tries in a row that reported no board it ends with status 2.

A game that is over and goes on, or was corrected, under its next name (b1_2) is replaced by that: the PGN has the last one alone, and the
records have both. With --replaced the PGN has both, too.
"""
import argparse
import asyncio
import contextlib
import functools
import json
import os
import pathlib
import signal
import sys

import websockets

FAULTS = (OSError, asyncio.TimeoutError, websockets.WebSocketException)
ENDED, REFUSED, GIVEN_UP, ANOTHER, GONE = range(5)  # How a record ended: the statuses, and for --all that the board is no longer there.

sys.path.append(str(pathlib.Path(__file__).resolve().parent.parent.parent / "tools"))

from pgn import Round, say  # noqa: E402
from relay_client.line import Line, Refused  # noqa: E402
from relay_client.names import first_name  # noqa: E402
from starts import start_number  # noqa: E402


class Broken(Exception):
    """Why a record cannot go on, and the status that says so."""

    def __init__(self, status, words):
        super().__init__(words)
        self.status = status


class Unwritten(Exception):
    """Why lines are not in a record's file. None of them is, and they may be written again."""


class Record:
    """A record's file, and how many of its moves the present connection has sent. `kept` is called with each text that it has kept, and
    `lost` where the relay no longer has its game."""

    def __init__(self, path, board, players=None):
        self.file = open(path, "xb", buffering=0)
        self.whole = 0  # How many bytes of its lines are written through.
        self.board = board
        self.players = players or {}
        self.kept, self.lost = lambda text: None, lambda: None
        self.first = None
        self.moves = []
        self.outcome = None
        self.told = 0

    def write(self, *values):
        """Adds a line for each, through to the disk. If that fails, none of them stays."""
        lines = "".join(json.dumps(it, separators=(",", ":"), sort_keys=True) + "\n" for it in values).encode("ascii")
        try:
            self.cut()
            put = 0
            while put < len(lines):
                put += self.file.write(lines[put:])
            os.fsync(self.file.fileno())
        except OSError as fault:
            with contextlib.suppress(OSError):
                self.cut()
            raise Unwritten(f"{self.file.name} is not written: {fault}") from fault
        self.whole += len(lines)

    def cut(self):
        """Cuts the file back to what is whole, and goes on there."""
        self.file.truncate(self.whole)
        self.file.seek(self.whole)

    def keep(self, text, *before):
        self.write(*before, text)
        self.kept(text)

    def close(self):
        """Ends the file. One in which nothing was written is removed, so that the same command may be given again."""
        if os.fstat(self.file.fileno()).st_size == 0:
            os.remove(self.file.name)
        self.file.close()

    def size(self):
        """Grows with each text that is kept."""
        return len(self.moves) + (self.first is not None)

    async def hear(self, _, text):
        """Keeps a text that is new, and compares one that comes again with the record."""
        {"following": self.following, "move": self.move, "over": self.over}[text["reply"]](text)

    def following(self, text):
        self.told = 0
        if self.first is None:
            self.keep(text, {"board": self.board, "record": 1, "start": start_number(text["fen"]), **self.players})
            self.first = text["fen"]
        elif text["fen"] != self.first:
            raise self.another(f"it begins with {text['fen']}, the record with {self.first}")

    def move(self, text):
        place, move = text["place"], text["move"]
        if place != self.told:
            raise Broken(REFUSED, f"place {self.told} is missing: the relay told {place}")
        if place == len(self.moves):
            if self.outcome is not None:
                raise self.another(f"it goes on after {place} moves, where the record has {self.outcome}")
            self.keep(text)
            self.moves.append(move)
        elif move != self.moves[place]:
            raise self.another(f"its move of place {place} is {move}, the record's is {self.moves[place]}")
        self.told += 1

    def over(self, text):
        if self.told < len(self.moves):
            raise self.another(f"it ended after {self.told} moves, the record has {len(self.moves)}")
        if self.outcome is None:
            self.keep(text)
            self.outcome = text["outcome"]
        elif self.outcome != text["outcome"]:
            raise self.another(f"it ended as {text['outcome']}, the record as {self.outcome}")

    def another(self, words):
        return Broken(ANOTHER, f"another game: {words}; nothing of it is in the record")

    def say(self, words):
        say(f"{self.board}: {words}")


async def keep(server, record, tries, wait, waits=True):
    """Follows the board until its game is over, or this many tries in a row brought nothing new. Returns how it ended. If it is not to wait
    for the board, it ends if the relay has none."""
    line = Line(server)
    failed = 0
    try:
        while failed < tries:
            had = record.size()
            try:
                if await line.follow(record.board, record.hear):
                    return ENDED
            except Refused as fault:
                record.say(fault)
                if fault.name == "NoSuchBoard" and not waits:
                    return GONE
                if not fault.later:
                    return REFUSED
            except Unwritten as fault:
                record.say(fault)
            except FAULTS as fault:
                record.say(f"no connection: {fault}")
            except Broken as fault:
                record.say(fault)
                return fault.status
            failed = failed + 1 if record.size() == had else 0
            if failed > 0:
                await asyncio.sleep(wait)
        record.say(f"given up after {tries} tries in a row that brought nothing new")
        return GIVEN_UP
    finally:
        await line.close()


class Every:
    """The records of all boards that a watch port reports. `make(board, number)` makes the board's next record, from this number on, and
    returns it with its own number."""

    def __init__(self, given, make):
        self.given, self.make = given, make
        self.records = {}  # The last record of each board, and its number.
        self.told = set()  # The boards that were reported on the present connection.
        self.again = set()  # Those that were reported on a new connection since they were followed last.
        self.tasks = {}
        self.group = None

    async def for_ever(self):
        """Returns the status to end with, if it must end."""
        async with asyncio.TaskGroup() as self.group:
            status = await self.listen()
            for task in self.tasks.values():
                task.cancel()
        return status

    async def listen(self):
        line, failed = Line(self.given.server), 0
        try:
            while failed < self.given.tries:
                self.told.clear()
                try:
                    await line.boards(self.hear)
                except Refused as fault:
                    say(f"boards: {fault}")
                    if not fault.later:
                        return REFUSED
                except FAULTS as fault:
                    say(f"boards: no connection: {fault}")
                failed = 0 if self.told else failed + 1
                await asyncio.sleep(self.given.wait)
            say(f"boards: given up after {failed} tries in a row that told of none")
            return GIVEN_UP
        finally:
            await line.close()

    async def hear(self, _, text):
        board = text["board"]
        if board not in self.told:
            self.told.add(board)
            self.again.add(board)
            if board not in self.tasks:
                self.tasks[board] = self.group.create_task(self.keep(board))

    async def keep(self, board):
        """Records a board until its game is over or the relay no longer has it. One that is reported on a new connection is compared with
        its record, and gets another record if its game is another."""
        number = 1
        while board in self.again:
            try:
                if board not in self.records:
                    self.records[board] = self.make(board, number)
            except OSError as fault:
                say(f"{board}: no record is begun: {fault}")
                await asyncio.sleep(self.given.wait)
                continue
            self.again.discard(board)
            record, number = self.records[board]
            status = await keep(self.given.server, record, self.given.tries, self.given.wait, waits=False)
            if status in (ANOTHER, GONE):
                record.lost()
            if status == ANOTHER:
                del self.records[board]
                number += 1
                self.again.add(board)
        del self.tasks[board]  # Nothing is awaited between the last test and this, so no report is missed.


def arguments():
    words = argparse.ArgumentParser(description="Keeps the records of boards in files, and their games as PGN.")
    words.add_argument("server", help="the relay, as ws://127.0.0.1:9600")
    words.add_argument("boards", nargs="*", metavar="BOARD FILE", help="a board and a new file for its record, or several such pairs")
    words.add_argument("--all", metavar="FOLDER", help="record all boards of a watch port, each to a new file of this folder")
    words.add_argument("--tries", type=int, default=3600, help="tries in a row that bring nothing new (3600)")
    words.add_argument("--wait", type=float, default=1, help="seconds between two tries (1)")
    words.add_argument("--pgn", metavar="FILE", help="a new file for the games of all boards as PGN")
    words.add_argument("--replaced", action="store_true", help="the PGN has also the games that others of their next names replaced")
    for name in ("event", "site", "round"):
        words.add_argument(f"--{name}", metavar="TEXT", default="?", help=f"the {name} that the PGN tells")
    words.add_argument("--players", nargs=3, action="append", default=[], metavar=("BOARD", "WHITE", "BLACK"),
                       help="a board's players, in its record and in the PGN")
    given = words.parse_intermixed_args()
    if bool(given.boards) == bool(given.all):
        words.error("give either boards and their files or --all FOLDER")
    if given.all:
        if not pathlib.Path(given.all).is_dir():
            words.error(f"{given.all} is no folder")
        return given
    if len(given.boards) % 2 != 0:
        words.error("each board needs a file")
    given.boards = list(zip(given.boards[::2], given.boards[1::2]))
    strangers = {it[0] for it in given.players} - {board for board, _ in given.boards}
    if strangers:
        words.error(f"players of a board that is not recorded: {', '.join(sorted(strangers))}")
    return given


def players_of(given, board):
    """The players of a board, if they are given: for it, or for the first game, which goes on under its name."""
    told = {name: {"white": white, "black": black} for name, white, black in reversed(given.players)}
    return told.get(board, told.get(first_name(board), {}))


def labels(given, board):
    """What the PGN says of a board's game that the relay does not know."""
    players = players_of(given, board)
    return {"Event": given.event, "Site": given.site, "Round": given.round, "White": players.get("white", "?"),
            "Black": players.get("black", "?")}


@contextlib.contextmanager
def undisturbed():
    """Holds back the signals that end the program: a file that it has begun is one that it will close."""
    held = signal.pthread_sigmask(signal.SIG_BLOCK, {signal.SIGINT, signal.SIGTERM})
    try:
        yield
    finally:
        signal.pthread_sigmask(signal.SIG_SETMASK, held)


class Maker:
    """Makes records, which are ended with `closing`."""

    def __init__(self, given, closing):
        self.given, self.closing = given, closing
        self.together = Round(given.pgn, given.replaced) if given.pgn else None

    def record(self, board, file):
        players = players_of(self.given, board)
        with undisturbed():
            record = Record(file, board, players)
            self.closing.callback(record.close)
        if self.together:
            game = self.together.begin(board, labels(self.given, board))
            record.kept, record.lost = functools.partial(self.together.take, game), functools.partial(self.together.lose, game)
        return record

    async def beside(self, work):
        """Does the work, and meanwhile writes the PGN again where it could not be written. Returns what the work does."""
        again = asyncio.create_task(self.catch_up())
        try:
            return await work
        finally:
            again.cancel()

    async def catch_up(self):
        while self.together:
            await asyncio.sleep(self.given.wait)
            if self.together.is_behind:
                self.together.write()

    def numbered(self, board, number):
        """A record of the folder, with the first number from this one on whose file is not there."""
        while True:
            try:
                tail = f".{number}" if number > 1 else ""
                return self.record(board, pathlib.Path(self.given.all, f"{board}{tail}.record")), number
            except FileExistsError:
                number += 1


async def keep_all(given, records):
    """Answers the highest status."""
    return max(await asyncio.gather(*(keep(given.server, it, given.tries, given.wait) for it in records)))


def main():
    given = arguments()
    signal.signal(signal.SIGTERM, lambda *_: sys.exit(128 + signal.SIGTERM))
    with contextlib.ExitStack() as closing:
        try:
            maker = Maker(given, closing)
            if given.all:
                return asyncio.run(maker.beside(Every(given, maker.numbered).for_ever()))
            records = [maker.record(board, file) for board, file in given.boards]
        except FileExistsError as fault:
            say(f"{fault.filename} is there already")
            return 1
        except KeyboardInterrupt:
            return 128 + signal.SIGINT
        return asyncio.run(maker.beside(keep_all(given, records)))


if __name__ == "__main__":
    sys.exit(main())
