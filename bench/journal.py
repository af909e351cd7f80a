#!/usr/bin/env -S python3 -B
"""What a journal costs: of one program or of several, in turn in each round, beside Redis and SQLite on the same disk.

    bench/journal.py --room FOLDER                           the built program, or that of the environment's RELAY960; files in that folder
    bench/journal.py --room FOLDER before=PROGRAM after=PROGRAM
    bench/journal.py --room FOLDER --what answers --rounds 1

syncs    a line of 66 bytes written and synced by `fdatasync` (syncs.c), one after another and with an operator's pauses: the disk itself
answers  how long an operator waits for its answer to a move (operators.c), without a journal and with one
moves    500 operators at once, two of each of 250 boards (moves.c): moves answered in a second, how long one waits, and what the server
         holds then; without a journal and with one
appends  the same appends elsewhere: Redis with `appendfsync always` (XADD, by redis-benchmark), and SQLite with a write-ahead log and
         `synchronous=FULL`; one at a time, and 250 at once
starts   from the start to the line `listening`: without a journal, with that of 256 games of 200 plies, and `relay960 journal` of it

The folder says which disk is measured; without it the present one is. Prints the medians of the rounds with the least and greatest, the
disk, and the load of the machine. What is not installed is said and left out (Debian: redis-server). Nothing else is to run on it.
"""
import argparse
import contextlib
import csv
import itertools
import json
import os
import pathlib
import shutil
import sqlite3
import statistics
import subprocess
import sys
import tempfile
import time

import serving
from lines import plies
from operators import Figures, Program, held
from relay_client import journals
from relay_client.ports import free_port
from relay_client.program import PROGRAM
from relay_client.texts import opens, submits

LINE = 66  # Bytes of a move's line.
SYNCS, PAUSED, PAUSE = 2000, 200, 10_000  # How many, how many with pauses, and microseconds of one.
MOVES = 200
PAIRS, MOVES_OF_PAIR = 250, 400
APPENDS = 2000
GAMES, PLIES = 256, 200
KEY = "the-key-of-all-games"
PLAIN, KEPT = "without a journal", "with a journal"


def percentiles(seconds):
    times = sorted(1000 * it for it in seconds)
    return {"median_ms": round(times[len(times) // 2], 3), "p99_ms": round(times[len(times) * 99 // 100], 3)}


def said_by(*words):
    """What a client measured; nothing if the run is lost."""
    run = subprocess.run([str(word) for word in words], stdout=subprocess.PIPE, text=True)
    return json.loads(run.stdout) if run.returncode == 0 else None


def note(figures, what, whom, found):
    if found:
        figures.note(what, whom, found)
    else:
        print(f"{what}, {whom}: lost", file=sys.stderr)


@contextlib.contextmanager
def running(program, room, journal=None):
    """A server, which keeps this journal if one is named."""
    port = free_port()
    words = [program.path, "serve", "--port", str(port), "--forever", "--boards", "256", "--plies", "1024", "--capacity", "1024",
             "--grace", "60", *(["--journal", str(journal)] if journal else [])]
    server = serving.Server("relay", words, room, port)
    try:
        yield server
    finally:
        server.stop()


def each(programs, room):
    """Each program without a journal and with a new one."""
    for program, way in itertools.product(programs, (PLAIN, KEPT)):
        file = pathlib.Path(room, "games")
        file.unlink(missing_ok=True)
        yield f"{program.name}, {way}", program, file if way == KEPT else None


def syncs(_programs, room, figures):
    for what, count, pause in ("one after another", SYNCS, 0), (f"with pauses of {PAUSE // 1000} ms", PAUSED, PAUSE):
        file = pathlib.Path(room, "line")
        note(figures, f"{LINE} bytes and fdatasync, {what}", "the disk", said_by(f"{room}/syncs", file, LINE, count, pause))
        file.unlink()


def answers(programs, room, figures):
    for whom, program, journal in each(programs, room):
        with running(program, room, journal) as server:
            words = [f"{room}/operators", str(server.port), "0", str(MOVES), "nobody", "0", "0"]
            with subprocess.Popen(words, stdin=subprocess.PIPE, stdout=subprocess.PIPE, text=True) as client:
                client.stdout.readline()
                said = client.communicate("go\n")[0]
        found = json.loads(said) if client.returncode == 0 else {}
        note(figures, "an operator's answer", whom, {key: found[key] for key in ("median_ms", "p99_ms", "most_ms") if key in found})


def moves(programs, room, figures):
    for whom, program, journal in each(programs, room):
        with running(program, room, journal) as server:
            found = said_by(f"{room}/moves", server.port, PAIRS, MOVES_OF_PAIR)
            if found:
                found.update(resident_kb=held(server)["resident_kb"])
        if found and journal:
            kept = journals.boards_in(journals.lines_in(journal.read_bytes()))
            assert sum(len(board.moves) for board in kept.values()) == PAIRS * MOVES_OF_PAIR, "the journal lacks moves"
        note(figures, f"{2 * PAIRS} operators at once", whom, found)


@contextlib.contextmanager
def redis(room):
    port = free_port()
    words = ["redis-server", "--port", str(port), "--dir", room, "--appendonly", "yes", "--appendfsync", "always", "--save", ""]
    server = serving.Server("redis", words, room, port)
    try:
        yield port
    finally:
        server.stop()
        shutil.rmtree(pathlib.Path(room, "appendonlydir"), ignore_errors=True)


def redis_appends(port, clients, count):
    """What redis-benchmark says of so many appends of so many clients: its row, by the names of its columns."""
    words = ["redis-benchmark", "-p", str(port), "-c", str(clients), "-n", str(count), "--csv"]
    run = subprocess.run([*words, "XADD", "games", "*", "board", "b1", "move", "e2e4"], capture_output=True, text=True, check=True)
    return list(csv.DictReader(run.stdout.splitlines()))[-1]


def appends(_programs, room, figures):
    if shutil.which("redis-server") and shutil.which("redis-benchmark"):
        with redis(room) as port:
            one, many = redis_appends(port, 1, APPENDS), redis_appends(port, PAIRS, PAIRS * MOVES_OF_PAIR)
        figures.note("one append", "Redis, appendfsync always", {
            "median_ms": float(one["p50_latency_ms"]), "p99_ms": float(one["p99_latency_ms"]), "most_ms": float(one["max_latency_ms"])})
        figures.note(f"{PAIRS} appends at once", "Redis, appendfsync always", {
            "a_second": float(many["rps"]), "median_ms": float(many["p50_latency_ms"]), "p99_ms": float(many["p99_latency_ms"])})
    else:
        print("redis-server is missing: no row of Redis", file=sys.stderr)
    file = pathlib.Path(room, "rows")
    whom = f"SQLite {sqlite3.sqlite_version}, WAL, synchronous=FULL"
    with contextlib.closing(sqlite3.connect(file, isolation_level=None)) as base:
        base.execute("PRAGMA journal_mode=WAL")
        base.execute("PRAGMA synchronous=FULL")
        base.execute("CREATE TABLE moves (board TEXT, move TEXT)")
        figures.note("one append", whom, percentiles([sqlite_appends(base, 1) for _ in range(APPENDS)]))
        took = [sqlite_appends(base, PAIRS) for _ in range(MOVES_OF_PAIR)]
        figures.note(f"{PAIRS} appends at once", whom, {"a_second": round(PAIRS * len(took) / sum(took)), **percentiles(took)})
    for it in pathlib.Path(room).glob("rows*"):
        it.unlink()


def sqlite_appends(base, count):
    """How long so many appends take that are one transaction."""
    began = time.perf_counter()
    base.execute("BEGIN IMMEDIATE")
    base.executemany("INSERT INTO moves VALUES (?, ?)", [("b1", "e2e4")] * count)
    base.execute("COMMIT")
    return time.perf_counter() - began


def large_journal():
    """The journal of 256 games of 200 plies, each move of which was a write of its own. None has ended, so a start adds nothing."""
    game = list(itertools.islice(plies(), PLIES))
    names = [f"board-{number}" for number in range(GAMES)]
    writes = [[journals.FIRST_BODY], *([journals.body(opens(name), KEY)] for name in names)]
    return journals.sealed(writes + [[journals.body(submits(name, move))] for move in game for name in names])


def seconds_to_listen(program, journal):
    words = [program.path, "serve", "--port", str(free_port()), "--forever", "--boards", "256", "--plies", "1024", "--grace", "60",
             *(["--journal", str(journal)] if journal else [])]
    began = time.perf_counter()
    with subprocess.Popen(words, stdout=subprocess.PIPE, stderr=subprocess.PIPE) as process:
        line = process.stdout.readline()
        took = time.perf_counter() - began
        process.kill()
        complaint = process.stderr.read()
    if not line.startswith(b"listening"):
        raise SystemExit(f"{program.name} did not start: {complaint.decode()}")
    return took


def starts(programs, room, figures):
    file, data = pathlib.Path(room, "large"), large_journal()
    megabytes = f"{len(data) / 1e6:.1f} MB"
    for program in programs:
        figures.note("a start", f"{program.name}, {PLAIN}", {"s": round(seconds_to_listen(program, None), 3)})
        file.write_bytes(data)
        figures.note("a start", f"{program.name}, with {GAMES} games of {PLIES} plies, {megabytes}",
                     {"s": round(seconds_to_listen(program, file), 3)})
        assert file.read_bytes() == data, "the start has changed the journal"
        began = time.perf_counter()
        run = subprocess.run([program.path, "journal", str(file)], capture_output=True, text=True)
        took = time.perf_counter() - began
        assert run.returncode == 0 and len(run.stdout.splitlines()) > GAMES, run
        figures.note("`journal` of that", program.name, {"s": round(took, 3)})
    file.unlink()


WHAT = {"syncs": syncs, "answers": answers, "moves": moves, "appends": appends, "starts": starts}


def disk(room):
    """The disk that has this folder: its kind and its name."""
    path = str(pathlib.Path(room).resolve())
    mounts = [line.split() for line in pathlib.Path("/proc/mounts").read_text().splitlines()]
    under = [it for it in mounts if path == it[1] or path.startswith(it[1].rstrip("/") + "/")]
    source, _, kind, options, *_ = max(under, key=lambda it: len(it[1]))
    return f"{kind} on {source} ({options})"


def main():
    words = argparse.ArgumentParser(description=__doc__, formatter_class=argparse.RawDescriptionHelpFormatter)
    words.add_argument("programs", nargs="*", metavar="NAME=PROGRAM", default=[f"relay960={PROGRAM}"])
    words.add_argument("--what", choices=WHAT, help="this alone")
    words.add_argument("--rounds", type=int, default=5)
    words.add_argument("--room", default=".", metavar="FOLDER", help="where the files are, in a folder of their own")
    given = words.parse_args()
    jobs = [WHAT[given.what]] if given.what else WHAT.values()
    serving.raised_limit(2 * PAIRS)
    programs = [Program(*named.split("=", 1)) for named in given.programs]
    figures, loads = Figures(), []
    with tempfile.TemporaryDirectory(dir=given.room) as room:
        os.chmod(room, 0o755)
        for client in ("operators", "syncs", "moves"):
            serving.built(room, client)
        print(f"{os.cpu_count()} processors; {disk(room)}")
        for number in range(given.rounds):
            loads.append(os.getloadavg()[0])
            print(f"round {number + 1}, load {loads[-1]:.1f}", file=sys.stderr)
            for job in jobs:
                # Who is first in one round is last in the next.
                job(programs[::-1] if number % 2 else programs, room, figures)
    print(f"load at the rounds' starts: {statistics.median(loads):.1f} in the median, {max(loads):.1f} at the most")
    figures.show()


if __name__ == "__main__":
    main()
