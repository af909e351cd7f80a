#!/usr/bin/env -S python3 -B
"""What those who follow on the main port cost its operators, and what they get: of one program or of several, in turn in each round.

    bench/operators.py                                       the built program, or that of the environment's RELAY960
    bench/operators.py before=PROGRAM after=PROGRAM          two programs, and what to call them
    bench/operators.py --what answers --rounds 1
    bench/operators.py --busy 12                             how long an operator waits beside 12 programs that never rest

answers  how long an operator waits for its answer to a move (operators.c), with followers and with a crowd beside them; the memory and the
         threads of the server once the followers are there
turns    a move, all 100 followers have it, the next: processor time a delivery and deliveries a second (reader.c), beside nchan
places   of a follower on a quiet board: from its ping to the pong, from its close to the answer, and until its place is free
rests    how long an operator waits beside 10,000 connections that shook hands and rest, with 256 boards open; and the server's memory then
elsewhere how long an operator waits with nobody following, while another server of the same machine has the followers and the crowd: what
is left
         of that is the machine's own

Prints the medians of the rounds with the least and greatest, and the load of the machine. Nothing else is to run on it.
"""
import argparse
import collections
import contextlib
import itertools
import json
import os
import pathlib
import re
import statistics
import subprocess
import sys
import tempfile
import time

import serving
from relay_client.connection import Connection
from relay_client.frames import PING, REQUEST, masked
from relay_client.pinning import senders
from relay_client.ports import free_port
from relay_client.program import PROGRAM
from relay_client.tests.sessions import guest_of, owner_of
from relay_client.texts import OPENED, following, follows, opens

MOST_FOLLOWERS = 1024
MOVES = {"answers": 200, "turns": 1000}
TURNS_FOLLOWERS = 100
# What there is beside the operator: followers, what the crowd does, how many it has, and how many questions of each are on their way.
CROWDS = {
    "nobody follows": (0, "nobody", 0, 0),
    "100 follow": (100, "nobody", 0, 0),
    "1,000 follow": (1000, "nobody", 0, 0),
    "1,000 follow, 16 join and leave": (1000, "joins", 16, 0),
    "100 follow, 5,000 come at once, and again": (100, "comes", 5000, 0),
    "1,000 fill the board, 100 are refused, one question each": (1000, "refused", 100, 1),
    "1,000 fill the board, 100 are refused, 40 questions each": (1000, "refused", 100, 40),
    "100 follow, 500 of one key move in vain, 40 moves each": (100, "owns", 500, 40),
}
# Seconds that a follower waits for an answer, or for a place.
PATIENCE = 3
PINGS = 50
RESTING, BOARDS = 10_000, 256

Program = collections.namedtuple("Program", "name path")


class Figures:
    """What was measured, by what and by whom. A figure that did not come in time is None."""

    def __init__(self):
        self.rows = collections.defaultdict(list)

    def note(self, what, whom, figures):
        self.rows[what, whom].append({**figures, "load": os.getloadavg()[0]})

    def show(self):
        for (what, whom), rows in self.rows.items():
            print(f"{what} | {whom} | " + "; ".join(f"{key} {spread([row[key] for row in rows])}" for key in rows[0]))


def spread(values):
    if None in values:
        return "none in time"
    return f"{statistics.median(values):g} ({min(values):g} to {max(values):g})"


@contextlib.contextmanager
def running(program, room, followers=MOST_FOLLOWERS, boards=16):
    port = free_port()
    words = [program.path, "serve", "--port", str(port), "--forever", "--followers", str(followers), "--capacity", "1024",
             "--plies", "1024", "--boards", str(boards), "--grace", "60"]
    server = serving.Server("relay", words, room, port)
    try:
        yield server
    finally:
        server.stop()


def held(server):
    """The server's resident kilobytes and its threads."""
    process = pathlib.Path("/proc", str(server.process.pid))
    memory = re.search(r"^Rss:\s+(\d+) kB$", (process / "smaps_rollup").read_text(), re.M)[1]
    return {"resident_kb": int(memory), "threads": len(list((process / "task").iterdir()))}


def waits(server, crowd, room):
    """How long an operator of the server waits beside this crowd, and what the server holds; nothing if the run is lost."""
    followers, kind, peers, ahead = crowd
    words = [f"{room}/operators", str(server.port), str(followers), str(MOVES["answers"]), kind, str(peers), str(ahead)]
    with subprocess.Popen(words, stdin=subprocess.PIPE, stdout=subprocess.PIPE, text=True) as client:
        client.stdout.readline()
        holds = held(server)
        said = client.communicate("go\n")[0]
    return {**json.loads(said), **holds} if client.returncode == 0 else None


def note(figures, what, program, found):
    if found:
        figures.note(what, program.name, found)
    else:
        print(f"{what}, {program.name}: lost", file=sys.stderr)


def answers(programs, room, figures, crowds=CROWDS):
    resident = {}
    for (what, crowd), program in itertools.product(crowds.items(), programs):
        followers, kind, *_ = crowd
        with running(program, room, followers if kind == "refused" else MOST_FOLLOWERS) as server:
            found = waits(server, crowd, room)
        resident[what, program] = found["resident_kb"] if found else 0
        note(figures, what, program, found)
    for program in programs if "1,000 follow" in crowds else []:
        more = resident["1,000 follow", program] - resident["100 follow", program]
        figures.note("memory of a follower", program.name, {"kb": round(more / 900, 1)})


def rests(programs, room, figures):
    for program in programs:
        with running(program, room, boards=BOARDS) as server:
            owner = Connection(server.port)
            for number in range(BOARDS - 1):
                owner.asks(opens(f"rests-{number}"), OPENED)
            peers = senders(server, REQUEST, RESTING)
            note(figures, f"{RESTING:,} rest, {BOARDS} boards", program, waits(server, CROWDS["nobody follows"], room))
            for peer in peers:
                peer.close()
            owner.close()


@contextlib.contextmanager
def crowded(program, room, crowd):
    """While another server has this crowd, and its operator plays on."""
    followers, kind, peers, ahead = crowd
    with running(program, room, followers if kind == "refused" else MOST_FOLLOWERS) as server:
        words = [f"{room}/operators", str(server.port), str(followers), "1000", kind, str(peers), str(ahead)]
        with subprocess.Popen(words, stdin=subprocess.PIPE, stdout=subprocess.PIPE, text=True) as client:
            client.stdout.readline()
            client.stdin.write("go\n")
            client.stdin.flush()
            try:
                yield
            finally:
                client.terminate()


def elsewhere(programs, room, figures):
    for (what, crowd), program in itertools.product(CROWDS.items(), programs):
        if crowd[1] != "nobody":
            with crowded(program, room, crowd):
                answers([program], room, figures, {f"elsewhere: {what}": (0, "nobody", 0, 0)})


def take_turns(name, server, room, figures):
    pids = ",".join(serving.children(server.process.pid))
    words = [f"{room}/reader", "turns", server.kind, server.ports, str(TURNS_FOLLOWERS), str(MOVES["turns"]), pids]
    said = json.loads(subprocess.run(words, stdout=subprocess.PIPE, check=True).stdout)
    figures.note("in turn, 100 follow", name, {key: said[key] for key in ("cpu_us", "a_second", "switches")})


def turns(programs, room, figures):
    for program in programs:
        with running(program, room) as server:
            take_turns(program.name, server, room, figures)
    given = argparse.Namespace(followers=TURNS_FOLLOWERS)
    for name, server in serving.servers(["nchan-1"], given, room, serving.raised_limit(TURNS_FOLLOWERS)):
        try:
            take_turns(name, server, room, figures)
        finally:
            server.stop()


def milliseconds_to(job):
    """How long this takes; None where it is not done in time."""
    began = time.monotonic()
    try:
        job()
    except TimeoutError:
        return None
    return (time.monotonic() - began) * 1e3


def place_is_free(asker):
    end = time.monotonic() + PATIENCE
    asker.send(follows("b1"))
    while asker.receive() != following():
        if time.monotonic() > end:
            raise TimeoutError
        time.sleep(0.005)
        asker.send(follows("b1"))


def ping(guest):
    guest.stream.sendall(masked(PING, b"here?"))
    assert guest.receive_any() == "pong"


LEAVING = {"close": lambda guest: guest.send("close 1001"), "end of bytes": Connection.close, "reset": Connection.reset}


def places(programs, room, figures):
    for way, program in itertools.product([None, *LEAVING], programs):
        with running(program, room, followers=1) as server:
            owner, guest, asker = owner_of(server), guest_of(server), Connection(server.port)
            guest.stream.settimeout(PATIENCE)
            if way is None:
                waited = [milliseconds_to(lambda: ping(guest))]
                waited += [milliseconds_to(lambda: ping(guest)) for _ in range(PINGS) if waited != [None]]
                figures.note("ping to pong", program.name, {"median_ms": None if None in waited else statistics.median(waited)})
            else:
                LEAVING[way](guest)
                figures.note(f"a place is free after: {way}", program.name, {"ms": milliseconds_to(lambda: place_is_free(asker))})
            if way == "close":
                guest.stream.settimeout(0.1)
                figures.note("a close is answered by then", program.name,
                             {"is": milliseconds_to(lambda: guest.hears("close 1001")) is not None})
            owner.close()


def busy_answers(programs, room, figures):
    answers(programs, room, figures, {what: crowd for what, crowd in CROWDS.items() if crowd[1] == "nobody"})


WHAT = {"answers": answers, "turns": turns, "places": places, "rests": rests, "elsewhere": elsewhere}


@contextlib.contextmanager
def busy(count):
    """This many programs beside that never rest."""
    beside = [subprocess.Popen([sys.executable, "-c", "while True: pass"]) for _ in range(count)]
    try:
        yield
    finally:
        for it in beside:
            it.kill()
            it.wait()


def main():
    words = argparse.ArgumentParser(description=__doc__, formatter_class=argparse.RawDescriptionHelpFormatter)
    words.add_argument("programs", nargs="*", metavar="NAME=PROGRAM", default=[f"relay960={PROGRAM}"])
    words.add_argument("--what", choices=WHAT, help="this alone")
    words.add_argument("--rounds", type=int, default=5)
    words.add_argument("--busy", type=int, default=0, metavar="N", help="beside N programs that never rest: answers alone, without a crowd")
    given = words.parse_args()
    jobs = [busy_answers] if given.busy else [WHAT[given.what]] if given.what else WHAT.values()
    serving.raised_limit(RESTING + MOST_FOLLOWERS)
    programs = [Program(*named.split("=", 1)) for named in given.programs]
    figures = Figures()
    with tempfile.TemporaryDirectory() as room, busy(given.busy):
        os.chmod(room, 0o755)
        for client in ("operators", "reader"):
            serving.built(room, client)
        for number in range(given.rounds):
            print(f"round {number + 1}, load {os.getloadavg()[0]:.1f}", file=sys.stderr)
            for job in jobs:
                # Who is first in one round is last in the next.
                job(programs[::-1] if number % 2 else programs, room, figures)
    figures.show()


if __name__ == "__main__":
    main()
