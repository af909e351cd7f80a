#!/usr/bin/env -S python3 -B
"""Watches a watch port for a while under floods: each move comes to each spectator once and in order.

    bench/soak.py                                   ten minutes, 2,000 spectators of 20 boards
    bench/soak.py --seconds 120 --spectators 300
    bench/soak.py --kill-each 60                    a server with a journal, which is killed and started with the same file

The spectators are those of spectators.c (built by cc), which compare all texts. One more watches all boards. Beside them there are, all the
time: endless pings of peers that read and of peers that do not, halves of frames and of requests, peers that come and go or reset, and
random bytes. The operator of each board plays the same game. It reports the longest that one waited for an answer. At the end the server
must have as few descriptors as before. Its memory is reported on the way. The program is the built one, or that of the environment's
RELAY960. The status is 1 if anything was not as it should be.

Where the server is killed, operators come back by their keys and send once more what was not answered, spectators come again from the place
that they wait for, and at the end each game is compared with what was played, as PGN too (kept_games.py).
"""
import argparse
import concurrent.futures
import json
import multiprocessing
import pathlib
import random
import resource
import socket
import subprocess
import sys
import tempfile
import threading
import time

HERE = pathlib.Path(__file__).resolve().parent
sys.path.append(str(HERE.parent / "tools"))

from kept_games import Played, what_is_wrong  # noqa: E402
from lines import plies  # noqa: E402
from relay_client.connection import Connection  # noqa: E402
from relay_client.frames import PING, REQUEST, frame, masked  # noqa: E402
from relay_client.keys import new_key  # noqa: E402
from relay_client.program import PATIENCE, fens  # noqa: E402
from relay_client.server import Server  # noqa: E402
from relay_client.tests.sessions import owner_of  # noqa: E402
from relay_client.texts import BOARDS, GAME_OVER, START_518, ended, ends, played, refused, stands, submits  # noqa: E402

MOVES = list(plies())  # Of the greatest length that there may be.
# How many moves are there before anybody comes.
FIRST = 40
SOON = 60  # Seconds within which the last of all have all that is due, on a busy machine.
ILLEGAL = refused(6, "Illegal")


def names(count):
    return [f"s{number}" for number in range(count)]


# ---- Floods. Each runs in its own process until it is ended, and puts up with the server ending its connections.


def again_and_again(act, *words):
    """Does this until the process is ended."""
    while True:
        try:
            act(*words)
        except (OSError, AssertionError):
            time.sleep(0.01)


def pings(port, reads):
    """Pings as fast as they are taken; one that does not read is heard no more after a while, and then it is ended."""
    peer = Connection(port)
    peer.stream.settimeout(0.1 if reads else 40)
    while True:
        peer.stream.sendall(masked(PING, b"960" * 40) * 100)
        if reads:
            peer.stream.recv(65536)


def halves(port, _):
    """Halves of requests, of frames, and of messages, until the server ends them."""
    peers = [socket.create_connection(("127.0.0.1", port)) for _ in range(30)]
    for number, peer in enumerate(peers):
        peer.settimeout(30)
        peer.sendall([REQUEST[:40], REQUEST + frame(BOARDS)[:9], REQUEST + masked(0x01, b"{")][number % 3])
    for peer in peers:
        while peer.recv(65536):
            pass
        peer.close()


def comers_and_goers(port, board):
    """One comes, asks for something, perhaps reads, and ends or resets its connection."""
    asked = random.choice([b"", frame(BOARDS), frame(f'{{"cmd":"follow","board":"{board}","spectator":1,"from":0}}'), frame("close 1000")])
    peer = Connection(port)
    peer.stream.sendall(asked)
    if random.random() < 0.5:
        peer.stream.settimeout(0.05)
        peer.stream.recv(1000)
    random.choice([peer.close, peer.reset])()


def deaf_ones(port, board):
    """Some follow from the first place and read nothing for so long that they are ended."""
    peers = [Connection(port, room=1024) for _ in range(10)]
    for peer in peers:
        peer.send(f'{{"cmd":"follow","board":"{board}","spectator":1,"from":0}}')
    time.sleep(45)
    for peer in peers:
        peer.close()


def chance(port, _):
    """Random bytes, with a request before them and without."""
    with socket.create_connection(("127.0.0.1", port)) as peer:
        peer.settimeout(0.05)
        peer.sendall(random.choice([b"", REQUEST]) + random.randbytes(random.randrange(1, 5000)))
        while peer.recv(65536):
            pass


# By name: what is done, and a further word for each process that does it.
FLOODS = {
    "pings": (pings, [True, False]),
    "halves": (halves, [None]),
    "comers": (comers_and_goers, ["s0", "s1"]),
    "deaf": (deaf_ones, ["s0"]),
    "chance": (chance, [None]),
}


def floods(port, chosen):
    started = []
    for act, words in map(FLOODS.get, chosen):
        started += [multiprocessing.Process(target=again_and_again, args=(act, port, word), daemon=True) for word in words]
    for process in started:
        process.start()
    return started


def end_floods(started):
    for process in started:
        process.kill()
        process.join()


# ---- Who watches all boards.


def observe(port, boards, positions, comes_again=False):
    """Hears of all boards until all have ended; how many texts came. Each is right, and says more than the one before about its board; or
    no less, the first time on a connection, if it comes again where one ends."""
    known, over, count = {}, set(), 0
    while over != set(boards):
        observer, first = None, set()
        try:
            observer = Connection(port)
            observer.send(BOARDS)
            while over != set(boards):
                text = observer.receive()
                it = json.loads(text)
                made = it["plies"]
                wanted = stands(it["board"], fen=positions[made], last=MOVES[made - 1] if made else None, plies=made, outcome=it["outcome"])
                much = made + (it["outcome"] is not None) + (it["board"] not in first and it["board"] in known)
                assert text == wanted and it["outcome"] in (None, "agreed") and much > known.get(it["board"], -1), (text, known)
                known[it["board"]] = made + (it["outcome"] is not None)
                first.add(it["board"])
                if it["outcome"]:
                    over.add(it["board"])
                count += 1
        except (ConnectionError, AssertionError) as wrong:
            if not comes_again or not is_end(wrong):
                raise
            time.sleep(0.1)
        if observer:
            observer.close()
    return count


def is_end(wrong):
    """Whether a connection has ended, and nothing else was wrong."""
    return isinstance(wrong, ConnectionError) or str(wrong) == "the connection ended"


# ---- The server.


def resident(server):
    """Kibibytes."""
    status = pathlib.Path(f"/proc/{server.process.pid}/status").read_text()
    return int(status.partition("VmRSS:")[2].split()[0])


def descriptors(server):
    return len(list(pathlib.Path(f"/proc/{server.process.pid}/fd").iterdir()))


class Operators:
    """One of each board, with keys if the server is killed again and again."""

    def __init__(self, server, boards, is_killed):
        self.server, self.is_killed, self.kills, self.found_done = server, is_killed, 0, 0
        self.coming_back = threading.Lock()
        self.keys = {board: new_key() if is_killed else None for board in boards}
        self.there = {board: owner_of(server, board, key=key) for board, key in self.keys.items()}

    def ask(self, lines, answer, if_done):
        """Each asks for its board and is answered. Where the server is gone it is started again, and who was not answered asks once more:
        what it asks for may have been done."""
        waiting, answers = dict(lines), [answer]
        while waiting:
            try:
                for board, line in waiting.items():
                    self.there[board].send(line)
                for board in list(waiting):
                    received = self.there[board].receive()
                    assert received in answers, f"{board}: {received}, and one of {answers} was due"
                    self.found_done += received == if_done
                    del waiting[board]
            except (ConnectionError, AssertionError) as wrong:
                if not self.is_killed or not is_end(wrong):
                    raise
                self.come_back()
                answers = [answer, if_done]

    def come_back(self):
        for owner in self.there.values():
            owner.close()
        self.server.process.wait(SOON)  # Else it has ended these connections itself.
        with self.coming_back:
            self.server.again()
            self.kills += 1
            self.there = {board: Connection(self.server.port, key=key) for board, key in self.keys.items()}

    def play(self, at):
        """Plays the move of this place on all boards; how long the last operator waited."""
        began = time.monotonic()
        self.ask({board: submits(board, MOVES[at]) for board in self.there}, played(at), ILLEGAL)
        return time.monotonic() - began

    def end(self):
        self.ask({board: ends(board, "agreed") for board in self.there}, ended("agreed"), GAME_OVER)


def kill_now_and_then(owners, seconds, is_over):
    """Kills the server so often in the mean, until all is over."""
    while not is_over.wait(random.uniform(0.5, 1.5) * seconds):
        with owners.coming_back:
            owners.server.process.kill()


def play_all(server, owners, spectators, given):
    """Plays on, this many moves a second, for this many seconds; how many moves were made in all, and the longest that an operator
    waited."""
    began, longest, shown = time.monotonic(), 0, 0
    for at in range(FIRST, len(MOVES)):
        time.sleep(max(0, began + (at - FIRST) / given.pace - time.monotonic()))
        passed = time.monotonic() - began
        if passed >= given.seconds:
            return at, longest
        longest = max(longest, owners.play(at))
        if spectators.poll() is not None:
            raise SystemExit("a spectator was told something wrong")
        if passed >= shown * given.seconds / 5:
            print(f"after {passed:.0f} s: {at} moves, {resident(server)} KiB, {descriptors(server)} descriptors", flush=True)
            shown += 1
    return len(MOVES), longest


def comes_down(server, most):
    """Waits until the server has no more descriptors than that; whether it came to that."""
    until = time.monotonic() + SOON
    while descriptors(server) > most:
        if time.monotonic() > until:
            return False
        time.sleep(0.1)
    return True


def tell_end(server):
    """Says how the server ended, if it did."""
    status = server.process.poll()
    if status is not None:
        print(f"the server has ended with status {status}: {server.process.stderr.read().decode()}", file=sys.stderr, flush=True)


def soak(server, given, room, reader):
    del MOVES[FIRST + int(given.pace * given.seconds):]
    positions = [START_518, *fens(518, MOVES)]
    game = pathlib.Path(room, "game")
    game.write_text("\n".join(f"{fen}\t{move}" for fen, move in zip(positions, MOVES)) + f"\n{positions[-1]}\n")
    owners = Operators(server, names(given.boards), given.kill_each)
    for at in range(FIRST):
        owners.play(at)
    held = descriptors(server)
    words = [reader, str(server.watch_port), str(given.boards), str(given.spectators), str(game), *(["again"] if given.kill_each else [])]
    is_over = threading.Event()
    spectating = subprocess.Popen(words, stdin=subprocess.PIPE, stdout=subprocess.PIPE, text=True)
    with spectating as spectators, concurrent.futures.ThreadPoolExecutor(1) as pool:
        started = []
        try:
            assert spectators.stdout.readline() == "there\n", "not all joined"
            print(f"{given.spectators} spectators have joined: {resident(server)} KiB", flush=True)
            observing = pool.submit(observe, server.watch_port, list(owners.keys), positions, bool(given.kill_each))
            started = floods(server.watch_port, given.floods)
            if given.kill_each:
                threading.Thread(target=kill_now_and_then, args=(owners, given.kill_each, is_over), daemon=True).start()
            count, longest = play_all(server, owners, spectators, given)
            is_over.set()
            spectators.stdin.write(f"{count}\n")
            spectators.stdin.flush()
            owners.end()
            said = json.loads(spectators.communicate(timeout=PATIENCE)[0])
            texts = observing.result(timeout=SOON)
        except BaseException:
            time.sleep(1)
            tell_end(server)
            server.process.kill()  # Else who watches all boards is waited for.
            raise
        finally:
            is_over.set()
            end_floods(started)
            spectators.kill()
    print(f"{said['compared']} moves compared, of {said['joinings']} joinings; {said['pings']} pings answered; {texts} texts of all boards")
    print(f"a move came {said['late_ms']} ms after it came to the first, and {said['most_late_ms']} ms at the most")
    print(f"an operator waited {longest * 1000:.0f} ms at the most")
    if given.kill_each:
        print(f"{owners.kills} kills; {said['losses']} times a spectator came again after one, {said['early']} times before its board was "
              f"there; {owners.found_done} moves and ends that were sent again had been made")
        games = [Played(board, 518, MOVES[:count], count, {"agreed"}) for board in owners.keys]
        if wrong := what_is_wrong(server.watch_port, f"{room}/games", games):
            raise SystemExit("\n".join(wrong[:5]))
    if not comes_down(server, held):
        raise SystemExit(f"{descriptors(server)} descriptors are open, and {held} were before")
    print(f"at the end {resident(server)} KiB")


def main():
    words = argparse.ArgumentParser(description=__doc__, formatter_class=argparse.RawDescriptionHelpFormatter)
    words.add_argument("--seconds", type=float, default=600)
    words.add_argument("--spectators", type=int, default=2000)
    words.add_argument("--boards", type=int, default=20)
    words.add_argument("--pace", type=float, default=4.8, help="moves a second of each board")
    words.add_argument("--threads", default="2", help="the loops of the port")
    words.add_argument("--floods", nargs="*", default=list(FLOODS), choices=list(FLOODS), metavar="FLOOD",
                       help=f"of {', '.join(FLOODS)}; all")
    words.add_argument("--kill-each", type=float, metavar="SECONDS",
                       help="kill the server so often in the mean, and start it with the same journal")
    given = words.parse_args()
    _, most = resource.getrlimit(resource.RLIMIT_NOFILE)
    resource.setrlimit(resource.RLIMIT_NOFILE, (most, most))
    with tempfile.TemporaryDirectory() as room:
        reader = f"{room}/spectators"
        subprocess.run(["cc", "-O2", "-Wall", "-o", reader, str(HERE / "native/spectators.c")], check=True)
        options = "--forever", "--boards", "256", "--plies", "16384", "--watch-threads", given.threads
        if given.kill_each:
            options += "--grace", "3600", "--journal", f"{room}/games"
        # Of its spectators, who come and go, each 20,000 go to another address of loopback.
        with Server(*options, watch=True, watch_at="0.0.0.0") as server:
            soak(server, given, room, reader)
            if server.process.poll() is not None:
                raise SystemExit("the server has ended")


if __name__ == "__main__":
    main()
