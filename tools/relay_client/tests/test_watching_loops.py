"""What the loops of the port for those who only watch keep of their guests: who hears at once, whatever guests come, go, flood or stop
reading."""

import concurrent.futures
import contextlib
import itertools
import os
import pathlib
import random
import re
import resource
import signal
import socket
import struct
import time
import unittest

from relay_client.connection import Connection
from relay_client.frames import PING, frame, masked, pong, request
from relay_client.program import PATIENCE, fens
from relay_client.server import Server
from relay_client.tests.sessions import ABANDONED, moves_without_a_draw, owner_of, play
from relay_client.tests.test_deadlines import HALVES, seconds_of_half, seconds_until_given_up
from relay_client.tests.test_watching import (AGAIN, CROWD, DONE, MOVES, SOON, WRONG_MODE, all_until_close, answered, close_all,
                                              open_descriptors, spectator_of, watcher_of)
from relay_client.texts import (BAD_FIELD, BOARDS, NOT_JSON, NOT_OBJECT, OPENED, START_518, ended, ends, following, follows, moved, opens,
                                over, played, stands, submits)

AT_ONCE = 0.5  # Seconds. A loop that nobody wakes looks for news each second.
BEFORE_A_PING = 20  # Seconds. A ping, which comes after thirty, brings news too.
ROUNDS = 10
MOST_BOARDS = 256
BURST = 400  # A loop accepts 64 in a turn.
PAYLOAD = bytes(range(125))
ONE_PING, ONE_PONG = masked(PING, PAYLOAD), b"\x8a\x7d" + PAYLOAD
NO_WORDS_PING = b"\x89\x00"  # As the server sends one.
# One whose connection takes some 40,000 bytes while it reads nothing.
SLOW = {"room": 1024, "segment": 536}
LONG = 1400  # More moves than such a connection takes.
FEW = 40  # Texts of some 45 bytes.
# Seconds. A connection takes something by itself for some five of them, so the last try comes by the 39th, and the end by the 49th.
TAKEN_AFTER = [24 + at / 2 for at in range(57)]
LOOPS = 4
MOST_APART = 6  # How many guests more than another loop one may have, beside a sixteenth: the last comes in before another door opens.
DATA_SEGMENTS_IN = 152  # Where Linux's tcp_info has how many segments with data came.


def long_game(count):
    """This many moves, of at most 3,876: between two pawns' moves the pieces go in a circle of 40 positions."""
    pieces = [itertools.cycle("a1a2 g1f3 a2a3 f3g1 a3a1".split()), itertools.cycle("a8a7 g8f6 a7a8 f6g8".split())]
    moves = []
    pawns = " ".join("a2a3 a7a6 a3a4 a6a5".replace("a", file) for file in "abcdegh")
    for at, pawn in enumerate(pawns.split()):
        moves.append(pawn)
        # The rooks have a way out from the third move on.
        moves += [next(pieces[(at + 1 + ply) % 2]) for ply in range(148 if at > 1 else 0)]
    return moves[:count]


class Stopped:
    """Within this block the server stands still."""

    def __init__(self, server):
        self.process = server.process

    def __enter__(self):
        self.process.send_signal(signal.SIGSTOP)
        os.waitpid(self.process.pid, os.WUNTRACED)  # Until the last of its threads does.

    def __exit__(self, *_):
        self.process.send_signal(signal.SIGCONT)


def processor_seconds(server):
    """How many seconds of processor time the server has taken."""
    numbers = pathlib.Path(f"/proc/{server.process.pid}/stat").read_text().rpartition(")")[2].split()
    return (int(numbers[11]) + int(numbers[12])) / os.sysconf("SC_CLK_TCK")


class AtOnce(unittest.TestCase):
    def is_told_at_once(self, act, least=3):
        """At least this many of ten hear at once; on a busy machine others are late. The act returns when that happened which it heard
        of."""
        took = []
        for number in range(ROUNDS):
            time.sleep(0.1)  # The loops wait again.
            happened = act(number)
            took.append(time.monotonic() - happened)
        self.assertLess(sorted(took)[least - 1], AT_ONCE, took)

    def test_a_move_wakes_each_loop(self):
        moves = list(moves_without_a_draw())
        with Server("--forever", "--watch-threads", "4", watch=True) as server:
            owner = owner_of(server)
            watchers = [watcher_of(server) for _ in range(40)]

            def plays(place):
                began = time.monotonic()
                owner.asks(submits("b1", moves[place]), played(place))
                for watcher in watchers:
                    watcher.hears(moved(moves[place], place))
                return began

            self.is_told_at_once(plays)
            close_all(owner, *watchers)

    def test_a_move_that_comes_while_a_loop_writes_wakes_it_again(self):
        """The last of many in a row."""
        count = 30
        moves = long_game(count * ROUNDS)
        with Server("--forever", "--watch-threads", "1", watch=True) as server:
            owner = owner_of(server)
            watchers = [watcher_of(server) for _ in range(CROWD)]

            def plays(number):
                places = range(number * count, (number + 1) * count)
                owner.send(*(submits("b1", moves[place]) for place in places))
                owner.hears(*map(played, places))
                began = time.monotonic()
                for watcher in watchers[0], watchers[-1]:
                    watcher.hears(*(moved(moves[place], place) for place in places))
                return began

            # The last move of some falls between two turns.
            self.is_told_at_once(plays, least=6)
            close_all(owner, *watchers)

    def test_who_watches_all_is_told_at_once_of_a_board_that_is_opened_and_of_its_end(self):
        with Server("--forever", "--boards", str(1 + 2 * ROUNDS), watch=True) as server:
            owner, watcher = owner_of(server, "b"), Connection(server.watch_port)
            watcher.asks(BOARDS, stands("b"))

            def opens_board(number):
                began = time.monotonic()
                owner.asks(opens(f"b{number}"), OPENED)
                watcher.hears(stands(f"b{number}"))
                return began

            def ends_board(number):
                began = time.monotonic()
                owner.asks(ends(f"b{number}", "agreed"), ended("agreed"))
                watcher.hears(stands(f"b{number}", outcome="agreed"))
                return began

            def opens_and_ends_board(number):
                opens_board(ROUNDS + number)
                return ends_board(ROUNDS + number)

            for act in opens_board, ends_board, opens_and_ends_board:
                self.is_told_at_once(act)
            close_all(owner, watcher)

    def test_a_server_without_guests_ends_at_once(self):
        def ends_server(_):
            with Server("--connections", "1", watch=True) as server:
                owner, began = owner_of(server), time.monotonic()
                owner.close()
                server.has_served(1)
                return began

        self.is_told_at_once(ends_server)


class Boards(unittest.TestCase):
    def test_a_move_behind_the_opening_is_told_however_soon_it_comes(self):
        """The text of a board is made while it is played on. What came meanwhile is reported a second later."""
        names = [f"b{number}" for number in range(MOST_BOARDS)]
        positions = fens(518, ["e2e4"])
        with Server("--forever", "--boards", str(MOST_BOARDS), "--watch-threads", "1", watch=True) as server:
            owner, watcher = Connection(server.port), Connection(server.watch_port)
            watcher.send(BOARDS)
            owner.send(*(line for name in names for line in (opens(name), submits(name, "e2e4"))))
            owner.hears(*[OPENED, played(0)] * len(names))
            watcher.stream.settimeout(BEFORE_A_PING)
            due = {stands(name, fen=positions[0], last="e2e4", plies=1) for name in names}
            while due:
                due.discard(watcher.receive())
            close_all(owner, watcher)

    def test_two_moves_in_a_row_are_both_told_however_soon_they_come(self):
        """The news of a board are looked for while it is played on."""
        moves = list(moves_without_a_draw())[:12]
        names = [f"b{number}" for number in range(100)]
        with Server("--forever", "--boards", str(MOST_BOARDS), "--watch-threads", "1", watch=True) as server:
            owner = Connection(server.port)
            owner.send(*map(opens, names))
            owner.hears(*[OPENED] * len(names))
            watchers = [watcher_of(server, name) for name in names]
            for watcher in watchers:
                watcher.stream.settimeout(BEFORE_A_PING)
            for place in range(0, len(moves), 2):
                owner.send(*(submits(name, moves[at]) for name in names for at in (place, place + 1)))
                owner.hears(*[played(place), played(place + 1)] * len(names))
                for watcher in watchers:
                    watcher.hears(moved(moves[place], place), moved(moves[place + 1], place + 1))
            close_all(owner, *watchers)

    def test_each_hears_of_its_own_board_though_nobody_watches_those_before(self):
        firsts = "e2e4 d2d4 c2c4 b2b3 a2a3 g2g3".split()
        with Server("--forever", "--watch-threads", "1", watch=True) as server:
            owner, watchers = owner_of(server, "b"), []
            for at, move in enumerate(firsts):
                owner.asks(opens(f"b{at}"), OPENED)
                watchers.append(watcher_of(server, f"b{at}"))
                watchers[at].stream.settimeout(BEFORE_A_PING)
            for at, move in enumerate(firsts):
                owner.asks(submits(f"b{at}", move), played(0))
                watchers[at].hears(moved(move, 0))
            close_all(*watchers[:-1])
            time.sleep(1)
            for at in range(len(firsts)):
                owner.asks(submits(f"b{at}", "h7h6"), played(1))
            watchers[-1].hears(moved("h7h6", 1))
            close_all(owner, watchers[-1])

    def test_all_hear_the_end_at_once(self):
        """Each of them leaves those who are written to while the loop goes through these."""
        with Server("--forever", "--watch-threads", "1", watch=True) as server:
            owner, watchers = owner_of(server), [watcher_of(server) for _ in range(20)]
            owner.asks(ends("b1", "agreed"), ended("agreed"))
            for watcher in watchers:
                watcher.stream.settimeout(BEFORE_A_PING)
                watcher.hears(over("agreed"), DONE)
            close_all(owner, *watchers)

    def test_each_joins_at_its_own_place_though_others_joined_elsewhere_before(self):
        moves = list(moves_without_a_draw())[:20]
        positions = [START_518, *fens(518, moves)]
        with Server("--forever", "--watch-threads", "1", watch=True) as server:
            owner = owner_of(server)
            texts = play(owner, moves)
            watchers = []
            for place in 0, 20, 20, 7, 0, 13:
                watcher, answer = spectator_of(server, place=place)
                self.assertEqual(answer, following(place, positions[place]))
                watcher.hears(*texts[place:])
                watchers.append(watcher)
            close_all(owner, *watchers)

    def test_one_that_reads_slowly_is_not_told_how_boards_stood_in_between(self):
        """Its connection takes pongs and then fewer than all of the boards' texts while it reads nothing. Then it has the last at once."""
        names, moves = [f"b{number}" for number in range(MOST_BOARDS)], MOVES[:4]
        positions = fens(518, moves)
        with Server("--forever", "--boards", str(MOST_BOARDS), "--watch-threads", "1", watch=True) as server:
            owner = Connection(server.port)
            owner.send(*map(opens, names))
            owner.hears(*[OPENED] * len(names))
            slow, quick = Connection(server.watch_port, **SLOW), Connection(server.watch_port)
            slow.stream.sendall(ONE_PING * 200)
            for watcher in slow, quick:
                watcher.send(BOARDS)
            quick.hears(*map(stands, names))
            for _ in range(5):  # Turns of the loop, in which everything that came is read.
                answered(server.watch_port, "[]")
            for place, move in enumerate(moves):
                owner.asks(submits(names[0], move), played(place))
                quick.hears(last := stands(names[0], fen=positions[place], last=move, plies=place + 1))
                slow.stream.sendall(pong())
            slow.stream.settimeout(BEFORE_A_PING)
            slow.hears(*["pong"] * 200, *map(stands, names))
            slow.hears(last)
            close_all(owner, slow, quick)


class ComingAndGoing(unittest.TestCase):
    def test_whoever_comes_and_goes_the_others_hear_each_move(self):
        chance, moves = random.Random(960), list(moves_without_a_draw())[:60]
        with Server("--forever", "--watch-threads", "1", watch=True) as server:
            owner, watchers = owner_of(server), []
            for place, move in enumerate(moves):
                for _ in range(chance.randrange(4)):
                    if watchers and chance.randrange(2):
                        watchers.pop(chance.randrange(len(watchers))).close()
                    else:
                        watchers.append(spectator_of(server)[0])
                        watchers[-1].stream.settimeout(BEFORE_A_PING)
                owner.asks(submits("b1", move), played(place))
                for watcher in watchers:
                    watcher.hears(moved(move, place))
            close_all(owner, *watchers)

    def test_newcomers_take_no_news_away_from_who_watches_the_board(self):
        """The loop puts news on the tape for each that joins, if there are any. Those who were there before are due them too."""
        moves = list(moves_without_a_draw())[:20]
        with Server("--forever", "--watch-threads", "1", watch=True) as server:
            owner, watcher = owner_of(server), watcher_of(server)
            watcher.stream.settimeout(BEFORE_A_PING)
            for place, move in enumerate(moves):
                newcomers = [Connection(server.watch_port) for _ in range(20)]
                for at, newcomer in enumerate(newcomers):
                    newcomer.send(follows("b1"))
                    if at == 5:
                        owner.send(submits("b1", move))
                owner.hears(played(place))
                watcher.hears(moved(move, place))
                close_all(*newcomers)
            close_all(owner, watcher)

    def test_who_watches_all_hears_news_whoever_else_goes(self):
        with Server("--forever", "--watch-threads", "1", watch=True) as server:
            owner, watcher = owner_of(server), Connection(server.watch_port)
            watcher.asks(BOARDS, stands("b1"))
            watcher.stream.settimeout(BEFORE_A_PING)
            for line in "[]", follows("b2"), follows("b1"), BOARDS:
                answered(server.watch_port, line)
            time.sleep(1)
            owner.asks(opens("b2"), OPENED)
            watcher.hears(stands("b2"))
            close_all(owner, watcher)

    def test_a_burst_of_newcomers_is_let_in_though_nobody_comes_behind_it(self):
        """A loop that waited between its turns would take six seconds."""
        with Server("--forever", "--watch-threads", "1", watch=True) as server:
            held = len(list(open_descriptors(server)))
            with Stopped(server):
                burst = [socket.create_connection(("127.0.0.1", server.watch_port), timeout=SOON) for _ in range(BURST)]
            began = time.monotonic()
            while len(list(open_descriptors(server))) < held + BURST:
                self.assertLess(time.monotonic() - began, 4)
                time.sleep(0.05)
            close_all(*burst)

    def test_a_newcomer_for_whom_no_descriptor_at_all_was_there_is_let_in_later(self):
        """Not even the one in reserve may be used again. Nobody else comes meanwhile."""
        with Server("--forever", "--watch-threads", "1", watch=True) as server:
            _, most = resource.prlimit(server.process.pid, resource.RLIMIT_NOFILE)
            resource.prlimit(server.process.pid, resource.RLIMIT_NOFILE, (3, most))
            with socket.create_connection(("127.0.0.1", server.watch_port), timeout=SOON) as newcomer:
                newcomer.sendall(request())
                time.sleep(2)
                resource.prlimit(server.process.pid, resource.RLIMIT_NOFILE, (most, most))
                self.assertEqual(newcomer.recv(13), b"HTTP/1.1 101 ")

    def test_those_whose_end_comes_with_their_last_bytes_have_gone_at_once(self):
        """Behind a piece that fills no room nothing more is read, unless the system tells that the end came with it."""
        with Server("--forever", "--watch-threads", "1", watch=True) as server:
            owner, stays = owner_of(server), watcher_of(server)
            held = len(list(open_descriptors(server)))
            watchers = [watcher_of(server) for _ in range(3)]
            with Stopped(server):
                newcomer = socket.create_connection(("127.0.0.1", server.watch_port), timeout=SOON)
                newcomer.sendall(request() + frame(follows("b1")))
                newcomer.shutdown(socket.SHUT_WR)
                for watcher, said in zip(watchers, (ONE_PING, ONE_PING[:60], frame("{}"))):
                    watcher.stream.sendall(said)
                    watcher.stream.shutdown(socket.SHUT_WR)
            began = time.monotonic()
            while len(list(open_descriptors(server))) > held:
                self.assertLess(time.monotonic() - began, SOON)
                time.sleep(0.05)
            owner.asks(submits("b1", "e2e4"), played(0))
            stays.hears(moved("e2e4", 0))
            newcomer.close()
            close_all(owner, stays, *watchers)

    def test_one_that_was_told_all_has_the_end_at_once_and_ten_seconds_to_go(self):
        with Server("--forever", "--watch-most", "1", watch=True) as server:
            told = Connection(server.watch_port)
            told.asks(DONE, DONE)
            told.stream.settimeout(8)
            told.has_ended()
            began = time.monotonic()
            while answered(server.watch_port, follows("b1")) == AGAIN:
                self.assertLess(time.monotonic() - began, 10 + SOON)
                time.sleep(0.5)
            self.assertGreater(time.monotonic() - began, 8)
            told.close()

    def test_one_that_sends_on_reads_all_until_the_close(self):
        """Far more is sent to it than it has room for, and what it sends is never heard. A reset would take the last of it away."""
        moves = list(moves_without_a_draw())
        with Server("--forever", watch=True) as server:
            owner = owner_of(server)
            texts = play(owner, moves)
            owner.asks(ends("b1", "agreed"), ended("agreed"))
            slow = Connection(server.watch_port, room=1024)
            slow.send(follows("b1", place=0))
            slow.stream.sendall(frame("[]") * 5000)
            time.sleep(1)
            received = [text for text in all_until_close(slow) if text != WRONG_MODE]
            self.assertEqual(received, [following(), *texts, over("agreed"), DONE])
            close_all(owner, slow)

    def test_one_in_the_middle_of_its_request_goes_at_once_when_serving_ends(self):
        """Another one that watches does not go, so the server is still there for four seconds, and no longer."""
        with Server("--connections", "1", "--watch-threads", "1", watch=True) as server:
            owner, earlier, watcher = owner_of(server), [Connection(server.watch_port) for _ in range(20)], watcher_of(server)
            close_all(*earlier)
            with socket.create_connection(("127.0.0.1", server.watch_port), timeout=PATIENCE) as half:
                half.sendall(request()[:20])
                time.sleep(1)
                began = time.monotonic()
                owner.close()
                watcher.hears(ABANDONED, DONE)
                self.assertEqual(half.recv(1), b"")
                time.sleep(1)
                self.assertIsNone(server.process.poll())
            server.has_served(1)
            self.assertLess(time.monotonic() - began, 9)
            watcher.close()


class Sharing(unittest.TestCase):
    """Each loop has its share of the guests, who stay with it."""

    def loops(self, server):
        """What the epoll of each loop of the port watches: its guests, the listener, and what wakes the loop."""
        watched = set()
        for descriptor in open_descriptors(server):
            with contextlib.suppress(FileNotFoundError):
                if os.readlink(descriptor) == "anon_inode:[eventpoll]":
                    told = pathlib.Path(f"/proc/{server.process.pid}/fdinfo/{descriptor.name}").read_text()
                    watched.add(frozenset(re.findall(r"tfd: +(\d+) .* ino:([0-9a-f]+) ", told)))
        return [loop for loop in watched if self.listener(server) in {inode for _, inode in loop}]

    def listener(self, server):
        """The inode of the port's listener, as the system tells it of an epoll."""
        for line in pathlib.Path("/proc/net/tcp").read_text().splitlines()[1:]:
            words = line.split()
            if words[1].endswith(f":{server.watch_port:04X}") and words[3] == "0A":
                return f"{int(words[9]):x}"
        raise AssertionError("nobody listens on the port")

    def guests(self, server):
        return sorted(len(loop) - 2 for loop in self.loops(server))

    def has(self, server, count):
        """So many are there within a while; how many each loop has."""
        until = time.monotonic() + 3 * SOON
        while sum(guests := self.guests(server)) != count and time.monotonic() < until:
            time.sleep(0.05)
        self.assertEqual((len(guests), sum(guests)), (LOOPS, count))
        return guests

    def has_even_shares(self, server, count):
        fewest, *_, most = self.has(server, count)
        self.assertLessEqual(most - fewest, MOST_APART + fewest // 16)

    def inode(self, server, connection):
        """That of the server's end, as the system tells it of an epoll."""
        ends = [f":{server.watch_port:04X}", f":{connection.stream.getsockname()[1]:04X}"]
        for line in pathlib.Path("/proc/net/tcp").read_text().splitlines()[1:]:
            words = line.split()
            if [words[1][-5:], words[2][-5:]] == ends:
                return f"{int(words[9]):x}"
        return None

    def test_those_who_come_one_by_one_are_spread_over_all_loops(self):
        with Server("--forever", "--watch-threads", str(LOOPS), watch=True) as server:
            crowd = [Connection(server.watch_port) for _ in range(CROWD)]
            self.has_even_shares(server, CROWD)
            close_all(*crowd)

    def test_those_who_come_at_once_are_spread_over_all_loops(self):
        """Nobody comes behind them, so of those who wait where one loop has its share another one has to be told."""
        with Server("--forever", "--watch-threads", str(LOOPS), watch=True) as server:
            with Stopped(server):
                burst = [socket.create_connection(("127.0.0.1", server.watch_port), timeout=SOON) for _ in range(BURST)]
            self.has_even_shares(server, BURST)
            close_all(*burst)

    def test_newcomers_come_where_others_have_gone(self):
        with Server("--forever", "--watch-threads", str(LOOPS), watch=True) as server:
            crowd = [Connection(server.watch_port) for _ in range(CROWD)]
            left = {inode for _, inode in self.loops(server)[0]}
            going = [guest for guest in crowd if self.inode(server, guest) in left]
            self.assertTrue(going)
            close_all(*going)
            self.assertEqual(self.has(server, CROWD - len(going))[0], 0)
            newcomers = [Connection(server.watch_port) for _ in going]
            self.has_even_shares(server, CROWD)
            close_all(*newcomers, *(guest for guest in crowd if guest not in going))

    def test_one_that_sends_all_at_once_has_its_answers_in_one_segment(self):
        with Server("--forever", watch=True) as server:
            owner = owner_of(server)
            with socket.create_connection(("127.0.0.1", server.watch_port), timeout=SOON) as newcomer:
                newcomer.sendall(request() + frame(follows("b1")))
                received = b""
                while not received.endswith(following().encode()):
                    received += (piece := newcomer.recv(1024))
                    self.assertTrue(piece, received)
                told = newcomer.getsockopt(socket.IPPROTO_TCP, socket.TCP_INFO, 256)
                self.assertEqual(struct.unpack_from("I", told, DATA_SEGMENTS_IN), (1,))
            owner.close()


class Floods(unittest.TestCase):
    def reads(self, stream, count):
        """Reads the pongs of this many pings."""
        wanted = len(ONE_PONG) * count
        received = bytearray()
        while len(received) < wanted:
            piece = stream.recv(min(wanted - len(received), 1 << 20))
            self.assertTrue(piece)
            received += piece
        self.assertEqual(received, ONE_PONG * count)

    def test_what_comes_at_once_is_answered_at_once(self):
        """A text that is longer than what a loop reads of one guest in three turns, with nothing after it."""
        with Server("--forever", "--watch-threads", "1", watch=True) as server:
            peer, took = Connection(server.watch_port), []
            peer.stream.settimeout(BEFORE_A_PING)
            for _ in range(ROUNDS):
                with Stopped(server):
                    peer.send("x" * 62_000)
                    time.sleep(0.1)
                began = time.monotonic()
                peer.hears(BAD_FIELD)
                took.append(time.monotonic() - began)
            self.assertLess(min(took), 0.9, took)
            peer.close()

    def test_newcomers_are_heard_while_another_one_is_read_on(self):
        with Server("--forever", "--watch-threads", "1", watch=True) as server:
            peer = Connection(server.watch_port)
            with Stopped(server):
                peer.send("x" * 62_000)
                newcomers = [socket.create_connection(("127.0.0.1", server.watch_port), timeout=SOON) for _ in range(5)]
                for newcomer in newcomers:
                    newcomer.sendall(request())
            for newcomer in newcomers:
                self.assertEqual(newcomer.recv(13), b"HTTP/1.1 101 ")
            peer.hears(BAD_FIELD)
            close_all(peer, *newcomers)

    def test_all_is_answered_of_what_has_more_answers_than_are_kept(self):
        """The answers to what a loop reads at a time are more than what it keeps for one that is still heard."""
        with Server("--forever", "--watch-threads", "1", watch=True) as server:
            peer = Connection(server.watch_port)
            peer.stream.settimeout(BEFORE_A_PING)
            peer.send(*["["] * 1300)
            peer.hears(*[NOT_JSON] * 1300)
            peer.close()

    def test_one_that_was_not_heard_for_a_while_is_heard_again_and_then_costs_nothing(self):
        """It reads nothing while it sends. So far more is due to it than what is kept for one, and what it sends then is not read."""
        with Server("--forever", "--watch-threads", "1", watch=True) as server:
            peer = Connection(server.watch_port, **SLOW)
            peer.stream.sendall(ONE_PING * 700)
            time.sleep(1)
            peer.stream.settimeout(BEFORE_A_PING)
            self.reads(peer.stream, 700)
            before = processor_seconds(server)
            time.sleep(2)
            self.assertLess(processor_seconds(server) - before, 0.2)
            peer.close()

    def test_a_message_that_is_not_read_to_its_end_is_not_half(self):
        """A loop that reads no more stops in the middle of what one sends. It is the loop that the rest waits for, and not the other way
        round."""
        with Server("--forever", "--watch-threads", "1", watch=True) as server:
            peer = Connection(server.watch_port, **SLOW)
            peer.stream.sendall(ONE_PING * 2000)
            time.sleep(14)
            peer.stream.settimeout(BEFORE_A_PING)
            self.reads(peer.stream, 2000)
            peer.close()

    def test_a_ping_behind_what_asks_for_all_boards_is_answered_and_is_not_half_a_message(self):
        """In one piece with it. There are no boards yet, so nothing has to be sent before."""
        with Server("--forever", watch=True) as server:
            peer = Connection(server.watch_port)
            peer.stream.sendall(frame("[]") + frame(BOARDS) + ONE_PING)
            peer.hears(NOT_OBJECT)
            self.assertEqual(peer.exactly(len(ONE_PONG)), ONE_PONG)
            time.sleep(14)
            peer.stream.sendall(ONE_PING)
            self.assertEqual(peer.exactly(len(ONE_PONG)), ONE_PONG)
            peer.close()

    def test_what_answers_took_is_given_back(self):
        """Each of a crowd keeps far less than a loop may keep for one that does not read."""
        with Server("--forever", "--watch-threads", "1", watch=True) as server:
            close_all(*(Connection(server.watch_port) for _ in range(100)))
            before, crowd = server.data_kibibytes(), []
            for _ in range(CROWD):
                crowd.append(Connection(server.watch_port))
                crowd[-1].stream.sendall(ONE_PING * 20)
                crowd[-1].hears(*["pong"] * 20)
            self.assertLess(server.data_kibibytes() - before, CROWD * 4)
            close_all(*crowd)


class Full(unittest.TestCase):
    """The connection of one that reads nothing is full within a move's frame."""

    def full(self, server, owner):
        """One that watches from the start, and all texts that it is due."""
        texts = play(owner, long_game(LONG))
        slow = Connection(server.watch_port, **SLOW)
        slow.send(follows("b1", place=0))
        return slow, [following(), *texts]

    def test_pongs_and_refusals_stand_between_whole_texts_and_later_moves_come_at_once(self):
        moves = long_game(LONG + 2)
        with Server("--forever", "--watch-threads", "1", "--plies", "8192", watch=True) as server:
            owner = owner_of(server)
            slow, texts = self.full(server, owner)
            time.sleep(1)
            slow.stream.sendall(frame("[]") * 20 + ONE_PING * 20)
            time.sleep(1)
            slow.stream.settimeout(BEFORE_A_PING)
            received = [slow.receive_any() for _ in range(len(texts) + 40)]
            self.assertEqual([text for text in received if text not in (WRONG_MODE, "pong")], texts)
            self.assertEqual((received.count(WRONG_MODE), received.count("pong")), (20, 20))
            for place in LONG, LONG + 1:
                owner.asks(submits("b1", moves[place]), played(place))
                slow.hears(moved(moves[place], place))
            close_all(owner, slow)

    def test_one_that_takes_a_few_bytes_now_and_then_stays(self):
        """Far fewer than what the system would tell the loop of."""
        with Server("--forever", "--watch-threads", "1", "--plies", "8192", watch=True) as server:
            owner = owner_of(server)
            slow, texts = self.full(server, owner)
            wanted, received = b"".join(b"\x81" + bytes([len(text)]) + text.encode() for text in texts), b""
            for _ in range(45):
                time.sleep(1)
                received += slow.stream.recv(60)
            slow.stream.settimeout(BEFORE_A_PING)
            while len(received) < len(wanted):
                piece = slow.stream.recv(65536)
                self.assertTrue(piece, f"{len(received)} of {len(wanted)} bytes came")
                received = (received + piece).replace(NO_WORDS_PING, b"")
            self.assertEqual(received, wanted)
            close_all(owner, slow)

    def test_one_that_takes_a_little_in_thirty_seconds_stays_and_who_does_so_in_ten_more_is_told_why_it_goes(self):
        """Each takes less than what the system would tell the loop of, and some seconds later all. Whoever comes later than that is
        lost."""
        with (Server("--forever", "--watch-threads", "1", "--plies", "8192", watch=True) as server,
              concurrent.futures.ThreadPoolExecutor(len(TAKEN_AFTER)) as pool):
            owner = owner_of(server)
            texts = [following(), *play(owner, long_game(LONG))]
            began = time.monotonic()

            def end(seconds):
                slow = Connection(server.watch_port, **SLOW)
                slow.send(follows("b1", place=0))
                time.sleep(max(0, began + seconds - time.monotonic()))
                received = [slow.receive_any() for _ in range(FEW)]
                time.sleep(SOON)
                end = self.end_of(slow, received, texts)
                slow.close()
                return end

            ends = list(pool.map(end, TAKEN_AFTER))
            stayed, told, lost = map(ends.count, ["all", "close 1008", "lost"])
            self.assertEqual(ends, ["all"] * stayed + ["close 1008"] * told + ["lost"] * lost)
            self.assertTrue(stayed and lost)
            self.assertTrue(8 <= told / 2 <= 13, told)
            owner.close()

    def end_of(self, slow, received, texts):
        """How it ends behind these texts: they all come, a close comes behind some of them, or nothing."""
        slow.stream.settimeout(SOON)
        try:
            while len(received) < len(texts) and not received[-1].startswith("close"):
                received.append(slow.receive())
        except (AssertionError, OSError):
            received.append("lost")
        end = "all" if received[-1] == texts[-1] else received.pop()
        self.assertEqual(received, texts[:len(received)])
        return end

    def test_one_that_takes_nothing_is_given_up_however_often_it_sends_a_ping(self):
        with Server("--forever", "--watch-threads", "1", "--plies", "8192", watch=True) as server:
            owner = owner_of(server)
            slow, _ = self.full(server, owner)
            began = time.monotonic()
            try:
                while time.monotonic() < began + 45 + SOON:
                    time.sleep(1)
                    slow.stream.sendall(masked(PING, b""))
            except (BrokenPipeError, ConnectionResetError):
                pass
            took = time.monotonic() - began
            self.assertTrue(28 < took < 45 + SOON, took)
            close_all(owner, slow)


class Deadlines(unittest.TestCase):
    def test_half_a_request_and_half_a_message_have_ten_seconds_in_all_however_they_come(self):
        with Server("--forever", watch=True) as server, concurrent.futures.ThreadPoolExecutor(1 + len(HALVES)) as pool:
            earlier = [Connection(server.watch_port) for _ in range(40)]
            half = socket.create_connection(("127.0.0.1", server.watch_port))
            given_up = pool.submit(seconds_until_given_up, half)
            peers = {name: Connection(server.watch_port) for name in HALVES}
            close_all(*earlier)
            took = dict(pool.map(lambda it: (it[0], seconds_of_half(it[0], it[1].stream)), peers.items()))
            for name, seconds in {"a request": given_up.result(), **took}.items():
                with self.subTest(name):
                    self.assertTrue(9 < seconds < 24, seconds)
            close_all(half, *peers.values())

    def test_one_that_says_nothing_is_sent_a_ping_after_each_thirty_seconds(self):
        """A ping that was answered does not count any more. Else the second would come later, and there would be no third."""
        with Server("--forever", watch=True) as server:
            owner, began = owner_of(server), time.monotonic()
            watcher = watcher_of(server)
            watcher.stream.settimeout(31 + SOON)
            for _ in range(2):
                self.assertEqual(watcher.receive_any(), "ping")
                took, began = time.monotonic() - began, time.monotonic()
                self.assertTrue(28 < took < 31 + SOON, took)
                watcher.stream.sendall(pong())
            close_all(owner, watcher)

    def test_a_ping_that_comes_late_is_waited_for_as_any_other(self):
        """On both ports. The server stood still for as long as a silence may last in all."""
        with Server("--forever", watch=True) as server:
            owner = owner_of(server)
            watcher = watcher_of(server)
            with Stopped(server):
                time.sleep(92)
            for peer in owner, watcher:
                self.assertEqual(peer.receive_any(), "ping")
            time.sleep(5)
            for peer in owner, watcher:
                peer.stream.sendall(pong())
            watcher.hears(*play(owner, MOVES))
            close_all(owner, watcher)

    def test_messages_without_a_pause_between_them_have_no_deadline_together(self):
        """Each piece ends in the middle of a text, for longer than a text may take."""
        with Server("--forever", watch=True) as server:
            peer, text = Connection(server.watch_port), frame("[")
            peer.stream.sendall(text[:1])
            for _ in range(12):
                peer.stream.sendall(text[1:] + text[:1])
                peer.hears(NOT_JSON)
                time.sleep(1)
            peer.close()

    def test_what_came_in_time_is_heard_though_the_loop_was_held_up(self):
        """The rest of a message came while the server stood still, and then more than its ten seconds had passed."""
        with Server("--forever", watch=True) as server:
            peer, text = Connection(server.watch_port), frame("[]")
            peer.stream.sendall(text[:3])
            time.sleep(1)
            with Stopped(server):
                peer.stream.sendall(text[3:])
                time.sleep(12)
            peer.hears(NOT_OBJECT)
            peer.close()
