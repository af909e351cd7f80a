"""The port for those who only watch: the same texts as on the main port, whatever guests come and however they behave."""

import concurrent.futures
import contextlib
import errno
import pathlib
import random
import resource
import signal
import socket
import struct
import subprocess
import threading
import time
import unittest

from relay_client.connection import Connection
from relay_client.faults import port_fault
from relay_client.frames import MASK, PING, REQUEST, frame, head, request
from relay_client.keys import new_key
from relay_client.ports import free_port
from relay_client.program import PATIENCE, PROGRAM, fens, game_by_chance, start_fen
from relay_client.server import Server
from relay_client.tests.sessions import ABANDONED, moves_without_a_draw, owner_of, play
from relay_client.tests.test_serving import LEAVING
from relay_client.texts import (BAD_FIELD, BOARDS, NO_BOARD, NOT_JSON, NOT_OBJECT, OPENED, UNKNOWN_COMMAND, ended, ends, following, follows,
                                leaves, moved, opens, over, played, refused, stands, submits, takes)

WRONG_MODE = refused(14, "WrongMode")
NOT_YET = refused(16, "NotYet")
MOVES = ["e2e4", "e7e5", "g1f3", "b8c6"]
DONE, AWAY, AGAIN = "close 1000", "close 1001", "close 1013"
PROC = pathlib.Path("/proc")
CROWD = 500
LEAST_PASSING = 400
PASSING = [b"", REQUEST[:20], REQUEST, *(REQUEST + frame(line) for line in (follows("b1"), follows("b2"), BOARDS, DONE, "["))]
SOON = 10  # Seconds within which what happens at once has happened, on a machine that is busy with proofs too.


def spectator_of(server, board="b1", place=None, **options):
    """A connection that watches the board, and what it was answered."""
    spectator = Connection(server.watch_port, **options)
    spectator.send(follows(board, place=place))
    return spectator, spectator.receive()


def watcher_of(server, board="b1", **options):
    """A connection that watches the board from its start, with no move made yet."""
    spectator, answer = spectator_of(server, board, **options)
    assert answer == following(), answer
    return spectator


def all_until_close(connection):
    """All texts until the close, and that."""
    texts = [connection.receive()]
    while not texts[-1].startswith("close "):
        texts.append(connection.receive())
    return texts


def close_all(*connections):
    for connection in connections:
        connection.close()


def answered(port, line, **options):
    """What a newcomer is answered."""
    newcomer = Connection(port, **options)
    newcomer.send(line)
    answer = newcomer.receive()
    newcomer.close()
    return answer


def kept_by_system(server, connection):
    """What the system keeps of the server's end of a connection: how many bytes were not taken yet, and how many were not read. Nothing,
    if that end is gone."""
    ends = [f":{server.watch_port:04X}", f":{connection.stream.getsockname()[1]:04X}"]
    for line in (PROC / "net/tcp").read_text().splitlines()[1:]:
        words = line.split()
        if [words[1][-5:], words[2][-5:]] == ends:
            return words[4]
    return None


def newcomers(server, comes):
    """Newcomers ask for all boards, one after another, as long as they should come; returns how many there were."""
    count = 0
    while comes.is_set():
        newcomer = Connection(server.watch_port)
        newcomer.send(BOARDS)
        newcomer.receive()
        newcomer.close()
        count += 1
    return count


def passers_by(server, chance, is_over):
    """Newcomers who come and go, one after another, until that is set, and no fewer than the least; how many they were. They go with half a
    request, when they have asked, while they are answered or after that, by an end or a reset."""
    count = 0
    while count < LEAST_PASSING or not is_over.is_set():
        with socket.create_connection(("127.0.0.1", server.watch_port), timeout=PATIENCE) as newcomer:
            said = chance.choice(PASSING)
            newcomer.sendall(said)
            if len(said) >= len(REQUEST) and chance.randrange(2):
                newcomer.recv(1)
            if chance.randrange(2):
                newcomer.setsockopt(socket.SOL_SOCKET, socket.SO_LINGER, struct.pack("ii", 1, 0))
        count += 1
    return count


class Watching(unittest.TestCase):
    def test_from_each_place_come_the_texts_of_the_main_port(self):
        """Random games, each ended in another way."""
        chance = random.Random(960)
        ways = ends("b0", "agreed"), ends("b1", "resign", "white"), ends("b2", "abandoned"), ends("b3", "resign", "black")
        with Server("--forever", "--followers", "1024", watch=True) as server:
            for at, way in enumerate(ways):
                board, start = f"b{at}", chance.randrange(960)
                owner = Connection(server.port)
                owner.send(opens(board, start))
                owner.receive()
                moves = game_by_chance(start, chance, 40)
                for place, move in enumerate(moves):
                    owner.send(submits(board, move))
                    owner.receive()
                live = [spectator_of(server, board, place)[0] for place in (0, len(moves))]
                owner.send(way)
                owner.receive()
                for place in range(len(moves) + 1):
                    with self.subTest(board=board, place=place):
                        guest = Connection(server.port)
                        guest.send(follows(board, place=place))
                        watcher, answer = spectator_of(server, board, place)
                        self.assertEqual([answer, *all_until_close(watcher)], all_until_close(guest))
                        close_all(guest, watcher)
                close_all(owner, *live)

    def test_moves_and_the_end_come_as_they_are_made(self):
        with Server("--forever", watch=True) as server:
            owner = owner_of(server)
            watchers = [watcher_of(server) for _ in range(50)]
            moves = list(moves_without_a_draw())[:60]
            for place, move in enumerate(moves):
                owner.asks(submits("b1", move), played(place))
                for watcher in watchers:
                    watcher.hears(moved(move, place))
            owner.asks(ends("b1", "agreed"), ended("agreed"))
            for watcher in watchers:
                watcher.hears(over("agreed"), DONE)
                watcher.has_ended()
            close_all(owner, *watchers)

    def test_every_place_is_there_for_everybody_whatever_the_capacity_and_the_count_of_followers(self):
        """On the main port a place so far back is refused 15, and a second follower 11."""
        moves = list(moves_without_a_draw())
        with Server("--forever", "--capacity", "1", "--followers", "1", watch=True) as server:
            owner = owner_of(server)
            texts = play(owner, moves)
            watchers = [spectator_of(server, place=0) for _ in range(20)]
            for watcher, answer in watchers:
                self.assertEqual(answer, following())
                watcher.hears(*texts)
            close_all(owner, *(watcher for watcher, _ in watchers))

    def test_what_is_not_to_be_watched_is_refused_and_asked_for_again(self):
        with Server("--forever", watch=True) as server:
            watcher = Connection(server.watch_port)
            watcher.asks(follows("b1"), NO_BOARD)
            owner = owner_of(server)
            watcher.asks(follows("b1", place=1), NOT_YET)
            watcher.asks(follows("b1", place=65535), NOT_YET)
            owner.asks(submits("b1", "e2e4"), played(0))
            watcher.send(follows("b1", place=0))
            watcher.hears(following(), moved("e2e4", 0))
            close_all(owner, watcher)

    def test_nothing_can_be_changed_there(self):
        with Server("--forever", watch=True) as server:
            owner, watcher = owner_of(server), Connection(server.watch_port)
            commands = opens("b2"), submits("b1", "e2e4"), ends("b1", "abandoned"), takes(1), leaves(1)
            for command in commands:
                watcher.asks(command, WRONG_MODE)
            watcher.asks(follows("b1"), following())
            for command in (*commands, follows("b1"), "[]", "nonsense"):
                watcher.asks(command, WRONG_MODE)
            watcher.stream.sendall(head(0x82, 1) + b"a")
            watcher.hears(WRONG_MODE)
            owner.asks(submits("b1", "e2e4"), played(0))
            watcher.hears(moved("e2e4", 0))
            self.assertEqual(answered(server.port, follows("b2")), NO_BOARD)
            close_all(owner, watcher)

    def test_texts_that_are_no_commands_have_their_faults(self):
        with Server("--forever", watch=True) as server:
            for line, fault in (("[", NOT_JSON), ("[]", NOT_OBJECT), ("{}", UNKNOWN_COMMAND), ('{"cmd":"follow"}', BAD_FIELD),
                                ('{"cmd":"watch"}', UNKNOWN_COMMAND), ("[" * 1025, BAD_FIELD)):
                with self.subTest(line[:20]):
                    self.assertEqual(answered(server.watch_port, line), fault)
                    self.assertEqual(answered(server.port, line), fault)

    def test_pings_are_answered_at_all_times(self):
        with Server("--forever", watch=True) as server:
            owner, watcher = owner_of(server), watcher_of(server)
            moves = list(moves_without_a_draw())[:20]
            for place, move in enumerate(moves):
                payload = f"{place}".encode()
                watcher.stream.sendall(head(PING, len(payload)) + bytes(byte ^ MASK[at % 4] for at, byte in enumerate(payload)))
                self.assertEqual(watcher.exactly(2 + len(payload)), bytes([0x8A, len(payload)]) + payload)
                owner.asks(submits("b1", move), played(place))
                watcher.hears(moved(move, place))
            close_all(owner, watcher)

    def test_a_close_is_answered_at_once_with_its_code(self):
        with Server("--forever", watch=True) as server:
            owner = owner_of(server)
            for code in "close 1000", "close 1001", "close 4321":
                watcher = watcher_of(server)
                watcher.asks(code, code)
                watcher.has_ended()
                watcher.close()
            owner.asks(submits("b1", "e2e4"), played(0))
            owner.close()

    def test_pongs_and_refusals_stand_between_whole_texts_for_one_that_reads_slowly(self):
        """The log is far longer than what the connection holds, so frames are written in part."""
        moves = list(moves_without_a_draw())
        with Server("--forever", watch=True) as server:
            owner = owner_of(server)
            texts = play(owner, moves)
            slow = Connection(server.watch_port, room=1024)
            slow.send(follows("b1", place=0))
            time.sleep(0.5)
            slow.stream.sendall(frame("[]") * 20)
            received = []
            while len(received) < 1 + len(texts) + 20:
                received.append(slow.receive())
            self.assertEqual([text for text in received if text != WRONG_MODE], [following(), *texts])
            self.assertEqual(received.count(WRONG_MODE), 20)
            close_all(owner, slow)

    def test_a_request_and_commands_byte_by_byte_are_understood(self):
        with Server("--forever", watch=True) as server:
            owner = owner_of(server)
            with socket.create_connection(("127.0.0.1", server.watch_port), timeout=PATIENCE) as slow:
                slow.setsockopt(socket.IPPROTO_TCP, socket.TCP_NODELAY, 1)
                for byte in request() + frame(follows("b1")):
                    slow.sendall(bytes([byte]))
                received = b""
                while following().encode() not in received:
                    piece = slow.recv(4096)
                    self.assertTrue(piece)
                    received += piece
            owner.close()

    def test_commands_behind_the_request_in_one_piece_are_understood(self):
        with Server("--forever", watch=True) as server:
            owner = owner_of(server)
            with socket.create_connection(("127.0.0.1", server.watch_port), timeout=PATIENCE) as quick:
                quick.sendall(request() + frame("[]") + frame(follows("b1")))
                received = b""
                while following().encode() not in received:
                    received += quick.recv(4096)
                self.assertIn(NOT_OBJECT.encode(), received)
            owner.close()

    def test_what_is_sent_behind_a_command_in_one_piece_is_answered_behind_what_that_is_told_first(self):
        with Server("--forever", watch=True) as server:
            owner = owner_of(server)
            owner.asks(opens("b2"), OPENED)
            owner.asks(submits("b1", "e2e4"), played(0))
            for command, wanted in {
                follows("b1", place=0): [following(), moved("e2e4", 0)],
                BOARDS: [stands("b1", fen=fens(518, ["e2e4"])[0], last="e2e4", plies=1), stands("b2")],
            }.items():
                with self.subTest(command):
                    quick = Connection(server.watch_port)
                    quick.stream.sendall(frame("[]") + frame(command) + frame("[]") + frame(follows("b1")))
                    quick.hears(NOT_OBJECT, *wanted, WRONG_MODE, WRONG_MODE)
                    quick.close()
            owner.asks(ends("b2", "agreed"), ended("agreed"))
            late = Connection(server.watch_port)
            late.stream.sendall(frame(follows("b2", place=0)) + frame("[]"))
            late.hears(following(), over("agreed"), "close 1000")
            close_all(owner, late)

    def test_who_sends_without_end_and_reads_nothing_is_heard_no_more_and_others_are(self):
        with Server("--forever", "--watch-threads", "1", watch=True) as server:
            owner, watcher = owner_of(server), watcher_of(server)
            deaf = Connection(server.watch_port, room=4096)
            deaf.stream.settimeout(1)
            began = server.data_kibibytes()
            with self.assertRaises(TimeoutError):
                for _ in range(100_000):
                    deaf.stream.sendall(frame("[") * 1000)
            self.assertLess(server.data_kibibytes() - began, 2048)
            owner.asks(submits("b1", "e2e4"), played(0))
            watcher.hears(moved("e2e4", 0))
            close_all(owner, watcher, deaf)


class Round(unittest.TestCase):
    def until(self, watcher, wanted):
        """Hears until this text comes; how many came."""
        count = 1
        while (heard := watcher.receive()) != wanted:
            self.assertTrue(heard.startswith('{"board":"b1"'), heard)
            count += 1
        return count

    def test_all_boards_are_told_in_the_order_of_opening_and_then_what_changes(self):
        moves = MOVES[:4]
        positions = fens(518, moves)
        with Server("--forever", watch=True) as server:
            early = Connection(server.watch_port)
            early.send(BOARDS)
            owner = owner_of(server, "b1")
            early.hears(stands("b1"))
            owner.asks(opens("a2", 0), OPENED)
            second = stands("a2", start=0, fen=start_fen(0))
            early.hears(second)
            owner.asks(submits("b1", moves[0]), played(0))
            first = stands("b1", fen=positions[0], last=moves[0], plies=1)
            early.hears(first)
            late = Connection(server.watch_port)
            late.asks(BOARDS, first)
            late.hears(second)
            for place, move in list(enumerate(moves))[1:]:
                owner.asks(submits("b1", move), played(place))
            last = {"fen": positions[-1], "last": moves[-1], "plies": len(moves)}
            for watcher in early, late:
                self.assertLessEqual(self.until(watcher, stands("b1", **last)), 3)
            owner.asks(ends("b1", "agreed"), ended("agreed"))
            for watcher in early, late:
                watcher.hears(stands("b1", outcome="agreed", **last))
            owner.close()
            for watcher in early, late:
                watcher.hears(stands("a2", start=0, fen=start_fen(0), outcome="abandoned"))
                watcher.close()

    def test_new_moves_are_told_at_most_once_a_second(self):
        moves = list(moves_without_a_draw())[:60]
        positions = fens(518, moves)
        with Server("--forever", watch=True) as server:
            owner, watcher = owner_of(server), Connection(server.watch_port)
            watcher.asks(BOARDS, stands("b1"))
            began = time.monotonic()
            for place, move in enumerate(moves):
                owner.asks(submits("b1", move), played(place))
                time.sleep(0.05)
            count = self.until(watcher, stands("b1", fen=positions[-1], last=moves[-1], plies=len(moves)))
            self.assertLessEqual(count, time.monotonic() - began + 2)
            close_all(owner, watcher)

    def test_newcomers_take_no_news_away_from_who_watches_all(self):
        """The loop makes the text of a board again for each newcomer, if there is news. Those who were there before are due it too."""
        moves = list(moves_without_a_draw())[:12]
        positions = fens(518, moves)
        with Server("--forever", "--watch-threads", "1", watch=True) as server, concurrent.futures.ThreadPoolExecutor(1) as pool:
            owner, watcher = owner_of(server), Connection(server.watch_port)
            watcher.asks(BOARDS, stands("b1"))
            watcher.stream.settimeout(SOON)  # A ping, which brings news too, comes after thirty seconds.
            comes = threading.Event()
            comes.set()
            coming = pool.submit(newcomers, server, comes)
            try:
                for place, move in enumerate(moves):
                    owner.asks(submits("b1", move), played(place))
                    time.sleep(0.15)
                    if place % 4 == 3:
                        self.until(watcher, stands("b1", fen=positions[place], last=move, plies=place + 1))
            finally:
                comes.clear()
                self.assertGreater(coming.result(), 10)
            close_all(owner, watcher)

    def test_who_watches_all_watches_nothing_else_and_who_watches_one_not_all(self):
        with Server("--forever", watch=True) as server:
            owner, all_boards, one = owner_of(server), Connection(server.watch_port), watcher_of(server)
            all_boards.asks(BOARDS, stands("b1"))
            for line in follows("b1"), BOARDS, "nonsense":
                all_boards.asks(line, WRONG_MODE)
            one.asks(BOARDS, WRONG_MODE)
            self.assertEqual(answered(server.port, BOARDS), UNKNOWN_COMMAND)
            self.assertEqual(answered(server.watch_port, '{"cmd":"boards","board":"b1"}'), BAD_FIELD)
            close_all(owner, all_boards, one)

    def test_it_ends_with_serving(self):
        with Server("--connections", "1", watch=True) as server:
            owner, watcher = owner_of(server), Connection(server.watch_port)
            watcher.asks(BOARDS, stands("b1"))
            owner.close()
            watcher.hears(stands("b1", outcome="abandoned"), AWAY)
            watcher.close()
            server.has_served(1)


class Limits(unittest.TestCase):
    def test_one_more_than_the_most_is_told_to_come_again(self):
        with Server("--forever", "--watch-most", "3", watch=True) as server:
            owner = owner_of(server)
            watchers = [watcher_of(server) for _ in range(3)]
            newcomer = Connection(server.watch_port)
            newcomer.hears(AGAIN)
            newcomer.has_ended()
            newcomer.close()
            watchers.pop().close()
            until = time.monotonic() + SOON
            while time.monotonic() < until:
                later = Connection(server.watch_port)
                later.send(follows("b1"))
                if later.receive() == following():
                    break
                later.close()
            owner.asks(submits("b1", "e2e4"), played(0))
            for watcher in (*watchers, later):
                watcher.hears(moved("e2e4", 0))
            close_all(owner, later, *watchers)

    def test_one_that_was_told_to_come_again_counts_until_it_has_gone(self):
        with Server("--forever", "--watch-most", "1", watch=True) as server:
            watcher, refused = Connection(server.watch_port), Connection(server.watch_port)
            refused.hears(AGAIN)
            watcher.close()
            time.sleep(1)
            newcomer = Connection(server.watch_port)
            newcomer.hears(AGAIN)
            close_all(refused, newcomer)
            until = time.monotonic() + SOON
            while time.monotonic() < until:
                with contextlib.closing(Connection(server.watch_port)) as later:
                    later.send(follows("b1"))
                    if later.receive() == NO_BOARD:
                        return
            self.fail("no place came free")

    def test_newcomers_without_a_descriptor_are_told_so_and_nobody_else_feels_it(self):
        with Server("--forever", "--watch-threads", "1", watch=True) as server:
            owner, watcher = owner_of(server), watcher_of(server)
            # The main port's accept has the number of its next descriptor, though none is open there yet. So it is the greatest that
            # counts.
            held = 1 + max(int(it.name) for it in open_descriptors(server))
            _, most = resource.prlimit(server.process.pid, resource.RLIMIT_NOFILE)
            resource.prlimit(server.process.pid, resource.RLIMIT_NOFILE, (held, most))
            for _ in range(3):
                with socket.create_connection(("127.0.0.1", server.watch_port), timeout=PATIENCE) as newcomer:
                    self.assertEqual(newcomer.recv(13), b"HTTP/1.1 503 ")
            owner.asks(submits("b1", "e2e4"), played(0))
            watcher.hears(moved("e2e4", 0))
            resource.prlimit(server.process.pid, resource.RLIMIT_NOFILE, (held + 1, most))
            self.assertEqual(answered(server.watch_port, follows("b2")), NO_BOARD)
            close_all(owner, watcher)

    def test_a_thousand_newcomers_that_go_again_leave_nothing_behind(self):
        """With one loop, since each loop's thread takes memory of its own as it serves its first."""
        with Server("--forever", "--watch-threads", "1", watch=True) as server:
            owner = owner_of(server)
            crowds = []
            for _ in range(3):
                for number in range(1000):
                    spectator, _ = spectator_of(server)
                    spectator.close() if number % 2 else spectator.reset()
                crowds.append(server.data_kibibytes())
            self.assertLess(crowds[2] - crowds[1], 64)
            self.comes_down(server, 20)
            owner.asks(submits("b1", "e2e4"), played(0))
            owner.close()

    def test_moves_come_to_all_while_thousands_come_and_go(self):
        """A machine with nothing else to do has some thousands of them a second."""
        moves = list(moves_without_a_draw())[:100]
        with Server("--forever", watch=True) as server:
            owner, watchers = owner_of(server), [watcher_of(server) for _ in range(10)]
            held, is_over = len(list(open_descriptors(server))), threading.Event()
            with concurrent.futures.ThreadPoolExecutor(8) as pool:
                passing = [pool.submit(passers_by, server, random.Random(number), is_over) for number in range(8)]
                try:
                    for place, move in enumerate(moves):
                        owner.asks(submits("b1", move), played(place))
                        for watcher in watchers:
                            watcher.hears(moved(move, place))
                finally:
                    is_over.set()
            self.assertGreaterEqual(sum(it.result() for it in passing), 8 * LEAST_PASSING)
            self.comes_down(server, held)
            close_all(owner, *watchers)

    def test_a_crowd_takes_no_memory_that_one_of_the_same_size_did_not_take_before(self):
        """All of a crowd are there at once. What each left of itself, if it were more than 32 bytes, four crowds would show."""
        moves = list(moves_without_a_draw())
        with Server("--forever", "--watch-threads", "1", watch=True) as server:
            owner = owner_of(server)
            # Once the loop has answered somebody, it has all that it holds, and him.
            first, _ = spectator_of(server, place=0)
            held, taken = len(list(open_descriptors(server))) - 1, []
            first.close()
            texts = play(owner, moves[:20])
            for place in range(20, 26):
                crowd = [spectator_of(server, place=0)[0] for _ in range(CROWD)]
                owner.asks(submits("b1", moves[place]), played(place))
                texts.append(moved(moves[place], place))
                for spectator in crowd:
                    spectator.hears(*texts)
                taken.append(server.data_kibibytes())
                for spectator in crowd:
                    spectator.stream.sendall(frame(DONE))
                    spectator.hears(DONE)
                    spectator.close()
                self.comes_down(server, held)
            self.assertLess(taken[5] - taken[1], 4 * CROWD * 32 // 1024, taken)
            owner.close()

    def comes_down(self, server, most):
        """Waits until the server has at most this many descriptors open."""
        until = time.monotonic() + SOON
        while len(list(open_descriptors(server))) > most and time.monotonic() < until:
            time.sleep(0.1)
        self.assertLessEqual(len(list(open_descriptors(server))), most)

    def test_half_a_request_has_ten_seconds_and_half_a_message(self):
        with Server("--forever", watch=True) as server:
            began = time.monotonic()
            half = socket.create_connection(("127.0.0.1", server.watch_port), timeout=PATIENCE)
            half.sendall(request()[:20])
            midway = Connection(server.watch_port)
            midway.stream.sendall(frame("[]")[:3])
            self.assertEqual(half.recv(1), b"")
            midway.has_ended()
            took = time.monotonic() - began
            self.assertTrue(9 < took < 10 + SOON, took)
            close_all(half, midway)

    def test_one_that_takes_nothing_is_given_up_after_thirty_seconds(self):
        moves = list(moves_without_a_draw())
        with Server("--forever", "--watch-threads", "1", "--watch-most", "2", "--plies", "8192", watch=True) as server:
            owner = owner_of(server)
            texts = play(owner, moves)
            stuck = Connection(server.watch_port, room=1024)
            stuck.stream.settimeout(1)
            with self.assertRaises((TimeoutError, ConnectionResetError, BrokenPipeError)):
                for _ in range(100_000):
                    stuck.stream.sendall(frame("[") * 1000)
            # It is heard as long as the system keeps its answers, which takes a while on a busy machine.
            kept, began = kept_by_system(server, stuck), time.monotonic()
            while time.monotonic() < began + 60:
                watcher, answer = spectator_of(server, place=0)
                other = Connection(server.watch_port)
                other.send(follows("b1"))
                told = other.receive()
                close_all(watcher, other)
                if told != AGAIN:
                    break
                time.sleep(1)
                now = kept_by_system(server, stuck)
                if now and now != kept:
                    kept, began = now, time.monotonic()
            took = time.monotonic() - began
            self.assertTrue(25 < took < 45 + SOON, took)
            self.assertTrue(texts)
            close_all(owner, stuck)

    def test_a_spectator_that_vanished_is_noticed_within_ninety_seconds(self):
        with Server("--forever", "--watch-most", "1", watch=True) as server:
            owner, watcher = owner_of(server), watcher_of(server)
            watcher.vanish()
            began = time.monotonic()
            while time.monotonic() < began + 120:
                time.sleep(1)
                if answered(server.watch_port, follows("b1")) == following():
                    break
            took = time.monotonic() - began
            self.assertTrue(80 < took < 90 + SOON / 2, took)
            owner.close()

    def test_one_that_asks_for_nothing_goes_when_its_time_is_over_and_one_that_watches_stays(self):
        with Server("--forever", "--idle", "3", watch=True) as server:
            owner, watcher, idle = owner_of(server), watcher_of(server), Connection(server.watch_port)
            began = time.monotonic()
            for _ in range(3):
                time.sleep(1)
                idle.asks("[]", NOT_OBJECT)
            idle.hears(AWAY)
            took = time.monotonic() - began
            self.assertTrue(5 < took < 8 + SOON, took)
            owner.asks(submits("b1", "e2e4"), played(0))
            watcher.hears(moved("e2e4", 0))
            close_all(owner, watcher, idle)


def open_descriptors(server):
    """The descriptors that the server has open."""
    return (PROC / str(server.process.pid) / "fd").iterdir()


class Ending(unittest.TestCase):
    def test_the_port_ends_with_the_main_one(self):
        """A spectator gets the end of the game, and one who asks for nothing hears that the server goes."""
        with Server("--connections", "1", watch=True) as server:
            owner, watcher, asking = owner_of(server), watcher_of(server), Connection(server.watch_port)
            owner.asks(submits("b1", "e2e4"), played(0))
            owner.close()
            watcher.hears(moved("e2e4", 0), ABANDONED, DONE)
            asking.hears(AWAY)
            close_all(watcher, asking)
            server.has_served(1)

    def test_it_ends_when_standard_input_does(self):
        with Server("--forever", "--until-input-ends", watch=True, stdin=subprocess.PIPE) as server:
            owner = owner_of(server)
            watchers = [watcher_of(server) for _ in range(100)]
            moves = list(moves_without_a_draw())[:12]
            texts = play(owner, moves)
            server.process.stdin.close()
            server.process.stdin = None
            for watcher in watchers:
                watcher.hears(*texts, ABANDONED, DONE)
            close_all(owner, *watchers)
            self.assertEqual(server.ended(), (b"", b"served 1, failed 0\n", 0))

    def test_a_board_that_waits_for_its_operator_ends_for_spectators_too_when_standard_input_does(self):
        """Nobody is left at the main port, so its loop is over with the turn in which the board ends."""
        with Server("--forever", "--until-input-ends", "--grace", "60", watch=True, stdin=subprocess.PIPE) as server:
            owner, watcher, of_all = owner_of(server, key=new_key()), watcher_of(server), Connection(server.watch_port)
            owner.asks(submits("b1", "e2e4"), played(0))
            watcher.hears(moved("e2e4", 0))
            owner.close()
            time.sleep(0.3)  # The relay notices that it has gone.
            server.process.stdin.close()
            server.process.stdin = None
            watcher.hears(ABANDONED, DONE)
            of_all.hears(AWAY)
            close_all(watcher, of_all)
            self.assertEqual(server.ended(), (b"", b"served 1, failed 0\n", 0))

    def test_those_of_both_ports_that_do_not_go_are_waited_for_at_the_same_time(self):
        """Before, one of this port was told only once the four seconds of the main one were over, and had another four."""
        with Server("--forever", "--until-input-ends", watch=True, stdin=subprocess.PIPE) as server:
            owner, watcher, asking = owner_of(server), watcher_of(server), Connection(server.watch_port)
            began = time.monotonic()
            server.process.stdin.close()
            server.process.stdin = None
            watcher.hears(ABANDONED, DONE)
            asking.hears(AWAY)
            self.assertLess(time.monotonic() - began, LEAVING - 0.5)
            owner.hears(AWAY)
            self.assertEqual(server.ended(), (b"", b"served 1, failed 0\n", 0))
            self.assertLess(time.monotonic() - began, LEAVING + 2.5)
            close_all(owner, watcher, asking)

    def test_one_that_does_not_go_is_waited_for_four_seconds(self):
        with Server("--connections", "1", watch=True) as server:
            owner, watcher = owner_of(server), watcher_of(server)
            owner.close()
            watcher.hears(ABANDONED, DONE)
            began = time.monotonic()
            server.has_served(1)
            self.assertLess(time.monotonic() - began, 5 + SOON)
            watcher.close()

    def test_an_address_that_cannot_be_had_is_a_fault_of_the_device_before_anything_is_listened_on(self):
        with Server("--forever", watch=True) as server:
            for address, number in (f"127.0.0.1:{server.watch_port}", errno.EADDRINUSE), ("192.0.2.1:9601", errno.EADDRNOTAVAIL):
                words = [PROGRAM, "serve", "--port", str(free_port()), "--watch", address]
                second = subprocess.run(words, capture_output=True, timeout=PATIENCE)
                self.assertEqual((second.returncode, second.stdout, second.stderr), (3, b"", port_fault(address, number)))

    def test_any_address_of_the_machine_may_be_watched_at(self):
        addresses = ("0.0.0.0", "127.0.0.1"), ("0.0.0.0", "127.0.0.2"), ("127.0.0.2", "127.0.0.2"), ("[::1]", "::1"), ("[::]", "::1")
        for address, host in addresses:
            port = free_port()
            words = [PROGRAM, "serve", "--port", str(free_port()), "--forever", "--watch", f"{address}:{port}"]
            with self.subTest(address=address, host=host), subprocess.Popen(words, stdout=subprocess.PIPE) as process:
                try:
                    process.stdout.readline()
                    self.assertEqual(process.stdout.readline(), f"watching {address}:{port}\n".encode())
                    self.assertEqual(answered(port, follows("b1"), host=host), NO_BOARD)
                finally:
                    process.send_signal(signal.SIGKILL)
