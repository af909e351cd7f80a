"""What `serve --log` writes on standard error."""

import time
import unittest

from relay_client.connection import Connection
from relay_client.frames import pong
from relay_client.keys import new_key
from relay_client.server import Server, last_has_come
from relay_client.tests.sessions import ABANDONED, guest_of, owner_of
from relay_client.tests.test_watching_loops import long_game
from relay_client.texts import NOT_OBJECT, OPENED, ended, ends, opens, played, submits
from relay_client.waiting import is_readable

SOON = 10  # Seconds within which what happens at once has happened, on a busy machine too.
MATE = ["f2f3", "e7e5", "g2g4", "d8h4"]


def line(words):
    return f"[INFO  relay960] {words}"


class Reader:
    """Reads a server's log while it serves, and to its end."""

    def __init__(self, server):
        self.server = server
        self.lines = []

    def reads(self, words, seconds=SOON):
        """Reads on until a line has these words."""
        until, stream = time.monotonic() + seconds, self.server.process.stderr
        while (left := until - time.monotonic()) > 0 and is_readable(stream, left):
            if not (heard := stream.readline()):
                break
            self.lines.append(heard.decode().rstrip("\n"))
            if words in self.lines[-1]:
                return self.lines[-1]
        raise AssertionError(f"{words!r} did not come, but {self.lines[-20:]}")

    def ended(self):
        """All lines up to the server's end, without the last, which reports it, and without the one on the last connection, which may come
        between any two of the log."""
        printed, complained, status = self.server.ended()
        assert (printed, status) == (b"", 0), (printed, status)
        self.lines += complained.decode().splitlines()
        assert self.lines[-1].startswith("served "), self.lines[-1]
        words = self.server.words
        if "--connections" in words:
            self.lines.remove(last_has_come(words[words.index("--connections") + 1]).rstrip("\n"))
        return self.lines[:-1]


class Log(unittest.TestCase):
    """Before, a server wrote nothing of its boards."""

    def test_each_board_that_is_opened_ends_waits_or_has_its_operator_back_is_a_line(self):
        """No line has a move or a key."""
        key = new_key()
        with Server("--log", "--grace", "60", "--connections", "5") as server:
            log, owner, guest = Reader(server), owner_of(server, key=key), guest_of(server)
            owner.asks(submits("b1", "e2e4"), played(0))
            owner.asks(opens("b2"), OPENED)
            owner.asks(ends("b2", "agreed"), ended("agreed"))
            owner.reset()
            log.reads("b1 waits")
            back = Connection(server.port, key=key)
            back.asks(ends("b1", "resign", side="white"), ended("white resigns"))
            stranger = owner_of(server, "b3")
            for move in MATE:
                stranger.send(submits("b3", move))
                stranger.receive()
            stranger.asks(opens("b4"), OPENED)
            for connection in guest, stranger:
                connection.close()
            log.reads("b4 ended")
            back.asks(opens("b5"), OPENED)
            back.close()
            log.reads("b5 waits")
            owner_of(server, "b6").close()
            lines = log.ended()
            self.assertEqual(lines[:12], list(map(line, [
                "board b1 opened",
                "board b2 opened",
                "board b2 ended: agreed",
                "board b1 waits for its operator",
                "board b1 has its operator back",
                "board b1 ended: white resigns",
                "board b3 opened",
                "board b3 ended: black mates",
                "board b4 opened",
                "board b4 ended: abandoned",
                "board b5 opened",
                "board b5 waits for its operator",
            ])))
            # After the last connection no board waits any more.
            self.assertEqual(sorted(lines[12:]), sorted(map(line, [
                "board b5 ended: abandoned",
                "board b6 opened",
                "board b6 ended: abandoned",
            ])))

    def test_each_follower_that_is_cut_off_is_a_line(self):
        """Three of six take next to nothing, and their queues have room for four moves. Nobody reads before the game is over."""
        moves = long_game(1400)
        with Server("--log", "--capacity", "4", "--plies", "1500", "--connections", "7") as server:
            log, owner = Reader(server), owner_of(server)
            fast = [guest_of(server) for _ in range(3)]
            slow = [guest_of(server, room=1024, segment=536) for _ in range(3)]
            for start in range(0, len(moves), 100):
                owner.send(*(submits("b1", move) for move in moves[start:start + 100]))
                owner.hears(*(played(place) for place in range(start, min(start + 100, len(moves)))))
                time.sleep(0.01)
            owner.close()
            for guest, code in [*((it, "close 1000") for it in fast), *((it, "close 4001") for it in slow)]:
                while not (received := guest.receive()).startswith("close"):
                    pass
                self.assertEqual(received, code)
                guest.close()
            lines = log.ended()
            self.assertEqual(lines.count(line("board b1 has cut a follower off")), len(slow))
            self.assertEqual(lines.count(line("board b1 ended: abandoned")), 1)

    def test_the_counts_come_once_a_minute(self):
        with Server("--log", "--connections", "3", watch=True) as server:
            began = time.monotonic()
            log, owner, guest, other = Reader(server), owner_of(server), guest_of(server), owner_of(server, "b2")
            watchers = [Connection(server.watch_port) for _ in range(2)]
            other.asks(ends("b2", "agreed"), ended("agreed"))
            for minute in 1, 2:
                told = log.reads("connections", 60 * minute + SOON)
                self.assertEqual(told, line("connections 3, boards 2, ended 1, followers 1, cut off 0"))
                log.reads(f"connections of the watch port {len(watchers)}")
                took = time.monotonic() - began
                self.assertTrue(60 * minute - 1 < took < 60 * minute + SOON, took)
                # Meanwhile all were sent pings, which are answered as the next answer is waited for.
                for peer in owner, other, *watchers:
                    peer.asks("[]", NOT_OBJECT)
                guest.stream.sendall(pong())
                watchers.pop().close()
            owner.close()
            guest.hears(ABANDONED, "close 1000")
            for connection in guest, other:
                connection.close()
            self.assertEqual(sum("boards" in told for told in log.ended()), 2)

    def test_games_go_on_where_nobody_reads_the_log(self):
        """Its lines fill what the system keeps for a reader, 65,536 bytes, and then those that the server keeps. The others are counted."""
        key, times = new_key(), 12
        names = [f"{number:03}".ljust(32, "_") for number in range(256)]
        with Server("--log", "--grace", "60", "--boards", "256", "--connections", str(times + 1)) as server:
            owner = Connection(server.port, key=key)
            owner.send(*map(opens, names))
            owner.hears(*[OPENED] * len(names))
            for name in names[:times]:
                owner.reset()
                time.sleep(1)
                owner = Connection(server.port, key=key)
                owner.asks(submits(name, "e2e4"), played(0))
            owner.close()
            lines = Reader(server).ended()
            self.assertGreater(sum("has its operator back" in told for told in lines), len(names))
            self.assertTrue(any(told.endswith(" lines left out") for told in lines), lines[-1])
