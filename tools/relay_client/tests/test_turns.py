"""Whose turn comes first on the main port, shown by the order of what happens: the server stands still until all of it has been asked."""

import json
import pathlib
import tempfile
import time
import unittest

from relay_client.connection import Connection
from relay_client.journals import lines_in
from relay_client.server import Server
from relay_client.tests.sessions import guest_of, moves_without_a_draw, owner_of, play
from relay_client.tests.test_wakes import came_at, noted
from relay_client.tests.test_watching import close_all
from relay_client.tests.test_watching_loops import Stopped
from relay_client.texts import NOT_JSON, moved, played, submits

KEY, OTHER_KEY = "k" * 32, "o" * 32
MANY = 40  # Connections with one key.
ROUNDS = 10
OTHERS = 8
FOLLOWERS = 8


def boards_moved(journal):
    """The board of each move of a journal, in the order in which they were made."""
    commands = (json.loads(line.body.partition(b" ")[2]) for line in lines_in(journal.read_bytes())[1:])
    return [said["board"] for said in commands if said["cmd"] == "submit"]


def is_busy(server):
    """Whether its first thread, which is the loop, runs or waits for the disk."""
    return pathlib.Path(f"/proc/{server.process.pid}/stat").read_text().rpartition(")")[2].split()[0] in "RD"


def stopped_at_rest(server):
    """A block within which the server stands still, with nothing left to do: whoever was just answered may be due a further turn, and would
    have it first."""
    while is_busy(server):
        time.sleep(0.001)
    return Stopped(server)


class Keys(unittest.TestCase):
    def setUp(self):
        folder = tempfile.TemporaryDirectory()
        self.addCleanup(folder.cleanup)
        self.journal = pathlib.Path(folder.name) / "games"

    def moves_before(self, server, crowd, single, place, move):
        """Each connection of the crowd makes the move on its board, and last of all the single one does; how many of them were made before
        that one."""
        before = len(boards_moved(self.journal))
        asked = [*crowd.items(), ("single", single)]
        with stopped_at_rest(server):
            for board, operator in asked:
                operator.send(submits(board, move))
        for _, operator in asked:
            operator.hears(played(place))
        return boards_moved(self.journal)[before:].index("single")

    def test_an_operator_waits_for_one_connection_of_another_key_not_for_all_of_them(self):
        """If the system holds the server up in the turn of that one, for the two milliseconds that operators have, others of its key come
        next. So this is said of more than half of the rounds. All are answered in the end."""
        words = "--journal", str(self.journal), "--forever", "--grace", "600", "--boards", str(MANY + 1)
        with Server(*words) as server:
            crowd = {board: owner_of(server, board, key=KEY) for board in (f"b{number}" for number in range(MANY))}
            single = owner_of(server, "single", key=OTHER_KEY)
            moves = enumerate(list(moves_without_a_draw())[:ROUNDS])
            before = [self.moves_before(server, crowd, single, place, move) for place, move in moves]
            self.assertLessEqual(sorted(before)[ROUNDS // 2], 1, before)
            close_all(*crowd.values(), single)


class Ranks(unittest.TestCase):
    def test_an_operator_comes_first_then_who_follows_then_all_others_whoever_asked_first(self):
        with Server("--forever") as server:
            owner, guest = noted(owner_of(server)), noted(guest_of(server))
            others = [noted(Connection(server.port)) for _ in range(OTHERS)]
            with stopped_at_rest(server):
                for other in others:
                    other.send("[")
                owner.send(submits("b1", "e2e4"))
            times = [came_at(owner), came_at(guest), min(map(came_at, others))]
            self.assertEqual(times, sorted(times))
            owner.hears(played(0))
            guest.hears(moved("e2e4", 0))
            for other in others:
                other.hears(NOT_JSON)
            close_all(owner, guest, *others)

    def test_an_operator_that_sends_many_moves_at_once_waits_until_those_who_follow_have_each(self):
        """Its board is ahead of them by a quarter of a queue at most, which is one move here. So none is cut, slow as the server may be."""
        with Server("--forever", "--capacity", "4") as server:
            owner, guests = owner_of(server), [guest_of(server) for _ in range(FOLLOWERS)]
            texts = play(owner, list(moves_without_a_draw()))
            for guest in guests:
                guest.hears(*texts)
            close_all(owner, *guests)


if __name__ == "__main__":
    unittest.main()
