"""Operators that lose their connection and come back with their key: `serve --grace SECONDS`. Before, no key was looked at. A board was
abandoned as soon as the connection that had opened it ended, and every other connection was a stranger to it."""

import hashlib
import io
import itertools
import pathlib
import socket
import subprocess
import threading
import time
import unittest

from relay_client.connection import Connection
from relay_client.frames import frame, read_frame, request
from relay_client.keys import new_key, target_of
from relay_client.program import PATIENCE, PROGRAM
from relay_client.server import Server
from relay_client.tests.sessions import ABANDONED, guest_of, owner_of
from relay_client.tests.test_watching import close_all
from relay_client.tests.test_watching_loops import Stopped
from relay_client.texts import (BAD_FIELD, GAME_OVER, NO_BOARD, NOT_JSON, OPENED, ended, ends, following, follows, moved, opens, over,
                                played, refused, submits)
from relay_client.waiting import is_readable

NOT_YOURS = refused(13, "NotYourBoard")
WRONG_MODE = refused(14, "WrongMode")
BOARD_EXISTS = refused(2, "BoardExists")
KEY = "aB3_-9xYzQ0kLmNop"
SOON = 10  # Seconds within which what happens at once has happened, on a machine that is busy with proofs too.
LONG = 3600
# docs/PROTOCOL.md, Connect.
ALPHABET = b"0123456789_-ABCDEFGHIJKLMNOPQRSTUVWXYZabcdefghijklmnopqrstuvwxyz"
OPENING = "e2e4 e7e5 g1f3 b8c6 f1b5 a7a6 b5a4 g8f6 d2d3 d7d6 c2c3 b7b5 a4b3 c8g4".split()


def waits(grace):
    """A server whose boards wait this many seconds, and that accepts more connections than come."""
    return Server("--grace", str(grace), "--connections", "1000", "--boards", "40")


def close_in_order(connection):
    connection.asks("close 1000", "close 1000")
    connection.close()


def says_nothing(connection, seconds):
    """Whether nothing comes for so long, no end of the connection either."""
    return not is_readable(connection.stream, seconds)


class Keys(unittest.TestCase):
    def is_owned(self, connection, place, move, board="b1"):
        connection.asks(submits(board, move), played(place))

    def is_foreign(self, connection, board="b1"):
        """Neither a move nor an end is taken from this connection."""
        connection.asks(submits(board, "e2e4"), NOT_YOURS)
        connection.asks(ends(board, "agreed"), NOT_YOURS)

    def is_abandoned(self, guest, grace=0, lost=None, soon=SOON):
        """The guest hears of the board's end once, this many seconds after the loss and not much later."""
        lost = lost or time.monotonic()
        guest.hears(ABANDONED, "close 1000")
        took = time.monotonic() - lost
        self.assertGreaterEqual(took, grace - 0.1)
        self.assertLess(took, grace + soon)
        guest.close()


class ALostConnection(Keys):
    """Before, the followers got `abandoned` at once, and the operator who came back was refused 13."""

    def goes_on_after(self, lose):
        """A board whose operator's connection was lost in this way waits, and goes on under its name from where it was."""
        with waits(LONG) as server:
            owner, guest = owner_of(server, key=KEY), guest_of(server)
            self.is_owned(owner, 0, "e2e4")
            lose(owner)
            guest.hears(moved("e2e4", 0))
            self.assertTrue(says_nothing(guest, 1))
            back = Connection(server.port, key=KEY)
            back.asks(opens("b1"), BOARD_EXISTS)
            self.is_owned(back, 1, "e7e5")
            back.asks(ends("b1", "resign", "white"), ended("white resigns"))
            guest.hears(moved("e7e5", 1), over("white resigns"), "close 1000")

    def test_a_board_whose_operator_was_reset_goes_on(self):
        self.goes_on_after(Connection.reset)

    def test_a_board_whose_operator_went_without_a_close_goes_on(self):
        self.goes_on_after(Connection.close)

    def test_a_board_whose_operator_closed_in_order_goes_on(self):
        self.goes_on_after(close_in_order)

    def test_a_board_whose_operator_broke_a_frame_goes_on(self):
        def breaks(owner):
            owner.stream.sendall(b"\x83\x80\x00\x00\x00\x00")
            owner.close()
        self.goes_on_after(breaks)

    def test_an_operator_that_vanished_is_not_waited_for_and_its_end_ends_nothing(self):
        """The relay takes the vanished one for present until it answers no ping. By then another connection of its key is there."""
        with waits(LONG) as server:
            vanished, guest = owner_of(server, key=KEY), guest_of(server)
            self.is_owned(vanished, 0, "e2e4")
            back, heard = Connection(server.port, key=KEY), {}
            self.is_owned(back, 1, "e7e5")
            guest.hears(moved("e2e4", 0), moved("e7e5", 1))
            # They answer pings while they wait.
            waiting = [threading.Thread(target=lambda it=it: heard.update({it: it.receive()})) for it in (back, guest)]
            for it in waiting:
                it.start()
            self.assertEqual([vanished.receive_any() for _ in range(2)], ["ping", "ping"])
            vanished.has_ended()
            time.sleep(1)
            self.assertEqual(heard, {})
            back.send(submits("b1", "g1f3"))
            for it in waiting:
                it.join(PATIENCE)
            self.assertEqual(heard, {back: played(2), guest: moved("g1f3", 2)})

    def test_a_move_that_was_on_its_way_is_played_once_and_seen_by_following_without_the_key(self):
        """The operator was cut before the answer came. It looks from its last place on, and goes on after what it finds."""
        with waits(LONG) as server:
            owner = owner_of(server, key=KEY)
            self.is_owned(owner, 0, "e2e4")
            owner.send(submits("b1", "e7e5"))
            close_in_order_unread(owner)
            look = Connection(server.port)
            look.asks(follows("b1", place=1), following(1, "rnbqkbnr/pppppppp/8/8/4P3/8/PPPP1PPP/RNBQKBNR b HAha e3 0 1"))
            look.hears(moved("e7e5", 1))
            back = Connection(server.port, key=KEY)
            self.is_owned(back, 2, "g1f3")
            look.hears(moved("g1f3", 2))


def close_in_order_unread(owner):
    """Ends a connection after what it has sent, and reads no answer."""
    owner.stream.shutdown(socket.SHUT_WR)
    while owner.stream.recv(1024):
        pass
    owner.close()


class TheGrace(Keys):
    """Before, there was none: each of these boards had ended within a moment."""

    def test_a_board_ends_as_abandoned_when_the_grace_is_over(self):
        """Its followers hear of it once. It stays its owner's, and no name is given twice."""
        with waits(2) as server:
            owner, guest = owner_of(server, key=KEY), guest_of(server)
            lost = time.monotonic()
            owner.reset()
            self.is_abandoned(guest, 2, lost)
            back = Connection(server.port, key=KEY)
            back.asks(submits("b1", "e2e4"), GAME_OVER)
            back.asks(opens("b1"), BOARD_EXISTS)
            back.asks(follows("b1"), WRONG_MODE)
            late = guest_of(server)
            late.hears(ABANDONED, "close 1000")

    def test_all_boards_of_a_key_wait_whichever_of_its_connections_opened_them(self):
        with waits(2) as server:
            first, second = owner_of(server, "b1", key=KEY), owner_of(server, "b2", key=KEY)
            first.asks(opens("b3"), OPENED)
            guests = [guest_of(server, it) for it in ("b1", "b2", "b3")]
            second.close()
            lost = time.monotonic()
            first.reset()
            for guest in guests:
                self.is_abandoned(guest, 2, lost)

    def test_boards_that_wait_take_no_thread_each(self):
        """One loop ends all those whose time is over. Beside it there is the thread that writes standard error."""
        wanted = 2
        with waits(LONG) as server:
            boards = [(f"b{number}", f"{KEY}{number}") for number in range(40)]
            for name, key in boards:
                owner_of(server, name, key=key).reset()
            threads, until = pathlib.Path(f"/proc/{server.process.pid}/task"), time.monotonic() + SOON
            while (count := len(list(threads.iterdir()))) > wanted and time.monotonic() < until:
                time.sleep(0.05)
            self.assertEqual(count, wanted)
            for name, key in boards:
                self.is_owned(Connection(server.port, key=key), 0, "e2e4", name)

    def test_an_operator_in_time_keeps_its_board_past_the_grace(self):
        with waits(10) as server:
            owner, guest = owner_of(server, key=KEY), guest_of(server)
            owner.reset()
            time.sleep(2)
            back = Connection(server.port, key=KEY)
            self.assertTrue(says_nothing(guest, 10))
            self.is_owned(back, 0, "e2e4")
            guest.hears(moved("e2e4", 0))

    def test_an_operator_that_came_back_while_the_program_stood_still_keeps_its_board(self):
        """When the program goes on, the grace is over. Before, the board then ended first, even if the connection had been accepted."""
        says = request(target_of(KEY)) + frame(submits("b1", "e2e4"))
        for sent_before, others_go in itertools.product((0, len(says) // 2), (False, True)):
            with self.subTest(sent_before=sent_before, others_go=others_go), waits(4) as server:
                owner, guest = owner_of(server, key=KEY), guest_of(server)
                others = [owner_of(server, f"other{number}", key=new_key() if number else None) for number in range(2)]
                owner.reset()
                with socket.socket() as back:
                    back.settimeout(PATIENCE)
                    if sent_before:
                        back.connect(("127.0.0.1", server.port))
                        back.sendall(says[:sent_before])
                    self.assertTrue(says_nothing(guest, 1))
                    with Stopped(server):
                        if not sent_before:
                            back.connect(("127.0.0.1", server.port))
                        back.sendall(says[sent_before:])
                        if others_go:
                            close_all(*others)
                        time.sleep(5)
                    guest.hears(moved("e2e4", 0))
                    self.assertTrue(says_nothing(guest, 5))
                    lost = time.monotonic()
                self.is_abandoned(guest, 4, lost)

    def test_a_board_ends_where_nobody_came_back_while_the_program_stood_still(self):
        with waits(2) as server:
            owner, guest, other = owner_of(server, key=KEY), guest_of(server), owner_of(server, "b2")
            second = guest_of(server, "b2")
            owner.reset()
            self.assertTrue(says_nothing(guest, 1))
            with Stopped(server):
                other.reset()
                time.sleep(3)
            self.is_abandoned(guest)
            self.is_abandoned(second)

    def test_each_loss_has_a_grace_of_its_own(self):
        """The grace of the first loss is over while the second lasts, and ends nothing."""
        with waits(20) as server:
            owner, guest = owner_of(server, key=KEY), guest_of(server)
            owner.reset()
            time.sleep(10)
            back = Connection(server.port, key=KEY)
            self.is_owned(back, 0, "e2e4")
            guest.hears(moved("e2e4", 0))
            back.reset()
            self.assertTrue(says_nothing(guest, 12))
            self.is_owned(Connection(server.port, key=KEY), 1, "e7e5")
            guest.hears(moved("e7e5", 1))

    def test_nothing_waits_while_another_connection_of_the_key_is_there(self):
        """It is the one that opened the board that goes."""
        with waits(1) as server:
            other, owner, guest = Connection(server.port, key=KEY), owner_of(server, key=KEY), guest_of(server)
            owner.reset()
            self.assertTrue(says_nothing(guest, 3))
            self.is_owned(other, 0, "e2e4")
            guest.hears(moved("e2e4", 0))
            lost = time.monotonic()
            other.reset()
            self.is_abandoned(guest, 1, lost)

    def test_nothing_waits_while_one_of_the_key_follows(self):
        """It came to follow another board before its key had one."""
        with waits(1) as server:
            other, follower = owner_of(server, "b2"), guest_of(server, "b2", key=KEY)
            owner, guest = owner_of(server, key=KEY), guest_of(server)
            owner.reset()
            self.assertTrue(says_nothing(guest, 3))
            other.asks(submits("b2", "e2e4"), played(0))
            follower.hears(moved("e2e4", 0))
            lost = time.monotonic()
            follower.reset()
            self.is_abandoned(guest, 1, lost)

    def test_boards_of_another_key_and_of_none_go_their_own_way(self):
        with waits(LONG) as server:
            keyed, other, plain = owner_of(server, "b1", key=KEY), owner_of(server, "b2", key=new_key()), owner_of(server, "b3")
            guests = [guest_of(server, it) for it in ("b1", "b2", "b3")]
            keyed.reset()
            plain.reset()
            self.is_abandoned(guests[2])
            self.is_owned(other, 0, "e2e4", "b2")
            guests[1].hears(moved("e2e4", 0))
            self.assertTrue(says_nothing(guests[0], 1))

    def test_a_board_that_has_ended_does_not_wait(self):
        with waits(1) as server:
            owner, guest = owner_of(server, key=KEY), guest_of(server)
            owner.asks(ends("b1", "agreed"), ended("agreed"))
            guest.hears(over("agreed"), "close 1000")
            owner.reset()
            time.sleep(2)
            late = guest_of(server)
            late.hears(over("agreed"), "close 1000")
            Connection(server.port, key=KEY).asks(ends("b1", "abandoned"), GAME_OVER)

    def test_boards_of_many_keys_run_out_each_at_its_time(self):
        """The one that went last is not ended with the first."""
        with waits(3) as server:
            guests = []
            for number in range(3):
                name = f"b{number}"
                owner, guest = owner_of(server, name, key=f"{KEY}{number}"), guest_of(server, name)
                guests.append((guest, time.monotonic()))
                owner.reset()
                time.sleep(1)
            for guest, lost in guests:
                self.is_abandoned(guest, 3, lost)

    def test_who_comes_back_as_the_grace_runs_out_has_the_board_or_finds_it_over_and_followers_hear_the_same(self):
        """Forty come within a tenth of a second."""
        with waits(1) as server:
            boards = [(f"b{number}", f"{KEY}{number}") for number in range(40)]
            owners = [owner_of(server, name, key=key) for name, key in boards]
            guests = [guest_of(server, name) for name, _ in boards]
            lost, backs = [], []
            for owner in owners:
                owner.reset()
                lost.append(time.monotonic())
            for number, ((_, key), began) in enumerate(zip(boards, lost)):
                time.sleep(max(0, began + 0.93 + number / 400 - time.monotonic()))
                backs.append(Connection(server.port, key=key))
            answers = []
            for (name, _), back, guest in zip(boards, backs, guests):
                back.send(submits(name, "e2e4"))
                answers.append(back.receive())
                if answers[-1] == played(0):
                    guest.hears(moved("e2e4", 0))
                    self.assertTrue(says_nothing(guest, 0))
                else:
                    self.assertEqual(answers[-1], GAME_OVER)
                    guest.hears(ABANDONED, "close 1000")
            time.sleep(2)
            for (name, _), back, answer in zip(boards, backs, answers):
                back.asks(submits(name, "e7e5"), GAME_OVER if answer == GAME_OVER else played(1))

    def test_of_many_boards_that_run_out_those_that_had_not_ended_stay_with_who_came_back(self):
        """The boards of one key, each with a follower, end one after another. Connections come back meanwhile, and play on the last
        board."""
        boards = [f"b{number}" for number in range(250)]
        for late in range(6):
            with Server("--grace", "1", "--connections", "1000", "--boards", "256") as server:
                owner = owner_of(server, boards[0], key=KEY)
                for name in boards[1:]:
                    owner.asks(opens(name), OPENED)
                guests = [guest_of(server, name) for name in boards]
                owner.reset()
                time.sleep(0.998 + late * 0.0006)
                backs, place = [], 0
                for move in OPENING:
                    backs.append(Connection(server.port, key=KEY))
                    backs[-1].send(submits(boards[-1], move))
                    answer = backs[-1].receive()
                    # Who was answered that the move is played has the board for good.
                    self.assertIn(answer, [played(place), GAME_OVER] if place == 0 else [played(place)])
                    place += answer == played(place)
                for each in backs + guests:
                    each.close()

    def test_without_a_grace_no_key_is_looked_at(self):
        """Neither if it is 0, nor if none is given."""
        for words in ["--grace", "0"], []:
            with Server("--connections", "1000", *words) as server:
                owner, guest = owner_of(server, key=KEY), guest_of(server)
                other = Connection(server.port, key=KEY)
                self.is_foreign(other)
                other.asks(follows("b1"), following())
                owner.reset()
                self.is_abandoned(guest)
                other.hears(ABANDONED, "close 1000")

    def test_a_grace_is_0_to_3600_seconds(self):
        for grace in "3601", "-1", "x", "1.5", "":
            words = [PROGRAM, "serve", f"--grace={grace}"]
            run = subprocess.run(words, capture_output=True, timeout=SOON)
            self.assertEqual((run.returncode, run.stdout), (2, b""), grace)
            self.assertIn(b"--grace", run.stderr)
        for grace in 0, LONG:
            waits(grace).kill()


class WhoseBoard(Keys):
    """Before, it was that of the connection that opened it: one with the same key was refused 13, and might follow."""

    def test_every_connection_of_the_key_plays_on_its_boards_those_that_were_there_before_too(self):
        with waits(LONG) as server:
            before, owner, guest = Connection(server.port, key=KEY), owner_of(server, key=KEY), guest_of(server)
            after = Connection(server.port, key=KEY)
            for place, (connection, move) in enumerate([(before, "e2e4"), (after, "e7e5"), (owner, "g1f3"), (before, "b8c6")]):
                self.is_owned(connection, place, move)
                guest.hears(moved(move, place))
            before.asks(ends("b1", "resign", "black"), ended("black resigns"))
            guest.hears(over("black resigns"), "close 1000")

    def test_a_stranger_and_another_key_are_refused_while_the_owner_is_there_and_while_the_board_waits(self):
        """A key that differs in one place, or is longer or shorter, is another, and so is the digest that is kept of it."""
        others = [KEY[:-1] + "q", "b" + KEY[1:], KEY[:8] + "y" + KEY[9:], KEY[:-1], KEY + "A", KEY.swapcase(), KEY + KEY,
                  hashlib.sha256(KEY.encode()).hexdigest()]
        self.assertNotIn(KEY, others)
        with waits(LONG) as server:
            owner = owner_of(server, key=KEY)
            strangers = [Connection(server.port), *(Connection(server.port, key=it) for it in others)]
            for stranger in strangers:
                self.is_foreign(stranger)
                stranger.asks(submits("b9", "e2e4"), NO_BOARD)
            owner.reset()
            for stranger in strangers:
                self.is_foreign(stranger)
                stranger.asks(follows("b1"), following())
            back = Connection(server.port, key=KEY)
            self.is_owned(back, 0, "e2e4")
            for stranger in strangers:
                stranger.hears(moved("e2e4", 0))

    def test_a_connection_whose_key_owns_a_board_may_not_follow(self):
        """Not another one, and not when the board has ended. If its key owns none it may."""
        with waits(LONG) as server:
            before, stranger = Connection(server.port, key=KEY), owner_of(server, "b2")
            owner = owner_of(server, key=KEY)
            after = Connection(server.port, key=KEY)
            for connection in owner, before, after:
                for board in "b1", "b2":
                    connection.asks(follows(board), WRONG_MODE)
                # A board of another one stays another's.
                self.is_foreign(connection, "b2")
            owner.reset()
            back = Connection(server.port, key=KEY)
            back.asks(follows("b2"), WRONG_MODE)
            back.asks(ends("b1", "agreed"), ended("agreed"))
            Connection(server.port, key=KEY).asks(follows("b2"), WRONG_MODE)
            guest = guest_of(server, "b2", key=new_key())
            stranger.asks(submits("b2", "e2e4"), played(0))
            guest.hears(moved("e2e4", 0))


class WhatIsAKey(Keys):
    """Before, nothing was."""

    def owns_with(self, opener, other):
        """Whether a connection with the second target owns what one with the first opened."""
        with waits(LONG) as server:
            owner, guest = owner_of(server, target=opener), guest_of(server)
            second = Connection(server.port, target=other)
            second.send(submits("b1", "e2e4"))
            answer = second.receive()
            self.assertIn(answer, [played(0), NOT_YOURS])
            second.close()
            owner.reset()
            if answer == NOT_YOURS:
                self.is_abandoned(guest)
            else:
                guest.hears(moved("e2e4", 0))
                self.assertTrue(says_nothing(guest, 0.5))
            return answer == played(0)

    def test_a_key_has_16_to_64_characters_of_the_alphabet(self):
        for key in "a" * 16, "Z" * 64, "0123456789_-____", "----------------", "________________", ALPHABET.decode():
            with self.subTest(key):
                self.assertTrue(self.owns_with(f"/?key={key}", f"/?key={key}"))

    def test_a_key_has_no_other_bytes(self):
        """At its ends or between them. With some of them the request is none, and is refused 400."""
        for place in 0, 7, 15:
            with Server("--grace", str(LONG), "--connections", "512", "--boards", "256") as server:
                for byte in range(256):
                    key, board = b"k" * place + bytes([byte]) + b"k" * (15 - place), f"b{byte}"
                    answered_with(server, key, opens(board))
                    answer = answered_with(server, key, submits(board, "e2e4"))
                    with self.subTest(byte=byte, place=place):
                        self.assertIn(answer, [played(0)] if byte in ALPHABET else [NOT_YOURS, None])

    def test_anything_else_is_none(self):
        """Nothing is decoded, and no part of a text is taken for a key."""
        few, enough = "a" * 15, "a" * 16
        for key in ("", few, "a" * 65, "a" * 1024, few + ".", few + "~", few + "+a", "%61" + few, enough + "%20", few + "/" + few,
                    enough + ";", enough + "="):
            with self.subTest(key):
                self.assertFalse(self.owns_with(f"/?key={key}", f"/?key={key}"))

    def test_other_queries_are_not_looked_at(self):
        for target in (f"/?Key={KEY}", f"/?xkey={KEY}", f"/?{KEY}", f"/?key:{KEY}", f"/key={KEY}", f"/{KEY}", "/?key", "/?board=b1&name=x",
                       f"/?a?key={KEY}", f"/?akey={KEY}", "/?"):
            with self.subTest(target):
                self.assertFalse(self.owns_with(target, target))

    def test_the_path_and_other_fields_of_the_query_do_not_matter(self):
        for target in (f"/some/path?key={KEY}", f"/?board=b1&key={KEY}", f"/?key={KEY}&board=b1",
                       f"/operator?a=1&key={KEY}&b=2"):
            with self.subTest(target):
                self.assertTrue(self.owns_with(f"/?key={KEY}", target))

    def test_of_several_the_first_that_is_a_key_counts(self):
        several = f"/?key=short&key={KEY}&key={KEY}2"
        self.assertTrue(self.owns_with(several, f"/?key={KEY}"))
        with waits(LONG) as server:
            owner, stranger = owner_of(server, target=several), Connection(server.port, target=f"/?key={KEY}2")
            self.is_foreign(stranger)
            self.is_owned(owner, 0, "e2e4")
            stranger.close()
            owner.close()


class TheEndOfTheServer(Keys):
    """Before, no board waited, so none was left to end."""

    def test_boards_that_wait_end_when_no_further_connection_is_accepted(self):
        """It does not wait for the grace: nobody can come back."""
        with Server("--grace", str(LONG), "--connections", "3") as server:
            owner, guest = owner_of(server, key=KEY), guest_of(server)
            owner.reset()
            self.assertTrue(says_nothing(guest, 1))
            Connection(server.port).close()
            self.is_abandoned(guest, soon=2 * SOON)
            server.has_served(3)

    def test_an_operator_that_goes_when_no_further_connection_is_accepted_is_not_waited_for(self):
        with Server("--grace", str(LONG), "--connections", "2") as server:
            owner, guest = owner_of(server, key=KEY), guest_of(server)
            owner.reset()
            self.is_abandoned(guest, soon=2 * SOON)
            server.has_served(2)

    def test_an_operator_that_comes_back_as_the_last_connection_finds_its_board(self):
        for _ in range(20):
            with Server("--grace", str(LONG), "--connections", "3") as server:
                owner, guest = owner_of(server, key=KEY), guest_of(server)
                owner.reset()
                back = Connection(server.port, key=KEY)
                self.is_owned(back, 0, "e2e4")
                back.close()
                guest.hears(moved("e2e4", 0))
                self.is_abandoned(guest, soon=2 * SOON)
                server.has_served(3)


class WhereTheKeyIsWritten(Keys):
    def test_the_key_stands_in_no_answer_and_on_no_output(self):
        """Of requests that are refused neither."""
        key = new_key()
        said = b""
        with Server("--grace", "1", "--connections", "7") as server:
            owner = owner_of(server, key=key)
            for line in ("[", "{}", "x" * 2000, opens("b1"), follows("b1"), submits("b1", "e2e5"), submits(key, "e2e4"),
                         submits("b1", "e2e4")):
                owner.send(line)
                said += owner.receive().encode()
            owner.reset()
            good = request(f"/?key={key}")
            for broken in (good.replace(b"Upgrade: websocket\r\n", b""), good.replace(b"Host: a\r\n", b""), good.replace(b": 13", b": 12"),
                           good[:-2] + b"A: " + b"x" * 9000 + b"\r\n\r\n", good.replace(b"HTTP/1.1", b"HTTP/3.1")):
                with socket.create_connection(("127.0.0.1", server.port), timeout=30) as peer:
                    said += sent_and_heard(peer, broken)
            guest = Connection(server.port)
            guest.send(follows("b1", place=0))
            while not (text := guest.receive()).startswith("close"):
                said += text.encode()
            guest.close()
            printed, complained, status = server.ended()
        self.assertEqual(status, 0)
        self.assertIn(BAD_FIELD.encode(), said)
        self.assertIn(NOT_JSON.encode(), said)
        self.assertIn(ABANDONED.encode(), said)
        for text in said, printed, complained:
            self.assertNotIn(key.encode(), text)


def answered_with(server, key, command):
    """What a connection is answered to a command whose target names these bytes as its key; none, if its request is refused 400."""
    with socket.create_connection(("127.0.0.1", server.port), timeout=PATIENCE) as peer:
        head, _, frames = sent_and_heard(peer, request("/?key=KEY").replace(b"KEY", key) + frame(command)).partition(b"\r\n\r\n")
    if head.startswith(b"HTTP/1.1 400 "):
        return None
    return read_frame(io.BytesIO(frames).read)


def sent_and_heard(peer, sent):
    """Sends, and answers all that comes until the connection ends."""
    heard = b""
    try:
        peer.sendall(sent)
        peer.shutdown(socket.SHUT_WR)
        while piece := peer.recv(4096):
            heard += piece
    except ConnectionError:
        pass
    return heard
