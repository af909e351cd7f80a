"""Games that outlive the process: `serve --journal FILE`. Before, all of them went with it."""

import errno
import fcntl
import json
import pathlib
import stat
import subprocess
import tempfile
import time
import unittest

from relay_client.connection import Connection
from relay_client.faults import device_fault
from relay_client.journals import FIRST_BODY, body, sealed
from relay_client.program import PATIENCE, PROGRAM
from relay_client.server import NotListening, Server
from relay_client.tests.sessions import ABANDONED, guest_of, moves_without_a_draw, owner_of, play
from relay_client.texts import BOARDS, GAME_OVER, OPENED, ended, ends, following, follows, moved, opens, over, played, refused, submits

KEY = "aB3_-9xYzQ0kLmNop"
NOT_YOURS = refused(13, "NotYourBoard")
BOARD_EXISTS = refused(2, "BoardExists")
AWAY = "close 1001"
MOVES = ["e2e4", "e7e5", "g1f3"]
AFTER = "rnbqkbnr/pppp1ppp/8/4p3/4P3/5N2/PPPP1PPP/RNBQKB1R b HAha - 1 2"
SOON = 10  # Seconds within which what happens at once has happened, on a machine that is busy with proofs too.
WORDS = ("--forever", "--grace", "600", "--capacity", "1024")


class Journals(unittest.TestCase):
    def setUp(self):
        self.folder = tempfile.TemporaryDirectory()
        self.addCleanup(self.folder.cleanup)
        self.path = pathlib.Path(self.folder.name) / "games"

    def serves(self, *words, **options):
        """A server with the journal."""
        return Server(*(words or WORDS), "--journal", str(self.path), **options)

    def cannot_serve(self, *words):
        """What a server that does not start complains of. It has printed nothing, and its status is 3."""
        with self.assertRaises(NotListening) as found:
            self.serves(*words)
        printed, complained, status = found.exception.args
        self.assertEqual((printed, status), (b"", 3))
        return complained.decode()

    def checked(self):
        """The lines that `relay960 journal` prints, and its status."""
        run = subprocess.run([PROGRAM, "journal", self.path], capture_output=True, text=True, timeout=PATIENCE)
        return run.stdout.splitlines(), run.returncode

    def complains(self, server, line):
        """The next line on standard error is this one."""
        self.assertEqual(server.process.stderr.readline().decode(), line + "\n")

    def goes_on_with(self, server, boards, moves):
        self.complains(server, f"journal {self.path}: {boards} boards, {moves} moves")


class AfterAKill(Journals):
    def test_a_board_with_a_key_goes_on_with_its_operator_and_a_spectator_from_the_first_move(self):
        with self.serves() as server:
            owner = owner_of(server, key=KEY)
            play(owner, MOVES)
        with self.serves() as server:
            self.goes_on_with(server, 1, 3)
            guest = Connection(server.port)
            guest.asks(follows("b1", place=0), following())
            guest.hears(*(moved(move, place) for place, move in enumerate(MOVES)))
            stranger = Connection(server.port)
            stranger.asks(submits("b1", "b8c6"), NOT_YOURS)
            back = Connection(server.port, key=KEY)
            back.asks(opens("b1"), BOARD_EXISTS)
            back.asks(submits("b1", "b8c6"), played(3))
            guest.hears(moved("b8c6", 3))
            back.asks(ends("b1", "resign", "white"), ended("white resigns"))
            guest.hears(over("white resigns"), "close 1000")
        self.assertEqual(self.checked(), (["board b1: start 518, plies 4, white resigns", "whole"], 0))
        with self.serves() as server:
            self.goes_on_with(server, 1, 4)
            Connection(server.port, key=KEY).asks(submits("b1", "f1b5"), GAME_OVER)

    def test_whoever_joins_now_gets_the_present_position(self):
        with self.serves() as server:
            play(owner_of(server, key=KEY), MOVES)
        with self.serves() as server:
            Connection(server.port).asks(follows("b1"), following(3, AFTER))

    def test_a_board_without_a_key_has_ended_as_abandoned(self):
        """Nobody could come back to it. That is in the journal too. Its operator is there until the kill, or it could end before that."""
        with self.serves() as server:
            owner = owner_of(server)
            play(owner, MOVES)
        self.assertEqual(self.checked(), (["board b1: start 518, plies 3, goes on", "whole"], 0))
        with self.serves() as server:
            guest = Connection(server.port)
            guest.asks(follows("b1"), following(3, AFTER))
            guest.hears(ABANDONED, "close 1000")
            self.assertEqual(self.checked(), (["board b1: start 518, plies 3, abandoned", "whole"], 0))

    def test_no_connection_has_the_number_of_one_before_the_kill(self):
        """A board without a key is that of its connection's number. It ends when that one goes, and no sooner."""
        with self.serves() as server:
            owner_of(server)
        with self.serves() as server:
            first, other = owner_of(server, "b2"), Connection(server.port)
            guest = guest_of(server, "b2")
            for connection in first, other:
                connection.asks(submits("b1", MOVES[0]), NOT_YOURS)
            other.asks("close 1000", "close 1000")
            other.close()
            first.asks(submits("b2", MOVES[0]), played(0))
            guest.hears(moved(MOVES[0], 0))
            first.asks("close 1000", "close 1000")
            first.close()
            guest.hears(ABANDONED, "close 1000")

    def test_without_a_grace_every_game_that_went_on_has_ended(self):
        with self.serves() as server:
            owner_of(server, key=KEY)
        with self.serves("--forever"):
            self.assertEqual(self.checked(), (["board b1: start 518, plies 0, abandoned", "whole"], 0))

    def test_the_whole_grace_begins_at_the_restart(self):
        with self.serves() as server:
            owner_of(server, key=KEY)
        with self.serves("--forever", "--grace", "3") as server:
            began, guest = time.monotonic(), guest_of(server)
            guest.hears(ABANDONED, "close 1000")
            self.assertGreater(time.monotonic() - began, 2)

    def test_a_key_is_in_the_journal_as_a_digest_only(self):
        with self.serves() as server:
            play(owner_of(server, key=KEY), MOVES[:1])
        found = self.path.read_bytes()
        self.assertNotIn(KEY.encode(), found)
        wanted = sealed([[FIRST_BODY], [body(opens("b1"), KEY)], [body(submits("b1", MOVES[0]))]])
        self.assertEqual(found.rstrip(b"\0"), wanted)

    def test_what_was_answered_is_there_after_any_number_of_kills(self):
        """Each server is killed in the middle of a game that goes on in the next one."""
        moves = [move for _ in range(3) for move in ("g1f3", "g8f6", "f3g1", "f6g8")]
        for number, move in enumerate(moves):
            with self.serves() as server:
                operator = Connection(server.port, key=KEY)
                if number == 0:
                    operator.asks(opens("b1"), OPENED)
                operator.asks(submits("b1", move), played(number))
        self.assertEqual(self.checked(), ([f"board b1: start 518, plies {len(moves)}, goes on", "whole"], 0))

    def test_whoever_watches_first_finds_every_board_with_all_its_moves(self):
        """There is more of them than a loop of the watch port is told at a time."""
        boards, moves = [f"b{at}" for at in range(256)], list(moves_without_a_draw())[:80]
        opened = [[body(opens(board), KEY)] for board in boards]
        self.path.write_bytes(sealed([[FIRST_BODY], *opened, *([body(submits(board, move))] for move in moves for board in boards)]))
        with self.serves(*WORDS, "--boards", "256", watch=True) as server:
            lister, guest = Connection(server.watch_port), Connection(server.watch_port)
            lister.send(BOARDS)
            listed = [json.loads(lister.receive()) for _ in boards]
            self.assertEqual([(it["board"], it["plies"]) for it in listed], [(board, len(moves)) for board in boards])
            guest.send(follows(boards[-1]))
            self.assertEqual(json.loads(guest.receive())["joined"], len(moves))

    def test_the_file_is_for_its_owner_only(self):
        with self.serves():
            self.assertEqual(stat.S_IMODE(self.path.stat().st_mode), 0o600)


class AnEndInOrder(Journals):
    def test_games_go_on_at_the_next_start(self):
        """Followers are told by 1001, and hear of no end."""
        with self.serves(*WORDS, "--until-input-ends", stdin=subprocess.PIPE) as server:
            owner, guest = owner_of(server, key=KEY), guest_of(server)
            owner.asks(submits("b1", MOVES[0]), played(0))
            guest.hears(moved(MOVES[0], 0))
            server.process.stdin.close()
            owner.hears(AWAY)
            guest.hears(AWAY)
            owner.close()
            guest.close()
            server.process.wait(PATIENCE)
            self.assertEqual((server.process.stderr.read(), server.process.returncode), (b"served 2, failed 0\n", 0))
        self.assertEqual(self.checked(), (["board b1: start 518, plies 1, goes on", "whole"], 0))
        with self.serves() as server:
            Connection(server.port, key=KEY).asks(submits("b1", MOVES[1]), played(1))


class OneProcess(Journals):
    def test_a_second_process_cannot_have_the_journal(self):
        with self.serves() as server:
            owner = owner_of(server, key=KEY)
            self.assertEqual(self.cannot_serve(), f"fault 41 Device\n{self.path}: another process has it\n")
            owner.asks(submits("b1", MOVES[0]), played(0))

    def test_nothing_is_read_or_changed_before_the_lock(self):
        self.path.write_bytes(b"no journal")
        with self.path.open("rb") as held:
            fcntl.flock(held, fcntl.LOCK_EX)
            self.assertEqual(self.cannot_serve(), f"fault 41 Device\n{self.path}: another process has it\n")

    def test_a_journal_may_be_checked_while_it_is_served(self):
        with self.serves() as server:
            owner_of(server, key=KEY)
            self.assertEqual(self.checked(), (["board b1: start 518, plies 0, goes on", "whole"], 0))


class WhatIsNoJournal(Journals):
    def test_a_file_that_is_another_is_left_as_it_is(self):
        for data in b"a letter\n", b"x" * 9000:
            self.path.write_bytes(data)
            self.assertEqual(self.cannot_serve(), f"fault 31 Read\n{self.path}: no journal of relay960\n")
            self.assertEqual(self.path.read_bytes(), data)

    def test_a_folder_a_device_and_a_file_in_no_folder_are_named(self):
        folder = self.folder.name
        self.path.symlink_to(folder)
        self.assertEqual(self.cannot_serve().encode(), device_fault("fault 41 Device", str(self.path), errno.EISDIR))
        self.path.unlink()
        self.path.symlink_to("/dev/null")
        self.assertEqual(self.cannot_serve(), f"fault 41 Device\n{self.path}: not a regular file\n")
        self.path = pathlib.Path(folder) / "none" / "games"
        self.assertEqual(self.cannot_serve().encode(), device_fault("fault 41 Device", str(self.path), errno.ENOENT))

    def test_empty_files_zeros_and_a_beginning_of_the_first_line_are_new_journals(self):
        for data in b"", bytes(5000), sealed([[FIRST_BODY]])[:20], sealed([[FIRST_BODY]])[:20] + bytes(100):
            with self.subTest(size=len(data)):
                self.path.write_bytes(data)
                with self.serves() as server:
                    owner_of(server, key=KEY)
                self.assertEqual(self.path.read_bytes().rstrip(b"\0"), sealed([[FIRST_BODY], [body(opens("b1"), KEY)]]))

    def test_smaller_limits_are_named(self):
        with self.serves() as server:
            owner = owner_of(server, key=KEY)
            owner.asks(opens("b2"), OPENED)
        before = self.path.read_bytes()
        why = f"fault 31 Read\n{self.path}: line 3 is refused: --boards or --plies may be smaller than when it was written\n"
        self.assertEqual(self.cannot_serve("--boards", "1"), why)
        self.assertEqual(self.path.read_bytes(), before)


class Damage(Journals):
    def setUp(self):
        super().setUp()
        self.writes = [[FIRST_BODY], [body(opens("b1"), KEY)], *([body(submits("b1", move))] for move in MOVES)]
        self.whole = sealed(self.writes)
        self.sizes = [len(sealed(self.writes[:count])) for count in range(len(self.writes) + 1)]

    def test_a_change_before_the_last_write_is_refused_and_nothing_is_changed(self):
        data = bytearray(self.whole)
        data[self.sizes[2] + 30] ^= 1
        self.path.write_bytes(data)
        where = f"damaged at line 3, byte {self.sizes[2]}; a later write begins at line 4, byte {self.sizes[3]}"
        self.assertEqual(self.cannot_serve(*WORDS), f"fault 31 Read\n{self.path}: {where}\n")
        self.assertEqual(self.path.read_bytes(), data)
        self.assertEqual(list(pathlib.Path(self.folder.name).iterdir()), [self.path])
        self.assertEqual(self.checked(), (["board b1: start 518, plies 0, goes on", where], 3))

    def test_a_write_that_was_cut_short_is_set_aside_and_told(self):
        for behind in b"", bytes(5000):
            with self.subTest(zeros=len(behind)):
                at = self.sizes[4]
                torn = self.whole[at:at + 20]
                self.path.write_bytes(self.whole[:at] + torn + behind)
                aside = pathlib.Path(f"{self.path}.torn-{at}")
                with self.serves() as server:
                    self.complains(server, f"{self.path}: torn at byte {at}: 20 bytes are set aside in {aside}")
                    self.goes_on_with(server, 1, 2)
                    self.assertEqual((aside.read_bytes(), stat.S_IMODE(aside.stat().st_mode)), (torn, 0o600))
                    Connection(server.port, key=KEY).asks(submits("b1", MOVES[2]), played(2))
                self.assertEqual(self.path.read_bytes().rstrip(b"\0"), self.whole)
                aside.unlink()

    def test_another_file_of_the_name_is_not_lost(self):
        at = self.sizes[4]
        torn = self.whole[at:at + 20]
        self.path.write_bytes(self.whole[:at] + torn)
        aside, further = (pathlib.Path(f"{self.path}.torn-{at}{nth}") for nth in ("", "-2"))
        aside.write_bytes(b"others")
        # A beginning of what is to be set aside was left by a start that was killed.
        further.write_bytes(torn[:5])
        with self.serves() as server:
            self.complains(server, f"{self.path}: torn at byte {at}: 20 bytes are set aside in {further}")
        self.assertEqual((aside.read_bytes(), further.read_bytes()), (b"others", torn))


class ADeviceThatFails(Journals):
    def test_nothing_is_answered_once_a_write_has_failed(self):
        """The file may have no more bytes than its lines have. The program finds the signal of such a limit ignored, as Python does. Peers
        hear nothing of the turn that failed, not even a close."""
        with self.serves(restore_signals=False) as server:
            owner, guest = owner_of(server, key=KEY), guest_of(server)
            size = len(self.path.read_bytes().rstrip(b"\0"))
            subprocess.run(["prlimit", f"--fsize={size}", "--pid", str(server.process.pid)], check=True)
            owner.send(submits("b1", MOVES[0]))
            owner.has_ended()
            guest.has_ended()
            server.process.wait(PATIENCE)
            wanted = device_fault("fault 32 Write", str(self.path), errno.EFBIG)
            self.assertEqual((server.process.stderr.read(), server.process.returncode), (wanted, 3))
        with self.serves() as server:
            back = Connection(server.port, key=KEY)
            back.asks(submits("b1", MOVES[0]), played(0))


if __name__ == "__main__":
    unittest.main()
