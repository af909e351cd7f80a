"""A journal that was cut, changed or exchanged: the server starts with what was there before the change and sets a torn tail aside, or it
refuses to start and changes nothing. It never takes a line that was changed."""

import concurrent.futures
import contextlib
import errno
import os
import pathlib
import re
import shutil
import stat
import subprocess
import tempfile
import time
import unittest

from relay_client import journals
from relay_client.connection import Connection
from relay_client.ports import free_port
from relay_client.program import PATIENCE, PROGRAM
from relay_client.server import NotListening, Server
from relay_client.tests.test_watching import answered
from relay_client.texts import NO_BOARD, ends, following, follows, moved, opens, played, submits

KEYS = {"b1": "a-key-of-the-first-board", "b2": "a-key-of-the-second-board"}
SIDE_BY_SIDE = 4
SOON = 10  # Seconds within which what happens at once has happened, on a busy machine too.
# The bodies of each write. All boards have a key, so a start adds nothing.
WRITES = [
    [journals.FIRST_BODY],
    [journals.body(opens("b1"), KEYS["b1"])],
    [journals.body(opens("b2", 0), KEYS["b2"])],
    [journals.body(submits("b1", "e2e4"))],
    [journals.body(submits("b1", "e7e5")), journals.body(submits("b1", "g1f3"))],
    [journals.body(ends("b1", "resign", "white"))],
    [journals.body(submits("b1", "b8c6")), journals.body(opens("b3"), KEYS["b2"])],
]
del WRITES[6][0]  # The game of b1 is over.
WHOLE = journals.sealed(WRITES)
STARTS = [line.at for line in journals.lines_in(WHOLE) if line.is_first]
OUTCOMES = {"resign": "white resigns"}


def told(data):
    """What `relay960 journal` prints of a file with these bytes, and its status."""
    lines, rest = journals.lines_in(data), journals.rest_of(data)
    boards = [f"board {name}: start {board.start}, plies {len(board.moves)}, {OUTCOMES[board.end['how']] if board.end else 'goes on'}"
              for name, board in journals.boards_in(lines).items()]
    if rest is None:
        return [*boards, "whole"], 0
    if not rest.is_damage:
        return [*boards, f"torn at byte {rest.at} ({rest.size} bytes)"], 0
    later = data[:rest.later].count(b"\n")
    return [*boards, f"damaged at line {len(lines) + 1}, byte {rest.at}; "
                     f"a later write begins at line {later + 1}, byte {rest.later}"], 3


def checked(file):
    """What `relay960 journal` prints of this file, its status, and what it complains of."""
    run = subprocess.run([PROGRAM, "journal", file], capture_output=True, text=True, timeout=PATIENCE)
    return run.stdout.splitlines(), run.returncode, run.stderr


def refusal(file):
    """What the server says that refuses to start with this file, and its status; nothing if it starts."""
    try:
        with Server("--forever", "--grace", "60", "--journal", str(file)):
            return None
    except NotListening as refused:
        _, complaint, status = refused.args
        return complaint.decode(), status


def changes():
    """Each change that is tried: what is done, and the bytes then."""
    other = journals.sealed([*WRITES[:2], [journals.body(opens("other"), KEYS["b1"])], *WRITES[3:]])
    for at in range(len(WHOLE)):
        yield f"cut at {at}", WHOLE[:at]
        yield f"cut at {at}, zeros behind", WHOLE[:at] + b"\0" * 70
        yield f"cut at {at}, a rest of another line behind", WHOLE[:at] + b'","move":"e2e4"}\n'
        yield f"cut at {at}, another journal behind", WHOLE[:at] + other[at:]
    for at in range(STARTS[-3], len(WHOLE)):
        for turned in 0x01, 0x1e, 0x80:
            yield f"byte {at} turned by {turned}", WHOLE[:at] + bytes([WHOLE[at] ^ turned]) + WHOLE[at + 1:]
    lines = WHOLE.splitlines(keepends=True)
    for at in range(len(lines)):
        yield f"line {at} left out", b"".join(lines[:at] + lines[at + 1:])
        yield f"line {at} twice", b"".join(lines[:at + 1] + lines[at:])
        yield f"lines {at} and behind it swapped", b"".join(lines[:at] + lines[at:at + 2][::-1] + lines[at + 2:])
        yield f"line {at} from another journal", b"".join(lines[:at] + other.splitlines(keepends=True)[at:at + 1] + lines[at + 1:])


def is_new(data):
    """Whether a file with these bytes becomes a new journal: it has no line yet."""
    first = WHOLE.splitlines(keepends=True)[0]
    return not data.strip(b"\0") or first.startswith(data.rstrip(b"\0"))


class Changed(unittest.TestCase):
    def setUp(self):
        self.room = pathlib.Path(self.enterContext(tempfile.TemporaryDirectory())).resolve()

    def file(self, name, data):
        folder = self.room / re.sub(r"\W+", "-", name)
        folder.mkdir(exist_ok=True)
        file = folder / "games"
        file.write_bytes(data)
        file.chmod(0o600)
        return file

    def side_by_side(self, act, cases):
        def does(case):
            try:
                return act(*case)
            except (AssertionError, NotListening, OSError, IndexError) as wrong:
                return f"{case[0]}: {type(wrong).__name__} {wrong}"
        with concurrent.futures.ThreadPoolExecutor(SIDE_BY_SIDE) as pool:
            wrong = [it for it in pool.map(does, cases) if it]
        self.assertFalse(wrong, f"{len(wrong)} of {len(cases)}:\n" + "\n".join(wrong[:20]))


class WhatIsTold(Changed):
    def test_of_each_change_the_boards_before_it_and_the_end_are_told(self):
        def is_told(what, data):
            boards, status, complaint = checked(self.file(what, data))
            wanted, wanted_status = told(data)
            assert (boards, status) == (wanted, wanted_status), (boards, status, complaint, wanted)

        self.side_by_side(is_told, [(what, data) for what, data in changes() if journals.lines_in(data)])


class WhatStarts(Changed):
    def test_of_each_change_the_server_starts_with_what_was_there_before_or_refuses(self):
        """Every seventh of them, and all that are no cut."""
        def is_right(what, data):
            file = self.file(what, data)
            lines, rest = journals.lines_in(data), journals.rest_of(data)
            said = refusal(file)
            beside = {it.name: it.read_bytes() for it in file.parent.iterdir() if it != file}
            if rest and rest.is_damage or not lines and not is_new(data):
                assert said and said[1] == 3, said
                assert f"\n{file}" in said[0] and said[0].startswith("fault 31 Read\n"), said
                # Where nothing counts it may be no journal at all.
                assert not lines or {str(rest.at), str(rest.later)} <= set(re.findall(r"\d+", said[0])), said
                assert file.read_bytes() == data and not beside, "it was changed"
                return
            assert said is None, said
            assert journals.lines_in(file.read_bytes())[:len(lines)] == lines
            assert len(journals.without_zeros(file.read_bytes())) == max(journals.sound_size(lines), STARTS[1]), "something was added"
            assert beside == ({f"games.torn-{rest.at}": data[rest.at:rest.at + rest.size]} if rest else {}), beside

        cases = list(changes())
        self.side_by_side(is_right, [case for at, case in enumerate(cases) if at % 7 == 0 or not case[0].startswith("cut")])

    def test_a_torn_tail_is_told_of_in_one_line(self):
        file = self.file("torn", WHOLE[:-5])
        with Server("--forever", "--grace", "60", "--journal", str(file)) as server:
            server.process.kill()
            said = server.ended()[1].decode()
        rest = journals.rest_of(WHOLE[:-5])
        lines = [line for line in said.splitlines() if "torn at" in line]
        self.assertEqual(len(lines), 1, said)
        self.assertTrue({str(rest.at), str(rest.size)} <= set(re.findall(r"\d+", lines[0])), said)
        self.assertIn(str(file), lines[0])

    def test_each_board_is_there_for_those_who_watch_whether_it_has_moves_or_not(self):
        with Server("--forever", "--grace", "60", "--journal", str(self.file("watched", WHOLE)), watch=True) as server:
            for name in journals.boards_in(journals.lines_in(WHOLE)):
                answer, until = NO_BOARD, time.monotonic() + SOON
                while answer == NO_BOARD and time.monotonic() < until:
                    answer = answered(server.watch_port, follows(name, place=0))
                self.assertIn('"following"', answer, name)
            with contextlib.closing(Connection(server.port, key=KEYS["b2"])) as owner:
                owner.asks(submits("b3", "e2e4"), played(0))
                with contextlib.closing(Connection(server.watch_port)) as guest:
                    guest.send(follows("b3", place=0))
                    guest.hears(following(), moved("e2e4", 0))

    def test_smaller_limits_are_refused_and_change_nothing(self):
        file = self.file("limits", WHOLE)
        for words in ("--boards", "1"), ("--plies", "2"):
            with self.subTest(words=words):
                with self.assertRaises(NotListening) as refused:
                    Server("--forever", "--grace", "60", "--journal", str(file), *words)
                _, complaint, status = refused.exception.args
                self.assertEqual(status, 3)
                self.assertTrue(complaint.decode().startswith(f"fault 31 Read\n{file}"), complaint)
                self.assertEqual(file.read_bytes(), WHOLE)
        self.assertIsNone(refusal(file))


class OtherFiles(Changed):
    def is_refused(self, file, fault, number):
        said = refusal(file)
        self.assertIsNotNone(said, "it started")
        self.assertEqual(said, (f"{fault}\n{file}: {os.strerror(number)} (os error {number})\n", 3))

    def test_a_second_process_is_refused_and_changes_nothing(self):
        file = self.file("second", WHOLE)
        with Server("--forever", "--grace", "60", "--journal", str(file)) as first:
            before = file.read_bytes()
            said = refusal(file)
            self.assertEqual((said[0].startswith(f"fault 41 Device\n{file}: "), said[1]), (True, 3), said)
            self.assertEqual(file.read_bytes(), before)
            self.assertEqual(checked(file)[1], 0)
            first.process.kill()
            first.process.wait()
            self.assertIsNone(refusal(file))

    def test_a_directory_is_refused(self):
        folder = self.room / "folder"
        folder.mkdir()
        self.is_refused(folder, "fault 41 Device", errno.EISDIR)
        self.assertEqual(checked(folder)[1], 3)

    def test_a_folder_that_is_not_there_is_refused(self):
        self.is_refused(self.room / "nowhere/games", "fault 41 Device", errno.ENOENT)
        self.assertEqual(checked(self.room / "nowhere/games")[1], 3)

    def test_a_fifo_is_refused_and_nothing_waits_for_its_other_end(self):
        fifo = self.room / "fifo"
        os.mkfifo(fifo)
        words = [PROGRAM, "serve", "--port", str(free_port()), "--journal", fifo]
        run = subprocess.run(words, capture_output=True, text=True, timeout=SOON)
        self.assertEqual(run.returncode, 3, run)
        self.assertIn(str(fifo), run.stderr)
        self.assertTrue(stat.S_ISFIFO(fifo.stat().st_mode))

    def test_a_file_that_may_not_be_written_is_refused(self):
        """Root may write all files, so it is another user who starts the server."""
        if os.geteuid() != 0:
            self.skipTest("only root can be another user")
        self.room.chmod(0o755)
        program = shutil.copy(PROGRAM, self.room / "program")
        program.chmod(0o755)
        file = self.file("read-only", WHOLE)
        file.chmod(0o444)
        words = [program, "serve", "--port", str(free_port()), "--journal", file]
        run = subprocess.run(words, capture_output=True, text=True, timeout=SOON, user="nobody")
        self.assertEqual((run.stderr, run.returncode), (f"fault 41 Device\n{file}: Permission denied (os error 13)\n", 3))
        self.assertEqual(file.read_bytes(), WHOLE)

    def test_a_file_that_is_no_journal_is_refused_and_stays(self):
        for what, data in (("text", b"some notes of an arbiter\n" * 3), ("bytes", bytes(range(256))),
                           ("other lines", journals.sealed([[b"relay960 journal 2"], [b"- {}"]])),
                           ("no entry", journals.sealed([*WRITES[:3], [b"- {}"]])),
                           ("an entry that was refused", journals.sealed([*WRITES, [journals.body(submits("b1", "b8c6"))]]))):
            with self.subTest(what):
                file = self.file(what, data)
                said = refusal(file)
                self.assertIsNotNone(said, "it started")
                self.assertEqual((said[0].startswith(f"fault 31 Read\n{file}"), said[1]), (True, 3), said)
                self.assertEqual(file.read_bytes(), data)
                self.assertEqual([it for it in file.parent.iterdir() if it != file], [])
                self.assertEqual(checked(file)[1], 3)
