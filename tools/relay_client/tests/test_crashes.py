"""A server with a journal that is killed, or loses its power, or whose disk is full or fails: what it has said is there at the next start.

The calls on the journal are counted, and each is made to fail in turn, by crash_shim.c, which cc builds.
"""

import concurrent.futures
import contextlib
import functools
import itertools
import os
import pathlib
import re
import shutil
import signal
import subprocess
import tempfile
import time
import unittest

from relay_client import journals
from relay_client.connection import Connection
from relay_client.program import fens
from relay_client.server import NotListening, Server
from relay_client.tests.sessions import moves_without_a_draw
from relay_client.tests.test_watching_loops import long_game
from relay_client.texts import (BOARDS, NO_BOARD, NO_MEMORY, OPENED, START_518, ended, ends, following, follows, moved, opens, over,
                                played, stands, submits)
from relay_client.waiting import is_readable

SHIM = pathlib.Path(__file__).resolve().parent / "crash_shim.c"
KEYS = {"b1": "a-key-of-the-first-board", "b2": "a-key-of-the-second-board", "b3": None}
MOVES = list(moves_without_a_draw())
DONE, AWAY = "close 1000", "close 1001"
ROUNDS = 15
SLOW_MILLIS = 600
WRITES = "write", "pwrite", "writev"
SIDE_BY_SIDE = 4
SOON = 10  # Seconds within which what happens at once has happened, on a busy machine too.
MANY_PLIES = "--forever", "--plies", "1500", "--boards", "256", "--grace", "60"
KILLS = "before", "after", "part"
# How much of what was not synced a crash leaves: nothing as where the power fails, half of it, or all as where the process alone ends.
LEAVES = 0, 1, 2
REASONS = {"ENOSPC": "No space left on device (os error 28)", "EIO": "Input/output error (os error 5)"}


@functools.cache
def position(place):
    """The position behind so many of the moves."""
    return ([START_518] + fens(518, MOVES[:ROUNDS]))[place]


class Gone(Exception):
    """The server is gone."""


@contextlib.contextmanager
def unless_gone():
    """A connection that ends, or that nobody accepts, says that the server is gone. It may end in the middle of anything."""
    try:
        yield
    except ConnectionError:
        raise Gone from None
    except AssertionError as wrong:
        if str(wrong) != "the connection ended":
            raise
        raise Gone from None


def comes(port, key=None):
    with unless_gone():
        return Connection(port, key=key)


def says(connection, line):
    with unless_gone():
        connection.send(line)


def hears(connection, wanted):
    with unless_gone():
        connection.hears(wanted)


class Board:
    """What was asked of a board, what was answered, and what those who follow it were told: the moves of each, and its end."""

    def __init__(self):
        self.is_opened = False
        self.asked = self.answered = self.seen = 0
        self.ends = set()  # The ends that it may have by now.
        self.told_end = None


class Follower:
    """One who follows a board from its first place."""

    def __init__(self, board, name, port, is_watching):
        self.board, self.place, self.is_over, self.is_watching = board, 0, False, is_watching
        self.connection = comes(port)
        says(self.connection, follows(name, place=0))
        hears(self.connection, following())

    def hears_next(self):
        """Receives the next text, which is the move that is due, or the end."""
        with unless_gone():
            text = self.connection.receive()
        if self.is_watching and text == AWAY:
            # The loops of the watch port end in order, whatever ends the main port's.
            raise Gone
        if self.place < len(MOVES) and text == moved(MOVES[self.place], self.place):
            self.place += 1
            assert self.place <= self.board.asked, f"{text} came before it was asked for"
            self.board.seen = max(self.board.seen, self.place)
        else:
            ends_by_now = [end for end in self.board.ends if text == over(end)]
            assert ends_by_now, f"{text} was not due at place {self.place}"
            self.board.told_end, self.is_over = ends_by_now[0], True

    def hears_all(self):
        """Receives what comes until the end, or until the server is gone."""
        with contextlib.suppress(Gone):
            while not self.is_over:
                self.hears_next()


class Story:
    """Three boards, two of which have a key: what becomes of them until all is over or the server is gone. One operator resigns, one goes
    for longer than the grace, and the one without a key goes."""

    def __init__(self, rounds=ROUNDS, together=True):
        """So many moves of each board; together if the next of all boards are on their way at once."""
        self.rounds, self.together = rounds, together
        self.boards = {name: Board() for name in KEYS}
        self.owners, self.followers = {}, []

    def is_told_whole(self, server):
        """Whether all was over before the server was gone. Those who follow hear all that they are told until then."""
        try:
            self.begins(server)
            self.plays(server)
            self.all_end()
            return True
        except Gone:
            for follower in self.followers:
                follower.hears_all()
                follower.connection.close()
            server.process.wait(SOON)
            return False
        finally:
            for connection in [*self.owners.values(), *(it.connection for it in self.followers)]:
                connection.close()

    def begins(self, server):
        for name, key in KEYS.items():
            self.owners[name] = comes(server.port, key)
            says(self.owners[name], opens(name))
            hears(self.owners[name], OPENED)
            self.boards[name].is_opened = True
            self.followers.append(Follower(self.boards[name], name, server.port, False))
            self.followers.append(Follower(self.boards[name], name, server.watch_port, True))

    def plays(self, server):
        for place in range(self.rounds):
            there = list(self.owners)
            for group in [there] if self.together else [[name] for name in there]:
                for name in group:
                    self.boards[name].asked += 1
                    says(self.owners[name], submits(name, MOVES[place]))
                for name in group:
                    hears(self.owners[name], played(place))
                    self.boards[name].answered += 1
            if place == self.rounds * 2 // 3:
                self.goes("b2")

    def goes(self, name):
        self.boards[name].ends.add("abandoned")
        self.owners.pop(name).reset()

    def all_end(self):
        self.boards["b1"].ends.add("white resigns")
        says(self.owners["b1"], ends("b1", "resign", "white"))
        hears(self.owners["b1"], ended("white resigns"))
        self.boards["b1"].told_end = "white resigns"
        self.goes("b3")
        for follower in self.followers:
            while not follower.is_over:
                follower.hears_next()

    # ---- What is there at the next start.

    def is_kept(self, server, file):
        """All that was said is there, and nothing that was not asked for: in the file, and on the server that has been started with it."""
        kept = journals.boards_in(journals.lines_in(file.read_bytes()))
        for name, board in self.boards.items():
            if name not in kept:
                assert not board.is_opened, f"{name} was opened, and is gone"
                stranger = Connection(server.port)
                stranger.asks(follows(name), NO_BOARD)
                stranger.close()
                continue
            self.is_board_kept(name, board, kept[name], server)

    def is_board_kept(self, name, board, kept, server):
        made = len(kept.moves)
        assert kept.start == 518 and kept.moves == MOVES[:made], (name, kept.moves)
        assert kept.key == journals.key_kept(KEYS[name]), (name, kept.key)
        assert max(board.answered, board.seen) <= made <= board.asked, (name, vars(board), made)
        end = end_of(kept.end)
        if board.told_end:
            assert end == board.told_end, (name, board.told_end, end)
        # Nobody comes back to a board without a key.
        may_be = board.ends | {"abandoned"} if KEYS[name] is None else board.ends | {None}
        assert end in may_be, (name, end, may_be)
        guest = Connection(server.port)
        guest.asks(follows(name, place=0), following())
        guest.hears(*(moved(move, place) for place, move in enumerate(kept.moves)))
        if end:
            guest.hears(over(end), DONE)
        else:
            back = Connection(server.port, key=KEYS[name])
            back.asks(submits(name, MOVES[made]), played(made))
            guest.hears(moved(MOVES[made], made))
            late = Connection(server.watch_port)
            late.asks(follows(name, place=made), following(made, position(made)))
            late.hears(moved(MOVES[made], made))
            back.close()
            late.close()
        guest.close()


def end_of(said):
    """The outcome of an end that a journal's line says."""
    if said is None:
        return None
    return {"resign": f"{said.get('side')} resigns"}.get(said["how"], said["how"])


class Crash:
    """A server whose calls on its journal are counted, and one of them is done in another way."""

    def __init__(self, folder, shim):
        self.folder, self.shim = folder, shim
        self.file, self.log = folder / "games", folder / "calls"
        self.status = self.complaint = None

    def around(self, at=0, how="none", slow=0):
        """The environment in which the call of that number is done in that way."""
        return {**os.environ, "LD_PRELOAD": str(self.shim), "CRASH_FILE": str(self.file), "CRASH_LOG": str(self.log),
                "CRASH_AT": str(at), "CRASH_HOW": how, "CRASH_SLOW": str(slow)}

    def runs(self, story, at=0, how="none", grace=1):
        """Starts the server, and tells it the story; whether it was told whole."""
        words = "--forever", "--grace", str(grace), "--journal", str(self.file)
        try:
            server = Server(*words, watch=True, env=self.around(at, how))
        except NotListening as ended_early:
            _, self.complaint, self.status = ended_early.args
            return False
        with server:
            is_whole = story.is_told_whole(server)
            if not is_whole:
                _, self.complaint, self.status = server.ended()
        return is_whole

    def calls(self):
        """The calls that were counted: the name, how many bytes, and of which file."""
        if not self.log.exists():
            return []
        lines = [line.split() for line in self.log.read_text().splitlines()]
        return [(words[1], int(words[2]), words[3]) for words in lines if words[0] != "synced"]

    def synced(self):
        """How many bytes of the file were synced."""
        told = [line.split()[1] for line in self.log.read_text().splitlines() if line.startswith("synced")]
        return int(told[-1]) if told else 0

    def leaves(self, much, synced=0):
        """Of what was not synced the disk has this many halves, and zeros in place of the others. So much was synced before."""
        if self.file.exists():
            data = self.file.read_bytes()
            size = len(journals.without_zeros(data))
            synced = min(max(self.synced(), synced), size)
            kept = synced + (size - synced) * much // 2
            self.file.write_bytes(data[:kept] + bytes(len(data) - kept))

    def is_kept(self, story):
        """Another start, without a fault, has all that was said."""
        with Server("--forever", "--grace", "3600", "--journal", str(self.file), watch=True) as server:
            story.is_kept(server, self.file)


class Crashes(unittest.TestCase):
    def setUp(self):
        if not shutil.which("cc"):
            self.skipTest("cc is missing")
        self.room = pathlib.Path(self.enterContext(tempfile.TemporaryDirectory())).resolve()
        self.shim = self.room / "shim.so"
        subprocess.run(["cc", "-O2", "-Wall", "-shared", "-fPIC", "-o", self.shim, SHIM], check=True)
        position(0)

    def crash(self, *words):
        folder = self.room / "-".join(map(str, words))
        folder.mkdir()
        return Crash(folder, self.shim)

    def side_by_side(self, act, cases):
        """Does this with each of the cases, and fails with all that was wrong."""
        def does(case):
            try:
                return act(*case)
            except (AssertionError, NotListening, OSError) as wrong:
                return f"{case}: {type(wrong).__name__} {wrong}"
        with concurrent.futures.ThreadPoolExecutor(SIDE_BY_SIDE) as pool:
            wrong = [it for it in pool.map(does, cases) if it]
        self.assertFalse(wrong, "\n".join(map(str, wrong)))


class Kills(Crashes):
    def test_whenever_it_is_killed_all_that_was_said_is_there(self):
        whole = self.crash("whole")
        self.assertTrue(whole.runs(Story()))
        calls = whole.calls()

        def is_killed(at, how):
            crash, story = self.crash(at, how), Story()
            if crash.runs(story, at, how):
                assert len(crash.calls()) < at, "it was not killed"
                return
            assert crash.status == -signal.SIGKILL, (crash.status, crash.complaint)
            crash.leaves(LEAVES[at % len(LEAVES)])
            crash.is_kept(story)

        self.side_by_side(is_killed, [(at, how) for at in range(1, len(calls) + 1) for how in KILLS])

    def test_each_answer_comes_once_it_is_synced(self):
        """Nothing is left to be written or synced when all has been told. The folder of a new file is synced, too."""
        crash = self.crash("whole")
        self.assertTrue(crash.runs(Story(rounds=2, together=False)))
        calls = crash.calls()
        self.assertEqual(calls[-1][0], "fdatasync")
        self.assertEqual(crash.synced(), len(journals.without_zeros(crash.file.read_bytes())))
        self.assertIn("folder", [of for _, _, of in calls])
        self.assertIsNone(journals.rest_of(crash.file.read_bytes()))
        self.assertEqual(crash.file.stat().st_mode & 0o777, 0o600)

    def test_nobody_hears_of_what_is_not_synced_yet(self):
        """Each sync takes a while. Meanwhile neither those who watch nor newcomers learn of the move."""
        crash = self.crash("slow")
        words = "--forever", "--grace", "60", "--journal", str(crash.file)
        with Server(*words, watch=True, env=crash.around(slow=SLOW_MILLIS)) as server, contextlib.ExitStack() as stack:
            def peer(port, line, *answers, key=None):
                connection = stack.enter_context(contextlib.closing(Connection(port, key=key)))
                connection.send(line)
                connection.hears(*answers)
                return connection

            owner = peer(server.port, opens("b1"), OPENED, key=KEYS["b1"])
            followers = [peer(port, follows("b1"), following()) for port in (server.port, server.watch_port)]
            observer = peer(server.watch_port, BOARDS, stands("b1"))
            for place, move in enumerate(MOVES[:3]):
                before, synced = position(place), crash.synced()
                owner.send(submits("b1", move))
                time.sleep(SLOW_MILLIS / 4000)
                late = peer(server.watch_port, follows("b1"), following(place, before))
                last = {"last": MOVES[place - 1], "plies": place} if place else {}
                peer(server.watch_port, BOARDS, stands("b1", fen=before, **last)).close()
                self.assertFalse(any(is_readable(it.stream, 0) for it in (owner, *followers, late, observer)))
                self.assertEqual(crash.synced(), synced, "the sync was over too soon for this test")
                owner.hears(played(place))
                self.assertGreater(crash.synced(), synced)
                for follower in [*followers, late]:
                    follower.hears(moved(move, place))
                observer.hears(stands("b1", fen=position(place + 1), last=move, plies=place + 1))
                late.close()

    def test_a_write_that_takes_a_part_or_is_interrupted_is_gone_on_with(self):
        """Each write takes half of its bytes, or every other one is interrupted."""
        for how in "short", "EINTR":
            with self.subTest(how=how):
                crash, story = self.crash(how), Story(rounds=3)
                self.assertTrue(crash.runs(story, -1, how), crash.complaint)
                self.assertIsNone(journals.rest_of(crash.file.read_bytes()))
                crash.is_kept(story)


class Faults(Crashes):
    """Of the disk, and of the file."""

    def test_where_a_call_fails_nothing_is_answered_and_no_call_made_from_then_on(self):
        whole = self.crash("whole")
        self.assertTrue(whole.runs(Story(3, together=False)))
        calls = whole.calls()

        def fails(at, how):
            crash, story = self.crash(at, how), Story(3, together=False)
            assert not crash.runs(story, at, how), "it goes on"
            fault_is_told(crash, how.removeprefix("half-"))
            further = crash.calls()[at:]
            # The rest of what was written in part is tried, and fails.
            assert len(further) == how.startswith("half-"), further
            crash.leaves(LEAVES[at % len(LEAVES)])
            crash.is_kept(story)

        cases = [(at, how) for at, call in enumerate(calls, 1) for how in REASONS if call[0] != "zeros"]
        cases += [(at, "half-ENOSPC") for at, call in enumerate(calls, 1) if call[0] in WRITES]
        self.side_by_side(fails, cases)

    def test_a_disk_without_room_at_the_start_that_has_room_then_takes_boards(self):
        """No zeros could be put ahead at the start. Nothing else was written since."""
        crash = self.crash("no-room")
        calls = self.crash("whole")
        calls.runs(NoStory())
        zeros = [at for at, call in enumerate(calls.calls(), 1) if call[0] == "zeros"]
        words = "--forever", "--grace", "60", "--journal", str(crash.file)
        with Server(*words, env=crash.around(zeros[0], "ENOSPC")) as server, contextlib.closing(Connection(server.port)) as owner:
            until, answer = time.monotonic() + SOON, None
            while answer != OPENED and time.monotonic() < until:
                owner.send(opens("b1"))
                answer = owner.receive()
                self.assertIn(answer, (OPENED, NO_MEMORY))
                time.sleep(0.1)
            self.assertEqual(answer, OPENED)

    def test_a_disk_that_is_full_ends_the_server_and_with_room_all_is_there(self):
        """128 KiB have room for some 1,900 moves. Before the end no board is opened any more."""
        after_refusal = self.fills(self.small_disk() / "games", ["No space left on device (os error 28)"])
        self.assertGreater(after_refusal, 300)

    def test_a_disk_that_is_full_once_a_torn_end_was_set_aside_has_room_for_what_goes_on(self):
        """No zeros stand behind what is left of the file. They are put there at the start, and not when they are needed."""
        crash, file = self.crash("whole"), self.small_disk() / "games"
        self.assertTrue(crash.runs(Story()))
        file.write_bytes(journals.without_zeros(crash.file.read_bytes()) + b"torn")
        with Server(*MANY_PLIES, "--journal", str(file)) as server:
            with contextlib.suppress(OSError), open(file.with_name("other"), "wb", buffering=0) as other:
                while other.write(bytes(4096)):
                    pass
            with contextlib.closing(Connection(server.port)) as owner:
                owner.asks(opens("behind"), OPENED)
                for place, move in enumerate(long_game(100)):
                    owner.asks(submits("behind", move), played(place))

    def small_disk(self):
        """A disk with 128 KiB."""
        if os.geteuid() != 0:
            self.skipTest("only root may mount a small disk")
        disk = self.room / "disk"
        disk.mkdir()
        words = ["mount", "-t", "tmpfs", "-o", "size=128k", "tmpfs", disk]
        if subprocess.run(words, capture_output=True).returncode != 0:
            self.skipTest("no small disk can be mounted here")
        self.addCleanup(subprocess.run, ["umount", "-l", disk], check=True)
        return disk

    def test_a_file_that_may_not_grow_ends_the_server_and_with_room_all_is_there(self):
        """The system ends a process by a signal that writes more than it may."""
        if not shutil.which("prlimit"):
            self.skipTest("prlimit is missing")
        self.fills(self.room / "games", ["File too large (os error 27)", -signal.SIGXFSZ], before=("prlimit", "--fsize=100000"))

    def fills(self, file, ends_as, **options):
        """Plays until the file has no room. All that was answered is there at a start with room, on another disk. How many moves were
        answered after an open was refused for want of room."""
        moves, answered, after_refusal, is_refused = long_game(1400), {}, 0, False
        with contextlib.ExitStack() as stack:
            server = stack.enter_context(Server(*MANY_PLIES, "--journal", str(file), **options))
            owners = {name: stack.enter_context(contextlib.closing(Connection(server.port, key=KEYS[name]))) for name in ("b1", "b2")}
            for name, owner in owners.items():
                owner.asks(opens(name), OPENED)
                answered[name] = 0
            with contextlib.suppress(Gone):
                for (name, owner), at in itertools.product(owners.items(), range(0, len(moves), 50)):
                    with unless_gone():
                        owner.send(*(submits(name, move) for move in moves[at:at + 50]))
                    for place in range(at, at + 50):
                        hears(owner, played(place))
                        answered[name] += 1
                        after_refusal += is_refused
                    if not is_refused:
                        says(owner, opens(f"{name}_{at}"))
                        with unless_gone():
                            is_refused = owner.receive() == NO_MEMORY
            _, complaint, status = server.ended()
        if status == 3:
            self.assertIn(complaint.decode(), [f"fault 32 Write\n{file}: {reason}\n" for reason in ends_as])
        else:
            self.assertIn(status, ends_as)
        self.assertGreater(sum(answered.values()), 400)
        roomy = self.room / "roomy"
        shutil.copy(file, roomy)
        with Server(*MANY_PLIES, "--journal", str(roomy)) as server:
            kept = journals.boards_in(journals.lines_in(roomy.read_bytes()))
            for name, count in answered.items():
                made = len(kept[name].moves)
                self.assertGreaterEqual(made, count)
                self.assertEqual(kept[name].moves, moves[:made])
                with contextlib.closing(Connection(server.port, key=KEYS[name])) as back:
                    back.asks(ends(name, "agreed"), ended("agreed"))
        return after_refusal


def fault_is_told(crash, how):
    assert crash.status == 3, (crash.status, crash.complaint)
    # What failed is the file, or the one beside it to which its torn end goes.
    named = re.escape(str(crash.file)) + r"(\.torn-\d+)?: " + re.escape(REASONS[how])
    assert re.fullmatch(named, crash.complaint.decode().splitlines()[-1]), crash.complaint
    assert b"\nfault " in b"\n" + crash.complaint, crash.complaint


class NextStarts(Crashes):
    """The second start is killed or fails, too. It finds a file with a torn tail, and a board whose operator cannot come back."""

    def setUp(self):
        super().setUp()
        whole = self.crash("whole")
        self.assertTrue(whole.runs(Story(6, together=False)))
        writes = [at for at, (name, _, _) in enumerate(whole.calls(), 1) if name in WRITES]
        # The fifth last write is a move of the third board, before any end.
        self.first, self.story = self.crash("first"), Story(6, together=False)
        self.assertFalse(self.first.runs(self.story, writes[-5], "part"))
        self.data = self.first.file.read_bytes()
        self.rest = journals.rest_of(self.data)
        self.assertTrue(self.rest and not self.rest.is_damage)
        self.torn = self.data[self.rest.at:self.rest.at + self.rest.size]

    def starts(self, at, how, much=2):
        """A start with that file, with such a fault. Whether the server came to listen."""
        crash = self.crash("again", at, how)
        crash.file.write_bytes(self.data)
        crash.file.chmod(0o600)
        told = crash.runs(NoStory(), at, how, grace=3600)
        if not told and how in KILLS:
            crash.leaves(much, self.rest.at)
        return crash, told

    def has_torn_tail(self, crash):
        """What was torn off stands beside the file."""
        beside = [it.read_bytes() for it in crash.folder.iterdir() if it.name.startswith("games.torn")]
        assert self.torn in beside, (self.torn, beside)

    def test_a_torn_tail_is_on_the_disk_beside_the_file_before_it_is_cut(self):
        crash, told = self.starts(0, "none")
        self.assertTrue(told)
        self.has_torn_tail(crash)
        calls = [(name, of) for name, _, of in crash.calls()]
        cut = calls.index(("ftruncate", "file"))
        synced = [at for at, (name, of) in enumerate(calls) if of == "another" and name in ("fsync", "fdatasync")]
        written = [at for at, (name, of) in enumerate(calls) if of == "another" and name in WRITES]
        self.assertLess(max(written), min(synced))
        self.assertLess(max(synced), cut)
        self.assertTrue(any(of == "folder" for _, of in calls[:cut]), calls)
        self.assertTrue(all(it.stat().st_mode & 0o777 == 0o600 for it in crash.folder.iterdir() if it.name.startswith("games")))
        crash.is_kept(self.story)

    def test_whatever_call_of_the_second_start_is_the_last_the_third_has_all(self):
        calls = [name for name, *_ in self.starts(0, "none")[0].calls()]

        def is_again(at, how):
            crash, told = self.starts(at, how, LEAVES[at % len(LEAVES)])
            if how not in KILLS and not told:
                fault_is_told(crash, how)
                assert len(crash.calls()) == at, crash.calls()
            assert not told or how == "part" or len(crash.calls()) < at, "the fault was overlooked"
            crash.is_kept(self.story)
            if LEAVES[at % len(LEAVES)] == 2:
                self.has_torn_tail(crash)

        cases = [(at, how) for at, name in enumerate(calls, 1) for how in (*KILLS, *REASONS) if name != "zeros" or how in KILLS]
        self.side_by_side(is_again, cases)


class NoStory:
    """Nothing happens: the server has started."""

    def is_told_whole(self, server):
        server.process.kill()
        server.process.wait()
        return True
