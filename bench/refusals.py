#!/usr/bin/env -S python3 -B
"""Refuses each allocation of the built program in turn, and looks at what is left.

    bench/refusals.py [MOST]        those of its jobs, until a run meets no refusal; then 1 to MOST (600) of the server with its start
    bench/refusals.py --watching    those of the loop of a watch port, until nothing is refused any more
    bench/refusals.py --main        those of the loop of the main port, in the same way
    bench/refusals.py --tests       those of each test that must hold then too, until a run meets no refusal

The gate does all of these. refused_jobs.py says what a job may do then, and refused_watching.py and refused_main.py what a loop may do.

The server has room for one board and one follower. In each run an owner opens the board, plays a move and closes; then three guests, one
after another, follow from the first place. If the owner was answered in full, at least two guests get the move, the end as abandoned and
the close 1000. Otherwise all three find the same: the board with the move, the board alone, or none. A server that cannot start says `fault
12 OutOfMemory` and ends with status 4; every other run ends with all four connections accounted for, and nobody hears that what it asks for
was done before. The last line counts what met the refusal. The status is 1 if a run was otherwise; one that does not end is the last. The
tests are those that `rt test` built. One that meets no refusal shows nothing of want of memory: it fails, unless TAKE_NONE names it.
"""
import collections
import io
import itertools
import os
import pathlib
import socket
import struct
import subprocess
import sys
import tempfile

HERE = pathlib.Path(__file__).resolve().parent
CRATES = HERE.parent / "crates"
# First, since this folder has a games.py of its own.
sys.path[:0] = [str(HERE.parent / "tools"), str(CRATES / "relay960/replays")]

from refused_jobs import refuse_in_jobs, run_refused  # noqa: E402
from refused_main import refuse_in_main  # noqa: E402
from refused_watching import refuse_in_watching  # noqa: E402
from relay_client.frames import REQUEST, frame, read_frame  # noqa: E402
from relay_client.program import PATIENCE  # noqa: E402
from relay_client.server import NotListening, Server, last_has_come  # noqa: E402

TESTS = {
    "c960_tests": [
        "tests::rules::memory::a_long_list_of_moves_is_whole_or_wants_memory",
        "tests::game::opening::each_start_opens_a_game_without_moves",
        "tests::game::memory::no_call_after_the_opening_takes_memory",
    ],
    "relay_tests": [
        "tests::live_boards::memory::one_allocation_may_be_refused",
        "tests::relays::memory::a_refused_run_makes_no_step",
        "tests::relays::memory::a_refused_step_is_accepted_when_made_again",
        "tests::relays::memory::the_steps_after_an_opening_and_a_follow_are_answered_whatever_is_refused",
        "tests::connections::a_connection_may_what_its_boards_let_it",
        "tests::connections::a_relay_answers_as_its_history_asks",
        "tests::live::cut_pushed_from_a_live_board",
        "tests::live::who_was_closed_may_leave_with_nothing_taken",
        "tests::pushing::nothing_is_waited_for_and_is_no_text",
        "tests::messages::answers::each_answer_has_its_text",
        "tests::messages::ways::a_decoder_reads_texts_one_after_another",
        "tests::messages::ways::usual_and_compact_texts_take_no_memory",
        "tests::messages::ways::behind_want_of_memory_a_decoder_goes_on",
        "tests::messages::ways::behind_want_of_memory_for_members_a_decoder_goes_on",
    ],
    "server_tests": [
        "tests::service::memory::whoever_is_refused_memory_asks_again",
        "tests::sessions::refusals::a_name_that_stands_takes_no_memory",
        "tests::sessions::refusals::a_refusal_ends_the_boards_and_leaves_no_seat_taken",
    ],
}
# What takes no memory: these meet no refusal at all.
TAKE_NONE = {
    "tests::messages::ways::usual_and_compact_texts_take_no_memory",
}
# How many refusals a test meets at least, where one may be another than its own. A text that is no plain object is first looked at as one,
# and then takes memory for its members.
LEAST = {
    "tests::messages::ways::behind_want_of_memory_a_decoder_goes_on": 2,
    "tests::messages::ways::behind_want_of_memory_for_members_a_decoder_goes_on": 4,
}
OWNER = ['{"cmd":"open","board":"b1","start":518}', '{"cmd":"submit","board":"b1","move":"e2e4"}']
GUEST = ['{"cmd":"follow","board":"b1","spectator":9,"from":0}']
OWNED = [b'{"reply":"opened"}', b'{"outcome":null,"place":0,"reply":"played"}', b"close 1000"]
FOLLOWING = b'{"fen":"rnbqkbnr/pppppppp/8/8/8/8/PPPPPPPP/RNBQKBNR w HAha - 0 1","joined":0,"reply":"following"}'
END = [b'{"outcome":"abandoned","reply":"over"}', b"close 1000"]
FOLLOWED = [FOLLOWING, b'{"move":"e2e4","place":0,"reply":"move"}', *END]
NO_MEMORY = b'{"code":12,"name":"OutOfMemory","reply":"refused"}'
NO_BOARD = [b'{"code":1,"name":"NoSuchBoard","reply":"refused"}', b"close 1000"]
# How many refusals at most only leave a line out: that the last connection has come. The main port's loop writes it in a thread of its own.
MOST_LINES = 5
# Standard error says so if there was no memory to start a connection's session.
TURNED_AWAY = b"no descriptor or memory for a connection: turned away\n"
LEFT_OUT = b"[INFO  relay960] 1 lines left out\n"
# None says that what was asked for had been done already, as a command that is made a second time would.
ANSWERS = {*OWNED, *FOLLOWED, *NO_BOARD, NO_MEMORY}


def answer_of(data):
    """The first text that was received whole, if one was. It is shorter than 126 bytes."""
    frames = data.partition(b"\r\n\r\n")[2]
    return frames[2:2 + frames[1]] if len(frames) > 1 and len(frames) >= 2 + frames[1] else None


def talk(port, texts, follows=False):
    """What a connection receives that sends these texts and a close. One that asks to follow closes only if it is refused, since a close
    ends it at once, whatever it is still due."""
    told, data, closes = [], b"", not follows
    with socket.create_connection(("127.0.0.1", port), timeout=PATIENCE) as peer:
        try:
            peer.sendall(REQUEST + b"".join(map(frame, [*texts, "close 1000"] if closes else texts)))
            while more := peer.recv(65536):
                data += more
                if not closes and answer_of(data) not in (None, FOLLOWING):
                    closes = True
                    peer.sendall(frame("close 1000"))
        except (ConnectionResetError, BrokenPipeError):
            pass
    frames = data.partition(b"\r\n\r\n")[2]
    stream = io.BytesIO(frames)
    while stream.tell() < len(frames):
        told.append(read_frame(stream.read).encode())
    return told


def met(refused, allocator):
    """What met the refusal of this allocation: the start, the owner, a guest, a line or nothing; None where something is wrong."""
    words = ["--connections", "4", "--boards", "1", "--followers", "1", "--capacity", "2"]
    try:
        with Server(*words, env={**os.environ, "LD_PRELOAD": allocator, "REFUSED": str(refused)}) as server:
            owner, guests = talk(server.port, OWNER), [talk(server.port, GUEST, follows=True) for _ in range(3)]
            _, said, _ = server.ended()
    except NotListening as fault:
        _, said, status = fault.args
        return "start" if status == 4 and said.endswith(b"fault 12 OutOfMemory\n") else None
    except (ConnectionRefusedError, AssertionError, ValueError, struct.error):
        return None  # it said that it listens, and accepted nobody; or it sent a frame that is none of a text or a close
    except (TimeoutError, subprocess.TimeoutExpired) as fault:
        sys.exit(f"allocation {refused}: the server does not answer, or does not end: {fault}")
    if not ANSWERS.issuperset(itertools.chain(owner, *guests)):
        return None
    if said in (b"served 4, failed 0\n", LEFT_OUT + b"served 4, failed 0\n"):
        return "line" if owner == OWNED and guests.count(FOLLOWED) == 3 else None
    last = last_has_come(4).encode()
    if said not in (last + b"served 4, failed 0\n", TURNED_AWAY + last + b"served 3, failed 1\n"):
        return None
    if owner == OWNED:
        return {3: "nothing", 2: "guest"}.get(guests.count(FOLLOWED))
    alike = guests.count(guests[0]) == 3 and guests[0] in (FOLLOWED, [FOLLOWING, *END], NO_BOARD)
    return "owner" if alike else None


def complaint(name, met):
    """What is wrong with a test that meets this many refusals: one that meets none shows nothing of them, whatever its name says."""
    if name in TAKE_NONE:
        return "it takes memory, though the list says that it takes none" if met else None
    least = LEAST.get(name, 1)
    return f"it meets fewer than {least}: what it calls takes no memory any more" if met < least else None


def refuse_in_test(test, name, allocator, mark):
    """Runs a test with each allocation refused; returns how many it asks for, and how many runs failed."""
    failed = 0
    for refused in itertools.count(1):
        run = run_refused(refused, [test, name], allocator, mark)
        if run.returncode:
            print(f"{name}, allocation {refused}: status {run.returncode} {run.stderr.decode().strip()}")
            failed += 1
        if not mark.exists():
            return refused - 1, failed


def refuse_in_tests(allocator, mark):
    """Refuses each allocation of each test; returns the status: 0 if no run failed, and each test met as many refusals as it should."""
    failed = wrong = 0
    for crate, names in TESTS.items():
        for name in names:
            met, fails = refuse_in_test(CRATES / crate / "out" / f"{crate}_tests", name, allocator, mark)
            print(f"{name}: {met} allocations refused")
            failed += fails
            if complained := complaint(name, met):
                print(f"{name}: {complained}")
                wrong += 1
    print(f"{failed} runs failed" + (f", {wrong} tests met more or fewer refusals than they should" if wrong else ""))
    return 1 if failed or wrong else 0


def main():
    tests, watching, of_main = (sys.argv[1:] == [word] for word in ("--tests", "--watching", "--main"))
    most = int(sys.argv[1]) if len(sys.argv) > 1 and not (tests or watching or of_main) else 600
    counts, last = collections.Counter(), 0
    with tempfile.TemporaryDirectory() as room:
        allocator = f"{room}/refuse.so"
        subprocess.run(["cc", "-O2", "-shared", "-fPIC", "-o", allocator, str(HERE / "native/refuse.c")], check=True)
        mark = pathlib.Path(room, "met")
        if tests:
            return refuse_in_tests(allocator, mark)
        if watching:
            return 1 if refuse_in_watching(allocator, mark) else 0
        if of_main:
            return 1 if refuse_in_main(allocator, mark) else 0
        wrong = refuse_in_jobs(allocator, mark)
        for refused in range(1, most + 1):
            who = met(refused, allocator)
            counts[who] += 1
            if who is None:
                print(f"allocation {refused}: not as it should be")
            if who != "nothing":
                last = refused
    print(", ".join(f"{who}: {count}" for who, count in counts.items()), f"(the last that was met: {last} of {most})")
    return 1 if wrong or counts[None] or counts["line"] > MOST_LINES else 0


if __name__ == "__main__":
    sys.exit(main())
