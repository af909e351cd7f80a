"""Devices made for a case: input byte by byte, an input that fails at a byte, an output that is full or breaks at one, calls that are
interrupted, and inputs that are as long as a run reads, a byte longer, or without an end."""

import contextlib
import errno
import os
import resource
import signal
import socket
import struct
import subprocess
import sys
import tempfile
import threading
import time

from games import AFTER_F3
from relay_client.faults import read_fault, write_fault
from relay_client.program import PATIENCE, PROGRAM
from relay_client.texts import BAD_FIELD, NOT_JSON, NOT_OBJECT
from runs import Run, lines
from scripts import MATE, MATE_ANSWERS, MATE_SCRIPT
from starts import BAD_START, PROMOTION, PROMOTION_LINES, STANDARD, UNLAWFUL
from streams import MOST_LINES

PLAY, SCRIPT = ("play", "518"), ("script",)
GOOD = b""
TOO_LONG = b"fault 33 TooLong\n"
LENGTH, SQUARE, NO_PROMOTION = b"fault 1 Length\n", b"fault 2 Square\n", b"fault 3 Promotion\n"
STALEMATE = "7k/5Q2/6K1/8/8/8/8/8 b - - 0 1"

# Inputs of a game, each with the answers to its lines.
LINES = [
    (b"", []),
    (b"\n", [LENGTH]),
    (b"\n\n", [LENGTH, LENGTH]),
    (b"a", [LENGTH]),
    (b"a\n", [LENGTH]),
    (b"f2f3\n\ne9e4", [AFTER_F3, LENGTH, SQUARE]),
    (b"f2f3\n\ne9e4\n", [AFTER_F3, LENGTH, SQUARE]),
    (b"\r\n", [LENGTH]),
    (b"f2f3\r\nf2f3\r", [NO_PROMOTION, NO_PROMOTION]),
]

# Jobs that read, what they read, and the answers to the lines of it that end.
READERS = [
    (PLAY, b"f2f3\ne2", [AFTER_F3]),
    (SCRIPT, b"e2e4\n", [lines([NOT_JSON])]),
    (SCRIPT, MATE_SCRIPT, [lines([answer]) for _, answer in MATE]),
]

# Jobs, with what they read, print and end with.
JOBS = [
    (("start", "518"), b"", STANDARD, 0),
    (("start", "960"), b"", BAD_START, 1),
    (("moves", PROMOTION), b"", PROMOTION_LINES, 0),
    (("moves", STALEMATE), b"", b"\nstalemate\n", 0),
    (("moves", UNLAWFUL), b"", b"unlawful\n", 1),
    (("moves", ""), b"", b"fault 1 Fields\n", 1),
    (("play", "960"), b"", BAD_START, 1),
    (("--version",), b"", b"relay960 0.1.0\n", 0),
    (PLAY, b"f2f3\ne2", AFTER_F3 + LENGTH, 0),
    (SCRIPT, MATE_SCRIPT, MATE_ANSWERS, 0),
]

MOST_BYTES = 1 << 30
LONG_TIME = struct.pack("ll", PATIENCE, 0)
LONG, SHORT, OBJECT = lines([BAD_FIELD]), lines([NOT_JSON]), lines([NOT_OBJECT])

# What an input begins with, how many bytes it has, zeros but for its beginning and its end, and what it ends with; the answers and the
# complaint.
LENGTHS = [
    (SCRIPT, b"[]\n", MOST_BYTES, b"\n", OBJECT + LONG, GOOD),
    # The last byte within the bound may open a line.
    (SCRIPT, b"[]\n", MOST_BYTES, b"\n[", OBJECT + LONG + SHORT, GOOD),
    (SCRIPT, b"[]\n", MOST_BYTES + 1, b"\n[", OBJECT + LONG, TOO_LONG),
    (SCRIPT, b"[]\n", MOST_BYTES + 1, b"\n[]", OBJECT + LONG, TOO_LONG),
    (SCRIPT, b"", MOST_BYTES + 1, b"\n", b"", TOO_LONG),
    (PLAY, b"e2\n", MOST_BYTES, b"", LENGTH + LENGTH, GOOD),
    (PLAY, b"e2\n", MOST_BYTES + 1, b"", LENGTH, TOO_LONG),
    (PLAY, b"e2\n", MOST_BYTES + 1, b"\ne", LENGTH + LENGTH, TOO_LONG),
]

# The last line that a run reads needs no line feed, and a single byte behind it is too much.
RUNS = [
    *[Run(PLAY, reads=given, prints=b"".join(answers)) for given, answers in LINES],
    *[Run(words, reads=b"\n" * (MOST_LINES - 1) + b"a", prints=answer * MOST_LINES) for words, answer in ((SCRIPT, SHORT), (PLAY, LENGTH))],
    *[Run(words, reads=b"\n" * MOST_LINES + b"a", prints=answer * MOST_LINES, complains=TOO_LONG, status=3)
      for words, answer in ((SCRIPT, SHORT), (PLAY, LENGTH))],
]


def compare(what, found, wanted):
    if found != wanted:
        sys.exit(f"{what}: {str(found)[:2000]}\nwanted: {str(wanted)[:2000]}")


def ran(words, feed=None, **options):
    """What a run prints into a file, what it complains of and its status; with `feed`, which gives it its input meanwhile."""
    with tempfile.TemporaryFile() as printed:
        with subprocess.Popen([PROGRAM, *words], stdout=printed, stderr=subprocess.PIPE, **options) as process:
            if feed:
                feed(process)
            complained = process.communicate(timeout=PATIENCE)[1]
        printed.seek(0)
        return printed.read(), complained, process.returncode


def read_failing(words, reads):
    """A run whose input has these bytes, and then cannot be read: its other end was closed with a byte unread."""
    near, far = socket.socketpair()
    near.send(b"x")

    def feed(_process):
        near.close()
        far.settimeout(PATIENCE)
        far.sendall(reads)
        far.close()
    return ran(words, feed, stdin=near)


def failing_inputs():
    """Behind each of its bytes: the answers of all lines that have ended are written, and nothing is answered of the line that has not."""
    count = 0
    for words, reads, answers in READERS:
        for good in range(len(reads) + 1):
            wanted = b"".join(answers[:reads[:good].count(b"\n")])
            compare(f"{words} behind {good} bytes", read_failing(words, reads[:good]), (wanted, read_fault(errno.ECONNRESET), 3))
            count += 1
    # Where the bound comes first, only a byte behind it would be past it.
    compare("behind the last line", read_failing(SCRIPT, b"\n" * MOST_LINES), (SHORT * MOST_LINES, read_fault(errno.ECONNRESET), 3))
    return count + 1


@contextlib.contextmanager
def room_for(count):
    """Files may have so many bytes and no more, those of this process too, which writes none meanwhile."""
    before, most = resource.getrlimit(resource.RLIMIT_FSIZE)
    resource.setrlimit(resource.RLIMIT_FSIZE, (count, most))
    try:
        yield
    finally:
        resource.setrlimit(resource.RLIMIT_FSIZE, (before, most))


def full_outputs():
    """A file that is full behind each of its bytes has that beginning of what is printed."""
    count = 0
    for words, reads, prints, status in JOBS:
        for room in range(len(prints) + 1):
            with tempfile.TemporaryFile() as given:
                given.write(reads)
                given.seek(0)
                # Python ignores the signal of such a limit, and the program is to find it ignored.
                with room_for(room):
                    found = ran(words, stdin=given, restore_signals=False)
            wanted = (prints, GOOD, status) if room == len(prints) else (prints[:room], write_fault(errno.EFBIG), 3)
            compare(f"{words} with room for {room} bytes", found, wanted)
            count += 1
    return count


@contextlib.contextmanager
def in_pieces(words):
    """A run each of whose reads takes one piece that is sent, and each of whose writes gives one piece that is received."""
    given, reads = socket.socketpair(socket.AF_UNIX, socket.SOCK_SEQPACKET)
    writes, taken = socket.socketpair(socket.AF_UNIX, socket.SOCK_SEQPACKET)
    for end in given, taken:
        end.settimeout(PATIENCE)
    # A call with a timeout is not made again by the system when it is interrupted.
    reads.setsockopt(socket.SOL_SOCKET, socket.SO_RCVTIMEO, LONG_TIME)
    writes.setsockopt(socket.SOL_SOCKET, socket.SO_SNDTIMEO, LONG_TIME)
    with subprocess.Popen([PROGRAM, *words], stdin=reads, stdout=writes, stderr=subprocess.PIPE) as process:
        reads.close()
        writes.close()
        try:
            yield process, given, taken
        finally:
            given.close()
            taken.close()


def one_by_one(data):
    return [data[at:at + 1] for at in range(len(data))]


def received(taken):
    """All writes until the end."""
    return list(iter(lambda: taken.recv(1 << 16), b""))


def written(words, pieces):
    """The writes of a run whose reads give these pieces."""
    with in_pieces(words) as (process, given, taken):
        found = []
        taking = threading.Thread(target=lambda: found.extend(received(taken)))
        taking.start()
        for piece in pieces:
            given.send(piece)
        given.close()
        taking.join()
        complained = process.communicate(timeout=PATIENCE)[1]
        compare(f"{words} in pieces", (complained, process.returncode), (GOOD, 0))
        return found


def in_writes():
    """The answers to the lines of one read are one write, before the next read."""
    for given, answers in LINES:
        compare(f"{given} byte by byte", written(PLAY, one_by_one(given)), answers)
    at_once = [AFTER_F3 + LENGTH, SQUARE]
    compare("three lines with one read", written(PLAY, [b"f2f3\n\ne9e4"]), at_once)
    compare("three lines with two reads", written(PLAY, [b"f2f3\n\ne9", b"e4\n"]), at_once)
    compare("a script byte by byte", written(SCRIPT, one_by_one(MATE_SCRIPT)), [lines([answer]) for _, answer in MATE])
    return len(LINES) + 3


def broken_at(words, steps, count):
    """What a run leaves whose output breaks behind this many writes. A step is the pieces that are sent, and the write that they lead
    to."""
    with in_pieces(words) as (process, given, taken):
        for number, (pieces, answer) in enumerate(steps):
            if number == count:
                taken.close()
            for piece in pieces:
                given.send(piece)
            if number == count:
                break
            compare(f"{words}, write {number}", taken.recv(1 << 16), answer)
        given.close()
        return process.communicate(timeout=PATIENCE)[1], process.returncode


def broken_outputs():
    """An output that takes a number of writes and fails at the next."""
    cases = [
        (PLAY, [([b"f2f3\n\ne9e4"], AFTER_F3 + LENGTH), ([], SQUARE)]),
        (PLAY, [(one_by_one(b"f2f3\n"), AFTER_F3), ([b"\n"], LENGTH), (one_by_one(b"e9e4"), SQUARE)]),
        (SCRIPT, [(one_by_one(lines([line])), lines([answer])) for line, answer in MATE]),
    ]
    for words, steps in cases:
        for count in range(len(steps)):
            compare(f"{words} whose output breaks behind {count} writes", broken_at(words, steps, count), (write_fault(errno.EPIPE), 3))
    return sum(len(steps) for _, steps in cases)


def ended_by_interruption(process):
    """Stops a run and lets it go on, which interrupts what it waits for; what it complains of and its status, once it has ended."""
    for _ in range(100):
        for number in signal.SIGSTOP, signal.SIGCONT:
            process.send_signal(number)
            time.sleep(0.05)
        if process.poll() is not None:
            return process.communicate(timeout=PATIENCE)[1], process.returncode
    return sys.exit("a run goes on when what it waits for is interrupted")


def interrupted_calls():
    """A read or a write that is interrupted has failed, and is not made again."""
    for words, answer in (SCRIPT, SHORT), (PLAY, LENGTH):
        with in_pieces(words) as (process, given, taken):
            given.send(b"a\na")
            compare(f"{words}, a line", taken.recv(1 << 16), answer)
            compare(f"{words}, a read that is interrupted", ended_by_interruption(process), (read_fault(errno.EINTR), 3))
            compare(f"{words}, behind it", received(taken), [])
        with in_pieces(words) as (process, given, taken):
            # More answers than the system keeps for one that takes none.
            for _ in range(5):
                given.send(b"\n" * 4000)
            compare(f"{words}, a write that is interrupted", ended_by_interruption(process), (write_fault(errno.EINTR), 3))
            found = b"".join(received(taken))
            compare(f"{words}, before it", (bool(found), found), (True, (answer * 20_000)[:len(found)]))
    return 4


def long_inputs():
    """Inputs of as many bytes as a run reads, and of one more. The file has no blocks for the zeros."""
    for words, begins, size, ends, prints, complains in LENGTHS:
        with tempfile.TemporaryFile() as given:
            given.truncate(size)
            given.write(begins)
            given.seek(size - len(ends))
            given.write(ends)
            given.seek(0)
            compare(f"{words} on {size} bytes that end with {ends}", ran(words, stdin=given), (prints, complains, 3 if complains else 0))
    return len(LENGTHS)


def feed_line_feeds(process):
    """Gives a run line feeds for as long as it reads."""
    def feed():
        with contextlib.suppress(BrokenPipeError), process.stdin:
            while True:
                process.stdin.write(b"\n" * 65_536)
    feeding = threading.Thread(target=feed)
    feeding.start()
    process.wait(PATIENCE)
    feeding.join()
    process.stdin = None


def inputs_without_an_end():
    """One that has no line feed, and one that has nothing else."""
    for words, answer in (SCRIPT, SHORT), (PLAY, LENGTH):
        with open("/dev/zero", "rb") as zeros:
            compare(f"{words} on zeros", ran(words, stdin=zeros), (b"", TOO_LONG, 3))
        found = ran(words, feed_line_feeds, stdin=subprocess.PIPE, bufsize=0)
        compare(f"{words} on line feeds", found, (answer * MOST_LINES, TOO_LONG, 3))
    return 4


def a_start_that_is_none():
    """Nothing is read: an input that cannot be read, a folder, is no fault."""
    folder = os.open("/", os.O_RDONLY)
    for number in "960", "961", "65535":
        compare(f"start {number}", ran(("play", number), stdin=folder), (BAD_START, GOOD, 1))
    os.close(folder)
    return 3


def all_devices():
    return (failing_inputs() + full_outputs() + in_writes() + broken_outputs() + interrupted_calls() + long_inputs()
            + inputs_without_an_end() + a_start_that_is_none())
