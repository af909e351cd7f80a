"""Journals that are checked: what their boards are, and how they end. Each stands in a file for the case."""

import errno
import os
import pathlib
import subprocess
import sys
import tempfile

from relay_client import journals
from relay_client.faults import device_fault, write_fault
from relay_client.journals import FIRST_BODY as FIRST
from relay_client.journals import body as says
from relay_client.program import PATIENCE, PROGRAM
from relay_client.texts import ends, follows, opens, submits

KEY = "aB3_-9xYzQ0kLmNop"
MATE = ["f2f3", "e7e5", "g2g4", "d8h4"]


def journal(*writes):
    return journals.sealed(writes)


def opened(board, start=518, key=None):
    return says(opens(board, start), key)


def played(board, move):
    return says(submits(board, move))


def over(board, how, **more):
    return says(ends(board, how, **more))


# What was written at once, and the boards that it leads to.
WRITES = [
    [FIRST],
    [opened("r1-1")],
    [played("r1-1", MATE[0]), opened("r1-2", 0, KEY)],
    [played("r1-1", MATE[1])],
    [over("r1-2", "resign", side="black"), played("r1-1", MATE[2])],
    [played("r1-1", MATE[3]), opened("r1-3", 959, KEY)],
]
BOARDS = [
    [],
    ["board r1-1: start 518, plies 0, goes on"],
    ["board r1-1: start 518, plies 1, goes on", "board r1-2: start 0, plies 0, goes on"],
    ["board r1-1: start 518, plies 2, goes on", "board r1-2: start 0, plies 0, goes on"],
    ["board r1-1: start 518, plies 3, goes on", "board r1-2: start 0, plies 0, black resigns"],
    ["board r1-1: start 518, plies 4, black mates", "board r1-2: start 0, plies 0, black resigns",
     "board r1-3: start 959, plies 0, goes on"],
]
WHOLE = journal(*WRITES)
ZEROS = bytes(5000)


def printed(*lines):
    return "".join(f"{it}\n" for it in lines).encode()


def sealed(*bodies):
    """A journal that says this behind its first line, all in one write."""
    return journal([FIRST], list(bodies))


# Files that are read, with what is printed of them.
GOOD = [
    (b"", ["whole"]),
    (ZEROS, ["whole"]),
    (journal([FIRST]) + ZEROS, ["whole"]),
    (journal([FIRST])[:20], ["torn at byte 0 (20 bytes)"]),
    (journal([FIRST])[:20] + ZEROS, ["torn at byte 0 (20 bytes)"]),
    *[(journal(*WRITES[:count + 1]) + behind, [*boards, "whole"]) for count, boards in enumerate(BOARDS) for behind in (b"", ZEROS)],
    # A hole in the last write, which a system may leave when the power fails.
    (journal(*WRITES[:2]) + bytes(80) + b"rest", [*BOARDS[1], f"torn at byte {len(journal(*WRITES[:2]))} (84 bytes)"]),
    *[(sealed(opened("b"), over("b", how, **more)), [f"board b: start 518, plies 0, {outcome}", "whole"])
      for how, more, outcome in (("agreed", {}, "agreed"), ("abandoned", {}, "abandoned"),
                                 ("time", {"side": "white"}, "white loses on time"),
                                 ("decided", {"result": "1/2-1/2"}, "drawn by decision"))],
]

# Files that are none, with why.
REFUSED_LINE = "is refused: --boards or --plies may be smaller than when it was written"
NO_ENTRY = "says nothing that a journal keeps"
BAD = [
    (b"x", "no journal of relay960"),
    (b"e2e4\n" * 10, "no journal of relay960"),
    (journal([b"relay960 journal 2"]), "no journal of relay960"),
    (journal([FIRST + b"0"]), "no journal of relay960"),
    (journal([opened("b")]), "no journal of relay960"),
    (sealed(b"nothing"), f"line 2 {NO_ENTRY}"),
    (sealed(opened("b"), says("{}")), f"line 3 {NO_ENTRY}"),
    (sealed(opened("b"), says(follows("b"))), f"line 3 {NO_ENTRY}"),
    (sealed(opened("b"), says(submits("b", "e2e4"), KEY)), f"line 3 {NO_ENTRY}"),
    (sealed(opened("b"), opened("b")), f"line 3 {REFUSED_LINE}"),
    (sealed(opened("b", 960)), f"line 2 {REFUSED_LINE}"),
    (sealed(opened("b"), played("b", "e2e5")), f"line 3 {REFUSED_LINE}"),
    (sealed(opened("b"), played("c", "e2e4")), f"line 3 {REFUSED_LINE}"),
    (sealed(opened("b"), over("b", "agreed"), played("b", "e2e4")), f"line 4 {REFUSED_LINE}"),
    (sealed(*(opened(f"b{number}") for number in range(257))), f"line 258 {REFUSED_LINE}"),
]


def compare(what, found, wanted):
    if found != wanted:
        sys.exit(f"{what}: {str(found)[:2000]}\nwanted: {str(wanted)[:2000]}")


def checked(path, **options):
    ended = subprocess.run([PROGRAM, "journal", path], capture_output=not options, timeout=PATIENCE, **options)
    return ended.stdout, ended.stderr, ended.returncode


class File:
    """A file with bytes that are said."""

    def __init__(self, folder):
        self.path = str(pathlib.Path(folder) / "journal")

    def checked(self, data):
        pathlib.Path(self.path).write_bytes(data)
        found = checked(self.path)
        compare("what was only read", pathlib.Path(self.path).read_bytes(), data)
        return found


def in_tables(file):
    for data, lines in GOOD:
        compare(data, file.checked(data), (printed(*lines), b"", 0))
    for data, why in BAD:
        compare(data, file.checked(data), (b"", f"fault 31 Read\n{file.path}: {why}\n".encode(), 3))
    return len(GOOD) + len(BAD)


def lines_before(at):
    """The whole lines before this byte of WHOLE, as the number of writes of which all lines are there, and how many bytes they have."""
    return WHOLE[:at].count(b"\n"), WHOLE[:at].rfind(b"\n") + 1


def boards_of(count):
    """The boards after so many lines."""
    bodies = [body for bodies in WRITES for body in bodies][1:count]
    return checked_boards(bodies)


def checked_boards(bodies):
    """By the table of the whole file, which is checked itself."""
    with tempfile.TemporaryDirectory() as folder:
        return File(folder).checked(sealed(*bodies) if bodies else journal([FIRST]))[0].splitlines()[:-1]


def cut_anywhere(file):
    """Cut at any byte, and with zeros behind, a journal has the boards of its whole lines, and says how many bytes are left over."""
    for at in range(len(journal([FIRST])), len(WHOLE)):
        count, size = lines_before(at)
        end = "whole" if size == at else f"torn at byte {size} ({at - size} bytes)"
        wanted = (b"\n".join([*boards_of(count), end.encode(), b""]), b"", 0)
        for behind in b"", ZEROS:
            compare(f"cut at {at}", file.checked(WHOLE[:at] + behind), wanted)
    return 2 * (len(WHOLE) - len(journal([FIRST])))


def changed_anywhere(file):
    """With any byte changed, a journal is damaged from its line on, if a later write shows that it had been synced. In the last write it is
    torn. So it is where the line feed before that has changed: then the write begins in the middle of a line."""
    last = len(journal(*WRITES[:-1])) - 1
    count = 0
    for at in range(len(WHOLE)):
        changed = WHOLE[:at] + bytes([WHOLE[at] ^ 1]) + WHOLE[at + 1:]
        lines, size = lines_before(at)
        out, err, status = file.checked(changed)
        end = out.splitlines()[-1].decode() if out else err.splitlines()[-1].decode()
        if at < last:
            compare(f"changed at {at}", (status, end.partition(";")[0]), (3, f"damaged at line {lines + 1}, byte {size}"))
        else:
            compare(f"changed at {at}", (status, end), (0, f"torn at byte {size} ({len(WHOLE) - size} bytes)"))
        count += 1
    return count


def where_a_later_write_begins(file):
    """It is named by its line and byte."""
    sizes = [len(journal(*WRITES[:count])) for count in range(len(WRITES))]
    changed = bytearray(WHOLE)
    changed[sizes[2] + 3] ^= 1
    wanted = printed(*BOARDS[1], f"damaged at line 3, byte {sizes[2]}; a later write begins at line 5, byte {sizes[3]}")
    compare("a change before a write", file.checked(bytes(changed)), (wanted, b"", 3))
    return 1


def no_files(folder):
    """What cannot be opened or read is named, with the system's reason."""
    missing = str(pathlib.Path(folder) / "none")
    compare("no file", checked(missing), (b"", device_fault("fault 41 Device", missing, errno.ENOENT), 3))
    compare("a folder", checked(folder), (b"", device_fault("fault 31 Read", folder, errno.EISDIR), 3))
    return 2


def a_full_output(file):
    pathlib.Path(file.path).write_bytes(WHOLE)
    with open("/dev/full", "wb") as full:
        found = checked(file.path, stdout=full, stderr=subprocess.PIPE)
    compare("on a device without room", found[1:], (write_fault(errno.ENOSPC), 3))
    return 1


def all_journals():
    os.umask(0o022)
    with tempfile.TemporaryDirectory() as folder:
        file = File(folder)
        return (in_tables(file) + cut_anywhere(file) + changed_anywhere(file) + where_a_later_write_begins(file) + no_files(folder)
                + a_full_output(file))
