"""Journals of `relay960 serve --journal`, read and written without the program: a digest over all lines before it seals each line."""

import collections
import hashlib
import json

NO_SEAL = b"0" * 16  # Stands for the seal of a line before the first.
FIRST_BODY = b"relay960 journal 1"
ROOM = 17  # Bytes of a line before its body: its seal, and its mark.

# A line that counts: where it begins, whether it is the first of a write, and what it says.
Line = collections.namedtuple("Line", "at is_first body")
# What stands behind the lines that count: whether it is damage or merely torn, where it begins, how many bytes it has, and, of damage,
# where a later write begins.
Rest = collections.namedtuple("Rest", "is_damage at size later")


def seal_of(before, marked):
    """The seal of a mark and a body behind a line with that seal."""
    return hashlib.sha256(before + marked).hexdigest()[:16].encode()


def sealed(writes):
    """The bytes of a journal: its writes, each of which is a list of bodies."""
    data, seal = bytearray(), NO_SEAL
    for bodies in writes:
        for at, body in enumerate(bodies):
            marked = (b" " if at else b">") + body
            seal = seal_of(seal, marked)
            data += seal + marked + b"\n"
    return bytes(data)


def lines_in(data):
    """The lines that count: up to the first that does not end, or is sealed otherwise."""
    lines, at, seal = [], 0, NO_SEAL
    while (end := data.find(b"\n", at)) >= 0:
        text = data[at:end]
        if text[16:17] not in (b">", b" ") or text[:16] != seal_of(seal, text[16:]):
            break
        lines.append(Line(at, text[16:17] == b">", text[ROOM:]))
        at, seal = end + 1, text[:16]
    return lines


def sound_size(lines):
    """How many bytes these lines have from the first on."""
    return lines[-1].at + ROOM + len(lines[-1].body) + 1 if lines else 0


def later_write(data, behind):
    """Where, behind a line feed from this place on, a line begins with the mark of the first line of a write, if one does."""
    at = behind
    while (end := data.find(b"\n", at)) >= 0:
        at = end + 1
        if data[at + 16:at + 17] == b">" and b"\n" not in data[at:at + 16]:
            return at
    return None


def without_zeros(data):
    """The bytes without the zeros at their end, which are put there ahead of what will be written."""
    return data.rstrip(b"\0")


def rest_of(data):
    """What stands behind the lines that count; nothing if that is nothing, or zeros."""
    at = sound_size(lines_in(data))
    size = len(without_zeros(data[at:]))
    if size == 0:
        return None
    later = later_write(data, at)
    return Rest(later is not None, at, size, later)


def key_kept(key):
    """What stands for a key."""
    return hashlib.sha256(key.encode()).hexdigest() if key else "-"


def body(command, key=None):
    return f"{key_kept(key)} {command}".encode()


class Board:
    """What a journal's lines say of a board. Ends that a move makes by itself are not in them."""

    def __init__(self, start, key):
        self.start, self.key, self.moves, self.end = start, key, [], None


def boards_in(lines):
    """The boards of a journal's lines, in the order of their openings."""
    boards = {}
    for line in lines[1:]:
        key, _, command = line.body.decode().partition(" ")
        said = json.loads(command)
        if said["cmd"] == "open":
            boards[said["board"]] = Board(said["start"], key)
        elif said["cmd"] == "submit":
            boards[said["board"]].moves.append(said["move"])
        else:
            boards[said["board"]].end = said
    return boards
