"""The start of a game from its FEN, as Shredder-FEN or as X-FEN: its number among the 960."""

from position import FILES
from starts import array

STANDARD = 518


class NoStart(Exception):
    """Why a FEN is none of the 960 starts."""


def rooks(rank):
    """The files of the rooks, the right one first."""
    return [file for file in range(7, -1, -1) if rank[file] == "R"]


def fen_of(number):
    """The relay's FEN of a start."""
    rank = array(number)
    rights = "".join(FILES[file] for file in rooks(rank))
    return f"{rank.lower()}/pppppppp/8/8/8/8/PPPPPPPP/{rank} w {rights.upper()}{rights} - 0 1"


NUMBERS = {array(number): number for number in range(960)}


def number_of(fen):
    """The number of the start that a FEN gives. Counters may be missing."""
    fields = fen.split()
    if not 3 <= len(fields) <= 6:
        raise NoStart(f"its FEN is none: {fen}")
    rows = fields[0].split("/")
    number = NUMBERS.get(rows[-1])
    if number is None or rows != [rows[-1].lower(), "pppppppp", "8", "8", "8", "8", "PPPPPPPP", rows[-1]] or fields[1] != "w":
        raise NoStart(f"its FEN is none of the 960 starts: {fen}")
    files = "".join(FILES[file] for file in rooks(rows[-1]))
    rights = fields[2]
    white, black = "".join(filter(str.isupper, rights)), "".join(filter(str.islower, rights))
    if len(rights) != 4 or not all(sorted(side) in (sorted(files), ["k", "q"], ) for side in (white.lower(), black)):
        raise NoStart(f"its FEN does not give both sides both castlings: {fen}")
    if fields[3:4] not in ([], ["-"]) or fields[4:] not in ([], ["0"], ["0", "1"]):
        raise NoStart(f"its FEN is behind the start: {fen}")
    return number
