"""A word of a PGN as the legal move that it means, as the relay writes it: SAN with more or less than it needs, long and UCI forms."""

import re

from position import away, name_of, square_of
from rules import goals, is_safe, may_castle

PROMOTION = "(?:[=/]?([QRBNqrbn]))?"
SHEET = re.compile(r"([KQRBNP])?([a-h])?([1-8])?[-x:]?([a-h][1-8])" + PROMOTION)
PAWNS = re.compile(r"([a-h])[-x:]?([a-h])" + PROMOTION)
CASTLES = re.compile(r"[O0o]-[O0o](-[O0o])?")
MARKS = re.compile(r"(?:[!?+#=~∓±]|e\.?p\.?)+$")


class NoMove(Exception):
    """Why a word is no move of a position."""


def castling(position, king, is_short):
    """The castling to a wing; nothing if it is not legal."""
    own = (it for it in position.rights if (it < 8) == position.white and (it > king) == is_short)
    texts = [name_of(king) + name_of(it) for it in own if may_castle(position, king, it)]
    return [it for it in texts if is_safe(position, it)]


def reaches(position, origin, goal):
    """Whether a man goes to a square, castling aside."""
    return not position.is_own(position.squares[goal]) and goal in goals(position, origin)


def moves(position, origins, goal, promotion):
    """The legal moves from these squares to that one."""
    for origin in origins:
        promotes = position.squares[origin] in "Pp" and goal // 8 in (0, 7)
        text = name_of(origin) + name_of(goal) + promotion
        if promotes == bool(promotion) and reaches(position, origin, goal) and is_safe(position, text):
            yield text


def by_king(position, king, goal):
    """A castling that is written by the king's way: onto its own rook, or two squares or more to where it then stands."""
    home = king - king % 8
    if position.squares[goal] == ("R" if position.white else "r"):
        return [it for wing in (True, False) for it in castling(position, king, wing) if square_of(it[2:]) == goal]
    if abs(goal - king) < 2 or goal not in (home + 6, home + 2):
        return []
    return castling(position, king, goal == home + 6)


def by_sheet(position, kind, file, rank, goal, promotion):
    """A move whose goal is written in full."""
    goal, promotion = square_of(goal), (promotion or "").lower()
    is_whole = file is not None and rank is not None
    men = kind or ("" if is_whole else "P")
    origins = [it for it, man in enumerate(position.squares) if position.is_own(man) and men in ("", man.upper())
               and file in (None, name_of(it)[0]) and rank in (None, name_of(it)[1])]
    found = list(moves(position, origins, goal, promotion))
    king = position.king(position.white)
    return found if found or not is_whole or king not in origins or promotion else by_king(position, king, goal)


def by_pawn(position, file, goal_file, promotion):
    """A capture of a pawn of which only the files are written."""
    pawn, promotion = "P" if position.white else "p", (promotion or "").lower()
    origins = [it for it, man in enumerate(position.squares) if man == pawn and name_of(it)[0] == file]
    if abs(ord(file) - ord(goal_file)) != 1:
        return []
    ways = (away(it, ord(goal_file) - ord(file), 1 if position.white else -1) for it in origins)
    return [text for origin, goal in zip(origins, ways) if goal is not None for text in moves(position, [origin], goal, promotion)]


def read(position, word):
    """The legal move that a word means."""
    plain = MARKS.sub("", re.sub("[–—−]", "-", word))
    if found := CASTLES.fullmatch(plain):
        texts = castling(position, position.king(position.white), found[1] is None)
    elif found := SHEET.fullmatch(plain):
        texts = by_sheet(position, *found.groups())
    elif found := PAWNS.fullmatch(plain):
        texts = by_pawn(position, *found.groups())
    else:
        raise NoMove("is no move")
    if len(texts) > 1:
        raise NoMove(f"may be {' or '.join(sorted(texts))}")
    if not texts:
        raise NoMove("is not legal")
    return texts[0]
