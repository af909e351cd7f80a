"""A legal move as players write it (SAN): Nf3, exd5, O-O, e8=Q#."""

from position import Deed, name_of, square_of
from rules import legal, legal_from


def origin(position, deed):
    """What distinguishes a man from others of its kind that may go to the same square: its file, else its rank, else both."""
    alike = [it for it, man in enumerate(position.squares) if man == deed.man and it != deed.origin]
    others = [it for it in alike if any(square_of(text[2:]) == deed.goal for text in legal_from(position, it))]
    file, rank = name_of(deed.origin)
    if not others:
        return ""
    if all(it % 8 != deed.origin % 8 for it in others):
        return file
    return rank if all(it // 8 != deed.origin // 8 for it in others) else file + rank


def unmarked(position, deed):
    if deed.castles:
        return "O-O" if deed.short else "O-O-O"
    goal = name_of(deed.goal)
    if deed.kind == "p":
        taking = name_of(deed.origin)[0] + "x" if deed.takes else ""
        return taking + goal + (f"={deed.promotion.upper()}" if deed.promotion else "")
    return deed.kind.upper() + origin(position, deed) + ("x" if deed.takes else "") + goal


def mark(after):
    """+ for a check, # for a mate."""
    if not after.is_check():
        return ""
    return "#" if next(legal(after), None) is None else "+"


def san(position, text):
    return unmarked(position, Deed(position, text)) + mark(position.after(text))
