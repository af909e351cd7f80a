"""The legal moves of a position, as the relay writes them. The relay decides what is played; they are wanted to write a move as players
do."""

from position import DIAGONAL, LEAPS, STRAIGHT, away, name_of

# How a kind goes: its directions, and how many steps at most.
GOES = {"n": (LEAPS, 1), "b": (DIAGONAL, 7), "r": (STRAIGHT, 7), "q": (STRAIGHT + DIAGONAL, 7), "k": (STRAIGHT + DIAGONAL, 1)}


def along(position, square, way, most):
    """Where a man gets to in one direction: over vacant squares, and onto the first man of the other side."""
    for _ in range(most):
        square = away(square, *way)
        if square is None or position.is_own(position.squares[square]):
            return
        yield square
        if position.squares[square]:
            return


def pawn_goals(position, square):
    """One step ahead, or two from where the pawns began, over vacant squares; and what it takes, a pawn in passing too."""
    up = 1 if position.white else -1
    steps = (1, 2) if square // 8 == (1 if position.white else 6) else (1,)
    for step in steps:
        goal = away(square, 0, step * up)
        if position.squares[goal]:
            break
        yield goal
    for right in (-1, 1):
        goal = away(square, right, up)
        if goal is not None and (goal == position.target or position.squares[goal] and not position.is_own(position.squares[goal])):
            yield goal


def row(one, another):
    """The squares of a rank from one to another, both among them."""
    return range(min(one, another), max(one, another) + 1)


def may_castle(position, king, rook):
    """Whether king and rook find their ways vacant but for themselves, and the king's way is not attacked."""
    home = king - king % 8
    king_goal, rook_goal = (home + 6, home + 5) if rook > king else (home + 2, home + 3)
    ways = {*row(king, king_goal), *row(rook, rook_goal)} - {king, rook}
    if any(position.squares[it] for it in ways):
        return False
    return not any(position.is_attacked(it, not position.white) for it in row(king, king_goal))


def goals(position, square):
    """Where a man gets to, whether or not its own king would then be attacked."""
    kind = position.squares[square].lower()
    if kind == "p":
        yield from pawn_goals(position, square)
        return
    ways, most = GOES[kind]
    for way in ways:
        yield from along(position, square, way, most)
    if kind == "k":
        own = (it for it in position.rights if (it < 8) == position.white)
        yield from (it for it in own if may_castle(position, square, it))


def is_safe(position, text):
    """Whether a move leaves its own king unattacked."""
    after = position.after(text)
    return not after.is_attacked(after.king(position.white), after.white)


def legal_from(position, square):
    """The legal moves of the man on a square."""
    man = position.squares[square]
    if not position.is_own(man):
        return
    for goal in goals(position, square):
        promotions = "qrbn" if man in "Pp" and goal // 8 in (0, 7) else ("",)
        texts = [name_of(square) + name_of(goal) + it for it in promotions]
        if is_safe(position, texts[0]):
            yield from texts


def legal(position):
    """All legal moves."""
    return (text for square in range(64) for text in legal_from(position, square))
