"""A position of Chess960: read from the relay's Shredder-FEN, written again, and what a legal move makes of it.

A square is its number, file + 8 * rank, both from 0. A man is its letter, capital for White; "" is no man.
"""

FILES = "abcdefgh"
STRAIGHT = ((1, 0), (-1, 0), (0, 1), (0, -1))
DIAGONAL = ((1, 1), (1, -1), (-1, 1), (-1, -1))
LEAPS = ((1, 2), (2, 1), (2, -1), (1, -2), (-1, -2), (-2, -1), (-2, 1), (-1, 2))


def name_of(square):
    return FILES[square % 8] + str(square // 8 + 1)


def square_of(name):
    return FILES.index(name[0]) + 8 * (int(name[1]) - 1)


def away(square, right, up):
    """The square this many files and ranks away, or None if the board ends before it."""
    file, rank = square % 8 + right, square // 8 + up
    return file + 8 * rank if 0 <= file < 8 and 0 <= rank < 8 else None


def read_squares(placement):
    rows = ["".join(" " * int(it) if it.isdigit() else it for it in row) for row in placement.split("/")]
    return [man.strip() for row in reversed(rows) for man in row]


def read_rights(text):
    """The squares of the rooks onto which a king may still castle."""
    return frozenset(FILES.index(it.lower()) + (0 if it.isupper() else 56) for it in text if it != "-")


class Deed:
    """What a legal move does. Castling is written as the king's square and its own rook's."""

    def __init__(self, position, text):
        squares = position.squares
        self.origin, self.goal, self.promotion = square_of(text), square_of(text[2:]), text[4:]
        self.man = squares[self.origin]
        self.kind = self.man.lower()
        home = self.origin - self.origin % 8
        self.castles = self.man + squares[self.goal] in ("KR", "kr")
        self.short = self.castles and self.goal > self.origin
        self.king, self.rook = (home + 6, home + 5) if self.short else (home + 2, home + 3)
        self.passing = self.kind == "p" and self.origin % 8 != self.goal % 8 and not squares[self.goal]
        self.taken_on = home + self.goal % 8 if self.passing else self.goal
        self.takes = not self.castles and squares[self.taken_on] != ""


class Position:
    def __init__(self, squares, white, rights, target, half_moves, number):
        self.squares = squares
        self.white = white
        self.rights = rights
        self.target = target
        self.half_moves = half_moves
        self.number = number

    @classmethod
    def read(cls, fen):
        placement, turn, rights, target, half_moves, number = fen.split(" ")
        return cls(read_squares(placement), turn == "w", read_rights(rights), None if target == "-" else square_of(target),
                   int(half_moves), int(number))

    def placement(self):
        rows = []
        for rank in range(7, -1, -1):
            row = "".join(it or "1" for it in self.squares[8 * rank:8 * rank + 8])
            for run in range(8, 1, -1):
                row = row.replace("1" * run, str(run))
            rows.append(row)
        return "/".join(rows)

    def is_outermost(self, rook):
        """Whether no other rook of its side is on the rank between it and the edge to which the king castles."""
        row = range(rook - rook % 8, rook - rook % 8 + 8)
        king = self.king(rook < 8)
        beyond = [it for it in row if (it > rook if rook > king else it < rook)]
        return all(self.squares[it] != self.squares[rook] for it in beyond)

    def right(self, rook, shredder):
        """The letter of a right to castle: the rook's file, or for other programs K or Q if its rook is the outermost."""
        wing = "K" if rook > self.king(rook < 8) else "Q"
        letter = FILES[rook % 8].upper() if shredder or not self.is_outermost(rook) else wing
        return letter if rook < 8 else letter.lower()

    def write(self, shredder=True):
        """Its FEN. Without `shredder` rights are written as most programs read them: KQkq, and a file only where that is ambiguous."""
        rooks = sorted(self.rights, key=lambda it: (it >= 8, -it))
        rights = "".join(self.right(it, shredder) for it in rooks) or "-"
        target = "-" if self.target is None else name_of(self.target)
        return f"{self.placement()} {'w' if self.white else 'b'} {rights} {target} {self.half_moves} {self.number}"

    def king(self, white):
        return self.squares.index("K" if white else "k")

    def is_own(self, man):
        """Whether it is a man of the side to move."""
        return man != "" and man.isupper() == self.white

    def after(self, text):
        """The position after a legal move."""
        deed = Deed(self, text)
        squares = list(self.squares)
        squares[deed.origin] = squares[deed.taken_on] = ""
        if deed.castles:
            squares[deed.king], squares[deed.rook] = deed.man, self.squares[deed.goal]
        else:
            squares[deed.goal] = deed.man if not deed.promotion else deed.promotion.upper() if self.white else deed.promotion
        own = range(8) if self.white else range(56, 64)
        gone = {deed.origin, deed.goal} | (set(own) if deed.kind == "k" else set())
        is_double = deed.kind == "p" and abs(deed.goal - deed.origin) == 16
        return Position(squares, not self.white, self.rights - gone, (deed.origin + deed.goal) // 2 if is_double else None,
                        0 if deed.kind == "p" or deed.takes else self.half_moves + 1, self.number + (not self.white))

    def first_seen(self, square, way, most):
        """The first man that is seen from a square in one direction, at most this many steps away."""
        for _ in range(most):
            square = away(square, *way)
            if square is None:
                return ""
            if self.squares[square]:
                return self.squares[square]
        return ""

    def is_attacked(self, square, by_white):
        """Whether a side attacks a square."""
        below = -1 if by_white else 1
        looks = ((STRAIGHT, 7, "rq"), (DIAGONAL, 7, "bq"), (LEAPS, 1, "n"), (STRAIGHT + DIAGONAL, 1, "k"),
                 (((1, below), (-1, below)), 1, "p"))
        for ways, most, kinds in looks:
            attackers = kinds.upper() if by_white else kinds
            if any(seen and seen in attackers for seen in (self.first_seen(square, way, most) for way in ways)):
                return True
        return False

    def is_check(self):
        """Whether the side to move is in check."""
        return self.is_attacked(self.king(self.white), not self.white)
