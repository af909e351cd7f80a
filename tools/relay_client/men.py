"""The men of a position, and how a move changes them: enough to see whether a board still has the game that was followed before."""


def men_of(fen):
    """The men of a FEN by square. A digit stands for that many vacant squares."""
    rows = ["".join("." * int(it) if it.isdigit() else it for it in row) for row in fen.split(" ")[0].split("/")]
    return {"abcdefgh"[file] + str(8 - down): man for down, row in enumerate(rows) for file, man in enumerate(row) if man != "."}


def play(men, move):
    """Plays a legal move. Castling is the king's move onto its own rook."""
    origin, goal, rank = move[:2], move[2:4], move[1]
    man, taken = men.pop(origin), men.pop(goal, "")
    if man + taken in ("KR", "kr"):
        men.update({"g" + rank: man, "f" + rank: taken} if goal > origin else {"c" + rank: man, "d" + rank: taken})
        return
    men[goal] = man if len(move) == 4 else move[4].upper() if man == "P" else move[4]
    if man in "Pp" and not taken and goal[0] != origin[0]:
        del men[goal[0] + rank]  # En passant.


def men_after(fen, moves):
    """The men after these moves from a position on."""
    men = men_of(fen)
    for move in moves:
        play(men, move)
    return men
