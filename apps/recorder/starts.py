"""The 960 starts by their numbers (Scharnagl)."""

KNIGHTS = [(0, 1), (0, 2), (0, 3), (0, 4), (1, 2), (1, 3), (1, 4), (2, 3), (2, 4), (3, 4)]


def array(number):
    """Scharnagl's array of a number, as the letters of rank 1."""
    rank = [""] * 8

    def vacant():
        return [file for file in range(8) if not rank[file]]

    rank[1 + 2 * (number % 4)] = "B"
    rank[2 * (number // 4 % 4)] = "B"
    rank[vacant()[number // 16 % 6]] = "Q"
    free = vacant()
    for index in KNIGHTS[number // 96]:
        rank[free[index]] = "N"
    for file, piece in zip(vacant(), "RKR"):
        rank[file] = piece
    return "".join(rank)


def start_number(fen):
    """The number of the start whose FEN this is."""
    rank = fen.split(" ")[0].split("/")[7]
    return next(number for number in range(960) if array(number) == rank)
