"""Games over lines, from the standard array."""

from runs import Run, lines

# The shortest mate, and a move after it.
MATE = [
    ("f2f3", "rnbqkbnr/pppppppp/8/8/8/5P2/PPPPP1PP/RNBQKBNR b HAha - 0 1"),
    ("e7e5", "rnbqkbnr/pppp1ppp/8/4p3/8/5P2/PPPPP1PP/RNBQKBNR w HAha e6 0 2"),
    ("g2g4", "rnbqkbnr/pppp1ppp/8/4p3/6P1/5P2/PPPPP2P/RNBQKBNR b HAha g3 0 2"),
    ("d8h4", "rnb1kbnr/pppp1ppp/8/4p3/6Pq/5P2/PPPPP2P/RNBQKBNR w HAha - 1 3\nover black mates"),
    ("a2a3", "refused 5 GameOver"),
]

# The shortest game that ends in stalemate, by Sam Loyd.
STALEMATE = "e2e3 a7a5 d1h5 a8a6 h5a5 h7h5 h2h4 a6h6 a5c7 f7f6 c7d7 e8f7 d7b7 d8d3 b7b8 d3h7 b8c8 f7g6 c8e6".split()
STALEMATE_END = b"5bnr/4p1pq/4Qpkr/7p/7P/4P3/PPPP1PP1/RNB1KBNR b HA - 2 10\nover stalemate\n"

# Both knights out and home four times: the start has appeared five times.
FIVEFOLD = ["g1f3", "g8f6", "f3g1", "f6g8"] * 4
FIVEFOLD_END = b"rnbqkbnr/pppppppp/8/8/8/8/PPPPPPPP/RNBQKBNR w HAha - 16 9\nover fivefold\n"

# The king castles by the move to its own rook, and the move of two squares is no legal one.
CASTLING = "g1f3 g8f6 g2g3 g7g6 f1g2 f8g7 e1g1 e1h1".split()
CASTLING_END = b"refused 6 Illegal\nrnbqk2r/ppppppbp/5np1/8/8/5NP1/PPPPPPBP/RNBQ1RK1 b ha - 3 4\n"

AFTER_F3 = b"rnbqkbnr/pppppppp/8/8/8/5P2/PPPPP1PP/RNBQKBNR b HAha - 0 1\n"

FAULTY = [
    (b"", b""),
    (b"\n", b"fault 1 Length\n"),
    (b"e2\n", b"fault 1 Length\n"),
    (b"e9e4\n", b"fault 2 Square\n"),
    (b"e7e8k\n", b"fault 3 Promotion\n"),
    (b"e2e4\r\n", b"fault 3 Promotion\n"),
    (b"e2e4qq\n", b"fault 1 Length\n"),
    (b"e2e5\n", b"refused 6 Illegal\n"),
    (b"e7e5\n", b"refused 6 Illegal\n"),
    (b"e2\nf2f3", b"fault 1 Length\n" + AFTER_F3),
    (b"e9e4\nf2f4\n", b"fault 2 Square\nrnbqkbnr/pppppppp/8/8/5P2/8/PPPPP1PP/RNBQKBNR b HAha f3 0 1\n"),
]

PLAY = ("play", "518")

RUNS = [
    Run(PLAY, reads=lines(move for move, _ in MATE), prints=lines(answer for _, answer in MATE)),
    Run(PLAY, reads=lines(move for move, _ in MATE)[:-1], prints=lines(answer for _, answer in MATE)),
    Run(PLAY, reads=lines(STALEMATE), prints=STALEMATE_END, at_the_end=True),
    Run(PLAY, reads=lines(FIVEFOLD), prints=FIVEFOLD_END, at_the_end=True),
    Run(PLAY, reads=lines(CASTLING), prints=CASTLING_END, at_the_end=True),
    *[Run(PLAY, reads=given, prints=answers) for given, answers in FAULTY],
]
