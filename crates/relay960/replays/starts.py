"""Starting positions, and the moves and states of positions."""

from runs import Run

STANDARD = b"rnbqkbnr/pppppppp/8/8/8/8/PPPPPPPP/RNBQKBNR w HAha - 0 1\n"
BAD_START = b"refused 3 BadStart\n"

# Each start with its line, and its line after the king's pawn went two squares.
STARTS = [
    ("0", b"bbqnnrkr/pppppppp/8/8/8/8/PPPPPPPP/BBQNNRKR w HFhf - 0 1\n",
     b"bbqnnrkr/pppppppp/8/8/4P3/8/PPPP1PPP/BBQNNRKR b HFhf e3 0 1\n"),
    ("518", STANDARD, b"rnbqkbnr/pppppppp/8/8/4P3/8/PPPP1PPP/RNBQKBNR b HAha e3 0 1\n"),
    ("959", b"rkrnnqbb/pppppppp/8/8/8/8/PPPPPPPP/RKRNNQBB w CAca - 0 1\n",
     b"rkrnnqbb/pppppppp/8/8/4P3/8/PPPP1PPP/RKRNNQBB b CAca e3 0 1\n"),
]

# A number may have a sign and leading zeros.
SPELLED = [("+5", b"qnbbnrkr/pppppppp/8/8/8/8/PPPPPPPP/QNBBNRKR w HFhf - 0 1\n"),
           ("007", b"qnbnrkrb/pppppppp/8/8/8/8/PPPPPPPP/QNBNRKRB w GEge - 0 1\n")]

PROMOTION = "8/P6k/8/8/8/8/8/K7 w - - 0 1"
PROMOTION_LINES = b"a1b1 a1a2 a1b2 a7a8n a7a8b a7a8r a7a8q\ngoing\n"
UNLAWFUL = "4k3/4R3/8/8/8/8/8/4K3 w - - 0 1"

LAWFUL = [
    (PROMOTION, PROMOTION_LINES),
    ("8/P6k/8/8/8/8/8/K7 w - - 65535 65535", PROMOTION_LINES),
    ("4k3/8/8/8/8/8/8/qRK5 w B - 0 1", b"b1a1 c1d1 c1c2 c1d2\ngoing\n"),
    ("4kr2/8/8/8/8/8/8/4K2R w H - 0 1", b"e1d1 e1d2 e1e2 h1f1 h1g1 h1h2 h1h3 h1h4 h1h5 h1h6 h1h7 h1h8\ngoing\n"),
    ("8/8/8/K2pP2r/8/8/8/4k3 w - d6 0 1", b"a5a4 a5b4 a5b5 a5a6 a5b6 e5e6\ngoing\n"),
    ("7k/5Q2/6K1/8/8/8/8/8 b - - 0 1", b"\nstalemate\n"),
    ("rnb1kbnr/pppp1ppp/8/4p3/6Pq/5P2/PPPPP2P/RNBQKBNR w HAha - 1 3", b"\ncheckmate\n"),
]

REFUSED = [
    (UNLAWFUL, b"unlawful\n"),
    ("rnbqkbnr/pppppppp/8/8/8/8/PPPPPPPP/RNBQKBNR w KQkq - 0 1", b"fault 4 Castling\n"),
    ("", b"fault 1 Fields\n"),
    ("-", b"fault 1 Fields\n"),
    ("8/8/8/8", b"fault 1 Fields\n"),
    ("8/8/8/8/8/8/8/8 w - - 0 1", b"fault 2 Placement\n"),
    ("8/P6k/8/8/8/8/8/K7 W - - 0 1", b"fault 3 Turn\n"),
    ("8/P6k/8/8/8/8/8/K7 w - a3 0 1", b"fault 5 EnPassant\n"),
    ("8/P6k/8/8/8/8/8/K7 w - - 0 0", b"fault 6 Counters\n"),
]

RUNS = [
    *[Run(("start", number), prints=start) for number, start, _ in STARTS],
    *[Run(("start", number), prints=start) for number, start in SPELLED],
    *[Run(("play", number), reads=b"e2e4\n", prints=after) for number, _, after in STARTS],
    *[Run((job, number), prints=BAD_START, status=1) for job in ("start", "play") for number in ("960", "961", "65535")],
    *[Run(("moves", text), prints=printed) for text, printed in LAWFUL],
    *[Run(("moves", text), prints=printed, status=1) for text, printed in REFUSED],
]
