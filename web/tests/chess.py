"""The tests of what the pages know of chess, without a browser; test.sh starts them. rules.js is compared with Stockfish, san.js with
PyChess, outcomes.js with the program's definitions."""
import collections
import json
import pathlib
import random
import re
import shutil
import subprocess
import sys
import time

from pychess.Utils.const import CASTLE_KR, FISCHERRANDOMCHESS
from pychess.Utils.lutils import lmove
from pychess.Utils.lutils.LBoard import LBoard
from pychess.Utils.lutils.lmovegen import genAllMoves

from relay_client import successors
from relay_client.program import PROGRAM, Player, start_fen
from relay_client.readers import Stockfish, games_in, is_same, read_by_pychess
from scripts import WEB, Scripts

sys.path.append(str(WEB.parent / "apps" / "hall"))
from hall import Wrong, read_board  # noqa: E402

SEED = 960
HELPERS = """
const perft = (position, depth) => {
  const moves = Rules.legal(position);
  return depth === 1 ? moves.length : moves.reduce((sum, it) => sum + perft(Position.after(position, it), depth - 1), 0);
};
const counts = (fen, depth) => {
  const position = Position.read(fen);
  const count = (it) => (depth === 1 ? 1 : perft(Position.after(position, it), depth - 1));
  return Object.fromEntries(Rules.legal(position).map((it) => [it, count(it)]));
};
const written = (fen) => {
  const position = Position.read(fen);
  return Rules.legal(position).map((it) => [it, San.write(position, it)]);
};
const read = (fen, texts) => texts.map((it) => San.read(Position.read(fen), it));
const draws = (texts) => {
  const record = createRecord();
  texts.forEach((it) => record.take(it));
  return Draws.of(record);
};
const rare = (fen) => {
  const position = Position.read(fen);
  return Rules.legal(position).filter((it) => it.length === 5 || Position.effect(position, it).castling !== null);
};
const checked = (fen) => Position.inCheck(Position.read(fen));
const behind = (fen, start) => {
  const position = Position.read(fen);
  const told = (move) => Position.read(Position.write(Position.after(position, move)));
  const before = (move) => Last.before(told(move), start, move);
  return Rules.legal(position).map((it) => [it, before(it) && San.write(before(it), it)]);
};
const next = (fen, move) => Position.write(Position.after(Position.read(fen), move));
"""


def chess():
    """The pages' scripts of chess, in node."""
    scripts = Scripts("position", "rules", "san", "last", "texts", "words", "names", "outcomes", "successors", "record", "draws", "players",
                      "pgn", "lines")
    scripts.run('globalThis.location = { search: "", protocol: "file:", hostname: "" }')
    scripts.run((WEB / "address.js").read_text(encoding="utf-8"))
    scripts.run(HELPERS)
    return scripts


# Stockfish.

# Castling, pins, captures en passant and promotions of many kinds; then castling where it is hard to tell whether it is legal: the rook
# shields the king and leaves, king and rook change places, the king stays, the rook passes an attacked square.
POSITIONS = [
    ("r3k2r/p1ppqpb1/bn2pnp1/3PN3/1p2P3/2N2Q1p/PPPBBPPP/R3K2R w HAha - 0 1", 3),
    ("8/2p5/3p4/KP5r/1R3p1k/8/4P1P1/8 w - - 0 1", 4),
    ("r3k2r/Pppp1ppp/1b3nbN/nP6/BBP1P3/q4N2/Pp1P2PP/R2Q1RK1 w ha - 0 1", 3),
    ("rnbq1k1r/pp1Pbppp/2p5/8/2B5/8/PPP1NnPP/RNBQK2R w H - 1 8", 3),
    ("n1n5/PPPk4/8/8/8/8/4Kppp/5N1N b - - 0 1", 3),
    ("4k3/8/8/8/8/8/8/rRK5 w B - 0 1", 3),
    ("4k3/8/8/8/8/8/8/1RK5 w B - 0 1", 3),
    ("1r2k3/8/8/8/8/8/8/R1K5 w A - 0 1", 3),
    ("4k3/8/8/8/8/8/8/RK5R w HA - 0 1", 3),
    ("kr6/8/8/8/8/8/8/5KR1 w Gb - 0 1", 3),
    ("4k3/8/8/KPp4r/8/8/8/8 w - c6 0 2", 3),
]


def castling_position(chance):
    """A white king between its rooks, with both rights, and some other men by chance."""
    files = sorted(chance.sample(range(8), 3))
    squares = dict(zip(files, "RKR"))
    vacant = [it for it in range(64) if it not in squares]
    chance.shuffle(vacant)
    squares[next(it for it in vacant if it >= 56)] = "k"
    for man in chance.choices("rqbnrqbnRQBNp", k=chance.randrange(2, 7)):
        squares[vacant.pop(next(index for index, it in enumerate(vacant) if it not in squares and (man != "p" or 8 <= it < 56)))] = man
    ranks = ["".join(squares.get(8 * rank + file, "1") for file in range(8)) for rank in range(7, -1, -1)]
    return f"{'/'.join(ranks)} w {'ABCDEFGH'[files[2]]}{'ABCDEFGH'[files[0]]} - 0 1"


def try_counts():
    """As many lines of play as Stockfish counts: from starts, from positions with all special moves, and with castlings by chance."""
    chance = random.Random(SEED)
    lines = castled = 0
    starts = [(start_fen(it), 3) for it in [518, 0, 959, *chance.sample(range(960), 17)]]
    by_chance = [(castling_position(chance), 1) for _ in range(600)]
    with chess() as pages, Stockfish() as stockfish:
        checks = "(fen) => { const it = Position.read(fen); it.turn = Position.BLACK; return Position.inCheck(it); }"
        by_chance = [it for it in by_chance if not pages.call(checks, it[0])]
        for fen, depth in [*starts, *POSITIONS, *by_chance]:
            had, expected = pages.call("counts", fen, depth), stockfish.counts(fen, depth)
            assert had == expected, (fen, depth, set(had.items()) ^ set(expected.items()))
            lines += sum(had.values())
            castled += depth == 1 and any(fen.split("/")[7].split(" ")[0][ord(it[2]) - 97] == "R" and it[3] == "1" for it in had
                                          if it[1] == "1")
    print(f"    {lines} lines of play; {len(by_chance)} positions by chance, castling legal in {castled}")
    assert lines > 300_000 and len(by_chance) > 200 and 50 < castled < len(by_chance) - 50


# PyChess.

def board_of(fen):
    board = LBoard(FISCHERRANDOMCHESS)
    board.applyFen(fen)
    return board


def peers(board):
    """The legal moves of PyChess by the relay's texts."""
    found = {}
    for move in genAllMoves(board):
        board.applyMove(move)
        if not board.opIsChecked():
            board.popMove()
            found[lmove.toAN(board, move, short=True, castleNotation=CASTLE_KR)] = move
        else:
            board.popMove()
    return found


def check_position(pages, fen):
    """Compares the SAN of all legal moves of a position, written and read. Answers them."""
    board = board_of(fen)
    moves = peers(board)
    had = dict(pages.call("written", fen))
    expected = {text: lmove.toSAN(board, move) for text, move in moves.items()}
    assert had == expected, (fen, set(had.items()) ^ set(expected.items()))
    again = pages.call("read", fen, list(expected.values()))
    assert again == [[it] for it in expected], (fen, [it for it in zip(expected.items(), again) if it[1] != [it[0][0]]])
    for text, move in moves.items():
        assert lmove.parseSAN(board, had[text]) == move, (fen, text, had[text])
    return had


def try_san():
    """The SAN of all legal moves in 200 games by chance is what PyChess writes, and each reads what the other wrote."""
    chance = random.Random(SEED)
    seen = []
    with chess() as pages:
        for _ in range(200):
            fen = start_fen(chance.randrange(960))
            for ply in range(100):
                moves = pages.run(f"Rules.legal(Position.read({json.dumps(fen)}))") if ply % 4 else check_position(pages, fen)
                if not moves:
                    break
                seen += moves.values() if isinstance(moves, dict) else []
                fen = pages.call("next", fen, chance.choice(list(moves)))
    kinds = {"castlings": "O-O", "promotions": "=", "checks": "+", "mates": "#", "captures": "x"}
    found = {name: sum(sign in it for it in seen) for name, sign in kinds.items()}
    found["told apart"] = sum(it[0] in "NRQB" and len(it.strip("+#").replace("x", "")) > 3 for it in seen)
    print(f"    {len(seen)} moves, of them {', '.join(f'{count} {name}' for name, count in found.items())}")
    assert len(seen) > 50000 and min(found.values()) > 10


def try_last():
    """From the position behind a move alone, its SAN is what PyChess writes before it. Only a king that castles while its rook stays, and
    the rook's move that ends in the same position, are left open."""
    chance = random.Random(SEED + 3)
    seen, left = [], []
    with chess() as pages:
        for _ in range(60):
            start = chance.randrange(960)
            fen = start_fen(start)
            for ply in range(60):
                moves = pages.run(f"Rules.legal(Position.read({json.dumps(fen)}))")
                if not moves:
                    break
                rare = pages.call("rare", fen)
                if ply % 8 == 7 or any(len(it) == 4 for it in rare):
                    board = board_of(fen)
                    expected = {text: lmove.toSAN(board, move) for text, move in peers(board).items()}
                    had = dict(pages.call("behind", fen, start))
                    left += [expected[it] for it in had if had[it] is None]
                    assert {it: had[it] or expected[it] for it in had} == expected, (fen, start, set(had.items()) ^ set(expected.items()))
                    seen += [it for it in had.values() if it]
                fen = pages.call("next", fen, chance.choice(rare or moves))
    castlings = sum(it.startswith("O-O") for it in seen)
    print(f"    {len(seen)} moves, {castlings} castlings; left open: {collections.Counter(it.rstrip('+#') for it in left)}")
    assert all(it[0] in "OR" for it in left) and castlings > 30 and sum("x" in it for it in seen) > 300 and len(left) < len(seen) / 500


# The program's definitions.

CRATES = pathlib.Path(__file__).resolve().parents[2] / "crates"
OUTCOME = CRATES / "c960_game/specs/Outcome.antt"
WINS = {"White": "1-0", "Black": "0-1", "WhiteWins": "1-0", "BlackWins": "0-1", "Draw": "1/2-1/2"}
LOSES = {"White": "0-1", "Black": "1-0"}
# What the definition says of an outcome, by its side or its result.
MEANS = {"Some (won_by c)": WINS.get, "Some (won_by (other c))": LOSES.get, "Some r": WINS.get, "Some Draw": lambda _: "1/2-1/2",
         "None": lambda _: "*"}


def defined():
    """The outcomes of the definitions: the kind and the text of each, and its result in the words of PGN."""
    text = OUTCOME.read_text()
    results = dict(re.findall(r"^outcome_result \(?(\w+)(?: \w\))? = (.*)$", text, re.M))
    for kind, of, words in re.findall(r'^outcome_text \(?(\w+)(?: (\w+)\))? = codes "(.*)"$', text, re.M):
        yield kind, words, MEANS[results[kind]](of)


BY_THEMSELVES = {"Checkmate", "Stalemate", "Fivefold", "SeventyFive"}
ENTERED = {"Resigned", "Agreed", "LostOnTime", "Decided"}  # Without a claim, which is of a position.


def try_outcomes():
    """Each outcome of the definitions has its result on the pages, and a sentence of its own; those that somebody names are told apart. One
    that is not known is shown as its text, and its result is open."""
    outcomes = list(defined())
    assert len(outcomes) == 16, outcomes
    with chess() as pages:
        told = {text: pages.call("Outcomes.of", text) for _, text, _ in outcomes}
        assert {text: it["result"] for text, it in told.items()} == {text: result for _, text, result in outcomes}, told
        assert len({it["said"] for it in told.values()}) == 16 and not {it["said"] for it in told.values()} & set(told), told
        named = [text for text in told if pages.call("Outcomes.isNamed", text)]
        assert named == [text for kind, text, _ in outcomes if kind not in BY_THEMSELVES], named
        entered = {it["text"] for it in pages.call("Outcomes.entered")}
        assert entered == {text for kind, text, _ in outcomes if kind in ENTERED}, entered
        for text in ("adjourned", "constructor", ""):
            had = [pages.call(f"Outcomes.{it}", text) for it in ("result", "score", "short", "said", "isNamed")]
            assert had == ["*", "", text, text, False], had


REFUSALS = [OUTCOME.with_name("Refusal.antt"), CRATES / "relay_messages/specs/Faults.antt"]
OF_SCRIPTS = {"NoSuchFollower", "FollowerExists"}  # No page gets them.
NO_MEMORY = "The relay is out of memory."
NO_ROOM = "The relay has no room: its memory or its journal's disk is full. Games go on. Try again once there is room."
# What is said of 12 where each command is refused. Behind the last two the page says when it asks again.
NO_MEMORY_FOR = {"open": NO_ROOM, "submit": f"{NO_MEMORY} Try again.", "end": f"{NO_MEMORY} Try again.", "follow": NO_MEMORY,
                 "boards": NO_MEMORY}


def try_refusals():
    """Each refusal of the definitions that a page may get has words; those of want of memory, and of a disk, suit the command."""
    defined = [it for file in REFUSALS for it in re.findall(r'^\w+_name (\w+) = codes "\1"$', file.read_text(), re.M)]
    assert len(set(defined)) == 20, defined
    with chess() as pages:
        unknown = pages.call("Words.refusal", {"name": "Unknown"})
        without = {it for it in defined if pages.call("Words.refusal", {"name": it}) == unknown}
        assert without == OF_SCRIPTS, without
        for cmd, wanted in NO_MEMORY_FOR.items():
            had = [pages.call(f"Words.{it}", {"name": "OutOfMemory", "code": 12}, cmd) for it in ("refusal", "coded")]
            assert had == [wanted, f"{wanted} (12 OutOfMemory)"], (cmd, had)


# The games of a relay, as their boards, moves and outcomes, and the boards that are shown of them.
LIVE = None
SHOWN = [
    ([("r1", 30, "agreed"), ("r1_2", 30, "white resigns")], ["r1_2"]),
    ([("r1", 30, "agreed"), ("r1_2", 0, LIVE)], ["r1"]),
    ([("r1", 30, "agreed"), ("r1_2", 29, LIVE)], ["r1"]),
    ([("r1", 30, "agreed"), ("r1_2", 30, LIVE)], ["r1_2"]),
    ([("r1", 30, "black mates"), ("r1_2", 31, LIVE)], ["r1_2"]),
    ([("r1", 30, "abandoned"), ("r1_2", 0, LIVE)], ["r1"]),
    ([("r1", 30, "abandoned"), ("r1_2", 0, "white resigns")], ["r1"]),
    ([("r1", 30, "abandoned"), ("r1_2", 1, LIVE)], ["r1_2"]),
    ([("r1", 30, "abandoned"), ("r1_2", 1, "abandoned"), ("r1_3", 0, LIVE)], ["r1_2"]),
    ([("r1", 30, "agreed"), ("r1_2", 29, "white resigns")], ["r1_2"]),
    ([("r1", 30, "agreed"), ("r1_2", 29, "abandoned")], ["r1"]),
    ([("r1", 0, "abandoned"), ("r1_2", 0, LIVE)], ["r1_2"]),
    ([("r1", 30, LIVE), ("r1_2", 40, LIVE)], ["r1", "r1_2"]),
    ([("r1", 30, "agreed"), ("r1_2", 0, LIVE), ("r1_3", 30, "white resigns")], ["r1_3"]),
    ([("r1", 30, "agreed"), ("r1_2", 30, LIVE), ("r1_3", 30, "white resigns")], ["r1_2", "r1_3"]),
    ([("r1", 30, "agreed"), ("r1_2", 30, "abandoned"), ("r1_3", 10, LIVE)], ["r1_3"]),
    ([("r1", 30, "agreed"), ("r1_2", 10, "abandoned"), ("r1_3", 20, LIVE)], ["r1"]),
    ([("r1", 30, "agreed"), ("r1_2", 10, "white resigns"), ("r1_3", 12, LIVE)], ["r1_3"]),
    ([("r1", 30, "agreed"), ("r1_3", 30, "white resigns")], ["r1_3"]),
    ([("r1", 1, "agreed"), ("r1_2", 0, "white wins by decision")], ["r1"]),
    ([("r1_2", 30, "agreed"), ("r1_10", 30, "stalemate"), ("r1_9", 30, "white resigns")], ["r1_10"]),
    ([("r1", 30, "agreed"), ("r1_g2", 40, "white resigns"), ("r1_g2_2", 40, "agreed"), ("r2", 1, LIVE)], ["r1", "r1_g2_2", "r2"]),
    ([("r2", 2, LIVE), ("r1", 3, "agreed"), ("r10_2", 4, LIVE), ("r1_2", 5, LIVE)], ["r2", "r1_2", "r10_2"]),
    # A channel tells its boards in any order.
    ([("r1_2", 30, LIVE), ("r2", 2, LIVE), ("r1", 30, "agreed")], ["r2", "r1_2"]),
    ([("r1_2", 3, LIVE), ("r1", 30, "agreed")], ["r1"]),
    # Two games had the name: the first was lost with its relay.
    ([("r1", 30, "abandoned"), ("r1", 30, "agreed"), ("r1_2", 30, LIVE)], ["r1_2"]),
]
# What a relay may have of boards by chance.
BOARDS = ("r1", "r1_2", "r1_3", "r1_4", "r2", "r2_2", "r2_g2", "r2_g2_2")
STANDS = (LIVE, LIVE, "abandoned", "agreed", "white wins by decision")
# The names of a board's other games: of a game, that behind it.
ANOTHER = [("r1-1", "r1-1_g2"), ("r1-1_2", "r1-1_g2"), ("r1-1_g2", "r1-1_g3"), ("r1-1_g2_3", "r1-1_g3"), ("b_g9", "b_g10"),
           (32 * "n", 29 * "n" + "_g2"), (29 * "n" + "_g9", 28 * "n" + "_g10")]


def try_successors():
    """Of a board's games the last successor is shown that takes the place of the one before it; another game of the board succeeds none.
    The Python programs show the same of games by chance."""
    shown = "(games) => Successors.shown(games.map(([board, plies, outcome]) => ({ board, plies, outcome }))).map((it) => it.board)"
    with chess() as pages:
        for games, boards in SHOWN:
            had = pages.call(shown, games)
            assert had == boards, (games, had)
        chance = random.Random(SEED + 2)
        for _ in range(2000):
            games = [(board, chance.randrange(4), chance.choice(STANDS)) for board in chance.sample(BOARDS, chance.randrange(1, 8))]
            boards = [it.board for it in successors.shown({board: successors.Standing(board, *it) for board, *it in games})]
            had = pages.call(shown, games)
            assert had == boards, (games, had, boards)
        for name, other in ANOTHER:
            had = pages.call("Names.another", name)
            assert had == other and not pages.call("Names.isSuccessor", other, name), (name, had)
            assert pages.call("Names.first", other) == other and pages.call("Names.next", other) == f"{other[:30]}_2", other
        for name, board, is_of in (("b", "b", True), ("b_2", "b", True), ("b_g2", "b", True), ("b_g3_2", "b", True), ("b2", "b", False),
                                   ("b_g2", "b_g3", False), ("b_g2_2", "b_g2", True), ("c_g2", "b", False)):
            assert pages.call("Names.isOf", name, board) == is_of, (name, board)


# The built program.

def try_program():
    """The legal moves and the positions of games by chance are those of the built program."""
    chance = random.Random(SEED + 1)
    with chess() as pages:
        for _ in range(10):
            with Player(chance.randrange(960)) as player:
                for _ in range(60):
                    moves = player.legal()
                    assert sorted(pages.call("counts", player.fen, 1)) == sorted(moves), player.fen
                    if not moves:
                        break
                    fen, move = player.fen, chance.choice(moves)
                    assert pages.call("next", fen, move) == player.play(move), (fen, move)


class Script:
    """A run of the built program over a script, which answers each command."""

    def __init__(self):
        self.process = subprocess.Popen([PROGRAM, "script", "--boards", "256"], stdin=subprocess.PIPE, stdout=subprocess.PIPE, text=True)

    def ask(self, **command):
        self.process.stdin.write(f"{json.dumps(command)}\n")
        self.process.stdin.flush()
        return json.loads(self.process.stdout.readline())

    def __enter__(self):
        return self

    def __exit__(self, *_):
        self.process.stdin.close()
        self.process.wait()
        self.process.stdout.close()


def following(fen, moves, joined=0):
    """What a follower is told of a game from a position on."""
    greeting = {"reply": "following", "joined": joined, "fen": fen}
    return [greeting] + [{"reply": "move", "place": place, "move": move} for place, move in enumerate(moves, joined)]


def to_and_fro(legal, moves, chance):
    """A move by chance, with a liking for going back to where a piece came from, and for double steps of pawns."""
    back = moves[-2][2:4] + moves[-2][:2] if len(moves) > 1 else ""
    if back in legal and chance.random() < 0.75:
        return back
    double = [it for it in legal if it[0] == it[2] and it[1] + it[3] in ("24", "75")]
    return chance.choice(double if double and chance.random() < 0.1 else legal)


def try_claims():
    """In games to and fro, the built program grants a claim of the third time exactly where the pages say that there can be one."""
    chance = random.Random(SEED + 2)
    granted = refused = 0
    with chess() as pages, Script() as script:
        for number in range(100):
            board, start, moves = f"b{number}", chance.randrange(960), []
            fen = start_fen(start)
            script.ask(cmd="open", board=board, start=start)
            for ply in range(80):
                told = pages.call("draws", following(start_fen(start), moves))
                answer = script.ask(cmd="end", board=board, how="threefold", side="black" if ply % 2 else "white")
                assert told["isWhole"] and (answer["reply"] == "ended") == (told["times"] >= 3), (start, moves, told, answer)
                granted += answer["reply"] == "ended"
                refused += told["times"] == 2
                if answer["reply"] == "ended":
                    break
                moves.append(to_and_fro(list(pages.call("counts", fen, 1)), moves, chance))
                if script.ask(cmd="submit", board=board, move=moves[-1])["outcome"] is not None:
                    break
                fen = pages.call("next", fen, moves[-1])
    print(f"    {granted} claims granted, {refused} refused at the second time")
    assert granted > 30 and refused > 100


# pgn-extract.

# A round's games as a file, of each its board, its players and the texts of a follower.
ROUND = """(games) => Pgn.round(games.map(([board, players, texts]) => {
  const record = createRecord();
  texts.forEach(record.take);
  return { board, record, labels: Players.tags(players) };
}))"""
SCORES = {"white mates": "1-0", "black mates": "0-1", "white resigns": "0-1", "black resigns": "1-0", "white loses on time": "0-1",
          "black loses on time": "1-0", "white wins by decision": "1-0", "black wins by decision": "0-1", "abandoned": "*",
          "adjourned {by the {clock}": "*", None: "*"}
TERMINATIONS = {"white loses on time": "time forfeit", "black loses on time": "time forfeit", "white wins by decision": "adjudication",
                "black wins by decision": "adjudication", "drawn by decision": "adjudication", "abandoned": "abandoned",
                "adjourned {by the {clock}": "unterminated", None: "unterminated"}


def extracted(file):
    """The tags and the moves of each game that pgn-extract reads in a file, of which it may not complain; the moves in the relay's
    words."""
    path = shutil.which("pgn-extract") or "/usr/games/pgn-extract"
    ran = subprocess.run([path, "-s", "-w100000", "-Wuci"], input=file, capture_output=True, text=True, check=True)
    assert ran.stderr == "", ran.stderr
    parts = [it for it in ran.stdout.split("\n\n") if it.strip()]
    for tags, words in zip(parts[::2], parts[1::2], strict=True):
        yield dict(re.findall(r'^\[(\w+) "(.*)"\]$', tags, re.M)), re.sub(r"\{[^}]*\}", "", words).lower().split()


def game_told(pages, chance, outcome):
    """The texts of a game by chance, whole or from a later place on, its moves, its end and its last position."""
    positions, moves = [start_fen(chance.randrange(960))], []
    begin = chance.choice((0, 0, 5, 20))
    for _ in range(chance.randrange(begin, 120)):
        legal = list(pages.call("counts", positions[-1], 1))
        if not legal:
            break
        moves.append(chance.choice(pages.call("rare", positions[-1]) or legal))
        positions.append(pages.call("next", positions[-1], moves[-1]))
    begin, fen = min(begin, len(moves)), positions[-1]
    by_itself = "stalemate" if not pages.call("counts", fen, 1) else None
    if by_itself and pages.call("checked", fen):
        by_itself = "black mates" if " w " in fen else "white mates"
    end = by_itself or outcome
    return following(positions[begin], moves[begin:], begin) + ([{"reply": "over", "outcome": end}] if end else []), moves[begin:], end, fen


# Games whose ends hardly come by chance: Sam Loyd's stalemate, and the shortest mate.
STALEMATE = ("e2e3 a7a5 d1h5 a8a6 h5a5 h7h5 h2h4 a6h6 a5c7 f7f6 c7d7 e8f7 d7b7 d8d3 b7b8 d3h7 b8c8 f7g6 c8e6").split()


MATE = "f2f3 e7e5 g2g4 d8h4".split()


def known(pages, moves, outcome):
    """The texts of a game from the ordinary start, its moves, its end and its last position."""
    fen = START
    for move in moves:
        fen = pages.call("next", fen, move)
    return [*following(START, moves), {"reply": "over", "outcome": outcome}], moves, outcome, fen


RARE = {f"{side} {wing}" for side in ("white", "black") for wing in ("O-O", "O-O-O")} | {f"={it}" for it in "QRBN"}
RARE |= {"N by file", "N by rank", "R by file", "R by rank"}


def rare_in(text):
    """The castlings, promotions and moves of two like men that a game's PGN has."""
    side = "white"
    for word in re.sub(r"\{[^}]*\}", "", text.split("\n\n")[1]).split():
        if word.endswith("."):
            side = "black" if word.endswith("...") else "white"
            continue
        if word.startswith("O-O"):
            yield f"{side} {word.rstrip('+#')}"
        elif "=" in word:
            yield word[word.index("="):][:2]
        elif re.match("[NR][a-h]x?[a-h]", word):
            yield f"{word[0]} by file"
        elif re.match("[NR][1-8]", word):
            yield f"{word[0]} by rank"
        side = "black"


def is_mistaken(fen):
    """Whether PyChess 1.0 takes another square for the rook of a right to castle: it looks for that of K and Q in the rank as it is
    written, with vacant squares as one digit. docs/PAGES.md has an example. A start has no vacant squares there."""
    placement, _, rights, *_ = fen.split(" ")
    rows = placement.split("/")
    for right, row, rook in (("K", rows[7], "R"), ("Q", rows[7], "R"), ("k", rows[0], "r"), ("q", rows[0], "r")):
        found = row.rfind(rook) if right in "Kk" else row.find(rook)
        if right in rights and found != sum(int(it) if it.isdigit() else 1 for it in row[:found]):
            return True
    return False


def try_pgn():
    """Others read a round of 200 games by chance: pgn-extract finds their moves, results and ends, also of one that the pages do not know,
    Stockfish their last positions, and PyChess those whose FEN it does not mistake."""
    chance = random.Random(SEED + 3)
    ends = [None, *SCORES, "agreed", "threefold", "fifty moves", "fivefold", "seventy-five moves", "drawn by decision"]
    ends = [it for it in ends if it not in ("white mates", "black mates")]
    with chess() as pages:
        games = [game_told(pages, chance, ends[number % len(ends)]) for number in range(198)]
        games += [known(pages, STALEMATE, "stalemate"), known(pages, MATE, "black mates")]
        file = pages.call(ROUND, [(f"b{number}", {"white": 'A "B"', "black": ""}, texts) for number, (texts, *_) in enumerate(games)])
    mistaken = 0
    with Stockfish() as stockfish:
        found = zip(games, games_in(file), extracted(file), strict=True)
        for number, ((texts, moves, end, final), text, (tags, words)) in enumerate(found):
            score = SCORES.get(end, "1/2-1/2")
            assert words == [*moves, score] and tags["Result"] == score, (texts, words)
            assert tags["Termination"] == TERMINATIONS.get(end, "normal"), (end, tags)
            assert (tags["White"], tags["Black"], tags["Variant"], tags["SetUp"]) == ('A \\"B\\"', "?", "Chess960", "1"), tags
            assert tags["BoardName"] == f"b{number}" and tags["FEN"].split(" ")[0] == texts[0]["fen"].split(" ")[0], tags
            assert is_same(stockfish.final(tags["FEN"], words[:-1]), final), (tags, words, final)
            mistaken += is_mistaken(tags["FEN"])
            assert is_mistaken(tags["FEN"]) or read_by_pychess(text) == (len(moves), final.split(" ")[:2]), text
    rare = collections.Counter(it for text in games_in(file) for it in rare_in(text))
    late, whole = sum(" b " in texts[0]["fen"] for texts, *_ in games), sum(not texts[0]["joined"] for texts, *_ in games)
    print(f"    {len(games)} games of {sum(len(moves) for _, moves, *_ in games)} moves, {whole} games whole, "
          f"{late} from a move of Black on, {mistaken} with a rook that PyChess mistakes")
    print(f"    {', '.join(f'{name}: {times}' for name, times in sorted(rare.items()))}")
    assert late > 25 and whole > 50 and mistaken < 20 and set(rare) == RARE, RARE - set(rare)
    assert {end for *_, end, _ in games} == {*ends, "stalemate", "white mates", "black mates"}, {end for *_, end, _ in games}


# A file with two games, as the PGN standard and pgn-extract's own export want it.
TWO_GAMES = """[Event "?"]
[Site "?"]
[Date "%(day)s"]
[Round "1.1"]
[White "Carlsen, Magnus"]
[Black "Caruana"]
[Result "0-1"]
[BoardName "r1-1"]
[FEN "rnbqkbnr/pppppppp/8/8/8/8/PPPPPPPP/RNBQKBNR w KQkq - 0 1"]
[SetUp "1"]
[Termination "normal"]
[Variant "Chess960"]

1. f3 e5 2. g4 Qh4# {Black mates.} 0-1

[Event "?"]
[Site "?"]
[Date "%(day)s"]
[Round "1.2"]
[White "?"]
[Black "?"]
[Result "*"]
[BoardName "r1-2_2"]
[FEN "bbqnnrkr/pppppppp/8/8/8/8/PPPPPPPP/BBQNNRKR w KQkq - 0 1"]
[SetUp "1"]
[Termination "unterminated"]
[Variant "Chess960"]

1. g3 *
"""


def try_round_pgn():
    """A round's file has a game of each board, in their order, with an empty line between two; one without a game is an empty file."""
    nobody = {"white": "", "black": ""}
    games = [("r1-1", {"white": "Carlsen, Magnus", "black": "Caruana"},
              [*following(START, ["f2f3", "e7e5", "g2g4", "d8h4"]), {"reply": "over", "outcome": "black mates"}]),
             ("r1-2_2", nobody, following("bbqnnrkr/pppppppp/8/8/8/8/PPPPPPPP/BBQNNRKR w HFhf - 0 1", ["g2g3"]))]
    with chess() as pages:
        expected = TWO_GAMES % {"day": time.strftime("%Y.%m.%d")}
        assert pages.call(ROUND, games) == expected, pages.call(ROUND, games)
        assert pages.call(ROUND, []) == ""
    assert [(tags["BoardName"], words) for tags, words in extracted(expected)] == [
        ("r1-1", ["f2f3", "e7e5", "g2g4", "d8h4", "0-1"]), ("r1-2_2", ["g2g3", "*"])]


# Tables.

START = "rnbqkbnr/pppppppp/8/8/8/8/PPPPPPPP/RNBQKBNR w HAha - 0 1"
BOTH = "r3k2r/8/8/8/8/8/8/R3K2R w HAha - 0 1"
KNIGHTS = "4k3/8/8/8/8/5N2/8/1N2K3 w - - 0 1"
LAST_STEP = "1n2k3/P7/8/8/8/8/8/4K3 w - - 0 1"
PASSING = "4k3/8/8/3pP3/8/8/8/4K3 w - d6 0 2"
PINNED = "4r1k1/8/8/8/4N3/8/8/1N2K3 w - - 0 1"
ROOKS = "4k3/8/8/1R6/8/8/4K3/1R6 w - - 0 1"
QUEENS = "1k6/8/8/8/4Q2Q/8/8/K6Q w - - 0 1"
ON_D1 = "4k3/8/8/8/8/8/8/R2K3R w HA - 0 1"

# A position, what is written, and the moves that it may mean; None where it is no move's text.
READ = [
    (START, "e4 e2e4 e2-e4 e4+", ["e2e4"]),
    (START, "Nf3 nf3 Ngf3 N1f3 Ng1f3 Ng1-f3 g1f3", ["g1f3"]),
    (START, "e5 Nd2 e2xe4 Nxf3 O-O O-O-O e1g1 Kg1 e1h1 e2 e7e5 e2e4q Kxe2", []),
    (START, "hello e9 i4 4e N Nf O-O-O-O constructor valueOf __proto__ e2e4e5 e4! e8=K e8=P", None),
    (BOTH, "O-O 0-0 o-o e1g1 e1-g1 Kg1 Ke1g1 Ke1-g1 e1h1 Kh1 O-O+", ["e1h1"]),
    (BOTH, "O-O-O 0-0-0 o-o-o e1c1 Kc1 e1a1 Ke1c1", ["e1a1"]),
    (BOTH, "Kf1 e1f1", ["e1f1"]),
    (BOTH, "Rxh8 Rxh8+ Rhxh8 h1h8 h1xh8", ["h1h8"]),
    (BOTH, "Kxg1 Kxh1 e1g1q Kb1 h1e1 g1 Ke3 Kg2 e8g8 Ka1c1 K2g1", []),
    ("4k3/8/8/8/8/5r2/8/4K2R w H - 0 1", "O-O e1g1 e1h1", []),
    ("4k3/8/8/8/8/8/8/5K1R w H - 0 1", "f1g1 Kg1", ["f1g1"]),
    ("4k3/8/8/8/8/8/8/5K1R w H - 0 1", "O-O f1h1 Kh1", ["f1h1"]),
    ("4k3/8/8/8/8/8/8/6KR w H - 0 1", "O-O g1h1 g1g1 Kg1", ["g1h1"]),
    ("4k3/8/8/8/8/8/8/6KR w H - 0 1", "g1a2 Ka2 g1e1", []),
    ("4k3/8/8/8/8/8/8/6K1 w - - 0 1", "g1g1 Kg1 O-O", []),
    (ON_D1, "O-O d1g1 d1f1 Kf1 Kg1 d1h1", ["d1h1"]),
    (ON_D1, "O-O-O d1b1 Kb1 d1a1", ["d1a1"]),
    (ON_D1, "Kc1 d1c1", ["d1c1"]),
    ("4k3/8/8/8/8/8/8/RK5R w HA - 0 1", "O-O b1d1 b1g1 Kd1", ["b1h1"]),
    ("4k3/8/8/8/8/8/8/RK5R w HA - 0 1", "O-O-O b1a1", ["b1a1"]),
    (KNIGHTS, "Nd2", ["b1d2", "f3d2"]),
    (KNIGHTS, "Nbd2 N1d2 Nb1d2 b1d2", ["b1d2"]),
    (KNIGHTS, "Nfd2 N3d2 Nf3d2 f3d2", ["f3d2"]),
    (PINNED, "Nd2 Nbd2", ["b1d2"]),
    (LAST_STEP, "a8=Q a8Q a8q a7a8q a7a8=Q a8=q", ["a7a8q"]),
    (LAST_STEP, "a8 a7a8", ["a7a8q", "a7a8r", "a7a8b", "a7a8n"]),
    (LAST_STEP, "axb8=N ab8=N axb8N a7b8n", ["a7b8n"]),
    (LAST_STEP, "axb8 ab8 a7b8", ["a7b8q", "a7b8r", "a7b8b", "a7b8n"]),
    (LAST_STEP, "b8=N xb8=N", []),
    (PASSING, "exd6 ed6 e5d6 e5xd6", ["e5d6"]),
    (PASSING, "d6 xd6", []),
    ("4k3/8/8/8/8/2p5/1P1B4/4K3 w - - 0 1", "bxc3 bc3 b2c3", ["b2c3"]),
    ("4k3/8/8/8/8/2p5/1P1B4/4K3 w - - 0 1", "Bxc3 Bc3 d2c3", ["d2c3"]),
    ("8/8/8/8/8/8/8/8 w - - 0 1", "e4 Ke2 O-O e1g1", []),
]

# Words with a space in them.
SPACED = [(PASSING, "exd6 e.p.", ["e5d6"]), (PASSING, "e5xd6 e.p.+", ["e5d6"]), (START, " e4 ", ["e2e4"]), (START, "", None),
          (START, "e4 e5", None)]

# A position, a move, and how it is written.
WRITTEN = [
    (START, "e2e4", "e4"), (START, "g1f3", "Nf3"), (BOTH, "e1a1", "O-O-O"), (BOTH, "e1h1", "O-O"), (BOTH, "h1h8", "Rxh8+"),
    (PASSING, "e5d6", "exd6"),
    (KNIGHTS, "b1d2", "Nbd2"), (KNIGHTS, "f3d2", "Nfd2"), (PINNED, "b1d2", "Nd2"), (ROOKS, "b1b3", "R1b3"), (ROOKS, "b5b3", "R5b3"),
    (QUEENS, "h4e1", "Qh4e1"), (QUEENS, "h1e1", "Q1e1"), (QUEENS, "e4e1", "Qee1"), (LAST_STEP, "a7b8n", "axb8=N"),
    (LAST_STEP, "a7a8r", "a8=R"), ("4k3/P7/8/8/8/8/8/4K3 w - - 0 1", "a7a8q", "a8=Q+"),
    ("5k2/8/8/8/8/8/8/4K2R w H - 0 1", "e1h1", "O-O+"),
    ("rnbqkbnr/pppp1ppp/8/4p3/6P1/5P2/PPPPP2P/RNBQKBNR b HAha g3 0 2", "d8h4", "Qh4#"),
    ("7k/8/6K1/8/8/8/8/5Q2 w - - 0 1", "f1f7", "Qf7"),
]


# A position, the moves from it, and how often the last position has appeared.
KNIGHTS_ROUND = "g8f6 g1f3 f6g8 f3g1 "
ROOKS_ROUND = "h1h2 h8h7 h2h1 h7h8 "
APPEARED = [
    (START, "", 1), (START, "g1f3 g8f6 f3g1 f6g8", 2), (START, "g1f3 g8f6 f3g1 f6g8 " * 2, 3), (START, "g1f3 g8f6 f3g1", 1),
    (START, "g1f3 g8f6 f3g1 f6g8 e2e4", 1),
    # A double step where no pawn can capture: the positions are the same.
    (START, f"e2e4 {KNIGHTS_ROUND}", 2), (START, f"e2e4 {2 * KNIGHTS_ROUND}", 3),
    # One where a pawn can capture en passant, which it can only once.
    (START, f"g1f3 d7d5 f3g1 d5d4 e2e4 {KNIGHTS_ROUND}", 1), (START, f"g1f3 d7d5 f3g1 d5d4 e2e4 {2 * KNIGHTS_ROUND}", 2),
    # One where the pawn stands beside but is pinned, and one where it is not.
    ("3k4/8/8/8/3p4/8/4P3/3QK3 w - - 0 1", "e2e4 d8c8 d1d2 c8d8 d2d1", 2),
    ("3k4/8/8/8/3p4/8/4P3/2Q1K3 w - - 0 1", "e2e4 d8c8 c1c2 c8d8 c2c1", 1),
    # The first round of the rooks loses rights to castle.
    (START, f"h2h4 h7h5 {ROOKS_ROUND}", 1), (START, f"h2h4 h7h5 {2 * ROOKS_ROUND}", 2),
]


def try_appearances():
    """How often a position has appeared, by the Laws: the men, the side to move, rights to castle, and captures en passant that can be
    made."""
    with chess() as pages:
        for fen, moves, times in APPEARED:
            told = pages.call("draws", following(fen, moves.split()))
            assert told["times"] == times and told["isWhole"], (fen, moves, told)
        late = "4k2r/8/8/8/8/8/4P3/R3K3 w - - 7 30"
        gap = [*following(late.replace(" 7 ", " 0 "), ["a1b1"], 4), *following("4k2r/8/8/8/8/8/4P3/2R1K3 b - - 3 31", [], 7)]
        for texts, is_whole in ((following(late, [], 4), False), (following(late, ["a1b1", "h8g8"], 4), False),
                                (following(late, ["e2e4"], 4), True), (gap, False), ([*gap, *following("", ["h8h1"], 7)[1:]], False),
                                ([*gap, *following("", ["h8h7", "e2e3"], 7)[1:]], True)):
            told = pages.call("draws", texts)
            assert told["isWhole"] == is_whole and told["times"] == 1, (texts, told)


def try_tables():
    """What people write is read as the rules of notation and of castling ask for, and an ambiguous move has all its candidates."""
    with chess() as pages:
        told = [(fen, words.split(), moves) for fen, words, moves in READ] + [(fen, [text], moves) for fen, text, moves in SPACED]
        for fen, words, moves in told:
            for text, had in zip(words, pages.call("read", fen, words), strict=True):
                assert had == moves, (fen, text, had, moves)
        for fen, move, san in WRITTEN:
            had = dict(pages.call("written", fen))[move]
            assert had == san, (fen, move, had)


# Lines of a list, with the players of each that may stand there.
LINES = [("r1 518 Carlsen, Magnus – Caruana", "Carlsen, Magnus", "Caruana"), ("r1 So - Ding", "So", "Ding"), ("r1", "", ""),
         ("r1 0 Saint-Amant", "Saint-Amant", ""), ("r1 – Caruana", "", "Caruana"), ("518 So—Ding", "So", "Ding"),
         ("r1 Vachier-Lagrave -- Nepomniachtchi", "Vachier-Lagrave", "Nepomniachtchi"), ("r1 O'Neil & Co – 100%", "O'Neil & Co", "100%")]
NO_LINES = [("r1 960 So – Ding", "r1: the start number is from 0 to 959"), ("r1 1000 So – Ding", "r1: the start number is from 0 to 959"),
            ("r1 1000", "r1: the start number is from 0 to 959"), ("r1 518 12 Ding – So", "r1: the start number is from 0 to 959"),
            ("r1 Andr&eacute; Petit – Bauer", "r1: a player's name may have no ;"), ("r1 So – Ding;", "r1: a player's name may have no ;"),
            ("r1 518 Smith – Jones – Brown", "r1: a player's name may have no dash"),
            ("r1 So – Ding -- Li", "r1: a player's name may have no dash"), ("r1 So –– Ding", "r1: a player's name may have no dash"),
            ("r.1 So – Ding", "r.1 is no board's name")]


def try_lists():
    """The forms of a round and hall.py read a list's line alike, or refuse it for the same reason; an address has all names of it."""
    with chess() as pages:
        for line, white, black in LINES:
            name, players = read_board(line)
            had = pages.run(f"(() => {{ const it = Lines.read({json.dumps(line)}); return [Lines.fault(it), Lines.named(it)]; }})()")
            assert had == ["", f"{name} {players}".strip()], (line, had)
            again = pages.run(f"Lines.read({json.dumps(had[1])})[0].players")
            assert again == pages.run(f"Lines.read({json.dumps(line)})[0].players") == {"white": white, "black": black}, (line, again)
        for line, words in NO_LINES:
            had = pages.run(f"Lines.fault(Lines.read({json.dumps(line)}))")
            assert had.startswith(words), (line, had)
            try:
                had = read_board(line)
            except Wrong as fault:
                assert str(fault).startswith(words), (line, fault)
            else:
                raise AssertionError((line, had))
        # An address of before, in which nothing may be lost either.
        had = pages.run('Players.read("Smith – Jones–Brown")')
        assert had == {"white": "Smith", "black": "Jones–Brown"}, had


def main():
    tries = {name[4:]: it for name, it in globals().items() if name.startswith("try_")}
    failed = 0
    began = time.monotonic()
    for name in sys.argv[1:] or tries:
        try:
            tries[name]()
            print(f"ok      {name}: {tries[name].__doc__}", flush=True)
        except Exception as fault:
            failed += 1
            print(f"failed  {name}: {type(fault).__name__} {fault}", flush=True)
    print(f"chess: {len(sys.argv[1:] or tries) - failed} passed, {failed} failed in {time.monotonic() - began:.0f} s")
    return 1 if failed else 0


if __name__ == "__main__":
    sys.exit(main())
