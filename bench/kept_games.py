"""The games of a server with a journal that was killed again and again, as its journal, its texts and their PGN have them at the end,
beside what their operators played; for evening.py and soak.py.
"""
import collections
import json
import pathlib
import sys

HERE = pathlib.Path(__file__).resolve().parent
sys.path += [str(HERE.parent / "tools"), str(HERE.parent / "apps/recorder")]

from pgn import Game  # noqa: E402
from relay_client import journals  # noqa: E402
from relay_client.connection import Connection  # noqa: E402
from relay_client.program import start_fen  # noqa: E402
from relay_client.texts import following, follows, moved, over  # noqa: E402

LABELS = {"Date": "2026.01.01"}  # The same whenever it is written.


# A game as its operator played it: these moves, of which at least so many were answered, and the ends that it may have.
Played = collections.namedtuple("Played", "board start moves least outcomes")


def pgn(board, texts):
    """The PGN of the game that these texts tell."""
    game = Game(board, LABELS)
    for text in texts:
        game.take(json.loads(text))
    return game.text


def told(port, board):
    """What one who follows a board whose game is over is told from its first place on."""
    guest = Connection(port)
    guest.send(follows(board, place=0))
    texts = [guest.receive()]
    assert '"following"' in texts[0], (board, texts[0])
    while '"over"' not in texts[-1]:
        texts.append(guest.receive())
        assert not texts[-1].startswith("close"), (board, texts[-1])
    guest.close()
    return texts


def what_is_wrong(port, file, games):
    """What is otherwise in the journal, or told otherwise on this port, than these games, which are over, were played."""
    data = pathlib.Path(file).read_bytes()
    kept, rest, wrong = journals.boards_in(journals.lines_in(data)), journals.rest_of(data), []
    if rest:
        wrong.append(f"the journal ends in {rest}")
    for game in games:
        texts, lines = told(port, game.board), kept[game.board]
        moves, outcome = game.moves[:len(texts) - 2], json.loads(texts[-1])["outcome"]
        played = [following(0, start_fen(game.start)), *(moved(move, at) for at, move in enumerate(moves)), over(outcome)]
        if len(moves) < game.least or outcome not in game.outcomes:
            wrong.append(f"{game.board}: {len(moves)} moves and {outcome} are told, of {game}")
        if (lines.start, lines.moves) != (game.start, moves):
            wrong.append(f"{game.board}: the journal has {lines.start} {lines.moves}, of {game}")
        if pgn(game.board, texts) != pgn(game.board, played):
            wrong.append(f"{game.board}: told as\n{pgn(game.board, texts)}\nbut played as\n{pgn(game.board, played)}")
    return wrong
