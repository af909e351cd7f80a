"""Which of a board's games stands for it: its own, or a successor, the game of a next name, under which it goes on or was corrected. The
pages count alike."""
import functools
from typing import NamedTuple

from relay_client.names import next_names
from relay_client.outcomes import has_result

MOST = 99  # Next names of a board.


class Standing(NamedTuple):
    """How far the game of a board has come. Whatever has these three may stand for it."""

    board: str
    plies: int
    outcome: str | None = None


def takes_place(successor, game):
    """Whether a successor takes the place of a game. That one is over. If it has no result, the other has a move; else as many moves, or
    some and a result. An empty board that somebody opened by mistake takes the place of no moves."""
    needed = game.plies if has_result(game.outcome) else min(game.plies, 1)
    has_ended = successor.plies > 0 and has_result(successor.outcome)
    return game.outcome is not None and (successor.plies >= needed or has_ended)


@functools.cache
def possible(board):
    return next_names(board, MOST)


def names_before(board, boards):
    """Those of the boards of which this name is a next one."""
    return [it for it in boards if board in possible(it)]


def passed(game, games):
    """The successors of a game up to the first that stands for its board and goes on. `games` are by their boards."""
    last = game
    for it in (games[board] for board in possible(game.board) if board in games):
        if last.outcome is None:
            return
        yield it
        last = it if takes_place(it, last) else last


def standing(game, games):
    """The game that stands for the board of this one."""
    for it in passed(game, games):
        game = it if takes_place(it, game) else game
    return game


def shown(games):
    """Of each board the game that stands for it, at the place of the board's first."""
    later = {it.board for game in games.values() for it in passed(game, games)}
    return [standing(game, games) for board, game in games.items() if board not in later]
