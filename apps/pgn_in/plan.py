"""What is to be done next with a board: what the file wants of it, beside what the relay has."""

import enum

from relay_client.outcomes import ABANDONED, outcome_of

BY_ITSELF = ("white mates", "black mates", "stalemate", "fivefold", "seventy-five moves")  # The ends that the relay finds.


class Have:
    """A game of the relay under the name under which it goes on."""

    def __init__(self, name, start, moves=(), outcome=None):
        self.name, self.start, self.moves, self.outcome = name, start, list(moves), outcome

    def begins(self, want):
        """Whether the file goes on with it."""
        return self.start == want.start and self.moves == want.moves[:len(self.moves)]


class Step(enum.Enum):
    OPEN = "the board is opened"
    SEND = "moves are sent"
    END = "the game is ended"
    REST = "all is there"
    AGAIN = "the game was lost: it goes on under its next name"
    CORRECT = "the file has another game: once it is settled, that goes on under its next name"
    OTHERWISE = "the relay has ended the game as the file does not have it"


def at_end(want, have):
    """What is to be done with a game that has a result. Where that is the file's, it does not matter how either came about."""
    if not have.begins(want):
        return Step.CORRECT
    if len(have.moves) == len(want.moves) and want.game.result == outcome_of(have.outcome).result:
        return Step.REST
    return Step.OTHERWISE if have.outcome in BY_ITSELF else Step.CORRECT


def step(want, have):
    if have is None:
        return Step.OPEN
    is_all = have.begins(want) and len(have.moves) == len(want.moves)
    if have.outcome == ABANDONED:
        return Step.REST if is_all and want.is_given_up else Step.AGAIN if have.begins(want) else Step.CORRECT
    if have.outcome is not None:
        return at_end(want, have)
    if not have.begins(want):
        return Step.CORRECT
    if not is_all:
        return Step.SEND
    return Step.END if want.result else Step.REST
