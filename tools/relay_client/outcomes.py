"""The outcomes of games by the relay's texts: what each means for the result, and for the PGN. The pages have the same table."""

import re
from typing import NamedTuple

ABANDONED = "abandoned"


class Outcome(NamedTuple):
    """The result, what a reader learns of the end, and the word of the PGN standard (9.8.1) for it."""

    result: str
    said: str
    termination: str


GOING_ON = Outcome("*", "", "unterminated")
OUTCOMES = {
    "white mates": Outcome("1-0", "White mates.", "normal"),
    "black mates": Outcome("0-1", "Black mates.", "normal"),
    "stalemate": Outcome("1/2-1/2", "Stalemate.", "normal"),
    "white resigns": Outcome("0-1", "White resigns.", "normal"),
    "black resigns": Outcome("1-0", "Black resigns.", "normal"),
    "agreed": Outcome("1/2-1/2", "Draw agreed.", "normal"),
    ABANDONED: Outcome("*", "Abandoned: the game ended without a result, or its board lost its connection.", "abandoned"),
    "threefold": Outcome("1/2-1/2", "Draw claimed: threefold repetition.", "normal"),
    "fifty moves": Outcome("1/2-1/2", "Draw claimed: fifty moves.", "normal"),
    "fivefold": Outcome("1/2-1/2", "Draw by fivefold repetition.", "normal"),
    "seventy-five moves": Outcome("1/2-1/2", "Draw by seventy-five moves.", "normal"),
    "white loses on time": Outcome("0-1", "White loses on time.", "time forfeit"),
    "black loses on time": Outcome("1-0", "Black loses on time.", "time forfeit"),
    "white wins by decision": Outcome("1-0", "White wins by the arbiter's decision.", "adjudication"),
    "black wins by decision": Outcome("0-1", "Black wins by the arbiter's decision.", "adjudication"),
    "drawn by decision": Outcome("1/2-1/2", "Draw by the arbiter's decision.", "adjudication"),
}


def outcome_of(text):
    """What an outcome means. One of a later relay is told as its text, which is fit for a comment of a PGN, and its result is open."""
    return OUTCOMES.get(text) or GOING_ON._replace(said=re.sub("[{}]", "", text))


def has_result(text):
    """Whether an outcome, or None of a game that goes on, is other than abandoned."""
    return text not in (None, ABANDONED)
