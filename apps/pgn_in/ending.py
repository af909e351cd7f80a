"""How a result of the file is entered at the relay, by the tag Termination, which says how it came about (PGN standard, 9.8.1)."""

LOSERS = {"1-0": "black", "0-1": "white"}
GIVEN_UP = "abandoned"
ON_TIME = "time"
# A player who gave up. The standard's word for an end at the board does not tell of a mate, which the relay sees by itself.
BY_PLAYERS = ("normal", "resign")
BY_ARBITER = ("adjudication", "infraction", "forfeit", "death", "emergency")


def says(termination, *words):
    return any(it in termination.lower() for it in words)


def is_given_up(result, termination):
    """Whether a game that has a result was abandoned all the same. The relay has no result of such a game."""
    return result is not None and says(termination, GIVEN_UP)


def of_winner(result, termination):
    if says(termination, ON_TIME):
        return {"how": "time", "side": LOSERS[result]}
    if says(termination, *BY_PLAYERS):
        return {"how": "resign", "side": LOSERS[result]}
    return {"how": "decided", "result": result}


def of_draw(result, termination, mover):
    """A draw is a claim if the side to move has one, else agreed, where no arbiter gave it."""
    if says(termination, ON_TIME, *BY_ARBITER):
        return [{"how": "decided", "result": result}]
    return [{"how": "threefold", "side": mover}, {"how": "fifty", "side": mover}, {"how": "agreed"}]


def endings(result, termination, mover):
    """What to ask for, one after another until it is accepted: the members of the command `end` beside its board."""
    if is_given_up(result, termination):
        return [{"how": "abandoned"}]
    return [of_winner(result, termination)] if result in LOSERS else of_draw(result, termination, mover)
