"""The boards of a round, as the readings of its file have them."""

from games import read
from setup import STANDARD, NoStart, number_of
from wanted import READINGS, Want

MOST = 256  # Games: a relay has no more boards.


class Round:
    """Wants by their boards' names, but for those that it is `without`. `faults` has what is wrong with the file, by what it is wrong with.
    `gone` has how many readings a board that had a game is missing."""

    def __init__(self, names, without=()):
        self.names, self.without = names, without
        self.wants, self.faults, self.gone = {}, {}, {}
        self.data, self.games, self.stood = None, [], 0

    def take(self, data, is_regular=True):
        """Takes a reading of the file."""
        if data != self.data:
            self.data, self.games, self.stood = data, read(data), 1
        elif is_regular:
            self.stood += 1
        games = self.settled()
        named, self.faults = self.names.assign(games[:MOST])
        if len(games) > MOST:
            self.faults["file"] = f"the file has {len(games)} games: those after the first {MOST} are left out"
        if not self.games and (self.stood >= READINGS or not self.wants):
            self.faults["file"] = "there is no game in the file"
        for name, game in named.items():
            if name not in self.without:
                self.enter(name, game, is_regular)
        self.miss(named, is_regular)

    def settled(self):
        """The games without one at the end of the file that has no move yet: its tags may go on, for three readings."""
        is_begun = self.games and self.games[-1].is_open and not self.games[-1].words
        return self.games[:-1] if is_begun and self.stood < READINGS else self.games

    def enter(self, name, game, is_regular):
        try:
            start = number_of(game.tags["FEN"]) if game.tag("FEN") else STANDARD
        except NoStart as fault:
            self.faults[name] = f"{name}: {fault}"
            return
        want = self.wants.get(name)
        if want is None or want.start != start:
            want = self.wants[name] = Want(name, start)
        want.take(game, is_regular)
        if want.fault:
            self.faults[name] = f"{name}: {want.fault}"
        if quarrel := game.quarrel():
            self.faults[f"result of {name}"] = f"{name}: {quarrel}"

    def miss(self, named, is_regular):
        """A game that is no longer in the file waits."""
        for name, want in self.wants.items():
            if name in named and name not in self.faults:
                self.gone.pop(name, None)
                continue
            if name in named:
                want.is_missing = want.fault is None  # Its start is none.
                continue
            want.is_missing = True
            self.gone[name] = self.gone.get(name, 0) + (is_regular or name not in self.gone)
            if self.gone[name] >= READINGS:
                self.faults[name] = f"{name}: its game is no longer in the file"
