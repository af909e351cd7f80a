"""Which board a game of the file is: by its BoardName, the list of the round, its round and board, or its place in the file."""

import re
import unicodedata

LETTERS = 28  # A next name has up to four more.


def plain(text):
    """Without accents."""
    return unicodedata.normalize("NFKD", text).encode("ascii", "ignore").decode()


def lawful(text):
    """A name that the relay takes, and whose next names are none of another board: it does not end in _ and a number."""
    name = re.sub("[^A-Za-z0-9_-]+", "-", plain(text)).strip("-")[:LETTERS]
    return re.sub(r"_(?=\d{1,3}$)", "-", name)


def words(player):
    return frozenset(re.findall(r"\w+", plain(player).casefold()))


def pair(players):
    """A pair of players of the round's list, as their words."""
    white, _, black = players.partition("–")
    return words(white), words(black)


class Listed:
    """The boards of the round's list."""

    def __init__(self, boards):
        self.pairs = [(name, *pair(players)) for name, players in boards if all(pair(players))]

    def board(self, game):
        """The board of a pair: the list may name less of a player than the file does. Nothing if there are several."""
        white, black = words(game.tag("White")), words(game.tag("Black"))
        found = [(white - w | black - b, name) for name, w, b in self.pairs if w <= white and b <= black]
        whole = [name for more, name in found if not more]
        names = whole or [name for _, name in found]
        return names[0] if len(names) == 1 else ""


def by_round(game):
    """r3-1 of the round 3.1, or of the round 3 and the board 1."""
    if found := re.fullmatch(r"(\d+)\.(\d+)", game.tag("Round")):
        return f"r{found[1]}-{found[2]}"
    if game.tag("Round").isdecimal() and game.tag("Board").isdecimal():
        return f"r{game.tag('Round')}-{game.tag('Board')}"
    return ""


class Names:
    """The names of games, which stay the same from reading to reading. `kept` has the game of each name, by what tells it from others."""

    def __init__(self, listed=(), prefix=None, kept=None):
        self.listed, self.prefix, self.kept = Listed(listed), prefix, kept if kept is not None else {}

    def told(self, game):
        """The name that a game tells by itself."""
        return lawful(game.tag("BoardName")) or self.listed.board(game) or lawful(by_round(game))

    def by_place(self, games, place):
        """The name that the game had before, else that of its place, or the next that no other game of the file has."""
        present = [it.identity() for it in games]
        identity = games[place].identity()
        had = [name for name, it in self.kept.items() if it == identity and name.startswith(self.prefix)]
        if had and present.count(identity) == 1:
            return had[0]
        number = place + 1
        while (name := lawful(f"{self.prefix}{number}")) in self.kept and self.kept[name] in present and self.kept[name] != identity:
            number += 1
        return name

    def name(self, games, place):
        return self.told(games[place]) or (self.by_place(games, place) if self.prefix is not None else "")

    def assign(self, games):
        """The games by their names, and a complaint for each that has none of its own."""
        named, faults = {}, {}
        for place, game in enumerate(games):
            name = self.name(games, place)
            if not name:
                faults[f"game {place + 1}"] = f"game {place + 1} of the file ({self.words(game)}) has no board: give --list, or --prefix"
            elif name not in named:
                named[name] = game
            else:
                first, other = self.choose(name, named[name], game)
                named[name] = first
                faults[f"second {name}"] = f"{name}: a second game of the file has this name ({self.words(other)}): it is left out"
        self.kept.update({name: game.identity() for name, game in named.items()})
        return named, faults

    def choose(self, name, first, other):
        """Of two games of a name, the one that had it before stays."""
        is_others = self.kept.get(name) == other.identity() != first.identity()
        return (other, first) if is_others else (first, other)

    @staticmethod
    def words(game):
        return f"{game.tag('White') or '?'} – {game.tag('Black') or '?'}"
