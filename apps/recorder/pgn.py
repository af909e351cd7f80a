"""A round's games as PGN, which other chess programs read: one file, rewritten at each text of the relay."""

import contextlib
import os
import pathlib
import sys
import textwrap
import time

from position import Position
from relay_client.outcomes import ABANDONED, GOING_ON, outcome_of
from relay_client.successors import shown
from san import san


def say(words):
    """On standard error. That may be a file of a full disk: what cannot be said there ends nothing."""
    with contextlib.suppress(OSError):
        print(words, file=sys.stderr, flush=True)


def quoted(value):
    """A tag's value: on one line, its quotes and backslashes escaped."""
    plain = " ".join(value.split())
    return '"' + plain.replace("\\", "\\\\").replace('"', '\\"') + '"'


class Game:
    """A board's game, which takes the relay's texts. `labels` has what the relay does not know: Event, White and so on."""

    def __init__(self, board, labels):
        self.board = board
        self.labels = {"BoardName": board, **labels}
        self.began = None
        self.present = None
        self.words = []
        self.plies = 0
        self.outcome = None
        self.text = ""

    def take(self, text):
        """Takes a text that is new: following first, each move, over."""
        {"following": self.following, "move": self.move, "over": self.over}[text["reply"]](text)
        self.text = self.written()

    def lose(self):
        """The relay no longer has it. Where it has no end, that remains open."""
        self.outcome = self.outcome or ABANDONED

    def following(self, text):
        self.began = time.strftime("%Y.%m.%d")
        self.present = Position.read(text["fen"])
        self.labels |= {"FEN": self.present.write(shredder=False), "SetUp": "1", "Variant": "Chess960"}

    def move(self, text):
        if self.present.white:
            self.words.append(f"{self.present.number}.")
        self.words.append(san(self.present, text["move"]))
        self.present = self.present.after(text["move"])
        self.plies += 1
        self.outcome = None  # It may have been taken for lost.

    def over(self, text):
        self.outcome = text["outcome"]

    def end(self):
        return GOING_ON if self.outcome is None else outcome_of(self.outcome)

    def tags(self):
        """The seven tags that each game has, in their order, and after them the others by their names."""
        end = self.end()
        given = {"Result": end.result, "Termination": end.termination, "Date": self.began, **self.labels}
        first = ("Event", "Site", "Date", "Round", "White", "Black", "Result")
        return [(it, given.get(it, "?")) for it in first] + sorted((name, value) for name, value in given.items() if name not in first)

    def written(self):
        end = self.end()
        words = " ".join([*self.words, *([f"{{{end.said}}}"] if end.said else []), end.result])
        moves = textwrap.fill(words, 79, break_long_words=False, break_on_hyphens=False)
        return "".join(f"[{name} {quoted(value)}]\n" for name, value in self.tags()) + f"\n{moves}\n"


class Round:
    """A file with the games of a round, in the order of their boards. A game is in it once its board is open. Of a game and its successors
    it has the one that stands for the board, at the place of the first, unless it is to have those that were replaced, too."""

    def __init__(self, path, has_replaced=False):
        self.path = pathlib.Path(path)
        if self.path.exists():
            raise FileExistsError(17, "", str(path))
        self.has_replaced = has_replaced
        self.is_behind = False  # Whether it could not be written.
        self.games = []

    def begin(self, board, labels):
        """The game of a board, of which `take` gets the texts."""
        self.games.append(Game(board, labels))
        return self.games[-1]

    def take(self, game, text):
        game.take(text)
        self.write()

    def lose(self, game):
        game.lose()
        self.write()

    def shown(self):
        """The games of the file. Another game of a board, at a relay that was started anew, is no successor, and both are there."""
        begun = [it for it in self.games if it.text]
        if self.has_replaced:
            return begun
        latest = {it.board: it for it in begun}
        return [it for it in begun if it is not latest[it.board]] + shown(latest)

    def write(self):
        """Writes a new file and puts it in the old one's place, so that nobody reads half of it. One that cannot be written is reported:
        the record goes on."""
        new = self.path.with_name(f"{self.path.name}.new")
        try:
            new.write_text("\n".join(it.text for it in self.shown()), encoding="utf-8")
            os.replace(new, self.path)
            self.is_behind = False
        except OSError as fault:
            self.is_behind = True
            say(f"{self.path} is not written: {fault}")
