"""A board's game as the file has it: its moves as far as they are legal, and its end."""

import ending
import entry
from position import Position
from setup import fen_of

READINGS = 3  # For so many readings a game must stand as it is before what was sent is corrected by it.


class Sheet:
    """Words read as moves from a start. Those that were read before are not read again."""

    def __init__(self, start):
        self.start, self.words, self.moves, self.fault = start, [], [], None
        self.present = Position.read(fen_of(start))

    def take(self, words):
        """Reads these words, and answers the sheet that has them: this one, or another if they do not go on with it."""
        sheet = self if words[:len(self.words)] == self.words else Sheet(self.start)
        sheet.go_on(words)
        return sheet

    def go_on(self, words):
        self.fault = None
        for word in words[len(self.words):]:
            try:
                text = entry.read(self.present, word)
            except entry.NoMove as fault:
                self.fault = f"{numbered(len(self.moves), word)} {fault} in {self.present.write()}"
                return
            self.words.append(word)
            self.moves.append(text)
            self.present = self.present.after(text)

    def position(self, plies):
        """The position after so many moves."""
        position = Position.read(fen_of(self.start))
        for text in self.moves[:plies]:
            position = position.after(text)
        return position


def numbered(ply, word):
    """A word with its number, as a score sheet has it."""
    return f"{ply // 2 + 1}{'.' if ply % 2 == 0 else '...'} {word}"


class Want:
    """What the file wants of a board. `is_whole` where all its words are moves and none may go on; `stood` is for how many readings it has
    stood so. A game that is open at the end of a file is taken as it stands once it has stood for three."""

    def __init__(self, name, start):
        self.name, self.sheet = name, Sheet(start)
        self.game, self.stood, self.is_missing = None, 0, False

    def take(self, game, is_regular=True):
        """What a reading has. One that comes early, at a change, counts only if it has something new."""
        self.is_missing = False
        before, self.game = self.game, game
        if before is None or self.content(before) != self.content(game):
            self.stood = 1
        elif is_regular:
            self.stood += 1
        self.sheet = self.sheet.take(game.words[:-1] if self.is_doubtful() else game.words)

    @staticmethod
    def content(game):
        return game.words, game.result, game.tags.get("Termination"), game.is_open

    def is_doubtful(self):
        """Whether its last word may go on."""
        return self.game.is_open and self.stood < READINGS

    @property
    def start(self):
        return self.sheet.start

    @property
    def moves(self):
        return self.sheet.moves

    @property
    def fault(self):
        return self.sheet.fault

    @property
    def is_whole(self):
        return self.sheet.fault is None and not self.is_doubtful() and not self.is_missing

    @property
    def is_settled(self):
        """Whether what was sent may be corrected by it."""
        return self.is_whole and self.stood >= READINGS

    @property
    def result(self):
        """How it ended, if it did."""
        return self.game.result if self.is_whole and self.game.result != "*" else None

    @property
    def termination(self):
        """How its result came about, as far as the file says that."""
        return self.game.tag("Termination")

    @property
    def is_given_up(self):
        return ending.is_given_up(self.result, self.termination)

    def endings(self):
        """The ends to ask for, one after another."""
        return ending.endings(self.result, self.termination, "white" if len(self.moves) % 2 == 0 else "black")

    @property
    def players(self):
        names = [self.game.tag(it) for it in ("White", "Black")]
        return " – ".join(it or "?" for it in names) if any(names) else ""

    def word(self, ply):
        """A move as the file has it, with its number."""
        return numbered(ply, self.sheet.words[ply])
