"""The games of a PGN text, also of one that ends anywhere: their tags, the words of their moves as they stand, and their results.

Variations, comments, NAGs and move numbers are passed over. What a word means as a move is for `entry`.
"""

import codecs
import re

TOKEN = re.compile(r"""
    (?P<space>\s+|\ufeff)
  | (?P<comment>\{[^}]*\}|;[^\n]*|^%[^\n]*)
  | (?P<tag>\[\s*(?P<name>\w+)\s*"(?P<value>(?:[^"\\\n]|\\.)*)"\s*\])
  | (?P<line>\[[^\n]*)
  | (?P<begin>\()
  | (?P<end>\))
  | (?P<nag>\$\d*)
  | (?P<result>(?:1-0|0-1|1/2-1/2|\*)(?![^\s{}()\[\];$]))
  | (?P<number>\d+(?:\s*(?:\.|…)+|(?=[\s{}()\[\];$]|\Z))|(?:\.|…)+)
  | (?P<word>[^\s{}()\[\];$]+)
  | (?P<open>.)
""", re.X | re.M | re.S)
# Beside moves: glyphs that stand alone, and words for a capture in passing. A null move is none of them: a game has no such move.
NO_MOVE = re.compile(r"(?!--$)(?:[!?+#=~∓±⩲⩱∞□]{1,3}|[-+=/]{2,3}|e\.?p\.?)")
RESULTS = ("1-0", "0-1", "1/2-1/2")
QUOTED = re.compile(r'\[\s*(\w+)\s*"(.*)"\s*\]\s*')


class Game:
    """A game. `is_open` where its text ends behind its last word, which may go on, or before its moves."""

    def __init__(self):
        self.tags, self.words, self.result, self.is_open = {}, [], None, False

    def tag(self, name):
        """A tag's value; nothing where it is missing or unknown."""
        value = " ".join(self.tags.get(name, "").split())
        return "" if value in ("?", "-", "*") else value

    def quarrel(self):
        """How its tag Result differs from what stands behind its moves, which counts; nothing if they agree, or one is missing."""
        told = self.tag("Result")
        if told in RESULTS and self.result not in (None, told):
            return f"its tag Result says {told}, but {self.result} stands behind its moves, and that counts"
        return None

    def identity(self):
        """What tells it from others, whatever its place and its moves."""
        return [self.tags.get(it, "") for it in ("Event", "Site", "Date", "Round", "Board", "White", "Black", "FEN")]


def decode(data):
    """Its text: UTF-8, perhaps cut off within a letter, or else Latin-1."""
    try:
        text = codecs.getincrementaldecoder("utf-8-sig")().decode(data, final=False)
    except UnicodeDecodeError:
        text = data.decode("latin-1")
    return text.replace("\r\n", "\n").replace("\r", "\n")


class Reading:
    """The games of a text, one token after another."""

    def __init__(self):
        self.games, self.game, self.depth, self.has_begun = [], Game(), 0, False

    def close(self):
        """The game is done; the next may begin."""
        if self.game.tags or self.game.words:
            self.games.append(self.game)
        self.game, self.depth, self.has_begun = Game(), 0, False

    def tag(self, name, value):
        """A tag behind moves begins the next game, also where a result or the end of a variation is missing, and so does a second Event."""
        if self.has_begun or name == "Event" and name in self.game.tags:
            self.close()
        self.game.tags[name] = re.sub(r"\\(.)", r"\1", value)

    def line(self, text):
        """A line that begins like a tag and is none as the standard has them, such as one with a quote in its value."""
        found = QUOTED.fullmatch(text)
        if found:
            self.tag(*found.groups())

    def word(self, text):
        self.has_begun = True
        if self.depth == 0 and not NO_MOVE.fullmatch(text):
            self.game.words.append(text)

    def result(self, text):
        if self.depth == 0:
            self.game.result = text
            self.close()


def read(data):
    """The games of a PGN file, whose bytes may end anywhere."""
    text, reading, at_end, kind = decode(data), Reading(), 0, None
    for found in TOKEN.finditer(text):
        kind, at_end = found.lastgroup, found.end()
        if kind == "tag":
            reading.tag(found["name"], found["value"])
        elif kind == "line":
            reading.line(found[0])
        elif kind == "word":
            reading.word(found[0])
        elif kind == "result":
            reading.result(found[0])
        elif kind == "number":
            reading.has_begun = True
        elif kind == "begin":
            reading.depth += 1
        elif kind == "end":
            reading.depth = max(0, reading.depth - 1)
        elif found[0] == "{":
            break  # A comment without an end.
    last = reading.game
    last.is_open = not last.words or kind == "word" and at_end == len(text) and reading.depth == 0
    reading.close()
    return reading.games
