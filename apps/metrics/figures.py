"""What is known of a relay: its boards, by the texts of its watch port's list, and its counts, by the lines of its log."""
import collections
import re

# A line that `serve --log` writes once a minute, its two counts of this moment and the one since the relay's start.
COUNTS = re.compile(r"\] connections (\d+), boards \d+, ended \d+, followers (\d+), cut off (\d+)$")
SPECTATORS = re.compile(r"\] connections of the watch port (\d+)$")
LEFT_OUT = re.compile(r"\] (\d+) lines left out$")
# Without --log too.
TURNED_AWAY = "no descriptor or memory for a connection: turned away"


class Figures:
    def __init__(self):
        self.is_up = False
        self.boards = {}  # The last text of each board.
        self.present = {}  # Counts of the last minute, once the log has told them.
        self.refused = {"cut_off": 0, "turned_away": 0}
        self.left_out = 0

    # ---- The list.

    def begins(self):
        """The relay answers. It tells all its boards now: if it was restarted, they are others than before."""
        self.is_up = True
        self.boards = {}

    def ends(self):
        self.is_up = False

    def hear(self, text):
        """A text of the list."""
        self.boards[text["board"]] = text

    def live(self):
        return sum(it["outcome"] is None for it in self.boards.values())

    def moves(self):
        return sum(it["plies"] for it in self.boards.values())

    def ended(self):
        """How many games have ended, by their outcome."""
        return collections.Counter(it["outcome"] for it in self.boards.values() if it["outcome"] is not None)

    # ---- The log.

    def read(self, line):
        """A line of the log. Most say nothing that is counted here."""
        line = line.rstrip()
        if found := COUNTS.search(line):
            connections, followers, cut = map(int, found.groups())
            self.present.update(connections=connections, followers=followers)
            self.refused["cut_off"] = cut
        elif found := SPECTATORS.search(line):
            self.present["spectators"] = int(found[1])
        elif found := LEFT_OUT.search(line):
            self.left_out += int(found[1])
        elif line == TURNED_AWAY:
            self.refused["turned_away"] += 1
