"""Where the relay does not say what a transcript says, a replay fails, behind a restart too; and so it does at a line that is none."""

import unittest

from relay_client.texts import NO_BOARD, OPENED, follows, following, moved, opens, played, submits
from relay_client.transcripts import replay, transcripts

START = "$ relay960 serve --port 9600 --grace 60"
JOURNAL = "--journal games"
KEY = "/?key=aB3_-9xYzQ0kLmNop"
AFTER = "rnbqkbnr/pppppppp/8/8/4P3/8/PPPP1PPP/RNBQKBNR b HAha e3 0 1"
KILLED = "relay: killed"
FIRST = [f"{START} {JOURNAL}", f"1: {KEY}", f"1> {opens('b1')}", f"1< {OPENED}", f"1> {submits('b1', 'e2e4')}", f"1< {played(0)}"]
SECOND = [f"{START} {JOURNAL} --connections 2", "journal games: 1 boards, 1 moves", f"2: {KEY}", f"2> {submits('b1', 'e7e5')}",
          f"2< {played(1)}", f"3> {follows('b1', place=1)}", f"3< {following(1, AFTER)}", f"3< {moved('e7e5', 1)}"]
# What the second start says, and the same with a change.
CHANGED = [
    ("journal games: 1 boards, 1 moves", "journal games: 1 boards, 0 moves"),
    (f"2< {played(1)}", f"2< {played(0)}"),
    (f"3< {following(1, AFTER)}", f"3< {following(1)}"),
    (f"3< {moved('e7e5', 1)}", "3< close 1000"),
]
# No lines of a transcript; the last is one only behind a killing.
NO_LINES = ["", "2>", "2 > x", "relay: lost", SECOND[0]]


def replay_lines(*lines):
    replay("".join(f"{it}\n" for it in lines))


class Replaying(unittest.TestCase):
    def fails(self, *lines, says):
        with self.assertRaises(AssertionError) as failed:
            replay_lines(*lines)
        self.assertIn(says, str(failed.exception))

    def test_a_second_start_has_the_journal_of_the_first_and_of_no_other_transcript(self):
        for _ in range(2):
            replay_lines(*FIRST, KILLED, *SECOND)

    def test_whatever_the_second_start_says_otherwise_is_found(self):
        for line, other in CHANGED:
            with self.subTest(other):
                self.assertIn(line, SECOND)
                self.fails(*FIRST, KILLED, *(other if it == line else it for it in SECOND), says=f"{other.split('< ')[-1]!r}, but ")

    def test_a_start_with_another_file_has_other_boards(self):
        other = [it.replace("games", "others") for it in SECOND if not it.startswith("journal")]
        self.fails(*FIRST, KILLED, *other, says=f"{played(1)!r}, but received {NO_BOARD!r}")

    def test_a_line_that_is_none_is_found(self):
        for line in NO_LINES:
            with self.subTest(line):
                self.fails(*FIRST, line, says=f"no line of a transcript: {line!r}")

    def test_behind_a_killing_the_relay_is_started(self):
        self.fails(*FIRST, KILLED, says="no start of the relay: ''")
        self.fails(*FIRST, KILLED, *SECOND[1:], says=f"no start of the relay: {SECOND[1]!r}")

    def test_a_document_has_each_block_that_begins_with_a_start(self):
        slip = f"{START}\n1 > x\n"
        text = f"```text\n{slip}```\n\n```text\n$ relay960 script\n> x\n```\n\n```text\n{START}\n```\n"
        self.assertEqual(transcripts(text), [slip, f"{START}\n"])


if __name__ == "__main__":
    unittest.main()
