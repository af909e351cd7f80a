"""What outlasts the program."""

import os
import pathlib
import tempfile
import unittest

from kept import Kept, Taken, usual


class Keeping(unittest.TestCase):
    def setUp(self):
        room = tempfile.TemporaryDirectory()
        self.addCleanup(room.cleanup)
        self.path = pathlib.Path(room.name, "state/enter.json")

    def keep(self):
        """A program that has it, until it ends."""
        kept = Kept(self.path)
        self.addCleanup(lambda: kept.lock is None or os.close(kept.lock))
        return kept

    @staticmethod
    def end(kept):
        os.close(kept.lock)
        kept.lock = None

    def test_key_and_names_are_those_of_the_program_before(self):
        first = self.keep()
        self.assertRegex(first.key, "^[A-Za-z0-9_-]{16,64}$")
        first.names["r3-1"] = ["Event", "A"]
        first.write()
        self.end(first)
        second = self.keep()
        self.assertEqual((second.key, second.names), (first.key, {"r3-1": ["Event", "A"]}))

    def test_nobody_else_may_read_the_key(self):
        self.keep()
        self.assertEqual([it.stat().st_mode & 0o77 for it in (self.path, self.path.parent)], [0, 0])

    def test_only_one_program_has_it_at_a_time(self):
        first = self.keep()
        with self.assertRaisesRegex(Taken, "another enter.py"):
            Kept(self.path)
        self.end(first)
        self.assertEqual(self.keep().key, first.key)

    def test_a_program_that_is_killed_while_it_writes_leaves_the_key(self):
        first = self.keep()
        self.end(first)
        self.path.with_name("enter.json.new").write_text("{")
        self.assertEqual(self.keep().key, first.key)

    def test_a_file_of_another_program_is_left_as_it_is(self):
        self.path.parent.mkdir()
        self.path.write_text("1. e4 *")
        with self.assertRaisesRegex(Taken, "is no file of enter.py"):
            Kept(self.path)
        self.assertEqual(self.path.read_text(), "1. e4 *")

    def test_each_relay_and_file_has_its_own(self):
        pairs = [("ws://a", "x"), ("ws://a", "y"), ("ws://b", "x")]
        self.assertEqual(len({usual(*it) for it in pairs}), 3)
        self.assertEqual(usual(*pairs[0]), usual(*pairs[0]))


if __name__ == "__main__":
    unittest.main()
