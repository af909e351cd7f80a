"""The tables of docs/BENCHMARKS.md are what bench/results/tables.py makes of the results."""
import pathlib
import re
import shutil
import sys
import tempfile
import unittest

sys.path.insert(0, str(pathlib.Path(__file__).resolve().parents[2] / "bench/results"))

import tables  # noqa: E402

TEXT = tables.PAGE.read_text()


class Tables(unittest.TestCase):
    def test_those_of_the_page_are_those_of_the_results(self):
        self.assertEqual(tables.page(TEXT), TEXT)

    def test_none_of_the_page_is_written_by_hand(self):
        self.assertNotRegex(tables.MARKER.sub("", TEXT), r"(?m)^(\||<!--)")

    def test_each_result_says_of_which_commit_day_and_machine_it_is(self):
        for path in tables.HERE.glob("*.txt"):
            for name, table in tables.read(path).items():
                self.assertLessEqual({"commit", "day", "machine"}, table.facts.keys(), f"{path.name}: {name}")
                self.assertEqual({len(cells) for cells in table.rows}, {len(table.rows[0])}, f"{path.name}: {name}")
                self.assertGreater(len(table.rows), 1, f"{path.name}: {name}")

    def test_the_page_names_each_file_of_results(self):
        self.assertEqual({path.name for path in tables.HERE.glob("*.txt")}, set(re.findall(r"^<!-- ([\w.]+):", TEXT, re.M)))

    def test_a_result_that_changed_is_noticed_and_written(self):
        with tempfile.TemporaryDirectory() as room:
            folder = pathlib.Path(room)
            for path in tables.HERE.glob("*.txt"):
                shutil.copy(path, folder)
            changed = folder / "scripts.txt"
            changed.write_text(changed.read_text().replace("1,340,000", "1,430,000"))
            made = tables.page(TEXT, folder)
        self.assertEqual(made, TEXT.replace("1,340,000", "1,430,000"))
        self.assertNotEqual(made, TEXT)


class Reading(unittest.TestCase):
    FILE = """What it is.
commit: one
day: today

[first]
a | b | c
1 | 2.5 (2 to 3) |

[second]
commit: two
a | b
x | y
"""

    def setUp(self):
        room = tempfile.TemporaryDirectory()
        self.addCleanup(room.cleanup)
        self.folder = pathlib.Path(room.name)
        (self.folder / "it.txt").write_text(self.FILE)

    def test_facts_before_all_tables_hold_for_each_that_has_none_of_its_own(self):
        found = tables.read(self.folder / "it.txt")
        self.assertEqual(found["first"].facts, {"commit": "one", "day": "today"})
        self.assertEqual(found["second"].facts, {"commit": "two", "day": "today"})

    def test_a_marker_is_followed_by_the_columns_that_it_chooses(self):
        made = tables.page("<!-- it.txt: first: 2 1 -->\n\nText.\n", self.folder)
        self.assertIn("| b | a |\n|---|---|\n| 2.5 (2–3) | 1 |\n\nText.\n", made)
        self.assertEqual(tables.page(made, self.folder), made)

    def test_a_table_that_is_not_there_is_an_error(self):
        with self.assertRaises(KeyError):
            tables.page("<!-- it.txt: third -->\n", self.folder)


if __name__ == "__main__":
    unittest.main()
