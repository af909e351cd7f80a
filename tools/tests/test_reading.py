"""The order in which the definitions behind the headline are to be read is that of the sources, and short enough."""
import pathlib
import sys
import unittest

sys.path.insert(0, str(pathlib.Path(__file__).resolve().parents[1]))

import reading  # noqa: E402


class Reading(unittest.TestCase):
    def test_each_stands_after_those_that_it_imports(self):
        seen = {}
        reading.in_order(reading.file_of(reading.HEADLINE), seen)
        order = list(seen)
        for at, path in enumerate(order):
            for file in reading.imported(path):
                if file in order:
                    self.assertLess(order.index(file), at + 1, f"{file} behind {path}")

    def test_it_is_short(self):
        lines, own = (int(it.replace(",", "")) for it in reading.table()[-1].split("|")[2:4])
        self.assertLessEqual(lines, 1250)
        self.assertLessEqual(own, 650)


if __name__ == "__main__":
    unittest.main()
