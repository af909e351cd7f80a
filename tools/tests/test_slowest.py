"""Which functions take longest to be proved, as the checker tells it."""
import pathlib
import sys
import unittest

sys.path.insert(0, str(pathlib.Path(__file__).resolve().parents[1]))

import slowest  # noqa: E402

SAID = """\
struct a::b::C: proved
checked a::c960_game++game++Game+Destruct::drop, 1 of 3
checked a::b::count, 2 of 3
fn a::b::count: proved
checked a::b::C::of, 3 of 3
""".splitlines()


class Slowest(unittest.TestCase):
    def found(self, *times):
        return slowest.seconds_of_functions(SAID, iter(times).__next__)

    def test_a_function_has_the_seconds_since_the_one_before(self):
        found = self.found(10, 75, 675, 678)
        self.assertEqual(found, [(65, "a::c960_game++game++Game+Destruct::drop"), (600, "a::b::count"), (3, "a::b::C::of")])

    def test_the_slowest_come_first_and_then_the_sum(self):
        self.assertEqual(slowest.table(self.found(10, 75, 675, 678)), [
            "  600.0 s  a::b::count",
            "   65.0 s  a::c960_game++game++Game+Destruct::drop",
            "    3.0 s  a::b::C::of",
            "  668.0 s  all 3",
        ])

    def test_no_more_are_shown_than_can_be_read_at_once(self):
        found = [(float(n), f"f{n}") for n in range(100)]
        shown = slowest.table(found)
        self.assertEqual(len(shown), slowest.MOST_SHOWN + 1)
        self.assertEqual(shown[0], "   99.0 s  f99")
        self.assertEqual(shown[-1], " 4950.0 s  all 100")


if __name__ == "__main__":
    unittest.main()
