"""The men of a position after moves, and the names under which a game goes on."""

import unittest

from relay_client.men import men_after, men_of
from relay_client.names import next_name
from relay_client.tests.test_clients import RICH_END, RICH_GAME
from relay_client.texts import START_518


class Men(unittest.TestCase):
    def test_a_move_en_passant_a_promotion_and_both_castlings_lead_to_the_men_that_the_relay_tells(self):
        self.assertEqual(men_after(START_518, RICH_GAME), men_of(RICH_END))

    def test_king_and_rook_may_swap_or_stay_where_they_castle(self):
        """King and rook swap; the rook stays; the king stays; to the other wing from the same file as its goal."""
        for before, move, after in (("5KR1", "f1g1", "5RK1"), ("4KR2", "e1f1", "5RK1"), ("6KR", "g1h1", "5RK1"), ("2RK4", "d1c1", "2KR4")):
            self.assertEqual(men_after(f"8/8/8/8/8/8/8/{before} w - - 0 1", [move]), men_of(f"8/8/8/8/8/8/8/{after} b - - 1 1"))

    def test_a_name_is_counted_behind_its_last_underscore_and_never_longer_than_32(self):
        for name, expected in (("r1-1", "r1-1_2"), ("r1-1_2", "r1-1_3"), ("b-9", "b-9_2"), ("b_9", "b_10"), ("b_x", "b_x_2"),
                               ("_2", "_2_2"), ("b_999", "b_1000"), (28 * "n", 28 * "n" + "_2"), (32 * "n", 30 * "n" + "_2"),
                               (30 * "n" + "_9", 29 * "n" + "_10")):
            self.assertEqual(next_name(name), expected)
