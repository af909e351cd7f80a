"""Starts by their FEN."""

import unittest

from setup import NoStart, fen_of, number_of
from starts import array

CLASSIC = "rnbqkbnr/pppppppp/8/8/8/8/PPPPPPPP/RNBQKBNR w {} - 0 1"


class Starts(unittest.TestCase):
    def test_every_start_has_its_number_in_both_ways_to_write_rights(self):
        self.assertEqual(len({array(it) for it in range(960)}), 960)
        for number in range(960):
            fen = fen_of(number)
            self.assertEqual(number_of(fen), number)
            placement, turn, _, *rest = fen.split(" ")
            self.assertEqual(number_of(" ".join([placement, turn, "KQkq", *rest])), number)

    def test_the_numbers_are_scharnagls(self):
        """FIDE's Guidelines II count as he did: 518 is the standard array, and these are the first and the last."""
        self.assertEqual([array(it) for it in (0, 518, 959)], ["BBQNNRKR", "RNBQKBNR", "RKRNNQBB"])
        self.assertEqual(number_of(CLASSIC.format("HAha")), 518)

    def test_rights_in_any_order_and_counters_that_are_missing(self):
        whole = CLASSIC.format("KQkq")
        for fen in CLASSIC.format("qkQK"), CLASSIC.format("AHah"), CLASSIC.format("KQha"), whole[:-6], whole[:-4]:
            self.assertEqual(number_of(fen), 518, fen)

    def test_what_is_no_start(self):
        for fen, reason in {
            "x": "none", CLASSIC.format("KQkq").replace(" w ", " b "): "none of the 960", CLASSIC.format("-"): "castlings",
            CLASSIC.format("KQkq-"): "castlings", CLASSIC.format("KQk"): "castlings",
            CLASSIC.format("KKkq"): "castlings", CLASSIC.format("GAga"): "castlings",
            CLASSIC.format("KQkq")[:-1] + "2": "behind", CLASSIC.format("KQkq").replace(" - 0", " e3 0"): "behind",
            "rnbqkbnr/pppppppp/8/8/4P3/8/PPPP1PPP/RNBQKBNR w KQkq - 0 1": "none of the 960",
            "rnbkqbnr/pppppppp/8/8/8/8/PPPPPPPP/RNBQKBNR w KQkq - 0 1": "none of the 960",
            "rnbqkbnr/pppppppp/8/8/8/8/PPPPPPPP/NRBQKBNR w KQkq - 0 1": "none of the 960",
        }.items():
            with self.assertRaisesRegex(NoStart, reason, msg=fen):
                number_of(fen)


if __name__ == "__main__":
    unittest.main()
