"""How a result of the file is entered at the relay, by its tag Termination."""

import unittest

from ending import endings, is_given_up

CLAIMS = [{"how": "threefold", "side": "white"}, {"how": "fifty", "side": "white"}, {"how": "agreed"}]


def decided(result):
    return [{"how": "decided", "result": result}]


class Endings(unittest.TestCase):
    def each(self, terminations, result, wanted):
        for termination in terminations:
            self.assertEqual(endings(result, termination, "white"), wanted, termination)

    def test_a_win_without_a_termination_is_decided(self):
        """So is one of which the tag says what nobody knows."""
        for result in "1-0", "0-1":
            self.each(["", "unterminated", "see the score sheet"], result, decided(result))

    def test_a_win_by_the_clock_is_the_other_sides_loss_on_time(self):
        terminations = ["time forfeit", "Time forfeit", "White won on time", "TIME FORFEIT"]
        self.each(terminations, "1-0", [{"how": "time", "side": "black"}])
        self.each(terminations, "0-1", [{"how": "time", "side": "white"}])

    def test_a_win_by_a_ruling_is_decided(self):
        for result in "1-0", "0-1":
            self.each(["adjudication", "rules infraction", "Rules infraction", "death", "emergency", "forfeit"], result, decided(result))

    def test_a_win_at_the_board_is_the_other_sides_resignation(self):
        terminations = ["normal", "Normal", "White won by resignation", "resigned"]
        self.each(terminations, "1-0", [{"how": "resign", "side": "black"}])
        self.each(terminations, "0-1", [{"how": "resign", "side": "white"}])

    def test_a_draw_is_a_claim_of_the_side_to_move_or_agreed(self):
        self.each(["", "normal", "Game drawn by agreement", "unterminated"], "1/2-1/2", CLAIMS)
        self.assertEqual([it.get("side") for it in endings("1/2-1/2", "", "black")], ["black", "black", None])

    def test_a_draw_that_an_arbiter_gave_is_decided(self):
        """Also where a flag fell and the opponent could not mate."""
        self.each(["time forfeit", "adjudication", "rules infraction", "emergency"], "1/2-1/2", decided("1/2-1/2"))

    def test_an_abandoned_game_has_no_result_at_the_relay(self):
        for result in "1-0", "0-1", "1/2-1/2":
            self.each(["abandoned", "Abandoned"], result, [{"how": "abandoned"}])
            self.assertTrue(is_given_up(result, "abandoned"))
            self.assertFalse(is_given_up(result, "time forfeit"))
        self.assertFalse(is_given_up(None, "abandoned"))


if __name__ == "__main__":
    unittest.main()
