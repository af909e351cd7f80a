"""Which game stands for a board, where it was corrected, goes on under a next name, or somebody opened a next name by mistake."""
import pathlib
import sys
import unittest

sys.path.insert(0, str(pathlib.Path(__file__).resolve().parents[2] / "tools"))

from relay_client.successors import Standing, names_before, shown, standing, takes_place  # noqa: E402

RESULTS = ("black resigns", "white wins by decision", "white loses on time", "agreed", "white mates", "drawn by decision")
ENDED = ("abandoned", *RESULTS)


def takes(plies, outcome, plies_before, outcome_before):
    """Whether a game of a next name takes the place of the one before."""
    return takes_place(Standing("b1_2", plies, outcome), Standing("b1", plies_before, outcome_before))


class Place(unittest.TestCase):
    def test_a_game_that_goes_on_gives_its_place_to_none(self):
        for plies in 0, 40, 80:
            for outcome in None, "agreed", "abandoned":
                self.assertFalse(takes(plies, outcome, 40, None))

    def test_one_that_has_a_result_gives_it_to_one_of_as_many_moves(self):
        for outcome in RESULTS:
            for plies in 40, 41:
                for of_successor in None, "abandoned", "black mates":
                    self.assertTrue(takes(plies, of_successor, 40, outcome), (outcome, plies))
            for plies in 0, 1, 39:
                for of_successor in None, "abandoned":
                    self.assertFalse(takes(plies, of_successor, 40, outcome), (outcome, plies))

    def test_one_without_a_result_gives_it_to_the_first_move(self):
        """A game that was taken back goes on with fewer moves, and those who watch go along at once."""
        for plies in 1, 39, 40, 41:
            for of_successor in None, "abandoned", "black mates":
                self.assertTrue(takes(plies, of_successor, 40, "abandoned"), plies)

    def test_an_empty_board_takes_none_whatever_its_result(self):
        for outcome in ENDED:
            for of_successor in None, "abandoned", "white wins by decision":
                self.assertFalse(takes(0, of_successor, 1, outcome), (outcome, of_successor))

    def test_a_corrected_game_that_is_shorter_takes_it_once_it_has_a_result(self):
        """It has none of the moves that were recorded behind the end by mistake."""
        for outcome in ENDED:
            self.assertTrue(takes(38, "white resigns", 40, outcome))

    def test_without_a_move_on_either_board(self):
        for outcome in ENDED:
            self.assertTrue(takes(0, None, 0, outcome), outcome)


class Shown(unittest.TestCase):
    OVER, CORRECTED = (4, "white wins by decision"), (4, "black wins by decision")

    def has(self, *wanted, **games):
        games = {board: Standing(board, *it) for board, it in games.items()}
        self.assertEqual([it.board for it in shown(games)], list(wanted))

    def test_a_successor_stands_at_the_place_of_the_boards_first_game(self):
        self.has("b1_2", "b2", b1=self.OVER, b2=(0, None), b1_2=(4, None))
        self.has("b0", "b1_3", "b2_2", b0=(2, None), b1=self.OVER, b2=(4, "abandoned"), b2_2=(4, None), b1_2=self.CORRECTED,
                 b1_3=(4, "drawn by decision"))
        self.has("b1_2", b1_2=self.CORRECTED, b1=self.OVER)

    def test_one_that_takes_no_place_is_not_shown_either(self):
        """Of each board one game is shown."""
        self.has("b1", b1=self.OVER, b1_2=(0, None))
        self.has("b1", b1=self.OVER, b1_2=(3, "abandoned"))
        self.has("b1_3", b1=self.OVER, b1_2=(0, None), b1_3=(4, None))
        self.has("b1_3", b1=(4, "abandoned"), b1_2=(0, "agreed"), b1_3=(1, None))
        self.has("b1_2", b1=(4, "abandoned"), b1_2=(1, "abandoned"), b1_3=(0, None))
        self.has("b1_2", b1=self.OVER, b1_2=self.CORRECTED, b1_3=(1, None))

    def test_beside_a_game_that_goes_on_a_next_name_is_another_game(self):
        self.has("b1", "b1_2", b1=(4, None), b1_2=(9, "agreed"))
        self.has("b1_2", "b1_3", b1=self.OVER, b1_2=(4, None), b1_3=(9, None))

    def test_other_names_are_no_successors(self):
        others = {"b2": (4, None), "b12": (4, None), "b1_1": (4, None), "c1_2": (4, None), "b": (4, None)}
        self.has("b1", *others, b1=(0, "agreed"), **others)

    def test_a_game_may_go_on_behind_names_that_are_missing(self):
        self.has("b1_9", b1=(4, "abandoned"), b1_9=(4, None))

    def test_a_name_that_was_cut_to_make_room(self):
        first, second = "a" * 32, "a" * 30 + "_2"
        self.has(second, **{first: (1, "abandoned"), second: (1, None)})
        self.assertEqual(names_before(second, [first, second, "a"]), [first])

    def test_the_game_that_stands_for_one(self):
        games = {board: Standing(board, *it) for board, it in {"b1": self.OVER, "b1_2": self.CORRECTED, "b1_3": (0, None)}.items()}
        self.assertEqual([standing(it, games).board for it in games.values()], ["b1_2", "b1_2", "b1_3"])


if __name__ == "__main__":
    unittest.main()
