"""What the figures are after which texts and lines. No relay is needed: /usr/bin/python3 -m unittest test_figures"""
import unittest

from figures import Figures


def text(board, plies, outcome=None):
    return {"board": board, "fen": "..", "last": None, "outcome": outcome, "plies": plies, "reply": "board", "start": 518}


class List(unittest.TestCase):
    def test_before_a_connection_nothing_is_up_and_no_board_is_known(self):
        figures = Figures()
        self.assertEqual((figures.is_up, figures.live(), figures.moves(), figures.ended()), (False, 0, 0, {}))

    def test_the_last_text_of_each_board_counts(self):
        figures = Figures()
        figures.begins()
        for it in (text("b1", 0), text("b2", 3), text("b1", 4), text("b3", 7, "agreed"), text("b4", 2, "agreed")):
            figures.hear(it)
        figures.hear(text("b5", 9, "stalemate"))
        self.assertEqual((figures.is_up, len(figures.boards), figures.live(), figures.moves()), (True, 5, 2, 25))
        self.assertEqual(figures.ended(), {"agreed": 2, "stalemate": 1})

    def test_a_lost_connection_leaves_the_figures_and_a_new_one_has_only_its_own_boards(self):
        figures = Figures()
        figures.begins()
        figures.hear(text("b1", 4))
        figures.ends()
        self.assertEqual((figures.is_up, len(figures.boards), figures.moves()), (False, 1, 4))
        figures.begins()
        figures.hear(text("b2", 1))
        self.assertEqual((figures.is_up, list(figures.boards), figures.moves()), (True, ["b2"], 1))


class Log(unittest.TestCase):
    """The lines are those of docs/DEPLOYMENT.md, Logging."""

    def test_counts_that_no_line_has_told_are_unknown(self):
        self.assertEqual(Figures().present, {})

    def test_the_last_counts_are_present_and_cut_followers_are_counted_by_the_relay(self):
        figures = Figures()
        for line in ("[INFO  relay960] connections 130, boards 64, ended 12, followers 66, cut off 1\n",
                     "[INFO  relay960] connections of the watch port 2400\n",
                     "[INFO  relay960] connections 7, boards 64, ended 12, followers 5, cut off 3\n"):
            figures.read(line)
        self.assertEqual(figures.present, {"connections": 7, "followers": 5, "spectators": 2400})
        self.assertEqual(figures.refused, {"cut_off": 3, "turned_away": 0})

    def test_newcomers_turned_away_and_lines_left_out_are_added_up(self):
        figures = Figures()
        for line in 2 * ["no descriptor or memory for a connection: turned away\n", "[INFO  relay960] 17 lines left out\n"]:
            figures.read(line)
        self.assertEqual((figures.refused["turned_away"], figures.left_out), (2, 34))

    def test_other_lines_change_nothing(self):
        figures = Figures()
        for line in ("listening 9600", "[INFO  relay960] board b1 opened", "[INFO  relay960] board b1 has cut a follower off",
                     "[INFO  relay960] board b1 ended: white mates", "", "served 5, failed 0", "connections of the watch port x"):
            figures.read(line)
        self.assertEqual((figures.present, figures.refused, figures.left_out), ({}, {"cut_off": 0, "turned_away": 0}, 0))


if __name__ == "__main__":
    unittest.main()
