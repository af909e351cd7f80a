"""Which board a game is, from reading to reading."""

import unittest

from games import read
from naming import Names, lawful


def games_of(*tags):
    """Games with these tags, each a text of pairs."""
    text = "".join("".join(f'[{pair.replace(" ", " " + chr(34), 1)}"]\n' for pair in it.split("; ")) + "\n1. e4 *\n\n" for it in tags)
    return read(text.encode())


class Lawful(unittest.TestCase):
    def test_names_are_made_lawful(self):
        for given, name in {"r3-1": "r3-1", "Board 1": "Board-1", "Tisch Süd": "Tisch-Sud", "b1_2": "b1-2", "b_1_23": "b_1-23",
                            "a_1234": "a_1234", "  x/y  ": "x-y", "": "", "№": "No", "日本": "", "a" * 40: "a" * 28}.items():
            self.assertEqual(lawful(given), name)


class Assigned(unittest.TestCase):
    def names(self, named, games):
        """The names of the games, in the order of the file; nothing for one that is left out."""
        return [next((name for name, it in named.items() if it is game), "") for game in games]

    def test_by_each_of_the_ways_in_their_order(self):
        listed = [("t1", "Adams–Baker"), ("t2", "Carlsen, Magnus–So, Wesley")]
        games = games_of("Event E; BoardName b7; White Adams; Black Baker; Round 3.9",
                         "Event E; White Wesley So; Black Magnus Carlsen; Round 3.1",
                         "Event E; White Magnus Carlsen; Black Wesley So; Round 3.9", "Event E; White Adams, J; Black Baker, K",
                         "Event E; White X; Black Y; Round 3; Board 4", "Event E; White X; Black Y; Round 3")
        named, faults = Names(listed, "p-").assign(games)
        self.assertEqual(self.names(named, games), ["b7", "r3-1", "t2", "t1", "r3-4", "p-6"])
        self.assertEqual(faults, {})

    def test_a_player_of_two_boards_of_the_list_is_none(self):
        listed = [("t1", "Adams–Baker"), ("t2", "Adams, J–Baker")]
        games = games_of("Event E; White Adams, J; Black Baker", "Event E; White Adams; Black Baker",
                         "Event E; White Adams, J K; Black Baker")
        named, faults = Names(listed).assign(games)
        self.assertEqual(self.names(named, games), ["t2", "t1", ""])
        self.assertEqual(list(faults), ["game 3"])

    def test_without_a_board_a_game_is_left_out_and_said(self):
        named, faults = Names().assign(games_of("Event E; White A; Black B"))
        self.assertEqual((named, faults), ({}, {"game 1": "game 1 of the file (A – B) has no board: give --list, or --prefix"}))

    def test_of_two_games_of_a_name_the_first_is_kept_and_stays_so_in_another_order(self):
        games = games_of("Event E; Round 3.1; White A; Black B", "Event E; Round 3.1; White C; Black D")
        names = Names()
        for order in games, games[::-1]:
            named, faults = names.assign(order)
            self.assertIs(named["r3-1"], games[0])
            self.assertEqual(list(faults), ["second r3-1"])
            self.assertIn("C – D", faults["second r3-1"])

    def test_places_keep_their_games_in_whatever_order_these_come(self):
        first = games_of("Event E; White A; Black B", "Event E; White C; Black D", "Event E; White E; Black F")
        names = Names(prefix="r3-")
        self.assertEqual(self.names(names.assign(first)[0], first), ["r3-1", "r3-2", "r3-3"])
        second = games_of("Event E; White G; Black H", "Event E; White E; Black F", "Event E; White A; Black B",
                          "Event E; White C; Black D")
        self.assertEqual(self.names(names.assign(second)[0], second), ["r3-4", "r3-3", "r3-1", "r3-2"])
        later = Names(prefix="r3-", kept=names.kept)
        self.assertEqual(self.names(later.assign(first)[0], first), ["r3-1", "r3-2", "r3-3"])

    def test_a_corrected_player_keeps_the_place(self):
        names = Names(prefix="r3-")
        games = games_of("Event E; White A; Black B", "Event E; White C; Black D")
        names.assign(games)
        corrected = games_of("Event E; White A; Black B", "Event E; White Carl; Black D")
        self.assertEqual(self.names(names.assign(corrected)[0], corrected), ["r3-1", "r3-2"])

    def test_games_that_nothing_tells_apart_have_their_places(self):
        games = games_of("Event E", "Event E", "Event E")
        names = Names(prefix="r3-")
        for _ in range(2):
            self.assertEqual(self.names(names.assign(games)[0], games), ["r3-1", "r3-2", "r3-3"])


if __name__ == "__main__":
    unittest.main()
