"""What the readings of a file come to, and what is to be done with a board then."""

import unittest

from naming import Names
from plan import Have, Step, step
from round import Round

HEAD = '[Event "E"]\n[Round "3.{}"]\n[White "A{}"]\n[Black "B"]\n\n'
MOVES = ["e2e4", "e7e5", "g1f3"]


def game(text, board=1, **tags):
    return "".join(f'[{name} "{value}"]\n' for name, value in tags.items()) + HEAD.format(board, board) + text + "\n\n"


class Readings(unittest.TestCase):
    def setUp(self):
        self.round = Round(Names())

    def read(self, *games, times=1, is_regular=True):
        for _ in range(times):
            self.round.take("".join(games).encode(), is_regular)
        return self.round.wants.get("r3-1")

    def after(self, *moves, outcome=None, start=518):
        """What is to be done where the relay has these moves."""
        return step(self.round.wants["r3-1"], Have("r3-1", start, moves, outcome))

    def test_what_is_new_is_sent_and_then_there_is_rest(self):
        want = self.read(game("1. e4 e5 2. Nf3 *"))
        self.assertEqual((want.moves, want.start, want.players, want.word(2), want.word(1)), (MOVES, 518, "A1 – B", "2. Nf3", "1... e5"))
        self.assertIs(step(want, None), Step.OPEN)
        self.assertIs(self.after(), Step.SEND)
        self.assertIs(self.after(*MOVES[:2]), Step.SEND)
        self.assertIs(self.after(*MOVES), Step.REST)

    def test_a_result_ends_the_game_once_its_moves_are_there(self):
        for result in "1-0", "0-1", "1/2-1/2":
            self.read(game(f"1. e4 e5 2. Nf3 {result}"))
            self.assertIs(self.after(*MOVES[:2]), Step.SEND)
            self.assertIs(self.after(*MOVES), Step.END)

    def test_an_end_that_agrees_is_rest(self):
        """Whatever the tag Termination says, and whenever it comes."""
        for result, outcomes in {"1-0": ["black resigns", "white mates", "black loses on time", "white wins by decision"],
                                 "0-1": ["white resigns", "black mates", "white loses on time", "black wins by decision"],
                                 "1/2-1/2": ["agreed", "threefold", "fifty moves", "stalemate", "fivefold", "drawn by decision"]}.items():
            for termination in "", "normal", "time forfeit", "adjudication", "abandoned":
                self.read(game(f"1. e4 e5 2. Nf3 {result}", Termination=termination))
                for outcome in outcomes:
                    self.assertIs(self.after(*MOVES, outcome=outcome), Step.REST, (outcome, termination))

    def test_other_moves_are_a_correction_after_three_readings(self):
        for text in "1. e4 e5 *", "1. e4 c5 2. Nf3 *", "1. d4 *", "1. e4 c5 2. Nf3 d6 1-0", "*":
            want = self.read(game(text))
            for reading in 1, 2, 3:
                self.assertIs(self.after(*MOVES), Step.CORRECT)
                self.assertEqual(want.is_settled, reading == 3, text)
                want = self.read(game(text))

    def test_a_reading_at_a_change_counts_only_for_what_is_new(self):
        want = self.read(game("1. e4 *"), game("1. d4 *", 2))
        for text in "1. d4 d5 *", "1. d4 d5 2. c4 *", "1. d4 d5 2. c4 e6 *":
            self.read(game("1. e4 *"), game(text, 2), is_regular=False)
        self.assertFalse(want.is_settled)
        self.read(game("1. e4 *"), game(text, 2), times=2)
        self.assertTrue(want.is_settled)

    def test_another_result_is_a_correction_after_three_readings(self):
        ends = {"1-0": ["black resigns", "black loses on time", "white wins by decision"], "1/2-1/2": ["agreed", "drawn by decision"]}
        for result in "0-1", "*":
            want = self.read(game(f"1. e4 e5 2. Nf3 {result}"))
            for outcome in sum(ends.values(), []):
                self.assertIs(self.after(*MOVES, outcome=outcome), Step.CORRECT, (result, outcome))
            self.assertFalse(want.is_settled)
            self.assertTrue(self.read(game(f"1. e4 e5 2. Nf3 {result}"), times=2).is_settled)

    def test_a_correction_after_the_end(self):
        for text in "1. e4 e5 2. Nf3 0-1", "1. e4 e5 2. Nf3 *", "1. e4 e5 2. Nf3 Nc6 *", "1. e4 e5 1-0":
            self.read(game(text))
            self.assertIs(self.after(*MOVES, outcome="black resigns"), Step.CORRECT, text)

    def test_an_end_that_the_relay_found_is_not_sent_again(self):
        """The file goes on, or has another result: it is said, and nothing is done."""
        for text in "1. e4 e5 2. Nf3 0-1", "1. e4 e5 2. Nf3 *", "1. e4 e5 2. Nf3 Nc6 *":
            self.read(game(text))
            self.assertIs(self.after(*MOVES, outcome="white mates"), Step.OTHERWISE, text)

    def test_a_lost_game_goes_on_under_its_next_name_at_once(self):
        for text in "1. e4 e5 2. Nf3 *", "1. e4 e5 2. Nf3 Nc6 *", "1. e4 e5 2. Nf3 1-0":
            self.read(game(text))
            self.assertIs(self.after(*MOVES, outcome="abandoned"), Step.AGAIN, text)
        self.read(game("1. d4 *"))
        self.assertIs(self.after(*MOVES, outcome="abandoned"), Step.CORRECT)

    def test_a_result_of_an_abandoned_game_is_an_abandoned_game(self):
        want = self.read(game("1. e4 e5 2. Nf3 1-0", Termination="Abandoned"))
        self.assertTrue(want.is_given_up)
        self.assertIs(self.after(*MOVES), Step.END)
        self.assertIs(self.after(*MOVES, outcome="abandoned"), Step.REST)
        self.assertIs(self.after(*MOVES[:2], outcome="abandoned"), Step.AGAIN)
        self.assertFalse(self.read(game("1. e4 e5 2. Nf3 *", Termination="abandoned")).is_given_up)

    def test_the_ends_to_ask_for_are_those_of_the_side_to_move(self):
        want = self.read(game("1. e4 e5 2. Nf3 0-1", Termination="time forfeit"))
        self.assertEqual(want.endings(), [{"how": "time", "side": "white"}])
        self.assertEqual(self.read(game("1. e4 e5 2. Nf3 1/2-1/2")).endings()[0], {"how": "threefold", "side": "black"})
        self.assertEqual(self.read(game("1. e4 e5 1/2-1/2")).endings()[0], {"how": "threefold", "side": "white"})

    def test_a_start_of_another_number(self):
        fen = "bbqnnrkr/pppppppp/8/8/8/8/PPPPPPPP/BBQNNRKR w KQkq - 0 1"
        want = self.read(game("1. e4 *", FEN=fen))
        self.assertEqual(want.start, 0)
        self.assertIs(self.after("e2e4"), Step.CORRECT)
        self.assertIs(self.after("e2e4", start=0), Step.REST)

    def test_a_fen_that_is_no_start_is_said_and_the_board_waits(self):
        self.read(game("1. e4 *"))
        want = self.read(game("1. e4 e5 *", FEN="8/8/8/8/8/8/8/8 w - - 0 1"), times=4)
        self.assertIn("none of the 960 starts", self.round.faults["r3-1"])
        self.assertTrue(want.is_missing)
        self.assertFalse(want.is_settled)

    def test_a_move_that_is_not_legal_is_named_with_its_number_and_position(self):
        want = self.read(game("1. e4 e5 2. Nf6 Nc6 *"))
        self.assertEqual(want.moves, MOVES[:2])
        fen = "rnbqkbnr/pppp1ppp/8/4p3/4P3/8/PPPP1PPP/RNBQKBNR w HAha e6 0 2"
        self.assertEqual(self.round.faults["r3-1"], f"r3-1: 2. Nf6 is not legal in {fen}")

    def test_a_move_that_is_not_legal_corrects_and_ends_nothing(self):
        want = self.read(game("1. e4 e5 2. Nf6 1-0"), times=5)
        self.assertFalse(want.is_settled)
        self.assertIs(self.after(*MOVES[:2]), Step.REST)
        self.assertIs(self.after(*MOVES), Step.CORRECT)
        want = self.read(game("1. e4 e5 2. Nf3 1-0"))
        self.assertEqual((want.fault, want.moves, self.round.faults), (None, MOVES, {}))

    def test_a_word_that_may_go_on_waits_for_three_readings(self):
        whole = game("1. e4 e5 2. Nf3").rstrip()
        want = self.read(whole)
        self.assertEqual((want.moves, want.is_whole), (MOVES[:2], False))
        self.assertEqual(self.read(whole).moves, MOVES[:2])
        self.assertEqual(self.read(whole).moves, MOVES)
        self.assertEqual(self.read(whole + " ").moves, MOVES)

    def test_a_game_that_has_no_move_yet_at_the_end_of_the_file_waits_for_three_readings(self):
        head = HEAD.format(1, 1)
        self.assertIsNone(self.read(head, times=2))
        self.assertEqual(self.read(head).moves, [])

    def test_a_game_that_is_gone_from_the_file_is_said_after_three_readings_and_waits(self):
        other = game("1. d4 *", 2)
        want = self.read(game("1. e4 e5 2. Nf3 *"), other, times=3)
        self.assertTrue(want.is_settled)
        self.read(other, times=2)
        self.assertEqual((self.round.faults, want.is_missing), ({}, True))
        self.read(other, times=3)
        self.assertEqual(self.round.faults, {"r3-1": "r3-1: its game is no longer in the file"})
        self.assertEqual((want.is_settled, want.moves), (False, MOVES))
        self.read(game("1. e4 e5 2. Nf3 *"), other)
        self.assertEqual((self.round.faults, want.is_missing), ({}, False))

    def test_a_result_that_only_the_tag_has_is_said_and_the_game_goes_on(self):
        want = self.read(game("1. e4 e5 2. Nf3 *", Result="1-0"))
        said = "r3-1: its tag Result says 1-0, but * stands behind its moves, and that counts"
        self.assertEqual(self.round.faults, {"result of r3-1": said})
        self.assertEqual((want.is_missing, want.result), (False, None))
        self.assertIs(self.after(*MOVES[:2]), Step.SEND)
        self.assertIs(self.after(*MOVES), Step.REST)
        self.assertEqual(self.read(game("1. e4 e5 2. Nf3 1-0", Result="1-0")).result, "1-0")
        self.assertEqual(self.round.faults, {})

    def test_a_file_of_no_game_is_said(self):
        self.read("")
        self.assertEqual(self.round.faults, {"file": "there is no game in the file"})


class Cuts(unittest.TestCase):
    """A file that is cut off anywhere, once, sends nothing that the whole does not have, and corrects nothing."""

    def test_at_every_byte(self):
        text = game("1. e4 e5 2. Nf3 Nc6 3. Bb5 a6 1-0", 1) + game(
            "1. e4 {[%clk 1:30:00]} e5 2. Nf3 Nc6 3. Bb5 a6 4. Ba4 Nf6 5. O-O Be7 6. Re1 b5 7. Bb3 d6 8. c3 O-O (8... Be6 9. d4) 9. h3 Na5 "
            "10. Bc2 c5 11. d4 Qc7 12. Nbd2 cxd4 13. cxd4 Nc6 14. Nb3 a5 15. Be3 a4 16. Nbd2 Bd7 17. Rc1 Qb7 18. Qe2 Rfe8 19. Bd3 Rab8 "
            "20. dxe5 dxe5 1/2-1/2", 2)
        whole = Round(Names())
        whole.take(text.encode())
        self.assertEqual([len(it.moves) for it in whole.wants.values()], [6, 40])
        for end in range(len(text)):
            seen = Round(Names())
            seen.take(text.encode())
            seen.take(text[:end].encode())
            self.assertFalse(any(it.is_settled for it in seen.wants.values()))
            fresh = Round(Names())
            fresh.take(text[:end].encode())
            self.assertLessEqual(set(fresh.wants), set(whole.wants), text[:end])
            for name, want in fresh.wants.items():
                self.assertEqual(want.moves, whole.wants[name].moves[:len(want.moves)], text[:end])
                self.assertIn(want.result, (None, whole.wants[name].result))


if __name__ == "__main__":
    unittest.main()
