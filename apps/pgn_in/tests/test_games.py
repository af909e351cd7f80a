"""The games of a PGN text: what its standard allows, what programs write beside it, and texts that end anywhere."""

import time
import unittest

from games import read

SHORT = """[Event "Club final"]
[White "Steinitz"]
[Black "Zukertort"]
[Result "1-0"]

1. e4 e5 2. Nf3 Nc6 1-0
"""


def words_of(text):
    """The words of the one game of a text."""
    (game,) = read(text.encode())
    return " ".join(game.words)


class Words(unittest.TestCase):
    def test_what_stands_beside_the_moves_is_passed_over(self):
        for name, text in {
            "numbers of any kind": "1.e4 1...e5 2 . Nf3 2. ... Nc6 3 Bb5 a6 *",
            "a comment in braces": "1. e4 {[%clk 1:30:00] [%eval 0.2]\n[not \"a tag\"] ; % ( } e5 2. Nf3 Nc6 3. Bb5 a6 *",
            "a comment to the end of its line": "1. e4 e5 ; 2. d4 { (\n2. Nf3 Nc6 3. Bb5 a6 *",
            "a line behind %": "1. e4 e5\n% 2. d4 {\n2. Nf3 Nc6 3. Bb5 a6 *",
            "variations in one another": "1. e4 e5 (1... c5 2. Nf3 (2. c3 {)} d5 (2... Nf6)) 2... d6) 2. Nf3 (2. f4 1-0) Nc6 3. Bb5 a6 *",
            "glyphs and NAGs": "1. e4 $1 e5$2 2. Nf3 ! Nc6 ?! 3. Bb5 +- a6 $146 = *",
            "a word for a capture in passing": "1. e4 e5 e.p. 2. Nf3 Nc6 3. Bb5 a6 *",
            "no space around comments": "1.e4{a}e5{b}2.Nf3(2.d4)Nc6;c\n3.Bb5 a6 *",
            "lines of Windows": "1. e4 e5\r\n% no move\r\n2. Nf3 ; no move\r\nNc6 3. Bb5 a6 *\r\n",
        }.items():
            self.assertEqual(words_of(text), "e4 e5 Nf3 Nc6 Bb5 a6", name)

    def test_words_stand_as_they_are(self):
        text = "1. e2-e4 e7e5 2. 0-0 O-O-O 3. Ngf3!? ed 4. e8Q+ e8=Q# 5. N1f3 -- *"
        self.assertEqual(words_of(text), "e2-e4 e7e5 0-0 O-O-O Ngf3!? ed e8Q+ e8=Q# N1f3 --")

    def test_a_percent_sign_within_a_line_begins_nothing(self):
        self.assertEqual(words_of("1. e4 %x e5 2. Nf3 *"), "e4 %x e5 Nf3")

    def test_a_number_is_no_castling_and_no_result(self):
        (game,) = read(b"1. 0-0 0-0-0 2. e4 0-1")
        self.assertEqual((game.words, game.result), (["0-0", "0-0-0", "e4"], "0-1"))


class Tags(unittest.TestCase):
    def test_values_are_unescaped(self):
        (game,) = read(b'[Event "The \\"Open\\" \\\\ it"] [ White  "A]" ]\n1. e4 *')
        self.assertEqual(game.tags, {"Event": 'The "Open" \\ it', "White": "A]"})

    def test_quotes_that_are_not_escaped_are_read(self):
        (game,) = read(b'[Event "The "Open" it"]\n[White "A"]\n\n1. e4 *')
        self.assertEqual(game.tags, {"Event": 'The "Open" it', "White": "A"})

    def test_an_unknown_value_is_none(self):
        (game,) = read(b'[Round "?"]\n[Board "-"]\n[White " A  B "]\n\n1. e4 *')
        self.assertEqual([game.tag(it) for it in ("Round", "Board", "White", "Black")], ["", "", "A B", ""])

    def test_names_are_read_in_utf_8_and_in_latin_1_and_behind_a_byte_order_mark(self):
        text = SHORT.replace("Steinitz", "Müller")
        for data in text.encode(), text.encode("latin-1"), text.encode("utf-8-sig"):
            self.assertEqual(read(data)[0].tags["White"], "Müller")
            self.assertEqual(read(data)[0].tags["Event"], "Club final")

    def test_a_text_that_ends_within_a_letter_stays_utf_8(self):
        text = SHORT.replace("Steinitz", "Müller") + '\n[Event "Grün'
        self.assertEqual(read(text.encode()[:-2])[0].tags["White"], "Müller")


class Games(unittest.TestCase):
    def test_the_results(self):
        text = "".join(SHORT.replace("1-0\n", f"{it}\n").replace('"1-0"', f'"{it}"') for it in ("1-0", "0-1", "1/2-1/2", "*"))
        self.assertEqual([it.result for it in read(text.encode())], ["1-0", "0-1", "1/2-1/2", "*"])

    def test_the_tag_result_may_differ_from_what_stands_behind_the_moves(self):
        for tag, behind, differs in (("1-0", "*", True), ("0-1", "1-0", True), ("1/2-1/2", "*", True), ("1-0", "1-0", False),
                                     ("*", "1-0", False), ("?", "*", False), ("won", "*", False), ("1-0", "", False)):
            (game,) = read(f'[Result "{tag}"]\n\n1. e4 e5 {behind}\n'.encode())
            said = f"its tag Result says {tag}, but {behind} stands behind its moves, and that counts"
            self.assertEqual(game.quarrel(), said if differs else None, (tag, behind))

    def test_a_game_without_its_result_ends_where_tags_begin(self):
        first, second = read((SHORT.replace("Nc6 1-0", "Nc6") + "\n" + SHORT).encode())
        self.assertEqual((first.words, first.result, first.is_open), (["e4", "e5", "Nf3", "Nc6"], None, False))
        self.assertEqual((second.words, second.result), (["e4", "e5", "Nf3", "Nc6"], "1-0"))

    def test_a_variation_without_its_end_does_not_swallow_the_next_game(self):
        first, second = read((SHORT.replace("Nc6 1-0", "Nc6 (2... d6 1-0") + "\n" + SHORT).encode())
        self.assertEqual((first.words, second.words), (["e4", "e5", "Nf3", "Nc6"],) * 2)

    def test_tags_without_moves_are_a_game_of_their_own(self):
        games = read(b'[Event "A"]\n[White "a"]\n\n[Event "B"]\n[White "b"]\n\n1. e4 *\n')
        self.assertEqual([(it.tags["White"], it.words) for it in games], [("a", []), ("b", ["e4"])])

    def test_a_file_of_no_game(self):
        for data in b"", b"\n\n", b"\xef\xbb\xbf", b"; nothing\n", b"{", b"*\n", b"[", b"(":
            self.assertEqual(read(data), [], data)

    def test_a_game_needs_no_tags(self):
        self.assertEqual(words_of("1. e4 e5 *"), "e4 e5")


class Cuts(unittest.TestCase):
    """A text that is cut off anywhere has the first words of the whole, and at most one more, which may go on."""

    TEXT = SHORT + """
[Event "Cut"]
[White "A"]

1. e4 {a comment} e5 (1... c5 2. Nf3) 2. Nf3 Nc6 $1 3. Bb5 a6 4. Ba4 Nf6 5. O-O Be7 6. Re1 b5 7. Bb3 O-O 8. a4 Bb7 9. d3 d6 10. Nc3 Na5
11. Ba2 b4 12. Ne2 c5 13. c3 Qb6 14. Bg5 h6 15. Bh4 bxc3 16. bxc3 c4 17. dxc4 Nxc4 18. Bxc4 Rfc8 19. Qd3 Qc6 20. Nd2 a5 1/2-1/2
"""

    def test_at_every_byte(self):
        whole = read(self.TEXT.encode())
        self.assertEqual(len(whole[1].words), 40)
        begins = self.TEXT.index('\n[Event "Cut"]')
        for end in range(begins, len(self.TEXT)):
            first, *others = read(self.TEXT[:end].encode())
            self.assertEqual((first.tags, first.words, first.result, first.is_open), (whole[0].tags, whole[0].words, "1-0", False))
            for game in others:
                sure = game.words[:-1] if game.is_open else game.words
                self.assertEqual(sure, whole[1].words[:len(sure)], self.TEXT[begins:end])
                self.assertTrue(game.words or game.is_open, self.TEXT[begins:end])
                self.assertEqual(game.result, "1/2-1/2" if end == len(self.TEXT) - 1 else None)

    def test_a_word_that_is_followed_by_anything_does_not_go_on(self):
        for tail, is_open in ("O-O", True), ("O-O ", False), ("O-O\n", False), ("O-O{", False), ("O-O{ab", False), ("O-O (1. e4", False):
            self.assertEqual([it.is_open for it in read(f"1. e4 {tail}".encode())], [is_open], tail)


class Sizes(unittest.TestCase):
    def test_long_comments_and_variations_that_are_deep(self):
        deep = "(1. d4 " * 2000 + ")" * 2000
        self.assertEqual(words_of(f"1. e4 {{{'x ( [' * 2500}}} {deep} e5 *"), "e4 e5")

    def test_ten_megabytes_are_read_in_seconds(self):
        began = time.monotonic()
        games = read((SHORT + "{" + "comment " * 100 + "}\n\n").encode() * 11000)
        self.assertEqual(len(games), 11000)
        self.assertLess(time.monotonic() - began, 30)


if __name__ == "__main__":
    unittest.main()
