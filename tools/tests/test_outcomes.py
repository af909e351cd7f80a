"""The Python programs' table of outcomes has the texts of the program, and what FIDE's Laws say of each. Programs and pages agree with the
definitions on which ends come by themselves."""
import pathlib
import re
import sys
import unittest

TOP = pathlib.Path(__file__).resolve().parents[2]
sys.path += [str(TOP / "tools"), str(TOP / "apps/pgn_in")]

from plan import BY_ITSELF  # noqa: E402
from relay_client.outcomes import GOING_ON, OUTCOMES, has_result, outcome_of  # noqa: E402

SPECS = TOP / "crates/c960_game/specs"
# The ends that a definition names: that of what ends a game by itself (the draws apart), and that of what somebody enters.
OF_THEMSELVES, ENTERED = ("Ends.antt", "Draws.antt"), ("Ending.antt",)
VARIANTS = re.compile(r"^use Rattle\.c960_game\.specs\.declared\.outcome\.Outcome\.TheVariants\.\{(.+)\}$", re.M)
ROW = re.compile(r'^outcome_text \(?(\w+)[^=]*= codes "([^"]+)"$', re.M)
OF_PAGES = re.compile(r'^    "([^"]+)": \[.*, BY_ITSELF\],$', re.M)
TEXTS = re.compile(r"pub fn text\(&self\).*?\n    }\n", re.S)
# Of Articles 5.1, 5.2, 6.9, 9.2, 9.3 and 9.6. An arbiter's decision has its result in its text.
RESULTS = {
    "1-0": {"white mates", "black resigns", "black loses on time", "white wins by decision"},
    "0-1": {"black mates", "white resigns", "white loses on time", "black wins by decision"},
    "1/2-1/2": {"stalemate", "agreed", "threefold", "fifty moves", "fivefold", "seventy-five moves", "drawn by decision"},
    "*": {"abandoned"},
}
# Of the PGN standard, 9.8.1.
TERMINATIONS = {"abandoned": {"abandoned"}, "time forfeit": {"white loses on time", "black loses on time"},
                "adjudication": {"white wins by decision", "black wins by decision", "drawn by decision"}}


class Table(unittest.TestCase):
    def test_it_has_the_texts_of_the_program_and_no_others(self):
        body = TEXTS.search((TOP / "crates/c960_game/src/outcome.rt").read_text())[0]
        texts = re.findall(r'=> "([^"]+)"', body)
        self.assertEqual(len(texts), len(set(texts)))
        self.assertEqual(set(OUTCOMES), set(texts))

    def test_each_result(self):
        for result, texts in RESULTS.items():
            self.assertEqual({text for text, it in OUTCOMES.items() if it.result == result}, texts)

    def test_each_word_for_the_termination(self):
        for word, texts in TERMINATIONS.items():
            self.assertEqual({text for text, it in OUTCOMES.items() if it.termination == word}, texts)
        self.assertEqual({it.termination for it in OUTCOMES.values()} - set(TERMINATIONS), {"normal"})

    def test_an_outcome_of_a_later_relay_is_told_as_its_text_and_its_result_is_open(self):
        self.assertEqual(outcome_of("white forfeits {so}"), ("*", "white forfeits so", "unterminated"))
        self.assertEqual(GOING_ON, ("*", "", "unterminated"))

    def test_all_but_an_abandoned_game_have_a_result(self):
        self.assertEqual([text for text in OUTCOMES if not has_result(text)], ["abandoned"])
        self.assertFalse(has_result(None))


def texts_of(files):
    """The texts of the outcomes that some definitions name."""
    lists = [VARIANTS.search((SPECS / it).read_text())[1] for it in files]
    named = {it.split(" ")[0] for variants in lists for it in variants.split(", ")}
    return {text for variant, text in ROW.findall((SPECS / "Outcome.antt").read_text()) if variant in named}


class ByItself(unittest.TestCase):
    def test_an_end_comes_by_itself_or_somebody_enters_it(self):
        self.assertEqual(texts_of(OF_THEMSELVES) | texts_of(ENTERED), set(OUTCOMES))
        self.assertEqual(texts_of(OF_THEMSELVES) & texts_of(ENTERED), set())

    def test_programs_and_pages_have_the_ends_that_come_by_themselves(self):
        self.assertEqual(set(BY_ITSELF), texts_of(OF_THEMSELVES))
        self.assertEqual(set(OF_PAGES.findall((TOP / "web/outcomes.js").read_text())), texts_of(OF_THEMSELVES))


if __name__ == "__main__":
    unittest.main()
