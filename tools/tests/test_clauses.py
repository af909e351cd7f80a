"""What tools/clauses.py reads of a file, and what it says of two."""
import pathlib
import sys
import unittest

sys.path.insert(0, str(pathlib.Path(__file__).resolve().parents[1]))

from clauses import Reader, compare, text_of  # noqa: E402

FILE = '''
//! A file. { pub fn none() }

ghost use Rattle.std.specs.Prelude.{◌≡◌, IfOk};

const TABLE: [u64; 2] = [1, 2];

/// A number.
pub struct Number {
    value: u64, // a } in a comment
}

impl Number {
    /// It says `ensures { nothing }`.
    #[tactic(auto)]
    pub fn value(&self) -> u64
        requires small { self.now.value < 8 }
        ensures { result ≡ self.now.value }
    {
        let text = "}"; if text.len() == 1 { self.value } else { 0 }
    }

    pub(crate) fn within(&self) -> u64
        ensures { result ≡ 0 }
    {
        0
    }
}

pub trait Bell {
    ghost use Rattle.std.specs.Prelude.{Bool};
    ghost rings: { Self → Bool };

    fn wait<'a, R>(&self, heard: &'a [u8; 4]) -> R
    where
        R: Wait,
        ensures first { rings self.now ≡ true }
        ensures { codes "}" ≡ heard };
}

impl Bell for Number {
    ghost view = { λ n. n.value };
    ghost rings = { λ _. true };

    fn wait(&self) -> char {
        '{'
    }
}

fn alone() {}

#[cfg(test)]
mod tests {
    pub fn helps() {}
}

pub fn last(
    number: u64,
) -> u64 {
    number
}
'''
WANTED = '''impl Number: pub fn value(&self) -> u64
    requires small { self.now.value < 8 }
    ensures { result ≡ self.now.value }
trait Bell: ghost rings: {Self → Bool}
trait Bell: fn wait<'a, R>(&self, heard: &'a [u8; 4]) -> R where R: Wait
    ensures first { rings self.now ≡ true }
    ensures { codes "}" ≡ heard }
impl Bell for Number: ghost rings = {λ _. true}
impl Bell for Number: fn wait(&self) -> char
pub fn last(number: u64) -> u64'''


def read(crate, text):
    return Reader(crate, text).read()


def step(clauses):
    return f"pub fn step(n: u64) -> u64 {clauses} {{ n }}"


class Reading(unittest.TestCase):
    def test_public_functions_and_methods_of_traits_are_read_with_their_clauses(self):
        self.assertEqual("\n".join(map(text_of, read("low", FILE))), WANTED)

    def test_how_lines_are_laid_out_is_no_difference(self):
        within = read("low", step("ensures { f (a b) }"))
        over_lines = read("low", "pub fn step(\n    n: u64,\n) -> u64\n    ensures { f (\n        a b\n    ) }\n{\n    n\n}")
        self.assertEqual(compare(within, over_lines), ([], "0 moved, 0 changed, 0 went, 0 came", False))


class Comparing(unittest.TestCase):
    def test_a_clause_that_is_another_is_told_with_both_texts(self):
        lines, counts, differs = compare(read("low", step("ensures { 1 ≤ n }")), read("low", step("ensures { 2 ≤ n }")))
        self.assertEqual(lines, ["changed in low: pub fn step(n: u64) -> u64", "  - ensures { 1 ≤ n }", "  + ensures { 2 ≤ n }"])
        self.assertEqual((counts, differs), ("0 moved, 1 changed, 0 went, 0 came", True))

    def test_a_clause_that_is_dropped_is_told(self):
        lines, _, differs = compare(read("low", step("requires { n < 2 } ensures { n ≡ n }")), read("low", step("ensures { n ≡ n }")))
        self.assertEqual((lines[1:], differs), (["  - requires { n < 2 }"], True))

    def test_a_function_that_goes_and_one_that_comes_are_told(self):
        lines, _, differs = compare(read("low", step("")), read("low", step("").replace("step", "leap")))
        self.assertEqual(lines, ["went from low: pub fn step(n: u64) -> u64", "came to low: pub fn leap(n: u64) -> u64"])
        self.assertTrue(differs)

    def test_a_move_to_another_crate_changes_no_clause(self):
        lines, _, differs = compare(read("low", step("")), read("high", step("")))
        self.assertEqual((lines, differs), (["moved from low to high: pub fn step(n: u64) -> u64"], False))

    def test_a_move_between_crates_of_tests_is_none(self):
        self.assertEqual(compare(read("a_tests", step("")), read("b_tests", step("")))[0], [])

    def test_of_two_functions_with_one_name_the_one_that_changed_is_told(self):
        both = "impl A { " + step("ensures { 1 }") + " } impl B { " + step("ensures { 1 }") + " }"
        other = both.replace("impl B { pub fn step(n: u64) -> u64 ensures { 1 }", "impl B { pub fn step(n: u64) -> u64")
        lines, _, _ = compare(read("low", both), read("low", other))
        self.assertEqual(lines, ["changed in low: impl B: pub fn step(n: u64) -> u64", "  - ensures { 1 }"])


if __name__ == "__main__":
    unittest.main()
