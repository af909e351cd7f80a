"""Wrong bodies: how their files are read, which functions they change, and what counts as refused. A small crate is checked by the kit."""
import contextlib
import io
import pathlib
import shutil
import signal
import sys
import tempfile
import threading
import time
import unittest
from unittest import mock

TOP = pathlib.Path(__file__).resolve().parents[2]
sys.path.insert(0, str(TOP / "tools"))

import refused  # noqa: E402
from crates import Crates  # noqa: E402
from edits import BadEdit, Edit, alone_in_copy, copies_of  # noqa: E402
from sources import functions_of, module_of  # noqa: E402

SHAPES = """//! Shapes.

const SIDES: u32 = 4;

pub trait Shape {
    /// How long it is around.
    fn around(&self) -> u32
        ensures { result ≡ self.now.0 };

    fn sides(&self) -> u32 {
        SIDES
    }
}

impl<T: Copy> Pair<T>
where
    T: Shape,
{
    pub(crate) fn first(&self) -> T
        ensures {
            result ≡ self.now.0
        }
    {
        self.0.iter().map(|it| it).first()
    }
}

impl<'a, R: Wait> fmt::Shape for Square<'a, R> {
    fn around(&self) -> u32 { self.0 }
}

impl<S: Shape, const ROOM: usize> From<Vec<u8, ROOM>> for S {
    fn from(given: Vec<u8, ROOM>) -> S {
        given.0
    }
}

pub fn law()
    ensures { ⊤ }
{}

pub fn first(
    a: u32,
) -> u32 {
    a
}
"""

ROOT = """//! Numbers.
#![tactic(auto)]

ghost use Rattle.std.specs.Prelude.{◌≡◌};

/// The number itself.
pub fn same(x: usize) -> usize
    ensures { result ≡ x }
{
    x
}

/// The number, by way of two calls.
pub fn twice(x: usize) -> usize
    ensures { result ≡ x }
{
    same(same(x))
}
"""


class Scene(unittest.TestCase):
    """A repository with one crate."""

    def setUp(self):
        room = tempfile.TemporaryDirectory(dir="/var/tmp")
        self.addCleanup(room.cleanup)
        self.top = pathlib.Path(room.name)
        self.folder = self.top / "crates/numbers"
        (self.folder / "src").mkdir(parents=True)
        (self.folder / "refused").mkdir()
        (self.top / "crates.txt").write_text("numbers:\n")
        (self.folder / "src/lib.rt").write_text(ROOT)
        (self.folder / "src/shapes.rt").write_text(SHAPES)

    def edit(self, name, *changes, file="src/lib.rt", functions=""):
        path = self.folder / f"refused/{name}.edit"
        named = f"functions: {functions}\n" if functions else ""
        path.write_text(f"{named}file: {file}\n" + "".join(f"old: {old}\nnew: {new}\n" for old, new in changes))
        return path


class Reading(Scene):
    def test_each_function_has_the_name_that_the_checker_gives_it(self):
        found = {it.path: SHAPES[it.start:it.end] for it in functions_of(SHAPES, module_of("src/shapes.rt"))}
        names = ["Shape::around", "Shape::sides", "Pair::first", "SquareShape::around", "AnyFromVecU8::from", "law", "first"]
        self.assertEqual(list(found), [f"shapes::{it}" for it in names])
        self.assertTrue(found["shapes::Pair::first"].rstrip().endswith("first()\n    }"))
        self.assertTrue(found["shapes::law"].rstrip().endswith("{}"))
        self.assertIn("    a\n}", found["shapes::first"])
        self.assertEqual([module_of(it) for it in ("src/lib.rt", "src/main.rt", "src/a/b.rt", "src/a/mod.rt")], ["", "", "a::b", "a"])

    def test_the_attributes_above_a_function_are_lines_of_it(self):
        text = "use a::b;\n#[inline]\n#[cold]\nfn first() {\n}\n\nimpl Pair {\n    #[inline]\n    fn second() {\n    }\n}\n"
        found = {it.path: (it.lines, text[it.start:it.end].split("\n")[0].strip()) for it in functions_of(text, "")}
        self.assertEqual(found, {"first": (range(2, 6), "#[inline]"), "Pair::second": (range(8, 11), "#[inline]")})

    def test_an_edit_changes_the_functions_in_which_its_texts_stand(self):
        edit = Edit(self.edit("both", ("        SIDES", "        SIDES + 1"), ("    a: u32,", "    b: u32,"),
                              ("    b: u32,", "    a: u32,"), file="src/shapes.rt"))
        self.assertEqual((edit.functions, edit.is_alone), (["shapes::Shape::sides", "shapes::first"], True))
        edit = Edit(self.edit("one", ("        SIDES", "        SIDES + 1"), file="src/shapes.rt"))
        self.assertEqual((edit.functions, edit.is_alone), (["shapes::Shape::sides"], False))

    def test_a_method_of_a_type_that_is_declared_elsewhere_is_named_after_its_place(self):
        (self.folder / "src/lib.rt").write_text("pub struct Pair(u32);\n")
        edit = Edit(self.edit("elsewhere", ("        self.0.iter()", "        self.1.iter()"), file="src/shapes.rt"))
        self.assertEqual(edit.functions, ["Pair::first"])

    def test_an_edit_of_a_constant_names_the_functions_that_it_concerns(self):
        changes = ("const SIDES: u32 = 4;", "const SIDES: u32 = 5;")
        self.assertRaisesRegex(BadEdit, "functions: ", Edit, self.edit("unnamed", changes, file="src/shapes.rt"))
        edit = Edit(self.edit("named", changes, file="src/shapes.rt", functions="shapes::Shape::sides"))
        self.assertEqual((edit.functions, edit.is_alone), (["shapes::Shape::sides"], True))

    def test_an_edit_that_cannot_be_applied_is_a_bad_one(self):
        for name, changes in (("lost", ("nowhere", "x")), ("several", ("usize", "u32")), ("none", ())):
            self.assertRaises(BadEdit, Edit, self.edit(name, *([changes] if changes else [])))
        self.assertRaisesRegex(BadEdit, "no file of src/", Edit, self.edit("of_a_definition", ("a", "b"), file="specs/Numbers.antt"))

    def test_edits_of_different_functions_share_a_copy(self):
        same = [Edit(self.edit(f"same{at}", ("    x", f"    x + {at}"))) for at in range(2)]
        other = Edit(self.edit("other", ("    same(same(x))", "    same(x)")))
        changes = (("const SIDES: u32 = 4;", "const SIDES: u32 = 5;"), ("        SIDES", "        SIDES + 1"))
        apart = Edit(self.edit("apart", *changes, file="src/shapes.rt"))
        copies = copies_of([*same, other, apart], 12)
        self.assertEqual([[it.key for it in copy.edits] for copy in copies],
                         [["numbers/same0.edit", "numbers/other.edit"], ["numbers/same1.edit"], ["numbers/apart.edit"]])
        self.assertEqual(len(copies_of([*same, other], 1)), 3)


class Verdicts(Scene):
    """What the checker says, in its own words, and what it comes to."""

    def verdict(self, output, status=1):
        edit = Edit(self.edit("wrong", ("    same(same(x))", "    same(x) + 1")))
        said = refused.Trial(Crates(self.top), self.top, None).verdict(edit, alone_in_copy(edit), status, output)
        return said.is_refused, said.why

    def test_an_open_goal_of_the_function_itself_is_a_refusal(self):
        no_proof = "fn numbers::twice: no proof: expected answers in ./proofs/twice/Answers.antt; `search` did not prove `returns`"
        for said in (f"{no_proof}\n", f"{no_proof}; it calls `numbers::same`, which is not proved\n",
                     "./proofs/twice/Answers.antt:9:56: error: `returns`: the two types differ\nfn numbers::twice: not proved\n",
                     "./proofs/twice/Answers.antt:3:5: error: `returns`: module `Goals` has no `returns` that can be named from here\n"
                     "note: src/lib.rt:14:1: it is not proved that what the function ensures holds (`returns-then`)\n"
                     "fn numbers::twice: not proved\n",
                     "fn numbers::fn::twice::map+FnOnce::call_once: no proof: `search` did not prove `returns`\n"
                     "fn numbers::twice: proved\n"):
            self.assertTrue(self.verdict(said)[0], said)

    def test_anything_else_is_none(self):
        for said, status in (("fn numbers::twice: proved\n", 0),
                             ("fn numbers::twice: no proof: it calls `numbers::same`, which is not proved\n", 1),
                             ("./proofs/same/Answers.antt:9:56: error: `returns`: the two types differ\nfn numbers::same: not proved\n"
                              "fn numbers::twice: not proved\n", 1),
                             ("./proofs/twice/Answers.antt:3:5: error: `returns`: `sum` is not in scope\n"
                              "fn numbers::twice: not proved\n", 1),
                             ("./proofs/twice/Answers.antt:3:5: error: `returns`: module `Goals` has no `returns` that can be named\n"
                              "note: src/lib.rt:7:1: it is not proved that what the function ensures holds (`returns-then`)\n"
                              "fn numbers::twice: not proved\n", 1),
                             ("src/lib.rt:17:5: error[no-such-method]: ..\n", 1),
                             ("fn numbers::twice: could not tell\n", 3),
                             ("`search` did not prove `returns`\n", 2),
                             ("", -24)):
            self.assertFalse(self.verdict(said, status)[0], said)


class Time(unittest.TestCase):
    def test_a_check_that_takes_too_long_is_ended(self):
        with mock.patch.object(refused, "SECONDS_OF_COPY", 1):
            status, _ = refused.ended([sys.executable, "-c", "while True: pass"], "/")
        self.assertIn(status, (-signal.SIGXCPU, -signal.SIGKILL))


class Kept(Scene):
    """What one check has proved is there for the next ones of its crate."""

    def names(self, folder):
        return sorted(it.name for it in folder.iterdir())

    def test_each_check_but_the_first_begins_with_what_one_before_it_has_left(self):
        proofs = refused.KeptProofs(self.top)
        for before, name in (([], "a.oantt"), (["a.oantt"], "b.oantt"), (["a.oantt", "b.oantt"], "list")):
            with proofs.lent("numbers") as folder:
                self.assertEqual(self.names(folder), before)
                (folder / name).write_text(name)
        with proofs.lent("letters") as folder:
            self.assertEqual(self.names(folder), [])

    def test_a_check_changes_nothing_of_what_another_works_with(self):
        proofs = refused.KeptProofs(self.top)
        with proofs.lent("numbers") as folder:
            (folder / "list").write_text("one")
        with proofs.lent("numbers") as one, proofs.lent("numbers") as other:
            (one / "list").write_text("another")
            self.assertEqual((other / "list").read_text(), "one")

    def test_the_first_check_of_a_crate_is_waited_for(self):
        proofs, seen = refused.KeptProofs(self.top), []

        def second():
            with proofs.lent("numbers") as folder:
                seen.append(self.names(folder))
        with proofs.lent("numbers") as folder:
            waiting = threading.Thread(target=second)
            waiting.start()
            with proofs.lent("letters"):
                (folder / "a.oantt").write_text("checked")
        waiting.join()
        self.assertEqual(seen, [["a.oantt"]])

    def test_of_few_crates_it_is_kept(self):
        proofs = refused.KeptProofs(self.top)
        for name in ("numbers", *map(str, range(refused.MOST_KEPT))):
            with proofs.lent(name) as folder:
                (folder / "a.oantt").write_text("checked")
        self.assertFalse(list(self.top.glob("numbers-proved-*")))
        for name, kept in (("numbers", []), (str(refused.MOST_KEPT - 1), ["a.oantt"])):
            with proofs.lent(name) as folder:
                self.assertEqual(self.names(folder), kept, name)


class Libraries(Scene):
    def test_they_are_linked_away_until_nobody_needs_one_any_more(self):
        """Else their folder, which goes then, would be made again by one that is proved later."""
        made, log = self.folder / "out/rlib/numbers.rlib", self.top / "log"
        made.mkdir(parents=True)
        (made / "format").write_text("numbers\n")
        log.write_text("rt: numbers proved\n")
        beside = refused.Beside(Crates(self.top), self.top, self.top / "scratch")
        linked, before = beside.library_of("numbers") / "format", threading.active_count()
        with beside.linking():
            until = time.monotonic() + 60
            while not linked.is_file() and time.monotonic() < until:
                time.sleep(0.01)
        self.assertEqual(linked.read_text(), "numbers\n")
        self.assertEqual(threading.active_count(), before)


@unittest.skipIf(shutil.which("rattle") is None, "rattle, a command of the kit, is not on the PATH")
class ByTheKit(Scene):
    """Each kind of edit, told apart by the checker itself."""

    def setUp(self):
        super().setUp()
        (self.folder / "src/shapes.rt").unlink()

    def tried(self, name="numbers"):
        crates = Crates(self.top)
        edits, bad = refused.edits_in(crates, [name], "refused")
        trial = refused.Trial(crates, self.top, None)
        with contextlib.redirect_stdout(io.StringIO()):
            for copy in copies_of(edits[name], 12):
                trial.try_copy(name, copy)
        return {it.edit.key.partition("/")[2]: it.is_refused for it in trial.verdicts}, trial.count, bad

    def test_only_a_wrong_body_is_refused(self):
        self.edit("one_more", ("    x", "    x.wrapping_add(1)"))
        self.edit("means_the_same", ("    same(same(x))", "    same(x)"))
        self.assertEqual(self.tried(), ({"one_more.edit": True, "means_the_same.edit": False}, 2, []))

    def test_an_edit_that_does_not_compile_is_not_refused(self):
        self.edit("no_such_function", ("    same(same(x))", "    same(other(x))"))
        self.assertEqual(self.tried(), ({"no_such_function.edit": False}, 1, []))

    def test_a_function_that_only_calls_an_edited_one_is_not_refused(self):
        self.edit("of_the_other", ("    x", "    x.wrapping_add(1)"), functions="twice")
        self.assertEqual(self.tried(), ({"of_the_other.edit": False}, 1, []))

    def test_a_crate_of_tests_is_read_with_its_tests(self):
        (self.folder / "src/lib.rt").write_text(ROOT.replace("/// The number itself.", "#[cfg(test)]")
                                                .replace("/// The number, by way of two calls.", "#[cfg(test)]"))
        self.edit("one_more", ("    x", "    x.wrapping_add(1)"))
        self.edit("means_the_same", ("    same(same(x))", "    same(x)"))
        self.folder.rename(self.top / "crates/numbers_tests")
        (self.top / "crates.txt").write_text("numbers_tests:\n")
        self.assertEqual(self.tried("numbers_tests"), ({"one_more.edit": True, "means_the_same.edit": False}, 2, []))


if __name__ == "__main__":
    unittest.main()
