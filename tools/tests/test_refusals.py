"""`bench/refusals.py --tests` fails for a test that meets no refusal, unless its list says so."""
import contextlib
import importlib
import io
import pathlib
import subprocess
import sys
import tempfile
import unittest
from unittest import mock

TOP = pathlib.Path(__file__).resolve().parents[2]
CRATE = "some_tests"


def imported():
    """The program as a module. It imports two modules whose names others have too, in other folders."""
    path, others = list(sys.path), {name: sys.modules.pop(name) for name in ("games", "runs") if name in sys.modules}
    sys.path.insert(0, str(TOP / "bench"))
    try:
        return importlib.import_module("refusals")
    finally:
        sys.path[:] = path
        del sys.modules["games"], sys.modules["runs"]
        sys.modules.update(others)


refusals = imported()


class Met(unittest.TestCase):
    """The tests are stand-ins that ask for a number of allocations each; one fails where a certain one is refused."""

    def status(self, asked, takes_none=(), least=(), fails_at=None):
        def run_refused(number, words, allocator, mark):
            mark.unlink(missing_ok=True)
            if number <= asked[words[1]]:
                mark.touch()
            return subprocess.CompletedProcess(words, 1 if number == fails_at else 0, b"", b"")

        with tempfile.TemporaryDirectory() as room, contextlib.ExitStack() as changed:
            for name, value in (("TESTS", {CRATE: list(asked)}), ("TAKE_NONE", {*takes_none}), ("LEAST", dict(least)),
                                ("run_refused", run_refused)):
                changed.enter_context(mock.patch.object(refusals, name, value))
            self.said = io.StringIO()
            changed.enter_context(contextlib.redirect_stdout(self.said))
            return refusals.refuse_in_tests("allocator", pathlib.Path(room, "met"))

    def test_one_that_meets_a_refusal_passes(self):
        self.assertEqual(self.status({"takes": 1, "takes_more": 3}), 0)

    def test_one_that_meets_none_fails(self):
        self.assertEqual(self.status({"takes": 1, "takes_no_more": 0}), 1)
        self.assertIn("takes_no_more: it meets fewer than 1", self.said.getvalue())

    def test_one_that_takes_none_passes_where_the_list_says_so(self):
        self.assertEqual(self.status({"takes": 1, "takes_none": 0}, takes_none=["takes_none"]), 0)

    def test_one_that_takes_some_fails_where_the_list_says_that_it_takes_none(self):
        self.assertEqual(self.status({"takes": 1}, takes_none=["takes"]), 1)

    def test_one_that_meets_only_the_refusals_of_another_fails(self):
        self.assertEqual(self.status({"takes_two": 1}, least={"takes_two": 2}), 1)
        self.assertEqual(self.status({"takes_two": 2}, least={"takes_two": 2}), 0)

    def test_a_run_that_fails_fails(self):
        self.assertEqual(self.status({"takes": 3}, fails_at=2), 1)


class Listed(unittest.TestCase):
    def test_what_is_said_of_a_test_is_said_of_one_of_the_list(self):
        names = {name for listed in refusals.TESTS.values() for name in listed}
        self.assertLessEqual(refusals.TAKE_NONE | refusals.LEAST.keys(), names)
        self.assertFalse(refusals.TAKE_NONE & refusals.LEAST.keys())

    def test_each_test_is_there(self):
        for crate, names in refusals.TESTS.items():
            for name in names:
                *folders, function = name.split("::")
                text = (TOP / "crates" / crate / "src" / pathlib.Path(*folders)).with_suffix(".rt").read_text()
                self.assertRegex(text, rf"#\[test\]\nfn {function}\(", name)


if __name__ == "__main__":
    unittest.main()
