"""No crate cites another's inside: of another crate's definitions none of specs/Inner/, and of its proofs those of proofs/lemmas/ alone."""
import pathlib
import re
import sys
import unittest

sys.path.insert(0, str(pathlib.Path(__file__).resolve().parents[1]))

from crates import ROOT, Crates  # noqa: E402

CITED = re.compile(r"\b(\w+)(?:\.|::)(?:specs(?:\.|::)Inner\b|proofs(?:\.|::)(?!lemmas\b))")


def sources(name):
    """The code, the definitions and the proofs of a crate."""
    for folder in ("src", "specs", "proofs"):
        for file in (ROOT / "crates" / name / folder).rglob("*"):
            if file.suffix in (".rt", ".antt"):
                yield file


class Rooms(unittest.TestCase):
    def test_no_crate_cites_another_ones_inside(self):
        crates = set(Crates())
        for name in crates:
            for file in sources(name):
                for other in CITED.findall(file.read_text()):
                    if other != name and other in crates:
                        self.fail(f"{file.relative_to(ROOT)} cites the inside of {other}")

    def test_all_proofs_but_the_lemmas_are_private(self):
        for name in set(Crates()):
            lib = ROOT / "crates" / name / "proofs" / "Lib.antt"
            if (lib.parent / "lemmas.antt").exists():
                self.assertEqual(re.findall(r"^pub mod (\w+)$", lib.read_text(), re.M), ["lemmas"], name)


if __name__ == "__main__":
    unittest.main()
