"""What bench/instructions says of counts, with stand-ins for `rt`, for valgrind and for the program that is counted."""
import pathlib
import shutil
import subprocess
import sys
import tempfile
import unittest

TOP = pathlib.Path(__file__).resolve().parents[2]
KIT = "kit 7 logic 0a1b"
WORKLOADS = "long jobs long SEED 300\nshort jobs short SEED 7\n"

# It tells the count that stands beside it for these words of the program, as callgrind does, and ends as the program does.
VALGRIND = """#!{python} -B
import pathlib, subprocess, sys
at = next(at for at, word in enumerate(sys.argv[1:], 1) if not word.startswith("-"))
assert "--tool=callgrind" in sys.argv[1:at]
status = subprocess.run(sys.argv[at:]).returncode
counts = dict(line.split("=") for line in pathlib.Path(__file__).with_name("counts").read_text().splitlines())
print("==7== Events    : Ir\\n==7== Collected :", counts[" ".join(sys.argv[at + 1:])], file=sys.stderr)
sys.exit(status)
"""


class Counts(unittest.TestCase):
    def setUp(self):
        self.room = pathlib.Path(self.enterContext(tempfile.TemporaryDirectory()))
        self.noted = self.room / "bench/instructions.txt"
        self.program = self.room / "crates/jobs/out/jobs"
        for folder in ("bench", "bin", self.program.parent):
            (self.room / folder).mkdir(parents=True)
        shutil.copy(TOP / "bench/instructions", self.room / "bench")
        (self.room / "bench/workloads.txt").write_text(WORKLOADS)
        self.write_program("exit 0")
        self.make("bin/rt", f"#!/bin/sh\n[ \"$1\" = version ] && echo '{KIT}'\n")
        self.make("bin/valgrind", VALGRIND.format(python=sys.executable))
        self.take(long=1000, short=1000)
        self.note(f"kit {KIT}", "long 1000", "short 1000")

    def make(self, name, text):
        path = self.room / name
        path.write_text(text)
        path.chmod(0o755)

    def write_program(self, line):
        self.make(self.program, f"#!/bin/sh\n{line}\n")

    def take(self, long, short):
        """How many instructions the program takes for a tenth of each workload."""
        (self.room / "bin/counts").write_text(f"long 1 30={long}\nshort 1 1={short}\n")

    def note(self, *lines):
        self.noted.write_text("# Counts.\n" + "".join(f"{line}\n" for line in lines))

    def ends(self, *words):
        """The status of bench/instructions; what it says is kept."""
        run = subprocess.run([sys.executable, "-B", self.room / "bench/instructions", *words], env={"PATH": str(self.room / "bin")},
                             capture_output=True, text=True, check=False)
        self.said = run.stdout + run.stderr
        return run.returncode

    def test_the_counts_that_are_noted_pass(self):
        self.assertEqual(self.ends(), 0, self.said)
        self.assertIn("long: 1,000 instructions, 1.0000 times the 1,000 that are noted: as noted", self.said)

    def test_two_percent_more_pass_and_four_fail(self):
        for long, short, status in ((1020, 1020, 0), (1030, 1030, 0), (1031, 1000, 1), (1040, 1000, 1), (1000, 1040, 1)):
            with self.subTest(long=long, short=short):
                self.take(long, short)
                self.assertEqual(self.ends(), status, self.said)
                self.assertEqual(self.said.count("too much"), status)

    def test_fewer_pass_and_are_to_be_noted(self):
        self.take(long=960, short=1000)
        self.assertEqual(self.ends(), 0, self.said)
        self.assertIn("long: 960 instructions, 0.9600 times the 1,000 that are noted: much less", self.said)

    def test_it_is_skipped_without_valgrind(self):
        (self.room / "bin/valgrind").unlink()
        self.take(long=2000, short=2000)
        self.assertEqual(self.ends(), 0)
        self.assertEqual(self.said, "bench/instructions: skipped: there is no valgrind (apt-get install valgrind)\n")

    def test_it_is_skipped_with_another_kit(self):
        self.take(long=2000, short=2000)
        self.note("kit another", "long 1000", "short 1000")
        self.assertEqual(self.ends(), 0)
        self.assertEqual(self.said, f"bench/instructions: skipped: the counts are of another, and the kit is {KIT}\n")

    def test_a_program_that_fails_fails(self):
        self.write_program("exit 2")
        self.assertEqual(self.ends(), 1)
        self.assertIn("ended with 2", self.said)

    def test_a_program_that_is_not_built_fails(self):
        self.program.unlink()
        self.assertEqual(self.ends(), 1)
        self.assertIn(f"not built: {self.program}", self.said)

    def test_a_workload_that_is_not_noted_fails_and_so_does_one_that_is_gone(self):
        for lines in (["long 1000"], ["long 1000", "short 1000", "gone 1000"]):
            with self.subTest(lines=lines):
                self.note(f"kit {KIT}", *lines)
                self.assertEqual(self.ends(), 1)
                self.assertIn("other workloads are noted than there are", self.said)

    def test_counts_are_noted_anew(self):
        self.take(long=5000, short=70)
        self.note("kit another", "long 1000")
        self.assertEqual(self.ends("--write"), 0, self.said)
        lines = self.noted.read_text().splitlines()
        self.assertEqual(lines[1:], [f"kit {KIT}", "long 5000", "short 70"])
        self.assertTrue(lines[0].startswith("#"))
        self.assertEqual(self.ends(), 0, self.said)

    def test_nothing_is_noted_without_valgrind_or_without_the_kit(self):
        for missing in ("bin/valgrind", "bin/rt"):
            with self.subTest(missing=missing):
                (self.room / missing).rename(self.room / "aside")
                before = self.noted.read_text()
                self.assertEqual(self.ends("--write"), 1)
                self.assertEqual(self.noted.read_text(), before)
                (self.room / "aside").rename(self.room / missing)

    @unittest.skipUnless(shutil.which("valgrind"), "there is no valgrind")
    def test_valgrind_itself_counts_a_program_twice_alike(self):
        self.make("bin/valgrind", f"#!/bin/sh\nexec {shutil.which('valgrind')} \"$@\"\n")
        self.program.unlink()
        self.program.symlink_to(shutil.which("true"))
        self.assertEqual(self.ends("--write"), 0, self.said)
        first = self.noted.read_text()
        self.assertGreater(int(first.split()[-1]), 10_000)
        self.assertEqual(self.ends("--write"), 0, self.said)
        self.assertEqual(self.noted.read_text(), first)
        self.assertEqual(self.ends(), 0, self.said)


class Noted(unittest.TestCase):
    def test_each_workload_has_its_count(self):
        workloads = [line.split()[0] for line in (TOP / "bench/workloads.txt").read_text().splitlines()]
        lines = [line.split() for line in (TOP / "bench/instructions.txt").read_text().splitlines() if not line.startswith("#")]
        self.assertEqual([it[0] for it in lines], ["kit", *workloads])
        self.assertTrue(all(int(count) > 10_000_000 for _, count in lines[1:]))
