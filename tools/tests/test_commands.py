"""What try.sh, run.sh, check.sh, planted.sh, package.sh and .ci/quick say and do, on a small repository and with stand-ins for `rt` and
`rattle`."""
import os
import pathlib
import re
import shutil
import socket
import subprocess
import sys
import tempfile
import unittest
from unittest import mock

TOP = pathlib.Path(__file__).resolve().parents[2]
sys.path.insert(0, str(TOP / "tools"))

import planted  # noqa: E402
import refused  # noqa: E402
from build import Plan  # noqa: E402
from crates import Crates  # noqa: E402
from workplace import most_jobs, width_of_machine  # noqa: E402

# Each writes what it was asked in `calls`, makes what the true one makes, and refuses the crates and the edits that are named in `wrong`.
# The first stands for `rt`, `rattle` and `rattle-link`. `rattle` is killed in the crates that are named in `killed`, but for one job, and
# while those that are named in `edited` are proved `low` is edited.
KIT = r'''#!/usr/bin/env -S python3 -B
import os, pathlib, signal, sys, time
folder, words = pathlib.Path.cwd(), sys.argv[1:]
state = pathlib.Path(os.environ["RT_STAND_IN"])
made = pathlib.Path(words[words.index("-o") + 1]) if "-o" in words else None
named = lambda file: (state / file).read_text().split() if (state / file).exists() else []
def make_program(path):
    path.write_text("#!/bin/sh\necho the program: \"$@\"\n")
    path.chmod(0o755)
if pathlib.Path(sys.argv[0]).name == "rattle-link":
    assert pathlib.Path(words[words.index("-o") + 2]).read_text() == "compiled"
    make_program(made)
    sys.exit()
with (state / "calls").open("a") as calls:
    calls.write(f"{time.monotonic()} {folder.name}: {' '.join(words)}\n")
wrong = named("wrong")
out = folder / "out"
if words[:1] == ["version"]:
    print("stand-in")
elif words[:1] == ["try"]:
    print("\n".join(words))
elif words[:1] == ["check"] and "--only" in words:
    crate = words[words.index("--crate-name") + 1]
    for before, it in zip(words, words[1:]):
        if before == "--only":
            print(f"fn {crate}::{it}: " + ("proved" if it in wrong else "no proof: `search` did not prove `returns`"))
    sys.exit(1)
elif words[0] in ("build", "lib", "run", "check", "test"):
    meets = (state / "meet").exists() and words[0] == "build" and folder.name in ("left", "right")
    both = [f"{it}: build" for it in ("left", "right")] if meets else []
    until = time.monotonic() + 60
    while not all(it in (state / "calls").read_text() for it in both) and time.monotonic() < until:
        time.sleep(0.05)
    if folder.name in wrong:
        print(f"{folder.name} is wrong")
        sys.exit(1)
    if folder.name in named("edited"):
        (folder.parent / "low/src/lib.rt").write_text("//! low, edited.\n")
    if folder.name in named("killed") and words[words.index("--jobs") + 1] != "1":
        os.kill(os.getpid(), signal.SIGKILL)
    (state / f"{folder.name}.niceness").write_text(str(os.getpriority(os.PRIO_PROCESS, 0)))
    if words[0] == "lib":
        (out / "rlib").mkdir(parents=True, exist_ok=True)
        (out / "rlib/stamp").write_text(folder.name)
    elif "--statements" in words:
        (made / "toolchain").mkdir(parents=True, exist_ok=True)
        (made / "toolchain/made.json").write_text(folder.name)
    elif words[0] == "build":
        made.write_text("compiled")
    elif words[0] == "run":
        out.mkdir(exist_ok=True)
        make_program(out / folder.name)
with (state / "calls").open("a") as calls:
    calls.write(f"{time.monotonic()} {folder.name}: ended\n")
'''
CRATES = """low: arrayvec
left: low
right: low
left_tests: left low
relay960: low left right
"""


def write(path, text, mode=0o644):
    path.parent.mkdir(parents=True, exist_ok=True)
    path.write_text(text)
    path.chmod(mode)


class Commands(unittest.TestCase):
    """Five crates: `left` and `right` depend on `low`, the program on all three, and the tests of `left` are in a separate crate."""

    def setUp(self):
        room = tempfile.TemporaryDirectory(dir="/var/tmp")
        self.addCleanup(room.cleanup)
        self.state = pathlib.Path(room.name)
        self.top = self.state / "top"
        for name in ("try.sh", "run.sh", "check.sh", "planted.sh", "tools", "HANDLES"):
            copy = shutil.copytree if (TOP / name).is_dir() else shutil.copy2
            self.top.mkdir(exist_ok=True)
            copy(TOP / name, self.top / name)
        write(self.top / "crates.txt", CRATES)
        write(self.top / "tools/seconds.txt", "low 100\nleft 200\nright 50\nrelay960 30\nleft_tests:tests 70\n")
        for name in ("low", "left", "right"):
            write(self.top / f"crates/{name}/src/lib.rt", f"//! {name}.\n")
        write(self.top / "crates/left_tests/src/lib.rt", "#[test]\nfn holds() {}\n")
        write(self.top / "crates/relay960/src/main.rt", "fn main() {}\n")
        for it in ("rt", "rattle", "rattle-link"):
            write(self.state / "bin" / it, KIT, 0o755)
        self.env = {**os.environ, "PATH": f"{self.state}/bin:{os.environ['PATH']}", "RT_STAND_IN": str(self.state)}

    def run_it(self, *words):
        return subprocess.run([self.top / words[0], *words[1:]], env=self.env, capture_output=True, text=True, timeout=600,
                              stdin=subprocess.DEVNULL)

    def is_wrong(self, *names):
        write(self.state / "wrong", " ".join(names))

    def calls(self):
        """The calls of `rt` and of `rattle` that do some work, with when they began and ended. A crate's copy is a folder `NAME-1`."""
        found, file = [], self.state / "calls"
        for line in file.read_text().splitlines() if file.exists() else []:
            when, _, call = line.partition(" ")
            name, _, what = call.partition(": ")
            if what == "ended":
                for it in found:
                    if it[0] == name and it[3] is None:
                        it[3] = float(when)
            elif what != "version":
                found.append([name, what, float(when), None])
        file.unlink(missing_ok=True)
        return found

    def edits(self, name, *edits):
        """An edit for each of these functions, which the crate has then."""
        lines = [f"fn {it}() -> u32 {{\n    // {it}\n    1\n}}\n" for it in edits]
        with (self.top / f"crates/{name}/src/lib.rt").open("a") as file:
            file.write("\n".join(lines))
        for it in edits:
            write(self.top / f"crates/{name}/planted/{it}.edit", f"file: src/lib.rt\nold:     // {it}\nnew:     // none\n")


class Try(Commands):
    def test_the_first_line_says_that_nothing_is_proved(self):
        done = self.run_it("try.sh", "start", "518")
        self.assertIn("nothing is proved", done.stderr.splitlines()[0])
        self.assertEqual((done.stdout, done.returncode), ("try\n--seconds\n60\n--\nstart\n518\n", 0))
        served = self.run_it("try.sh", "--seconds", "5", "serve", "--port", "1")
        self.assertIn("nothing is proved", served.stderr.splitlines()[0])

    def test_a_port_that_is_taken_is_named_before_anything_is_compiled(self):
        with socket.create_server(("127.0.0.1", 0)) as taken:
            port = taken.getsockname()[1]
            done = self.run_it("try.sh", "serve", "--port", str(port))
        self.assertIn(f"port {port}", done.stderr.splitlines()[1])
        self.assertEqual((done.returncode, self.calls()), (1, []))


class Run(Commands):
    def test_it_proves_side_by_side_and_says_which_crate_how_far_and_how_long(self):
        """`left` and `right` each wait until the other has begun, if the machine holds two proofs at a time."""
        if width_of_machine() > 1:
            write(self.state / "meet", "")
        done = self.run_it("run.sh", "start", "0")
        self.assertEqual((done.stdout, done.returncode), ("the program: start 0\n", 0), done.stderr)
        calls = {it[0]: it for it in self.calls()}
        self.assertEqual(set(calls), {"low", "left", "right", "relay960"})
        self.assertLess(calls["low"][3], min(calls["left"][2], calls["right"][2]))
        lines = done.stderr.splitlines()
        self.assertRegex(lines[0], r"4 crates; about \d+ (s|min)\b")
        proved = next(it for it in lines if "low is proved" in it)
        self.assertRegex(proved, r"1 of 4 crates, 26 % of the work; now .*; about .* left")
        if (self.state / "meet").exists():
            self.assertLess(max(calls["left"][2], calls["right"][2]), min(calls["left"][3], calls["right"][3]), "not side by side")

    def test_a_crate_that_can_wait_has_one_job_and_stands_back(self):
        """`left` takes longer than `right`, which runs beside it if there is memory for two, and can wait. How many jobs others have
        depends on the memory that is free."""
        if width_of_machine() > 1:
            write(self.state / "meet", "")
        self.run_it("run.sh", "start", "0")
        calls, jobs = {it[0]: it[1] for it in self.calls()}, r"--jobs [1-4]"
        for name in ("low", "left", "relay960"):
            self.assertRegex(calls[name], rf"^build .* {jobs} ")
        self.assertRegex(calls["right"], r" --jobs 1 " if (self.state / "meet").exists() else rf" {jobs} ")
        if (self.state / "meet").exists():
            self.assertLess(self.niceness("left"), self.niceness("right"))

    def test_each_crate_is_built_over_the_statements_of_those_below_it(self):
        self.run_it("run.sh", "start", "0")
        calls, library = {it[0]: it[1] for it in self.calls()}, f"{self.top}/crates/low/out/statements/low.rlib"
        self.assertIn(f"--crate-name low src/lib.rt --extern std={self.state}/rlibs/std.rlib --extern arrayvec=", calls["low"])
        self.assertTrue(calls["low"].endswith(f"--statements -o {library}"), calls["low"])
        for name in ("left", "right", "relay960"):
            self.assertIn(f"--extern low={library} ", calls[name])
        self.assertNotIn("--statements", calls["relay960"])

    def test_a_proof_that_is_killed_is_tried_once_more_with_one_job(self):
        write(self.state / "killed", "low")
        done = self.run_it("run.sh", "start", "0")
        self.assertEqual((done.stdout, done.returncode), ("the program: start 0\n", 0), done.stderr)
        jobs = [re.search(r"--jobs (\d)", it[1])[1] for it in self.calls() if it[0] == "low"]
        self.assertEqual(jobs[-1], "1")
        self.assertEqual("low was killed" in done.stderr, len(jobs) == 2)

    def niceness(self, name):
        return int((self.state / f"{name}.niceness").read_text())

    def plan(self, **seconds):
        """All stand on `low`, and `top` on all."""
        below = {"low": [], "left": ["low"], "right": ["low"], "short": ["low"], "top": ["low", "left", "right", "short"]}
        return Plan(mock.Mock(below=below.get), list(below), seconds)

    def test_the_crate_with_the_longest_way_leads_and_has_the_most_jobs_and_one_with_a_much_shorter_way_has_one(self):
        """`right` leads beside `left`, since it would be waited for if it took twice as long."""
        plan = self.plan(low=50, left=200, right=180, short=20, top=100)
        for name, others, jobs, leads in (
            ("low", [], 4, True),
            ("left", [], 4, True),
            ("left", ["short"], 4, True),
            ("left", ["right", "short"], 3, True),
            ("right", ["left"], 2, True),
            ("short", ["left", "right"], 1, False),
            ("short", ["right"], 1, False),
            ("short", [], 4, True),
        ):
            with self.subTest(name=name, others=others):
                self.assertEqual((plan.jobs(name, others, 4), plan.leads(name, others)), (jobs, leads))
        for most in (1, 2):
            self.assertEqual(plan.jobs("left", ["right"], most), most)

    def test_the_crate_with_the_longest_way_begins_first(self):
        plan = self.plan(low=50, left=180, right=200, short=20, top=100)
        self.assertEqual(plan.ready(set(), []), ["low"])
        self.assertEqual(plan.ready({"low"}, []), ["right", "left", "short"])
        self.assertEqual(plan.ready({"low"}, ["right"]), ["left", "short"])
        self.assertEqual(plan.ready({"low", "right", "left", "short"}, []), ["top"])

    def test_what_is_left_takes_as_long_as_its_longest_chain_and_as_all_of_it_on_four_processors(self):
        chain = self.plan(low=50, left=200, right=20, short=10, top=100)
        work = self.plan(low=50, left=200, right=180, short=20, top=100)
        for plan, done, running, seconds in (
            (chain, [], {}, 350),
            (chain, ["low"], {"left": 150}, 150),
            (work, [], {}, 0.7 * 550),
            (work, ["low", "left"], {"right": 100}, 180),
            # A crate that takes longer than was measured may end at any time.
            (work, ["low", "left", "right", "short"], {"top": 130}, 1),
            (work, ["low", "left", "right", "short", "top"], {}, 0),
        ):
            with self.subTest(done=done, running=running):
                self.assertAlmostEqual(plan.seconds_left(done, running), seconds)

    def test_a_proof_has_no_more_jobs_than_processors_and_than_fit_into_memory(self):
        for processors, gigabytes, jobs in ((4, 16, 4), (2, 16, 2), (16, 64, 4), (4, 6, 2), (4, 4, 1), (4, 1, 1)):
            with mock.patch("os.sched_getaffinity", lambda _: range(processors)), \
                 mock.patch("workplace.free_memory", lambda: gigabytes << 30):
                self.assertEqual(most_jobs(), jobs, (processors, gigabytes))

    def test_what_is_proved_is_not_proved_again_until_it_changes(self):
        self.run_it("run.sh", "start", "0")
        self.calls()
        self.assertEqual(self.run_it("run.sh", "start", "1").stderr, "")
        self.assertEqual(self.calls(), [])
        write(self.top / "crates/right/src/lib.rt", "//! right, changed.\n")
        self.run_it("run.sh", "start", "1")
        self.assertEqual({it[0] for it in self.calls()}, {"right", "relay960"})

    def test_what_stands_on_a_crate_that_is_edited_meanwhile_is_proved_again(self):
        write(self.state / "edited", "left")
        self.run_it("run.sh", "start", "0")
        self.calls()
        (self.state / "edited").unlink()
        self.run_it("run.sh", "start", "0")
        self.assertLessEqual({"low", "left", "relay960"}, {it[0] for it in self.calls()})

    def test_a_crate_that_is_not_proved_starts_no_program(self):
        self.is_wrong("left")
        done = self.run_it("run.sh", "start", "0")
        self.assertEqual((done.stdout, done.returncode), ("", 1))
        self.assertIn("left is not proved", done.stderr)
        self.assertIn("left is wrong", done.stderr)


class Check(Commands):
    def test_it_says_its_cost_before_it_begins_and_its_verdict_at_the_end(self):
        done = self.run_it("check.sh", "left")
        lines = done.stdout.splitlines()
        self.assertRegex(lines[0], r"^1\. the proofs of low below it: .*2 min$")
        self.assertRegex(lines[1], r"^2\. the proof of left \(rt check\): 3 min$")
        self.assertRegex(lines[2], r"^3\. the tests in left_tests \(rt test\): 70 s$")
        self.assertRegex(lines[3], r"^in all 6 min at most")
        self.assertRegex(lines[-1], r"^check\.sh: left holds, after .* \(6 min were named\)$")
        self.assertEqual([(it[0], it[1].split()[0]) for it in self.calls()], [("low", "lib"), ("left", "check"), ("left_tests", "test")])

    def test_the_verdict_names_the_step_that_fails(self):
        self.is_wrong("left_tests")
        done = self.run_it("check.sh", "left")
        self.assertRegex(done.stdout.splitlines()[-1], r"^check\.sh: left FAILS at the tests in left_tests")
        self.assertEqual(done.returncode, 1)

    def test_what_run_sh_built_does_not_stand_for_what_rt_builds(self):
        self.run_it("run.sh", "start", "0")
        self.calls()
        self.run_it("check.sh", "left")
        self.assertEqual([(it[0], it[1].split()[0]) for it in self.calls()], [("low", "lib"), ("left", "check"), ("left_tests", "test")])

    def test_the_crates_above_are_proved_where_that_is_asked(self):
        self.run_it("check.sh", "right", "--above")
        self.assertEqual([it[0] for it in self.calls()], ["low", "right", "relay960"])


class Planted(Commands):
    def test_the_rotation_begins_with_what_was_tried_longest_ago_and_keeps_its_place(self):
        self.edits("left", *(f"edit{at:02}" for at in range(30)))
        self.edits("right", "one", "two")
        with mock.patch.object(planted, "KEPT", self.state / "tried"):
            (self.state / "tried").write_text("".join(f"2020-01-0{1 + at % 2} left/edit{at:02}.edit\n" for at in range(30)))
            edits, _ = refused.edits_in(Crates(self.top), ["left", "right"], "planted")
            queue = planted.Queue(edits, planted.Rotation(edits))
            order = [(name, [it.file.stem for it in copy.edits]) for name, copy in iter(queue.next, None)]
        self.assertEqual(order[0], ("right", ["one", "two"]))
        self.assertEqual(order[1], ("left", [f"edit{at:02}" for at in range(0, 24, 2)]))
        self.assertEqual([name for name, _ in order[1:]], ["left"] * 3)
        self.assertEqual(sum(len(its) for _, its in order), 32)

    def test_a_rotation_notes_what_it_tried(self):
        self.edits("left", "one", "two")
        self.assertRegex(self.run_it("planted.sh", "--rotate", "1").stdout, r"(?s)2 of 2 tried.*2 refused, 0 not")
        self.assertEqual(self.tried(), ["left/one.edit", "left/two.edit"])

    def tried(self):
        return [it.split()[1] for it in (self.top / "out/planted").read_text().splitlines()]

    def test_an_edit_that_is_proved_is_named(self):
        self.edits("left", "one", "two")
        self.is_wrong("two")
        done = self.run_it("planted.sh", "left")
        self.assertEqual(done.stdout.splitlines()[-2:], ["left/two.edit: NOT REFUSED: two: proved", "1 refused, 1 not"], done.stderr)
        self.assertEqual(done.returncode, 1)

    def test_the_crates_below_are_proved_first_by_their_statements(self):
        self.edits("left", "one")
        self.run_it("planted.sh", "left")
        calls = [(it[0], it[1].split()[0]) for it in self.calls()]
        self.assertEqual([(calls[0]), calls[1][1]], [("low", "build"), "check"])


class Quick(Commands):
    """With stand-ins for the replays too, in its own repository."""

    def setUp(self):
        super().setUp()
        shutil.rmtree(self.top / "tools/tests")
        write(self.top / "tools/tests/test_one.py",
              "import unittest\nclass One(unittest.TestCase):\n    def test_it(self):\n        pass\n")
        for replay in (".ci/replay", "crates/relay960/replays/all.py"):
            write(self.top / replay, f"#!/bin/sh\necho 0 replay: {replay} >> \"$RT_STAND_IN/calls\"\n", 0o755)
        (self.top / ".ci").mkdir(exist_ok=True)
        shutil.copy2(TOP / ".ci/quick", self.top / ".ci/quick")
        write(self.top / ".gitignore", "out/\n__pycache__/\n")
        self.git("init", "-q")
        self.git("add", "-A")
        self.git("-c", "user.name=a", "-c", "user.email=a@b", "commit", "-qm", "One")

    def git(self, *words):
        subprocess.run(["git", *words], cwd=self.top, check=True, stdin=subprocess.DEVNULL, capture_output=True)

    def test_a_crate_that_differs_is_proved_with_what_stands_on_it_and_its_tests_are_run(self):
        write(self.top / "crates/left/src/lib.rt", "//! left, changed.\n")
        done = self.run_it(".ci/quick", "HEAD")
        lines = done.stdout.splitlines()
        self.assertEqual(done.returncode, 0, done.stdout + done.stderr)
        self.assertEqual(lines[0], "differ from HEAD: left")
        self.assertRegex(next(it for it in lines if it.startswith("in all")), r"in all \d+ min at most")
        self.assertRegex(lines[-1], r"^\.ci/quick: all holds, after .* were named\)$")
        calls = [f"{it[0]} {it[1]}" for it in self.calls() if it[0] != "relay960" and not it[1].startswith("lib")]
        self.assertEqual(calls, ["replay .ci/replay", "replay crates/relay960/replays/all.py", "left_tests check", "left_tests test"])

    def test_a_failure_ends_it_and_is_named(self):
        self.is_wrong("low")
        done = self.run_it(".ci/quick", "HEAD")
        self.assertIn(".ci/quick FAILS at the proofs of the program", done.stderr)
        self.assertEqual(done.returncode, 1)


class Gate(Commands):
    """`.ci/run`, with stand-ins for everything that it calls. Its proofs go on for a second after the program is built."""

    CALLED = ("replay test.sh", "replay .ci/replay", "replay crates/relay960/replays/all.py", "replay .ci/replay-sessions",
              "replay bench/refusals.py")

    def setUp(self):
        super().setUp()
        write(self.state / "bin/cc", "#!/bin/sh\n", 0o755)
        write(self.state / "bin/rt", """#!/bin/sh
            sleep 0.5; mkdir -p crates/relay960/out; cp /bin/true crates/relay960/out/relay960
            echo "rt: relay960 proved"; sleep "${RT_SLEEP:-3}"; echo 0 proofs: $* >> "$RT_STAND_IN/calls"
            ! grep -q proofs "$RT_STAND_IN/wrong"
            """, 0o755)
        for called in ("test.sh", ".ci/replay", "crates/relay960/replays/all.py", ".ci/replay-sessions", "bench/refusals.py",
                       "bench/instructions", "tools/refused.py"):
            write(self.top / called, f"#!/bin/sh\necho 0 replay: {called} >> \"$RT_STAND_IN/calls\"\n"
                  f"[ ! -f \"$RT_STAND_IN/$(basename {called})\" ] || {{ rm \"$RT_STAND_IN/$(basename {called})\"; exit 1; }}\n", 0o755)
        shutil.copy2(TOP / ".ci/run", self.top / ".ci/run")
        self.is_wrong("nothing")

    def called(self):
        return [f"{it[0]} {it[1]}" for it in self.calls()]

    def test_the_replays_begin_while_proofs_go_on(self):
        done = self.run_it(".ci/run")
        self.assertEqual(done.returncode, 0, done.stdout + done.stderr)
        tests, replays, tables, sessions, refusals = self.CALLED
        called = self.called()
        called.remove("replay tools/refused.py")
        instructions = "replay bench/instructions"
        self.assertEqual(called, [tests, replays, tables, "proofs ci", instructions, sessions, *4 * [refusals]])

    def test_replays_that_failed_beside_proofs_are_tried_again(self):
        write(self.state / "all.py", "")
        done = self.run_it(".ci/run")
        self.assertEqual((done.returncode, self.called().count(self.CALLED[2])), (0, 2), done.stdout + done.stderr)

    def test_it_fails_where_anything_fails(self):
        self.env["RT_SLEEP"] = "0"
        for wrong in ("test.sh", "proofs", "refused.py", "instructions", "replay-sessions", "refusals.py"):
            self.is_wrong(wrong)
            if wrong != "proofs":
                write(self.state / wrong, "")
            self.assertNotEqual(self.run_it(".ci/run").returncode, 0, wrong)

    def test_what_it_calls_can_be_run(self):
        called = re.findall(r"(?:^|[ &(])(\./[\w./-]+)", (TOP / ".ci/run").read_text(), re.M)
        self.assertGreater(len(called), 6)
        for it in called:
            self.assertTrue(os.access(TOP / it, os.X_OK), it)

    def test_it_fails_without_a_c_compiler(self):
        (self.state / "bin/cc").unlink()
        for tool in ("sh", "dirname"):
            os.symlink(shutil.which(tool), self.state / "bin" / tool)
        done = subprocess.run([self.top / ".ci/run"], env={**self.env, "PATH": f"{self.state}/bin"}, capture_output=True, text=True)
        self.assertEqual((done.returncode, done.stderr), (1, "no C compiler: no allocation can be refused\n"))


class Trials(unittest.TestCase):
    """The tests of the pages, the package and the examples."""

    SCRIPTS = sorted([*TOP.glob("apps/*/test.sh"), TOP / "web/test.sh"])
    # What a path without /usr/bin lacks.
    FROM_THE_PATH = {"chromium", "dpkg", "firefox-esr", "mandoc", "nodejs", "openssl", "qrencode", "redis-server", "zbar-tools"}

    def test_each_names_in_one_line_all_that_is_missing(self):
        """The path leads to nothing but a shell. What is looked for in its own place, as modules of Python are, may be there."""
        with tempfile.TemporaryDirectory() as name:
            for tool in ("sh", "dirname"):
                os.symlink(shutil.which(tool), pathlib.Path(name, tool))
            for script in self.SCRIPTS:
                text = script.read_text()
                wanted = re.search(r"begin_trial ((?:.*\\\n)*.*)", text)[1].split()
                done = subprocess.run(["/bin/sh", script], env={"PATH": name, "RELAY960": f"{name}/relay960"}, capture_output=True,
                                      text=True, timeout=60, stdin=subprocess.DEVNULL)
                self.assertEqual((len(done.stdout.splitlines()), done.returncode, done.stderr), (1, 1, ""), f"{script}: {done}")
                packages, _, rest = done.stdout.removeprefix("missing:").removeprefix(" apt-get install").rpartition(";")
                self.assertLessEqual(set(packages.split()), set(wanted), script)
                self.assertLessEqual(self.FROM_THE_PATH & set(wanted), set(packages.split()), script)
                self.assertEqual(rest.strip(), f"{name}/relay960, which ./run.sh < crates/relay960/stdin builds")


class Package(unittest.TestCase):
    @unittest.skipUnless(shutil.which("dpkg-deb"), "dpkg-deb is missing (Debian: dpkg)")
    def test_it_has_what_a_site_needs_and_its_python_finds_what_it_imports(self):
        with tempfile.TemporaryDirectory() as name:
            room = pathlib.Path(name)
            write(room / "relay960", "#!/bin/sh\necho relay960 0.0.1\n", 0o755)
            made = subprocess.run([TOP / "package.sh", room], env={**os.environ, "RELAY960": str(room / "relay960")}, capture_output=True,
                                  text=True)
            self.assertEqual(made.returncode, 0, made.stderr)
            package = made.stdout.splitlines()[-1]
            self.assertRegex(package, r"/relay960_0\.0\.1_\w+\.deb$")
            subprocess.run(["dpkg-deb", "-x", package, room / "root"], check=True)
            root = room / "root"
            for path in ("usr/bin/relay960", "usr/share/relay960/pages/watch.html", "usr/share/man/man1/relay960.1.gz",
                         "usr/lib/systemd/system/relay960.service", "usr/lib/systemd/system/relay960-enter.service",
                         "usr/lib/relay960/feed.py", "usr/lib/relay960/enter.py", "usr/share/man/man1/relay960-enter.1.gz",
                         "etc/relay960/nginx/relay960-http.conf"):
                self.assertTrue((root / path).is_file(), path)
            library = root / "usr/lib/relay960"
            there = {str(it.relative_to(library).with_suffix("")).replace("/", ".") for it in library.rglob("*.py")}
            apps = [TOP / "apps" / folder for folder in ("many_spectators", "recorder", "hall", "pgn_in", "metrics")]
            ours = {it.stem for folder in apps for it in folder.glob("*.py")}
            for path in library.rglob("*.py"):
                for module in re.findall(r"^\s*(?:from|import) ([\w.]+)", path.read_text(), re.M):
                    if module in ours or module.startswith("relay_client."):
                        self.assertIn(module, there, path.name)
            pages = list((root / "usr/share/doc/relay960").rglob("*.md"))
            self.assertGreater(len(pages), 10)
            for page in pages:
                for link in re.findall(r'(?:\]\(|src=")([^)\s"#]+)', page.read_text()):
                    self.assertTrue(":" in link or (page.parent / link).exists(), f"{page.relative_to(root)}: {link}")


if __name__ == "__main__":
    unittest.main()
