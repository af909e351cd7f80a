#!/usr/bin/env -S python3 -B
"""Runs every test that needs no proof: test_all.py [STEP..]

The steps are `tools`, whose tests are in tools/tests; each crate with tests; `relay960`, which builds the program without its proof and
replays the examples of the documents and the tables of crates/relay960/replays on it; and `sessions`, which tries it as a server. Without
a name all are run, side by side, but for the sessions, which depend on time: they come last and by themselves.

The last line counts single tests. A step that cannot be built or has not ended in time counts as one that failed. Each command may run for
ten minutes, or for as many seconds as the environment's TEST_SECONDS says: a test takes seconds on an idle machine.
"""
import os
import re
import resource
import shutil
import signal
import sys
import tempfile
import time
from concurrent.futures import FIRST_COMPLETED, ThreadPoolExecutor, wait
from functools import partial
from typing import NamedTuple

import counted
from build import NAME
from calls import Calls
from counted import Counted
from crates import ROOT, Crates, has_tests
from unproved import Unproved
from workplace import free_memory

SECONDS = int(os.environ.get("TEST_SECONDS", 600))
SECONDS_BETWEEN_REPORTS = 30
# What the largest build takes.
MEMORY_OF_A_BUILD = 2 << 30
TOOLS, SESSIONS = "tools", "sessions"
CHECK_FAILED = "an index, an overflow, or what is never to be reached: `rt try --test` in the folder of the crate says where"
LISTED = re.compile(r"^(\S+): test$", re.M)


def say(text):
    print(text, flush=True)


class Job(NamedTuple):
    """A part of a step. `work` gives what came of it, and the jobs that come after it."""

    step: str
    work: object


class Tests:
    """The tests of the repository, as jobs."""

    def __init__(self, crates, calls):
        self.crates, self.calls = crates, calls
        self.unproved = Unproved(crates, calls, SECONDS)
        # What takes longest to build comes first.
        with_tests = sorted((it for it in crates if has_tests(crates.folder(it))), key=lambda it: -len(crates.below(it)))
        self.steps = [NAME, *with_tests, TOOLS, SESSIONS]

    def jobs(self, step):
        if step == TOOLS:
            files = sorted((ROOT / "tools/tests").glob("test_*.py"))
            words = [sys.executable, "-B", "-m", "unittest", "discover", "-v", "-s", "tools/tests", "-p"]
            return [Job(step, partial(self.command, it.stem, [*words, it.name], counted.of_unittest)) for it in files]
        work = {NAME: self.replays, SESSIONS: self.sessions}.get(step, partial(self.tests_of_crate, step))
        return [Job(step, work)]

    def command(self, name, words, count):
        """A command at the top that runs many tests; `count` reads what it prints."""
        env = {**os.environ, "RELAY960": str(self.unproved.made(NAME))}
        status, said = self.calls.call(words, SECONDS, cwd=ROOT, env=env)
        return count(name, status, with_end(status, said)), []

    def replays(self):
        wrong = self.unproved.build(NAME)
        if wrong:
            return counted.failed(f"{NAME} is not built", wrong), []
        tables = (".ci/replay", f"crates/{NAME}/replays/all.py")
        return Counted(), [Job(NAME, partial(self.command, it, [ROOT / it], counted.of_replays)) for it in tables]

    def sessions(self):
        if self.unproved.build(NAME):
            return counted.failed("no session is tried", f"{NAME} is not built"), []
        return self.command(".ci/replay-sessions", [ROOT / ".ci/replay-sessions"], counted.of_sessions)

    def tests_of_crate(self, name):
        wrong = self.unproved.build(name)
        if wrong:
            return counted.failed(f"{name} is not built", wrong), []
        status, said = self.calls.call([self.unproved.made(name), "--list"], SECONDS)
        tests = LISTED.findall(said)
        if status != 0 or not tests:
            return counted.failed(f"{name} lists no tests", with_end(status, said)), []
        return Counted(), [Job(name, partial(self.test, name, it)) for it in tests]

    def test(self, crate, name):
        """A test of a crate, in an empty folder and without an environment."""
        with tempfile.TemporaryDirectory() as folder:
            status, said = self.calls.call([self.unproved.made(crate), name], SECONDS, cwd=folder, env={})
        return counted.of_test(f"{crate}: {name}", status, with_end(status, said)), []


def with_end(status, said):
    """What a command wrote, and how it ended where it did not end by itself."""
    if status is None:
        return f"{said}\nhad not ended after {SECONDS} s"
    if status == -signal.SIGILL:
        return f"{said}\n{CHECK_FAILED}"
    return f"{said}\nended by signal {-status}" if status < 0 else said


class Run:
    """The jobs of some steps, side by side, and what has come of them."""

    def __init__(self, tests, steps, width):
        self.tests, self.began, self.told = tests, time.monotonic(), time.monotonic()
        self.come = {step: Counted() for step in steps}
        # How many jobs of each step that is not over are known and have not ended.
        self.left = dict.fromkeys(steps, 0)
        self.width, self.pool = width, ThreadPoolExecutor(width)
        self.waiting, self.running = [], {}

    def add(self, jobs, at):
        for job in jobs:
            self.left[job.step] += 1
        self.waiting[at:at] = jobs

    def work(self, steps):
        """Runs these steps to their end."""
        for step in steps:
            self.add(self.tests.jobs(step), len(self.waiting))
        while self.waiting or self.running:
            while self.waiting and len(self.running) < self.width:
                job = self.waiting.pop(0)
                self.running[self.pool.submit(job.work)] = job
            for done in wait(self.running, 1, FIRST_COMPLETED).done:
                self.take(self.running.pop(done), done.result())
            if time.monotonic() - self.told > SECONDS_BETWEEN_REPORTS:
                self.report("goes on")

    def take(self, job, result):
        came, further = result
        for name, said in came.failed:
            say(f"failed: {name}\n{said.rstrip()}")
        self.come[job.step].add(came)
        # What is built is tried before more is built, so that a failure is soon told.
        self.add(further, 0)
        self.left[job.step] -= 1
        if not self.left[job.step]:
            self.end(job.step)

    def end(self, step):
        del self.left[step]
        self.report(f"{step}: {self.come[step]}")

    def report(self, what):
        self.told = time.monotonic()
        seconds = round(self.told - self.began)
        left = {step: f"{step} ({count} left)" if count > 1 else step for step, count in self.left.items()}
        now = [left.pop(step) for step in dict.fromkeys(job.step for job in self.running.values()) if step in left]
        parts = [what] + (["at work on " + ", ".join(now)] if now else []) + (["to come: " + ", ".join(left.values())] if left else [])
        say(f"{seconds // 60:4}:{seconds % 60:02}  {'; '.join(parts)}")

    def verdict(self):
        whole = Counted()
        for it in self.come.values():
            whole.add(it)
        for name, _ in whole.failed:
            say(f"failed: {name}")
        for why in dict.fromkeys(whole.skipped):
            say(f"skipped: {why}")
        used = resource.getrusage(resource.RUSAGE_CHILDREN)
        seconds = round(time.monotonic() - self.began)
        say(f"took {seconds // 60} min {seconds % 60} s, {round(used.ru_utime + used.ru_stime)} s of processor time")
        say(str(whole))
        return 1 if whole.failed else 0


def width_of_machine():
    """How many jobs run at a time: by the processors, and by the memory that is free."""
    return max(min(len(os.sched_getaffinity(0)), free_memory() // MEMORY_OF_A_BUILD), 1)


def main(words):
    for it in ("rt", "rattle"):
        if shutil.which(it) is None:
            sys.exit(f"{it} is not on the PATH: it is a command of the kit that compiles the program (README.md)")
    calls = Calls()
    tests = Tests(Crates(), calls)
    unknown = [it for it in words if it not in tests.steps]
    if unknown:
        sys.exit(f"there is no step {unknown[0]}: the steps are {' '.join(tests.steps)}")
    # A failed check aborts the program, which would leave its memory in a file.
    resource.setrlimit(resource.RLIMIT_CORE, (0, 0))
    for it in (signal.SIGTERM, signal.SIGHUP):
        signal.signal(it, lambda number, _: sys.exit(128 + number))
    steps = [it for it in tests.steps if it in words or not words]
    run = Run(tests, steps, width_of_machine())
    try:
        run.work([it for it in steps if it != SESSIONS])
        run.work([it for it in steps if it == SESSIONS])
        return run.verdict()
    except KeyboardInterrupt:
        return 130
    finally:
        calls.end()
        run.pool.shutdown(cancel_futures=True)


if __name__ == "__main__":
    sys.exit(main(sys.argv[1:]))
