#!/usr/bin/env -S python3 -B
"""Proves and builds the program and each crate below it, those that do not depend on one another side by side.

With `--by-rt` it does so as `rt check` and `rt test` need it afterwards (`makers.py` has both ways), and with names of crates it proves in
that way what is below these alone.

The whole takes as long as its longest chain of crates. So the crate with the most to come after it has precedence: all beside it stand back
for processors, and work on what it leaves idle.

All output goes to standard error, and the status is 0 if everything is proved. For a crate that is proved a file in `out/` keeps a sum of
everything that it was made from and one of what was made. If both still hold, it is not proved again.
"""
import functools
import hashlib
import os
import shutil
import signal
import subprocess
import sys
import time

from crates import SECONDS_UNKNOWN, SOURCES, Crates, measured, minutes
from makers import Compiler, Rt
from workplace import lock, most_jobs, scratch_folder, width_of_machine

NAME = "relay960"
BY_RT = "--by-rt"
SECONDS_BETWEEN_REPORTS = 30
# By how much all but the crate with the longest way stand back for processors.
NICENESS = 10
# Than which part of the longest way that of a crate is shorter that can wait.
SHARE_OF_THOSE_THAT_CAN_WAIT = 0.6
# How many jobs a crate has at most beside another that cannot wait: the one with the longest way, and one that can wait no more than that.
# Each job loads anew what the proof rests on, which is an eighth of the work.
JOBS_OF_THE_LONGEST, JOBS_OF_THE_NEXT = 3, 2
# Which part of the seconds that proofs take one after another they took side by side (`tools/seconds.txt`).
SHARE_SIDE_BY_SIDE = 0.7


def say(text):
    print(text, file=sys.stderr, flush=True)


class Records:
    """Which crates are known to be proved as they are, in one of the two ways."""

    def __init__(self, crates, maker):
        self.crates, self.maker = crates, maker
        kit = subprocess.run(["rt", "version"], stdout=subprocess.PIPE, check=True).stdout
        variables = sorted(it for it in os.environ.items() if it[0].startswith("RT_"))
        lines = (crates.root / "crates.txt").read_bytes()
        self.common = repr((kit, os.path.realpath(shutil.which("rt")), variables, lines)).encode()

    def sum_of_sources(self, name, sum_of=None):
        """A sum of all that a crate is made from: its sources and those below it, crates.txt, the kit, and the variables that rt reads."""
        said = hashlib.sha256(self.common)
        for it in [*self.crates.below(name), name]:
            said.update((sum_of or self.sum_of_crate)(it))
        return said.hexdigest()

    def sum_of_crate(self, name):
        said = hashlib.sha256()
        for part in SOURCES:
            for path in sorted((self.crates.folder(name) / part).rglob("*")):
                if path.is_file():
                    said.update(repr((str(path.relative_to(self.crates.root)), path.read_bytes())).encode())
        return said.digest()

    def record(self, name, sources):
        """What the file has to say of a crate that is proved as it is."""
        made = self.maker.told_of(name)
        return f"{sources}\n{sum_of_file(made)}\n" if made.is_file() else None

    def file(self, name):
        return self.crates.folder(name) / "out" / self.maker.RECORD

    def proved(self, names):
        """Those of the crates whose record holds."""
        sum_of = functools.cache(self.sum_of_crate)
        return [it for it in names if self.kept(it) == self.record(it, self.sum_of_sources(it, sum_of))]

    def kept(self, name):
        file = self.file(name)
        return file.read_text() if file.is_file() else "no record"

    def note(self, name, sources):
        """Keeps that the crate is proved, unless a source has changed meanwhile."""
        record = self.record(name, sources)
        if record and sources == self.sum_of_sources(name):
            self.file(name).write_text(record)


def sum_of_file(path):
    return hashlib.sha256(path.read_bytes()).hexdigest()


class Plan:
    """In which order the crates are proved, and how long that takes."""

    def __init__(self, crates, names, seconds):
        self.below = {name: [it for it in crates.below(name) if it in names] for name in names}
        self.seconds = {name: seconds.get(name, SECONDS_UNKNOWN) for name in names}
        self.ways = self.ways_of(self.seconds)

    def ways_of(self, seconds):
        """How long the longest chain takes that begins with each of these crates, in which each depends on the one before."""
        ways = {}
        for name in reversed(seconds):
            ways[name] = seconds[name] + max((way for it, way in ways.items() if name in self.below[it]), default=0)
        return ways

    def longest(self, names):
        return max((self.ways[it] for it in names), default=0)

    def ready(self, done, running):
        """The crates that can begin, the one with the longest way first."""
        found = [it for it in self.below if it not in done and it not in running and all(b in done for b in self.below[it])]
        return sorted(found, key=lambda it: -self.ways[it])

    def leads(self, name, running):
        """Whether a crate has precedence: no other that runs has a longer way, or it would be waited for if it took twice as long, as one
        that stands back does."""
        return self.ways[name] + self.seconds[name] >= self.longest(running)

    def jobs(self, name, others, most):
        """How many jobs a crate gets that begins now, where `most` are to be had: one if another that runs or could begin has a way so much
        longer that this one can wait, and all if each other can wait."""
        longest = self.longest([name, *others])
        cannot_wait = [it for it in [name, *others] if self.ways[it] >= SHARE_OF_THOSE_THAT_CAN_WAIT * longest]
        if name not in cannot_wait:
            return 1
        if cannot_wait == [name]:
            return most
        return min(most, JOBS_OF_THE_LONGEST if self.ways[name] == longest else JOBS_OF_THE_NEXT)

    def seconds_left(self, done, running):
        """About how long the rest takes on four idle processors; `running` has the seconds for which each crate has run."""
        left = {it: max(took - running.get(it, 0), 1) for it, took in self.seconds.items() if it not in done}
        return max(*self.ways_of(left).values(), SHARE_SIDE_BY_SIDE * sum(left.values()), 0)

    def share(self, done):
        """Which part of the whole work is done, in per cent."""
        return round(100 * sum(self.seconds[it] for it in done) / sum(self.seconds.values()))


def seconds_to_prove(crates, names):
    """About how long the proofs take of those that `rt` has not proved yet, on four idle processors."""
    proved = Records(crates, Rt(crates)).proved(names)
    return round(Plan(crates, names, measured()).seconds_left(proved, {}))


class Failed(Exception):
    """A crate is not proved; its output has been printed."""


class Build:
    """The proofs of some crates, side by side."""

    def __init__(self, crates, names, records, scratch):
        self.records, self.maker, self.scratch = records, records.maker, scratch
        self.plan, self.width = Plan(crates, names, measured()), width_of_machine()
        self.done = set(records.proved(names))
        self.running, self.jobs = {}, {}
        # As they were before anything was proved: what stands on a source that changes meanwhile is not recorded.
        self.sources = {it: records.sum_of_sources(it) for it in names}
        # Those that were let stand back when they began.
        self.waiting = set()
        self.began = self.reported = time.monotonic()
        self.expected = self.plan.seconds_left(self.done, {})

    def clock(self):
        ran = int(time.monotonic() - self.began)
        return f"{ran // 60:3}:{ran % 60:02}"

    def report(self, what):
        self.reported = time.monotonic()
        ran = {it: time.monotonic() - begun for it, (_, _, begun) in self.running.items()}
        left = self.plan.seconds_left(self.done, ran)
        left *= self.slowness(self.expected - left)
        place = f"{len(self.done)} of {len(self.plan.below)} crates, {self.plan.share(self.done)} % of the work"
        say(f"{self.clock()}  {what}: {place}; now {', '.join(self.running) or 'none'}; about {minutes(left)} left")

    def slowness(self, seconds):
        """How many times as long it has taken so far as these, which were expected."""
        return (time.monotonic() - self.began) / seconds if seconds > SECONDS_BETWEEN_REPORTS else 1

    def start(self, name):
        others = [it for it in [*self.running, *self.plan.ready(self.done, self.running)] if it != name]
        self.jobs[name] = self.plan.jobs(name, others, most_jobs())
        if not self.plan.leads(name, self.running):
            self.waiting.add(name)
        self.run(name)

    def run(self, name):
        stand_back = ["nice", "-n", str(NICENESS)] if name in self.waiting else []
        folder, words = self.maker.begin(name, self.jobs[name], self.scratch)
        log = self.scratch / f"{name}.log"
        with log.open("w") as out:
            run = subprocess.Popen([*stand_back, *words], cwd=folder, stdin=subprocess.DEVNULL, stdout=out, stderr=out)
        self.running[name] = run, log, time.monotonic()

    def finish(self, name):
        run, log, begun = self.running.pop(name)
        took = time.monotonic() - begun
        status = self.maker.end(name, run.returncode)
        if status == -signal.SIGKILL and self.jobs[name] > 1:
            say(f"{self.clock()}  the proof of {name} was killed, most likely for memory: once more, with one job")
            self.jobs[name] = 1
            self.run(name)
            return
        if status:
            say(f"{self.clock()}  {name} is not proved after {took:.0f} s (status {status}):")
            say(log.read_text(errors="replace").rstrip())
            raise Failed(name)
        self.records.note(name, self.sources[name])
        self.done.add(name)
        self.report(f"{name} is proved, in {took:.0f} s")

    def stop(self):
        """Ends what still runs, and keeps what it has done."""
        for run, _, _ in self.running.values():
            run.terminate()
        for name, (run, _, _) in self.running.items():
            self.maker.end(name, run.wait())

    def go(self):
        known = f", {len(self.done)} of them proved before" if self.done else ""
        about = f"about {minutes(self.expected)} on four idle processors, less where little has changed"
        say(f"{self.clock()}  {len(self.plan.below)} crates{known}; {about}")
        try:
            while len(self.done) < len(self.plan.below):
                for name in self.plan.ready(self.done, self.running)[: self.width - len(self.running)]:
                    self.start(name)
                    say(f"{self.clock()}  {name} begins, {minutes(self.plan.seconds[name])} from nothing")
                time.sleep(0.2)
                for name in [it for it, (run, _, _) in self.running.items() if run.poll() is not None]:
                    self.finish(name)
                if time.monotonic() - self.reported > SECONDS_BETWEEN_REPORTS:
                    self.report("at work")
        finally:
            self.stop()


def names_below(crates, names):
    """What is below these crates, each before those that depend on it."""
    return list(dict.fromkeys(it for name in names for it in crates.below(name)))


def prove(crates, names, maker):
    """Proves and builds these crates as far as they are not. Returns the status."""
    records = Records(crates, maker)
    if records.proved(names) == names:
        return 0
    for it in (signal.SIGTERM, signal.SIGHUP):
        signal.signal(it, lambda number, _: sys.exit(128 + number))
    try:
        with lock(crates, names), scratch_folder() as scratch:
            Build(crates, names, records, scratch).go()
    except Failed:
        return 1
    except KeyboardInterrupt:
        return 130
    return 0


def libraries_below(crates, names):
    """Builds the libraries below these crates, with the statements alone. Returns what gives the library of a crate."""
    maker = Compiler(crates)
    if prove(crates, names_below(crates, names), maker):
        sys.exit("the crates below are not proved, so nothing was tried")
    return maker.made


def main(words):
    """Proves the program and all below it, or by `rt` all below the crates that are named."""
    crates, named = Crates(), [it for it in words if it != BY_RT]
    names = names_below(crates, named) if named else [*crates.below(NAME), NAME]
    for it in ("rt", "rattle"):
        if shutil.which(it) is None:
            sys.exit(f"{it} is not on the PATH: it is a command of the kit that proves the program (README.md)")
    return prove(crates, names, Rt(crates) if words else Compiler(crates))


if __name__ == "__main__":
    sys.exit(main(sys.argv[1:]))
