#!/usr/bin/env -S python3 -B
"""What a change of one crate needs: change.py CRATE [--above] [--planted]

First it says what it will do and about how long that takes. Then it proves the crate, proves and runs its tests, and, if asked,
proves the crates above (`--above`) and tries the crate's wrong bodies (`--planted`). The last line is the verdict.

`rt test` runs the tests at the speed of the proved program. With `rt try --test` those that go through thousands of positions take
more than its minute for each.
"""
import subprocess
import sys
import time

import build
from crates import SECONDS_UNKNOWN, Crates, measured, minutes

# A proof over what an earlier one kept, where little has changed.
SECONDS_AT_LEAST = 15
# What tests take that the table lacks: their own proof, compiling, and the run.
SECONDS_OF_TESTS = 180
# What a wrong body takes, its part of what the copy takes that it shares with others.
SECONDS_OF_AN_EDIT = 12
FLAGS = {"--above", "--planted"}


class Step:
    """One command in a crate's folder, and the seconds that it takes at least and at most."""

    def __init__(self, what, folder, words, least, most):
        self.what, self.folder, self.words, self.least, self.most = what, folder, words, least, most

    def run(self):
        return subprocess.run(self.words, cwd=self.folder, stdin=subprocess.DEVNULL, check=False).returncode == 0

    def cost(self):
        return minutes(self.most) if self.least == self.most else f"{minutes(self.least)} to {minutes(self.most)}"


def is_built(crates, name):
    return (crates.folder(name) / "out/rlib/stamp").is_file()


def proof(crates, name):
    """The proof of a crate: what has changed since the last one, or everything if there was none."""
    most = measured().get(name, SECONDS_UNKNOWN)
    least = min(SECONDS_AT_LEAST, most) if (crates.folder(name) / "out").is_dir() else most
    return Step(f"the proof of {name} (rt check)", crates.folder(name), ["rt", "check"], least, most)


def tests(crates, name, unbuilt=()):
    """The tests in a crate; `rt` proves what is below them and is not built."""
    most = measured().get(f"{name}:tests", SECONDS_OF_TESTS) + sum(measured().get(it, SECONDS_UNKNOWN) for it in unbuilt)
    what = f"the tests in {name} (rt test)" + (f", behind the proofs of {', '.join(unbuilt)}" if unbuilt else "")
    return Step(what, crates.folder(name), ["rt", "test"], most, most)


def wrong_bodies(crates, name):
    steps = []
    refused = [sys.executable, "-B", crates.root / "tools/refused.py", name]
    for what, verb in (("must-fail", ["rt", "must-fail", name]), ("refused", refused), ("planted", [crates.root / "planted.sh", name])):
        count = len(list((crates.folder(name) / what).glob("*.edit")))
        if count:
            most = measured().get(name, SECONDS_UNKNOWN) * (what == "must-fail") + count * SECONDS_OF_AN_EDIT
            steps.append(Step(f"the {count} wrong bodies of {name}/{what}", crates.root, verb, most // 2, most))
    return steps


def steps_of(crates, name, flags):
    missing = [it for it in crates.below(name) if not is_built(crates, it)]
    steps = []
    if missing:
        most = sum(measured().get(it, SECONDS_UNKNOWN) for it in missing)
        words = [sys.executable, "-B", build.__file__, name]
        steps.append(Step(f"the proofs of {', '.join(missing)} below it", crates.root, words, most // 2, most))
    steps.append(proof(crates, name))
    named = {*crates.below(name), name}
    for it in crates.tests_of(name):
        steps.append(tests(crates, it, [below for below in crates.below(it) if below not in named and not is_built(crates, below)]))
        named.update(crates.below(it))
    if "--above" in flags:
        steps += [proof(crates, it) for it in crates.above(name)]
    if "--planted" in flags:
        steps += wrong_bodies(crates, name)
    return steps


def main(words):
    flags, names = {it for it in words if it.startswith("--")}, [it for it in words if not it.startswith("--")]
    crates = Crates()
    if len(names) != 1 or names[0] not in crates or not flags <= FLAGS:
        sys.exit(f"usage: ./check.sh CRATE [--above] [--planted], where CRATE is one of {' '.join(crates)}")
    steps, began = steps_of(crates, names[0], flags), time.monotonic()
    named = minutes(sum(it.most for it in steps))
    for number, step in enumerate(steps, 1):
        print(f"{number}. {step.what}: {step.cost()}")
    print(f"in all {named} at most on an idle machine, less where little has changed", flush=True)
    for number, step in enumerate(steps, 1):
        print(f"{number}. {step.what}", flush=True)
        if not step.run():
            print(f"check.sh: {names[0]} FAILS at {step.what}, after {minutes(time.monotonic() - began)}")
            return 1
    print(f"check.sh: {names[0]} holds, after {minutes(time.monotonic() - began)} ({named} were named)")
    return 0


if __name__ == "__main__":
    sys.exit(main(sys.argv[1:]))
