#!/usr/bin/env -S python3 -B
"""What a change needs, cheap things first: quick.py [BASE]

First it says what it will do and about how long that takes. Then come the tests of the tools, with the linters; the proofs of the program,
and the replays on it; the proofs of the other crates that differ from BASE and of all above them; and the tests of these crates. BASE is a
commit, by default where this branch left main, or else the commit before the last.
"""
import subprocess
import sys
import time

import build
import change
from change import Step
from crates import ROOT, SOURCES, Crates, minutes

REPLAYS = ("./.ci/replay", "./crates/relay960/replays/all.py")
# At least and at most.
SECONDS_OF_TOOLS = (20, 50)
SECONDS_OF_REPLAYS = (10, 40)


def git(*words):
    """What git prints, or nothing if it fails."""
    run = subprocess.run(["git", *words], cwd=ROOT, capture_output=True, text=True, check=False)
    return run.stdout if run.returncode == 0 else ""


def base_of(words):
    if words:
        return words[0]
    left_main = git("merge-base", "HEAD", "main").strip()
    return left_main if left_main and left_main != git("rev-parse", "HEAD").strip() else "HEAD~1"


def changed(crates, base):
    """The crates whose sources differ from the commit, and those whose line in crates.txt does."""
    paths = git("diff", "--name-only", base).splitlines() + git("ls-files", "-o", "--exclude-standard").splitlines()
    parts = [path.split("/") for path in paths]
    named = {it[1] for it in parts if len(it) > 3 and it[0] == "crates" and it[2] in SOURCES}
    before = git("show", f"{base}:crates.txt").splitlines()
    named |= {it for it in crates if crates.lines[it] not in [line.partition("#")[0].strip() for line in before]}
    return [it for it in crates if it in named]


def steps_of(crates, names):
    """All that a change of these crates needs, in the order of its cost, except that a proof comes before what depends on it."""
    python = [sys.executable, "-B"]
    steps = [Step("the tests of the tools", ROOT, [*python, "-m", "unittest", "discover", "-s", "tools/tests"], *SECONDS_OF_TOOLS)]
    of_program = [*crates.below(build.NAME), build.NAME]
    most = build.seconds_to_prove(crates, of_program)
    steps.append(Step("the proofs of the program and of all below it", ROOT, [*python, build.__file__, build.BY_RT], most // 2, most))
    steps += [Step(replay, ROOT, [replay], *SECONDS_OF_REPLAYS) for replay in REPLAYS]
    above = [it for it in crates if it in names or any(name in crates.below(it) for name in names)]
    steps += [change.proof(crates, it) for it in above if it not in of_program]
    steps += [change.tests(crates, it) for it in dict.fromkeys(tests for name in names for tests in crates.tests_of(name))]
    return steps


def main(words):
    crates, base, began = Crates(), base_of(words), time.monotonic()
    if not git("rev-parse", "--verify", f"{base}^{{commit}}"):
        sys.exit(f".ci/quick: there is no commit {base}")
    names = changed(crates, base)
    print(f"differ from {base}: {', '.join(names) or 'no crate'}")
    steps = steps_of(crates, names)
    named = minutes(sum(it.most for it in steps))
    for number, step in enumerate(steps, 1):
        print(f"{number}. {step.what}: {step.cost()}")
    print(f"in all {named} at most on an idle machine, less where little has changed", flush=True)
    for number, step in enumerate(steps, 1):
        print(f"{number}. {step.what}", flush=True)
        if not step.run():
            sys.exit(f".ci/quick FAILS at {step.what}, after {minutes(time.monotonic() - began)}")
    print(f".ci/quick: all holds, after {minutes(time.monotonic() - began)} ({named} were named)")


if __name__ == "__main__":
    sys.exit(main(sys.argv[1:]))
