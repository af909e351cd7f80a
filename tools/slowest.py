#!/usr/bin/env -S python3 -B
"""Says which functions of a crate take longest to be proved: slowest.py NAME [--test]

The crate is proved by one job over the libraries of statements below it (tools/build.py), with its tests if `--test` is given. The seconds
of a function are those since the one before: whoever needs a part of a library first has the reading of it too, and the first of all has
that of the crate. Nothing else is to run beside it. The status is that of the check.
"""
import re
import subprocess
import sys
import time

import build
from crates import Crates
from makers import check_words

MOST_SHOWN = 20
CHECKED = re.compile(r"^checked (\S+), \d+ of \d+")


def seconds_of_functions(lines, clock=time.monotonic):
    """The functions that the checker says it has checked, each with the seconds since the one before."""
    found, before = [], clock()
    for line in lines:
        said = CHECKED.match(line)
        if said:
            now = clock()
            found.append((now - before, said[1]))
            before = now
    return found


def table(found):
    """The slowest first, and the sum of all."""
    rows = [f"{seconds:7.1f} s  {name}" for seconds, name in sorted(found, reverse=True)[:MOST_SHOWN]]
    return [*rows, f"{sum(seconds for seconds, _ in found):7.1f} s  all {len(found)}"]


def main(words):
    crates = Crates()
    name, tests = words[0] if words else "", words[1:]
    if name not in crates or tests not in ([], ["--test"]):
        sys.exit("slowest.py: the name of a crate, and --test for its tests")
    asked = [*check_words(crates, name, build.libraries_below(crates, [name])), "--progress", *tests]
    with subprocess.Popen(asked, cwd=crates.folder(name), stdout=subprocess.PIPE, stderr=subprocess.STDOUT, text=True) as check:
        found = seconds_of_functions(check.stdout)
    print("\n".join(table(found)))
    return check.returncode


if __name__ == "__main__":
    sys.exit(main(sys.argv[1:]))
