"""Runs all tests of this folder side by side, since most of them wait: python3 -m relay_client.tests"""

import functools
import multiprocessing
import os
import pathlib
import signal
import sys
import unittest
from concurrent.futures import ProcessPoolExecutor, ThreadPoolExecutor

HERE = pathlib.Path(__file__).resolve().parent
# At most this many tests are tried again by themselves. They depend on time, and a machine may be too busy with the others. If more have
# failed, the machine may have stood still for a while: they are tried again side by side before.
MOST_ALONE = 20
# The threads of a process wait for its interpreter. In a single one, tests that send thousands of pieces would hold up all others.
PROCESSES = 4


def cases(suite):
    for it in suite:
        if isinstance(it, unittest.TestSuite):
            yield from cases(it)
        else:
            yield it


def run(case):
    """Runs a test; answers its name, why it failed and why it was skipped."""
    result = unittest.TestResult()
    case.run(result)
    faults = [words for _, words in result.errors + result.failures] + [f"{it}: no failure" for it in result.unexpectedSuccesses]
    return case.id(), faults, [why for _, why in result.skipped]


def told(ended):
    """Prints what came of each test; answers those that failed, and how many were skipped."""
    failed, skipped = [], 0
    for case, (name, faults, reasons) in ended:
        for words in faults:
            print(f"failed: {name}\n{words}", flush=True)
        for words in reasons:
            print(f"skipped: {name}: {words}", flush=True)
        failed += [case] if faults else []
        skipped += bool(reasons)
    return failed, skipped


@functools.cache
def found():
    """All tests of this folder."""
    return list(cases(unittest.defaultTestLoader.discover(str(HERE), top_level_dir=str(HERE.parents[1]))))


def shares(tests):
    """The tests of each process, by their places among all. Those of a file are much alike, so they are dealt like cards."""
    places = [at for at, case in enumerate(found()) if case in tests]
    return [dealt for at in range(PROCESSES) if (dealt := places[at::PROCESSES])]


def run_share(places):
    """Runs the tests of a process, each in a thread; answers what came of each."""
    with ThreadPoolExecutor(len(places)) as pool:
        return list(pool.map(run, [found()[at] for at in places]))


def side_by_side(tests):
    dealt = shares(tests)
    with ProcessPoolExecutor(len(dealt), mp_context=multiprocessing.get_context("fork")) as pool:
        for places, ended in zip(dealt, pool.map(run_share, dealt)):
            yield from zip([found()[at] for at in places], ended)


def one_after_another(tests):
    for case in tests:
        yield case, run(case)


def main():
    # The servers are in its group. If it is told to end, they end with it.
    if os.getpgrp() != os.getpid():
        os.setpgrp()
    signal.signal(signal.SIGTERM, lambda *_: os.killpg(0, signal.SIGKILL))
    # A shell starts what is to run in its background with INT ignored, and then no script that this starts hears it either.
    signal.signal(signal.SIGINT, signal.default_int_handler)
    failed, skipped = told(side_by_side(found()))
    again = len(failed)
    if again > MOST_ALONE:
        print(f"{again} of {len(found())} checks of sessions failed: once more, side by side", flush=True)
        failed, _ = told(side_by_side(failed))
    if 0 < len(failed) <= MOST_ALONE:
        print(f"{len(failed)} of {len(found())} checks of sessions failed beside the others: once more, each by itself", flush=True)
        failed, _ = told(one_after_another(failed))
    if failed:
        print(f"{len(failed)} of {len(found())} checks of sessions failed")
        return 1
    transcripts = sum(".test_transcripts." in case.id() for case in found())
    print(f"{len(found()) - transcripts - skipped} more checks of sessions" + (f", {again} of them in a second try" if again else ""))
    return 0


if __name__ == "__main__":
    sys.exit(main())
