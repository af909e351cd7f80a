"""What a job of the built program may do when one allocation is refused, for refusals.py.

It does what it does with memory; or it answers the line that asked for the allocation with 12, and every other line as a relay does that
never had that line; or it ends with status 4 and `fault 12 OutOfMemory`, after the answers to all lines before that line and to no other.
Which line asks for an allocation is known: runs over only the first lines show how many allocations these ask for.
"""

import bisect
import itertools
import os
import subprocess
import sys
from dataclasses import dataclass, field

from games import MATE, PLAY
from relay_client.program import PATIENCE, PROGRAM, TOP
from relay_client.texts import GAME_OVER, NO_BOARD, NO_FOLLOWER, NO_MEMORY, OPENED, played
from runs import lines

CRATE = TOP / "crates/relay960"

# The stored script of fourteen lines: an Open, a Follow, a Submit, two Takes, three Submits, four Takes, a Submit after the end, a Leave.
STORED = (CRATE / "stdin").read_text().splitlines()
STORED_ANSWERS = (CRATE / "stdout").read_text().splitlines()
WITHOUT_THE_BOARD = [NO_MEMORY, NO_BOARD, NO_BOARD, *[NO_FOLLOWER] * 2, *[NO_BOARD] * 3, *[NO_FOLLOWER] * 4, NO_BOARD, NO_FOLLOWER]
WITHOUT_THE_FOLLOWER = [
    *[OPENED, NO_MEMORY, played(0), *[NO_FOLLOWER] * 2],
    *[played(1), played(2), played(3, "black mates"), *[NO_FOLLOWER] * 4, GAME_OVER, NO_FOLLOWER],
]


@dataclass(frozen=True)
class Job:
    words: tuple
    # The lines that it reads, and what it prints for each; none, if it reads nothing.
    reads: list
    prints: list
    # What it prints if it answers the line of this number with 12. Each of these must occur.
    with_12: dict = field(default_factory=dict)

    def met(self, ended, line):
        """What met the refusal that this line asked for, or no line if it is 0: the whole job, that line, or nothing; None if
        something is wrong."""
        if ended.returncode == 4 and ended.stderr.endswith(b"fault 12 OutOfMemory\n"):
            before = max(line - 1, 0)
            return "job" if ended.stdout == lines(self.prints[:before]) else None
        if ended.returncode or ended.stderr:
            return None
        if ended.stdout == lines(self.prints):
            return "nothing"
        return "line" if line in self.with_12 and ended.stdout == lines(self.with_12[line]) else None


JOBS = [
    Job(("start", "0"), [], ["bbqnnrkr/pppppppp/8/8/8/8/PPPPPPPP/BBQNNRKR w HFhf - 0 1"]),
    Job(("moves", "4k3/8/8/8/8/8/8/qRK5 w B - 0 1"), [], ["b1a1 c1d1 c1c2 c1d2", "going"]),
    Job(PLAY, [move for move, _ in MATE], [answer for _, answer in MATE]),
    Job(("script",), STORED, STORED_ANSWERS, {1: WITHOUT_THE_BOARD, 2: WITHOUT_THE_FOLLOWER}),
]


def run_refused(number, words, allocator, mark, reads=b""):
    """How a run ended in which the allocation of this number was refused; the mark says whether that happened."""
    mark.unlink(missing_ok=True)
    env = {**os.environ, "LD_PRELOAD": allocator, "REFUSED": str(number), "MARK": str(mark)}
    try:
        return subprocess.run(words, input=reads, env=env, capture_output=True, timeout=PATIENCE)
    except subprocess.TimeoutExpired as fault:
        sys.exit(f"allocation {number}: {fault}")


def allocations(job, allocator, mark):
    """How many allocations the job asks for before it has a line, and up to the end of each line."""
    asked, counts = 0, []
    for some in range(len(job.reads) + 1):
        while True:
            run_refused(asked + 1, [PROGRAM, *job.words], allocator, mark, lines(job.reads[:some]))
            if not mark.exists():
                break
            asked += 1
        counts.append(asked)
    return counts


def refuse_in_job(job, allocator, mark):
    """Runs the job with each allocation refused, until none is; returns what met the refusals, and whether a run was wrong."""
    met, printed, counts = [], set(), allocations(job, allocator, mark)
    for number in itertools.count(1):
        ended = run_refused(number, [PROGRAM, *job.words], allocator, mark, lines(job.reads))
        if not mark.exists():
            break
        met.append(job.met(ended, bisect.bisect_left(counts, number)))
        printed.add(ended.stdout)
        if met[-1] is None:
            print(f"{job.words[0]}, allocation {number}: status {ended.returncode}, printed {ended.stdout}, complained {ended.stderr}")
    if not printed.issuperset(map(lines, job.with_12.values())):
        print(f"{job.words[0]}: a line that ought to be answered with 12 where its allocation is refused was not")
        met.append(None)
    if "job" not in met:
        print(f"{job.words[0]}: no refusal ends it with status 4, as want of memory at its start ought to")
        met.append(None)
    print(f"{job.words[0]}, {len(met)} allocations refused:", ", ".join(f"{who}: {met.count(who)}" for who in sorted({*met}, key=str)))
    return None in met


def refuse_in_jobs(allocator, mark):
    """Refuses each allocation of each job; returns whether a run was wrong."""
    return any([refuse_in_job(job, allocator, mark) for job in JOBS])
