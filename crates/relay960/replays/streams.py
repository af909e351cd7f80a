"""Devices that fail: an input that cannot be read, an output that takes nothing, and more lines than a run reads."""

import errno
import os
import subprocess
import sys

from relay_client.faults import read_fault, write_fault
from relay_client.program import PATIENCE, PROGRAM
from relay_client.texts import NOT_JSON
from runs import Run, lines
from scripts import MATE_SCRIPT
from starts import PROMOTION, UNLAWFUL

# Words whose output is refused, with what stands on their input.
WRITING = [
    (("start", "518"), b""),
    (("start", "960"), b""),
    (("moves", PROMOTION), b""),
    (("moves", UNLAWFUL), b""),
    (("moves", ""), b""),
    (("play", "960"), b""),
    (("play", "518"), b"e9e4\nf2f4\n"),
    (("--version",), b""),
    ((), MATE_SCRIPT),
    (("script",), MATE_SCRIPT),
]

MOST_LINES = 1_000_000

# The bounds of a run are the greatest, and the line behind the last one is past them.
RUNS = [
    Run(("script",), reads=b"\n" * MOST_LINES, prints=lines([NOT_JSON]) * MOST_LINES),
    Run(("script",), reads=b"\n" * (MOST_LINES + 1), prints=lines([NOT_JSON]) * MOST_LINES, complains=b"fault 33 TooLong\n", status=3),
    Run(("play", "518"), reads=b"\n" * MOST_LINES, prints=b"fault 1 Length\n" * MOST_LINES),
    Run(("play", "518"), reads=b"\n" * (MOST_LINES + 1), prints=b"fault 1 Length\n" * MOST_LINES, complains=b"fault 33 TooLong\n",
        status=3),
]


def closed_outputs():
    """A device without room as standard output is fault 32, and the system's reason stands behind it."""
    for words, reads in WRITING:
        with open("/dev/full", "wb") as full:
            ended = subprocess.run([PROGRAM, *words], input=reads, stdout=full, stderr=subprocess.PIPE, timeout=PATIENCE)
        if (ended.stderr, ended.returncode) != (write_fault(errno.ENOSPC), 3):
            sys.exit(f"on a device without room {ended}")
    return len(WRITING)


def unreadable_inputs():
    """A folder as standard input can be opened and not be read, which is fault 31, and the system's reason stands behind it."""
    folder = os.open("/", os.O_RDONLY)
    jobs = ((), ("script",), ("play", "518"))
    for words in jobs:
        ended = subprocess.run([PROGRAM, *words], stdin=folder, capture_output=True, timeout=PATIENCE)
        if (ended.stdout, ended.stderr, ended.returncode) != (b"", read_fault(errno.EISDIR), 3):
            sys.exit(f"on an input that cannot be read {ended}")
    os.close(folder)
    return len(jobs)
