"""A run of the built program: its words, what it reads, and what it has to print, complain of and end with."""

import subprocess
import sys
from dataclasses import dataclass

from relay_client.program import PATIENCE, PROGRAM


@dataclass(frozen=True)
class Run:
    words: tuple
    reads: bytes = b""
    prints: bytes = b""
    # None: some text or other.
    complains: bytes | None = b""
    status: int = 0
    # Whether `prints` is the end of the output, where all of it would be long to write down.
    at_the_end: bool = False

    def try_it(self):
        ended = subprocess.run([PROGRAM, *self.words], input=self.reads, capture_output=True, timeout=PATIENCE)
        printed = ended.stdout[-len(self.prints):] if self.at_the_end else ended.stdout
        self.compare("standard output", printed, self.prints)
        if self.complains is not None:
            self.compare("standard error", ended.stderr, self.complains)
        self.compare("status", ended.returncode, self.status)

    def compare(self, what, found, wanted):
        if found != wanted:
            sys.exit(f"relay960 {self.words} on {self.reads[:200]}\n{what}: {str(found)[:2000]}\nwanted: {str(wanted)[:2000]}")


def lines(texts):
    """The texts, each with a line feed behind it."""
    return "".join(text + "\n" for text in texts).encode()
