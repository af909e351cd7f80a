"""Whether comparing keys takes as long wherever they differ. No contract speaks of time, and a clock shows it by luck. So valgrind counts
the instructions that the built program runs to compare the key of a stranger with those of all boards. It compares their digests, of which
nobody can choose more than some digits. So they differ in the first, the third or the fifth."""

import concurrent.futures
import hashlib
import itertools
import pathlib
import re
import shutil
import tempfile
import unittest

from relay_client.connection import Connection
from relay_client.program import PROGRAM
from relay_client.server import Server
from relay_client.tests.sessions import owner_of
from relay_client.texts import NO_BOARD, follows, refused, submits

KEY = "the-key-of-a-stranger"
PLACES = 0, 2, 4
BOARDS, FEWER = 24, 12
ASKED = 150  # Each time its key is compared with that of every board.
LEAST = 16  # Instructions at least for comparing two digests of 64 digits, as many at a time as the processor takes.
# The function that compares a key with those of all boards. No compiler may put it into another.
COMPARES = "relay_hall::boards::owns_any"
NOT_YOURS = refused(13, "NotYourBoard")


def digest_of(key):
    return hashlib.sha256(key.encode()).hexdigest()


def keys_that_differ(place, count):
    """This many keys whose digests differ from the stranger's at this place first."""
    digest = digest_of(KEY)
    keys = (f"the-key-of-owner-{number}" for number in itertools.count())
    others = ((key, digest_of(key)) for key in keys)
    fit = (key for key, it in others if it.startswith(digest[:place]) and it[place] != digest[place])
    return list(itertools.islice(fit, count))


def instructions_of_a_stranger(place, boards):
    """How many instructions the server runs to compare the key of one, which is that of no board, with those of its boards."""
    with tempfile.TemporaryDirectory() as name:
        counts = pathlib.Path(name, "counts")
        counted = ["valgrind", "--tool=callgrind", f"--toggle-collect={COMPARES}", f"--callgrind-out-file={counts}"]
        with Server("--grace", "60", "--boards", str(boards), "--connections", str(boards + 1), before=counted) as server:
            owners = [owner_of(server, f"b{at}", key=key) for at, key in enumerate(keys_that_differ(place, boards))]
            stranger = Connection(server.port, key=KEY)
            for _ in range(ASKED):
                stranger.asks(follows("none"), NO_BOARD)
            for at in range(boards):
                stranger.asks(submits(f"b{at}", "e2e4"), NOT_YOURS)
            for connection in stranger, *owners:
                connection.close()
            assert server.ended()[2] == 0
        return int(re.search(r"^(?:totals|summary): (\d+)", counts.read_text(), re.M)[1])


class Comparing(unittest.TestCase):
    def test_a_strangers_key_takes_as_long_wherever_it_differs(self):
        """Not an instruction more. That keys are compared at all is seen by how many instructions more boards take."""
        if not shutil.which("valgrind"):
            self.skipTest("valgrind is missing: that comparing keys takes as long wherever they differ is not tried")
        self.assertIn(COMPARES.encode(), PROGRAM.read_bytes(), "the program has no function of this name")
        with concurrent.futures.ThreadPoolExecutor() as pool:
            *counts, fewer = pool.map(instructions_of_a_stranger, [*PLACES, 0], [BOARDS] * len(PLACES) + [FEWER])
        self.assertGreater(counts[0] - fewer, LEAST * ASKED * (BOARDS - FEWER), (counts, fewer))
        self.assertEqual(len(set(counts)), 1, counts)
