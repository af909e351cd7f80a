"""A file that ends at every one of its bytes, for enter.py beside the built relay. test.sh starts it.

Each of these files is left until enter.py has read it, which its time of access tells.
"""
import asyncio
import os
import time
import unittest

from relay_client.program import PATIENCE
from relay_client.tests.entering import DUTCH, DUTCH_SENT, Entering, game

# Twenty moves with both castlings, promotions and captures, and words that are others where they are cut off.
WORDS = """1. d4 c5 2. dxc5 {[%clk 1:29:57]} b6 3. cxb6 Nc6 4. bxa7 Rb8 (4... Rxa7 5. e4 {so} Ra8) 5. axb8=N $1 Nxb8 6. Nc3 Nc6 7. Bf4 Ba6
8. Qd2 Nf6 9. O-O-O e6 10. e3 Bxf1 11. Rxf1 Be7 12. Nf3 0-0 13. Rd1 Qa5 14. Kb1 Rd8 15. Ng5 h6 16. Nge4 Nxe4 17. Nxe4 Qxd2 18. Rxd2 d5
19. Rhd1 dxe4 20. Rxd8+ Nxd8"""
SENT = """d2d4 c7c5 d4c5 b7b6 c5b6 b8c6 b6a7 a8b8 a7b8n c6b8 b1c3 b8c6 c1f4 c8a6 d1d2 g8f6 e1a1 e7e6 e2e3 a6f1 d1f1 f8e7 g1f3 e8h8 f1d1 d8a5
c1b1 f8d8 f3g5 h7h6 g5e4 f6e4 c3e4 a5d2 d1d2 d7d5 h1d1 d5e4 d2d8 c6d8""".split()
HEAD = '[Event "Cut"]\n[Round "3.1"]\n[White "Müller"]\n[FEN "rnbqkbnr/pppppppp/8/8/8/8/PPPPPPPP/RNBQKBNR w KQkq - 0 1"]\n\n'
ROUND = (HEAD + WORDS + " 1-0\n\n" + game(DUTCH, 2)).encode()
THERE = {"r3_1": (518, SENT, "white wins by decision"), "r3_2": (518, DUTCH_SENT, None)}
WAITS = "the file has another game than was sent: it waits for three readings"
SETTLES = 0.06  # Seconds: what changes sooner after a reading is read again, and not taken.


class Cut(Entering):
    async def leave(self, end):
        """Leaves the file with its first bytes alone until they are read."""
        self.file.write_bytes(ROUND[:end])
        os.utime(self.file, ns=(0, time.time_ns()))
        until = time.monotonic() + PATIENCE
        while os.stat(self.file).st_atime_ns == 0:
            self.assertLess(time.monotonic(), until, "nobody reads it, or this file system notes no readings")
            await asyncio.sleep(0.01)
        await asyncio.sleep(SETTLES)

    async def test_a_file_that_grows_byte_by_byte_is_entered_as_it_is_at_its_end(self):
        await self.start("--every", "2", "--quiet")
        for end in range(len(ROUND) + 1):
            await self.leave(end)
        await self.has(**THERE)
        self.assertLessEqual(set(self.wrong().splitlines()), {f"{self.file} cannot be read: No such file or directory",
                                                              "the file is there again", "there is no game in the file"})

    async def test_a_file_that_is_cut_off_at_any_byte_corrects_nothing(self):
        """It is whole again after each twelfth, before three readings found the same."""
        await self.start("--every", "2", "--quiet")
        await self.leave(len(ROUND))
        await self.has(**THERE)
        for end in range(len(ROUND)):
            await self.leave(end)
            if end % 12 == 0:
                await self.leave(len(ROUND))
        await self.leave(len(ROUND))
        await self.has(**THERE)
        lines = self.wrong().splitlines()
        self.assertGreater(lines.count(f"r3-1: {WAITS}"), 10)
        self.assertLessEqual(set(lines), {f"r3-1: {WAITS}", f"r3-2: {WAITS}"})


if __name__ == "__main__":
    unittest.main()
