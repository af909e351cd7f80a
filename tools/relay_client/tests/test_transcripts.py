"""The sessions of documents are as they are written."""

import unittest

from relay_client.program import TOP
from relay_client.transcripts import replay, transcripts


class Transcripts(unittest.TestCase):
    def replay_all(self, name):
        found = transcripts((TOP / name).read_text())
        self.assertTrue(found, name)
        for transcript in found:
            replay(transcript)
        print(f"{name}: {len(found)} transcripts of sessions replayed", flush=True)

    def test_the_sessions_of_the_protocol_are_as_written(self):
        self.replay_all("docs/PROTOCOL.md")

    def test_the_sessions_beside_the_replays_are_as_written(self):
        self.replay_all("crates/relay960/replays/sessions.md")
