"""Tests of the built server, by sessions over its sockets, and of the sample clients; `.ci/replay-sessions` runs them all.

One alone, from the folder `tools`: `python3 -m unittest relay_client.tests.test_frames.BrokenFrames`.
"""
