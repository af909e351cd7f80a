"""The tests of apps/pgn_in/tests, which need neither a relay nor a package of Debian."""
import pathlib
import sys
import unittest

TOP = pathlib.Path(__file__).resolve().parents[2]
APPS = TOP / "apps"
sys.path += [str(APPS / it) for it in ("pgn_in", "recorder", "hall")] + [str(TOP / "tools")]


def load_tests(_loader, _tests, _pattern):
    folder = str(APPS / "pgn_in/tests")
    return unittest.TestLoader().discover(folder, top_level_dir=folder)
