"""The ports that the tests of sessions find (relay_client/ports.py)."""
import pathlib
import socket
import sys
import unittest
from unittest import mock

sys.path.insert(0, str(pathlib.Path(__file__).resolve().parents[1]))

from relay_client import ports  # noqa: E402


class Free(unittest.TestCase):
    def test_one_that_another_has_taken_aside_is_never_held(self):
        """Its server may come up in just that moment."""
        other = ports.free_port()
        with socket.socket() as server:
            server.bind(("127.0.0.1", 0))
            taken = server.getsockname()[1]
            asked = iter([other, taken, 29960, 29961, 29962])
            with mock.patch.object(ports.random, "randrange", lambda *_: next(asked)), \
                    mock.patch.object(ports, "is_free", side_effect=ports.is_free) as tried:
                found = ports.free_port()
        self.assertIn(found, (29960, 29961, 29962))
        self.assertEqual([it.args[0] for it in tried.call_args_list][0], taken, "the other's was tried")


if __name__ == "__main__":
    unittest.main()
