"""The commands of the documents, the units and the examples that start a server."""

import re
import unittest

from relay_client.program import TOP

FILES = ["README.md", "CONTRIBUTING.md", "docs/*.md", "docs/relay960.1", "apps/*/README.md", "apps/*/*.service", "apps/*/*.sh"]
# A command on a line of its own. Sessions begin with `$`, and have the limits that they show.
COMMAND = re.compile(r'^(?: {4}|\.Dl |(?: {4})?ExecStart=(?:/usr/lib/relay960/until-term )?|begin \w+ )?'
                     r'(?:[\w./"$]*relay960"?|\./(?:try|run)\.sh|"\$RELAY960") serve\b.*$', re.M)


class Commands(unittest.TestCase):
    def test_a_server_is_started_as_a_tournament_day_wants_it(self):
        """A late spectator sees the whole game, since queues hold as many moves as a game may have. A lost connection has two minutes to
        come back, and no number of connections ends the day. One command shows the program's own defaults, and says so. Before, the
        commands had the defaults, with which a spectator who came after 64 moves was refused."""
        commands = [it for name in FILES for path in sorted(TOP.glob(name)) for it in COMMAND.findall(path.read_text())]
        self.assertGreater(len(commands), 9)
        for command in commands:
            for word in "--capacity 1024", "--grace 120", "--forever":
                self.assertTrue(word in command or command.endswith("# the defaults"), f"{word}: {command}")


class Logs(unittest.TestCase):
    def test_the_log_of_a_proxy_has_no_arguments(self):
        """An operator's key is there. Before, the whole request was written, as nginx does by itself."""
        http, server = (TOP.joinpath(f"apps/deployment/relay960-operators-{it}.conf").read_text() for it in ("http", "server"))
        form = re.search(r"^log_format relay960 ([^;]*);", http, re.M)[1]
        self.assertIn("$uri", form)
        for word in "$request ", '$request"', "$request_uri", "$args", "$query_string", "$arg_", "$http_referer":
            self.assertNotIn(word, form)
        place = re.search(r"^location = /operators/relay \{\n(.*?)^\}", server, re.M | re.S)[1]
        self.assertRegex(place, r"(?m)^ *access_log \S+ relay960;")
        self.assertRegex(place, r"(?m)^ *error_log stderr emerg;")
