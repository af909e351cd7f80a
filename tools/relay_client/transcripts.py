"""Transcripts of sessions in documents, replayed on the built program and compared byte for byte.

| Line | What it is |
|---|---|
| `$ relay960 serve ..` | the relay starts, on a free port in place of the one that is written |
| `journal ..` | the relay says this next on standard error |
| `1: TARGET` | connection 1 is made, with this target of its request |
| `1> TEXT` | connection 1 sends this; if this is its first line, it is made before |
| `1< TEXT` | connection 1 receives this next; `close CODE` is a close frame |
| `1: lost` | connection 1 ends silently |
| `relay: killed` | the relay is killed, and with it all connections are lost; the next line starts it again |

The relays of a transcript run in a folder of its own, where their journal is.
"""

import re
import tempfile

from relay_client.connection import Connection
from relay_client.server import Server
from relay_client.waiting import is_readable

WRITTEN = re.compile(r"^```text\n(\$ relay960 serve\b.*?)^```", re.M | re.S)
START = re.compile(r"\$ relay960 serve --port \d+(.*)")
OF_A_CONNECTION = re.compile(r"(\d+)([<>:]) (.*)")
KILLED = "relay: killed\n"
SOON = 10  # Seconds. A relay that listens has said what it found in its journal.


def transcripts(text):
    """The transcripts of a document: all blocks that begin with a start of the relay, whatever is in them, so that none is left out."""
    return WRITTEN.findall(text)


def replay(transcript):
    *killed, last = transcript.split(KILLED)
    with tempfile.TemporaryDirectory() as folder:
        for lines in killed:
            replay_run(folder, lines, is_killed=True)
        replay_run(folder, last)


def replay_run(folder, lines, is_killed=False):
    """Replays what comes from a start of the relay to its killing, or to its end, when it has served the connections of these lines."""
    start, *lines = lines.splitlines() or [""]
    found = START.fullmatch(start)
    assert found, f"no start of the relay: {start!r}"
    with Server(*found[1].split(), cwd=folder) as server:
        connections = {}
        try:
            for line in lines:
                do(line, server, connections)
            if is_killed:
                server.kill()
        finally:
            for it in connections.values():
                it.close()
        if not is_killed:
            server.has_served(len(connections))


def do(line, server, connections):
    if line.startswith("journal "):
        said = server.process.stderr.readline().decode() if is_readable(server.process.stderr, SOON) else ""
        assert said == f"{line}\n", f"{line!r}, but it said {said!r}"
        return
    found = OF_A_CONNECTION.fullmatch(line)
    assert found, f"no line of a transcript: {line!r}"
    number, way, text = found.groups()
    if number not in connections:
        connections[number] = Connection(server.port, target=text if way == ":" else None)
        assert text != "lost", line
    elif way == ":":
        assert text == "lost", line
        connections[number].reset()
    if way == ">":
        connections[number].send(text)
    elif way == "<":
        connections[number].hears(text)
