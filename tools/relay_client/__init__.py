"""Drives the built program: for the gate's replays, the tests of the pages, the examples and the benchmarks.

The standard library is enough for all modules but `client`, `line`, `browser` and `firefox`, which need Debian's python3-websockets.

| Module | What it has |
|---|---|
| `program` | where the built program is, how long to wait for it, and its commands that answer at once |
| `ports` | free ports of loopback |
| `texts` | commands and answers as JSON texts |
| `frames` | the bytes of RFC 6455 |
| `keys` | the key by which an operator comes back to its boards |
| `connection` | a WebSocket client that waits for each text |
| `server` | the program as a server on a free port, with a time limit |
| `transcripts` | the notation of sessions in documents, and what replays them on such a server |
| `relay` | such a server beside asynchronous tests: killed, and restarted on its port |
| `wire` | a wire of TCP to a relay that can be cut and mended |
| `client` | an asynchronous client that asks and is answered |
| `men` | the men of a position, and how a move changes them |
| `names` | the names under which a lost game goes on |
| `line` | a connection that follows boards and outlasts refusals: for the feed and the recorder |
| `browser`, `firefox`, `webkit` | Chromium, Firefox and WebKit for the tests of the pages, without a visible window |
| `acts`, `strokes` | what a person does on a page, and the mouse and the keys as WebDriver has them |
| `tests` | sessions on the built server; `.ci/replay-sessions` runs them |

A shell script gives the folder above to Python as PYTHONPATH. A Python script that is started directly adds it to its path in one line.
"""
