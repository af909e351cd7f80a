#!/usr/bin/env -S python3 -B
"""How much memory of the server a connection takes that rests: resting.py [CONNECTIONS [WORDS..]]. So many shake hands and say nothing.
What is resident is compared, and divided by their number.

A few come first, so that what all share is there. The words are further ones of `serve`, such as --idle. The program is the built one,
or that of the environment's RELAY960.
"""
import pathlib
import resource
import sys

sys.path.insert(0, str(pathlib.Path(__file__).resolve().parent.parent / "tools"))

from relay_client.frames import REQUEST
from relay_client.pinning import resident, senders
from relay_client.server import Server

CONNECTIONS, FIRST = 2000, 50


def main(count, words):
    most = resource.getrlimit(resource.RLIMIT_NOFILE)[1]
    resource.setrlimit(resource.RLIMIT_NOFILE, (most, most))
    with Server("--forever", *words) as server:
        peers = senders(server, REQUEST, FIRST)
        before = resident(server)
        peers += senders(server, REQUEST, count)
        print(f"{count} that rest: {(resident(server) - before) * 1024 / count:.0f} bytes each, {resident(server)} KiB in all", flush=True)
        for peer in peers:
            peer.close()


if __name__ == "__main__":
    main(int(sys.argv[1]) if len(sys.argv) > 1 else CONNECTIONS, sys.argv[2:])
