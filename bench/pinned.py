#!/usr/bin/env -S python3 -B
"""How much memory of the server one peer pins: pinned.py [PEERS]. Peers of a kind connect, send and never read; then what is resident is
compared.

A few peers of the kind come first, so that what all share is there. The program is the built one, or that of the environment's RELAY960.
"""
import pathlib
import sys

sys.path.insert(0, str(pathlib.Path(__file__).resolve().parent.parent / "tools"))

from relay_client.frames import REQUEST, frame
from relay_client.pinning import DEEP_ARRAYS, EVERYTHING, FIELDS_64, HALF_A_FRAME, HALF_A_MESSAGE, SHORT_TEXTS, resident, senders
from relay_client.server import Server

PEERS, FIRST = 200, 5
KINDS = {
    "shaken hands and silent": REQUEST,
    "one text of 127 nested arrays": REQUEST + frame(DEEP_ARRAYS),
    "64 header fields and 600 short texts in one piece": FIELDS_64 + SHORT_TEXTS,
    "a message of 65,000 bytes but for its last one, in two fragments": REQUEST + HALF_A_MESSAGE,
    "a frame of 65,000 bytes but for its last one": HALF_A_FRAME,
    "all but the last": EVERYTHING,
}


def main(count):
    for kind, sent in KINDS.items():
        with Server() as server:
            peers = senders(server, sent, FIRST)
            before = resident(server)
            peers += senders(server, sent, count)
            print(f"{kind}: {(resident(server) - before) / count:.0f} KiB a peer", flush=True)
            for peer in peers:
                peer.close()


if __name__ == "__main__":
    main(int(sys.argv[1]) if len(sys.argv) > 1 else PEERS)
