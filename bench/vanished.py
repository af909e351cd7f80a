#!/usr/bin/env -S python3 -B
"""How long it takes until an operator that vanished is noticed: a follower gets the end of its board. The peer's system drops everything
that comes for it, and acknowledges nothing. The program is the built one, or that of the environment's RELAY960.
"""
import concurrent.futures
import pathlib
import sys
import time

sys.path.insert(0, str(pathlib.Path(__file__).resolve().parent.parent / "tools"))

from relay_client.keys import new_key
from relay_client.server import Server
from relay_client.tests.sessions import ABANDONED, guest_of, owner_of
from relay_client.texts import moved, played, submits

GRACE = 5
KINDS = "quiet", "behind a move", "with a move whose answer it never gets", f"with a key, and a grace of {GRACE} s"


def vanished(server, number, kind):
    """Loses an operator of this kind; returns when, and a follower of its board."""
    board = f"b{number}"
    owner, guest = owner_of(server, board, key=new_key() if "key" in kind else None), guest_of(server, board)
    if "behind" in kind:
        owner.asks(submits(board, "e2e4"), played(0))
    owner.vanish()
    if "answer" in kind:
        owner.send(submits(board, "e2e4"))
    if "move" in kind:
        guest.hears(moved("e2e4", 0))
    return owner, guest, time.monotonic()


def seconds_until_told(lost):
    _, guest, began = lost
    guest.hears(ABANDONED, "close 1000")
    return time.monotonic() - began


def main():
    with Server("--forever", "--grace", str(GRACE)) as server, concurrent.futures.ThreadPoolExecutor(len(KINDS)) as pool:
        lost = [vanished(server, number, kind) for number, kind in enumerate(KINDS)]
        for kind, seconds in zip(KINDS, pool.map(seconds_until_told, lost)):
            print(f"{kind}: {seconds:.1f} s", flush=True)


if __name__ == "__main__":
    main()
