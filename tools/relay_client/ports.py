"""Ports of loopback. For the shell scripts of apps/:

    python3 -m relay_client.ports free PORT..       ends with status 1 if one is taken
    python3 -m relay_client.ports wait PORT..       waits until all are listened on, for at most 30 seconds
"""

import collections
import pathlib
import random
import socket
import sys
import time


# The ports that were found last are bound for datagrams: whoever looks for a free one at the same time passes over them.
FOUND_LAST = collections.deque()
MOST_FOUND_LAST = 64


def is_taken_aside(port):
    """Takes a port aside, unless another has."""
    taken = socket.socket(type=socket.SOCK_DGRAM)
    try:
        taken.bind(("127.0.0.1", port))
    except OSError:
        taken.close()
        return False
    FOUND_LAST.append(taken)
    if len(FOUND_LAST) > MOST_FOUND_LAST:
        FOUND_LAST.popleft().close()
    return True


def is_free(port):
    with socket.socket() as probe:
        try:
            probe.bind(("127.0.0.1", port))
        except OSError:
            return False
    return True


def free_port():
    """A port that is free at present. It is none of those that the system gives to connections, if it leaves others, so a server that
    is restarted finds its port free."""
    first = int(pathlib.Path("/proc/sys/net/ipv4/ip_local_port_range").read_text().split()[0])
    while True:
        port = random.randrange(20000, first if first > 21000 else 65536)
        # In this order: who tries a port holds it, and that of another is not to be held while its server comes up.
        if is_taken_aside(port) and is_free(port):
            return port


def listened():
    """The ports that are listened on, as the system reports them."""
    lines = [line.split() for line in pathlib.Path("/proc/net/tcp").read_text().splitlines()[1:]]
    return {int(address.split(":")[1], 16) for _, address, _, state, *_ in lines if state == "0A"}


def are_free(ports):
    """Whether none is taken; names those that are."""
    taken = sorted(ports & listened())
    for port in taken:
        print(f"port {port} of this machine is taken: end what listens there first")
    return not taken


def come_up(ports):
    """Whether all are listened on within 30 seconds; names those that are not."""
    end = time.monotonic() + 30
    while not ports <= listened():
        if time.monotonic() > end:
            print(f"nothing listens on {sorted(ports - listened())}")
            return False
        time.sleep(0.05)
    return True


def main():
    job = {"free": are_free, "wait": come_up}[sys.argv[1]]
    return 0 if job({int(word) for word in sys.argv[2:]}) else 1


if __name__ == "__main__":
    sys.exit(main())
