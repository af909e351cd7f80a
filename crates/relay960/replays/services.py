"""Services: the port, the count of connections, and how the end of one is told. What is said in sessions stands in sessions.md."""

import errno
import resource
import socket
import subprocess
import sys
import time

from relay_client.faults import port_fault, write_fault
from relay_client.ports import free_port
from relay_client.program import PATIENCE, PROGRAM
from relay_client.server import Server, first_line, last_has_come

DEFAULT_PORT = 9600

# What a newcomer is told for whom there is no room, and what standard error is told of the first of several.
NO_ROOM = b"HTTP/1.1 503 Service Unavailable\r\nConnection: close\r\nContent-Length: 0\r\n\r\n"
ONE_LINE = b"no descriptor or memory for a connection: turned away\n"


def compare(what, found, wanted):
    if found != wanted:
        sys.exit(f"{what}: {found}\nwanted: {wanted}")


def without_a_listener(words):
    """What is left by a service that cannot listen."""
    ended = subprocess.run([PROGRAM, "serve", *words], capture_output=True, timeout=PATIENCE)
    return ended.stdout, ended.stderr, ended.returncode


def a_taken_port():
    """Where another program listens, nothing is served, and the address is named."""
    with socket.create_server(("127.0.0.1", 0)) as taken:
        port = taken.getsockname()[1]
        for words in ["--port", str(port)], ["--port", str(free_port()), "--watch", f"127.0.0.1:{port}"]:
            compare(f"on a taken port, {words}", without_a_listener(words), (b"", port_fault(f"127.0.0.1:{port}", errno.EADDRINUSE), 3))


def a_refused_listener():
    """At an address that no machine has (RFC 5737), nothing is served, and the address is named."""
    words = ["--port", str(free_port()), "--watch", "192.0.2.1:9601"]
    compare("at another's address", without_a_listener(words), (b"", port_fault("192.0.2.1:9601", errno.EADDRNOTAVAIL), 3))


def a_full_complaint():
    """Where standard error takes nothing, the status alone tells of the fault."""
    with socket.create_server(("127.0.0.1", 0)) as taken, open("/dev/full", "wb") as full:
        words = [PROGRAM, "serve", "--port", str(taken.getsockname()[1])]
        ended = subprocess.run(words, stdout=subprocess.PIPE, stderr=full, timeout=PATIENCE)
    compare("with a full standard error", (ended.stdout, ended.returncode), (b"", 3))


def a_full_output():
    """Where it cannot be told that it listens, nothing is served."""
    with open("/dev/full", "wb") as full:
        words = [PROGRAM, "serve", "--port", str(free_port())]
        ended = subprocess.run(words, stdout=full, stderr=subprocess.PIPE, timeout=PATIENCE)
    compare("on a device without room", (ended.stderr, ended.returncode), (write_fault(errno.ENOSPC), 3))


def connection(server):
    return socket.create_connection(("127.0.0.1", server.port), timeout=PATIENCE)


def connections(count):
    """As many connections as are asked for, each of which ends without a word, and then no more."""
    with Server("--connections", str(count)) as server:
        for _ in range(count):
            connection(server).close()
        server.has_served(count)


def few_descriptors():
    """The three standard streams, what the loop asks and is woken by, the listener, the descriptor in reserve and one connection."""
    resource.setrlimit(resource.RLIMIT_NOFILE, (8, 8))


def told(peer):
    """All that a peer is sent until its connection ends."""
    texts = b""
    while piece := peer.recv(4096):
        texts += piece
    return texts


def too_few_descriptors():
    """A connection that there is no descriptor for is told so and counts as failed; the one before it is served."""
    with Server("--connections", "3", preexec_fn=few_descriptors) as server:
        # The first says nothing, so that its session lasts as long as a handshake may, and keeps its descriptor meanwhile.
        with connection(server):
            for _ in range(2):
                with connection(server) as turned_away:
                    turned_away.sendall(b"GET / HTTP/1.1\r\n")
                    compare("without a descriptor", told(turned_away), NO_ROOM)
            compare("at the end", server.ended(), (b"", ONE_LINE + last_has_come(3).encode() + b"served 1, failed 2\n", 0))


def refused_by_the_system():
    """Once the last connection was accepted nobody listens any more, while its session still lasts."""
    with Server("--connections", "1") as server:
        with connection(server) as last:
            for _ in range(100):
                try:
                    connection(server).close()
                except ConnectionRefusedError:
                    break
                except (ConnectionAbortedError, ConnectionResetError):
                    # The listener was closed while this one waited to be accepted.
                    pass
                time.sleep(0.02)
            else:
                sys.exit("behind the last connection the port still takes others")
            compare("the server's status while its last session lasts", server.process.poll(), None)
            last.shutdown(socket.SHUT_WR)
        server.has_served(1)


def without_an_end():
    """With --forever it accepts on behind any number."""
    with Server("--forever") as server:
        for _ in range(300):
            connection(server).close()
        with connection(server) as one:
            one.shutdown(socket.SHUT_WR)
            compare("the 301st connection", one.recv(1), b"")
        compare("the server's status", server.process.poll(), None)


def a_descriptor_comes_back():
    """Once a connection has ended its descriptor serves another one, and the newcomers in between are told that there is no room."""
    with Server("--connections", "10000", preexec_fn=few_descriptors) as server:
        with connection(server) as one:
            with connection(server) as turned_away:
                compare("without a descriptor", told(turned_away), NO_ROOM)
            one.close()
        for _ in range(100):
            with connection(server) as other:
                other.shutdown(socket.SHUT_WR)
                # It is told by its end that no request came.
                if told(other) == b"":
                    break
            time.sleep(0.02)
        else:
            sys.exit("behind a descriptor that came back all are turned away")
        compare("the server's status while it serves", server.process.poll(), None)


def default_port():
    """Without the word the port is the default one, unless another program of this machine has it."""
    with socket.socket() as probe:
        probe.setsockopt(socket.SOL_SOCKET, socket.SO_REUSEADDR, 1)
        try:
            probe.bind(("127.0.0.1", DEFAULT_PORT))
        except OSError:
            return False
    with subprocess.Popen([PROGRAM, "serve"], stdout=subprocess.PIPE) as server:
        try:
            compare("the default port", first_line(server), f"listening {DEFAULT_PORT}\n".encode())
        finally:
            server.kill()
    return True


def all_services():
    a_taken_port()
    a_refused_listener()
    a_full_complaint()
    a_full_output()
    for count in (1, 3):
        connections(count)
    too_few_descriptors()
    a_descriptor_comes_back()
    refused_by_the_system()
    without_an_end()
    return 10 + default_port()
