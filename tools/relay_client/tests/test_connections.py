"""Where the server listens, and what many connections leave behind."""

import errno
import pathlib
import resource
import signal
import socket
import struct
import subprocess
import time
import unittest

from relay_client.connection import Connection
from relay_client.faults import port_fault
from relay_client.frames import request
from relay_client.ports import free_port
from relay_client.program import PATIENCE, PROGRAM
from relay_client.server import NotListening, Server
from relay_client.texts import NOT_OBJECT
from relay_client.waiting import is_readable

WAITING = 300  # Newcomers that wait to be accepted.
NO_LOOP = 5  # Descriptors: the three standard streams, the listener, and one fewer than its loop takes.
BACKLOG = 4096
# Linux, sock_diag(7): the question for all sockets of TCP that listen, and where an answer has the port and the backlog.
SOCK_DIAG, BY_FAMILY, ASKS_FOR_ALL, DONE, LISTENING = 4, 20, 0x301, 3, 1 << 10
QUESTION = struct.pack("=IHHIIBBxxI48x", 72, BY_FAMILY, ASKS_FOR_ALL, 0, 0, socket.AF_INET, socket.IPPROTO_TCP, LISTENING)
PORT_AT, BACKLOG_AT = 20, 76


def somaxconn():
    """How many newcomers the system lets wait for a port at most."""
    return int(pathlib.Path("/proc/sys/net/core/somaxconn").read_text())


def backlog(port):
    """How many newcomers the system lets wait for this port, as it says itself."""
    with socket.socket(socket.AF_NETLINK, socket.SOCK_DGRAM, SOCK_DIAG) as asking:
        asking.send(QUESTION)
        while True:
            told = asking.recv(1 << 20)
            while told:
                size, kind = struct.unpack_from("=IH", told)
                if kind == DONE:
                    raise AssertionError(f"nobody listens on {port}")
                if struct.unpack_from(">H", told, PORT_AT)[0] == port:
                    return struct.unpack_from("=I", told, BACKLOG_AT)[0]
                told = told[size + -size % 4:]


class Connections(unittest.TestCase):
    def test_the_server_listens_on_127_0_0_1_alone_and_a_taken_port_is_a_fault_of_the_device(self):
        with Server("--connections", "1") as server:
            with socket.socket() as other:
                self.assertNotEqual(other.connect_ex(("127.0.0.2", server.port)), 0)
            words = [PROGRAM, "serve", "--port", str(server.port)]
            second = subprocess.run(words, capture_output=True, timeout=PATIENCE)
            wanted = port_fault(f"127.0.0.1:{server.port}", errno.EADDRINUSE)
            self.assertEqual((second.returncode, second.stdout, second.stderr), (3, b"", wanted))
            Connection(server.port).close()
            server.has_served(1)

    def test_a_server_that_cannot_have_its_loop_says_so_and_why(self):
        port = free_port()
        with self.assertRaises(NotListening) as ended:
            Server(port=port, before=["sh", "-c", f'ulimit -S -n {NO_LOOP} && exec "$@"', "sh"])
        self.assertEqual(ended.exception.args, (b"", port_fault(f"127.0.0.1:{port}", errno.EMFILE), 3))

    def test_130_connections_at_once_are_all_served_and_take_less_than_4_kib_each(self):
        """None has ended. What they map counts."""
        with Server("--connections", "131") as server:
            connections = [Connection(server.port)]
            first = server.data_kibibytes()
            connections += [Connection(server.port) for _ in range(130)]
            for connection in connections:
                connection.asks("[]", NOT_OBJECT)
            self.assertLess(server.data_kibibytes() - first, 130 * 4)
            for connection in connections:
                connection.close()
            server.has_served(131)

    def test_more_newcomers_wait_to_be_accepted_than_128(self):
        """The server is stopped meanwhile, so it accepts none. The system answers as many as the backlog has room for. Before, that was
        128, and all others were left without an answer."""
        if somaxconn() < WAITING:
            self.skipTest(f"the system lets {somaxconn()} wait")
        with Server("--connections", str(WAITING)) as server:
            server.process.send_signal(signal.SIGSTOP)
            newcomers = [socket.create_connection(("127.0.0.1", server.port), timeout=30) for _ in range(WAITING)]
            server.process.send_signal(signal.SIGCONT)
            for newcomer in newcomers:
                newcomer.settimeout(PATIENCE)
                newcomer.sendall(request())
            for newcomer in newcomers:
                self.assertEqual(newcomer.recv(13), b"HTTP/1.1 101 ")
                newcomer.close()
            server.has_served(WAITING)

    def test_as_many_newcomers_may_wait_as_4096_or_as_the_system_allows(self):
        """Before, they were 128."""
        with Server("--connections", "1") as server:
            self.assertEqual(backlog(server.port), min(BACKLOG, somaxconn()))

    def test_connections_that_have_gone_keep_no_memory_mapped(self):
        """After 500 short connections the process maps little more memory than after none."""
        with Server("--connections", "501") as server:
            first = server.maps()
            for _ in range(500):
                Connection(server.port).close()
            self.assertLess(server.maps() - first, 500)
            Connection(server.port).close()
            server.has_served(501)

    def test_newcomers_without_a_descriptor_are_told_so_and_later_ones_are_served(self):
        """The server has no descriptor left for some of its peers. Each of them counts as failed, so 60 would be used up in no time if the
        server tried again at once. Once its peers are gone, it still accepts. Before, nobody was told anything."""
        with Server("--connections", "60") as server:
            resource.prlimit(server.process.pid, resource.RLIMIT_NOFILE, (16, 16))
            peers = [socket.create_connection(("127.0.0.1", server.port), timeout=PATIENCE) for _ in range(16)]
            time.sleep(0.5)
            told = [peer.recv(4096) for peer in peers if is_readable(peer, 0)]
            self.assertEqual({answer.partition(b"\r\n")[0] for answer in told}, {b"HTTP/1.1 503 Service Unavailable"})
            self.assertGreaterEqual(len(told), 4)
            for peer in peers:
                peer.close()
            time.sleep(0.5)
            Connection(server.port).asks("[]", NOT_OBJECT)

    def test_newcomers_without_a_descriptor_are_told_so_though_there_was_none_in_reserve_for_a_while(self):
        """The system has fewer descriptors for a moment, so that the one in reserve is lost. Before, it was not taken back, and whoever
        came behind that waited without an answer."""
        with Server("--forever") as server:
            resource.prlimit(server.process.pid, resource.RLIMIT_NOFILE, (16, 16))
            peers = [socket.create_connection(("127.0.0.1", server.port), timeout=PATIENCE) for _ in range(16)]
            time.sleep(0.5)
            resource.prlimit(server.process.pid, resource.RLIMIT_NOFILE, (3, 16))
            peers.append(socket.create_connection(("127.0.0.1", server.port), timeout=PATIENCE))
            time.sleep(0.5)
            resource.prlimit(server.process.pid, resource.RLIMIT_NOFILE, (16, 16))
            time.sleep(0.5)
            for _ in range(2):
                # After ten seconds those go that have sent no request.
                peers.append(socket.create_connection(("127.0.0.1", server.port), timeout=5))
                peers[-1].sendall(request())
                self.assertEqual(peers[-1].recv(9), b"HTTP/1.1 ")
            for peer in peers:
                peer.close()
