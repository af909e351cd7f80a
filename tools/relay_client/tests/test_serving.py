"""How long the server serves: `--forever`, `--connections`, `--until-input-ends` and `--idle`."""

import errno
import resource
import signal
import socket
import subprocess
import threading
import time
import unittest

from relay_client.connection import Connection
from relay_client.frames import frame, pong
from relay_client.keys import new_key
from relay_client.program import PROGRAM, TOP
from relay_client.server import Server, last_has_come
from relay_client.tests.sessions import ABANDONED, guest_of, owner_of, play
from relay_client.texts import NO_BOARD, NOT_OBJECT, ended, ends, follows, moved, over, played, refused, submits
from relay_client.waiting import is_readable

SOON = 10  # Seconds within which what happens at once has happened, on a machine that is busy with proofs too.
IN_ORDER = 5  # Seconds within which an end in order has come; a busy machine has SOON more.
LEAVING = 4  # Seconds for which peers are waited for that do not go.
MOVES = ["e2e4", "e7e5", "g1f3", "b8c6", "f1b5", "a7a6"]
AWAY = "close 1001"
NOT_YOURS = refused(13, "NotYourBoard")
UNTIL_TERM = TOP / "apps/deployment/until-term"


def refuses(port):
    """Whether the system refuses who comes to the port, within a while. Who is left waiting by a full backlog is not refused."""
    until = time.monotonic() + SOON
    while time.monotonic() < until:
        with socket.socket() as probe:
            probe.settimeout(SOON)
            if probe.connect_ex(("127.0.0.1", port)) == errno.ECONNREFUSED:
                return True
        time.sleep(0.05)
    return False


class HowLong(unittest.TestCase):
    def test_a_server_for_ever_counts_no_connections(self):
        """Before, each had a number of connections, of at most 1,000,000, and ended after them. One peer that connects and goes could spend
        them."""
        with Server("--forever") as server:
            for _ in range(300):
                Connection(server.port).close()
            Connection(server.port).asks("[]", NOT_OBJECT)
            self.assertIsNone(server.process.poll())

    def test_for_ever_and_a_number_of_connections_are_not_both_given(self):
        for words in (["--forever", "--connections", "5"], ["--connections", "5", "--forever"]):
            run = subprocess.run([PROGRAM, "serve", *words], capture_output=True, timeout=SOON)
            self.assertEqual((run.returncode, run.stdout), (2, b""), words)
            self.assertIn(b"'--connections <connections>' cannot be used with '--forever'", run.stderr)

    def test_behind_the_last_connection_newcomers_are_refused_and_who_is_there_is_served(self):
        """Before, newcomers were connected by the system, and then waited for an answer that did not come."""
        with Server("--connections", "2") as server:
            owner, guest = owner_of(server), guest_of(server)
            self.assertTrue(refuses(server.port))
            owner.asks(submits("b1", "e2e4"), played(0))
            guest.hears(moved("e2e4", 0))
            owner.close()
            guest.hears(ABANDONED, "close 1000")
            guest.close()
            server.has_served(2)

    def test_the_last_connection_that_may_come_is_told_of_once_while_it_is_served(self):
        """Before, a server that nobody reached any more said nothing. The line names the flag that helps."""
        with Server("--connections", "2") as server:
            owner = owner_of(server)
            self.assertFalse(is_readable(server.process.stderr, 1))
            guest = guest_of(server)
            self.assertTrue(is_readable(server.process.stderr, SOON))
            self.assertEqual(server.process.stderr.readline().decode(), last_has_come(2))
            self.assertTrue(refuses(server.port))
            owner.asks(submits("b1", "e2e4"), played(0))
            guest.hears(moved("e2e4", 0))
            for peer in owner, guest:
                peer.close()
            self.assertEqual(server.ended(), (b"", b"served 2, failed 0\n", 0))
        self.assertIn(f"`{last_has_come(5).strip()}`", TOP.joinpath("docs/DEPLOYMENT.md").read_text())

    def test_a_server_for_ever_says_of_no_connection_that_it_is_the_last(self):
        with Server("--forever", "--until-input-ends", stdin=subprocess.PIPE) as server:
            for _ in range(300):
                Connection(server.port).close()
            peer = Connection(server.port)
            peer.asks("[]", NOT_OBJECT)
            peer.close()
            self.assertEqual(server.ended(), (b"", b"served 301, failed 0\n", 0))


class Idle(unittest.TestCase):
    """Before, nobody was sent away for saying nothing. Who owned and followed nothing kept a thread for as long as he liked."""

    def lasts(self, began, least):
        """This many seconds have passed since, and not many more."""
        took = time.monotonic() - began
        self.assertTrue(least - 0.1 < took < least + SOON, took)

    def goes(self, peer, began, least):
        """The peer is told to go, and then the connection ends."""
        self.assertEqual(peer.receive(), AWAY)
        self.lasts(began, least)
        peer.has_ended()
        peer.close()

    def test_a_peer_that_says_nothing_goes_and_one_that_asks_stays_until_it_does_not(self):
        with Server("--idle", "6", "--connections", "4") as server:
            owner, guest = owner_of(server), guest_of(server)
            began, silent, asking = time.monotonic(), Connection(server.port), Connection(server.port)
            for text, answer in ("[]", NOT_OBJECT), (submits("b9", "e2e4"), NO_BOARD), (submits("b1", "e2e4"), NOT_YOURS):
                time.sleep(4)
                asked = time.monotonic()
                asking.asks(text, answer)
            self.goes(silent, began, 6)
            self.goes(asking, asked, 6)
            # Who owns or follows a board may say nothing for longer.
            owner.asks(submits("b1", "e2e4"), played(0))
            guest.hears(moved("e2e4", 0))
            owner.asks("close 1000", "close 1000")
            guest.hears(ABANDONED, "close 1000")
            self.all_close(owner, guest)
            server.has_served(4)

    def all_close(self, *connections):
        for connection in connections:
            connection.close()

    def test_who_has_the_key_of_a_board_may_say_nothing_for_longer(self):
        """Even if another connection opened it, before the handshake or after it."""
        key = new_key()
        with Server("--idle", "4", "--grace", "60", "--connections", "3") as server:
            before, owner = Connection(server.port, key=key), owner_of(server, key=key)
            began, other = time.monotonic(), Connection(server.port, key=new_key())
            self.goes(other, began, 4)
            time.sleep(5)
            before.asks(submits("b1", "e2e4"), played(0))
            owner.asks(submits("b1", "e7e5"), played(1))
            time.sleep(6)
            before.asks(submits("b1", "g1f3"), played(2))
            self.all_close(before, owner)
            server.has_served(3)

    def test_pings_and_pongs_are_no_messages(self):
        with Server("--idle", "4", "--connections", "1") as server:
            began, peer = time.monotonic(), Connection(server.port)
            pinging = threading.Event()

            def ping():
                while not pinging.wait(1):
                    peer.stream.sendall(pong())
            thread = threading.Thread(target=ping)
            thread.start()
            self.assertEqual(peer.receive(), AWAY)
            pinging.set()
            thread.join()
            self.lasts(began, 4)
            peer.close()
            server.has_served(1)

    def test_with_nought_nobody_goes_and_not_at_once_by_default(self):
        for words in ["--idle", "0"], []:
            with Server(*words, "--connections", "1") as server:
                peer = Connection(server.port)
                time.sleep(5)
                peer.asks("[]", NOT_OBJECT)
                peer.close()
                server.has_served(1)


class UntilInputEnds(unittest.TestCase):
    """Before, a server could only be killed. Nobody heard of it, and in most ends some followers missed the last moves."""

    def server(self, *words, **options):
        """A server whose input is open."""
        return Server("--until-input-ends", *words, stdin=subprocess.PIPE, **options)

    def end_input(self, server):
        """Ends the server's input, and returns when."""
        server.process.stdin.close()
        server.process.stdin = None
        return time.monotonic()

    def ends_in_order(self, server, began, least=0.0):
        printed, complained, status = server.ended()
        took = time.monotonic() - began
        self.assertEqual((printed, status), (b"", 0), complained)
        self.assertGreaterEqual(took, least)
        self.assertLess(took, IN_ORDER + SOON)
        return complained

    def all_close(self, *connections):
        for connection in connections:
            connection.close()

    def test_followers_have_their_last_moves_and_are_told_before_the_server_ends(self):
        """The moves come right before the end. It is tried often, since it was a matter of luck."""
        for _ in range(8):
            with self.server("--forever") as server:
                owner = owner_of(server)
                guests = [guest_of(server) for _ in range(20)]
                texts = play(owner, MOVES)
                began = self.end_input(server)
                for guest in guests:
                    guest.hears(*texts, ABANDONED, AWAY)
                owner.hears(AWAY)
                self.all_close(owner, *guests)
                self.assertEqual(self.ends_in_order(server, began), b"served 21, failed 0\n")

    def test_nobody_is_accepted_behind_the_end_of_the_input(self):
        with self.server("--forever") as server:
            owner, guest = owner_of(server), guest_of(server)
            self.end_input(server)
            guest.hears(ABANDONED, AWAY)
            self.assertTrue(refuses(server.port))
            self.all_close(owner, guest)

    def test_boards_that_wait_for_their_key_end_and_games_that_are_over_stay_so(self):
        with self.server("--forever", "--grace", "3600") as server:
            owner, guest = owner_of(server, key=new_key()), guest_of(server)
            other = owner_of(server, board="b2")
            other.asks(ends("b2", "agreed"), ended("agreed"))
            late = Connection(server.port)
            owner.reset()
            time.sleep(1)
            began = self.end_input(server)
            guest.hears(ABANDONED, AWAY)
            other.hears(AWAY)
            self.all_close(guest, other, late)
            self.assertEqual(self.ends_in_order(server, began), b"served 4, failed 0\n")

    def test_who_sends_all_the_time_is_told_too(self):
        """Each of its texts is answered until the close."""
        with self.server("--forever") as server:
            owner, guest = owner_of(server), guest_of(server)
            ending = threading.Timer(1, self.end_input, [server])
            began = time.monotonic()
            ending.start()
            received = NOT_OBJECT
            while received == NOT_OBJECT and time.monotonic() < began + SOON:
                owner.send("[]")
                received = owner.receive()
            self.assertEqual(received, AWAY)
            ending.join()
            guest.hears(ABANDONED, AWAY)
            self.all_close(owner, guest)
            self.ends_in_order(server, began)

    def test_peers_that_do_not_go_are_waited_for_four_seconds(self):
        """One that has not sent its request, one that reads nothing, one in the middle of a message, and a follower that does not close."""
        with self.server("--forever") as server:
            silent = socket.create_connection(("127.0.0.1", server.port))
            owner, guest = owner_of(server), guest_of(server)
            midway, deaf = Connection(server.port), Connection(server.port, room=4096)
            midway.stream.sendall(frame("[]")[:3])
            deaf.stream.settimeout(1)
            try:
                while True:
                    deaf.stream.sendall(frame("[") * 1000)
            except TimeoutError:
                pass
            began = self.end_input(server)
            guest.hears(ABANDONED, AWAY)
            midway.hears(AWAY)
            self.ends_in_order(server, began, LEAVING - 0.5)
            self.all_close(owner, guest, midway, deaf)
            silent.close()

    def test_it_ends_where_there_is_no_descriptor_left(self):
        """The three standard streams, the listener, the one in reserve, two of the loop, and three connections."""
        most = 10
        with self.server("--forever") as server:
            resource.prlimit(server.process.pid, resource.RLIMIT_NOFILE, (most, most))
            owner, guest, other = owner_of(server), guest_of(server), Connection(server.port)
            with socket.create_connection(("127.0.0.1", server.port), timeout=SOON) as newcomer:
                self.assertTrue(newcomer.recv(100).startswith(b"HTTP/1.1 503 "))
            began = self.end_input(server)
            guest.hears(ABANDONED, AWAY)
            self.all_close(owner, guest, other)
            self.ends_in_order(server, began)

    def test_the_script_of_the_unit_ends_it_in_order_at_term(self):
        for number in signal.SIGTERM, signal.SIGINT:
            with Server("--until-input-ends", "--forever", before=[UNTIL_TERM]) as server:
                owner, guest = owner_of(server), guest_of(server)
                texts = play(owner, MOVES)
                began = time.monotonic()
                server.process.send_signal(number)
                guest.hears(*texts, ABANDONED, AWAY)
                self.all_close(owner, guest)
                self.assertEqual(self.ends_in_order(server, began), b"served 2, failed 0\n")

    def test_what_the_input_has_before_its_end_does_nothing(self):
        with self.server("--connections", "2") as server:
            server.process.stdin.write(b"stop\n\0\4" * 1000)
            owner, guest = owner_of(server), guest_of(server)
            time.sleep(2)
            owner.asks(submits("b1", "e2e4"), played(0))
            began = self.end_input(server)
            guest.hears(moved("e2e4", 0), ABANDONED, AWAY)
            self.all_close(owner, guest)
            self.assertEqual(self.ends_in_order(server, began), f"{last_has_come(2)}served 2, failed 0\n".encode())

    def test_before_the_last_connection_the_end_of_the_input_says_nothing_of_it(self):
        with self.server("--connections", "3") as server:
            owner, guest = owner_of(server), guest_of(server)
            began = self.end_input(server)
            guest.hears(ABANDONED, AWAY)
            self.all_close(owner, guest)
            self.assertEqual(self.ends_in_order(server, began), b"served 2, failed 0\n")

    def test_an_input_that_has_ended_ends_it_at_once(self):
        began = time.monotonic()
        with Server("--until-input-ends", "--forever", stdin=subprocess.DEVNULL) as server:
            self.assertEqual(self.ends_in_order(server, began), b"served 0, failed 0\n")

    def test_it_ends_before_its_input_behind_the_last_of_its_connections(self):
        with self.server("--connections", "2") as server:
            owner, guest = owner_of(server), guest_of(server)
            owner.asks("close 1000", "close 1000")
            owner.close()
            guest.hears(ABANDONED, "close 1000")
            guest.close()
            server.process.wait(SOON)
            server.process.stdin.close()
            server.process.stdin = None
            server.has_served(2)

    def test_without_the_flag_the_input_is_not_looked_at(self):
        with Server("--connections", "2", stdin=subprocess.DEVNULL) as server:
            owner, guest = owner_of(server), guest_of(server)
            time.sleep(2)
            owner.asks(ends("b1", "agreed"), ended("agreed"))
            guest.hears(over("agreed"), "close 1000")
            self.all_close(owner, guest)
            server.has_served(2)

    def test_a_follower_that_comes_to_a_board_that_is_over_is_told_so_too(self):
        with self.server("--forever") as server:
            owner = owner_of(server)
            owner.asks(ends("b1", "agreed"), ended("agreed"))
            guest = Connection(server.port)
            guest.send(follows("b1"))
            guest.receive()
            guest.hears(over("agreed"), "close 1000")
            began = self.end_input(server)
            owner.hears(AWAY)
            self.all_close(owner, guest)
            self.ends_in_order(server, began)
