#!/usr/bin/python3
"""Tries which limits of the system a crowd of spectators meets: starts the built program on loopback, and nginx before it if that is asked
for, and connects this many spectators to the watch port. It does so in its own network, so it needs root and leaves the machine as it is.

    ./crowd.py 10000                                     straight to the watch port
    ./crowd.py 10000 --nginx --tls                       through nginx (Debian: apt-get install nginx-light), there with TLS
    ./crowd.py 1000 --descriptors 1024 --most 1000       with other limits than those of the unit
    ./crowd.py 4000 --ports 3000 --nginx --from 4        with this many local ports, and nginx coming from four addresses

Its last lines say what became of the spectators, what it took, and what the system and nginx complained of. RELAY960 names another
program than the built one.
"""
import argparse
import collections
import errno
import os
import pathlib
import re
import resource
import select
import socket
import ssl
import statistics
import subprocess
import sys
import tempfile
import time

HERE = pathlib.Path(__file__).resolve().parent
sys.path.append(str(HERE.parents[1] / "tools"))

from relay_client.connection import Connection  # noqa: E402
from relay_client.frames import CLOSE, PING, TEXT, frame, pong, request  # noqa: E402
from relay_client.ports import come_up  # noqa: E402
from relay_client.program import PROGRAM  # noqa: E402
from relay_client.texts import OPENED, follows, opens, played, submits  # noqa: E402

OWN, WATCH, SITE = 9600, 9601, 9443
IP_BIND_ADDRESS_NO_PORT = 24  # Linux, in.h: the port is chosen once the connection's destination is known.
EACH_ADDRESS = 2500  # This many spectators share an address of loopback.
MOVES = ["e2e4", "e7e5", "g1f3", "b8c6", "f1b5"]
WATCHES = "watches"
PATIENCE = 60  # Seconds.

SITE_CONF = """
daemon off; user root; pid {room}/nginx.pid; error_log {room}/nginx.log;
worker_processes {workers}; worker_rlimit_nofile {descriptors};
events {{ worker_connections {connections}; }}
http {{
    access_log off;
    client_body_temp_path {room}/a; proxy_temp_path {room}/b; fastcgi_temp_path {room}/c; uwsgi_temp_path {room}/d; scgi_temp_path {room}/e;
    split_clients "$remote_addr $remote_port" $from {{ {shares} }}
    server {{
        listen 127.0.0.1:9443 {tls} backlog=4096 reuseport;
        ssl_certificate {room}/certificate.pem; ssl_certificate_key {room}/key.pem;
        location = /watch {{
            proxy_pass http://127.0.0.1:9601; proxy_bind $from; proxy_http_version 1.1;
            proxy_set_header Upgrade websocket; proxy_set_header Connection upgrade; proxy_read_timeout 2m;
        }}
    }}
}}
"""


class Spectator:
    """One that connects, completes the handshake, follows the board, and counts its moves. `fate` is what became of it, once known."""

    def __init__(self, at, given):
        self.at, self.given = at, given
        self.stream = None
        self.came = b""
        self.is_secret = False
        self.has_asked = False
        self.is_greeted = False
        self.moves = 0
        self.fate = None

    def begin(self):
        """Connects, without waiting for it."""
        self.stream = socket.socket()
        self.stream.setblocking(False)
        self.stream.setsockopt(socket.IPPROTO_IP, IP_BIND_ADDRESS_NO_PORT, 1)
        self.stream.bind((f"127.0.1.{1 + self.at // EACH_ADDRESS}", 0))
        self.stream.connect_ex(("127.0.0.1", SITE if self.given.nginx else WATCH))
        fault = self.stream.getsockopt(socket.SOL_SOCKET, socket.SO_ERROR)
        if self.given.tls and not fault:
            context = ssl._create_unverified_context()  # pylint: disable=protected-access
            self.stream = context.wrap_socket(self.stream, do_handshake_on_connect=False, server_hostname="localhost")
        return self.stream.fileno()

    def turn(self):
        """Does what can be done now."""
        try:
            self.go_on()
        except (BlockingIOError, ssl.SSLWantReadError, ssl.SSLWantWriteError):
            pass
        except OSError as fault:
            self.end(errno.errorcode.get(fault.errno, "lost"))

    def go_on(self):
        if self.given.tls and not self.is_secret:
            self.stream.do_handshake()
            self.is_secret = True
        if not self.has_asked:
            self.stream.send(request("/watch"))
            self.has_asked = True
        while self.fate in (None, WATCHES):
            piece = self.stream.recv(65536)
            if not piece:
                return self.end("ended")
            self.came += piece
            self.read()
        return None

    def read(self):
        """Reads what has come whole."""
        if not self.is_greeted and b"\r\n\r\n" in self.came:
            head, _, self.came = self.came.partition(b"\r\n\r\n")
            if not head.startswith(b"HTTP/1.1 101 "):
                return self.end(head.split()[1].decode())
            self.is_greeted = True
            self.stream.send(frame(follows("b1")))
        while self.is_greeted and len(self.came) >= 2:
            size, start = self.came[1], 2
            if size == 126:
                size, start = int.from_bytes(self.came[2:4], "big"), 4
            if len(self.came) < start + size:
                return None
            first, payload, self.came = self.came[0], self.came[start:start + size], self.came[start + size:]
            self.hear(first, payload)
        return None

    def hear(self, first, payload):
        if first == PING:
            self.stream.send(pong())
        elif first == CLOSE:
            self.end(f"close {int.from_bytes(payload[:2], 'big')}")
        elif first == TEXT and b'"reply":"move"' in payload:
            self.moves += 1
        elif first == TEXT:
            self.fate = WATCHES if b'"reply":"following"' in payload else payload.decode()

    def end(self, fate):
        self.fate = fate
        self.stream.close()


class Crowd:
    """All spectators, this many of whom connect at a time, and the board's owner, whose pings are answered meanwhile."""

    def __init__(self, given, owner):
        self.given = given
        self.owner = owner
        self.poll = select.epoll()
        self.all = [Spectator(at, given) for at in range(given.spectators)]
        self.by_number = {}

    def turn(self, wait):
        for number, _ in self.poll.poll(wait):
            self.by_number[number].turn()
        if select.select([self.owner.stream], [], [], 0)[0]:
            assert self.owner.receive_any() == "ping"
            self.owner.stream.sendall(pong())

    def come(self):
        """Everybody connects. It ends when each has a fate, or when nobody got one for a while."""
        waiting, coming = collections.deque(self.all), []
        end = time.monotonic() + PATIENCE
        while (waiting or coming) and time.monotonic() < end:
            while waiting and len(coming) < self.given.at_once:
                one = waiting.popleft()
                try:
                    number = one.begin()
                except OSError as fault:
                    one.end(errno.errorcode.get(fault.errno, "lost"))
                    continue
                self.by_number[number] = one
                self.poll.register(number, select.EPOLLIN | select.EPOLLOUT | select.EPOLLET)
                coming.append(one)
            self.turn(1)
            still = [one for one in coming if one.fate is None]
            if len(still) < len(coming):
                end = time.monotonic() + PATIENCE
            coming = still

    def watching(self):
        return [one for one in self.all if one.fate == WATCHES]

    def have(self, moves):
        """How long it took until everybody who watches had this many moves, in seconds; none if that did not happen."""
        began = time.monotonic()
        while time.monotonic() < began + PATIENCE:
            if all(one.moves >= moves for one in self.watching()):
                return time.monotonic() - began
            self.turn(0.2)
        return None


def counters():
    """What the system counts of this network: connections for which there was no room at a port, and the pages of all sockets' buffers."""
    lines = [line.split() for line in pathlib.Path("/proc/net/netstat").read_text().splitlines()]
    extended = dict(zip(lines[0], lines[1]))
    pages = re.search(r"TCP:.* mem (\d+)", pathlib.Path("/proc/net/sockstat").read_text())
    return {"overflows": int(extended["ListenOverflows"]), "pages": int(pages[1])}


def slab(name):
    """How many bytes the system has of such pieces of memory."""
    found = re.search(rf"^{name} +\d+ +(\d+) +(\d+)", pathlib.Path("/proc/slabinfo").read_text(), re.M)
    return int(found[1]) * int(found[2])


def descriptors(pid):
    return len(os.listdir(f"/proc/{pid}/fd"))


def resident(pid):
    return int(re.search(r"VmRSS:\s+(\d+)", pathlib.Path(f"/proc/{pid}/status").read_text())[1]) / 1024


def started_by(pid):
    return [int(one) for one in pathlib.Path(f"/proc/{pid}/task/{pid}/children").read_text().split()]


def limited(most):
    """What makes a program that is started have no more descriptors."""
    hard = resource.getrlimit(resource.RLIMIT_NOFILE)[1]
    return lambda: resource.setrlimit(resource.RLIMIT_NOFILE, (min(most, hard), hard))


def start_relay(given, room):
    words = [str(PROGRAM), "serve", "--port", str(OWN), "--forever", "--watch", f"127.0.0.1:{WATCH}", "--watch-most", str(given.most)]
    with open(f"{room}/relay.log", "w", encoding="ascii") as log:
        relay = subprocess.Popen(words, stdout=subprocess.DEVNULL, stderr=log, preexec_fn=limited(given.descriptors))
    assert come_up({OWN, WATCH})
    return relay


def start_nginx(given, room):
    subprocess.run(["openssl", "req", "-x509", "-newkey", "ec", "-pkeyopt", "ec_paramgen_curve:prime256v1", "-nodes", "-days", "1",
                    "-subj", "/CN=localhost", "-keyout", f"{room}/key.pem", "-out", f"{room}/certificate.pem"],
                   check=True, capture_output=True)
    # The kernel shares connections out among the workers by their addresses, so there is some play.
    shares = " ".join(f"{100 // given.addresses}% 127.0.0.{2 + at};"
                      for at in range(given.addresses - 1)) + f" * 127.0.0.{1 + given.addresses};"
    file = pathlib.Path(room, "nginx.conf")
    file.write_text(SITE_CONF.format(room=room, workers=given.workers, descriptors=given.worker_descriptors,
                                     connections=given.worker_connections, shares=shares, tls="ssl" if given.tls else ""), encoding="ascii")
    nginx = subprocess.Popen(["nginx", "-p", room, "-c", str(file)], stderr=subprocess.DEVNULL)
    assert come_up({SITE})
    return nginx


def complaints(room):
    """What nginx and the relay wrote, each kind once, and how often."""
    kinds = collections.Counter()
    for name in ("nginx.log", "relay.log"):
        path = pathlib.Path(room, name)
        for line in path.read_text(errors="replace").splitlines() if path.exists() else []:
            kinds[re.sub(r"^.*?\*?\d+#\d+: (\*\d+ )?|, client.*", "", line)[:110]] += 1
    return kinds


def run(given, room):
    """Tries one crowd; prints what came."""
    relay = start_relay(given, room)
    nginx = start_nginx(given, room) if given.nginx else None
    try:
        owner = Connection(OWN)
        owner.asks(opens("b1"), OPENED)
        slabs = {name: slab(name) for name in ("TCP", "sock_inode_cache")}
        workers = started_by(nginx.pid) if nginx else []
        before = sum(map(resident, workers))
        crowd = Crowd(given, owner)
        began = time.monotonic()
        crowd.come()
        took = time.monotonic() - began
        print(f"{given.spectators:,} came in {took:.1f} s:", dict(collections.Counter(one.fate or "nothing" for one in crowd.all)),
              flush=True)
        watching = max(1, len(crowd.watching()))
        print(f"descriptors: relay {descriptors(relay.pid):,}, nginx {[descriptors(pid) for pid in workers]}; "
              "sockets and their inodes, all ends: "
              f"{sum(slab(name) - had for name, had in slabs.items()) / watching / 1024:.1f} KB for each spectator; nginx "
              f"{(sum(map(resident, workers)) - before) * 1024 / watching:.1f} KB for each; tcp {counters()}", flush=True)
        waits = []
        for place, move in enumerate(MOVES):
            owner.asks(submits("b1", move), played(place))
            waits.append(crowd.have(place + 1))
        if None in waits:
            print("moves did not reach all:", waits)
        else:
            print(f"a move reached all {len(crowd.watching()):,} in {1000 * statistics.median(waits):.0f} ms; "
                  f"load {os.getloadavg()[0]:.1f}; tcp {counters()}")
        for kind, count in complaints(room).most_common(4):
            print(f"{count:,} times: {kind}")
        if given.firewall:
            print("connections that the firewall counts:", pathlib.Path("/proc/sys/net/netfilter/nf_conntrack_count").read_text().strip())
    finally:
        for process in (nginx, relay):
            if process is not None:
                process.terminate()
                process.wait()


def words():
    had = argparse.ArgumentParser(description=__doc__, formatter_class=argparse.RawDescriptionHelpFormatter)
    had.add_argument("spectators", type=int)
    had.add_argument("--descriptors", type=int, default=20000, help="of the relay (LimitNOFILE)")
    had.add_argument("--most", type=int, default=100000, help="the relay's --watch-most")
    had.add_argument("--at-once", type=int, default=200, help="how many connect at a time")
    had.add_argument("--nginx", action="store_true")
    had.add_argument("--tls", action="store_true")
    had.add_argument("--workers", type=int, default=4)
    had.add_argument("--worker-connections", type=int, default=20000)
    had.add_argument("--worker-descriptors", type=int, default=20000)
    had.add_argument("--from", type=int, default=4, dest="addresses", help="from how many addresses nginx comes to the relay")
    had.add_argument("--ports", type=int, default=28232, help="how many local ports there are")
    had.add_argument("--waiting", type=int, default=4096, help="net.core.somaxconn")
    had.add_argument("--firewall", action="store_true", help="with rules that look at the state of connections")
    had.add_argument("--inside", action="store_true", help=argparse.SUPPRESS)
    return had.parse_args()


def main():
    given = words()
    if not given.inside:
        os.execvp("unshare", ["unshare", "--net", "--pid", "--fork", "--mount-proc", "--kill-child", sys.executable, "-B", __file__,
                              *sys.argv[1:], "--inside"])
    subprocess.run(["ip", "link", "set", "lo", "up"], check=True)
    pathlib.Path("/proc/sys/net/ipv4/ip_local_port_range").write_text(f"32768 {32767 + given.ports}")
    pathlib.Path("/proc/sys/net/core/somaxconn").write_text(str(given.waiting))
    if given.firewall:
        subprocess.run(["nft", "-f", "-"], check=True, text=True,
                       input="table inet t {\nchain c {\ntype filter hook input priority 0;\nct state established accept\n}\n}\n")
    with tempfile.TemporaryDirectory() as room:
        run(given, room)


if __name__ == "__main__":
    main()
