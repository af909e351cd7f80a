#!/usr/bin/env python3
"""Measures the server beside nginx with nchan and mosquitto (Debian's nginx-light, libnginx-mod-nchan, mosquitto), with the same texts and
the same reading client (reader.c, built by cc). Prints a table's rows: the medians of the rounds, with the least and greatest.

    bench/serving.py                        all servers, 100 followers, 1,000 moves, 7 rounds
    bench/serving.py --followers 1000 --only relay --rounds 5
    bench/serving.py --what turns|arrives|connects|rush|joins|idle
    bench/serving.py --what arrives --only relay-watch-8,nchan-8 --followers 100000 --moves 5 --rounds 1 --tables
    bench/serving.py --only relay-watch-2 --rounds 1 --under "strace -c -f -o calls"

A relay-watch-N is the relay's watch port with N loops. A connection takes a descriptor of the server and one of the reading client. If the
hard limit on descriptors is too low for the followers asked for, nothing is measured. With --tables each loop has a table of descriptors of
its own (tables.c), and that many followers only have to fit into all of them together.
"""
import argparse
import json
import os
import pathlib
import resource
import shlex
import signal
import statistics
import subprocess
import sys
import tempfile
import time

HERE = pathlib.Path(__file__).resolve().parent
sys.path.append(str(HERE.parent / "tools"))

from relay_client.ports import come_up, free_port  # noqa: E402
from relay_client.program import PROGRAM  # noqa: E402


NGINX = """
daemon off; master_process on; worker_processes {workers}; worker_rlimit_nofile {most}; pid {room}/nginx.pid; error_log {room}/error.log;
load_module /usr/share/nginx/modules/ngx_nchan_module.so;
events {{ worker_connections {most}; }}
http {{
    access_log off; client_body_temp_path {room}/a; proxy_temp_path {room}/b; fastcgi_temp_path {room}/c;
    uwsgi_temp_path {room}/d; scgi_temp_path {room}/e;
    nchan_shared_memory_size 256M;
    server {{
        {listens}
        location ~ ^/pub/(\\w+)$ {{ nchan_publisher websocket; nchan_channel_id $1; nchan_message_buffer_length 2000; }}
        location ~ ^/sub/(\\w+)$ {{ nchan_subscriber websocket; nchan_channel_id $1; }}
    }}
}}
"""

MOSQUITTO = """
listener {port} 127.0.0.1
allow_anonymous true
max_queued_messages 0
set_tcp_nodelay true
user root
"""


def children(pid):
    """The process and those that it started."""
    listed = subprocess.run(["pgrep", "-P", str(pid)], capture_output=True, text=True).stdout.split()
    return [str(pid), *listed]


def raised_limit(followers):
    """Raises the limit on descriptors of a process, which must hold so many followers; servers and the reading client inherit it. Returns
    it."""
    _, most = resource.getrlimit(resource.RLIMIT_NOFILE)
    if most < followers + 100:
        raise SystemExit(f"a process may have {most} descriptors here: raise the hard limit first (ulimit -Hn)")
    resource.setrlimit(resource.RLIMIT_NOFILE, (most, most))
    return most


def built(room, name, *options):
    """A program of this folder, built into the room."""
    subprocess.run(["cc", "-O2", *options, "-o", f"{room}/{name}", str(HERE / f"native/{name}.c")], check=True)
    return f"{room}/{name}"


class Server:
    def __init__(self, kind, words, room, port, watched=None, preloaded=None):
        self.kind, self.port = kind, port
        self.ports = f"{port}/{watched}" if watched else str(port)
        around = {**os.environ, "LD_PRELOAD": preloaded} if preloaded else None
        self.process = subprocess.Popen(words, stdout=subprocess.DEVNULL, stderr=open(f"{room}/{kind}.err", "w"), env=around)
        if not come_up({port}):
            self.process.kill()
            raise SystemExit(f"{kind} did not come up: " + open(f"{room}/{kind}.err").read())

    def stop(self):
        """Ends the server itself, and not what it runs under, which would let it go on."""
        own, *started = map(int, children(self.process.pid))
        os.kill(started[0] if self.kind == "relay" and started else own, signal.SIGTERM)
        self.process.wait()


def servers(names, given, room, most):
    for name in names:
        port = free_port()
        if name.startswith("relay"):
            words = [*shlex.split(given.under), given.binary, "serve", "--port", str(port), "--forever"]
            words += ["--boards", "256", "--followers", "1024", "--capacity", "1024", "--plies", "1024"]
            watched = None
            if name.startswith("relay-watch"):
                watched, threads = free_port(), name.removeprefix("relay-watch").strip("-") or "2"
                words += ["--watch", f"0.0.0.0:{watched}", "--watch-threads", threads, "--watch-most", str(max(most, given.followers))]
            yield name, Server("relay", words, room, port, watched, given.preloaded)
        elif name.startswith("nchan"):
            workers = name.partition("-")[2] or "1"
            file = pathlib.Path(room, "nginx.conf")
            # The reading client goes to another address after each 20,000.
            listens = " ".join(f"listen 127.0.0.{1 + at}:{port} backlog=1024;" for at in range(1 + given.followers // 18000))
            file.write_text(NGINX.format(workers=workers, room=room, port=port, most=most, listens=listens))
            yield name, Server("nchan", ["nginx", "-p", room, "-c", str(file)], room, port)
        else:
            file = pathlib.Path(room, "mosquitto.conf")
            file.write_text(MOSQUITTO.format(port=port))
            yield name, Server("mosquitto", ["mosquitto", "-c", str(file)], room, port)


def main():
    words = argparse.ArgumentParser(description=__doc__, formatter_class=argparse.RawDescriptionHelpFormatter)
    words.add_argument("--what", default="burst", choices=["burst", "turns", "arrives", "connects", "rush", "joins", "idle"])
    words.add_argument("--only", default="relay,relay-watch-2,nchan-1,nchan-4,mosquitto",
                       help="which, parted by commas; the number is that of its workers or loops")
    words.add_argument("--followers", type=int, default=100, help="of connects, rush and joins: how many connections")
    words.add_argument("--moves", type=int, default=1000)
    words.add_argument("--rounds", type=int, default=7)
    words.add_argument("--binary", default=str(PROGRAM))
    words.add_argument("--under", default="", help="what the relay runs under")
    words.add_argument("--tables", action="store_true", help="a table of descriptors for each loop of the relay")
    given = words.parse_args()
    most = raised_limit({"connects": 64, "rush": 64, "arrives": 64, "joins": min(given.followers, 18000)}.get(given.what, given.followers))
    with tempfile.TemporaryDirectory() as room:
        os.chmod(room, 0o755)
        reader = built(room, "reader")
        given.preloaded = built(room, "tables", "-shared", "-fPIC") if given.tables else None
        for name, server in servers(given.only.split(","), given, room, most):
            rows = []
            try:
                for _ in range(given.rounds):
                    pids = ",".join(children(server.process.pid))
                    said = subprocess.run([reader, given.what, server.kind, server.ports, str(given.followers), str(given.moves), pids],
                                          capture_output=True, text=True)
                    if said.returncode:
                        print(name, "round lost:", said.stderr.strip())
                        continue
                    rows.append(json.loads(said.stdout))
                    time.sleep(0.3 + given.followers / 50000)  # The server has to let all of them go.
            finally:
                server.stop()
            if not rows:
                continue
            shown = []
            for key in rows[0]:
                values = sorted(row[key] for row in rows)
                shown.append(f"{key} {statistics.median(values):g} ({values[0]:g} to {values[-1]:g})")
            print(f"{name}: load {os.getloadavg()[0]:.1f}; " + "; ".join(shown), flush=True)


if __name__ == "__main__":
    main()
