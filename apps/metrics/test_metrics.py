"""The test of the exporter and of the health check beside the built program; test.sh starts it."""
import asyncio
import contextlib
import os
import pathlib
import re
import resource
import subprocess
import sys
import tempfile
import urllib.error
import urllib.request

import websockets

from relay_client.client import Client
from relay_client.ports import come_up, free_port

HERE = pathlib.Path(__file__).resolve().parent
DESCRIPTORS = 48
MINUTE = 75  # Seconds in which the log's counts of each minute come.


class Trial:
    """A relay whose log is a file, and an exporter."""

    def __init__(self, room):
        self.port, self.watch_port, self.own_port = free_port(), free_port(), free_port()
        self.log = pathlib.Path(room, "relay.log")
        self.relay = self.exporter = None

    async def start_relay(self):
        words = ["serve", "--forever", "--port", str(self.port), "--watch", f"127.0.0.1:{self.watch_port}", "--log"]
        limit = (DESCRIPTORS, DESCRIPTORS)
        with self.log.open("ab") as log:
            self.relay = subprocess.Popen([os.environ["RELAY960"], *words], stderr=log, stdout=subprocess.DEVNULL,
                                          preexec_fn=lambda: resource.setrlimit(resource.RLIMIT_NOFILE, limit))
        assert await asyncio.to_thread(come_up, {self.port, self.watch_port})

    async def start_exporter(self, port):
        words = [f"ws://127.0.0.1:{port}", "--listen", f"127.0.0.1:{self.own_port}", "--again", "0.1", "--log", f"tail -n +1 -F {self.log}"]
        self.exporter = subprocess.Popen([sys.executable, HERE / "metrics.py", *words], stderr=subprocess.PIPE, text=True)

    def stop(self):
        for process in self.relay, self.exporter:
            if process is not None and process.poll() is None:
                process.terminate()
                process.wait()

    def figures(self):
        """What the exporter says, by name and label."""
        with urllib.request.urlopen(f"http://127.0.0.1:{self.own_port}/metrics", timeout=10) as answer:
            lines = answer.read().decode().splitlines()
        return {name: float(value) for name, value in (it.rsplit(" ", 1) for it in lines if not it.startswith("#"))}

    async def says(self, seconds=10, **wanted):
        """Waits until the exporter says this, under names without their beginning."""
        wanted = {f"relay960_{name}": value for name, value in wanted.items()}
        had = {}
        for _ in range(10 * seconds):
            with contextlib.suppress(OSError):
                had = await asyncio.to_thread(self.figures)
            if wanted.items() <= had.items():
                return had
            await asyncio.sleep(0.1)
        raise AssertionError((wanted, had))


def check(port, path="/"):
    """What the health check says, and its status."""
    done = subprocess.run([HERE / "healthy", f"http://127.0.0.1:{port}{path}"], capture_output=True, text=True, timeout=20)
    return done.stdout.strip(), done.returncode


async def try_health(trial):
    """A handshake is answered 101 on both ports. A GET that is none is answered 400, and the example of the guide is one that is."""
    assert check(trial.port) == ("ok", 0) == check(trial.watch_port)
    free = free_port()
    said, status = check(free)
    assert said.startswith(f"no answer from http://127.0.0.1:{free}/: Failed to connect") and status == 1, said
    assert check(trial.own_port) == (f"http://127.0.0.1:{trial.own_port}/ answers 200 to a handshake", 1)
    for port in trial.port, trial.watch_port:
        try:
            urllib.request.urlopen(f"http://127.0.0.1:{port}/", timeout=10)
            raise AssertionError("a plain GET was answered")
        except urllib.error.HTTPError as fault:
            assert fault.code == 400, fault
    guide = (HERE.parents[1] / "docs/DEPLOYMENT.md").read_text()
    command = re.search(r"^    (curl -sN .*\\\n.*)$", guide, re.M)[1].replace("9601", str(trial.watch_port))
    done = subprocess.run(command, shell=True, capture_output=True, text=True, timeout=20)
    assert done.stdout == "101\n", done


async def try_list(trial):
    """Boards, games that go on, moves and endings are there as soon as they are played."""
    await trial.says(up=1, boards=0, boards_live=0, moves_total=0)
    operator = await Client.to(f"ws://127.0.0.1:{trial.port}")
    for board in "b1", "b2", "b3":
        await operator.open(board)
    await operator.submit("b1", "f2f3", "e7e5", "g2g4", "d8h4")
    await operator.submit("b2", "e2e4")
    await operator.end("b2")
    had = await trial.says(up=1, boards=3, boards_live=1, moves_total=5)
    ended = {name: value for name, value in had.items() if name.startswith("relay960_ended_total")}
    assert ended == {'relay960_ended_total{outcome="black mates"}': 1, 'relay960_ended_total{outcome="agreed"}': 1}, ended
    assert "relay960_connections" not in had, "nothing has told how many connections there are"
    return operator


async def try_log(trial):
    """The counts of the log are those of the connections that there are: an operator and a follower; two spectators and the exporter."""
    follower = await Client.to(f"ws://127.0.0.1:{trial.port}")
    assert (await follower.ask(cmd="follow", board="b3", spectator=1))["reply"] == "following"
    spectators = [await Client.to(f"ws://127.0.0.1:{trial.watch_port}") for _ in range(2)]
    await trial.says(MINUTE, connections=2, followers=1, spectators=3)
    for it in (follower, *spectators):
        await it.close()


async def try_refusals(trial):
    """Newcomers for whom there is no descriptor are counted, the first of several in a row."""
    assert trial.figures()['relay960_refused_total{why="turned_away"}'] == 0
    crowd = []
    while len(crowd) < DESCRIPTORS:
        try:
            crowd.append(await websockets.connect(f"ws://127.0.0.1:{trial.port}", compression=None, ping_interval=None))
        except websockets.InvalidStatusCode as refused:
            assert refused.status_code == 503, refused
            break
    else:
        raise AssertionError("nobody was turned away")
    await trial.says(**{'refused_total{why="turned_away"}': 1, 'refused_total{why="cut_off"}': 0})
    await asyncio.gather(*(it.close() for it in crowd))


async def try_restart(trial):
    """While the relay is away the exporter says so. After its start it has the new relay's boards alone."""
    trial.relay.kill()
    trial.relay.wait()
    await trial.says(up=0, boards=3)
    await trial.start_relay()
    await trial.says(up=1, boards=0, moves_total=0)
    assert re.fullmatch(r"no connection to ws://127\.0\.0\.1:\d+: .+\n", trial.exporter.stderr.readline())


async def try_arguments(trial):
    """At the main port, or where another listens already, it ends and says why."""
    async def ends(words):
        said = (await asyncio.to_thread(trial.exporter.communicate, timeout=20))[1]
        assert (said, trial.exporter.returncode) == (words, 2), said
    first = trial.exporter
    await trial.start_exporter(trial.watch_port)
    await ends(f"127.0.0.1:{trial.own_port}: [Errno 98] Address already in use\n")
    first.terminate()
    first.wait()
    await trial.start_exporter(trial.port)
    await ends(f"ws://127.0.0.1:{trial.port} is not a watch port: refused 23 UnknownCommand\n")


async def main():
    with tempfile.TemporaryDirectory() as room:
        trial = Trial(room)
        try:
            await trial.start_relay()
            await trial.start_exporter(trial.watch_port)
            operator = await try_list(trial)
            for each in (try_health, try_log, try_refusals, try_restart, try_arguments):
                await each(trial)
                print(f"ok      {each.__name__[4:]}", flush=True)
            await operator.close()
        finally:
            trial.stop()
    print("passed: the list, the health check, the log's counts, refusals, a restarted relay, arguments")


asyncio.run(main())
