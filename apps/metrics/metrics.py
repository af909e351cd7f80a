#!/usr/bin/python3
"""Gives Prometheus the figures of a relay, at http://127.0.0.1:9961/metrics: its boards and their moves, by the list that its watch port
answers to `boards`, and with --log its connections and what it refused.

    metrics.py ws://127.0.0.1:9601      (Debian: apt-get install python3-prometheus-client python3-websockets)
    metrics.py ws://127.0.0.1:9601 --log "journalctl --follow --lines=0 --output=cat --unit=relay960"
    metrics.py ws://127.0.0.1:9601 --log "tail -n 0 -F relay.log" --listen 127.0.0.1:9962

--log takes a command that prints the lines of the relay's standard error as they come (`serve --log`). It ends with status 2 if the address
is not that of a watch port, or if it cannot listen.
"""
import argparse
import asyncio
import pathlib
import shlex
import sys

import websockets
from prometheus_client import CollectorRegistry, start_http_server
from prometheus_client.core import CounterMetricFamily, GaugeMetricFamily

sys.path.append(str(pathlib.Path(__file__).resolve().parent.parent.parent / "tools"))

from figures import Figures  # noqa: E402
from relay_client.line import Line, Refused  # noqa: E402

FAULTS = (OSError, asyncio.TimeoutError, websockets.WebSocketException)
ASKED, ANSWERED = 15, 10  # Seconds between pings, and those in which the relay answers one.
PRESENT = {
    "connections": "Connections of the main port, by the log.",
    "followers": "Followers of boards at the main port, by the log.",
    "spectators": "Connections of the watch port, by the log.",
}
UP = "Whether the watch port answers; if not, the figures of boards are those of its last report."
REFUSED = "Connections turned away for want of a descriptor, the first of several in a row, and followers cut off, by the log."


class Unusable(Exception):
    """Why what the arguments ask for cannot be done."""


class Collector:
    """The figures in the form of Prometheus, made anew whenever it asks."""

    def __init__(self, figures):
        self.figures = figures

    def collect(self):
        known = self.figures
        yield GaugeMetricFamily("relay960_up", UP, value=int(known.is_up))
        yield GaugeMetricFamily("relay960_boards", "Boards opened in this run of the relay.", value=len(known.boards))
        yield GaugeMetricFamily("relay960_boards_live", "Boards whose game goes on.", value=known.live())
        yield CounterMetricFamily("relay960_moves", "Moves on all boards in this run of the relay.", value=known.moves())
        yield labelled("relay960_ended", "Ended games by outcome.", "outcome", known.ended())
        for name, value in known.present.items():
            yield GaugeMetricFamily(f"relay960_{name}", PRESENT[name], value=value)
        yield labelled("relay960_refused", REFUSED, "why", known.refused)
        yield CounterMetricFamily("relay960_log_lines_left_out", "Lines that the relay's log left out.", value=known.left_out)


def labelled(name, words, label, counts):
    family = CounterMetricFamily(name, words, labels=[label])
    for value, count in counts.items():
        family.add_metric([value], count)
    return family


async def pulse(line):
    """Ends when the relay does not answer a ping."""
    while True:
        await asyncio.sleep(ASKED)
        await asyncio.wait_for(await line.socket.ping(), ANSWERED)


async def watch_once(line, figures):
    """Hears the list until the connection ends."""
    async def hear(_, text):
        figures.hear(text)
    await line.connect()
    figures.begins()
    both = [asyncio.ensure_future(it) for it in (line.boards(hear), pulse(line))]
    done, left = await asyncio.wait(both, return_when=asyncio.FIRST_COMPLETED)
    for it in left:
        it.cancel()
    await asyncio.gather(*left, return_exceptions=True)
    for it in done:
        it.result()


async def watch(server, figures, again):
    """Hears the list, and comes back whenever the connection is lost."""
    line = Line(server)
    while True:
        try:
            await watch_once(line, figures)
            words = "the connection ended"
        except Refused as fault:
            if not fault.later:
                await line.close()  # Else the program waits for the relay's close frame before it ends.
                raise Unusable(f"{server} is not a watch port: {fault}") from None
            words = str(fault)
        except FAULTS as fault:
            words = f"{type(fault).__name__} {fault}"
        if figures.is_up:
            print(f"no connection to {server}: {words}", file=sys.stderr, flush=True)
        figures.ends()
        await line.close()
        await asyncio.sleep(again)


async def read_log(command, figures, again):
    """Reads what the command prints, and starts it again whenever it ends."""
    while True:
        process = await asyncio.create_subprocess_exec(*command, stdout=asyncio.subprocess.PIPE, stdin=asyncio.subprocess.DEVNULL)
        try:
            async for line in process.stdout:
                figures.read(line.decode(errors="replace"))
        finally:
            if process.returncode is None:
                process.terminate()
        print(f"{command[0]} ended with status {await process.wait()}", file=sys.stderr, flush=True)
        await asyncio.sleep(again)


def arguments():
    parser = argparse.ArgumentParser(description="Gives Prometheus the figures of a relay.")
    parser.add_argument("server", help="the relay's watch port, as ws://127.0.0.1:9601")
    parser.add_argument("--listen", default="127.0.0.1:9961", metavar="ADDRESS:PORT", help="where Prometheus asks (127.0.0.1:9961)")
    parser.add_argument("--log", type=shlex.split, metavar="COMMAND", help="a command that prints the relay's log as it comes")
    parser.add_argument("--again", type=float, default=1, metavar="SECONDS", help="how long after a lost connection it comes back (1)")
    return parser.parse_args()


async def main():
    given, figures, registry = arguments(), Figures(), CollectorRegistry()
    registry.register(Collector(figures))
    address, _, port = given.listen.rpartition(":")
    try:
        start_http_server(int(port), address.strip("[]"), registry)
    except (OSError, OverflowError, ValueError) as fault:
        raise Unusable(f"{given.listen}: {fault}") from None
    jobs = [watch(given.server, figures, given.again)]
    if given.log:
        jobs.append(read_log(given.log, figures, given.again))
    await asyncio.gather(*jobs)


if __name__ == "__main__":
    try:
        asyncio.run(main())
    except Unusable as why:
        print(why, file=sys.stderr)
        sys.exit(2)
    except KeyboardInterrupt:
        pass
