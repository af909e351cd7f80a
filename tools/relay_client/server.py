"""The built program as a server on a free port of loopback."""

import errno
import pathlib
import re
import subprocess

from relay_client.faults import port_fault
from relay_client.ports import free_port
from relay_client.program import PATIENCE, PROGRAM
from relay_client.waiting import is_readable


def last_has_come(count):
    """The line that says that the last connection has come, where so many may."""
    return f"the last connection has come, {count} of {count}: no more are accepted without --forever\n"


def first_line(process):
    """The first line that it prints; an empty one where none comes."""
    return process.stdout.readline() if is_readable(process.stdout, PATIENCE) else b""


class NotListening(Exception):
    """A server that ended before it listened: what it printed, what it complained of, and its status."""


class Server:
    """A server that listens on a free port, or on the port that is said, until the block that it is made for ends; and with `watch` on
    another free one, or on the one that it says, for those who only watch, at the address `watch_at`. Words before the program's name run
    it by another program."""

    def __init__(self, *words, port=None, watch=False, watch_at="127.0.0.1", before=(), **options):
        self.words = words
        self.given = {"watch_at": watch_at, "before": before, **options}
        for _ in range(5):
            self.port = port or free_port()
            given = [*before, PROGRAM, "serve", "--port", str(self.port), *words]
            addresses, lines = [f"127.0.0.1:{self.port}"], [f"listening {self.port}\n"]
            if watch:
                self.watch_port = free_port() if watch is True else watch
                addresses.append(f"{watch_at}:{self.watch_port}")
                given += ["--watch", addresses[1]]
                lines.append(f"watching {addresses[1]}\n")
            self.process = subprocess.Popen(given, bufsize=0, stdout=subprocess.PIPE, stderr=subprocess.PIPE, **options)
            if all(first_line(self.process) == line.encode() for line in lines):
                return
            ended = self.ended()
            # Another program of the machine may take a port that was free.
            if ended not in [(b"", port_fault(address, errno.EADDRINUSE), 3) for address in addresses]:
                break
        raise NotListening(*ended)

    def __enter__(self):
        return self

    def __exit__(self, *_):
        self.kill()

    @property
    def address(self):
        return f"ws://127.0.0.1:{self.port}"

    def kill(self):
        self.process.kill()
        self.process.wait()
        self.process.stdout.close()
        self.process.stderr.close()

    def again(self):
        """Kills it, and starts another in its place: with the same words, on the same ports."""
        watch_port = getattr(self, "watch_port", False)
        self.kill()
        self.__init__(*self.words, port=self.port, watch=watch_port, **self.given)

    def ended(self):
        """Waits for its end: what it printed beyond its first line, what it complained of, and its status."""
        try:
            printed, complained = self.process.communicate(timeout=PATIENCE)
        finally:
            self.process.kill()
        return printed, complained, self.process.returncode

    def has_served(self, count, failed=0):
        """Waits for its end: this many connections were served, and this many could not be accepted. Where no more may come, it says so."""
        ended = self.ended()
        last = last_has_come(count + failed) if "--connections" in self.words else ""
        assert ended == (b"", f"{last}served {count}, failed {failed}\n".encode(), 0), ended

    def data_kibibytes(self):
        """How much memory it has to itself, including its stacks."""
        status = pathlib.Path(f"/proc/{self.process.pid}/status").read_text()
        return int(re.search(r"^VmData:\s+(\d+) kB$", status, re.M)[1])

    def maps(self):
        """How many pieces of memory it has mapped."""
        return len(pathlib.Path(f"/proc/{self.process.pid}/maps").read_text().splitlines())
