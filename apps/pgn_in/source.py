"""Where the games come from: a file of the machine, or an address, read again and again."""

import asyncio
import contextlib
import os
import threading
import time
import urllib.error
import urllib.request
from http.client import HTTPException, IncompleteRead

LOOK = 0.1  # Seconds between two looks at a file's time.
PATIENCE = 10  # Seconds for which an address may be silent.
MOST = 32 << 20  # Bytes of a file.


class Unread(Exception):
    """Why it cannot be read now."""


class Source:
    """Read every so many seconds, and sooner at a sign of a change."""

    def __init__(self, every):
        self.every, self.due = every, 0

    async def poll(self):
        """A reading and whether it is one of the regular ones; nothing if none is due."""
        is_regular = time.monotonic() >= self.due
        if not is_regular and not self.has_sign():
            return None
        if is_regular:
            self.due = time.monotonic() + self.every
        return await self.read(), is_regular

    def has_sign(self):
        return False


class File(Source):
    def __init__(self, path, every):
        super().__init__(every)
        self.path, self.stamp = path, None

    def look(self):
        """What tells of a change: it differs after one, mostly."""
        try:
            now = os.stat(self.path)
        except OSError:
            return None
        return now.st_ino, now.st_mtime_ns, now.st_size

    def has_sign(self):
        return self.look() != self.stamp

    async def read(self):
        """Reads it, again where it was written meanwhile, so that what was half written is seldom seen."""
        for _ in range(10):
            self.stamp = self.look()
            try:
                with open(self.path, "rb") as file:
                    data = file.read(MOST + 1)
            except OSError as fault:
                raise Unread(f"{self.path} cannot be read: {fault.strerror}") from fault
            await asyncio.sleep(LOOK / 4)
            if self.look() == self.stamp:
                break
        if len(data) > MOST:
            raise Unread(f"{self.path} has more than {MOST} bytes")
        return data


class Address(Source):
    """An address of http or https. What has not changed is not fetched again."""

    def __init__(self, address, every):
        super().__init__(every)
        self.address, self.data, self.marks = address, None, {}

    async def read(self):
        """Reads it beside the connection to the relay, in a thread for which the program's end does not wait."""
        loop = asyncio.get_running_loop()
        answer = loop.create_future()

        def tell(data, fault):
            if not answer.done():
                answer.set_exception(fault) if fault else answer.set_result(data)

        def work():
            try:
                data, fault = self.fetch(), None
            except Exception as it:  # For the one who waits.
                data, fault = None, it
            with contextlib.suppress(RuntimeError):  # The program has ended.
                loop.call_soon_threadsafe(tell, data, fault)

        threading.Thread(target=work, daemon=True).start()
        return await answer

    def fetch(self):
        request = urllib.request.Request(self.address, headers={"User-Agent": "relay960-enter", **self.marks})
        try:
            with urllib.request.urlopen(request, timeout=PATIENCE) as answer:
                data = self.whole(answer)
                tags = {"If-None-Match": answer.headers["ETag"], "If-Modified-Since": answer.headers["Last-Modified"]}
        except urllib.error.HTTPError as fault:
            fault.close()
            if fault.code == 304 and self.data is not None:
                return self.data
            raise Unread(f"{self.address} answers {fault.code} {fault.reason}") from fault
        except IncompleteRead as fault:
            raise Unread(f"{self.address} sent a part only") from fault
        except (OSError, HTTPException, ValueError) as fault:
            raise Unread(f"{self.address} cannot be read: {getattr(fault, 'reason', fault)}") from fault
        self.data, self.marks = data, {name: value for name, value in tags.items() if value}
        return data

    def whole(self, answer):
        """All of an answer, which may take so long in all."""
        pieces, size, until = [], 0, time.monotonic() + 2 * PATIENCE
        while piece := answer.read1(1 << 16):
            pieces.append(piece)
            size += len(piece)
            if size > MOST:
                raise Unread(f"{self.address} has more than {MOST} bytes")
            if time.monotonic() > until:
                raise Unread(f"{self.address} is too slow")
        if answer.length:  # Of what its head promised.
            raise Unread(f"{self.address} sent a part only")
        return b"".join(pieces)


def source_of(place, every):
    return (Address if place.startswith(("http://", "https://")) else File)(place, every)
