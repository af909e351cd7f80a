"""The test of a hall; test.sh starts it. The laptop has a relay and serves the hall; the phone watches, and reaches nothing else."""
import asyncio
import contextlib
import json
import os
import pathlib
import signal
import subprocess
import sys
import tempfile
import urllib.request

from relay_client.client import Client
from relay_client.keys import new_key
from relay_client.ports import listened
from relay_client.relay import Relay

HERE = pathlib.Path(__file__).resolve().parent
ROUND = "r3-1 518 Carlsen – Caruana\nr3-2 518 Nakamura - So\n\nr3-3\n"
PYTHON = "/usr/bin/python3"


class Phone:
    """Programs in the phone's network: one of its own, or the laptop's if there can be only one."""

    def __init__(self, has_own):
        self.before, self.keeper = [], None
        if not has_own:
            self.laptop = "127.0.0.2"
            return
        # The laptop's network is this program's. A cable joins the two.
        self.laptop = "10.96.0.1"
        self.keeper = subprocess.Popen(["unshare", "--net", "sh", "-c", "echo; exec sleep 600"], stdout=subprocess.PIPE)
        self.keeper.stdout.readline()
        self.before = ["nsenter", "--net", f"--target={self.keeper.pid}"]
        for words in (["ip", "link", "set", "lo", "up"],
                      ["ip", "link", "add", "hall", "type", "veth", "peer", "name", "phone", "netns", str(self.keeper.pid)],
                      ["ip", "address", "add", "10.96.0.1/24", "dev", "hall"], ["ip", "link", "set", "hall", "up"],
                      [*self.before, "ip", "link", "set", "lo", "up"],
                      [*self.before, "ip", "address", "add", "10.96.0.2/24", "dev", "phone"],
                      [*self.before, "ip", "link", "set", "phone", "up"]):
            subprocess.run(words, check=True)

    def words(self, *words):
        return [*self.before, PYTHON, str(HERE / "phone.py"), *words]

    async def does(self, *words):
        process = await asyncio.create_subprocess_exec(*self.words(*words))
        assert await asyncio.wait_for(process.wait(), 300) == 0, words

    @contextlib.asynccontextmanager
    async def ready(self, *words):
        """A program that says when it is ready; answers what it says next. It has ended well when the block has."""
        process = await asyncio.create_subprocess_exec(*self.words(*words), stdout=asyncio.subprocess.PIPE)
        assert await asyncio.wait_for(process.stdout.readline(), 60) == b"ready\n"
        yield lambda: asyncio.wait_for(process.stdout.readline(), 300)
        assert await asyncio.wait_for(process.wait(), 300) == 0, words

    def end(self):
        if self.keeper:
            self.keeper.kill()
            self.keeper.wait()


class Hall:
    """hall.py as an arbiter starts it; it finds the laptop's address by itself if there is only one."""

    def __init__(self, phone, relay, folder):
        self.words = [PYTHON, HERE / "hall.py", "--watch", f"127.0.0.1:{relay.watch_port}",
                      "--event", "Club final", "--round", "3", *([] if phone.keeper else ["--address", phone.laptop])]
        self.folder = folder
        self.process = None
        self.printed = []

    async def start(self, has_round=True, **variables):
        file = pathlib.Path(self.folder, "round3.txt")
        file.write_text(ROUND, encoding="utf-8")
        self.process = await asyncio.create_subprocess_exec(*self.words, *([file] if has_round else []), stdout=asyncio.subprocess.PIPE,
                                                            env={**os.environ, **variables})
        self.printed = []
        while not self.printed or not self.printed[-1].startswith("All boards of the relay"):
            line = await asyncio.wait_for(self.process.stdout.readline(), 60)
            assert line, self.printed
            self.printed.append(line.decode().rstrip("\n"))

    async def stop(self):
        """Ctrl-C."""
        self.process.send_signal(signal.SIGINT)
        assert await asyncio.wait_for(self.process.wait(), 30) == 0


def scanned(lines):
    """What a camera reads from the blocks on a terminal: each line has two rows of modules, and a block is light."""
    rows = [[mark in marks for mark in line] for line in lines for marks in ("█▀", "█▄")]
    scale = 8
    pixels = [bytes(255 if light else 0 for light in row for _ in range(scale)) for row in rows for _ in range(scale)]
    image = b"P5 %d %d 255\n" % (len(pixels[0]), len(pixels)) + b"".join(pixels)
    with tempfile.NamedTemporaryFile(suffix=".pgm") as file:
        file.write(image)
        file.flush()
        return subprocess.run(["zbarimg", "--quiet", "--raw", file.name], capture_output=True, text=True, check=True).stdout.strip()


def line_of(address):
    return f"The round is at {address}/; for a projector: {address}/screen"


def try_printed(hall, address):
    assert hall.printed[0] == line_of(address), hall.printed[0]
    assert scanned(hall.printed[1:-1]) == f"{address}/"


def try_event(address):
    """The page that the phones are led to knows the event and its round."""
    for path in "/", "/screen":
        with urllib.request.urlopen(address + path, timeout=30) as answer:
            assert b"&amp;event=Club%20final&amp;round=3" in answer.read()


async def try_without_qrencode(hall, address):
    """It prints the address, and serves. nginx and ip are in /usr/sbin, which it looks into by itself."""
    empty = pathlib.Path(hall.folder, "empty")
    empty.mkdir()
    await hall.start(PATH=str(empty))
    assert hall.printed[:-1] == [line_of(address), "For a QR code of it: apt-get install qrencode"], hall.printed
    with urllib.request.urlopen(f"{address}/", timeout=30) as answer:
        assert b"The boards of the round" in answer.read()
    await hall.stop()


def try_wrong_words(folder, taken):
    """Wrong rounds, lists that cannot be read, an address that is not this machine's, a port that is taken, and a main port in place of a
    watch port: each is refused in one line with its reason, and nothing is left running."""
    before = listened()
    for text, why in ((b"", "names no board"), (b"b1\nb1\n", "twice"), (b"b.1\n", "no board's name"), (b"b1 A;B - C\n", "may have no ;"),
                      (b"b1 A - B - C\n", "may have no dash"), (b"b1 1000 A - B\n", "from 0 to 959"),
                      (b"b1 M\xfcller - C\n", "cannot be read: it is not UTF-8"), (None, "cannot be read: Is a directory")):
        file = pathlib.Path(folder, "wrong.txt")
        if text is None:
            file = file.parent
        else:
            file.write_bytes(text)
        run = subprocess.run([PYTHON, HERE / "hall.py", file], capture_output=True, text=True, timeout=60, check=False)
        assert (run.returncode, run.stdout) == (1, "") and why in run.stderr and run.stderr.count("\n") == 1, run
    good = pathlib.Path(folder, "good.txt")
    good.write_text(ROUND, encoding="utf-8")
    refused = (("127.0.0.1", str(taken), "Address already in use"), ("192.0.2.1", "8960", "Cannot assign requested address"),
               ("127.0.0.1", "70000", "bind(): port must be 0-65535."))
    for address, port, why in refused:
        words = ["--address", address, "--port", port, good]
        run = subprocess.run([PYTHON, HERE / "hall.py", *words], capture_output=True, text=True, timeout=60, check=False)
        assert (run.returncode, run.stdout, run.stderr) == (1, "", f"{address}:{port} cannot be listened on: {why}\n"), run
    words = ["--address", "127.0.0.1", "--watch", f"127.0.0.1:{taken}", good]
    run = subprocess.run([PYTHON, HERE / "hall.py", *words], capture_output=True, text=True, timeout=60, check=False)
    assert (run.returncode, run.stdout) == (1, "") and "is no relay's watch port" in run.stderr and run.stderr.count("\n") == 1, run
    assert listened() == before


async def try_watching(phone, hall, relay, address):
    """The phone has each text of a game as it is played. What it sent before opened no board. If the hall's part is ended in the middle
    and started again, the game goes on, and a page that is open comes back. A round without a file shows the boards that exist."""
    key = new_key()
    operator = await Client.to(relay.address, key)
    await operator.open("r3-1")
    async with phone.ready("follows", address, "r3-1") as text:
        assert json.loads(await text())["reply"] == "following"
        for place, move in enumerate(["e2e4", "e7e5"]):
            await operator.submit("r3-1", move)
            assert json.loads(await text()) == {"reply": "move", "move": move, "place": place}
        await phone.does("tries", address, key)
        await phone.does("browses", address)
        await operator.submit("r3-1", "f1c4")
        await operator.end("r3-1")
        assert [json.loads(await text())["reply"] for _ in range(2)] == ["move", "over"]
    await operator.open("r3-2")
    await operator.submit("r3-2", "d2d4")
    async with phone.ready("stays", address):
        await hall.stop()
        assert int(address.rsplit(":", 1)[1]) not in listened()
        await operator.submit("r3-2", "d7d5")
        await hall.start()
    async with phone.ready("follows", address, "r3-2") as text:
        await operator.end("r3-2", "agreed")
        texts = [json.loads(await text()) for _ in range(4)]
    assert [it["reply"] for it in texts] == ["following", "move", "move", "over"], texts
    assert [it.get("move") for it in texts[1:3]] == ["d2d4", "d7d5"]
    await hall.stop()
    await hall.start(has_round=False)
    await operator.open("another")
    await phone.does("lists", address, "r3-1", "r3-2", "another")
    await operator.close()


async def main():
    phone = Phone(sys.argv[1] == "namespaces")
    others = listened()  # Ports of other programs of this machine.
    relay = await Relay(watch=True, grace=120).start()
    with tempfile.TemporaryDirectory() as folder:
        hall = Hall(phone, relay, folder)
        try:
            try_wrong_words(folder, relay.port)
            print("ok      wrong words", flush=True)
            await hall.start()
            address = f"http://{phone.laptop}:8960"
            try_printed(hall, address)
            try_event(address)
            print("ok      address, its QR code, and the event", flush=True)
            ports = listened() - others - {8960}
            assert relay.port in ports and len(ports) >= 2, ports
            await phone.does("reaches", address, *map(str, ports))
            print(f"ok      nothing but watching: {len(ports)} other ports tried", flush=True)
            await try_watching(phone, hall, relay, address)
            print("ok      watching", flush=True)
            await hall.stop()
            await try_without_qrencode(hall, address)
            print("ok      without qrencode", flush=True)
        finally:
            if hall.process and hall.process.returncode is None:
                hall.process.terminate()
                await hall.process.wait()
            await Relay.stop_all()
            phone.end()
    print(f"passed: a hall over {'two networks' if phone.keeper else 'two addresses of loopback'}")


if __name__ == "__main__":
    os.environ["PATH"] += ":/usr/sbin:/sbin"
    asyncio.run(main())
