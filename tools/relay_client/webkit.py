"""WebKit in a window that nobody sees, driven by Debian's WebKitWebDriver (W3C WebDriver). It has the pages of one test at a time."""
import asyncio
import base64
import json
import os
import pathlib
import signal
import subprocess
import tempfile
import urllib.error
import urllib.request

from relay_client.acts import ANSWER, Acts
from relay_client.ports import free_port, listened
from relay_client.strokes import BACKSPACE, keys_of, stroke_of, to

BINARY = "/usr/lib/x86_64-linux-gnu/webkit2gtk-4.1/MiniBrowser"
# What a page has thrown is kept in the page, since the driver does not report it. What is thrown while the page loads is not seen.
LISTEN = """window.addEventListener("error", (event) => { window.thrown = [...(window.thrown || []), String(event.message)]; });
    window.addEventListener("unhandledrejection", (event) => { window.thrown = [...(window.thrown || []), String(event.reason)]; });"""


class WebKit:
    """A browser with a home of its own, which goes with it. Its windows are driven one at a time."""

    def __init__(self):
        self.process = None
        self.pages = []
        self.lock = asyncio.Lock()
        self.window = None
        self.home = tempfile.TemporaryDirectory(ignore_cleanup_errors=True)

    async def start(self):
        self.port = free_port()
        self.process = subprocess.Popen(
            ["xvfb-run", "-a", "-s", "-screen 0 1600x1200x24", "WebKitWebDriver", f"--port={self.port}"], start_new_session=True,
            env={**os.environ, "HOME": self.home.name}, stdout=subprocess.DEVNULL, stderr=subprocess.DEVNULL)
        for _ in range(20 * ANSWER):
            if self.port in listened():
                break
            await asyncio.sleep(0.05)
        options = {"binary": BINARY, "args": ["--automation"]}
        wanted = {"unhandledPromptBehavior": "accept", "webkitgtk:browserOptions": options}
        made = await self.ask("POST", "/session", capabilities={"alwaysMatch": wanted})
        self.session = f"/session/{made['sessionId']}"
        self.first = await self.ask("GET", f"{self.session}/window")
        return self

    async def ask(self, method, path, **body):
        data = json.dumps(body).encode() if method == "POST" else None
        request = urllib.request.Request(f"http://127.0.0.1:{self.port}{path}", data, {"Content-Type": "application/json"}, method=method)

        def answer():
            try:
                with urllib.request.urlopen(request, timeout=ANSWER) as it:
                    return json.load(it)["value"]
            except urllib.error.HTTPError as fault:
                raise RuntimeError(f"{path}: {fault.read().decode()}") from fault

        return await asyncio.to_thread(answer)

    async def call(self, window, method, path, **body):
        """Asks a window, to which the driver goes first."""
        async with self.lock:
            if self.window != window:
                await self.ask("POST", f"{self.session}/window", handle=window)
                self.window = window
            return await self.ask(method, f"{self.session}{path}", **body)

    async def open(self, address, size=(1280, 900)):
        """A new page at an address, of that size."""
        made = await self.call(self.first, "POST", "/window/new", type="window")
        page = Page(self, made["handle"])
        self.pages.append(page)
        await page.resize(*size)
        await page.go(address)
        return page

    async def close_all(self):
        for page in self.pages:
            await page.close()
        self.pages.clear()

    async def stop(self):
        if self.process and self.process.poll() is None:
            os.killpg(self.process.pid, signal.SIGTERM)
            self.process.wait()
        self.home.cleanup()


class Page(Acts):
    """A page: its script, mouse, keys and pictures."""

    def __init__(self, browser, window):
        self.browser = browser
        self.window = window
        self.faults = []
        self.is_open = True

    async def call(self, method, path, **body):
        return await self.browser.call(self.window, method, path, **body)

    async def go(self, address):
        await self.call("POST", "/url", url=address)
        await self.run(LISTEN)

    async def run(self, script):
        """The value of a script."""
        value, self.faults = await self.call("POST", "/execute/sync", script="return Promise.resolve((0, eval)(arguments[0])).then("
                                             "(it) => [it === undefined ? null : it, window.thrown || []])", args=[script])
        return value

    async def front(self):
        """A window that is asked is the one in front."""

    async def perform(self, kind, steps):
        await self.call("POST", "/actions", actions=[{"type": kind, "id": kind, "actions": steps}])

    async def move_to(self, point):
        await self.perform("pointer", [to(point)])

    async def stroke(self, points):
        await self.perform("pointer", stroke_of(points))

    async def press(self, key):
        await self.perform("key", keys_of([key]))

    async def type(self, text):
        await self.perform("key", keys_of(list(text) or [BACKSPACE]))

    async def give_file(self, selector, path):
        found = await self.call("POST", "/element", using="css selector", value=selector)
        await self.call("POST", f"/element/{next(iter(found.values()))}/value", text=str(path))

    async def resize(self, width, height):
        """Makes the window so large that the page has this size."""
        await self.call("POST", "/window/rect", width=width, height=height)
        right, down = await self.run("[innerWidth, innerHeight]")
        await self.call("POST", "/window/rect", width=2 * width - right, height=2 * height - down)

    async def picture(self, path):
        pathlib.Path(path).write_bytes(base64.b64decode(await self.call("GET", "/screenshot")))

    async def close(self):
        """Closes it. Its connections are gone when this returns."""
        if self.is_open:
            self.is_open = False
            await self.go("about:blank")
            await self.call("DELETE", "/window")
            self.browser.window = None
