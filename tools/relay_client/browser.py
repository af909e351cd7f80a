"""Chromium without a window, driven over its remote port. No address but loopback resolves in it."""
import asyncio
import base64
import json
import os
import re
import tempfile
import urllib.request

import websockets

from relay_client.acts import ANSWER, Acts, PageLeft

FLAGS = [
    "--headless=new", "--disable-gpu", "--no-first-run", "--no-default-browser-check", "--disable-background-networking",
    "--disable-component-update", "--disable-sync", "--disable-background-timer-throttling", "--disable-renderer-backgrounding",
    "--disable-backgrounding-occluded-windows", "--hide-scrollbars", "--remote-debugging-port=0",
    "--host-resolver-rules=MAP * ~NOTFOUND, EXCLUDE 127.0.0.1, EXCLUDE localhost",
]
KEYS = {"Enter": 13, "Escape": 27, "ArrowLeft": 37, "ArrowUp": 38, "ArrowRight": 39, "ArrowDown": 40, "Home": 36, "End": 35, "Tab": 9}


class Browser:
    """A browser with a profile of its own, which goes with it."""

    def __init__(self):
        self.process = None
        self.port = None
        self.pages = []
        self.folder = tempfile.TemporaryDirectory(ignore_cleanup_errors=True)

    async def start(self, *more):
        flags = [*FLAGS, f"--user-data-dir={self.folder.name}", *more] + (["--no-sandbox"] if os.geteuid() == 0 else [])
        self.process = await asyncio.create_subprocess_exec(
            "chromium", *flags, "about:blank", stdout=asyncio.subprocess.DEVNULL, stderr=asyncio.subprocess.PIPE)
        found = None
        while found is None:
            line = await asyncio.wait_for(self.process.stderr.readline(), ANSWER)
            if not line:
                raise RuntimeError("Chromium ended before it listened")
            found = re.search(rb"DevTools listening on ws://127\.0\.0\.1:(\d+)/", line)
        self.port = int(found[1])
        self.drain = asyncio.create_task(self.process.stderr.read())
        return self

    async def open(self, address, size=(1280, 900)):
        """A new page at an address, of that size."""
        request = urllib.request.Request(f"http://127.0.0.1:{self.port}/json/new?about:blank", method="PUT")
        made = json.loads(await asyncio.to_thread(lambda: urllib.request.urlopen(request, timeout=ANSWER).read()))
        socket = await websockets.connect(made["webSocketDebuggerUrl"], max_size=None, ping_interval=None, compression=None,
                                          open_timeout=ANSWER)
        page = Page(socket)
        self.pages.append(page)
        await page.call("Page.enable")
        await page.call("Runtime.enable")
        await page.resize(*size)
        await page.go(address)
        return page

    async def close_all(self):
        for page in self.pages:
            await page.close()
        self.pages.clear()

    async def stop(self):
        if self.process and self.process.returncode is None:
            self.process.terminate()
            await self.process.wait()
        self.folder.cleanup()


class Page(Acts):
    """A page: its script, mouse, keys and pictures."""

    def __init__(self, socket):
        self.socket = socket
        self.number = 0
        self.answers = {}
        self.loaded = asyncio.Event()
        self.faults = []
        self.kept = {}  # Events that a test needs, by their method.
        self.reader = asyncio.create_task(self.read())

    async def read(self):
        try:
            async for text in self.socket:
                self.hear(json.loads(text))
        except websockets.ConnectionClosed:
            pass

    def hear(self, message):
        if "id" in message:
            self.answers.pop(message["id"]).set_result(message)
        elif message["method"] == "Page.loadEventFired":
            self.loaded.set()
        elif message["method"] == "Page.javascriptDialogOpening":
            asyncio.ensure_future(self.call("Page.handleJavaScriptDialog", accept=True))
        elif message["method"] in self.kept:
            self.kept[message["method"]].append(message["params"])
        elif message["method"] == "Runtime.exceptionThrown":
            details = message["params"]["exceptionDetails"]
            self.faults.append(details.get("exception", {}).get("description", details["text"]))

    async def call(self, method, **params):
        self.number += 1
        answer = asyncio.get_running_loop().create_future()
        self.answers[self.number] = answer
        await self.socket.send(json.dumps({"id": self.number, "method": method, "params": params}))
        message = await asyncio.wait_for(answer, ANSWER)
        if "error" in message:
            fault = f"{method}: {message['error']}"
            raise PageLeft(fault) if "navigated or closed" in fault else RuntimeError(fault)
        return message["result"]

    async def go(self, address):
        self.loaded.clear()
        await self.call("Page.navigate", url=address)
        await asyncio.wait_for(self.loaded.wait(), ANSWER)

    async def run(self, script):
        """The value of a script."""
        result = await self.call("Runtime.evaluate", expression=script, returnByValue=True, awaitPromise=True)
        if "exceptionDetails" in result:
            raise RuntimeError(result["exceptionDetails"].get("exception", {}).get("description", "a script failed"))
        return result["result"].get("value")

    async def mouse(self, kind, x, y, held=True):
        await self.call("Input.dispatchMouseEvent", type=kind, x=x, y=y, button="left" if held else "none",
                        buttons=1 if kind != "mouseReleased" and held else 0, clickCount=1 if held else 0)

    async def front(self):
        await self.call("Page.bringToFront")  # A page in the background gets the mouse late or not at all.

    async def move_to(self, point):
        await self.mouse("mouseMoved", *point, held=False)

    async def stroke(self, points):
        """The button goes down at the first point and up at the last."""
        await self.mouse("mousePressed", *points[0])
        for point in points[1:]:
            await self.mouse("mouseMoved", *point)
        await self.mouse("mouseReleased", *points[-1])

    async def press(self, key):
        code = KEYS.get(key, ord(key[0].upper()))
        text = {"text": "\r"} if key == "Enter" else {"text": key} if len(key) == 1 else {}
        await self.call("Input.dispatchKeyEvent", type="keyDown", key=key, windowsVirtualKeyCode=code, **text)
        await self.call("Input.dispatchKeyEvent", type="keyUp", key=key, windowsVirtualKeyCode=code)

    async def type(self, text):
        await self.call("Input.insertText", text=text)

    async def give_file(self, selector, path):
        found = await self.call("Runtime.evaluate", expression=f"document.querySelector({json.dumps(selector)})")
        await self.call("DOM.setFileInputFiles", files=[str(path)], objectId=found["result"]["objectId"])

    async def resize(self, width, height, scale=1):
        await self.call("Emulation.setDeviceMetricsOverride", width=width, height=height, deviceScaleFactor=scale, mobile=False)

    async def media(self, **features):
        """What the page learns of its reader's preferences: prefers_color_scheme, prefers_reduced_motion, forced_colors."""
        given = [{"name": name.replace("_", "-"), "value": value} for name, value in features.items()]
        await self.call("Emulation.setEmulatedMedia", features=given)

    async def scheme(self, name):
        await self.media(prefers_color_scheme=name)

    async def forced_colors(self):
        await self.media(forced_colors="active")

    async def touch(self, kind, *points):
        """Fingers, each as its number and the square or element that it is on."""
        places = [(number, await self.middle(selector)) for number, selector in points]
        await self.call("Input.dispatchTouchEvent", type=kind, touchPoints=[{"id": number, "x": x, "y": y} for number, (x, y) in places])

    async def picture(self, path, whole=False):
        await self.call("Page.bringToFront")
        taken = await self.call("Page.captureScreenshot", format="png", captureBeyondViewport=whole)
        with open(path, "wb") as file:
            file.write(base64.b64decode(taken["data"]))

    async def close(self):
        """Closes it. Its connections are gone when this returns."""
        if self.socket.open:
            await self.go("about:blank")
            for last in (self.call("Page.close"), self.socket.close()):
                try:
                    await last  # The browser may drop the connection with the page.
                except (RuntimeError, websockets.ConnectionClosed, asyncio.TimeoutError):
                    pass
