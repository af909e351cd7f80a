"""Firefox without a window, driven by WebDriver BiDi, which it speaks by itself. No address but loopback is reached from it."""
import asyncio
import base64
import json
import os
import pathlib
import re
import tempfile

import websockets

from relay_client.acts import ANSWER, Acts
from relay_client.strokes import BACKSPACE, keys_of, stroke_of, to

# A page in the background keeps its timers, sounds and all; whatever is not of this machine goes to a proxy that is not there.
WISHES = {
    "network.proxy.type": 1, "network.proxy.http": "127.0.0.1", "network.proxy.http_port": 9, "network.proxy.ssl": "127.0.0.1",
    "network.proxy.ssl_port": 9, "network.proxy.no_proxies_on": "127.0.0.1, localhost", "network.captive-portal-service.enabled": False,
    "network.connectivity-service.enabled": False, "app.update.enabled": False, "datareporting.policy.dataSubmissionEnabled": False,
    "toolkit.telemetry.enabled": False, "browser.shell.checkDefaultBrowser": False, "browser.startup.page": 0,
    "dom.min_background_timeout_value": 4, "dom.timeout.enable_budget_timer_throttling": False, "dom.disable_beforeunload": False,
}


# What it reports of a connection as a fault, and is none of the page's.
NO_FAULTS = "can’t establish a connection to the server|The connection to .* was interrupted"


def value_of(it):
    """The value that a script gave, out of the form in which it is reported."""
    kind = it["type"]
    if kind == "array":
        return [value_of(one) for one in it["value"]]
    if kind == "object":
        return {key: value_of(one) for key, one in it["value"]}
    return it.get("value") if kind in ("string", "number", "boolean") else None


class Firefox:
    """A browser with a profile of its own, which goes with it."""

    def __init__(self):
        self.process = None
        self.socket = None
        self.number = 0
        self.answers = {}
        self.pages = []
        self.folder = tempfile.TemporaryDirectory(ignore_cleanup_errors=True)

    async def start(self):
        wishes = "".join(f"user_pref({json.dumps(name)}, {json.dumps(value)});\n" for name, value in WISHES.items())
        pathlib.Path(self.folder.name, "user.js").write_text(wishes)
        self.process = await asyncio.create_subprocess_exec(
            "firefox-esr", "--headless", "--no-remote", "--profile", self.folder.name, "--remote-debugging-port", "0", "about:blank",
            stdout=asyncio.subprocess.DEVNULL, stderr=asyncio.subprocess.PIPE, env={**os.environ, "HOME": self.folder.name})
        found = None
        while found is None:
            line = await asyncio.wait_for(self.process.stderr.readline(), ANSWER)
            if not line:
                raise RuntimeError("Firefox ended before it listened")
            found = re.search(rb"WebDriver BiDi listening on ws://127\.0\.0\.1:(\d+)", line)
        self.drain = asyncio.create_task(self.process.stderr.read())
        self.socket = await websockets.connect(f"ws://127.0.0.1:{int(found[1])}/session", max_size=None, ping_interval=None,
                                               compression=None, open_timeout=ANSWER)
        self.reader = asyncio.create_task(self.read())
        accept = {"acceptInsecureCerts": True, "unhandledPromptBehavior": {"default": "accept", "beforeUnload": "accept"}}
        await self.call("session.new", capabilities={"alwaysMatch": accept})
        await self.call("session.subscribe", events=["log.entryAdded"])
        return self

    async def read(self):
        try:
            async for text in self.socket:
                self.hear(json.loads(text))
        except websockets.ConnectionClosed:
            pass

    def hear(self, message):
        if message["type"] != "event":
            self.answers.pop(message["id"]).set_result(message)
            return
        entry = message["params"]
        is_fault = message["method"] == "log.entryAdded" and entry["type"] == "javascript" and entry["level"] == "error"
        if is_fault and not re.search(NO_FAULTS, entry["text"]):
            for page in self.pages:
                if page.context == entry["source"].get("context"):
                    page.faults.append(entry["text"])

    async def call(self, method, **params):
        self.number += 1
        answer = asyncio.get_running_loop().create_future()
        self.answers[self.number] = answer
        await self.socket.send(json.dumps({"id": self.number, "method": method, "params": params}))
        message = await asyncio.wait_for(answer, ANSWER)
        if message["type"] == "error":
            raise RuntimeError(f"{method}: {message['error']} {message['message']}")
        return message["result"]

    async def open(self, address, size=(1280, 900)):
        """A new page at an address, of that size."""
        made = await self.call("browsingContext.create", type="window")
        page = Page(self, made["context"])
        self.pages.append(page)
        await page.resize(*size)
        await page.go(address)
        return page

    async def close_all(self):
        for page in self.pages:
            await page.close()
        self.pages.clear()

    async def stop(self):
        if self.process and self.process.returncode is None:
            self.process.terminate()
            await self.process.wait()
        self.folder.cleanup()


class Page(Acts):
    """A page: its script, mouse, keys and pictures."""

    def __init__(self, browser, context):
        self.browser = browser
        self.context = context
        self.faults = []
        self.is_open = True

    async def call(self, method, **params):
        return await self.browser.call(method, context=self.context, **params)

    async def go(self, address):
        await self.call("browsingContext.navigate", url=address, wait="complete")

    async def evaluate(self, script):
        """What a script gave, in the form in which it is reported."""
        told = await self.browser.call("script.evaluate", expression=script, target={"context": self.context}, awaitPromise=True)
        if told["type"] == "exception":
            raise RuntimeError(told["exceptionDetails"]["text"])
        return told["result"]

    async def run(self, script):
        """The value of a script."""
        return value_of(await self.evaluate(script))

    async def front(self):
        await self.call("browsingContext.activate")

    async def perform(self, kind, steps):
        await self.call("input.performActions", actions=[{"type": kind, "id": kind, "actions": steps}])

    async def move_to(self, point):
        await self.perform("pointer", [to(point)])

    async def stroke(self, points):
        await self.perform("pointer", stroke_of(points))

    async def press(self, key):
        await self.front()
        await self.perform("key", keys_of([key]))

    async def type(self, text):
        """Types each letter; no letter at all takes away what is selected."""
        await self.front()
        await self.perform("key", keys_of(list(text) or [BACKSPACE]))

    async def give_file(self, selector, path):
        found = await self.evaluate(f"document.querySelector({json.dumps(selector)})")
        await self.call("input.setFiles", element={"sharedId": found["sharedId"]}, files=[str(path)])

    async def resize(self, width, height):
        await self.call("browsingContext.setViewport", viewport={"width": width, "height": height})

    async def picture(self, path):
        taken = await self.call("browsingContext.captureScreenshot")
        pathlib.Path(path).write_bytes(base64.b64decode(taken["data"]))

    async def close(self):
        """Closes it. Its connections are gone when this returns."""
        if self.is_open:
            self.is_open = False
            await self.go("about:blank")
            await self.call("browsingContext.close")
