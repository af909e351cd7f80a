"""What a person does on a page and reads off it, whatever the browser."""
import asyncio
import json

PATIENCE = 30  # Seconds that a page is waited for: a machine that is busy with proofs needs some.
ANSWER = 120  # Seconds that a browser has to begin, to answer and to load a page, whatever else the machine does.


class PageLeft(RuntimeError):
    """The page was left while it was asked."""


class Acts:
    """
    What all pages have in common. A browser's own page has `run(script)`, `front()`, `move_to(point)` and `stroke(points)` of the mouse,
    which goes down at the first point and up at the last, `press(key)` and `type(text)`.
    """

    async def until(self, script, seconds=PATIENCE):
        """Waits until a script gives something true, and answers that."""
        for _ in range(int(seconds * 50)):
            try:
                value = await self.run(script)
            except PageLeft:
                value = None
            if value:
                return value
            await asyncio.sleep(0.02)
        raise AssertionError(f"not within {seconds} s: {script}; now: {await self.run(script)}")

    async def middle(self, selector):
        """The middle of an element, which is brought into view."""
        script = f"""(() => {{ const it = document.querySelector({json.dumps(selector)});
            const box = () => it.getBoundingClientRect();
            if (box().top < 0 || box().bottom > innerHeight) it.scrollIntoView({{block: "center"}});
            return [box().left + box().width / 2, box().top + box().height / 2]; }})()"""
        return await self.run(script)

    async def hover(self, selector):
        await self.move_to(await self.middle(selector))

    async def click(self, selector):
        await self.front()
        await self.stroke([await self.middle(selector)])

    async def drag(self, start, goal):
        await self.front()
        x, y = await self.middle(start)
        right, down = await self.middle(goal)
        await self.stroke([(x + part * (right - x), y + part * (down - y)) for part in (0, 0.3, 0.7, 1)])

    async def fill(self, selector, text):
        """Types a text into a field in place of what is there."""
        await self.run(f"(() => {{ const it = document.querySelector({json.dumps(selector)}); it.focus(); it.select(); }})()")
        await self.type(text)

    async def choose(self, selector, value):
        await self.run(f"""(() => {{ const it = document.querySelector({json.dumps(selector)}); it.value = {json.dumps(value)};
            it.dispatchEvent(new Event("change", {{bubbles: true}})); }})()""")

    async def style(self, selector, name):
        """A computed style of an element."""
        return await self.run(f"getComputedStyle(document.querySelector({json.dumps(selector)})).getPropertyValue({json.dumps(name)})")
