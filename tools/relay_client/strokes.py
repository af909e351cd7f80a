"""The mouse and the keys as WebDriver has them, of the older kind and the newer."""

BACKSPACE = "Backspace"
KEYS = {"Enter": "\ue007", "\n": "\ue007", "Escape": "\ue00c", "ArrowLeft": "\ue012", "ArrowUp": "\ue013", "ArrowRight": "\ue014",
        "ArrowDown": "\ue015", "Home": "\ue011", "End": "\ue010", "Tab": "\ue004", BACKSPACE: "\ue003"}


def keys_of(names):
    """Keys that are pressed one after another."""
    return [{"type": kind, "value": KEYS.get(it, it)} for it in names for kind in ("keyDown", "keyUp")]


def to(point):
    """A movement of the mouse to a point of the page."""
    x, y = point
    return {"type": "pointerMove", "x": round(x), "y": round(y)}


def stroke_of(points):
    """The button goes down at the first point and up at the last."""
    first, *others = map(to, points)
    return [first, {"type": "pointerDown", "button": 0}, *others, {"type": "pointerUp", "button": 0}]
