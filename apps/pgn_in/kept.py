"""What outlasts the program: the key of its boards, and the names that it gave by places. Only one program has it at a time."""

import fcntl
import hashlib
import json
import os
import pathlib

from relay_client.keys import new_key


class Taken(Exception):
    """Another program has it, or it is something else."""


def folder():
    """systemd's for a unit, or the user's."""
    if given := os.environ.get("STATE_DIRECTORY"):
        return pathlib.Path(given.split(":")[0])
    return pathlib.Path(os.environ.get("XDG_STATE_HOME") or pathlib.Path.home() / ".local/state") / "relay960"


def usual(server, source):
    """Where it is if it is not told: one for each relay and file."""
    sort = hashlib.sha256(f"{server}\n{source}".encode()).hexdigest()[:16]
    return folder() / f"enter-{sort}.json"


class Kept:
    """Its file is put in place as a whole, so a program that is killed leaves it whole. Another file beside it is locked."""

    def __init__(self, path):
        self.path = pathlib.Path(path)
        self.path.parent.mkdir(parents=True, exist_ok=True, mode=0o700)
        self.lock = os.open(f"{self.path}.lock", os.O_RDWR | os.O_CREAT, 0o600)
        try:
            fcntl.flock(self.lock, fcntl.LOCK_EX | fcntl.LOCK_NB)
        except BlockingIOError as fault:
            raise Taken(f"another enter.py has {self.path}: it takes the same file to the same relay") from fault
        said = self.said()
        self.key, self.names = said.get("key") or new_key(), said.get("names", {})
        self.text = None
        self.write()

    def said(self):
        try:
            return json.loads(self.path.read_text(encoding="ascii"))
        except FileNotFoundError:
            return {}
        except ValueError as fault:
            raise Taken(f"{self.path} is no file of enter.py") from fault

    def write(self):
        """Writes it through, if it is another than before. A name is kept before its board is opened."""
        text = json.dumps({"key": self.key, "names": self.names}, indent=1) + "\n"
        if text != self.text:
            new = f"{self.path}.new"
            with os.fdopen(os.open(new, os.O_WRONLY | os.O_CREAT | os.O_TRUNC, 0o600), "w", encoding="ascii") as file:
                file.write(text)
                file.flush()
                os.fsync(file.fileno())
            os.replace(new, self.path)
            self.text = text
