#!/usr/bin/env -S python3 -B
"""Tries the wrong bodies of crates/NAME/planted/: planted.py [NAME..], or planted.py --rotate [MINUTES] for those that fit the time.

They are tried as those of crates/NAME/refused/ are (refused.py). `--rotate` begins with what was tried longest ago. `out/planted` at the
top of the repository has when each was tried, one per line, which git does not track, since it is about one machine's runs. Without that
file the rotation starts over. No check begins once the time is over.
"""
import datetime
import os
import sys
import threading
import time

import build
import refused
from crates import ROOT, Crates, minutes
from edits import copies_of
from workplace import scratch_folder, width_of_machine

KEPT = ROOT / "out/planted"
MINUTES = 10
NEVER = "0000-00-00"


class Rotation:
    """When each edit was tried last."""

    def __init__(self, edits):
        kept = KEPT.read_text().splitlines() if KEPT.is_file() else []
        tried = {edit: date for date, edit in (line.split() for line in kept)}
        self.days = {it.key: tried.get(it.key, NEVER) for its in edits.values() for it in its}

    def oldest_first(self, edits):
        return sorted(edits, key=lambda it: (self.days[it.key], it.key))

    def note(self, edits):
        self.days.update(dict.fromkeys((it.key for it in edits), datetime.date.today().isoformat()))
        KEPT.parent.mkdir(exist_ok=True)
        KEPT.with_suffix(".new").write_text("".join(f"{date} {edit}\n" for edit, date in sorted(self.days.items()) if date != NEVER))
        os.replace(KEPT.with_suffix(".new"), KEPT)

    def place(self):
        never = sum(date == NEVER for date in self.days.values())
        oldest = min((date for date in self.days.values() if date != NEVER), default="no day")
        return f"{len(self.days) - never} of {len(self.days)} tried since the rotation began, {never} never; the oldest try is of {oldest}"


class Queue:
    """The edits of all crates, in the order in which they are tried."""

    def __init__(self, edits, rotation):
        self.left, self.rotation = {name: rotation.oldest_first(its) for name, its in edits.items()}, rotation

    def next(self):
        """The crate whose oldest try is longest ago, and a copy of it with the edits that were tried longest ago."""
        if not self.left:
            return None
        name = min(self.left, key=lambda it: (self.rotation.days[self.left[it][0].key], it))
        copy = copies_of(self.left[name], refused.MOST_IN_COPY)[0]
        self.left[name] = [it for it in self.left[name] if it not in copy.edits]
        if not self.left[name]:
            del self.left[name]
        return name, copy


def rotate(crates, limit):
    edits, bad = refused.edits_in(crates, crates, "planted")
    rotation = Rotation(edits)
    print(f"tries for {minutes(limit)} what was tried longest ago: {rotation.place()}", flush=True)
    library_of = build.libraries_below(crates, edits)
    queue, began, choosing = Queue(edits, rotation), time.monotonic(), threading.Lock()

    def next_copy():
        with choosing:
            return queue.next() if time.monotonic() - began < limit else None
    with scratch_folder() as scratch:
        trial = refused.Trial(crates, scratch, library_of)
        trial.side_by_side(width_of_machine(), next_copy)
    rotation.note([it.edit for it in trial.verdicts])
    print(f"took {minutes(time.monotonic() - began)}; {rotation.place()}")
    return trial.end(bad)


def main(words):
    if words[:1] != ["--rotate"]:
        return refused.main(["--folder", "planted", *words])
    if len(words) > 2 or not all(it.isdigit() and int(it) for it in words[1:]):
        sys.exit("planted.sh: --rotate takes a number of minutes")
    return rotate(Crates(), 60 * int(words[1] if words[1:] else MINUTES))


if __name__ == "__main__":
    sys.exit(main(sys.argv[1:]))
