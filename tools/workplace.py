"""Folders in which single crates are proved, side by side.

`rt` locks each crate below the one that it proves, so in one tree two proofs that share a crate run one after the other. A workplace has
copies of a crate's sources and of the libraries below it, and so locks nothing that another proof needs.
"""
import contextlib
import fcntl
import os
import pathlib
import shutil
import tempfile

from crates import SOURCES

# A proof takes from one to four gigabytes, and each further job up to one and a half.
MEMORY_OF_A_PROOF = 4 << 30
MEMORY_OF_A_JOB = 3 << 29
# As many jobs as `rt` itself gives a proof at most.
MOST_JOBS = 4


class Workplace:
    """A folder with one crate, all below it, and no other. With `keeps` the crate's `out/` is moved there, to be put back."""

    def __init__(self, crates, scratch, name, keeps=False):
        self.top = scratch / name
        self.own, self.kept = self.top / "crates" / name, crates.folder(name) / "out"
        names = [*crates.below(name), name]
        self.own.mkdir(parents=True)
        (self.top / "crates.txt").write_text("".join(crates.lines[it] + "\n" for it in names))
        shutil.copy2(crates.root / "HANDLES", self.top)
        for it in names:
            for part in SOURCES:
                if (crates.folder(it) / part).is_dir():
                    shutil.copytree(crates.folder(it) / part, self.top / "crates" / it / part)
        for it in names[:-1]:
            library = crates.folder(it) / "out/rlib"
            shutil.copytree(library, self.top / "crates" / it / "out/rlib", copy_function=link_or_copy)
        if keeps and self.kept.is_dir():
            shutil.move(self.kept, self.own / "out")

    def put_back(self):
        """Puts the crate's `out/` in its place, even if the proof failed, since the next one goes on from it. From another file
        system it is copied, so it gets its name last."""
        new = self.kept.with_name("out.new")
        if (self.own / "out").is_dir():
            shutil.rmtree(new, ignore_errors=True)
            shutil.move(self.own / "out", new)
        if new.is_dir() and not self.kept.exists():
            new.rename(self.kept)
        self.clear()

    def clear(self):
        shutil.rmtree(self.top, ignore_errors=True)


def link_or_copy(source, target):
    try:
        os.link(source, target)
    except OSError:
        shutil.copy2(source, target)


@contextlib.contextmanager
def scratch_folder():
    """A folder for workplaces. They take some gigabytes, for which /tmp, which may lie in memory, is no place."""
    with tempfile.TemporaryDirectory(prefix="relay960-", dir="/var/tmp") as name:
        yield pathlib.Path(name)


def free_memory():
    """In bytes."""
    free = 0
    for line in pathlib.Path("/proc/meminfo").read_text().splitlines():
        if line.startswith("MemAvailable:"):
            free = int(line.split()[1]) * 1024
    return free


def width_of_machine():
    """How many proofs run at a time: by the processors, and by the memory that is free."""
    return max(min(len(os.sched_getaffinity(0)), free_memory() // MEMORY_OF_A_PROOF), 1)


def most_jobs():
    """How many jobs a proof that begins now may have: by the processors, and by the memory that is free."""
    further = (free_memory() - MEMORY_OF_A_PROOF) // MEMORY_OF_A_JOB
    return max(min(len(os.sched_getaffinity(0)), MOST_JOBS, 1 + further), 1)


def lock(crates, names):
    """Waits until no `rt` works in these crates, and keeps others out until what it gives is closed, or this process ends."""
    with contextlib.ExitStack() as held:
        for name in sorted(names):
            folder = os.open(crates.folder(name), os.O_RDONLY)
            held.callback(os.close, folder)
            fcntl.flock(folder, fcntl.LOCK_EX)
        return held.pop_all()
