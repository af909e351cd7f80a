#!/usr/bin/env python3
"""Times live boards beside tokio's `broadcast` and crossbeam's `bounded`: live.py [--boards 100] [--rounds 5] [--program ..].

Builds live_peers.rs with rustc from the sources of Debian's packages librust-tokio-dev and librust-crossbeam-channel-dev, and fetches
nothing. Then all programs run in turn, in rounds: each plays games of 1,000 moves, one board after the other, and reports what that took.
The peers know no rules of chess: they send at once, and again at the pace at which a live board without followers was played in that round.
The figures are the medians, with the least and the greatest. Memory is the most that a process had resident, in runs that only open boards.
"""
import argparse
import statistics
import subprocess
import tempfile
from pathlib import Path

HERE = Path(__file__).resolve().parent
CRATE = HERE.parent / "crates" / "bench960"
SOURCES = Path("/usr/share/cargo/registry")
# Each library with the sources and flags that it is built by, those that it needs first.
LIBRARIES = [
    ("pin_project_lite", "pin-project-lite-0*", [], []),
    ("tokio", "tokio-1.*", ["sync"], ["pin_project_lite"]),
    ("cfg_if", "cfg-if-1*", [], []),
    ("crossbeam_utils", "crossbeam-utils-0*", ["std"], ["cfg_if"]),
    ("crossbeam_channel", "crossbeam-channel-0*", ["std", "crossbeam-utils"], ["cfg_if", "crossbeam_utils"]),
]
# How many boards are opened to see what memory they need, with this many followers and plies.
OPENED = {"live_board": 64, "tokio": 64, "crossbeam": 8}
KINDS = [(0, 1024), (0, 16384), (1024, 1024)]


def rustc(folder, source, edition, needs, *flags):
    externs = [word for name in needs for word in ("--extern", f"{name}={folder}/lib{name}.rlib")]
    optimised = ["-C", "opt-level=3", "-C", "codegen-units=1", "-L", folder, "--out-dir", folder]
    subprocess.run(["rustc", "--edition", edition, "--cap-lints", "allow", *optimised, *externs, *flags, source], check=True)


def build_peers(folder):
    for name, pattern, features, needs in LIBRARIES:
        source = sorted(SOURCES.glob(pattern))[-1] / "src" / "lib.rs"
        flags = [word for feature in features for word in ("--cfg", f'feature="{feature}"')]
        rustc(folder, source, "2018", needs, "--crate-type", "rlib", "--crate-name", name, *flags)
    rustc(folder, HERE / "native/live_peers.rs", "2021", ["tokio", "crossbeam_channel"])


def lines(words):
    """What a program says of its work: of each piece how much it was, and the nanoseconds that passed and that processors worked."""
    with open(CRATE / "stdin") as moves:
        ran = subprocess.run(words, stdin=moves, stdout=subprocess.DEVNULL, stderr=subprocess.PIPE, text=True, check=True)
    for line in ran.stderr.splitlines():
        what, _, numbers = line.rpartition(": ")
        yield what, [int(number) for number in numbers.split()]


def resident(words):
    """The most bytes that a program had in memory."""
    timed = ["/usr/bin/time", "-f", "%M", *words]
    ran = subprocess.run(timed, stdin=subprocess.DEVNULL, stdout=subprocess.DEVNULL, stderr=subprocess.PIPE, text=True, check=True)
    return int(ran.stderr.splitlines()[-1]) * 1024


def spread(numbers, form):
    low, middle, high = (format(pick(numbers), form) for pick in (min, statistics.median, max))
    return f"{middle} ({low} to {high})"


def show_times(name, rounds):
    for what in rounds[0]:
        told = [round[what] for round in rounds]
        rates = [count * 1e3 / wall for count, wall, _ in told]
        costs = [processor / count for count, _, processor in told]
        print(f"{name} | {what} | {spread(rates, '.2f')} million a second | {spread(costs, '.0f')} ns of processor time each")


def show_memory(name, program):
    """Bytes a follower; and of a live board, which keeps its whole log, bytes a ply."""
    boards = OPENED[name]
    told = {(followers, plies): resident([*program, str(boards), str(followers), str(plies)]) for followers, plies in KINDS}
    follower = (told[1024, 1024] - told[0, 1024]) / 1024 / boards
    ply = (told[0, 16384] - told[0, 1024]) / (16384 - 1024) / boards
    print(f"{name} | {follower:.0f} bytes a follower" + (f", {ply:.1f} a ply" if name == "live_board" else ""))


def main():
    words = argparse.ArgumentParser()
    words.add_argument("--boards", type=int, default=100)
    words.add_argument("--rounds", type=int, default=5)
    words.add_argument("--program", default=CRATE / "out" / "bench960", type=Path)
    given = words.parse_args()
    with tempfile.TemporaryDirectory() as folder:
        build_peers(folder)
        peers = f"{folder}/live_peers"
        programs = {"live_board": [given.program, "live"], "tokio": [peers, "broadcast"], "crossbeam": [peers, "bounded"]}
        rounds = {name: [] for name in programs}
        for _ in range(given.rounds):
            own = dict(lines([*programs["live_board"], str(given.boards)]))
            count, wall, _ = own["submits, followers 0"]
            rounds["live_board"].append(own)
            for name in ("tokio", "crossbeam"):
                rounds[name].append(dict(lines([*programs[name], str(given.boards), str(wall // count)])))
        for name in programs:
            show_times(name, rounds[name])
        for name, program in programs.items():
            show_memory(name, program)
    print(Path("/proc/loadavg").read_text().strip())


main()
