#!/usr/bin/env python3
"""Times `relay960 play` without the starts of the program: plays.py FOLDER [--rounds 5] PROGRAM..

FOLDER holds games/chance and games/shuffle, which `bench/games.py games 100000` makes there. Each game is played in a run of the program
of its own, and then as many runs are made without a line; the figure is the processor time of the first less that of the second.
"""
import argparse
import resource
import statistics
import subprocess
from pathlib import Path


def spent(program, games, played):
    """The processor time of a run a game, in seconds."""
    before = resource.getrusage(resource.RUSAGE_CHILDREN)
    for game in games:
        with open(game if played else "/dev/null", "rb") as moves:
            subprocess.run([program, "play", game.suffix[1:]], stdin=moves, stdout=subprocess.DEVNULL, check=True)
    after = resource.getrusage(resource.RUSAGE_CHILDREN)
    return after.ru_utime + after.ru_stime - before.ru_utime - before.ru_stime


def main():
    words = argparse.ArgumentParser()
    words.add_argument("folder", type=Path)
    words.add_argument("programs", nargs="+")
    words.add_argument("--rounds", type=int, default=5)
    given = words.parse_args()
    for kind in ("chance", "shuffle"):
        games = sorted((given.folder / "games" / kind).iterdir())
        moves = sum(game.read_bytes().count(b"\n") for game in games)
        taken = {program: [] for program in given.programs}
        for _ in range(given.rounds):
            for program in given.programs:
                taken[program].append(spent(program, games, True) - spent(program, games, False))
        for program, seconds in taken.items():
            middle = statistics.median(seconds)
            between = f"{min(seconds):.3f} to {max(seconds):.3f}"
            print(f"{kind} | {program} | {moves} moves | {middle:.3f} s ({between}) | {moves / middle:,.0f} a second")


main()
