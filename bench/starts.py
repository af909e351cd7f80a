#!/usr/bin/env python3
"""Counts four plies from each of the 960 starts, by bench960 and by Debian's Stockfish, and compares: starts.py BENCH960."""
import subprocess
import sys

from games import start_of


def of_stockfish():
    questions = ["setoption name UCI_Chess960 value true"]
    for number in range(960):
        questions += [f"position fen {start_of(number)}", "go perft 4"]
    answers = subprocess.run(["/usr/games/stockfish"], input="\n".join([*questions, "quit"]), stdout=subprocess.PIPE, text=True, check=True)
    return [int(line.split(":")[1]) for line in answers.stdout.splitlines() if line.startswith("Nodes searched")]


def of_bench960(program):
    lines = subprocess.run([program, "positions", "starts"], stdout=subprocess.PIPE, text=True, check=True).stdout.splitlines()
    return [int(line.split()[2]) for line in lines]


counts, expected = of_bench960(sys.argv[1]), of_stockfish()
other = [number for number in range(960) if counts[number:number + 1] != expected[number:number + 1]]
print(f"{len(counts)} starts, {sum(counts)} positions, {len(other)} unlike Stockfish's: {other[:9]}")
sys.exit(1 if other or len(counts) != 960 or len(expected) != 960 else 0)
