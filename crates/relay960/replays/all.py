#!/usr/bin/env -S python3 -B
"""Runs the built program on worked cases, which stand beside this file as tables, and compares all that it writes and its status."""

import pathlib
import sys

sys.path.append(str(pathlib.Path(__file__).resolve().parents[3] / "tools"))

import by_chance
import commands
import devices
import games
import journals
import limits
import longest
import messages
import ports
import relays
import scripts
import services
import starts
import streams
import words


def main():
    count = 0
    for table in (starts, games, scripts, messages, commands, relays, limits, longest, words, streams, devices):
        for run in table.RUNS:
            run.try_it()
        count += len(table.RUNS)
    count += streams.closed_outputs() + streams.unreadable_inputs() + devices.all_devices() + services.all_services()
    count += journals.all_journals() + by_chance.all_by_chance() + ports.all_ports()
    print(f"crates/relay960/replays: {count} runs replayed")


if __name__ == "__main__":
    sys.exit(main())
