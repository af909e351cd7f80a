#!/usr/bin/env -S python3 -B
"""Counts the instructions that a script's line takes, by the form in which it is written: bench/forms.py PROGRAM..

Each PROGRAM is the `relay960` of a checkout, built by `rt run` in crates/relay960. It runs scripts under callgrind, of the Debian package
valgrind. A number is what 200 lines take beyond the script without them, divided by 200. A move is played on 200 boards, and a spectator
takes from a board without moves. With an `id` both are refused.
"""
import json
import re
import subprocess
import sys

LINES = 200
MOVE = {"cmd": "submit", "board": "b100", "move": "e2e4"}
TAKE = {"cmd": "take", "spectator": 7}


def compact(command):
    return json.dumps(command, separators=(",", ":"))


def escaped(command):
    """The command with an escape for the last letter of its last text."""
    return re.sub(r'(.)"([,}])(?!.*"[,}])', lambda it: f'\\u{ord(it[1]):04x}"{it[2]}', compact(command))


FORMS = {
    "JSON.stringify": compact,
    "Python's json.dumps": json.dumps,
    "sorted keys": lambda it: json.dumps(it, separators=(",", ":"), sort_keys=True),
    "a space inside the braces": lambda it: f"{{ {json.dumps(it)[1:-1]} }}",
    "a space before each colon": lambda it: json.dumps(it, separators=(", ", " : ")),
    "CR LF": lambda it: compact(it) + "\r",
    "tabs in place of spaces": lambda it: json.dumps(it, separators=(",\t", ":\t")),
    "an `id` first": lambda it: compact({"id": 17, **it}),
    "an `id` last": lambda it: compact({**it, "id": 17}),
    "an escape in the last text": escaped,
}


def script(lines):
    boards = [compact({"cmd": "open", "board": f"b{100 + it}", "start": 518}) for it in range(LINES)]
    return "\n".join([*boards, compact({"cmd": "follow", "board": "b100", "spectator": 7}), *lines, ""])


def instructions(program, lines):
    words = ["valgrind", "--tool=callgrind", "--callgrind-out-file=/dev/null", program, "script", "--boards", str(LINES)]
    run = subprocess.run(words, input=script(lines), capture_output=True, text=True, check=True)
    return int(re.search(r"Collected : (\d+)", run.stderr)[1])


def main(programs):
    if not programs:
        sys.exit(__doc__)
    without = {it: instructions(it, []) for it in programs}
    print("| Form | " + " | ".join(f"a {what}, {it}" for what in ("move", "take") for it in programs) + " |")
    for name, form in FORMS.items():
        moves = [form(MOVE).replace("b100", f"b{100 + it}") for it in range(LINES)]
        row = [(instructions(program, lines) - without[program]) / LINES for lines in (moves, [form(TAKE)] * LINES) for program in programs]
        print(f"| {name} | " + " | ".join(f"{it:,.0f}" for it in row) + " |", flush=True)


if __name__ == "__main__":
    main(sys.argv[1:])
