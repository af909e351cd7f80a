#!/usr/bin/env -S python3 -B
"""Prints the definitions behind the headline as a table: each module with its lines, and how many of them are neither comment nor import.

The order is that of reading: a module stands after those that it imports. A test that computes (`specs/Tests/`) is left out: laws say which
relation it decides, and that one is read in its place. A word names another module to begin with.

    tools/reading.py                                 # those behind the headline
    tools/reading.py relay_watching.specs.Watching   # that of another module
"""
import pathlib
import re
import sys

CRATES = pathlib.Path(__file__).resolve().parent.parent / "crates"
HEADLINE = "relay_core.specs.Headline"
IMPORT = re.compile(r"(?:pub )?use Rattle\.([\w.]+)")


def file_of(module):
    """The file of a module, or of the one that a longer name begins with; none for the kit's modules and for declared types."""
    parts = module.split(".")
    while len(parts) > 2 and parts[1] == "specs" and parts[2] != "declared":
        path = CRATES.joinpath(*parts).with_suffix(".antt")
        if path.is_file():
            return path
        parts.pop()
    return None


def imported(path):
    return [file for line in path.read_text().splitlines() if (found := IMPORT.match(line)) and (file := file_of(found[1]))]


def in_order(path, seen):
    """The files behind this one, and it, each after those that it imports."""
    if "Tests" in path.parts:
        path = path.parent.parent / path.name
    if path in seen or not path.is_file():
        return
    seen[path] = False
    for file in imported(path):
        in_order(file, seen)
    del seen[path]
    seen[path] = True


def sizes(path):
    """How many lines a file has, and how many of them are neither empty nor comment nor import."""
    lines = path.read_text().splitlines()
    own = [line for line in lines if line.strip() and not line.startswith("--") and not IMPORT.match(line)]
    return len(lines), len(own)


def table(module=HEADLINE):
    """The lines of the table."""
    seen = {}
    in_order(file_of(module), seen)
    rows = [(path.relative_to(CRATES).as_posix(), *sizes(path)) for path in seen]
    return [
        "| Definitions | Lines | Neither comment nor import |",
        "|---|---|---|",
        *(f"| `{name}` | {lines} | {own} |" for name, lines, own in rows),
        f"| {len(rows)} files | {sum(row[1] for row in rows):,} | {sum(row[2] for row in rows)} |",
    ]


if __name__ == "__main__":
    print("\n".join(table(*sys.argv[1:2])))
