#!/usr/bin/env -S python3 -B
"""Makes the tables of docs/BENCHMARKS.md from the results beside this script.

    bench/results/tables.py            # prints the tables
    bench/results/tables.py --write    # writes them into the page

In the page `<!-- FILE: TABLE -->` stands before a table, which is made from the table of that name in FILE, with a line before it that
says of which commit it is. Numbers behind a second colon choose columns. A result file begins with what was measured and how. A line
`[TABLE]` begins a table, whose first row has the names of the columns, with ` | ` between cells. Lines `commit:`, `day:`, `machine:` and
`note:` hold for the tables behind them if they come before all tables, else for their table.
"""
import pathlib
import re
import sys

HERE = pathlib.Path(__file__).resolve().parent
PAGE = HERE.parent.parent / "docs/BENCHMARKS.md"
FACT = re.compile(r"(commit|day|machine|note): (.*)")
MARKER = re.compile(r"^<!-- ([\w.-]+): ([^:\n]+?)(?:: ([\d ]+))? -->\n(?:Commit .*\n\n)?(?:\|.*\n)*", re.M)


class Table:
    def __init__(self, facts):
        self.facts, self.rows = dict(facts), []


def read(path):
    """The tables of a result file, by name."""
    facts, tables, now = {}, {}, None
    for line in path.read_text().splitlines():
        if head := re.fullmatch(r"\[(.+)\]", line):
            now = tables[head[1]] = Table(facts)
        elif fact := FACT.fullmatch(line):
            (now.facts if now else facts)[fact[1]] = fact[2]
        elif line and now:
            now.rows.append([cell.strip() for cell in line.split("|")])
    return tables


def row(cells):
    return "| " + " | ".join(cells) + " |"


def as_page(name, table, columns):
    """The lines of a table as the page has them: where it is from, and its columns, with the least and the greatest as a range."""
    chosen = [[re.sub(r"\(([\d.,]+) to ([\d.,]+)\)", r"(\1–\2)", cells[at - 1]) for at in columns] for cells in table.rows]
    source = f"Commit {table.facts['commit'].partition(';')[0]} ([all figures](../bench/results/{name})):"
    return [source, "", row(chosen[0]), "|" + "---|" * len(columns), *map(row, chosen[1:])]


def made(name, title, columns, folder=HERE):
    table = read(folder / name)[title]
    numbers = [int(it) for it in columns.split()] if columns else range(1, len(table.rows[0]) + 1)
    return as_page(name, table, numbers)


def page(text, folder=HERE):
    """The page with its tables made anew."""
    def block(found):
        return found[0].partition("\n")[0] + "\n" + "\n".join(made(*found.groups(), folder)) + "\n"
    return MARKER.sub(block, text)


def main():
    text = PAGE.read_text()
    if sys.argv[1:] == ["--write"]:
        PAGE.write_text(page(text))
    elif sys.argv[1:]:
        sys.exit(__doc__)
    else:
        print("\n\n".join("\n".join(made(*found.groups())) for found in MARKER.finditer(text)))


if __name__ == "__main__":
    main()
