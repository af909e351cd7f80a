"""The crates of crates.txt: what each depends on, where its tests are, and how long its proof takes."""
import pathlib

ROOT = pathlib.Path(__file__).resolve().parent.parent
# The folders of a crate from which it is made.
SOURCES = ("src", "specs", "proofs")
# How the name of a crate of tests ends.
TESTS = "_tests"
# What a crate that the table lacks is taken to need.
SECONDS_UNKNOWN = 40


def read_lines(path):
    """The lines of a file without comments and empty ones."""
    lines = (line.partition("#")[0].strip() for line in path.read_text().splitlines())
    return [line for line in lines if line]


class Crates:
    """The lines of crates.txt below a folder."""

    def __init__(self, root=ROOT):
        self.root = pathlib.Path(root)
        self.lines, self.uses = {}, {}
        for line in read_lines(self.root / "crates.txt"):
            head, _, uses = line.partition(":")
            name = head.split()[0]
            self.lines[name], self.uses[name] = line, uses.split()

    def __iter__(self):
        return iter(self.lines)

    def __contains__(self, name):
        return name in self.lines

    def folder(self, name):
        return self.root / "crates" / name

    def below(self, name):
        """The crates of the repository that this one depends on, each before those that depend on it."""
        found = {}
        for used in self.uses[name]:
            if used in self.lines:
                found.update(dict.fromkeys([*self.below(used), used]))
        return list(found)

    def above(self, name):
        """The crates that depend on this one, each after those that it depends on."""
        found = [other for other in self if name in self.below(other)]
        return sorted(found, key=lambda other: len(self.below(other)))

    def is_program(self, name):
        return (self.folder(name) / "src/main.rt").is_file()

    def tests_of(self, name):
        """Where a crate's tests are: in itself, and in the crates of tests that name it in crates.txt; of these the one that has the
        longest part of its name, as c960_tests for c960_rules, or, if none has, all."""
        own = [name] if has_tests(self.folder(name)) else []
        apart = [other for other in self if other.endswith(TESTS) and name in self.uses[other]]
        named = [other for other in apart if f"{name}_".startswith(other.removesuffix(TESTS) + "_")]
        return own + (sorted(named, key=len)[-1:] or apart)


def has_tests(folder):
    return any("#[test]" in path.read_text() for path in (folder / "src").rglob("*.rt"))


def measured():
    """The measured seconds of each crate's proof from nothing, by its name."""
    rows = (line.split() for line in read_lines(ROOT / "tools/seconds.txt"))
    return {name: int(seconds) for name, seconds in rows}


def minutes(seconds):
    """A length of time in words."""
    if seconds < 90:
        return f"{max(round(seconds), 1)} s"
    return f"{round(seconds / 60)} min"
