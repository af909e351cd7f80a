"""The linters have nothing to say of the repository's files, and lines are short. One that is not installed is skipped: Debian has flake8,
shellcheck and nodejs. Lines of code and comments have at most 140 characters, in these languages and in C, CSS and HTML; definitions,
clauses and proofs may have more, since a clause is read as one sentence."""
import pathlib
import re
import shutil
import subprocess
import unittest

ROOT = pathlib.Path(__file__).resolve().parents[2]
ENDINGS = {".rt": "Rattle", ".antt": "Rattle", ".py": "Python", ".sh": "shell", ".js": "JavaScript", ".mjs": "JavaScript",
           ".c": "C", ".h": "C", ".css": "CSS", ".html": "HTML"}
LONGEST = 140
# What begins a clause or another ghost item of code.
CLAUSE = re.compile(r"\s*(ghost|requires|ensures|invariant|decreases)\b")
# What the layout of Rattle leaves whole: a literal that stands alone in its line, a row of numbers, and a row of two positions in a text.
WHOLE = re.compile(r"""\s*(b?r?(#*)".*"\2[;,)]*|(0x[0-9a-f]{16}[ ,]*)+|[\w/]+ [wb] [^"]*\|[^"]*)$""")


def in_clauses(lines):
    """Whether each line of code is one of a clause, which goes on until its braces are closed."""
    depth, inside = 0, False
    for line in lines:
        inside = depth > 0 or CLAUSE.match(line) is not None
        yield inside
        depth = max(depth + line.count("{") - line.count("}"), 0) if inside else 0


def too_long(ending, text):
    """The numbers of the lines that are too long, of a file with this ending."""
    lines = text.splitlines()
    aside = in_clauses(lines) if ending == ".rt" else (ending == ".antt" and not line.lstrip().startswith("--") for line in lines)
    return [
        number
        for number, (line, is_aside) in enumerate(zip(lines, aside), 1)
        if len(line) > LONGEST and not is_aside and not (ending == ".rt" and WHOLE.match(line))
    ]


def language_of(path):
    """The language of a file, by its ending or else by its first line."""
    if path.suffix:
        return ENDINGS.get(path.suffix)
    with path.open("rb") as file:
        first = file.readline(100)
    if not first.startswith(b"#!"):
        return None
    return "Python" if b"python" in first else "shell" if first.rstrip().endswith(b"sh") else None


def files():
    """The files of each language that git tracks or would track."""
    words = ["git", "ls-files", "-co", "--exclude-standard", "-z"]
    listed = subprocess.run(words, cwd=ROOT, stdout=subprocess.PIPE, check=True).stdout.decode().split("\0")
    found = {language: [] for language in ENDINGS.values()}
    for path in sorted({ROOT / it for it in listed if it}):
        language = language_of(path) if path.is_file() else None
        if language:
            found[language].append(path)
    return found


FILES = files()


class Linters(unittest.TestCase):
    def passes(self, words, paths):
        if shutil.which(words[0]) is None:
            self.skipTest(f"{words[0]} is missing")
        done = subprocess.run([*words, *paths], cwd=ROOT, capture_output=True, text=True, check=False)
        self.assertEqual(done.returncode, 0, done.stdout + done.stderr)

    def test_the_layout_of_rattle_is_that_of_its_formatter(self):
        self.passes(["rattle", "fmt", "--check"], FILES["Rattle"])

    def test_flake8_has_nothing_to_say(self):
        """A program finds its own modules before it can import them."""
        self.passes(["flake8", "--isolated", f"--max-line-length={LONGEST}", "--extend-ignore=E402"], FILES["Python"])

    def test_shellcheck_has_nothing_to_say(self):
        """Some scripts hand a text in single quotes to another shell. dash knows `ulimit -n`."""
        self.passes(["shellcheck", "--exclude=SC2016,SC3045"], FILES["shell"])

    def test_node_reads_each_file(self):
        for path in FILES["JavaScript"]:
            self.passes(["node", "--check"], [path])


def wide(front, behind="", width=LONGEST + 1):
    """A line of this width that begins and ends so."""
    return front + "x" * (width - len(front) - len(behind)) + behind


class Lines(unittest.TestCase):
    def test_none_is_too_long(self):
        """Of Python, flake8 counts the characters of lines."""
        found = [f"{path.relative_to(ROOT)}:{number}" for language, paths in FILES.items() if language != "Python"
                 for path in paths for number in too_long(path.suffix, path.read_text())]
        self.assertEqual(found, [], f"more than {LONGEST} characters")

    def test_a_line_may_have_140_characters_however_many_bytes(self):
        self.assertEqual(too_long(".c", wide("# ", width=140) + "\n" + wide("# ", width=141) + "\n# " + "ä" * 138), [2])

    def test_comments_and_code_count(self):
        for ending, line in ((".rt", "    // "), (".rt", "    let a = "), (".antt", "-- "), (".sh", "echo "), (".js", "/* ")):
            self.assertEqual(too_long(ending, wide(line)), [1], line)

    def test_definitions_and_clauses_do_not(self):
        self.assertEqual(too_long(".antt", wide("pub def a = ")), [])
        for line in ("ghost use Rattle.", "    ensures { ", "    requires few { ", "    ghost view = { "):
            self.assertEqual(too_long(".rt", wide(line, " }")), [], line)

    def test_a_clause_goes_on_until_its_braces_are_closed(self):
        text = "    ensures { a\n" + wide("        × b", " }") + "\n{\n" + wide("    let c = ") + "\n}\n"
        self.assertEqual(too_long(".rt", text), [4])

    def test_a_literal_alone_and_a_row_of_numbers_stay_whole(self):
        for line in (wide('    "', '",'), wide('    b"', '"'), wide('    r#"', '"#,'), "    " + "0x0000000000000001 " * 8):
            self.assertEqual(too_long(".rt", line), [], line)
        self.assertEqual(too_long(".rt", wide('    let a = "', '";')), [1])


if __name__ == "__main__":
    unittest.main()
