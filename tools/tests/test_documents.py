"""What the documents name is there: files, headings, crates, functions, definitions and tests. At the end it tells each page's words."""
import pathlib
import re
import shutil
import subprocess
import sys
import unittest

sys.path.insert(0, str(pathlib.Path(__file__).resolve().parents[1]))

from crates import ROOT, TESTS, Crates  # noqa: E402

SKIPPED = {"out", "out.new", ".git"}
# Files of a machine, of a worked change, or of a reader: they are named and are not here.
ELSEWHERE = {"NAME.edit", "Early.antt", "round3.txt", "nginx.conf", "code.png", "nftables.conf"}
ENDINGS = "rt|antt|py|sh|js|mjs|html|css|conf|service|md|edit|txt|c|rs|svg|png"
FOLDERS = r"(?:crates|web|tools|docs|apps|bench|examples|\.ci)"
# Documents in which nearly all sentences are short.
PLAIN = ("README.md", "CONTRIBUTING.md", "CHANGELOG.md", "docs/TERMS.md", "docs/PROTOCOL.md", "docs/SCRIPTS.md", "docs/DEPLOYMENT.md",
         "docs/DECISIONS.md", "docs/HEADLINE.md", "docs/LIVE.md", "docs/PROVED.md", "docs/TRUST.md")


def files():
    """All files of the repository, without what is built."""
    return [it for it in ROOT.rglob("*") if it.is_file() and not SKIPPED & set(it.relative_to(ROOT).parts)]


FILES = files()
PATHS = {"/" + str(it.relative_to(ROOT)) for it in FILES}
DOCUMENTS = {str(it.relative_to(ROOT)): it.read_text() for it in FILES if it.suffix == ".md"}


def without_blocks(text):
    """Without blocks of code; the lines keep their numbers."""
    return re.sub(r"^```.*?^```", lambda found: "\n" * found[0].count("\n"), text, flags=re.S | re.M)


def anchors(text):
    """The anchors of a document's headings, as its readers make them."""
    headings = re.findall(r"^#+ (.*)$", without_blocks(text), re.M)
    return {re.sub(r"[^\w\- ]", "", it.strip().lower()).replace(" ", "-") for it in headings}


def section(text, heading):
    """The text of a section, up to the next heading of its depth."""
    return re.search(rf"^## {re.escape(heading)}\n(.*?)(?=^## |\Z)", text, re.S | re.M)[1]


def rows(text):
    """The cells of the rows of a table, without its head."""
    lines = [line for line in text.splitlines() if line.startswith("|")]
    return [[cell.strip() for cell in line.strip("|").split(" | ")] for line in lines[2:]]


def sentences(text):
    """The sentences of a document, of its lists and of the cells of its tables. A sentence in bold ends where its own full stop is."""
    text = re.sub(r"^    .*$", "", without_blocks(text), flags=re.M)
    for paragraph in re.split(r"\n\s*\n", text):
        for piece in re.split(r"\n(?=\s*(?:[-*]|\d+\.) )|\n(?=\|)", paragraph):
            for cell in piece.strip("|").split(" | ") if piece.startswith("|") else [piece]:
                yield from re.split(r"(?<=[.?!:;])\**\s+", re.sub(r"\]\([^)]*\)", "]", cell))


def code(text):
    return re.findall(r"`([^`\n]+)`", text)


def words():
    """How many words each page has, the longest first, and all of them: so that whoever reads what the gate prints sees a page grow."""
    counts = {name: len(text.split()) for name, text in DOCUMENTS.items()}
    rows = [f"{count:>8,}  {name}" for name, count in sorted(counts.items(), key=lambda it: -it[1])]
    return "\n".join(["words of each page:", *rows, f"{sum(counts.values()):>8,}  in all"])


def tearDownModule():
    print(words(), flush=True)


class Names(unittest.TestCase):
    def test_each_link_leads_to_a_file_and_to_a_heading_of_it(self):
        for name, text in DOCUMENTS.items():
            for target in re.findall(r"\]\(([^)\s]+)\)", without_blocks(text)):
                if re.match(r"[a-z]+:", target):
                    continue
                path, _, heading = target.partition("#")
                goal = ((ROOT / name).parent / path).resolve() if path else ROOT / name
                self.assertTrue(goal.exists(), f"{name}: {target}")
                if heading:
                    self.assertIn(heading, anchors(goal.read_text()), f"{name}: {target}")

    def test_each_file_that_is_named_is_there(self):
        for name, text in DOCUMENTS.items():
            for word in code(without_blocks(text)):
                for file in re.findall(rf"[\w.\-/]+\.(?:{ENDINGS})\b(?!/)", word):
                    if name == "CHANGELOG.md" or file.startswith("/") or file.split("/")[-1] in ELSEWHERE:
                        continue
                    there = any(it.endswith("/" + file.removeprefix("./")) for it in PATHS)
                    self.assertTrue(there, f"{name}: {file}")
                if re.fullmatch(rf"{FOLDERS}/[\w./\-]+", word) and "NAME" not in word and name != "CHANGELOG.md":
                    self.assertTrue((ROOT / word).exists(), f"{name}: {word}")

    def test_each_command_of_the_top_that_is_named_is_there(self):
        for name, text in DOCUMENTS.items():
            for file in re.findall(r"(?<![\w./])\./([\w\-]+\.sh)\b", text):
                there = (ROOT / file).exists() or ((ROOT / name).parent / file).exists()
                self.assertTrue(there, f"{name}: ./{file}")


class Crate:
    """The sources of one crate."""

    def __init__(self, name):
        self.folder = ROOT / "crates" / name

    def sources(self, file):
        return [it.read_text() for it in (self.folder / "src").rglob(file)]

    def words(self):
        """All words of its code and its definitions, with the names of their files."""
        files = [*(self.folder / "src").rglob("*.rt"), *(self.folder / "specs").rglob("*.antt")]
        return {word for it in files for word in re.findall(r"\w+", f"{it.relative_to(self.folder)} {it.read_text()}")}

    def defines(self, name, file="*"):
        """Whether a file of specs/ defines the name."""
        specs = (self.folder / "specs").rglob(f"{file}.antt")
        return any(re.search(rf"^\s*(?:(?:pub|record|data) )*{re.escape(name)}\b.*(?:=|:|where)", it.read_text(), re.M) for it in specs)


CRATES = {name: Crate(name) for name in Crates()}


def has_function(text, word):
    """Whether a file has the function, or the method of the type: `Type::name` or `name`."""
    owner, _, name = word.rpartition("::")
    is_there = re.search(rf"\bfn {name}\b", text)
    return bool(is_there and (not owner or re.search(rf"^impl\b.*\b{owner}\b", text, re.M)))


def groups(cell):
    """What a cell names, with what is in brackets after it: pairs of a list of words and the words of the brackets."""
    found = []
    for names, brackets in re.findall(r"((?:`[^`]+`[^`(]*)+)(?:\(([^)]*)\))?", cell):
        found.append((code(names), code(brackets)))
    return found


class Refusals(unittest.TestCase):
    """The table "Where a command is refused" of docs/ARCHITECTURE.md."""

    TABLE = [row for row in rows(section(DOCUMENTS["docs/ARCHITECTURE.md"], "Where a command is refused")) if len(row) == 5]

    def test_each_function_is_in_its_file(self):
        count = 0
        for row in self.TABLE:
            for names, place in groups(row[2]):
                crate = next((it for it in place if it in CRATES), None)
                file = next((it for it in place if it.endswith(".rt")), "*.rt")
                texts = [text for it in ([CRATES[crate]] if crate else CRATES.values()) for text in it.sources(file)]
                for name in names:
                    self.assertTrue(any(has_function(text, name) for text in texts), f"{row[0]}: {name} in {crate or 'any crate'}, {file}")
                    count += 1
        self.assertGreater(count, 30)

    def test_each_definition_is_in_its_file(self):
        count = 0
        for row in self.TABLE:
            for names, place in groups(row[3]):
                crate = next((it for it in place if it in CRATES), None)
                file = next((it for it in place if it not in CRATES), "*")
                for name in names:
                    there = any(it.defines(name, file) for it in ([CRATES[crate]] if crate else CRATES.values()))
                    self.assertTrue(there, f"{row[0]}: {name} in {crate or 'any crate'}, {file}")
                    count += 1
        self.assertGreater(count, 30)

    def test_each_test_is_there(self):
        tests = [it.read_text() for name, crate in CRATES.items() if name.endswith(TESTS) for it in (crate.folder / "src").rglob("*.rt")]
        tests += [it.read_text() for it in (ROOT / "tools/relay_client/tests").glob("*.py")]
        sessions = DOCUMENTS["docs/PROTOCOL.md"] + DOCUMENTS["crates/relay960/replays/sessions.md"]
        for row in self.TABLE:
            for name in code(row[4]):
                if "." not in name:
                    self.assertTrue(any(re.search(rf"\b(?:fn|def) {name}\b", text) for text in tests), f"{row[0]}: {name}")
            for session in re.findall(r'"([^"]+)"', row[4]):
                self.assertRegex(sessions, rf"(?m)^{session}[,:]", row[0])

    def test_the_orders_are_those_of_the_protocol_and_of_scripts(self):
        """Of a session the rows of one command stand one below the other, so only scripts and single rows are compared."""
        scripts = {row[0]: row[1] for row in rows(section(DOCUMENTS["docs/SCRIPTS.md"],
                                                          "Refusals of a script").partition("| Command")[2].join(["| Command", ""]))}
        started = False
        for row in rows(section(DOCUMENTS["docs/ARCHITECTURE.md"], "Where a command is refused")):
            started = started or row[0] == "**in a script**"
            if started and len(row) == 5 and row[1]:
                self.assertEqual(row[1], scripts[row[0]], row[0])


class Map(unittest.TestCase):
    """The crates in docs/ARCHITECTURE.md."""

    TEXT = DOCUMENTS["docs/ARCHITECTURE.md"]

    def test_the_diagram_has_each_crate(self):
        diagram = re.search(r"^```text\n(.*?)^```", self.TEXT, re.S | re.M)[1]
        for name in CRATES:
            self.assertRegex(diagram, rf"\b{name}\b")
        for name in re.findall(r"\b(?:c960|live|relay|relay960|watch|bench)_\w+\b", diagram):
            self.assertIn(name, CRATES)

    def test_the_table_has_each_crate_and_no_other(self):
        table = re.search(r"^\| Crate \| What it does.*?(?=^$)", self.TEXT, re.S | re.M)[0]
        self.assertEqual(sorted(code(row[0])[0] for row in rows(table)), sorted(CRATES))

    def test_the_way_of_a_command_names_functions_of_its_crates(self):
        count = 0
        for row in rows(section(self.TEXT, "The way of a command")):
            texts = [text for name in code(row[1]) for text in CRATES[name].sources("*.rt")]
            for word in code(row[2]):
                if re.fullmatch(r"(?:\w+::)?[a-z_]+", word):
                    self.assertTrue(any(has_function(text, word) for text in texts), f"{row[0]}: {word}")
                    count += 1
        self.assertGreater(count, 40)

    def test_each_crate_of_the_table_of_tests_is_there(self):
        for row in rows(section(self.TEXT, "Where the tests of a crate stand")):
            for name in code(row[0]) + [it for it in code(row[1]) if it.endswith(TESTS)]:
                self.assertIn(name, CRATES)


class Proved(unittest.TestCase):
    """What docs/PROVED.md says of each crate."""

    PARTS = dict(re.findall(r"^## `(\w+)`\n(.*?)(?=^## |\Z)", DOCUMENTS["docs/PROVED.md"], re.S | re.M))

    def test_each_crate_that_is_no_test_and_no_benchmark_has_its_part(self):
        self.assertEqual(set(self.PARTS), {it for it in CRATES if not it.endswith(TESTS) and not it.startswith("bench")})

    def test_each_name_is_in_the_crate_or_in_one_that_its_part_names(self):
        count = 0
        for crate, part in self.PARTS.items():
            there = set().union(*(CRATES[it].words() for it in {crate, *code(part)} if it in CRATES))
            for name in code(part):
                if re.fullmatch(r"[A-Za-z_][\w:]*(\{[\w, ]+\})?", name) and name not in CRATES:
                    for word in re.findall(r"\w+", name):
                        self.assertTrue(word in there, f"{crate}: {name}")
                        count += 1
        self.assertGreater(count, 500)


class Terms(unittest.TestCase):
    def test_each_term_stands_once(self):
        terms = [term for terms, _ in self.items() for term in terms]
        self.assertEqual(sorted(terms), sorted(set(terms)))

    def test_what_the_documents_speak_of_is_explained(self):
        wanted = ("place, ply, capacity, closing, seat, view, note, bell, tape, watch connection, service, driver, watch port, main port, "
                  "spectator, follower, owner, operator, limit, queue, cut, channel, feed, beat, key, grace, kit, crate, clause, headline, "
                  "gate")
        self.assertLessEqual(set(wanted.split(", ")), {term for terms, _ in self.items() for term in terms})

    def test_each_place_is_there(self):
        """A place is a crate and what is in it: a file of its src/, or a name that its specs/ or src/ define or have as a file."""
        count = 0
        for terms, places in self.items():
            for part in places.split(";"):
                head, _, names = part.partition(":")
                crate = next((it for it in code(head) if it in CRATES), None)
                for name in code(names) if crate else []:
                    self.assertTrue(self.is_in(CRATES[crate], name), f"{terms}: {name} in {crate}")
                    count += 1
        self.assertGreater(count, 25)

    def items(self):
        """Of each item the terms, which are in bold, and the places, which are in brackets at its end."""
        items = re.findall(r"^- (.*(?:\n  .*)*)", DOCUMENTS["docs/TERMS.md"], re.M)
        for text in (" ".join(it.split()) for it in items):
            bold = ", ".join(re.findall(r"\*\*([^*]+)\*\*", text))
            yield bold.split(", "), (re.search(r" \((`.*)\)$", text) or ["", ""])[1]

    def is_in(self, crate, name):
        if name.endswith(".rt"):
            return bool(list((crate.folder / "src").rglob(name)))
        last = name.rpartition("::")[2]
        return (bool(list((crate.folder / "specs").glob(f"{name}.antt"))) or crate.defines(last)
                or any(re.search(rf"\b(?:fn|struct|enum|trait|type) {last}\b", text) for text in crate.sources("*.rt")))


class Lengths(unittest.TestCase):
    def test_the_words_of_each_page_are_told(self):
        told = dict(reversed(line.split(maxsplit=1)) for line in words().splitlines()[1:])
        self.assertEqual(told.keys() - {"in all"}, DOCUMENTS.keys())
        number = {name: int(count.replace(",", "")) for name, count in told.items()}
        self.assertEqual(number["README.md"], len(re.findall(r"\S+", (ROOT / "README.md").read_text())))
        self.assertEqual(number.pop("in all"), sum(number.values()))

    def test_the_readme_is_short_and_begins_with_a_picture(self):
        text = DOCUMENTS["README.md"]
        self.assertLessEqual(len(text.split()), 1100)
        self.assertRegex(text[:1200], r"!\[.*\]\(docs/pictures/\w+\.png\)")

    def test_the_sample_clients_have_forty_lines(self):
        for path in sorted((ROOT / "examples/clients").iterdir()):
            if path.suffix in (".py", ".js"):
                self.assertLessEqual(len(path.read_text().splitlines()), 40, path.name)

    def test_most_sentences_have_at_most_25_words(self):
        for name in PLAIN:
            lengths = [len(it.split()) for it in sentences(DOCUMENTS[name])]
            long = sum(it > 25 for it in lengths)
            self.assertLessEqual(long, 0.03 * len(lengths), f"{name}: {long} of {len(lengths)} sentences have more than 25 words")


class ManualPage(unittest.TestCase):
    PAGE, ENTER = ROOT / "docs/relay960.1", ROOT / "docs/relay960-enter.1"

    @unittest.skipUnless(shutil.which("mandoc"), "mandoc is missing")
    def test_mandoc_finds_nothing_to_say(self):
        found = subprocess.run(["mandoc", "-T", "lint", "-W", "style", self.PAGE, self.ENTER], capture_output=True, text=True)
        self.assertEqual((found.stdout + found.stderr, found.returncode), ("", 0))

    def test_that_of_the_electronic_boards_has_each_option(self):
        options = re.findall(r'add_argument\("--([a-z]+)"', (ROOT / "apps/pgn_in/enter.py").read_text())
        self.assertGreater(len(options), 5)
        for option in options:
            self.assertRegex(self.ENTER.read_text(), rf"It Fl -{option}\b")

    def test_it_has_each_option_of_the_program(self):
        sources = "".join(it for name in ("relay960_words", "relay960") for it in CRATES[name].sources("*.rt"))
        options = set(re.findall(r'_(?:option|flag)\(\s*alloc,\s*"([a-z-]+)"', sources))
        page = self.PAGE.read_text()
        self.assertGreater(len(options), 10)
        for option in options:
            self.assertRegex(page, rf"Fl -{option}\b")


class Versions(unittest.TestCase):
    def test_each_version_has_a_date_and_the_newest_is_the_programs(self):
        heads = re.findall(r"^## (.*)$", DOCUMENTS["CHANGELOG.md"], re.M)
        for head in heads:
            self.assertRegex(head, r"^\d+\.\d+\.\d+, \d{4}-\d\d-\d\d$")
        source = "".join(CRATES["relay960_words"].sources("version.rt"))
        self.assertIn(f'"{heads[0].split(",")[0]}"', source)


if __name__ == "__main__":
    unittest.main()
