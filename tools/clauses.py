#!/usr/bin/env -S python3 -B
"""The public clauses of the crates: clauses.py [REV] lists them, and clauses.py --compare REV says what has changed since a revision.

A public clause is a `requires` or an `ensures` of a `pub fn` or of a method of a trait. The `ghost` members of traits and of their
implementations are listed too, since such clauses cite them. REV is any name of a commit; without it the files are read as they are.
Tests are left out, and what went from one crate of tests to another counts as unmoved. Clauses cite definitions of specs/, and these
are not compared.

The status of `--compare` is 1 if a function or a clause came, went or changed, and 0 if at most something moved.
"""
import collections
import io
import re
import subprocess
import sys
import tarfile

from crates import ROOT, TESTS

QUOTED = re.compile(r"""//[^\n]*|/\*.*?\*/|b?r(#*)".*?"\1|b?"(?:\\.|[^"\\])*"|b?'(?:\\[^']*|[^\\'\n])'""", re.S)
HEAD = re.compile(r"(?P<pub>pub\s+|pub\([^)]*\)\s*)?(?:(?:const|unsafe|async)\s+)*"
                  r"\b(?P<what>fn|impl|trait|mod|ghost|struct|enum|macro_rules)\b")
CLAUSE = re.compile(r"\b(requires|ensures|ghost)\b|[{;]")
MEMBER = re.compile(r"\s*(\w+)\s*([=:])")
# What a type says of its own private fields.
PRIVATE_MEMBERS = {"use", "view", "invariant"}

Function = collections.namedtuple("Function", "crate owner name signature clauses")


class Source:
    """The text of a file without its comments, and the same with nothing in its quotes, in which brackets are counted."""

    def __init__(self, text):
        self.plain = QUOTED.sub(lambda it: blank(it[0]) if it[0][:2] in ("//", "/*") else it[0], text)
        self.bare = QUOTED.sub(lambda it: blank(it[0]), text)

    def words(self, start, end):
        return " ".join(self.plain[start:end].split())

    def close(self, start):
        """The place after the bracket that closes the one at the place."""
        opens = self.bare[start]
        closes, depth = {"(": ")", "[": "]", "{": "}"}[opens], 0
        for found in re.compile(f"[{re.escape(opens + closes)}]").finditer(self.bare, start):
            depth += 1 if found[0] == opens else -1
            if depth == 0:
                return found.end()
        raise ValueError(f"a bracket is open: {self.words(start, start + 80)}")

    def past(self, start, marks):
        """The place of the first of the marks that is in no bracket."""
        at = start
        while self.bare[at] not in marks:
            at = self.close(at) if self.bare[at] in "([{" else at + 1
        return at


def blank(text):
    return re.sub(r"[^\n]", " ", text)


def tidy(text):
    """A text whatever its lines were."""
    return re.sub(r",?\s+([)\]}])", r"\1", re.sub(r"([(\[{])\s+", r"\1", text))


class Reader:
    """Gathers the public functions of one file."""

    def __init__(self, crate, text):
        self.crate, self.source, self.found = crate, Source(text), []

    def read(self):
        self.items(0, len(self.source.bare), "", False)
        return self.found

    def items(self, start, end, owner, is_trait):
        """The items between two places, which are in the owner: a type, a trait, or none."""
        at, is_tested = start, False
        while at < end:
            if self.source.bare[at].isspace() or self.source.bare[at] == "}":
                at += 1
            elif attribute := re.compile(r"#!?\[").match(self.source.bare, at):
                begun, at = at, self.source.close(attribute.end() - 1)
                is_tested |= bool(re.search(r"\btest\b", self.source.bare[begun:at]))
            else:
                at = self.item(at, owner, is_trait, is_tested)
                is_tested = False

    def item(self, at, owner, is_trait, is_tested):
        """One item; returns the place after it."""
        head = HEAD.match(self.source.bare, at)
        what = head and head["what"]
        if what == "fn":
            return self.function(at, owner, not is_tested and (is_trait or (head["pub"] or "").strip() == "pub"))
        if what == "ghost":
            end = self.source.past(at, ";") + 1
            self.member(head.end(), end - 1, owner, is_trait)
            return end
        if what in ("impl", "trait", "mod"):
            opens = self.source.past(at, "{;") if what != "mod" else re.compile("[{;]").search(self.source.bare, at).start()
            end = self.source.close(opens) if self.source.bare[opens] == "{" else opens + 1
            if self.source.bare[opens] == "{" and not is_tested:
                self.inside(what, head, at, opens, end, owner)
            return end
        if what in ("struct", "enum", "macro_rules"):
            opens = re.compile("[{;]").search(self.source.bare, at).start()
            return self.source.close(opens) if self.source.bare[opens] == "{" else opens + 1
        return self.source.past(at, ";") + 1

    def inside(self, what, head, at, opens, end, owner):
        name = tidy(self.source.words(at, opens))
        is_trait = what == "trait" or (what == "impl" and " for " in name)
        self.items(opens + 1, end - 1, owner if what == "mod" else name.removeprefix("pub "), is_trait)

    def member(self, start, end, owner, is_trait):
        """A member of a trait that clauses cite."""
        named = MEMBER.match(self.source.bare, start)
        if is_trait and named and named[1] not in PRIVATE_MEMBERS:
            self.found.append(Function(self.crate, owner, named[1], "ghost " + tidy(self.source.words(start, end)), ()))

    def function(self, at, owner, is_public):
        """A function; returns the place after it."""
        source, clauses = self.source, []
        begun, signed = at, None
        at = source.bare.index("(", at)
        while True:
            found = self.clause_or_end(at)
            signed = found.start() if signed is None else signed
            if not found[1]:
                break
            opens = source.bare.index("{", found.end())
            at = source.close(opens)
            head, term = source.words(found.start(), opens), source.words(opens + 1, at - 1)
            clauses.append((head, tidy(term)))
        end = source.close(found.start()) if found[0] == "{" else found.end()
        if is_public:
            name = re.search(r"\bfn\s+(\w+)", source.bare[begun:signed])[1]
            signature = tidy(source.words(begun, signed)).rstrip(",")
            self.found.append(Function(self.crate, owner, name, signature, tuple(clauses)))
        return end

    def clause_or_end(self, at):
        """The next clause, body or end, past the brackets of the signature."""
        while True:
            found = CLAUSE.search(self.source.bare, at)
            opens = re.compile(r"[(\[]").search(self.source.bare, at)
            if not opens or found.start() < opens.start():
                return found
            at = self.source.close(opens.start())


def files_here():
    """The crate, the path and the text of each file of code."""
    for path in sorted(ROOT.glob("crates/*/src/**/*.rt")):
        yield path.relative_to(ROOT).parts, path.read_text()


def files_of(revision):
    run = subprocess.run(["git", "archive", revision, "crates"], cwd=ROOT, stdout=subprocess.PIPE, check=False)
    if run.returncode:
        sys.exit(f"clauses.py: there is no commit {revision}")
    with tarfile.open(fileobj=io.BytesIO(run.stdout)) as archive:
        for it in sorted(archive.getmembers(), key=lambda it: it.name):
            parts = tuple(it.name.split("/"))
            if it.isfile() and it.name.endswith(".rt") and parts[2] == "src":
                yield parts, archive.extractfile(it).read().decode()


def is_test(parts):
    return parts[3] in ("tests", "tests.rt")


def functions(files):
    return [it for parts, text in files if not is_test(parts) for it in Reader(parts[1], text).read()]


def text_of(function):
    """What is compared of a function, in lines."""
    within = f"{function.owner}: " if function.owner else ""
    return "\n".join([f"{within}{function.signature}", *(f"    {head} {{ {term} }}" for head, term in function.clauses)])


def group(crate):
    return "the crates of tests" if crate.endswith(TESTS) else crate


def pairs(olds, news, key):
    """Takes from both lists what has the same key, and gives it in pairs."""
    known, found = collections.defaultdict(list), []
    for it in olds:
        known[key(it)].append(it)
    for it in list(news):
        if known[key(it)]:
            found.append((known[key(it)].pop(0), it))
            olds.remove(found[-1][0])
            news.remove(it)
    return found


def compare(olds, news):
    """The lines that say what has changed, how much has, and whether more than a place has."""
    olds, news = list(olds), list(news)
    pairs(olds, news, lambda it: (group(it.crate), text_of(it)))
    moved = pairs(olds, news, text_of)
    changed = pairs(olds, news, lambda it: (group(it.crate), it.owner, it.name)) + pairs(olds, news, lambda it: (it.owner, it.name))
    lines = [f"moved from {old.crate} to {new.crate}: {text_of(new).splitlines()[0]}" for old, new in moved]
    lines += [line for old, new in changed for line in difference(old, new)]
    lines += [f"went from {it.crate}: {text_of(it)}" for it in olds]
    lines += [f"came to {it.crate}: {text_of(it)}" for it in news]
    counts = f"{len(moved)} moved, {len(changed)} changed, {len(olds)} went, {len(news)} came"
    return lines, counts, bool(changed or olds or news)


def difference(old, new):
    before, after = text_of(old).splitlines(), text_of(new).splitlines()
    place = new.crate if old.crate == new.crate else f"{new.crate}, once {old.crate}"
    yield f"changed in {place}: {after[0]}"
    yield from (f"  - {it.strip()}" for it in before if it not in after)
    yield from (f"  + {it.strip()}" for it in after if it not in before)


def listing(found):
    last = None
    for it in found:
        if it.crate != last:
            yield it.crate
        last = it.crate
        yield "  " + text_of(it).replace("\n", "\n  ")


def counted(found):
    return f"{len(found)} functions and members, {sum(len(it.clauses) for it in found)} clauses"


def main(words):
    if words[:1] == ["--compare"] and len(words) == 2:
        olds, news = functions(files_of(words[1])), functions(files_here())
        lines, counts, differs = compare(olds, news)
        print("\n".join([*lines, f"{words[1]}: {counted(olds)}; here: {counted(news)}; {counts}"]))
        return 1 if differs else 0
    if len(words) > 1 or words[:1] == ["--compare"]:
        sys.exit("usage: clauses.py [REV], or clauses.py --compare REV")
    found = functions(files_of(words[0]) if words else files_here())
    print("\n".join([*listing(found), counted(found)]))
    return 0


if __name__ == "__main__":
    sys.exit(main(sys.argv[1:]))
