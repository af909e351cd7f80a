#!/usr/bin/env -S python3 -B
"""Tries the wrong bodies of crates/NAME/refused/: refused.py [NAME..]

Each is a small edit of the code that the prover must refuse (tools/edits.py has the form). A copy of the crate with edits of different
functions is checked over the libraries below, and of it the edited functions alone with what they call (`rattle check --only`), as far as
no earlier copy has shown that. An edit of one body changes no other function's statement, so what is said of the edited function is what a
check of the whole crate would say, if the crate is proved without the edit.

An edit is refused if a function that it changes has an open goal of its own. That it calls one which is not proved does not count. Of a
constant or a table the goal may stand in a lemma on which the function rests that the edit names. An edit fails if all of them are proved,
if the copy does not compile, if a proof only misses a name that the edit took away, and if time is over. What is not refused beside others
is tried once more alone. An edit of several functions is tried alone from the start.

`refused.py --beside FOLDER` works beside `rt ci`, whose output is in FOLDER/log: a crate's edits are tried as soon as all below it are
proved. Once FOLDER/status is there, `rt ci` has ended. The last line counts the edits, and the status is 1 if one is not refused.
"""
import contextlib
import os
import pathlib
import re
import shutil
import signal
import subprocess
import sys
import threading
import time

import build
from crates import SOURCES, TESTS, Crates
from edits import BadEdit, Edit, alone_in_copy, copies_of
from makers import check_words
from workplace import link_or_copy, scratch_folder, width_of_machine

# How many edits a copy has at most, and how many seconds of processor time a check of it may take: many times what the slowest takes.
# Beside other proofs it may wait for a processor as long as they take.
MOST_IN_COPY = 12
SECONDS_OF_COPY = 1500
# Of how many crates it is kept what checks have proved of them. That of the largest takes half a gigabyte.
MOST_KEPT = 4
# How many checks run beside `rt ci`, which has the processors to itself until it leaves some idle.
WIDTH_BESIDE = 2
NICENESS = 10
# A crate that is proved in this run, or whose proof is kept of an earlier one.
PROVED = re.compile(r"^rt: (\w+) (?:proved$|is kept: )", re.M)
# A proof file that names what the edit took away.
LOST_NAME = re.compile(r"has no field|is not in scope|has no `|was not admitted|is no name")


class Verdict:
    """What came of an edit."""

    def __init__(self, edit, is_refused, why):
        self.edit, self.is_refused, self.why = edit, is_refused, why

    def line(self):
        return f"{self.edit.key}: {'refused' if self.is_refused else 'NOT REFUSED'}: {self.why}"


def own_errors(output, folder):
    """The errors in the proofs below a folder."""
    return re.findall(rf"^(?:\./)?{re.escape(folder)}(?:\w+/)*\w+\.antt:\d+:\d+: error: (.*)", output, re.M)


def lines_of(output, crate, function):
    """What the checker says of a function and of the closures in it, each without its name."""
    module, _, last = function.rpartition("::")
    head = re.escape(f"{crate}::{function}")
    closures = rf"{re.escape(crate)}::(?:\S+::)?fn::(?:\S+::)?{re.escape(last)}::\S+"
    return re.findall(rf"^fn (?:{head}|{closures}): (.*)", output, re.M)


def noted_goals(output, lines_by_file):
    """The goals that are noted as not proved within these lines of the copy's files."""
    found = re.findall(r"^note: (?:\./)?(src/\S+?):(\d+):\d+: it is not proved that (.*)", output, re.M)
    return [said for path, line, said in found if int(line) in lines_by_file.get(path, ())]


def open_goal(output, edit, function, copy):
    """An open goal of the function's own, or none."""
    lines = lines_of(output, edit.crate, function)
    for said in lines:
        goals = re.search(r"did not prove (.*?)(?:; it calls|$)", said)
        if goals:
            return f"{function} did not prove {goals[1]}"
    if not any(it.startswith("not proved") for it in lines):
        return None
    folder = "proofs/" if edit.is_named else f"proofs/{function.replace('::', '/')}/"
    errors = [it for it in own_errors(output, folder) if not LOST_NAME.search(it)]
    found = errors + noted_goals(output, copy.lines_of(function))
    return f"{function}: {found[0]}" if found else None


def why_not(output, edit, status):
    """Why an edit counts as not refused."""
    lines = [it for function in edit.functions for it in lines_of(output, edit.crate, function)]
    if not lines:
        error = re.search(r"^.*error.*$", output, re.M)
        return f"status {status}, and nothing was said of {', '.join(edit.functions)}: {error[0][:200] if error else output[-200:]!r}"
    return f"{', '.join(edit.functions)}: {'; '.join(lines)[:300]}"


class KeptProofs:
    """What checks of copies have proved of each crate. What an edited function calls stands alike in all copies, so each check but the
    first of a crate begins with what one before it has left, and proves only what its own edits change. The first one is waited for."""

    def __init__(self, scratch):
        self.scratch, self.kept, self.firsts, self.count = scratch, {}, {}, 0
        self.lending = threading.Lock()

    @contextlib.contextmanager
    def lent(self, name):
        """A folder with what is kept of the crate, for one check. What is in it afterwards is kept in its place."""
        with self.lending:
            first = self.firsts.setdefault(name, threading.Lock())
        with first:
            own, is_first = self.begun(name)
            if is_first:
                yield own
                self.keep(name, own)
        if not is_first:
            yield own
            self.keep(name, own)

    def begun(self, name):
        """A folder of its own for a check, and whether it is empty since nothing is kept."""
        with self.lending:
            self.count += 1
            own = self.scratch / f"{name}-proved-{self.count}"
            if name not in self.kept:
                own.mkdir()
                return own, True
            shutil.copytree(self.kept[name], own, copy_function=link_proof)
            return own, False

    def keep(self, name, own):
        """Keeps a folder, and no more of them than the room for them allows: of the crates that were tried last."""
        with self.lending:
            gone = [self.kept.pop(name)] if name in self.kept else []
            self.kept[name] = own
            while len(self.kept) > MOST_KEPT:
                gone.append(self.kept.pop(next(iter(self.kept))))
        for it in gone:
            shutil.rmtree(it, ignore_errors=True)


def link_proof(source, target):
    """Links a checked module, which the checker replaces and never changes, and copies any other file."""
    (link_or_copy if source.endswith(".oantt") else shutil.copy2)(source, target)


class Trial:
    """Tries copies of crates, each in a folder of its own, over the libraries that a maker has."""

    def __init__(self, crates, scratch, library_of):
        self.crates, self.scratch, self.library_of = crates, scratch, library_of
        self.verdicts, self.printing, self.count = [], threading.Lock(), 0
        self.proved = KeptProofs(scratch)
        ROOMS.add(scratch)

    def check(self, name, copy):
        """The status and the output of the check of a copy."""
        with self.printing:
            self.count += 1
            room = self.scratch / f"{name}-{self.count}"
        for part in SOURCES:
            if (self.crates.folder(name) / part).is_dir():
                shutil.copytree(self.crates.folder(name) / part, room / part)
        for path, text in copy.texts.items():
            (room / path).write_text(text)
        words = check_words(self.crates, name, self.library_of)
        words += [word for it in copy.functions() for word in ("--only", it)]
        # A crate of tests is read with its tests, since what it has beside them may stand under `cfg(test)`.
        words += ["--test"] if name.endswith(TESTS) else []
        try:
            with self.proved.lent(name) as lent:
                return ended([*words, "--incremental", str(lent)], room)
        finally:
            shutil.rmtree(room, ignore_errors=True)

    def verdict(self, edit, copy, status, output):
        if status in (1, 0):
            goals = [it for it in (open_goal(output, edit, function, copy) for function in edit.functions) if it]
            if goals:
                return Verdict(edit, True, goals[0])
        return Verdict(edit, False, why_not(output, edit, status))

    def try_copy(self, name, copy):
        """Tries the edits of a copy, and those that are not refused once more, alone."""
        status, output = self.check(name, copy)
        for edit in copy.edits:
            said = self.verdict(edit, copy, status, output)
            if not said.is_refused and len(copy.edits) > 1:
                self.try_copy(name, alone_in_copy(edit))
            else:
                self.note(said)

    def note(self, verdict):
        with self.printing:
            self.verdicts.append(verdict)
            print(verdict.line(), flush=True)

    def side_by_side(self, width, next_copy):
        """Tries what next_copy gives, so many at a time, until it gives none."""
        def work():
            while (chosen := next_copy()) is not None:
                self.try_copy(*chosen)
        threads = [threading.Thread(target=work) for _ in range(width)]
        for it in threads:
            it.start()
        for it in threads:
            it.join()

    def end(self, bad=()):
        """Prints what was not refused and the counts. Returns the status."""
        left = sorted([it.line() for it in self.verdicts if not it.is_refused] + list(bad))
        for it in left:
            print(it)
        print(f"{len(self.verdicts) + len(bad) - len(left)} refused, {len(left)} not")
        return 1 if left else 0


# The checks that run, each the leader of a group of processes, and the folders that they run in.
RUNNING, ROOMS = set(), set()


def ended(words, folder):
    """The status and the output of a check, which the system ends if its time is over."""
    shown = {"stdin": subprocess.DEVNULL, "stdout": subprocess.PIPE, "stderr": subprocess.STDOUT, "text": True, "errors": "replace"}
    limited = ["sh", "-c", f'ulimit -t {SECONDS_OF_COPY} && exec "$@"', "sh", *words]
    # A group of its own, to be ended as a whole, and no session: Linux shares processors among sessions whatever their niceness.
    with subprocess.Popen(limited, cwd=folder, process_group=0, **shown) as run:
        RUNNING.add(run.pid)
        try:
            output = run.communicate()[0]
        finally:
            RUNNING.discard(run.pid)
    return run.returncode, output


def stop(number, _frame):
    """Ends all that runs, and this process. Its threads would wait for the checks."""
    for it in list(RUNNING):
        with contextlib.suppress(ProcessLookupError):
            os.killpg(it, signal.SIGKILL)
    for it in ROOMS:
        shutil.rmtree(it, ignore_errors=True)
    os._exit(128 + number)


def edits_in(crates, names, folder):
    """The edits of these crates by their names, and what is said of those that cannot be read."""
    found, bad = {}, []
    for name in names:
        for file in sorted((crates.folder(name) / folder).glob("*.edit")):
            try:
                found.setdefault(name, []).append(Edit(file))
            except BadEdit as why:
                bad.append(f"BAD EDIT: {why}")
    return found, bad


class Beside:
    """The libraries that `rt ci` makes, as far as it is."""

    def __init__(self, crates, folder, scratch):
        self.crates, self.folder, self.kept = crates, folder, scratch / "libraries"
        self.lock, self.is_over = threading.Lock(), threading.Event()

    def library_of(self, name):
        """A library of statements, which was linked away."""
        return self.kept / f"{name}.rlib"

    def proved(self):
        """The crates whose libraries are at hand."""
        with self.lock:
            return {it for it in self.said_to_be_proved() if self.crates.is_program(it) or self.is_linked_away(it)}

    def said_to_be_proved(self):
        return set(PROVED.findall((self.folder / "log").read_text(errors="replace"))) if (self.folder / "log").is_file() else set()

    def is_linked_away(self, name):
        """Links a library away, if it is there: `rt ci` puts other files into its place when it ends."""
        kept, made = self.library_of(name), self.crates.folder(name) / f"out/rlib/{name}.rlib"
        if kept.exists():
            return True
        # Made aside, so that what is there is whole.
        aside = kept.with_suffix(".aside")
        shutil.rmtree(aside, ignore_errors=True)
        try:
            shutil.copytree(made, aside, copy_function=link_or_copy)
        except (OSError, shutil.Error):
            return False
        aside.rename(kept)
        return True

    def link_all_away(self):
        """Links each library away as soon as it is there, until `rt ci` ends, which is after seconds where all proofs are kept, or until
        nobody needs one any more."""
        while not self.has_ended() and not self.is_over.wait(0.2):
            self.proved()

    @contextlib.contextmanager
    def linking(self):
        """Meanwhile libraries are linked away, and none behind it: their folder goes then."""
        thread = threading.Thread(target=self.link_all_away)
        thread.start()
        try:
            yield
        finally:
            self.is_over.set()
            thread.join()

    def has_ended(self):
        return (self.folder / "status").exists()


def try_beside(crates, folder):
    """Tries all edits beside `rt ci`, and then those that are left."""
    edits, bad = edits_in(crates, crates, "refused")
    with scratch_folder() as scratch:
        beside = Beside(crates, folder, scratch)
        trial = Trial(crates, scratch, beside.library_of)
        left = [(name, copy) for name, its in edits.items() for copy in copies_of(its, MOST_IN_COPY)]
        choosing = threading.Lock()

        def next_copy():
            while True:
                with choosing:
                    has_ended, proved = beside.has_ended(), beside.proved()
                    for it in left:
                        if proved.issuperset(crates.below(it[0])):
                            left.remove(it)
                            return it
                    if not left or has_ended:
                        return None
                time.sleep(1)
        with beside.linking():
            trial.side_by_side(WIDTH_BESIDE, next_copy)
        bad += [f"{edit.key}: not tried, since a crate below is not proved" for _, copy in left for edit in copy.edits]
        return trial.end(bad)


def try_all(crates, edits, bad, library_of, width):
    """Tries these edits, the crates with the most first."""
    left = [(name, copy) for name, its in edits.items() for copy in copies_of(its, MOST_IN_COPY)]
    left.sort(key=lambda it: len(it[1].edits))
    with scratch_folder() as scratch:
        trial = Trial(crates, scratch, library_of)
        choosing = threading.Lock()

        def next_copy():
            with choosing:
                return left.pop() if left else None
        trial.side_by_side(width, next_copy)
        return trial.end(bad)


def main(words):
    for it in (signal.SIGTERM, signal.SIGHUP, signal.SIGINT):
        signal.signal(it, stop)
    crates = Crates()
    if words[:1] == ["--beside"] and len(words) == 2:
        os.nice(NICENESS)
        return try_beside(crates, pathlib.Path(words[1]))
    folder = "refused"
    if words[:1] == ["--folder"] and len(words) > 1:
        folder, words = words[1], words[2:]
    for name in words:
        if name not in crates:
            sys.exit(f"there is no crate {name}")
    edits, bad = edits_in(crates, words or crates, folder)
    return try_all(crates, edits, bad, build.libraries_below(crates, edits), width_of_machine())


if __name__ == "__main__":
    sys.exit(main(sys.argv[1:]))
