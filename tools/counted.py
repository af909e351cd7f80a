"""What came of tests, by what the commands that run them print."""
import re
from dataclasses import dataclass, field

# unittest's own words, with `-v`.
RAN = re.compile(r"^Ran (\d+) tests? in ", re.M)
SECTION = re.compile(r"^={70}\n(?=(?:FAIL|ERROR): )", re.M)
RULE = "\n" + 70 * "-" + "\n"
SKIPPED = re.compile(r"\.\.\. skipped ['\"](.*)['\"]$", re.M)
# Of .ci/replay and of crates/relay960/replays/all.py.
REPLAYED = re.compile(r"^\S+: (\d+) (?:commands|transcripts|runs) replayed$", re.M)
# Of .ci/replay-sessions, which tries tests again that failed beside others.
TRANSCRIPTS = re.compile(r"^\S+: (\d+) transcripts of sessions replayed$", re.M)
SESSIONS = re.compile(r"^(\d+) more checks of sessions", re.M)
SESSIONS_FAILED = re.compile(r"^(\d+) of (\d+) checks of sessions failed$", re.M)
SESSION_SKIPPED = re.compile(r"^skipped: \S+: (.*)$", re.M)
SESSION_FAILED = re.compile(r"^failed: (?=\S+$)", re.M)
PASSED = "test result: ok"


@dataclass
class Counted:
    """How many tests have passed, which have failed, each with what it wrote, and why others were skipped."""

    passed: int = 0
    failed: list = field(default_factory=list)
    skipped: list = field(default_factory=list)

    def add(self, other):
        self.passed += other.passed
        self.failed += other.failed
        self.skipped += other.skipped

    def __str__(self):
        skipped = f", {len(self.skipped)} skipped" if self.skipped else ""
        return f"{self.passed} passed, {len(self.failed)} failed{skipped}"


def failed(name, said):
    return Counted(failed=[(name, said)])


def of_test(name, status, said):
    """A test of a crate. One that ends the program before it returns has not passed, whatever the status."""
    return Counted(1) if status == 0 and said.splitlines()[-1:] == [PASSED] else failed(name, said)


def of_unittest(name, status, said):
    """Of a test that has failed several times, with other values, the last one is told."""
    ran, skipped = RAN.search(said), SKIPPED.findall(said)
    wrong = dict(section_of_unittest(name, it) for it in SECTION.split(said)[1:])
    if not wrong and (status != 0 or not ran or ran[1] == "0"):
        wrong = {f"{name}: no test has run to its end": said}
    passed = int(ran[1]) - len(wrong) - len(skipped) if ran else 0
    return Counted(max(passed, 0), list(wrong.items()), skipped)


def section_of_unittest(name, section):
    """The name of a test that has failed, without the values that it had, and what unittest says of it."""
    head, *rest = section.split(RULE)
    test = re.match(r"\w+: (\S+(?: \([\w.]+\))?)", head)[1]
    return f"{name}: {test}", rest[0] if rest else section


def of_replays(name, status, said):
    """Replays end at the first that fails."""
    passed = sum(map(int, REPLAYED.findall(said)))
    return Counted(passed, [] if status == 0 and passed else [(name, said)])


def of_sessions(name, status, said):
    skipped, whole = SESSION_SKIPPED.findall(said), SESSIONS.search(said)
    if status == 0 and whole:
        return Counted(sum(map(int, TRANSCRIPTS.findall(said))) + int(whole[1]), skipped=skipped)
    last_try = said.rpartition(": once more")[2]
    told = [it.partition("\n") for it in SESSION_FAILED.split(last_try)[1:]]
    wrong = [(f"{name}: {test}", why) for test, _, why in told]
    count = SESSIONS_FAILED.search(said)
    passed = int(count[2]) - int(count[1]) - len(skipped) if count else 0
    return Counted(passed, wrong or [(name, said)], skipped)
