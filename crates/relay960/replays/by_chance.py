"""Scripts by chance, and of crowds that come and go, beside the plain relay.

The numbers and what is drawn by them are those of `relay_tests`, which gives the same steps to both of its relays: the one that the
program runs, and the one that no program has.
"""

import itertools
import json
import sys

import plain
from relay_client.texts import ends, follows, leaves, opens, submits, takes
from runs import Run, lines

MOVES = ["f2f3", "e7e5", "g2g4", "d8h4", "g1f3", "g8f6", "f3g1", "f6g8"]
ENDINGS = [("resign", "white"), ("resign", "black"), ("agreed",), ("abandoned",), ("threefold", "white"), ("threefold", "black"),
           ("fifty", "white"), ("fifty", "black"), ("time", "white"), ("time", "black"), ("decided", None, "1-0"),
           ("decided", None, "0-1"), ("decided", None, "1/2-1/2")]
STARTS = [518, 518, 0, 960]
LINE = ["e2e4", "e7e5", "g1f3", "b8c6", "f1b5", "a7a6", "b5a4", "g8f6"]

# Every kind of answer that there is to the steps by chance, except for lack of memory; and those of a single board.
KINDS = {"opened", "played", "played last", "ended", "following", "move", "nothing", "over", "cut", "left cut", "left", "NoSuchBoard",
         "BoardExists", "BadStart", "TooManyBoards", "GameOver", "Illegal", "LogFull", "ClaimRefused", "NoSuchFollower",
         "FollowerExists", "TooManyFollowers", "TooFarBack", "NotYet"}
KINDS_OF_A_BOARD = KINDS - {"BoardExists", "BadStart", "TooManyBoards", "NoSuchBoard"}
OUTCOMES_OF_A_BOARD = {"white resigns", "black resigns", "agreed", "abandoned", "white loses on time", "black loses on time",
                       "white wins by decision", "black wins by decision", "drawn by decision"}


class Dice:
    """Random numbers, the same in each run."""

    def __init__(self, seed):
        self.seed = seed

    def roll(self):
        self.seed = (self.seed * 1664525 + 1013904223) % 2**32
        return self.seed >> 16


class Scene:
    """The plain relay, and what it was asked and answered."""

    def __init__(self, limits):
        self.limits, self.relay, self.rows = limits, plain.Relay(limits), []

    def ask(self, line):
        """Asks a command. Returns whether it was accepted."""
        self.rows.append((line, self.relay.answer(json.loads(line))))
        return '"refused"' not in self.rows[-1][1]

    def accept(self, line):
        if not self.ask(line):
            sys.exit(f"the plain relay refuses {line}: {self.rows[-1][1]}")

    def compare(self):
        """The program answers the same as the plain relay."""
        self.relay.close()
        asked, told = zip(*self.rows)
        Run(self.limits.words(), reads=lines(asked), prints=lines(told)).try_it()


def kind_of(answer):
    """A word for the kind of an answer; a refusal's is its name."""
    it = json.loads(answer)
    kind = it.get("name") or it["reply"]
    return kind + " last" * (kind == "played" and it["outcome"] is not None) + " cut" * (kind == "left" and it["cut"])


def are_all(what, wanted, seen):
    if not wanted <= seen:
        sys.exit(f"{what} have had none of {sorted(wanted - seen)}")


def any_step(dice):
    """A step: of 64, 4 open, 24 submit, 2 end, 4 follow from the present and 4 from an early place, 20 take and 6 leave."""
    board, who, which, kind = "ab"[dice.roll() % 2], dice.roll() % 3, dice.roll(), dice.roll() % 64
    if kind < 4:
        return opens(board, STARTS[which % 4])
    if kind < 28:
        return submits(board, MOVES[which % 8])
    if kind < 30:
        return ends(board, *ENDINGS[which % 13])
    if kind < 38:
        return follows(board, who, None if kind < 34 else which % 6)
    return takes(who) if kind < 58 else leaves(who)


def steps_by_chance():
    """Steps on two boards, under limits that are all reached."""
    dice, seen = Dice(960), set()
    numbers = [(2, 3, 1, 64), (2, 3, 2, 64), (2, 3, 3, 64), (2, 2, 1, 2), (2, 2, 3, 4), (2, 1, 2, 64), (1, 2, 1, 64), (1, 3, 3, 3)]
    for limits in numbers:
        scene = Scene(plain.Limits(*limits))
        for _ in range(300):
            scene.ask(any_step(dice))
        scene.compare()
        seen |= {kind_of(answer) for _, answer in scene.rows}
    are_all("steps by chance", KINDS, seen)
    return len(numbers)


def any_question(dice, board):
    """A question about a board: of 128, 56 submit, 1 ends, 8 follow from the present and 8 from an early place, 44 take, 11 leave."""
    who, which, kind = dice.roll() % 4, dice.roll(), dice.roll() % 128
    if kind < 56:
        return submits(board, MOVES[which % 8])
    if kind < 57:
        return ends(board, *ENDINGS[which % 13])
    if kind < 73:
        return follows(board, who, None if kind < 65 else which % 12)
    return takes(who) if kind < 117 else leaves(who)


def questions_by_chance():
    """A hundred boards after one another, each with four who follow it or do not, and all of whom leave."""
    dice, seen = Dice(960), set()
    numbers = [(3, 1, 64), (3, 2, 64), (4, 3, 64), (2, 1, 2), (2, 3, 4), (1, 2, 64), (4, 1, 16), (4, 8, 32)]
    for limits in numbers:
        scene = Scene(plain.Limits(100, *limits))
        for number in range(100):
            scene.accept(opens(f"b{number}"))
            for _ in range(160):
                scene.ask(any_question(dice, f"b{number}"))
            for who in range(4):
                scene.ask(leaves(who))
        scene.compare()
        seen |= {answer for _, answer in scene.rows}
    are_all("kinds of questions by chance", KINDS_OF_A_BOARD, {kind_of(answer) for answer in seen})
    are_all("ends by chance", OUTCOMES_OF_A_BOARD, {json.loads(answer)["outcome"] for answer in seen if kind_of(answer) == "ended"})
    return len(numbers)


def gather_crowd(scene):
    """Forty join, ten at each place of the log."""
    for who in range(40):
        if who % 10 == 0:
            scene.accept(submits("crowded", LINE[who // 10]))
        scene.accept(follows("crowded", who))


def crowds():
    """Forty come to a board and leave it in several orders: half of them while the others take, and all behind those who come again."""
    orders = [list(range(40)), list(reversed(range(40))), [who * 7 % 40 for who in range(40)]]
    for order in orders:
        scene = Scene(plain.Limits(1, 40, 64, 64))
        scene.accept(opens("crowded"))
        gather_crowd(scene)
        for leaver, taker in zip(order[:20], order[20:]):
            scene.accept(leaves(leaver))
            scene.accept(takes(taker))
        for who in range(40):
            scene.ask(follows("crowded", who, 2))
            scene.accept(takes(who))
        for who in order:
            scene.accept(leaves(who))
        scene.compare()
    return len(orders)


def swap(scene, first, second):
    """Two leave and follow again, while one more asks in vain."""
    for line in leaves(first), leaves(second), follows("crowded", first), follows("crowded", second):
        scene.accept(line)
    if scene.ask(follows("crowded", 6)):
        sys.exit("there is room for one more")


def slots():
    """Of six, each two leave and come again several times; then both leave, and the first comes back."""
    pairs = list(itertools.permutations(range(6), 2))
    for first, second in pairs:
        scene = Scene(plain.Limits(1, 6, 64, 64))
        scene.accept(opens("crowded"))
        for who in range(6):
            scene.accept(follows("crowded", who))
        for _ in range(3):
            swap(scene, first, second)
        for line in leaves(first), leaves(second), follows("crowded", first):
            scene.accept(line)
        scene.compare()
    return len(pairs)


def change(scene, boards, followers, who, turn):
    """One more asks for a board, which may be full. Then a follower leaves, and asks for each board until one has room."""
    scene.ask(follows(boards[turn % len(boards)], followers))
    scene.ask(leaves(followers))
    scene.accept(leaves(who))
    if not any(scene.ask(follows(boards[it % len(boards)], who)) for it in range(turn, turn + 8)):
        sys.exit(f"no board has room for {who}")


def play_round(scene, boards, followers, number):
    """The same move on each board by turns, behind which one of the first followers and one of the last change. Then four of five take."""
    for turn, board in enumerate(boards):
        scene.accept(submits(board, LINE[number]))
        first = number + turn * 7
        change(scene, boards, followers, first, turn)
        change(scene, boards, followers, followers - first - 1, turn)
    for who in range(followers):
        if who % 5:
            scene.ask(takes(who))


def many_followers():
    """As many followers as are found at one or two looks of sixty-four, and up to two fewer or more, of one board or of eight."""
    counts = [62, 63, 64, 65, 66, 126, 127, 128, 129, 130]
    for boards, followers in itertools.product(("a", "abcdefgh"), counts):
        scene = Scene(plain.Limits(len(boards), -(-followers // len(boards)), 3, 64))
        for board in boards:
            scene.accept(opens(board))
        for who in range(followers):
            scene.accept(follows(boards[who % len(boards)], who))
        for number in range(8):
            play_round(scene, boards, followers, number)
        for who in range(followers):
            scene.accept(takes(who))
            scene.accept(leaves(who))
        scene.compare()
    return 2 * len(counts)


def all_by_chance():
    return steps_by_chance() + questions_by_chance() + crowds() + slots() + many_followers()
