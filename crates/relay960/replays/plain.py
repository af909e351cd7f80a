"""A plain relay, written from the table of steps of docs/SCRIPTS.md: each follower has a list of the moves that wait for it.

All that it knows of chess it is told by `relay960 play`, which plays each of its games; claims it grants by counting.
"""

import functools
import subprocess
from dataclasses import dataclass

from relay_client.program import PROGRAM, start_fen
from relay_client.texts import (CUT, GAME_OVER, NO_BOARD, NO_FOLLOWER, NOTHING, OPENED, ended, following, left, moved, over, played,
                                refused)

BOARD_EXISTS = refused(2, "BoardExists")
BAD_START = refused(3, "BadStart")
TOO_MANY_BOARDS = refused(4, "TooManyBoards")
ILLEGAL = refused(6, "Illegal")
LOG_FULL = refused(7, "LogFull")
CLAIM_REFUSED = refused(8, "ClaimRefused")
FOLLOWER_EXISTS = refused(10, "FollowerExists")
TOO_MANY_FOLLOWERS = refused(11, "TooManyFollowers")
TOO_FAR_BACK = refused(15, "TooFarBack")
NOT_YET = refused(16, "NotYet")

SIDES = {"w": "white", "b": "black"}
# Moves that were found to be illegal, each behind its position but for the counters, on which that does not depend.
ILLEGAL_MOVES = set()
RESULTS = {"1-0": "white wins by decision", "0-1": "black wins by decision", "1/2-1/2": "drawn by decision"}


@dataclass(frozen=True)
class Limits:
    boards: int = 16
    followers: int = 64
    capacity: int = 64
    plies: int = 1024

    def words(self):
        return ("script", *(f"--{name}={limit}" for name, limit in vars(self).items()))


first_position = functools.cache(start_fen)


class Game:
    """A game as `play` answers its moves."""

    def __init__(self, start):
        self.process = subprocess.Popen([PROGRAM, "play", str(start)], stdin=subprocess.PIPE, stdout=subprocess.PIPE)
        self.positions, self.moves, self.outcome = [first_position(start)], [], None

    def play(self, move):
        """Plays a move, unless it is illegal. Returns whether it was played."""
        tried = *self.positions[-1].split()[:4], move
        if tried in ILLEGAL_MOVES:
            return False
        # The answer to an empty line tells that all of that to the move has come.
        self.process.stdin.write(f"{move}\n\n".encode())
        self.process.stdin.flush()
        lines = [line.decode().rstrip() for line in iter(self.process.stdout.readline, b"fault 1 Length\n")]
        if lines == ["refused 6 Illegal"]:
            ILLEGAL_MOVES.add(tried)
            return False
        self.positions.append(lines[0])
        self.moves.append(move)
        self.outcome = lines[1].removeprefix("over ") if len(lines) > 1 else None
        return True

    def appearances(self):
        """How often the position has appeared. No pawn of these games may be taken en passant, so the square behind one does not count."""
        fields = [fen.split()[:3] for fen in self.positions]
        return fields.count(fields[-1])

    def may_claim(self, how, side):
        """Whether the side has the move, and a ground for its claim."""
        _, turn, _, _, clock, _ = self.positions[-1].split()
        return SIDES[turn] == side and (self.appearances() >= 3 if how == "threefold" else int(clock) >= 100)

    def close(self):
        self.process.communicate()


@dataclass
class Follower:
    board: str
    joined: int
    waiting: list
    taken: int = 0
    closed_at: int | None = None

    def is_sent(self, move, place, capacity):
        """A move waits for it, or closes it if as many as the capacity wait. Once it is closed nothing more comes."""
        if self.closed_at is None and len(self.waiting) < capacity:
            self.waiting.append((move, place))
        elif self.closed_at is None:
            self.closed_at = place


class Relay:
    """Its answers to commands, which are objects."""

    def __init__(self, limits):
        self.limits, self.games, self.followers = limits, {}, {}

    def answer(self, command):
        """The text that answers a command, of which each kind has a method here."""
        return getattr(self, command["cmd"])(**command)

    def close(self):
        for game in self.games.values():
            game.close()

    def open(self, board, start, **_):
        if board in self.games:
            return BOARD_EXISTS
        if start >= 960:
            return BAD_START
        if len(self.games) >= self.limits.boards:
            return TOO_MANY_BOARDS
        self.games[board] = Game(start)
        return OPENED

    def submit(self, board, move, **_):
        game = self.games.get(board)
        if not game:
            return NO_BOARD
        if game.outcome:
            return GAME_OVER
        place = len(game.moves)
        if place >= self.limits.plies:
            return LOG_FULL
        if not game.play(move):
            return ILLEGAL
        for follower in self.followers.values():
            if follower.board == board:
                follower.is_sent(move, place, self.limits.capacity)
        return played(place, game.outcome)

    def end(self, board, how, side=None, result=None, **_):
        game = self.games.get(board)
        if not game:
            return NO_BOARD
        if game.outcome:
            return GAME_OVER
        if how in ("threefold", "fifty") and not game.may_claim(how, side):
            return CLAIM_REFUSED
        game.outcome = {"resign": f"{side} resigns", "time": f"{side} loses on time", "fifty": "fifty moves",
                        "decided": RESULTS.get(result)}.get(how, how)
        return ended(game.outcome)

    def follow(self, board, spectator, **others):
        game = self.games.get(board)
        if not game:
            return NO_BOARD
        if spectator in self.followers:
            return FOLLOWER_EXISTS
        joined = others.get("from", len(game.moves))
        if joined > len(game.moves):
            return NOT_YET
        waiting = [(move, place) for place, move in enumerate(game.moves) if place >= joined]
        if len(waiting) > self.limits.capacity:
            return TOO_FAR_BACK
        if sum(follower.board == board for follower in self.followers.values()) >= self.limits.followers:
            return TOO_MANY_FOLLOWERS
        self.followers[spectator] = Follower(board, joined, waiting)
        return following(joined, game.positions[joined])

    def take(self, spectator, **_):
        follower = self.followers.get(spectator)
        if not follower:
            return NO_FOLLOWER
        if follower.waiting:
            follower.taken += 1
            return moved(*follower.waiting.pop(0))
        if follower.closed_at is not None:
            return CUT
        outcome = self.games[follower.board].outcome
        return over(outcome) if outcome else NOTHING

    def leave(self, spectator, **_):
        follower = self.followers.pop(spectator, None)
        if not follower:
            return NO_FOLLOWER
        cut = follower.closed_at is not None
        limit = follower.closed_at if cut else len(self.games[follower.board].moves)
        return left(follower.joined, follower.taken, limit, cut)
