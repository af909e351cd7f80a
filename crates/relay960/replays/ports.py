"""Texts on the watch port beside the same texts on the main port, and the texts of boards whose games have ended in each way."""

import json
import sys

from commands import HUNDRED, SHUFFLE
from games import STALEMATE
from relay_client.connection import Connection
from relay_client.outcomes import OUTCOMES
from relay_client.server import Server
from relay_client.texts import (BAD_FIELD, BOARDS, NO_BOARD, NOT_JSON, NOT_OBJECT, OPENED, UNKNOWN_COMMAND, ends, following, opens,
                                refused, stands, submits)
from relays import ONE_PLY

WRONG_MODE = refused(14, "WrongMode")
NOT_YOUR_BOARD = refused(13, "NotYourBoard")
BOARD_EXISTS = refused(2, "BoardExists")
STANDS = stands("b1", fen=ONE_PLY, last="e2e4", plies=1)

# Texts, and what a newcomer is answered on the watch port and on the main port. There is one board, b1, with one move.
TEXTS = [
    *[(line, STANDS, UNKNOWN_COMMAND) for line in [
        '{"cmd":"boards"}',
        ' {\t"cmd" :\r\n"boards" } \n',
        '{"\\u0063md":"b\\u006Fards"}',
        # For a repeated key the last value counts, and it is one key.
        '{"cmd":"take","cmd":"boards"}',
        '{"cmd":[0],"cmd":"boards"}',
        '{"cmd":"boards"}'.ljust(1024),
    ]],
    *[(line, BAD_FIELD, UNKNOWN_COMMAND) for line in [
        '{"cmd":"boards","x":0}',
        '{"board":"b1","cmd":"boards"}',
        '{"cmd":"boards","spectator":1}',
        '{"cmd":"boards","":null}',
        '{"cmd":"boards","Cmd":"boards"}',
        '{"cmd":"boards","a":[],"b":{},"c":true,"d":1.5}',
    ]],
    *[(line, fault, fault) for line, fault in [
        ("", NOT_JSON),
        ('{"cmd":"boards"', NOT_JSON),
        ('{"cmd":"boards",}', NOT_JSON),
        ('{"cmd":"boards"} {', NOT_JSON),
        ('{cmd:"boards"}', NOT_JSON),
        # A line feed inside a text, which no line of a script can have.
        ('{"cmd":"bo\nards"}', NOT_JSON),
        ('{"cmd":"ta\nke","spectator":1}', NOT_JSON),
        ('"boards"', NOT_OBJECT),
        ('["cmd","boards"]', NOT_OBJECT),
        ('[{"cmd":"boards"}]', NOT_OBJECT),
        ("null", NOT_OBJECT),
        ("{}", UNKNOWN_COMMAND),
        ('{"boards":"cmd"}', UNKNOWN_COMMAND),
        ('{"cmd":"Boards"}', UNKNOWN_COMMAND),
        ('{"cmd":"board"}', UNKNOWN_COMMAND),
        ('{"cmd":"boards "}', UNKNOWN_COMMAND),
        ('{"cmd":["boards"]}', UNKNOWN_COMMAND),
        ('{"cmd":{"cmd":"boards"}}', UNKNOWN_COMMAND),
        ('{"cmd":"follow"}', BAD_FIELD),
        ('{"cmd":"follow","board":"b1","spectator":1,"from":null}', BAD_FIELD),
        ('{"cmd":"take","spectator":-1}', BAD_FIELD),
        ('{"cmd":"boards"}'.ljust(1025), BAD_FIELD),
        # Commands that are the same on both ports.
        ('{"cmd":"follow","board":"b1","spectator":1}', following(1, ONE_PLY)),
        ('{"cmd":"follow","board":"b1","spectator":1,"from":0}', following()),
        ('{"cmd":"follow","board":"boards","spectator":1}', NO_BOARD),
        ('{"cmd":"take","spectator":2}', WRONG_MODE),
        ('{"cmd":"leave","spectator":3}', WRONG_MODE),
        ('{"cmd":"boards","cmd":"take","spectator":4}', WRONG_MODE),
    ]],
    ('{"cmd":"open","board":"b1","start":518}', WRONG_MODE, BOARD_EXISTS),
    ('{"cmd":"submit","board":"b1","move":"e7e5"}', WRONG_MODE, NOT_YOUR_BOARD),
    ('{"cmd":"end","board":"b1","how":"agreed"}', WRONG_MODE, NOT_YOUR_BOARD),
]

# A hundred and fifty moves without a pawn's move or a capture, of which the last ends the game.
SEVENTY_FIVE = " ".join([*HUNDRED.split()[:98], SHUFFLE, "c4e3 c5e6", SHUFFLE, "b1a1 b8a8", SHUFFLE, "e3c4 e6c5", *SHUFFLE.split()[:10]])

# Each outcome, moves from start 518, and the end behind them, unless the last of them ends the game.
ENDED = [
    ("white mates", "e2e4 e7e5 d1h5 b8c6 f1c4 g8f6 h5f7", None),
    ("black mates", "f2f3 e7e5 g2g4 d8h4", None),
    ("stalemate", " ".join(STALEMATE), None),
    ("white resigns", "", ("resign", "white")),
    ("black resigns", "", ("resign", "black")),
    ("agreed", "", ("agreed",)),
    ("abandoned", "", ("abandoned",)),
    ("threefold", "g1f3 g8f6 f3g1 f6g8 " * 2, ("threefold", "white")),
    ("fifty moves", HUNDRED, ("fifty", "white")),
    ("fivefold", "g1f3 g8f6 f3g1 f6g8 " * 4, None),
    ("seventy-five moves", SEVENTY_FIVE, None),
    ("white loses on time", "", ("time", "white")),
    ("black loses on time", "", ("time", "black")),
    ("white wins by decision", "", ("decided", None, "1-0")),
    ("black wins by decision", "", ("decided", None, "0-1")),
    ("drawn by decision", "", ("decided", None, "1/2-1/2")),
]


def answer_to(port, line):
    """What a newcomer is answered."""
    newcomer = Connection(port)
    newcomer.send(line)
    answer = newcomer.receive()
    newcomer.close()
    return answer


def compare(what, found, wanted):
    if found != wanted:
        sys.exit(f"{what}: {found}\nwanted: {wanted}")


def texts_on_both_ports():
    with Server("--forever", watch=True) as server:
        owner = Connection(server.port)
        owner.asks(opens("b1"), OPENED)
        owner.send(submits("b1", "e2e4"))
        owner.receive()
        for line, on_watch_port, on_main_port in TEXTS:
            compare(f"on the watch port, {line!r}", answer_to(server.watch_port, line), on_watch_port)
            compare(f"on the main port, {line!r}", answer_to(server.port, line), on_main_port)
        owner.close()
    return len(TEXTS)


def boards_that_have_ended():
    """The text of each is an object of seven members that says how its game has ended."""
    with Server("--forever", watch=True) as server:
        owner = Connection(server.port)
        for at, (_, moves, end) in enumerate(ENDED):
            for line in [opens(f"b{at}"), *(submits(f"b{at}", move) for move in moves.split()), *([ends(f"b{at}", *end)] if end else [])]:
                owner.send(line)
                owner.receive()
        watcher = Connection(server.watch_port)
        watcher.send(BOARDS)
        for at, (outcome, moves, _) in enumerate(ENDED):
            told = json.loads(watcher.receive())
            wanted = {"board": f"b{at}", "outcome": outcome, "reply": "board", "plies": len(moves.split()), "start": 518}
            compare(f"board b{at}", {key: told[key] for key in wanted}, wanted)
            compare(f"members of board b{at}", sorted(told), ["board", "fen", "last", "outcome", "plies", "reply", "start"])
            compare(f"last move of board b{at}", told["last"], moves.split()[-1] if moves else None)
        owner.close()
        watcher.close()
    compare("outcomes", {outcome for outcome, *_ in ENDED}, set(OUTCOMES))
    return len(ENDED)


def all_ports():
    return texts_on_both_ports() + boards_that_have_ended()
