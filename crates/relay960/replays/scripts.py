"""Scripts over a relay: a worked script, and the lines that give no command."""

from relay_client.texts import (BAD_FIELD, GAME_OVER, NO_FOLLOWER, NOT_JSON, NOT_OBJECT, OPENED, UNKNOWN_COMMAND, following, moved, played,
                                refused)
from runs import Run, lines

OPEN = '{"cmd":"open","board":"b1","start":518}'

# A script of the shortest mate, which a spectator follows, each line with its answer.
MATE = [
    (OPEN, OPENED),
    ('{"cmd":"follow","board":"b1","spectator":1}', following()),
    ('{"cmd":"submit","board":"b1","move":"f2f3"}', played(0)),
    ('{"cmd":"take","spectator":1}', moved("f2f3", 0)),
    ('{"cmd":"take","spectator":1}', '{"reply":"nothing"}'),
    ('{"cmd":"submit","board":"b1","move":"e7e5"}', played(1)),
    ('{"cmd":"submit","board":"b1","move":"g2g4"}', played(2)),
    ('{"cmd":"submit","board":"b1","move":"d8h4"}', played(3, "black mates")),
    ('{"cmd":"take","spectator":1}', moved("e7e5", 1)),
    ('{"cmd":"take","spectator":1}', moved("g2g4", 2)),
    ('{"cmd":"take","spectator":1}', moved("d8h4", 3)),
    ('{"cmd":"take","spectator":1}', '{"outcome":"black mates","reply":"over"}'),
    ('{"cmd":"submit","board":"b1","move":"a2a3"}', GAME_OVER),
    ('{"cmd":"leave","spectator":1}', '{"cut":false,"joined":0,"limit":4,"reply":"left","taken":4}'),
]
MATE_SCRIPT = lines(line for line, _ in MATE)
MATE_ANSWERS = lines(answer for _, answer in MATE)

FAULTY = [
    b'{"cmd":', b" " * 1025, b"[]", b'{"cmd":"stop"}', b'{"cmd":"take"}', b'{"cmd":"take","spectator":1,"x":0}',
    b'{"cmd":"take","spectator":7}',
]
FAULTS = [NOT_JSON, BAD_FIELD, NOT_OBJECT, UNKNOWN_COMMAND, BAD_FIELD, BAD_FIELD, NO_FOLLOWER]

# Single lines, each with its answer on a relay without boards.
SINGLE = [
    *[(OPEN[:end].encode(), NOT_JSON) for end in range(len(OPEN))],
    *[(line.encode(), BAD_FIELD) for line in [
        '{"cmd":"take","spectator":4294967296}',
        '{"cmd":"take","spectator":-1}',
        '{"cmd":"take","spectator":1.0}',
        '{"cmd":"take","spectator":1e0}',
        '{"cmd":"take","spectator":"1"}',
        '{"cmd":"open","board":"b1","start":65536}',
        '{"cmd":"open","board":"","start":0}',
        '{"cmd":"open","board":"a b","start":0}',
        f'{{"cmd":"open","board":"{"a" * 33}","start":0}}',
        '{"cmd":"submit","board":"b1","move":"e2e9"}',
        '{"cmd":"submit","board":"b1","move":"E2E4"}',
        '{"cmd":"end","board":"b1","how":"resign"}',
        '{"cmd":"end","board":"b1","how":"agreed","side":"white"}',
    ]],
    (b"\r", NOT_JSON),
    (b" ", NOT_JSON),
    (b'{"cmd":5}', UNKNOWN_COMMAND),
    (b'{"\\u0063md":"take","spectator":4294967295}', NO_FOLLOWER),
    (b'{"cmd":"open","board":"b1","start":65535}', refused(3, "BadStart")),
    (f'{{"cmd":"open","board":"{"a" * 32}","start":0}}'.encode(), OPENED),
    (b'{"cmd":"\xff"}', NOT_JSON),
    (b"[" * 127 + b"]" * 127, NOT_OBJECT),
    (b"[" * 128 + b"]" * 128, NOT_JSON),
    # The last is longer than one read gives.
    *[(b'{"cmd":"take","spectator":1}'.ljust(length), answer)
      for length, answer in [(1024, NO_FOLLOWER), (1025, BAD_FIELD), (1026, BAD_FIELD), (5000, BAD_FIELD)]],
]

RUNS = [
    *[Run(words, reads=MATE_SCRIPT, prints=MATE_ANSWERS) for words in ((), ("script",))],
    # The last line needs no line feed, and a carriage return is white space of JSON.
    Run(("script",), reads=MATE_SCRIPT[:-1], prints=MATE_ANSWERS),
    Run(("script",), reads=MATE_SCRIPT.replace(b"\n", b"\r\n"), prints=MATE_ANSWERS),
    Run(("script",), reads=b"".join(line + b"\n" for line in FAULTY), prints=lines(FAULTS)),
    Run(("script",), reads=b"\n[]\n\r\n", prints=lines([NOT_JSON, NOT_OBJECT, NOT_JSON])),
    *[Run(("script",), reads=line + b"\n", prints=lines([answer])) for line, answer in SINGLE],
]
