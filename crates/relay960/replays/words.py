"""Words that name no job, with the text that they get: on standard error with status 2, for help too. And the version, which is a job."""

from runs import Run

HELP = b"""A relay for live Chess960 games

Usage: relay960 [COMMAND]

Commands:
  start    Print the starting position N in Shredder-FEN
  moves    Print the legal moves and the state of the position FEN
  play     Play the game of start N: read a move a line, print the position after it
  script   Run a relay: read a command a line as JSON, print its answer
  serve    Serve a relay over WebSocket: answer commands, push moves to followers
  journal  Check a journal: print its boards, and how it ends
  help     Print this message or the help of the given subcommand(s)

Options:
  -h, --help     Print help
  -V, --version  Print version

Without a command: script, with the default limits
"""

START_HELP = b"""Print the starting position N in Shredder-FEN

Usage: relay960 start <N>

Arguments:
  <N>  Scharnagl's number of the position, 0 to 959

Options:
  -h, --help  Print help
"""

MOVES_HELP = b"""Print the legal moves and the state of the position FEN

Usage: relay960 moves <FEN>

Arguments:
  <FEN>  The position in Shredder-FEN, as one word

Options:
  -h, --help  Print help
"""

PLAY_HELP = b"""Play the game of start N: read a move a line, print the position after it

Usage: relay960 play <N>

Arguments:
  <N>  Scharnagl's number of the start, 0 to 959

Options:
  -h, --help  Print help
"""

SCRIPT_HELP = b"""Run a relay: read a command a line as JSON, print its answer

Usage: relay960 script [OPTIONS]

Options:
      --boards <boards>        How many boards there may be [default: 16]
      --followers <followers>  How many followers a board may have [default: 64]
      --capacity <capacity>    How many moves a follower's queue holds [default: 64]
      --plies <plies>          How many plies a game may have [default: 1024]
  -h, --help                   Print help
"""

SERVE_HELP = b"""Serve a relay over WebSocket: answer commands, push moves to followers

Usage: relay960 serve [OPTIONS]

Options:
      --port <port>                    The port of 127.0.0.1 on which it listens [default: 9600]
      --connections <connections>      How many connections it accepts before it ends [default: 1000000]
      --forever                        Accept connections without an end, in place of --connections
      --until-input-ends               End in order when standard input ends
      --grace <grace>                  How many seconds a board waits for an operator with a key to come back [default: 0]
      --idle <idle>                    How many seconds a peer that owns and follows nothing may send nothing; 0: without an end \
[default: 600]
      --log                            Write a line to standard error for what happens to each board, and counts once a minute
      --watch <ADDRESS:PORT>           The address and port on which spectators may only watch; without it there is none
      --watch-threads <watch-threads>  How many threads serve the spectators of --watch [default: 2]
      --watch-most <watch-most>        How many spectators of --watch there may be at once [default: 100000]
      --journal <FILE>                 The file that keeps all games, so that the next start goes on with them; without it none is
      --boards <boards>                How many boards there may be [default: 16]
      --followers <followers>          How many followers a board may have [default: 64]
      --capacity <capacity>            How many moves a follower's queue holds [default: 64]
      --plies <plies>                  How many plies a game may have [default: 1024]
  -h, --help                           Print help
"""

JOURNAL_HELP = b"""Check a journal: print its boards, and how it ends

Usage: relay960 journal <FILE>

Arguments:
  <FILE>  A journal of serve; it may be in use

Options:
  -h, --help  Print help
"""


def error(text, usage=None):
    return f"error: {text}\n{usage and f'{chr(10)}Usage: relay960 {usage}{chr(10)}' or ''}\nFor more information, try '--help'.\n".encode()


def missing(job, word):
    return error(f"the following required arguments were not provided:\n  <{word}>", f"{job} <{word}>")


def no_number(value, name):
    return error(f"invalid value '{value}' for '{name}': invalid digit found in string")


def no_address(value, why="invalid socket address syntax"):
    return error(f"invalid value '{value}' for '--watch <ADDRESS:PORT>': {why}", "serve [OPTIONS]")


def out_of_range(value, name, least, most):
    return error(f"invalid value '{value}' for '{name}': {value} is not in {least}..={most}")


TEXTS = [
    (("--help",), HELP),
    (("help",), HELP),
    (("start", "--help"), START_HELP),
    (("moves", "--help"), MOVES_HELP),
    (("play", "--help"), PLAY_HELP),
    (("script", "--help"), SCRIPT_HELP),
    (("serve", "--help"), SERVE_HELP),
    (("journal", "--help"), JOURNAL_HELP),
    (("nonsense",), error("unrecognized subcommand 'nonsense'", "[COMMAND]")),
    ((b"\xff",), error("invalid UTF-8 was detected in one or more arguments", "[COMMAND]")),
    (("start",), missing("start", "N")),
    (("moves",), missing("moves", "FEN")),
    (("play",), missing("play", "N")),
    (("journal",), missing("journal", "FILE")),
    (("journal", "a", "b"), error("unexpected argument 'b' found", "journal <FILE>")),
    (("serve", "--journal"), error("a value is required for '--journal <FILE>' but none was supplied")),
    (("start", "x"), no_number("x", "<N>")),
    (("start", "0x5"), no_number("0x5", "<N>")),
    (("play", "x"), no_number("x", "<N>")),
    (("start", "65536"), out_of_range(65536, "<N>", 0, 65535)),
    (("play", "65536"), out_of_range(65536, "<N>", 0, 65535)),
    (("start", "-1"), error("unexpected argument '-1' found\n\n  tip: to pass '-1' as a value, use '-- -1'", "start <N>")),
    (("script", "--version"), error("unexpected argument '--version' found", "script [OPTIONS]")),
    (("moves", "8/8/8/8", "w"), error("unexpected argument 'w' found", "moves <FEN>")),
    (("serve", "--port", "0"), out_of_range(0, "--port <port>", 1, 65535)),
    (("serve", "--port", "65536"), out_of_range(65536, "--port <port>", 1, 65535)),
    (("serve", "--connections", "0"), out_of_range(0, "--connections <connections>", 1, 1000000)),
    (("serve", "--connections", "1000001"), out_of_range(1000001, "--connections <connections>", 1, 1000000)),
    *[(("serve", f"--{name}", value), out_of_range(value, f"--{name} <{name}>", 0, most))
      for name, most in (("grace", 3600), ("idle", 86400)) for value in (str(most + 1), "4294967296")],
    *[(("serve", f"--{name}", value), out_of_range(value, f"--{name} <{name}>", 1, most))
      for name, most in (("watch-threads", 64), ("watch-most", 1000000)) for value in ("0", str(most + 1), "4294967298")],
    (("serve", "--watch"), error("a value is required for '--watch <ADDRESS:PORT>' but none was supplied")),
    *[(("serve", "--watch", value), no_address(value))
      for value in ("x", "", "9601", "127.0.0.1", "localhost:9601", "127.0.0.1:65536", "127.0.0.01:9601", "256.0.0.1:9601", "::1:9601",
                    "[::1]")],
    *[(("serve", "--watch", value), no_address(value, "the port is 0")) for value in ("127.0.0.1:0", "[::1]:0")],
    *[(("serve", "--watch=*:9601", *more), no_address("*:9601")) for more in ((), ("--watch-threads", "64"), ("--watch-most", "1000000"))],
    *[(("serve", "--forever", *given),
       error("the argument '--connections <connections>' cannot be used with '--forever'", "serve [OPTIONS]"))
      for given in (("--connections", "5"), ("--connections=1000000",))],
    *[((job, f"--{name}", value), out_of_range(value, f"--{name} <{name}>", 1, most))
      for job in ("script", "serve")
      for name, most in (("boards", 256), ("followers", 1024), ("capacity", 1024), ("plies", 16384))
      for value in ("0", str(most + 1), "65537")],
    *[(("script", f"--{name}=x"), no_number("x", f"--{name} <{name}>")) for name in ("boards", "followers", "capacity", "plies")],
]

# What else is no job: here the status counts, and that nothing is printed.
OTHERS = [
    ("start", ""), ("start", "1", "2"), ("script", "518"), ("script", "--boards"), ("script", "--lines", "1"), ("--boards", "1"),
    *[("script", f"--{name}", value) for name in ("boards", "followers", "capacity", "plies") for value in ("-1", "")],
]

# What asks for the version first, with or without more words behind it.
VERSIONS = [("--version",), ("-V",), ("--version", "start", "518")]

RUNS = [
    *[Run(words, complains=text, status=2) for words, text in TEXTS],
    *[Run(words, complains=None, status=2) for words in OTHERS],
    *[Run(words, prints=b"relay960 0.1.0\n") for words in VERSIONS],
]
