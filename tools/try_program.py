#!/usr/bin/env -S python3 -B
"""Runs the program as it is, without its proof: try_program.py [--seconds N] WORDS..

`rt try` compiles the sources with checks and runs what comes out. It keeps what the program prints until it has ended, so of a
server this waits for the port and says when it listens. `--seconds` is how long the program may run.
"""
import pathlib
import signal
import subprocess
import sys
import time

from crates import ROOT

PROGRAM = ROOT / "crates/relay960"
PORT = 9600
# A day for a server, which is ended by Ctrl-C, and `rt`'s own minute for everything else.
SECONDS_OF_A_SERVER = 86400
SECONDS = 60
LISTENS = "0A"


def say(text):
    print(text, file=sys.stderr, flush=True)


def split(words):
    """The seconds that are given before the program's words, and these words."""
    if words[:1] == ["--seconds"]:
        if len(words) < 2 or not words[1].isdigit() or int(words[1]) == 0:
            sys.exit("try.sh: --seconds takes a number above 0")
        return int(words[1]), words[2:]
    return (SECONDS_OF_A_SERVER if words[:1] == ["serve"] else SECONDS), words


def port_of(words):
    """The port that the arguments ask for; the program itself says what is wrong with them."""
    for at, word in enumerate(words):
        given = word[len("--port="):] if word.startswith("--port=") else words[at + 1] if word == "--port" and at + 1 < len(words) else ""
        if given.isdigit():
            return int(given)
    return PORT


def listens(port):
    """Whether a program of this machine listens on the port, without a connection, of which the server accepts a given number."""
    rows = pathlib.Path("/proc/net/tcp").read_text().splitlines()[1:]
    return any(row.split()[1].endswith(f":{port:04X}") and row.split()[3] == LISTENS for row in rows)


def start(seconds, words, **how):
    """Starts `rt try` in a process group of its own, so that it alone decides how its program ends."""
    line = ["rt", "try", "--seconds", str(seconds), "--", *words]
    return subprocess.Popen(line, cwd=PROGRAM, start_new_session=True, **how)


def end(run):
    """Ends `rt try`, which ends its program, and waits for it."""
    if run.poll() is None:
        run.terminate()
    return run.wait()


def serve(run, port):
    """Waits for the port, says so, and then for the server's end."""
    began, told = time.monotonic(), False
    while run.poll() is None:
        if not told and listens(port):
            told = True
            say(f"try.sh: listening on 127.0.0.1:{port} after {time.monotonic() - began:.0f} s; Ctrl-C ends it")
        time.sleep(1 if told else 0.2)
    return run.returncode


def main(words):
    seconds, words = split(words)
    say("try.sh: nothing is proved in this run: the program is compiled as it stands, with checks (./run.sh proves it)")
    is_server = words[:1] == ["serve"]
    port = port_of(words)
    if is_server and listens(port):
        sys.exit(f"try.sh: another program listens on port {port} already; take another one with --port")
    if is_server:
        say(f"try.sh: compiling takes two to four minutes; then it serves on port {port} for at most {seconds} seconds")
    for it in (signal.SIGTERM, signal.SIGHUP, signal.SIGINT):
        signal.signal(it, lambda number, _: sys.exit(128 + number))
    run = start(seconds, words, stdin=subprocess.DEVNULL if is_server else None)
    try:
        return serve(run, port) if is_server else run.wait()
    finally:
        end(run)


if __name__ == "__main__":
    sys.exit(main(sys.argv[1:]))
