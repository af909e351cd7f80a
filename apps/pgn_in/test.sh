#!/bin/sh
# Tries enter.py on the built program (or the one that RELAY960 names): its parts; a relay beside files that grow, corrections, losses and
# programs that are killed; a file that ends at each of its bytes; games of Stockfish's moves, written by pgn-extract, PyChess and a writer
# of its own in every way that is read; and all 960 starts. It uses no address but loopback, and takes some five minutes: ./test.sh 200
# takes 200 games in place of 40.
# ./test.sh long [SECONDS] plays a round of 64 boards instead, ten moves a second (for 1440 seconds), and tells its memory, its time and
# how soon moves were at the relay. The last line says what came.
set -eu
cd "$(dirname "$0")"
top=$(cd ../.. && pwd)
# shellcheck disable=SC1091
. "$top/tools/trial.sh"
begin_trial python3-websockets pgn-extract pychess stockfish
PYTHONPATH="$PYTHONPATH:$top/apps/pgn_in:$top/apps/pgn_in/tests:$top/apps/recorder:$top/apps/hall"
export PYTHONPATH
if [ "${1:-}" = long ]; then
    exec /usr/bin/python3 test_long.py "${2:-1440}"
fi
/usr/bin/python3 -m unittest discover -s tests
/usr/bin/python3 -m unittest relay_client.tests.test_pgn_in
/usr/bin/python3 test_cuts.py
exec /usr/bin/python3 test_rounds.py "${1:-40}"
