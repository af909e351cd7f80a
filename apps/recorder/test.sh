#!/bin/sh
# Tries the recorder beside the built program (or the one that RELAY960 names): lost connections, and relays restarted with the same
# game, another, or none; and 200 games as PGN, which pgn-extract, Stockfish and PyChess read. It uses no address but loopback. The records
# take some ten seconds, the games some minutes: ./test.sh 24 plays 24 of them. The last line of each says what came.
set -eu
cd "$(dirname "$0")"
top=$(cd ../.. && pwd)
# shellcheck disable=SC1091
. "$top/tools/trial.sh"
begin_trial python3-websockets pgn-extract pychess stockfish
/usr/bin/python3 test_record.py
exec /usr/bin/python3 test_pgn.py "${1:-200}"
