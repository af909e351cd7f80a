#!/bin/sh
# Tries what the pages know of chess beside Stockfish and PyChess, then watch.html, table.html, tables.html and round.html in Chromium, and
# in Firefox and WebKit what a person does most, beside the built program (or the one that RELAY960 names). One test, broadcast, starts
# nginx with nchan and the feed from ../apps/many_spectators. Words are passed on: ./test.sh chess tries the first alone, ./test.sh mate
# crash these two in Chromium, ./test.sh firefox all of it in Firefox, ./test.sh webkit mate one in WebKit, and ./test.sh --pictures
# ../docs/pictures takes the pictures of the guides. It uses no address but loopback.
set -eu
cd "$(dirname "$0")"
top=$(cd .. && pwd)
# shellcheck disable=SC1091
. "$top/tools/trial.sh"
case ${1:-} in
    "") begin_trial nodejs pychess stockfish pgn-extract chromium openssl python3-websockets nginx-light libnginx-mod-nchan \
            redis-server firefox-esr webkit2gtk-driver xvfb ;;
    chess) begin_trial nodejs pychess stockfish pgn-extract ;;
    firefox) begin_trial firefox-esr python3-websockets nginx-light libnginx-mod-nchan redis-server ;;
    webkit) begin_trial webkit2gtk-driver xvfb python3-websockets nginx-light libnginx-mod-nchan redis-server ;;
    *) begin_trial chromium openssl python3-websockets ;;
esac
if [ "${1:-chess}" = chess ]; then
    /usr/bin/python3 tests/chess.py
    [ $# -eq 0 ] || exit 0
fi
/usr/bin/python3 tests/pages.py "$@"
[ $# -eq 0 ] || exit 0
./test.sh firefox
exec ./test.sh webkit
