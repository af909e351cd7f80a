#!/bin/sh
# Tries the whole set beside the built program (or the one that RELAY960 names): 1,000 subscribers of four boards with whole games, and the
# feed killed and restarted in between; then relays that are restarted, games that go on under another name, and beats; then the feed
# of all boards, and their list. It takes some two minutes. Its last line says what came.
set -eu
cd "$(dirname "$0")"
top=$(cd ../.. && pwd)
# shellcheck disable=SC1091
. "$top/tools/trial.sh"
begin_trial nginx-light libnginx-mod-nchan redis-server python3-websockets
# shellcheck disable=SC3045  # dash has it
ulimit -n 8192 2> /dev/null || true
exec /usr/bin/python3 test_channels.py
