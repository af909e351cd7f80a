#!/bin/sh
# Starts a relay with a watch port, Redis, two nginx with nchan and the feed, all on loopback: ./start.sh for all boards, or
# ./start.sh BOARD.. for these. Ctrl-C ends them all. The relay is the built program, or the one that RELAY960 names.
#
# Boards are opened at ws://127.0.0.1:9600; spectators watch at ws://127.0.0.1:9100/sub/BOARD and ws://127.0.0.1:9101/sub/BOARD, and the
# list of all boards at ws://127.0.0.1:9100/sub/_boards.
set -eu
cd "$(dirname "$0")"
top=$(cd ../.. && pwd)
# shellcheck disable=SC1091
. "$top/tools/trial.sh"
begin_trial nginx-light libnginx-mod-nchan redis-server python3-websockets
RELAY_PORT="${RELAY_PORT:-9600}"
WATCH_PORT="${WATCH_PORT:-9601}"
ports() { /usr/bin/python3 -m relay_client.ports "$@"; }
ports free 9100 9101 9110 9379 "$RELAY_PORT" "$WATCH_PORT"
run="${RUN:-$(mktemp -d)}"
chmod 755 "$run"
pids=""
stop() {
    status=$?
    trap - EXIT INT TERM
    for pid in $pids; do kill "$pid" 2> /dev/null || true; done
    wait
    exit "$status"
}
trap stop EXIT
trap 'exit 0' INT TERM
begin() {
    name=$1
    shift
    "$@" > "$run/$name.log" 2>&1 &
    pids="$! $pids"
    echo $! > "$run/$name.pid"
}
whole() { ports wait "$@" || { tail -n 5 "$run"/*.log; exit 1; }; }
begin redis redis-server "$PWD/redis.conf" --dir "$run"
begin relay "$RELAY960" serve --port "$RELAY_PORT" --watch "127.0.0.1:$WATCH_PORT" --forever --boards 64 --capacity 1024 --grace 120
whole 9379 "$RELAY_PORT" "$WATCH_PORT"
begin nginx-a nginx -p "$run" -c "$PWD/nginx-a.conf"
begin nginx-b nginx -p "$run" -c "$PWD/nginx-b.conf"
whole 9100 9101 9110
if [ $# -gt 0 ]; then
    begin feed ./feed.py --relay "ws://127.0.0.1:$RELAY_PORT" "$@"
else
    begin feed ./feed.py --all --watch "ws://127.0.0.1:$WATCH_PORT"
fi
channels="ws://127.0.0.1:9100/sub/ and ws://127.0.0.1:9101/sub/"
echo "relay at ws://127.0.0.1:$RELAY_PORT, channels at $channels for ${*:-all boards}; logs in $run"
wait
