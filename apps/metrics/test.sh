#!/bin/sh
# Tries the exporter beside the built program (or the one that RELAY960 names), and what it makes of texts and lines. It uses no address but
# loopback, and takes a minute and a half, since the log's counts come once a minute. Its last line says what came.
set -eu
cd "$(dirname "$0")"
top=$(cd ../.. && pwd)
# shellcheck disable=SC1091
. "$top/tools/trial.sh"
begin_trial python3-websockets python3-prometheus-client curl
/usr/bin/python3 -m unittest test_figures
exec /usr/bin/python3 test_metrics.py
