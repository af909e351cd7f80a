#!/bin/sh
# Proves the program and every crate below it, builds it, and runs it with the words given: ./run.sh start 518
# Standard error says how far the proofs are. If nothing has changed since, the program starts at once. ./try.sh runs it unproved.
set -e
here=$(cd "$(dirname "$0")" && pwd)
python3 -B "$here/tools/build.py"
exec "$here/crates/relay960/out/relay960" "$@"
