#!/bin/sh
# What a change of one crate needs: ./check.sh CRATE proves it and runs its tests; --above proves the crates above it too, and --planted
# tries its wrong bodies. It says first about how long that takes; the last line is the verdict, and the status is 0 or 1.
exec python3 -B "$(dirname "$0")/tools/change.py" "$@"
