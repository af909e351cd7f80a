#!/bin/sh
# Runs every test that needs no proof, in some minutes: those of the tools, of each crate, and of the program, which is compiled without its
# proof. It says what is left as it goes, and names each test that failed or was skipped. The last line begins 'N passed, M failed', and the
# status is 0 or 1. ./test.sh c960_tests runs the tests of one crate; the other steps are tools, relay960 and sessions.
exec python3 -B "$(dirname "$0")/tools/test_all.py" "$@"
