#!/bin/sh
# Tries the wrong bodies of crates/NAME/planted/: ./planted.sh for all, ./planted.sh NAME.. for those of some crates, and
# ./planted.sh --rotate [MINUTES] for as many as fit the time, 10 minutes by default, those first that were tried longest ago.
# Each is a small edit of the code that the prover must refuse. The last line counts them, and the status is 1 if one is proved
# or cannot be applied. out/planted, which git does not track, has when each was tried by --rotate.
exec python3 -B "$(dirname "$0")/tools/planted.py" "$@"
