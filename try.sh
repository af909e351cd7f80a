#!/bin/sh
# Compiles the program without its proof and runs it with the words given: ./try.sh serve, or ./try.sh --seconds 600 serve --port 9700
# It takes two to four minutes where ./run.sh, which proves everything first, takes many. The first line says that nothing was proved.
exec python3 -B "$(dirname "$0")/tools/try_program.py" "$@"
