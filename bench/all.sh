#!/bin/sh
# Measures what docs/BENCHMARKS.md says of the rules, games and scripts, with the programs in turn in each round.
#   NEW=.. BENCH=.. [OLD=..] [OLD_BENCH=..] [ROUNDS=3] bench/all.sh FOLDER
# NEW and OLD are programs relay960, BENCH and OLD_BENCH programs bench960. FOLDER holds the games and the lines, which are made at the
# first run. It needs Debian's package stockfish. Each line printed is: what, which program, wall seconds, processor seconds, memory.
set -eu
here=$(cd "$(dirname "$0")" && pwd)
folder=$1
mkdir -p "$folder"
cd "$folder"
if [ ! -d games ]; then
    rm -rf games.part
    "$here/games.py" games.part 100000 >&2
    mv games.part games
fi
for followers in 0 1 64; do
    [ ! -f "lines-$followers" ] || continue
    "$here/lines.py" "$followers" > lines.part
    mv lines.part "lines-$followers"
done

# timed WHAT WHICH COMMAND..
timed() {
    what=$1 which=$2
    shift 2
    /usr/bin/time -o took -f "$what|$which|%e|%U %S|%M kB" "$@"
    cat took
}
program_of() {
    case $1 in
        OLD) echo "$OLD" ;;
        NEW) echo "$NEW" ;;
        OLD_BENCH) echo "$OLD_BENCH" ;;
        BENCH) echo "$BENCH" ;;
    esac
}
for _ in $(seq "${ROUNDS:-3}"); do
    for kind in chance shuffle; do
        for which in ${OLD:+OLD} NEW; do
            program=$(program_of "$which")
            timed "play $kind" "$which" sh -c 'for game in "games/$1"/*; do "$0" play "${game##*.}" < "$game"; done > "answers-$1-$2"' \
                "$program" "$kind" "$which"
        done
    done
    for followers in 0 1 64; do
        for which in ${OLD:+OLD} NEW; do
            program=$(program_of "$which")
            timed "script $followers" "$which" sh -c \
                '"$0" script --boards 256 --followers 64 --plies 16384 < "lines-$1" > "answers-script-$1-$2"' \
                "$program" "$followers" "$which"
        done
    done
    for which in ${OLD_BENCH:+OLD_BENCH} BENCH; do
        program=$(program_of "$which")
        timed "positions" "$which" sh -c '"$0" positions deep > "answers-positions-$1"' "$program" "$which"
        timed "relay" "$which" sh -c '"$0" relay < "$1/../crates/bench960/stdin" > "answers-relay-$2"' "$program" "$here" "$which"
    done
    for position in 'rnbqkbnr/pppppppp/8/8/8/8/PPPPPPPP/RNBQKBNR w HAha - 0 1|6' \
        'r3k2r/p1ppqpb1/bn2pnp1/3PN3/1p2P3/2N2Q1p/PPPBBPPP/R3K2R w HAha - 0 1|5' 'n1n5/PPPk4/8/8/8/8/4Kppp/5N1N b - - 0 1|6'; do
        timed "positions of ${position%% *}" Stockfish sh -c '
            printf "setoption name UCI_Chess960 value true\nposition fen %s\ngo perft %s\nquit\n" "${0%|*}" "${0#*|}" |
                /usr/games/stockfish > answers-stockfish' "$position"
    done
done
cat /proc/loadavg
