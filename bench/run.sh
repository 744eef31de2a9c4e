#!/bin/sh
# Builds the benchmark with the best flags, makes plans of random halls, and prints the table:
#
#     bench/run.sh [SECONDS]
#
# SECONDS is the least time of each measurement, 1 if not given. docs/BENCHMARKS.md has a table and what it says.
set -eu
cd "$(dirname "$0")/.."

# Runs a command, and prints what it said only if it fails.
quietly() {
    if ! log=$("$@" 2>&1); then
        printf '%s\n' "$log" >&2
        exit 1
    fi
}

library() { cd crates/host && rt lib; }
quietly library
out=out/bench
CXXFLAGS="-O3 -march=native" sh tests/build.sh "$out"

# A hall of a seed, a kind, a width, a height and so many carts.
hall() {
    quietly "$out/generate" "$out/$2-$5" "$1" "$2" "$3" "$4" "$5" 400
    made="$made $out/$2-$5"
}
made=
hall 1 open 32 32 16
hall 2 blocks 20 20 16
hall 3 rooms 32 32 12
hall 4 aisles 20 20 16
hall 5 corridors 32 32 4
"$out/bench" "${1:-1}" examples/*/ bench/plans/*/ $made
