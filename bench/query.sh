#!/bin/sh
# Milliseconds of one search, at window 128: the distances of a pattern in 262,144 samples on one processor and on all,
# and all matches and 3 discords among some 100,000 windows. Needs the program: `rt run` in crates/query_bench once.
# Each is timed five times, and the least counts.
set -eu
program="$(dirname "$0")/../crates/query_bench/out/query_bench"

# where it runs, the name of a line, the number of samples, and words before the program
milliseconds() {
    where="$1"
    name="$2"
    samples="$3"
    shift 3
    least=$(for _ in 1 2 3 4 5; do
        "$@" "$program" "$samples" 128 timed | sed -n "s/^$name .* \([0-9]*\) nanoseconds$/\1/p"
    done | sort -n | head -n 1)
    awk -v where="$where" -v name="$name" -v samples="$samples" -v least="$least" 'BEGIN {
        printf "%s %d, %s: %.1f\n", name, samples, where, least / 1000000
    }'
}

milliseconds "one processor" distances 262144 taskset -c 0
milliseconds "all processors" distances 262144 env
milliseconds "one processor" matches 100127 taskset -c 0
milliseconds "one processor" discords 100127 taskset -c 0
