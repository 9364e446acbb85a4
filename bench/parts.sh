#!/bin/sh
# How long a session takes for the profile of `ecg.csv` in parts, 20,000 samples at window 128, beside a `load`: what an
# `advance` by one, five and twenty hundredths of the diagonals and by all of them adds to a `lazy`, and what a `load`
# adds to an empty session, by one worker and by four. Each is timed five times in turn, and the least counts. Needs the
# program: `rt run` in crates/mprof once.
set -eu
here="$(dirname "$0")"
mprof="$(cd "$here/../crates/mprof/out" && pwd)/mprof"
work="$(mktemp -d)"
trap 'rm -rf "$work"' EXIT
cp "$here/../crates/stored_runs/data/series/ecg.csv" "$work/ecg.csv"
cd "$work"

: > none
echo "load 0 ecg.csv 1 header" > load
echo "lazy 0 ecg.csv 1 header" > lazy
for count in 198 992 3968 19840; do
    { cat lazy; echo "advance 0 $count"; } > "advance$count"
done

# the nanoseconds of a session of so many workers
session() {
    start=$(date +%s%N)
    "$mprof" --window 128 --workers "$2" < "$1" > /dev/null
    echo $(($(date +%s%N) - start))
}

least() {
    sort -n "times.$1" | head -n 1
}

for _ in 1 2 3 4 5; do
    for workers in 1 4; do
        for name in none load lazy advance198 advance992 advance3968 advance19840; do
            session "$name" "$workers" >> "times.$name.$workers"
        done
    done
done

for workers in 1 4; do
    load=$(($(least "load.$workers") - $(least "none.$workers")))
    for count in 198 992 3968 19840; do
        part=$(($(least "advance$count.$workers") - $(least "lazy.$workers")))
        awk -v count="$count" -v workers="$workers" -v load="$load" -v part="$part" 'BEGIN {
            printf "%d diagonals, workers: %d: %.0f milliseconds, a load %.0f, ratio %.2f\n", count, workers,
                part / 1e6, load / 1e6, part / load
        }'
    done
done
