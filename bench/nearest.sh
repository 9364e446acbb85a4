#!/bin/sh
# How long a session takes for the K nearest windows of each window of `ecg.csv`, 20,000 samples at window 128, beside
# the profile of a `load`: what a second `load` adds to a session, and what a `nearest` of each K adds to it, its report
# included, by one worker. Then what four workers reach for K = 4 of what four sessions of one worker reach at the same
# time, where a round of four sessions counts by the one that ends last. Each is timed nine times in turn, and the least
# counts. Needs the program: `rt run` in crates/mprof once.
set -eu
here="$(dirname "$0")"
mprof="$(cd "$here/../crates/mprof/out" && pwd)/mprof"
work="$(mktemp -d)"
trap 'rm -rf "$work"' EXIT
cp "$here/../crates/stored_runs/data/series/ecg.csv" "$work/ecg.csv"
cd "$work"

echo "load 0 ecg.csv 1 header" > once
cat once once > twice
for k in 1 2 3 4; do
    { cat once; echo "nearest 0 $k"; } > "nearest$k"
done

# the nanoseconds of a session of so many workers
session() {
    start=$(date +%s%N)
    "$mprof" --window 128 --workers "$2" < "$1" > /dev/null
    echo $(($(date +%s%N) - start))
}

least() {
    sort -n "$1" | head -n 1
}

for _ in 1 2 3 4 5 6 7 8 9; do
    for name in once twice nearest1 nearest2 nearest3 nearest4; do
        session "$name" 1 >> "times.$name"
    done
    session once 4 >> times.once.four
    session nearest4 4 >> times.nearest4.four
    for name in once nearest4; do
        start=$(date +%s%N)
        for _ in 1 2 3 4; do
            "$mprof" --window 128 --workers 1 < "$name" > /dev/null &
        done
        wait
        echo $(($(date +%s%N) - start)) >> "times.$name.runs"
    done
done

profile=$(($(least times.twice) - $(least times.once)))
for k in 1 2 3 4; do
    awk -v k="$k" -v nearest=$(($(least "times.nearest$k") - $(least times.once))) -v profile="$profile" 'BEGIN {
        printf "K = %d: %.0f milliseconds, a load %.0f, ratio %.2f\n", k, nearest / 1e6, profile / 1e6, nearest / profile
    }'
done
four=$(($(least times.nearest4.four) - $(least times.once.four)))
runs=$(($(least times.nearest4.runs) - $(least times.once.runs)))
awk -v runs="$runs" -v workers="$four" \
    'BEGIN { printf "K = 4, four workers by four runs: %.2f\n", runs / (4 * workers) }'
