#!/bin/sh
# Milliseconds of the nearest pair and the most unusual window at all lengths of a range, beside those of the profiles
# of each length alone, by one worker, each the least of three runs: of the electrocardiogram of 20,000 samples at eight
# lengths from 16, 64 and 128 on. At last, at 32 lengths from 128 on, what four workers reach of what four runs of one
# worker reach at the same time: by the least of three rounds of each, where a round of four runs counts by the one that
# ends last. It takes some minutes, and needs the program: `rt run` in crates/pan_bench once.
set -eu
here="$(dirname "$0")"
program="$here/../crates/pan_bench/out/pan_bench"
work="$(mktemp -d)"
trap 'rm -rf "$work"' EXIT

tr -d '\r' < "$here/../crates/stored_runs/data/series/ecg.csv" | awk -F, 'NR > 1 { print $2 }' > "$work/ecg"

# the time of one run: of body, least length, greatest length and workers
nanoseconds() {
    "$program" "$1" "$2" "$3" "$4" timed < "$work/ecg" | sed -n 's/ nanoseconds$//p'
}

least() {
    for _ in 1 2 3; do nanoseconds "$1" "$2" "$3" "$4"; done | sort -n | head -n 1
}

line() {
    together="$(least pan "$1" "$2" 1)"
    alone="$(least each "$1" "$2" 1)"
    awk -v lo="$1" -v hi="$2" -v together="$together" -v alone="$alone" 'BEGIN {
        printf "lengths from %d to %d: %.0f, each alone: %.0f, %.2f times\n", lo, hi, together / 1000000,
            alone / 1000000, together / alone
    }'
}

line 16 23
line 64 71
line 128 135

# the time of the slowest of four runs at once
together() {
    for k in 1 2 3 4; do
        nanoseconds pan 128 159 1 > "$work/time.$k" &
    done
    wait
    cat "$work"/time.* | sort -n | tail -n 1
}

four_runs=$(for _ in 1 2 3; do together; done | sort -n | head -n 1)
four_workers=$(least pan 128 159 4)
awk -v runs="$four_runs" -v workers="$four_workers" \
    'BEGIN { printf "lengths from 128 to 159, four workers by four runs: %.2f\n", runs / (4 * workers) }'
