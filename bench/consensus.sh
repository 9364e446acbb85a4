#!/bin/sh
# Milliseconds of the centre of eight series of 4,000 samples at three window lengths, each the least of five runs: by
# the joins of each two of them, and by `consensus`, which has to find the same centre, both by one worker. Then, at
# window 160, what four workers reach of what four runs of one worker reach at the same time: by the least of five
# rounds of each, where a round of four runs counts by the one that ends last. The series are pieces of an
# electrocardiogram and noise. Needs the program: `rt run` in crates/consensus_bench once.
set -eu
here="$(dirname "$0")"
program="$here/../crates/consensus_bench/out/consensus_bench"
work="$(mktemp -d)"
trap 'rm -rf "$work"' EXIT

# eight pieces that overlap, and numbers from 0 on and below 2,000 that are always the same
tr -d '\r' < "$here/../crates/stored_runs/data/series/ecg.csv" | awk -F, 'NR > 1 { x[NR - 2] = $2 }
    END { for (p = 0; p < 8; p++) for (i = 0; i < 4000; i++) print x[p * 2285 + i] }' > "$work/ecg"
awk 'function random() { state = (state * 1103515245 + 12345) % 2147483648; return state / 2147483648 }
    BEGIN { state = 12345; for (i = 0; i < 32000; i++) printf "%.0f\n", int(2000 * random()) }' > "$work/noise"

# the least nanoseconds of five runs: a series, how, the window, the workers
nanoseconds() {
    for _ in 1 2 3 4 5; do
        "$program" "$2" 8 "$3" "$4" timed < "$work/$1" > "$work/out"
        sed -n 1p "$work/out" >> "$work/found"
        sed -n 's/ nanoseconds$//p' "$work/out"
    done | sort -n | head -n 1
}

for series in ecg noise; do
    for window in 16 160 1024; do
        : > "$work/found"
        joins=$(nanoseconds "$series" joins "$window" 1)
        consensus=$(nanoseconds "$series" consensus "$window" 1)
        [ "$(sort -u "$work/found" | wc -l)" -eq 1 ]
        awk -v joins="$joins" -v consensus="$consensus" -v series="$series" -v window="$window" 'BEGIN {
            printf "%s, window %d: joins %.0f, consensus %.0f, ratio %.2f\n", series, window, joins / 1000000,
                consensus / 1000000, consensus / joins
        }'
    done
done

# the time of the slowest of four runs at once
together() {
    for k in 1 2 3 4; do
        "$program" consensus 8 160 1 timed < "$work/$1" | sed -n 's/ nanoseconds$//p' > "$work/time.$k" &
    done
    wait
    cat "$work"/time.* | sort -n | tail -n 1
}

for series in ecg noise; do
    four_runs=$(for _ in 1 2 3 4 5; do together "$series"; done | sort -n | head -n 1)
    four_workers=$(nanoseconds "$series" consensus 160 4)
    awk -v runs="$four_runs" -v workers="$four_workers" -v series="$series" \
        'BEGIN { printf "%s, four workers by four runs: %.2f\n", series, runs / (4 * workers) }'
done
