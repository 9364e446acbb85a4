#!/bin/sh
# Milliseconds of the profile of several channels together at window 128, beside those of the profiles of each alone, by
# one worker, each the least of three runs: three channels of 20,000 samples of electrocardiograms, of which one, two or
# three are taken together for each pair, and eight. Then what four workers reach of what four runs of one worker reach
# at the same time: by the least of three rounds of each, where a round of four runs counts by the one that ends last.
# At last, the processor time of four workers beside that of one, all on one processor. It takes some minutes, and needs
# the program: `rt run` in crates/multi_bench once.
set -eu
here="$(dirname "$0")"
program="$here/../crates/multi_bench/out/multi_bench"
work="$(mktemp -d)"
trap 'rm -rf "$work"' EXIT

tr -d '\r' < "$here/../crates/stored_runs/data/series/ecg.csv" | awk -F, 'NR > 1 { print $2 }' > "$work/ecg"
# so many channels: the record, begun each time at another sample
channels() {
    for c in $(seq 1 "$1"); do
        awk -v first="$((c * 2000))" '{ line[NR] = $1 }
            END { for (i = 0; i < NR; i++) print line[(first + i) % NR + 1] }' "$work/ecg"
    done > "$work/$1"
}
channels 3
channels 8

# the time of one run: of body, how many are taken together, channels and workers
nanoseconds() {
    "$program" "$1" 128 "$2" "$3" "$4" timed < "$work/$3" | sed -n 's/ nanoseconds$//p'
}

least() {
    for _ in 1 2 3; do nanoseconds "$1" "$2" "$3" "$4"; done | sort -n | head -n 1
}

line() {
    together="$(least multi "$1" "$2" 1)"
    alone="$(least each 1 "$2" 1)"
    awk -v k="$1" -v channels="$2" -v together="$together" -v alone="$alone" 'BEGIN {
        printf "%d of %d channels: %.0f, each alone: %.0f, %.2f times\n", k, channels, together / 1000000,
            alone / 1000000, together / alone
    }'
}

line 1 3
line 2 3
line 3 3
line 4 8

# the time of the slowest of four runs at once
together() {
    for k in 1 2 3 4; do
        nanoseconds multi 2 3 1 > "$work/time.$k" &
    done
    wait
    cat "$work"/time.* | sort -n | tail -n 1
}

four_runs=$(for _ in 1 2 3; do together; done | sort -n | head -n 1)
four_workers=$(least multi 2 3 4)
awk -v runs="$four_runs" -v workers="$four_workers" \
    'BEGIN { printf "2 of 3 channels, four workers by four runs: %.2f\n", runs / (4 * workers) }'

# the processor time of three runs, on the first processor
seconds() {
    (
        for _ in 1 2 3; do
            taskset -c 0 "$program" multi 128 "$1" "$2" "$3" < "$work/$2" > "$work/found"
        done
        times > "$work/times"
    )
    awk 'NR == 2 { split($1, own, "[ms]"); split($2, kernel, "[ms]")
        print 60 * (own[1] + kernel[1]) + own[2] + kernel[2] }' "$work/times"
}

shared_work() {
    awk -v one="$(seconds "$1" "$2" 1)" -v four="$(seconds "$1" "$2" 4)" -v k="$1" -v channels="$2" 'BEGIN {
        printf "%d of %d channels: four workers together have %.2f times the work of one\n", k, channels, four / one
    }'
}

shared_work 2 3
shared_work 4 8
