#!/bin/sh
# Nanoseconds a pair of windows in tiles of 256 diagonals, each the least of three runs. First a table of profiles by
# one worker, in turn with `scan.cpp`: with sums of 64 bits, many diagonals at once, and with sums of 128 bits, one
# diagonal after another. The first of these is timed on a series of as many samples whose sums 64 bits hold, and has to
# find the same profile where it is the same series; the second always has to, save where samples are missing. Then
# profiles by one tile after another and by four workers, and AB-joins of two halves. At last, what four workers reach
# of what four runs of one worker reach at the same time: by the least of three rounds of each, where a round of four
# runs counts by the one that ends last. It takes some minutes, and needs g++ and the program: `rt run` in
# crates/scan_bench once.
set -eu
here="$(dirname "$0")"
program="$here/../crates/scan_bench/out/scan_bench"
work="$(mktemp -d)"
trap 'rm -rf "$work"' EXIT
g++ -O3 -march=x86-64-v2 -o "$work/plain" "$here/scan.cpp"

# numbers from 0 on and below 1, always the same
random='function random() { state = (state * 1103515245 + 12345) % 2147483648; return state / 2147483648 }
    BEGIN { state = 12345 }'

# a made series of so many samples, by what is printed of place i
made() {
    awk -v samples="$1" "$random
    BEGIN { for (i = 0; i < samples; i++) { $2; printf \"%.0f\\n\", x } }"
}

# an electrocardiogram of 11 bits, and the same with random low bits
tr -d '\r' < "$here/../crates/stored_runs/data/series/ecg.csv" | awk -F, 'NR > 1 { print $2 }' > "$work/ecg"
awk "$random { print (\$1 - 1000) * 32 + int(32 * random()) }" "$work/ecg" > "$work/ecg16"
awk "$random { printf \"%.0f\\n\", (\$1 - 1203) * 2097152 + int(2097152 * random()) }" "$work/ecg" > "$work/ecg32"
awk "$random { printf \"%.0f\\n\", (\$1 - 1203) * 137438953472 + int(137438953472 * random()) }" "$work/ecg" > "$work/ecg48"
awk '{ print NR % 1000 == 500 ? "?" : $1 }' "$work/ecg" > "$work/gaps"
made 20000 'x = int(4 * random())' > "$work/levels"
made 20000 'x = 1000' > "$work/constant"
made 20000 'if (i % 300 == 0) level = (random() - 0.5) * 4000000000; x = int(level + 100 * random())' > "$work/steps"
made 20000 'x = i % 1000 == 500 ? -2147483648 : int(3000 * sin(i / 20) + 400 * random())' > "$work/faults"
made 65536 'x = int(3000 * sin(i / 20) + 1000 * sin(i / 333) + 400 * random())' > "$work/made"
made 65536 'x += int(9 * random()) - 4' > "$work/walk"
made 65536 'x = int(2000 * random())' > "$work/noise"
made 65536 'y += random() - 0.5; x = int(y * 5000000)' > "$work/walk32"
made 65536 'x = int((random() - 0.5) * 4000000000)' > "$work/noise32"

# the time of one run, which is the word before the last line's end
nanoseconds() {
    "$program" "$2" 128 256 "$3" timed < "$work/$1" | sed -n 's/ nanoseconds$//p'
}

# the pairs that are compared: of series, body and window
pairs() {
    awk -v samples="$(wc -l < "$work/$1")" -v body="$2" -v window="$3" 'BEGIN {
        windows = samples + 1 - window
        apart = int((window + 3) / 4) + 1
        half = samples / 2 + 1 - window
        printf "%.0f\n", body == "join" ? half * half : (windows - apart) * (windows - apart + 1) / 2
    }'
}

nanoseconds_a_pair() {
    least=$(for _ in 1 2 3; do nanoseconds "$1" "$2" "$3"; done | sort -n | head -n 1)
    awk -v least="$least" -v pairs="$(pairs "$1" "$2" 128)" -v name="$1, $2, workers: $3" \
        'BEGIN { printf "%s: %.2f\n", name, least / pairs }'
}

# a line of the table: a series, a window, and the series that is scanned with sums of 64 bits
line() {
    rm -f "$work/found" "$work/scan" "$work/narrow" "$work/wide"
    for _ in 1 2 3; do
        "$program" workers "$2" 256 1 timed < "$work/$1" > "$work/out"
        sed -n 1p "$work/out" >> "$work/found"
        sed -n 's/ nanoseconds$//p' "$work/out" >> "$work/scan"
        "$work/plain" "$2" < "$work/$3" > "$work/out"
        [ "$1" != "$3" ] || sed -n 1p "$work/out" >> "$work/found"
        sed -n 's/ nanoseconds$//p' "$work/out" >> "$work/narrow"
    done
    if [ "$1" = gaps ]; then
        "$work/plain" "$2" wide < "$work/$3" > "$work/out"
    else
        "$work/plain" "$2" wide < "$work/$1" > "$work/out"
        sed -n 1p "$work/out" >> "$work/found"
    fi
    sed -n 's/ nanoseconds$//p' "$work/out" > "$work/wide"
    [ "$(sort -u "$work/found" | wc -l)" -eq 1 ]
    awk -v scan="$(sort -n "$work/scan" | head -n 1)" -v narrow="$(sort -n "$work/narrow" | head -n 1)" \
        -v wide="$(cat "$work/wide")" -v pairs="$(pairs "$1" workers "$2")" -v series="$1" -v window="$2" 'BEGIN {
        printf "%-9s %6d %7.2f %7.2f %7.2f\n", series, window, scan / pairs, scan / narrow, scan / wide
    }'
}

echo "series    window ns/pair  by64 by128"
for series in ecg ecg16 ecg32 ecg48; do
    for window in 16 128 1024; do
        line "$series" "$window" ecg
    done
done
for series in gaps steps faults; do
    line "$series" 128 ecg
done
for series in levels constant; do
    line "$series" 128 "$series"
done
for series in made walk noise; do
    line "$series" 128 "$series"
done
line walk32 128 walk
line noise32 128 noise

nanoseconds_a_pair ecg tiles 1
nanoseconds_a_pair ecg join 1
nanoseconds_a_pair ecg workers 4
nanoseconds_a_pair made workers 4

# the time of the slowest of four runs at once
together() {
    for k in 1 2 3 4; do
        nanoseconds "$1" workers 1 > "$work/time.$k" &
    done
    wait
    cat "$work"/time.* | sort -n | tail -n 1
}

for series in ecg made; do
    four_runs=$(for _ in 1 2 3; do together "$series"; done | sort -n | head -n 1)
    four_workers=$(for _ in 1 2 3; do nanoseconds "$series" workers 4; done | sort -n | head -n 1)
    awk -v runs="$four_runs" -v workers="$four_workers" -v series="$series" \
        'BEGIN { printf "%s, four workers by four runs: %.2f\n", series, runs / (4 * workers) }'
done
