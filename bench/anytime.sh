#!/bin/sh
# Milliseconds of the diagonals of a series at window 128 by one worker, beside those of its whole profile by tiles,
# each the least of five runs in turn: all diagonals at once, one in a hundred, and one in a hundred a hundred times.
# Then the nanoseconds that an appended sample takes for each covered diagonal, where all are covered. The series are
# the electrocardiogram of 20,000 samples, and the same with random low bits up to 16 and to 48. It takes a minute,
# and needs the program: `rt run` in crates/anytime_bench once.
set -eu
here="$(dirname "$0")"
program="$here/../crates/anytime_bench/out/anytime_bench"
work="$(mktemp -d)"
trap 'rm -rf "$work"' EXIT

random='function random() { state = (state * 1103515245 + 12345) % 2147483648; return state / 2147483648 }
    BEGIN { state = 12345 }'
tr -d '\r' < "$here/../crates/stored_runs/data/series/ecg.csv" | awk -F, 'NR > 1 { print $2 }' > "$work/ecg"
awk "$random { print (\$1 - 1000) * 32 + int(32 * random()) }" "$work/ecg" > "$work/ecg16"
awk "$random { printf \"%.0f\\n\", (\$1 - 1203) * 137438953472 + int(137438953472 * random()) }" "$work/ecg" > "$work/ecg48"

# the time of one run: of series, diagonals, times and appends
nanoseconds() {
    "$program" 128 "$2" "$3" "$4" timed < "$work/$1" | sed -n 's/ nanoseconds$//p'
}

line() {
    for _ in 1 2 3 4 5; do
        nanoseconds "$1" 0 0 0 >> "$work/whole.$1.$2.$3"
        nanoseconds "$1" "$2" "$3" 0 >> "$work/parts.$1.$2.$3"
    done
    whole=$(sort -n "$work/whole.$1.$2.$3" | head -n 1)
    parts=$(sort -n "$work/parts.$1.$2.$3" | head -n 1)
    awk -v name="$1, $3 times $2 diagonals" -v whole="$whole" -v parts="$parts" 'BEGIN {
        printf "%s: %.1f, whole profile: %.1f, ratio %.3f\n", name, parts / 1e6, whole / 1e6, parts / whole
    }'
}

appends() {
    for _ in 1 2 3 4 5; do
        nanoseconds "$1" 19840 1 1000 >> "$work/appends.$1"
    done
    sort -n "$work/appends.$1" | head -n 1 | awk -v name="$1" '{
        printf "%s, an append: %.2f for each covered diagonal\n", name, $1 / 1000 / 19840
    }'
}

for series in ecg ecg16 ecg48; do
    line "$series" 19840 1
    line "$series" 198 1
    line "$series" 198 101
    appends "$series"
done
