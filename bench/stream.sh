#!/bin/sh
# Nanoseconds for each append and earlier window at window 128, where the 20,000 samples of `ecg.csv` are appended one by
# one: of a stream and of `stream.cpp` with sums of 64 bits, and of both with sums of 128 bits where the samples are spread
# over the whole range of 32 bits. Each is timed five times in turn, the least counts, and both have to find the same
# profile. Then the same samples, one in each `append` line of a session: all that the program takes for them, beside the
# C++ program with sums of 64 bits. Then a store of the last 20,000 samples beside a stream of 40,000, which has 20,000
# halfway; the seconds and the greatest memory of a million and of ten million appends to a store of 1,000 samples; and the
# memory for each sample that is kept, by full stores of 1,000 and of 262,144. Needs g++, GNU time and the programs: `rt run`
# in crates/stream_bench and in crates/mprof once.
set -eu
here="$(dirname "$0")"
stream="$here/../crates/stream_bench/out/stream_bench"
mprof="$here/../crates/mprof/out/mprof"
work="$(mktemp -d)"
trap 'rm -rf "$work"' EXIT

g++ -O3 -march=x86-64-v2 -o "$work/plain" "$here/stream.cpp"
tr -d '\r' < "$here/../crates/stored_runs/data/series/ecg.csv" | awk -F, 'NR > 1 { print $2 }' > "$work/64"
awk '{ print ($1 - 1203) * 3890000 }' "$work/64" > "$work/128"
sed 's/^/append 0 /' "$work/64" > "$work/lines"

# the name of a program, the samples, and the words that run it
run() {
    name="$1"
    samples="$2"
    shift 2
    "$@" < "$work/$samples" > "$work/out"
    sed -n 1p "$work/out" >> "$work/profile.$samples"
    sed -n 's/ nanoseconds$//p' "$work/out" >> "$work/$name.$samples"
}

for _ in 1 2 3 4 5; do
    for bits in 64 128; do
        run stream "$bits" "$stream" 128 timed
        run plain "$bits" "$work/plain" "$bits" 128
    done
    start=$(date +%s%N)
    "$mprof" --window 128 < "$work/lines" > "$work/out"
    echo $(($(date +%s%N) - start)) >> "$work/session"
done

for bits in 64 128; do
    [ "$(sort -u "$work/profile.$bits" | wc -l)" -eq 1 ]
    least_stream=$(sort -n "$work/stream.$bits" | head -n 1)
    least_plain=$(sort -n "$work/plain.$bits" | head -n 1)
    awk -v bits="$bits" -v stream="$least_stream" -v plain="$least_plain" 'BEGIN {
        windows = 20000 - 127
        pairs = windows * (windows - 1) / 2
        printf "%d bits: stream %.2f, C++ %.2f, ratio %.2f\n", bits, stream / pairs, plain / pairs, stream / plain
    }'
done

least_session=$(sort -n "$work/session" | head -n 1)
least_plain=$(sort -n "$work/plain.64" | head -n 1)
awk -v session="$least_session" -v plain="$least_plain" 'BEGIN {
    printf "a session of 20,000 lines: %.2f seconds, C++ %.2f, ratio %.2f\n", session / 1e9, plain / 1e9, session / plain
}'

cat "$work/64" "$work/64" > "$work/twice"
for _ in 1 2 3 4 5; do
    "$stream" 128 20000 2 < "$work/64" | sed -n 's/ nanoseconds$//p' >> "$work/kept"
    "$stream" 128 timed < "$work/twice" | sed -n 's/ nanoseconds$//p' >> "$work/all"
done
least_kept=$(sort -n "$work/kept" | head -n 1)
least_all=$(sort -n "$work/all" | head -n 1)
awk -v kept="$least_kept" -v all="$least_all" 'BEGIN {
    kept = kept / (20000 * (20000 - 127))
    all = all / ((40000 - 127) * (40000 - 128) / 2)
    printf "20,000 samples: kept %.2f, of a stream %.2f, ratio %.2f\n", kept, all, kept / all
}'

# the seconds and the kB that a store of so many samples takes, where those of the input are appended so many times
sizes() {
    env time -f "%e %M" -o "$work/sizes" "$stream" 128 "$1" "$2" < "$work/64" > "$work/out"
    cat "$work/sizes"
}

echo "1,000 kept, a million appends (seconds, kB): $(sizes 1000 50)"
echo "1,000 kept, ten million appends (seconds, kB): $(sizes 1000 500)"
few=$(sizes 1000 14)
many=$(sizes 262144 14)
echo "$few $many" | awk '{ printf "bytes for each sample that is kept: %.0f\n", ($4 - $2) * 1024 / (262144 - 1000) }'
