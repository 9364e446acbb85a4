#!/bin/sh
# Seconds that 256 MiB of comment lines of 1 KiB take, and what `wc -l` takes on the same file. Needs the program: `rt run`
# in crates/mprof once. Each is timed three times.
set -eu
program="$(dirname "$0")/../crates/mprof/out/mprof"
lines="$(mktemp)"
trap 'rm -f "$lines"' EXIT

comment="# $(head -c 1021 /dev/zero | tr '\0' 'x')"
yes "$comment" | head -n 262144 > "$lines"

seconds() {
    start=$(date +%s.%N)
    "$@" < "$lines" > /dev/null
    awk -v start="$start" -v end="$(date +%s.%N)" 'BEGIN { printf "%.2f\n", end - start }'
}

for _ in 1 2 3; do
    echo "mprof: $(seconds "$program" --window 3)"
    echo "wc -l: $(seconds wc -l)"
done
