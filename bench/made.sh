#!/bin/sh
# Seconds and the most memory in kB that the summary of a made series takes at window 128: of 65,536 samples by one worker
# and by four, and of 262,144 by four. Needs the program: `rt run` in crates/mprof once. Each is timed three times.
set -eu
program="$(dirname "$0")/../crates/mprof/out/mprof"

made() {
    for _ in 1 2 3; do
        env time -f "$1 samples, workers: $2: %e s, %M kB" \
            "$program" --window 128 --generate 7 --count "$1" --workers "$2" 2>&1 > /dev/null
    done
}

made 65536 1
made 65536 4
made 262144 4
