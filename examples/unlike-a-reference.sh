#!/bin/sh
# What is in this recording that isn't in that one?
. "$(dirname "$0")/common.sh"
session ecg_unlike_a_reference "profile 1"

column ecg-10650.csv 1 > "$work/reference"
column ecg-8000.csv 1 > "$work/series"
report 10 > "$work/join"
report 11 > "$work/profile"
# Of each stretch of windows far from the reference, the furthest one.
windows ecg-8000.csv 1 128 $(awk '
    $2 > 1500000 { if ($2 > most) { most = $2; start = $1 } next }
    most { print start; most = 0 }' "$work/join") > "$work/unlike"

draw 600 <<'END'
mv(adc) = (adc - 1024) / 200.0
eval panels(3)
set xrange [0:2000]
set ylabel "mV"
set yrange [-1.5:2.5]
set label 1 "the reference" at graph 0.01, 0.95
plot work."reference" using 1:(mv($2)) with lines ls 1
set label 1 "the recording"
plot work."series" using 1:(mv($2)) with lines ls 1, \
     work."unlike" using 1:(mv($2)) with lines ls 3
unset label 1
set xlabel "sample, 360 a second"
set ylabel "mV to the nearest"
set yrange [0:*]
set key top right
plot work."join" using 1:(sqrt($2 / 128) / 200) with lines ls 3 title "window of the reference", \
     work."profile" using 1:(sqrt($2 / 128) / 200) with lines ls 2 title "other window of the recording"
END
