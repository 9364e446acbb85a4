#!/bin/sh
# Which window length?
. "$(dirname "$0")/common.sh"
session ecg_window_lengths
report 2 > "$work/ecg"
session co2_window_lengths
report 2 > "$work/co2"

draw 520 <<'END'
eval panels(2)
set logscale y
set key at graph 0.72, graph 0.62
set style arrow 1 nohead dashtype 2 linecolor rgb "#44546a"
set ylabel "units from sample to sample"
set xrange [40:240]
set yrange [3:200]
set arrow from 200, 3 to 200, 200 arrowstyle 1
set label "a beat: 200 samples of the electrocardiogram" at 199, 150 right
plot work."ecg" using 1:(sqrt($6 / $1)) with lines ls 2 title "the oddest window from its nearest one", \
     work."ecg" using 1:(sqrt($3 / $1)) with lines ls 3 title "the nearest pair"
unset arrow
unset label
set key off
set ylabel "ppm from week to week"
set xlabel "how many samples, or weeks, a window has"
set xrange [10:120]
set yrange [0.1:10]
set arrow from 52, 0.1 to 52, 10 arrowstyle 1
set label "a year: 52 weeks of carbon dioxide in the air" at 52.7, 7 left
plot work."co2" using 1:(sqrt($6 / $1) / 10) with lines ls 2, \
     work."co2" using 1:(sqrt($3 / $1) / 10) with lines ls 3
END
