#!/bin/sh
# Which beat is odd, and which one repeats?
. "$(dirname "$0")/common.sh"
session ecg_odd_beat "profile 0"

column ecg-12500.csv 1 > "$work/series"
report 4 > "$work/profile"
windows ecg-12500.csv 1 160 $(report 2 | awk 'NR == 1 { print $1 }') > "$work/discord"
windows ecg-12500.csv 1 160 $(report 3 | awk '$1 != "motif" { print $2 }') > "$work/motif"

draw 440 <<'END'
mv(adc) = (adc - 1024) / 200.0
eval panels(2)
set xrange [0:1750]
set ylabel "mV"
set yrange [-1.5:2.5]
set key top right horizontal
plot work."series" using 1:(mv($2)) with lines ls 1 notitle, \
     work."motif" using 1:(mv($2)) with lines ls 4 title "the pattern that repeats", \
     work."discord" using 1:(mv($2)) with lines ls 3 title "the discord"
set ylabel "mV to the nearest"
set xlabel "sample, 360 a second"
set yrange [0:*]
set key off
plot work."profile" using 1:(sqrt($2 / 160) / 200) with lines ls 2
END
