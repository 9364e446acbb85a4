#!/bin/sh
# Where does the recording change?
. "$(dirname "$0")/common.sh"
session ecg_noise_begins "profile 0"

column ecg-17500.csv 1 > "$work/series"
report 2 | tr / ' ' | awk 'NR == 1 { print $1, $2 / $3 }' > "$work/change"
report 3 > "$work/profile"
# The corrected arc curve, counted from the profile.
awk '{ if ($3 != "-") { arcs[$1 < $3 ? $1 : $3]++; arcs[$1 < $3 ? $3 : $1]-- } }
    END { for (t = 0; t < NR; t++) { over += arcs[t]; if (t) { c = over * NR / (2 * t * (NR - t)); print t, c < 1 ? c : 1 } } }' \
    "$work/profile" > "$work/curve"

draw 440 <<'END'
mv(adc) = (adc - 1024) / 200.0
change = real(system("cut -d' ' -f1 ".work."change"))
eval panels(2)
set xrange [0:2500]
set arrow 1 from change, graph 0 to change, graph 1 nohead ls 3
set ylabel "mV"
set label 1 sprintf("the change, at %d", change) at change + 20, graph 0.95
plot work."series" using 1:(mv($2)) with lines ls 1
set xlabel "sample, 360 a second"
set ylabel "arcs, of those by chance"
set yrange [0:1.05]
unset label 1
set label 2 "0.3: below it is a change" at 520, 0.36
# five windows from both ends no place is listed; there are 2,401 places
set object 1 rectangle from 0, graph 0 to 500, graph 1 fillcolor rgb "#e3e6ea" fillstyle solid noborder behind
set object 2 rectangle from 1901, graph 0 to 2401, graph 1 fillcolor rgb "#e3e6ea" fillstyle solid noborder behind
set label 3 "none is listed here" at 250, 0.08 center
set label 4 "none is listed here" at 2151, 0.08 center
plot work."curve" with lines ls 2, 0.3 with lines ls 1 dashtype 2, \
     work."change" with points pointtype 7 linecolor rgb "#d1495b"
END
