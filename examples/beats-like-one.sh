#!/bin/sh
# Where else does this beat come?
. "$(dirname "$0")/common.sh"
session ecg_beats_like_one "match 1.0 1.0 3040 100000000 100" "match 1.1 1.1 3040 100000000 100"

column ecg-5500.csv 1 > "$work/series"
windows ecg-5500.csv 1 128 $(report 4 | awk '{ print $2 }') > "$work/by-samples"
windows ecg-5500.csv 1 128 $(report 6 | awk '{ print $2 }') > "$work/by-steps"
report 7 | awk 'NR <= 13 { print NR - 1, $1 / 1000000 }' > "$work/of-samples"
report 8 | awk 'NR <= 13 { print NR - 1, $1 / 1000 }' > "$work/of-steps"

draw 600 <<'END'
mv(adc) = (adc - 1024) / 200.0
eval panels(3)
set xrange [0:4000]
set ylabel "mV"
set yrange [-1.5:3]
set ytics 1
set label 1 "by the samples: all within 1,500,000" at graph 0.45, 0.97
set label 2 "asked for" at 3085, 2.2 center
plot work."series" using 1:(mv($2)) every 2 with lines ls 1, \
     work."by-samples" using 1:(mv($2)) with lines ls 3
set label 1 "by the steps from each sample to the next: all within 12,000"
plot work."series" using 1:(mv($2)) every 2 with lines ls 1, \
     work."by-steps" using 1:(mv($2)) with lines ls 4
unset label 1
unset label 2
set label 1 "radius: 1,500,000 and 12,000" at -0.4, 1.68
set xlabel "place in the list of matches"
set key top left reverse Left
set xrange [-0.5:12.5]
set yrange [0:3.6]
set xtics 1
set ylabel "DIST"
# both radii at one height
set y2range [0:28.8]
set y2tics 5
plot work."of-samples" using ($1 - 0.1):2 with impulses ls 3 linewidth 6 title "by the samples, in millions", \
     work."of-steps" using ($1 + 0.1):2 axes x1y2 with impulses ls 4 linewidth 6 title "by the steps, in thousands (at the right)", \
     1.5 with lines ls 1 dashtype 2 notitle
END
