#!/bin/sh
# What does a part of a profile tell?
. "$(dirname "$0")/common.sh"

# The session, with what is known behind each of its parts: the reports to lines 3, 5, 7 and 9.
(cd "$runs/ecg_in_parts" && awk '{ print } /^advance/ { print "partial 0" }' input |
    "$program" $(cat words) > "$work/output")
for line in 3 5 7 9; do
    report "$line" | awk '$2 > most { most = $2; at = $1 } NR % 25 == 0 { print at, most; most = 0 }' > "$work/part$line"
done

draw 640 <<'END'
mv(dist) = sqrt(dist / 160) / 200
eval panels(4)
set xrange [0:20000]
set yrange [0.03:2]
set logscale y
set key top left horizontal
set ylabel "mV"
plot work."part9" using 1:(mv($2)) with lines ls 1 notitle, \
     work."part3" using 1:(mv($2)) with lines ls 3 title "1 % of the diagonals"
plot work."part9" using 1:(mv($2)) with lines ls 1 notitle, \
     work."part5" using 1:(mv($2)) with lines ls 3 title "5 %"
plot work."part9" using 1:(mv($2)) with lines ls 1 notitle, \
     work."part7" using 1:(mv($2)) with lines ls 3 title "20 %"
set xlabel "sample, 360 a second"
plot work."part9" using 1:(mv($2)) with lines ls 2 title "all of them"
END
