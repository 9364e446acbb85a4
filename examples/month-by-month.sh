#!/bin/sh
# What is new this month?
. "$(dirname "$0")/common.sh"
# The session of the stored run, from 1970 on in place of 1997: the newest year after each month.
column elnino.csv 1 > "$work/series"
awk '{ print "append 0", $2 } NR > 240 { print "entry 0", NR - 12 }' "$work/series" |
    "$program" $(cat "$runs/elnino_month_by_month/words") |
    awk '$1 == "entry" { print $3 + 11, $4 }' > "$work/newest"

draw 480 <<'END'
year(month) = 1950 + month / 12.0
limit = 8500000
eval panels(2)
set xrange [1970:2011]
set ylabel "degrees C"
plot work."series" using (year($1)):2 with lines ls 1
set ylabel "degrees C to the nearest before"
set xlabel "month with which a year ends"
set yrange [0:*]
set key top right
plot work."newest" using (year($1)):(sqrt($2 / 12) / 1000) with lines ls 2 notitle, \
     work."newest" using (year($1)):($2 > limit ? sqrt($2 / 12) / 1000 : NaN) with points pointtype 7 pointsize 0.5 \
         linecolor rgb "#d1495b" notitle, \
     sqrt(limit / 12) / 1000 with lines dashtype 2 linecolor rgb "#d1495b" title "the limit, 8,500,000"
END
