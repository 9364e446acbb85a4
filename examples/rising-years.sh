#!/bin/sh
# What drifts?
. "$(dirname "$0")/common.sh"
session co2_rising_years "profile 0"

column co2-weekly.csv 1 > "$work/series"
windows co2-weekly.csv 1 52 $(report 3) > "$work/chain"
report 6 > "$work/profile"
report 3 | awk '{ print $1 }' > "$work/starts"
awk 'NR == FNR { in_chain[$1]; next } $1 in in_chain' "$work/starts" "$work/profile" > "$work/links"

draw 480 <<'END'
year(week) = 1958.24 + week * 7 / 365.25
eval panels(2)
set xrange [1958:2002]
set ylabel "ppm"
set key top left
plot work."series" using (year($1)):2 with lines ls 1 notitle, \
     work."chain" using (year($1)):2 with lines ls 3 title "the longest chain, 15 years"
set key off
set ylabel "ppm to the nearest"
set xlabel "year in which a window begins"
set yrange [0:*]
plot work."profile" using (year($1)):(sqrt($2 / 52) / 10) with lines ls 2, \
     work."links" using (year($1)):(sqrt($2 / 52) / 10) with points pointtype 7 pointsize 0.5 linecolor rgb "#d1495b"
END
