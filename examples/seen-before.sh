#!/bin/sh
# Has this year been seen before?
. "$(dirname "$0")/common.sh"
session elnino_seen_before "join 0 1"

column elnino.csv 1 > "$work/series"
sed -n 's/^append 1 //p' "$runs/elnino_seen_before/input" | tr ' ' '\n' | awk '{ print 573 + NR - 1, $1 }' > "$work/year"
windows elnino.csv 1 12 $(report 4 | awk 'NR == 1 { print $2 }') > "$work/found"
# Of the windows that begin in one year the one that is nearest to the year asked for, the only window of slot 1.
report 6 | awk '
    { year = int($1 / 12); if (!(year in least) || $2 < least[year]) { least[year] = $2; start[year] = $1 } }
    END { for (year in least) print start[year], least[year] }' | sort -n > "$work/years"
sort -n -k 2 "$work/years" | head -n 1 > "$work/nearest"

draw 480 <<'END'
year(month) = 1950 + month / 12.0
eval panels(2)
set xrange [1950:2000]
set ylabel "degrees C"
set key top left horizontal
plot work."series" using (year($1)):2 with lines ls 1 notitle, \
     work."year" using (year($1)):2 with lines ls 4 title "the year asked for", \
     work."found" using (year($1)):2 with lines ls 3 title "the nearest one before"
set key off
set label 1 "how far the year asked for is from the nearest twelve months that begin in each year" at graph 0.01, 0.96
set label 2 "from November 1982: 0.35" at 1983.4, 0.35
set ylabel "degrees C apart"
set xlabel "year in which the twelve months begin"
set yrange [0:5.5]
set ytics 1
plot work."years" using (year($1)):(sqrt($2 / 12) / 1000) with points ls 2 pointtype 7 pointsize 0.5, \
     work."nearest" using (year($1)):(sqrt($2 / 12) / 1000) with points ls 3 pointtype 7 pointsize 0.9
END
