#!/bin/sh
# Which week was odd for several sensors at once?
. "$(dirname "$0")/common.sh"
session seattle_cold_week

for sensor in 1 2 3; do
    column seattle-gap.csv "$sensor" > "$work/sensor$sensor"
done
report 5 > "$work/all"
report 6 > "$work/all-with-gap"
report 7 > "$work/two-with-gap"
sort -n -r -k 2 "$work/two-with-gap" | head -n 1 > "$work/odd"

draw 640 <<'END'
odd = real(system("cut -d' ' -f1 ".work."odd"))
eval panels(4)
set xrange [965:1165]
set xtics ("2014-09" 974, "2014-10" 1004, "2014-11" 1035, "2014-12" 1065, "2015-01" 1096, "2015-02" 1127, "2015-03" 1155)
set object 1 rectangle from odd, graph 0 to odd + 7, graph 1 fillcolor rgb "#e3e6ea" fillstyle solid noborder behind
set ylabel "degrees C"
set yrange [-5:45]
set ytics 10
set key top right
set label 1 sprintf("the odd week, from day %d on", odd) at odd - 1, graph 0.93 right
plot work."sensor1" using 1:2 with lines ls 4 title "greatest of the day", \
     work."sensor2" using 1:2 with lines ls 2 title "least of the day, with a gap"
unset label 1
set ylabel "m/s"
set yrange [0:12]
set ytics 4
plot work."sensor3" using 1:2 with lines ls 1 title "wind"
set ylabel "DIST / 1000"
set yrange [0:28]
set ytics 10
plot work."all" using 1:($2 / 1000) with lines ls 1 title "all three, without a gap", \
     work."all-with-gap" using 1:($2 / 1000) with lines ls 3 title "all three, with the gap: 32 weeks have none"
set yrange [0:12]
set ytics 5
set xlabel "a week's first day"
plot work."two-with-gap" using 1:($2 / 1000) with lines ls 3 title "the two nearest of three, with the gap"
END
