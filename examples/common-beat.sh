#!/bin/sh
# What do several recordings have in common?
. "$(dirname "$0")/common.sh"
session ecg_common_beat

for file in ecg-4000 ecg-8000 ecg-10650 ecg-17500; do
    column $file.csv 1 > "$work/$file"
done
report 8 | while read -r place distance start; do
    file=$(echo ecg-4000 ecg-8000 ecg-10650 ecg-17500 | cut -d' ' -f $((place + 1)))
    windows $file.csv 1 200 "$start" > "$work/found$place"
    awk -v start="$start" 'NF { print $1 - start, $2 }' "$work/found$place" > "$work/aligned$place"
done

draw 720 <<'END'
mv(adc) = (adc - 1024) / 200.0
eval panels(5)
set xrange [0:2500]
set yrange [-1.6:3]
set ytics 1
set ylabel "mV"
files = "ecg-4000 ecg-8000 ecg-10650 ecg-17500"
# a colour for each recording
set style line 10 linecolor rgb "#d1495b" linewidth 2
set style line 11 linecolor rgb "#e8a33d" linewidth 2
set style line 12 linecolor rgb "#1f6fb2" linewidth 2
set style line 13 linecolor rgb "#3a8f5c" linewidth 2
do for [place = 0:3] {
    set label 1 "recording ".place at graph 0.01, 0.95
    plot work.word(files, place + 1) using 1:(mv($2)) every 2 with lines ls 1, \
         work."found".place using 1:(mv($2)) with lines ls 10 + place
}
set label 1 "the four windows, one over the other"
set xlabel "sample, 360 a second"
set xrange [0:200]
set yrange [-1:2]
set key top right maxrows 2
plot for [place = 0:3] work."aligned".place using 1:(mv($2)) \
    with lines ls 10 + place linewidth 1.5 title "recording ".place
END
