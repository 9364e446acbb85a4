#!/bin/sh
# In which weeks was the greatest temperature unlike that of any other week? It draws nothing: it writes the discords of
# a stored run with starts as dates, and distances as degrees from day to day.
. "$(dirname "$0")/common.sh"
session oddest_weeks_of_a_file
report 2 > "$work/discords"

awk -F'[, ]' -v window=7 -v scale=1 '
    NR == FNR { date[NR - 2] = $1; next }
    { printf "%s is %.1f degrees from %s\n", date[$1], sqrt($2 / window) / 10 ^ scale, date[$3] }
' "$runs/series/seattle-weather.csv" "$work/discords"
