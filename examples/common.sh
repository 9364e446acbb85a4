# What the scripts of this folder share. Each runs the session of a stored run and draws what it finds, as NAME.svg beside
# itself. They need the program, or another one whose path is in MPROF, and gnuplot 5.
set -eu
here="$(cd "$(dirname "$0")" && pwd)"
name="$(basename "$0" .sh)"
runs="$here/../crates/stored_runs/data"
program="${MPROF:-$here/../crates/mprof/out/mprof}"
work="$(mktemp -d)"
trap 'rm -rf "$work"' EXIT

# Runs the session of a stored run with more lines behind its own, and keeps what is reported for `report`.
session() {
    run="$1"
    shift
    { cat "$runs/$run/input"; for line in "$@"; do echo "$line"; done; } > "$work/input"
    (cd "$runs/$run" && "$program" $(cat words) < "$work/input" > "$work/output")
}

# The lines below the first one of the report to a line of the session, counted from 1. Lines that begin with `motif` are of
# the report that they stand in.
report() {
    awk -v line="$1" '/^[a-z]/ && $1 != "motif" { inside = ($2 == line); next } inside' "$work/output"
}

# A column of a file of series, counted from 0, without its header: how many samples stand before each, and the sample, or
# NaN, which breaks a line of gnuplot's.
column() {
    tr -d '\r' < "$runs/series/$1" |
        awk -F, -v column="$2" 'NR > 1 { print NR - 2, $(column + 1) == "" ? "NaN" : $(column + 1) }'
}

# The windows of such a column, given their length and starts: a blank line follows each.
windows() {
    file="$1"
    column="$2"
    length="$3"
    shift 3
    for start in "$@"; do
        column "$file" "$column" | tail -n "+$((start + 1))" | head -n "$length"
        echo
    done
}

# Draws what gnuplot reads from standard input, of this height, with `work` as the folder of the data.
draw() {
    { cat "$here/common.gp"; cat; } > "$work/picture.gp"
    gnuplot -e "height=$1; work='$work/'; picture='$here/$name.svg'" "$work/picture.gp"
}
