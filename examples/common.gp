# What the pictures share: their size, their lines and colours.
set terminal svg size 900, height dynamic font "sans-serif,12" background rgb "white"
set output picture
set tics nomirror out
set border 3
set key off
set ylabel offset 1
set style line 1 linecolor rgb "#44546a" linewidth 1
set style line 2 linecolor rgb "#1f6fb2" linewidth 1
set style line 3 linecolor rgb "#d1495b" linewidth 2
set style line 4 linecolor rgb "#e8a33d" linewidth 2
# Some panels, one under the other.
panels(count) = sprintf("set multiplot layout %d,1 margins 0.085,0.95,%f,0.96 spacing 0,%f", count, 64.0 / height, 44.0 / height)
