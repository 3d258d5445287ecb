#!/usr/bin/env bash
# Draws the mean waits of the scenarios by rate and queue: the mean over the runs, from the least to the greatest.
# usage: bindings/ns3/draw.sh RESULTS.csv PICTURE
set -eu
here=$(cd "$(dirname "$0")" && pwd)
work=$(mktemp -d)
trap 'rm -rf "$work"' EXIT
"$here/table.py" "$1" plot > "$work/waits"
rates=$(cut -d' ' -f1 "$work/waits" | uniq)
{
    count=$(wc -w <<< "$rates")
    echo "set terminal pngcairo size 900,$((count * 260 + 20)) font 'sans,9'"
    echo "set output '$2'"
    echo "set multiplot layout $count,1"
    echo 'set bmargin 4; set lmargin 8; set rmargin 2; set grid ytics; set yrange [0:*]; set bars 0.6'
    echo 'set key top center horizontal; set offsets 0, 0, graph 0.25, 0'
    for rate in $rates; do
        grep "^$rate " "$work/waits" > "$work/$rate"
        echo "set xrange [-0.5:$(($(wc -l < "$work/$rate") - 1)).5]"
        echo "set ylabel 'mean wait at $rate Mbit/s, ms'"
        echo "plot '$work/$rate' using (\$2-0.24):4:5:6:xtic(3) with yerrorbars pt 5 ps 0.8 lc rgb '#888888' title 'tail drop', \\"
        echo "  '' using (\$2-0.08):7:8:9 with yerrorbars pt 7 ps 0.9 lc rgb '#1f5fa8' title 'PIE, this repository', \\"
        echo "  '' using (\$2+0.08):10:11:12 with yerrorbars pt 9 ps 0.9 lc rgb '#b0303a' title 'PieQueueDisc, de-randomized', \\"
        echo "  '' using (\$2+0.24):13:14:15 with yerrorbars pt 11 ps 0.9 lc rgb '#3a8a3a' title 'PieQueueDisc, not de-randomized'"
        echo 'unset key; unset offsets'
    done
} | gnuplot
