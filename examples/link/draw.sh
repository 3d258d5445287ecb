#!/usr/bin/env bash
# Draws the queueing delay and the probability of each update over time, for one or more histories.
# usage: examples/link/draw.sh PICTURE TITLE=HISTORY..
set -eu
picture=$1
shift
work=$(mktemp -d)
trap 'rm -rf "$work"' EXIT
colours=('#888888' '#1f5fa8' '#3a8a3a' '#b0303a')
delays='' probabilities='' number=0
for word in "$@"; do
    awk -F, '$1 == "update" { print $3 / 1e9 "," $4 / 1e6 "," $5 / 1e10 }' "${word#*=}" > "$work/$number.csv"
    style="with lines lw 1 lc rgb \"${colours[number % 4]}\" title \"${word%%=*}\""
    delays="$delays \"$work/$number.csv\" using 1:2 $style,"
    probabilities="$probabilities \"$work/$number.csv\" using 1:3 $style,"
    number=$((number + 1))
done
gnuplot <<PLOT
set terminal pngcairo size 800,460 font "sans,9"
set output "$picture"
set datafile separator ","
set multiplot layout 2,1 margins 0.08,0.97,0.09,0.97 spacing 0.06
set grid
set key top right horizontal
set offsets 0, 0, graph 0.2, 0
set xrange [0:*]
set yrange [0:*]
set ylabel "queueing delay, ms"
plot $delays 15 with lines dt 2 lc rgb "black" title "target"
set ylabel "probability, per cent"
set xlabel "seconds"
plot ${probabilities%,}
PLOT
