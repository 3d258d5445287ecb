#!/usr/bin/env bash
# Draws a history: queueing delay and target, drop probability, drops and marks, and queued bytes
# over time.
# usage: examples/plot.sh HISTORY PNG      needs gnuplot; PIE names the program if `pie` is not on the path
#        TITLE=.. examples/plot.sh ..      a line below the picture
set -eu
history=$1
picture=$2
pie=${PIE:-pie}
work=$(mktemp -d)
trap 'rm -rf "$work"' EXIT
"$pie" explain --all --csv < "$history" > "$work/events.csv"
# The target of the opening, in ms: its first parameter, or 15 ms if it has none; for an excerpt the target in force.
target=$(awk -F, 'NR == 1 { at = $1 == "resume" ? 21 : $1 == "open3" ? 12 : $1 == "open2" ? 8 : 6
    at += $7 == "zero" || $7 == "half"
    printf "%.3f", (NF >= at ? $at : 15000000) / 1e6 }' "$history")
# By the names of the header row: the state after each event, the delay of each update, and the number of drops and
# marks in each hundredth of the time.
awk -F, -v work="$work" '
    NR == 1 { for (i = 1; i <= NF; i++) at[$i] = i; next }
    { moment = $at["effective_moment"] / 1e9; if (NR == 2) first = moment; last = moment
        print moment "," $at["bytes_after"] / 1e3 > (work "/bytes.csv") }
    $at["kind"] == "update" { probability = $at["probability_after"] / 1e10; burst = $at["burst_allowance_after"] / 1e6
        print moment "," $at["delay"] / 1e6 "," probability "," burst > (work "/updates.csv") }
    $at["kind"] == "arrive" { n++; when[n] = moment; how[n] = $at["verdict"] }
    END {
        part = (last - first) / 100; if (part <= 0) part = 1
        for (i = 1; i <= n; i++) { bin = int((when[i] - first) / part); if (bin > 99) bin = 99
            drops[bin] += how[i] == "early" || how[i] == "bytes" || how[i] == "packets"; marks[bin] += how[i] == "mark" }
        for (bin = 0; bin < 100; bin++) print first + (bin + 0.5) * part "," drops[bin] + 0 "," marks[bin] + 0 > (work "/packets.csv")
        printf "%.9f", part > (work "/part")
    }' "$work/events.csv"
if ! [ -s "$work/bytes.csv" ]; then
    echo "examples/plot.sh: $history has no events" >&2
    exit 1
fi
touch "$work/updates.csv"
part=$(cat "$work/part")
delays="$target with lines dt 2 lc 'black' title 'target of $target ms'"
probability="0 with lines lc '#b0303a' notitle"
if [ -s "$work/updates.csv" ]; then
    delays="'$work/updates.csv' using 1:2 with lines lw 2 lc '#1f5fa8' title 'queueing delay at each update',
        '' using 1:4 with lines lc '#999999' title 'burst allowance left', $delays"
    probability="'$work/updates.csv' using 1:3 with steps lw 2 lc '#b0303a' title 'drop probability'"
fi
gnuplot <<PLOT
set terminal pngcairo size 900,900 font "sans,10"
set output "$picture"
set datafile separator ","
set multiplot layout 4,1 margins 0.09,0.97,0.07,0.97 spacing 0.05
stats "$work/bytes.csv" using 1 nooutput name "T"
set xrange [T_min:T_max > T_min ? T_max : T_min + 1]
set grid
set key right top
set ylabel "ms"
set yrange [0:1<*]
plot $(echo $delays)
set ylabel "per cent"
plot $(echo $probability)
set key left top
set yrange [0:2<*]
set ylabel "packets each $(awk "BEGIN { printf \"%.3g\", $part * 1000 }") ms"
set boxwidth $part * 0.9
set style fill solid 0.6
plot "$work/packets.csv" using 1:2 with boxes lc "#b0303a" title "dropped", "" using 1:3 with boxes lc "#3a8a3a" title "marked"
set yrange [0:1<*]
set ylabel "kilobytes waiting"
set xlabel "seconds${TITLE:+: $TITLE}"
plot "$work/bytes.csv" using 1:2 with steps lc "#1f5fa8" notitle
PLOT
