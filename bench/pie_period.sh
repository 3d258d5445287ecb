#!/usr/bin/env bash
# Measures the cost of adding an event to the sums of an interval (bench/pie_period.c): a call such as
# pie_arrive_summed, compared with the call that only records the event. Prints the least and the
# median time of each, and their difference. If valgrind is installed, it also prints the
# instructions of each.
#
# usage: bench/pie_period.sh    after `rt lib` in crates/pie_c
set -eu
cd "$(dirname "$0")/.."
work=$(mktemp -d)
trap 'rm -rf "$work"' EXIT
"${CC:-cc}" -O2 -std=gnu11 -Iinclude -o "$work/period" bench/pie_period.c crates/pie_c/out/libpie_c.a
"$work/period" > "$work/lines"
python3 bench/ratios.py "$work/lines" arrive_summed/arrive depart_summed/depart stream_summed/stream more_arrive more_depart more_stream
if ! command -v valgrind > /dev/null; then
    echo "NOT RUN: bench/pie_period.sh: no valgrind here, so no instructions were counted"
    exit 0
fi
for kind in arrive arrive_summed depart depart_summed stream stream_summed; do
    valgrind --tool=callgrind --callgrind-out-file=/dev/null --toggle-collect="$kind" "$work/period" count "$kind" 2> "$work/said"
    echo "$kind: $(awk '/Collected/ {printf "%.1f", $NF / 1024}' "$work/said") instructions"
done
