#!/usr/bin/env bash
# Counts the instructions of an arrival and of a departure in a flight recorder and in the sums of an interval, by
# valgrind, beside the same work written in C for this purpose alone (bench/peer/record.c, which states what it leaves
# out), and beside a store of 40 bytes and a counter. Prints a table.
#
# usage: bench/pie_record_count.sh    after bindings/c/library.py
set -eu
cd "$(dirname "$0")/.."
if ! command -v valgrind > /dev/null; then
    echo "NOT RUN: bench/pie_record_count.sh: no valgrind here, so no instructions were counted"
    exit 0
fi
work=$(mktemp -d)
trap 'rm -rf "$work"' EXIT
"${CC:-cc}" -O2 -std=gnu11 -Wall -Wextra -Iinclude -o "$work/record" bench/peer/record.c crates/pie_c/out/libpie_c.a

# counted FUNCTION CALLS: the mean number of instructions of a call
counted() {
    valgrind --tool=callgrind --callgrind-out-file=/dev/null --toggle-collect="$1" "$work/record" 2> "$work/said"
    awk -v calls="$2" '/Collected/ {printf "%.1f", $NF / calls}' "$work/said"
}
# row NAME LIBRARY LEAST CALLS [ALONE]: ALONE is the call that does not add to sums
row() {
    local more
    more=$(counted "$2" "$4")
    [ $# -lt 5 ] || more=$(awk -v more="$more" -v alone="$(counted "$5" "$4")" 'BEGIN {printf "%.1f", more - alone}')
    echo "| $1 | $more | $(counted "$3" "$4") |"
}
echo "| instructions | library | written for this purpose |"
echo "|---|---|---|"
row "an arrival that a flight recorder keeps" keep_arrival least_arrival 10000
row "a departure that it keeps" keep_departure least_departure 9984
row "an arrival added to sums" pie_arrive_summed sum_arrival 10000 pie_arrive_event
row "a departure added to sums" pie_depart_summed sum_departure 9984 pie_depart_event
echo "| a store of 40 bytes and a counter | | $(counted least_store 9984) |"
