#!/usr/bin/env bash
# Counts the instructions of the library's calls by valgrind, independent of the load, and compares them with the
# stored ones (bench/pie_c_count.txt): a mean over 1000 calls of a kind (bench/pie_c_count.c), inside the library
# only; at a link for one event, and for a burst of 32. The last is the mean of an event that the
# flight recorder keeps (bench/pie_flight.c). The exit status is 1 if a kind of call grew.
# usage: bench/pie_c_count.sh [--store | --within PERCENT]    after bindings/c/library.py
#        --store: stores the counts; --within: the exit status is 1 only if a kind grew by more than PERCENT
set -eu
cd "$(dirname "$0")/.."
for tool in "${CC:-cc}" valgrind; do
    if ! command -v "$tool" > /dev/null; then
        echo "NOT RUN: bench/pie_c_count.sh: no $tool here, so no instructions were counted"
        exit 0
    fi
done
work=$(mktemp -d)
trap 'rm -rf "$work"' EXIT
stored=bench/pie_c_count.txt
within=0
if [ "${1-}" = --within ]; then
    within=$2
fi
"${CC:-cc}" -O2 -Iinclude -o "$work/count" bench/pie_c_count.c crates/pie_link_c/out/libpie_link_c.a crates/pie_c/out/libpie_c.a -pthread
for kind in arrive_considered arrive_passed arrive_dropped depart_measured depart_unmeasured update update_too_soon empty reset set_params \
    arrive_event write_event link_arrive link_depart link_arrive_all link_depart_all; do
    case $kind in
        set_params | arrive_event | write_event) call=pie_$kind ;;
        link_*) call=pie_link_try_${kind#link_} ;;
        *) call=pie_${kind%%_*} ;;
    esac
    valgrind --tool=callgrind --callgrind-out-file=/dev/null --toggle-collect="$call" "$work/count" "$kind" 1000 2> "$work/said"
    echo "$kind $(($(awk '/Collected/ {print $NF}' "$work/said") / 1000))"
done > "$work/counted"
# an event that the flight recorder keeps, half of them arrivals: what it takes beside the event alone
"${CC:-cc}" -O2 -std=gnu11 -Iinclude -o "$work/flight" bench/pie_flight.c crates/pie_c/out/libpie_c.a -pthread
for kind in alone kept; do
    events=$(valgrind --tool=callgrind --callgrind-out-file=/dev/null --toggle-collect=$kind "$work/flight" 100000 16 count $kind 2> "$work/said")
    echo "$(awk '/Collected/ {print $NF}' "$work/said") ${events%% *}"
done | awk '{taken[NR] = $1} END {printf "flight_keep %d\n", (taken[2] - taken[1]) / $2}' >> "$work/counted"
if [ "${1-}" = --store ]; then
    cp "$work/counted" "$stored"
fi
awk -v within="$within" 'NR == FNR {before[$1] = $2; next}
    {has_grown = $2 * 100 > before[$1] * (100 + within); grew += has_grown
     note = has_grown ? ": IT GREW" : $2 < before[$1] ? ": fewer" : ""
     printf "%-18s %4d instructions, stored %4d%s\n", $1, $2, before[$1], note}
    END {exit grew > 0}' "$stored" "$work/counted"
