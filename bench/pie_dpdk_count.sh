#!/usr/bin/env bash
# Counts the instructions of a packet that is enqueued and dequeued in bursts of 32, by valgrind: through DPDK's rte_pie,
# alone and with events or sums in C for this purpose alone (bindings/dpdk/peer.h), which must be those of the stage; through
# the stage of bindings/dpdk without and with marks, with its flight recorder, and with records of intervals.
# Each burst comes 10 us after the one before. The probability is 0, so that no header is read but for a record, then 1, 10
# and 50 per cent: then the stage draws random words, reads headers if it marks, and marks ECN-capable packets below 10 per cent.
# Writes bench/dpdk_counts.csv, from which tests/documents/performance.py computes the table of docs/PERFORMANCE.md. It needs
# libdpdk (tests/install.sh bindings/dpdk) and the libraries, which bindings/c/library.py builds.
#
# usage: bench/pie_dpdk_count.sh [FILE]      FILE: instead of bench/dpdk_counts.csv
set -eu
cd "$(dirname "$0")/.."
if ! command -v valgrind > /dev/null; then
    echo "NOT RUN: bench/pie_dpdk_count.sh: no valgrind here, so no instructions were counted"
    exit 0
fi
work=$(mktemp -d)
trap 'rm -rf "$work"' EXIT
out=$(realpath "${1:-bench/dpdk_counts.csv}")
make -s -C bindings/dpdk out/stage_measure
echo "through,percent,arrived,dropped,instructions" > "$work/rows"
eal=(--no-huge -m 128 --no-pci --no-shconf --no-telemetry --log-level=lib.eal:error --lcores 0@0)
bindings/dpdk/out/stage_measure "${eal[@]}" -- check > "$work/said" || { cat "$work/said"; exit 1; }
for kind in rte_pie kept added dropping stage flight summed; do
    for percent in 0 1 10 50; do
        [ $percent = 0 ] || [[ $kind =~ ^(rte_pie|kept|dropping|stage|flight)$ ]] || continue
        valgrind --tool=callgrind --callgrind-out-file=/dev/null --toggle-collect=counted bindings/dpdk/out/stage_measure "${eal[@]}" \
            -- count $kind $percent > "$work/packets" 2> "$work/said"
        awk -v kind=$kind -v percent=$percent 'NR == FNR {arrived = $1; dropped = $3; next}
            /Collected/ {print kind "," percent "," arrived "," dropped "," $NF}' "$work/packets" "$work/said" >> "$work/rows"
    done
done
mv "$work/rows" "$out"
