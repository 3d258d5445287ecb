#!/usr/bin/env bash
# Measures the cost of keeping an event in a flight recorder (include/pie_flight.h) of 100,000
# events, compared with the event alone, with a store of 40 bytes and a counter, and with a recorder
# in C for this purpose alone (bench/peer/least.h), while 16, 1000 and 65,536 packets are queued
# (bench/pie_flight.c). It measures the time of an event, also while another thread dumps, of a
# snapshot, and of a dump with its copy and its text. If valgrind is installed, it counts the
# instructions of an event, alone and kept, and the share of the snapshots, also for a recorder of
# 1000 events. Prints two tables; a time is the least, with the median in brackets. If PROGRAM is
# given, `pie audit` must first find a text of each recorder clean.
#
# usage: bench/pie_flight.sh [PROGRAM]    after `rt lib` in crates/pie_c
set -eu
. "$(dirname "$0")/shared.sh"
cd "$here/.."
queues="16 1000 65536"
"${CC:-cc}" -O2 -std=gnu11 -Wall -Wextra -Iinclude -o "$work/flight" bench/pie_flight.c crates/pie_c/out/libpie_c.a -pthread
for packets in $queues; do
    if [ $# -gt 0 ]; then
        found=$("$work/flight" 100000 "$packets" text | sed -n '/^resume,/,$p' | "$1" audit)
        case $found in clean,*) ;; *) echo "bench/pie_flight.sh: what is measured is not clean: $found" && exit 1 ;; esac
    fi
    "$work/flight" 100000 "$packets"
done > "$work/lines"
python3 - "$work/lines" <<'END_OF_TABLE'
import os
import statistics
import sys

COLUMNS = [("alone", "an event alone"), ("stored", "40 bytes stored"), ("least", "kept by C for this purpose"), ("kept", "kept"), ("more", "more"), ("dumped", "kept while another thread dumps"), ("snapshot", "a snapshot"),
           ("dump", "a dump"), ("copy", "of it the copy"), ("text", "its text")]
values = {}
for name, value, unit in (line.split() for line in open(sys.argv[1])):
    kind, packets = name.split("_")
    values.setdefault(int(packets), {}).setdefault(kind, []).append((float(value), unit))
load = " ".join(open("/proc/loadavg").read().split()[:2])
runs = len(values[16]["kept"])
print(f"load {load} (the last minute, the last five) on {os.cpu_count()} processors; {runs} runs, the least and in brackets the median\n")
print("| packets that wait | " + " | ".join(title for _, title in COLUMNS) + " |")
print("|---" * (len(COLUMNS) + 1) + "|")
for packets, kinds in sorted(values.items()):
    found = {kind: (min(runs)[0], statistics.median(number for number, _ in runs), runs[0][1]) for kind, runs in kinds.items()}
    found["more"] = (found["kept"][0] - found["alone"][0], found["kept"][1] - found["alone"][1], "ns")
    cells = [f"{least:.1f} {unit} ({median:.1f})" for least, median, unit in (found[kind] for kind, _ in COLUMNS)]
    print(f"| {packets} | " + " | ".join(cells) + " |")
END_OF_TABLE
if ! command -v valgrind > /dev/null; then
    echo "NOT RUN: bench/pie_flight.sh: no valgrind here, so no instructions were counted"
    exit 0
fi

# counted EVENTS PACKETS KIND: the calls or events of a kind, the events between two snapshots, and the instructions
counted() {
    valgrind --tool=callgrind --callgrind-out-file=/dev/null --toggle-collect="$3" "$work/flight" "$1" "$2" count "$3" 2> "$work/said"
    awk '/Collected/ {print $NF}' "$work/said"
}
echo
echo "| events kept | packets that wait | instructions of an event alone | kept | more | of these snapshots | a snapshot | it comes each |"
echo "|---|---|---|---|---|---|---|---|"
for events in 1000 100000; do
    for packets in $queues; do
        # shellcheck disable=SC2046
        set -- $(counted $events "$packets" alone) $(counted $events "$packets" kept) $(counted $events "$packets" snapshot)
        awk -v events=$events -v packets="$packets" -v made="$1" -v period="$2" -v alone="$3" -v kept="$6" -v shots="$7" -v snapshots="$9" 'BEGIN {
            printf "| %d | %d | %.1f | %.1f | %.1f | %.2f | %d | %d events |\n", events, packets, alone / made, kept / made,
                (kept - alone) / made, snapshots / shots / period, snapshots / shots, period}'
    done
done
