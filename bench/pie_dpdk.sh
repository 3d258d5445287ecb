#!/usr/bin/env bash
# Measures packets per second from one DPDK null port to another, in bursts of 32:
#
# - forwarding alone;
# - through DPDK's rte_pie, which makes no marks;
# - through rte_pie with events, and with sums of an interval, in C for this purpose alone (bindings/dpdk/peer.h);
# - through the stage of bindings/dpdk, without and with marks;
# - through the stage with its flight recorder of the last 16384 events;
# - through a link in place of the stage (bindings/dpdk/linked.h);
# - through the stage with its interval records, and with its whole history; another lcore writes them to /dev/null.
#
# All except the first and the link use the same lock and ring. In one part a single lcore receives, enqueues, dequeues
# and sends. In the other part all available processors receive and enqueue, and one dequeues and sends. The kinds take
# turns. Prints the median of the runs and in brackets the greatest, and for ratios the median of those of each turn and
# in brackets that of the greatest, as the table of docs/PERFORMANCE.md. It needs libdpdk
# (tests/install.sh bindings/dpdk) and the libraries, which bindings/c/library.py builds.
# usage: bench/pie_dpdk.sh [SECONDS [RUNS [PRIORITY]]]
#   SECONDS     of each run, 1 by default; RUNS: of each kind, 9 by default. This takes some 150 seconds
#   PRIORITY    a real-time priority (chrt), for example 50. Each run then has its processors for itself. Take runs of
#               0.02 seconds, because no other program runs meanwhile
set -eu
cd "$(dirname "$0")/.."
work=$(mktemp -d)
trap 'rm -rf "$work"' EXIT
cpus=$(nproc --all)
[ "$cpus" -ge 2 ] || { echo "NOT RUN: bench/pie_dpdk.sh: it takes two processors"; exit 0; }
[ "$cpus" -le 8 ] || cpus=8
priority=()
[ $# -lt 3 ] || priority=(chrt -f "$3")
make -s -C bindings/dpdk out/stage_measure
for lcores in 2 "$cpus"; do
    "${priority[@]}" bindings/dpdk/out/stage_measure --no-huge -m 512 --no-pci --no-shconf --no-telemetry --log-level=lib.eal:error \
        --lcores "0-$((lcores - 1))" --vdev=net_null0 --vdev=net_null1 -- rate "${1:-1}" "${2:-9}" > "$work/$lcores"
done
python3 - "$work/2" "$work/$cpus" <<'END2'
import statistics
import sys

sides = []
for name in sys.argv[1:]:
    values = {}
    for line in open(name):
        kind, value, _ = line.split()
        values.setdefault(kind, []).append(float(value))
    sides.append(values)
several = int(sys.argv[2].rpartition("/")[2]) - 2
print(f"load {open('/proc/loadavg').read().split()[0]} in the last minute")
print(f"| million packets a second | one lcore does it all | {several} receive and enqueue, one sends |\n|---|---|---|")


def row(what, cell):
    print(f"| {what} | " + " | ".join(cell(side) for side in sides) + " |")


def rate(kind):
    return lambda side: f"{statistics.median(side[kind]) / 1e6:.2f} ({max(side[kind]) / 1e6:.2f})"


def ratio(kind, other):
    return lambda side: f"{statistics.median(map(float.__truediv__, side[kind], side[other])):.2f} ({max(side[kind]) / max(side[other]):.2f})"


row("forwarding alone", rate("alone"))
row("with rte_pie", rate("rte_pie"))
row("with rte_pie and events in C", rate("kept"))
row("with rte_pie and sums in C", rate("added"))
row("with the stage, without marks", rate("dropping"))
row("with the stage", rate("stage"))
row("with the stage and its flight recorder", rate("flight"))
row("with a link in their place", rate("link"))
row("with the stage and its records of periods", rate("summed"))
row("with the stage and its whole history", rate("recorded"))
row("rte_pie and events in C, to rte_pie", ratio("kept", "rte_pie"))
row("rte_pie and sums in C, to rte_pie", ratio("added", "rte_pie"))
row("the stage without marks, to rte_pie", ratio("dropping", "rte_pie"))
row("the stage, to rte_pie", ratio("stage", "rte_pie"))
row("the stage and its flight recorder, to rte_pie", ratio("flight", "rte_pie"))
row("the stage and its flight recorder, to the stage", ratio("flight", "stage"))
row("a link, to the stage and its flight recorder", ratio("link", "flight"))
row("the stage and its records of periods, to rte_pie", ratio("summed", "rte_pie"))
row("the stage and its records of periods, to the stage", ratio("summed", "stage"))
row("the stage and its whole history, to the stage", ratio("recorded", "stage"))
row("events told as lost, since the text came too late", lambda side: f"{min(side['lost']):.1f} % ({statistics.median(side['lost']):.1f} %)")
END2
