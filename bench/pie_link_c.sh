#!/usr/bin/env bash
# Measures events per second of one to four threads at one controller in C, in bursts of 1, 8 and 32
# (bench/pie_link_c.c):
#
# - at a link;
# - with a spin lock around recording calls and the flight recorder;
# - with the same lock around calls whose events are stored in bulk;
# - with this lock, and with a mutex, around recording calls and a builder's own ring of 64-byte events and statistics;
#   with the lock also a ring of 40-byte events.
#
# All run in turn, RUNS times (9), for MILLISECONDS (100) each. The first table has the medians, the second the
# medians of the ratios of a run. The third has the share of turns that follow a turn of another thread. A run of several threads in which this
# share is below a quarter is not counted.
# usage: bench/pie_link_c.sh [RUNS [MILLISECONDS]]    after bindings/c/library.py
set -eu
. "$(dirname "$0")/shared.sh"
cd "$here/.."
before=$(cut -d' ' -f1 /proc/loadavg)
libs="crates/pie_link_c/out/libpie_link_c.a crates/pie_c/out/libpie_c.a"
# shellcheck disable=SC2086
"${CC:-cc}" -O2 -std=gnu11 -Wall -Wextra -Iinclude -o "$work/link" bench/pie_link_c.c $libs -pthread
"$work/link" "${1:-9}" "${2:-100}" > "$work/lines"
echo "load $before before and $(cut -d' ' -f1 /proc/loadavg) after, on $(nproc) processors, ${1:-9} runs of ${2:-100} ms"
python3 - "$work/lines" <<'PYTHON'
import statistics
import sys

KINDS = {"link": "link", "recorded": "lock, recorded", "bulk": "lock, in bulk", "ring": "lock, own ring", "short": "lock, own ring of 40 bytes", "mutex": "mutex, own ring"}
LEAST = 0.25  # of the turns of several threads, that follow on another's
runs = {}
for line in open(sys.argv[1]):
    kind, threads, burst, rate, changes = line.split()
    runs.setdefault((int(burst), int(threads)), {}).setdefault(kind, []).append((float(rate), float(changes)))


def counted(key, kind):
    return [rate for rate, changes in runs[key][kind] if key[1] == 1 or changes >= LEAST]


def median(key, kind):
    rates = counted(key, kind)
    return statistics.median(rates) if rates else None


def ratio(key, other):
    """Returns the median of the ratios of the runs in which both are counted."""
    pairs = zip(runs[key]["link"], runs[key][other])
    ratios = [ours / theirs for (ours, changes), (theirs, others) in pairs if key[1] == 1 or min(changes, others) >= LEAST]
    return f"{statistics.median(ratios):.2f}" if ratios else "-"


def table(names, cells):
    print(f"| burst | threads | {' | '.join(names)} |")
    print("|---" * (len(names) + 2) + "|")
    for key in sorted(runs):
        print(f"| {key[0]} | {key[1]} | {' | '.join(cells(key))} |")
    print()


table([f"{name}, million events/s" for name in KINDS.values()],
      lambda key: [f"{median(key, kind) / 1e6:.2f}" if median(key, kind) else "-" for kind in KINDS])
others = [kind for kind in KINDS if kind != "link"]
table([f"link / {KINDS[kind]}" for kind in others], lambda key: [ratio(key, kind) for kind in others])
print("| burst | threads | " + " | ".join(f"changes, {kind}; runs counted" for kind in KINDS) + " |")
print("|---" * (len(KINDS) + 2) + "|")
for key in sorted(runs):
    if key[1] > 1:
        cells = [f"{statistics.median(it for _, it in runs[key][kind]):.2f}; {len(counted(key, kind))} of {len(runs[key][kind])}" for kind in KINDS]
        print(f"| {key[0]} | {key[1]} | {' | '.join(cells)} |")
PYTHON
