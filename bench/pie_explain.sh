#!/usr/bin/env bash
# Runs `pie run` with a rolling book on a generated trace. Then runs, in turn, `pie audit` and `pie
# explain` with each choice of events on the history. Prints the least and the median time of each
# over several runs, the ratios to the audit, the number of written bytes, the greatest resident
# memory, and the load.
# usage: bench/pie_explain.sh PIE [RECORDS] [SEED] [plain|mixed] [RUNS]      PIE: the built program, as crates/pie/out/ has
# it after `rt run`
. "$(dirname "$0")/shared.sh"
program=$1
records=${2:-1001000}
seed=${3:-1}
kind=${4:-mixed}
runs=${5:-9}
rolling_trace "$records" "$seed" "$kind" > "$work/trace"
"$program" run < "$work/trace" > "$work/history"
python3 - "$program" "$work" "$runs" <<'PY'
import os, statistics, sys
from timing import resident, took

program, work, runs = sys.argv[1], sys.argv[2], int(sys.argv[3])
history, output = f"{work}/history", f"{work}/output"
with open(history) as lines:
    kinds = [line.split(",", 1)[0] for line in lines]
events = sum(kind in ("arrive", "depart", "update", "reset", "params") for kind in kinds)
middle, tag = str(events // 2), str(events // 4)
calls = {
    "audit": ["audit"],
    "event": ["explain", "--event", middle],
    "tag": ["explain", "--tag", tag],
    "lost": ["explain", "--lost"],
    "lost_csv": ["explain", "--lost", "--csv"],
    "all_csv": ["explain", "--all", "--csv"],
    "all": ["explain", "--all"],
}
memory, written = {}, {}
for name, words in calls.items():
    memory[name] = resident([program, *words], history, output)
    written[name] = os.path.getsize(output)
times = {name: [] for name in calls}
for _ in range(runs):
    for name, words in calls.items():
        times[name].append(took([program, *words], history, output))


def of(name, kind, chosen):
    return chosen(time[kind] for time in times[name])


print(f"events {events} runs {runs} load {os.getloadavg()[0]:.1f}")
for name in calls:
    least, used = of(name, 0, min), of(name, 1, min)
    ratios = [of(name, kind, chosen) / of("audit", kind, chosen) for kind in (0, 1) for chosen in (min, statistics.median)]
    print(
        f"{name} seconds {least:.3f} processor_seconds {used:.3f} bytes {written[name]} greatest_resident_kib {memory[name]} "
        f"to_audit {ratios[0]:.2f} median {ratios[1]:.2f} by_processor_time {ratios[2]:.2f} median {ratios[3]:.2f}"
    )
PY
