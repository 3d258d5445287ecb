#!/usr/bin/env bash
# Runs in turn `pie run` with a rolling book on a generated trace, and `pie audit` on its history. Prints the number of
# events, the least time of each and their ratio, the greatest resident memory of each, and the load.
# usage: bench/pie_audit.sh PIE [RECORDS] [SEED] [plain|mixed] [RUNS]      PIE: the built program, as crates/pie/out/ has
# it after `rt run`
. "$(dirname "$0")/shared.sh"
program=$1
records=${2:-5001000}
seed=${3:-1}
kind=${4:-mixed}
runs=${5:-5}
rolling_trace "$records" "$seed" "$kind" > "$work/trace"
python3 - "$program" "$work" "$runs" <<'PY'
import os, sys
from timing import resident, took

program, work, runs = sys.argv[1], sys.argv[2], int(sys.argv[3])
calls = {"run": ("trace", "history"), "audit": ("history", "finding")}
calls = {word: ([program, word], *(f"{work}/{file}" for file in files)) for word, files in calls.items()}
memory = {word: resident(*call) for word, call in calls.items()}
times = {word: [] for word in calls}
for _ in range(runs):
    for word, call in calls.items():
        times[word].append(took(*call))
with open(f"{work}/finding") as finding:
    print(finding.read().strip())
least = {}
for word in calls:
    least[word] = [min(time[i] for time in times[word]) for i in range(2)]
    print(f"{word} seconds {least[word][0]:.3f} processor_seconds {least[word][1]:.3f} greatest_resident_kib {memory[word]}")
ratio = [least["audit"][i] / least["run"][i] for i in range(2)]
print(f"audit_to_run {ratio[0]:.2f} by_processor_time {ratio[1]:.2f} runs {runs} load {os.getloadavg()[0]:.1f}")
PY
