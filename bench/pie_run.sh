#!/usr/bin/env bash
# Runs `pie run` nine times on a generated trace. Prints the least and the median of its time and
# its processor time, the records a second, and the greatest resident memory. PEER is a program that
# writes the same bytes (bench/peer): both run in turn, and their ratio is printed too.
# usage: bench/pie_run.sh PIE [RECORDS] [SEED] [plain|mixed] [PEER]     PIE: the built program, crates/pie/out/pie
. "$(dirname "$0")/shared.sh"
program=$1
records=${2:-1000000}
seed=${3:-1}
kind=${4:-plain}
peer=${5:-}
python3 "$here/trace.py" "$records" "$seed" "$kind" > "$work/trace"
python3 - "$work" "$records" "$program" $peer <<'PY'
import os, statistics, sys
from timing import Took, resident, took

RUNS = 9
work, records, programs = sys.argv[1], int(sys.argv[2]), sys.argv[3:]
# A peer takes no words.
calls = [([it, "run"] if number == 0 else [it], f"{work}/trace", f"{work}/history{number}") for number, it in enumerate(programs)]
found, memory = [{name: [] for name in Took._fields} for _ in programs], resident(*calls[0])
for _ in range(RUNS):
    for number, call in enumerate(calls):
        for name, value in took(*call)._asdict().items():
            found[number][name].append(value)
load = " ".join(open("/proc/loadavg").read().split()[:2])
print(f"load {load} (the last minute, the last five) on {os.cpu_count()} processors, {RUNS} runs in turn, {records} records")
for name, ours in found[0].items():
    line = f"{name}: least {min(ours):.3f}, median {statistics.median(ours):.3f}"
    for theirs in found[1:]:
        theirs = theirs[name]
        line += f"; beside it {min(theirs):.3f}, {statistics.median(theirs):.3f}"
        line += f"; ratio {min(ours) / min(theirs):.2f} ({statistics.median(ours) / statistics.median(theirs):.2f})"
    print(line)
print(f"{records / min(found[0]['seconds']):.0f} records a second; greatest resident memory {memory} KiB")
if len(programs) > 1:
    same = open(f"{work}/history0", "rb").read() == open(f"{work}/history1", "rb").read()
    print("both wrote the same bytes" if same else "THE OUTPUTS DIFFER")
    sys.exit(not same)
PY
