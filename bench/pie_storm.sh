#!/usr/bin/env bash
# Measures `pie storm`, which makes a storm, writes its history and audits it. Compares it with an audit of that
# history, and with a single-threaded run of a trace with the same commands in the same order. Prints the number of
# events, the least and the median time of each, events per second, and the load. Then it prints, for 2, 4 and 8
# senders, the changes of caller in 20 storms, and the marks and early drops of one at a load of 1.2.
# usage: bench/pie_storm.sh PIE [SENDERS] [PACKETS] [RUNS]      PIE: the built program, as crates/pie/out/ has it
. "$(dirname "$0")/shared.sh"
program=$1
senders=${2:-8}
packets=${3:-10000}
runs=${4:-9}
python3 - "$program" "$work" "$senders" "$packets" "$runs" <<'PY'
import os, statistics, subprocess, sys
from timing import took

program, work, senders, packets, runs = sys.argv[1], sys.argv[2], sys.argv[3], sys.argv[4], int(sys.argv[5])
calls = {
    "storm": (["storm", "--senders", senders, "--packets", packets], "/dev/null", "history"),
    "audit": (["audit"], "history", "finding"),
    "run": (["run"], "trace", "again"),
}
FIELDS = {"open": 5, "arrive": 7, "depart": 3, "update": 3, "params": 12}

times = {word: [] for word in calls}
for _ in range(runs):
    for word, (words, source, target) in calls.items():
        if word == "run":
            with open(f"{work}/history") as history, open(f"{work}/trace", "w") as trace:
                for line in history:
                    fields = line.rstrip().split(",")
                    trace.write(",".join(fields[: FIELDS[fields[0]]]) + "\n")
        times[word].append(took([program, *words], os.path.join(work, source), f"{work}/{target}"))
with open(f"{work}/history", "rb") as history:
    events = sum(1 for _ in history) - 1
with open(f"{work}/finding") as finding:
    print(finding.read().strip())
for word in calls:
    clock, used = ([time[i] for time in times[word]] for i in range(2))
    spent = f"seconds {min(clock):.3f} median {statistics.median(clock):.3f}"
    spent += f" processor_seconds {min(used):.3f} median {statistics.median(used):.3f}"
    print(f"{word} events {events} {spent} events_a_second {events / min(clock):.0f}")
print(f"runs {runs} load {os.getloadavg()[0]:.1f}")


def storm(*words):
    """The history of a storm, which is clean, and what it says on standard error."""
    done = subprocess.run([program, "storm", "--packets", packets, *words], capture_output=True, check=True)
    found = subprocess.run([program, "audit"], input=done.stdout, capture_output=True, check=True).stdout
    assert found.startswith(b"clean,"), found
    return done.stdout.decode(), done.stderr.decode().split()


for some in ("2", "4", "8"):
    told = [storm("--senders", some, "--count")[1] for _ in range(20)]
    changes = sorted(int(words[3]) for words in told)
    print(f"senders {some} events {told[0][1]} changes of caller: least {changes[0]} median {statistics.median(changes):.0f} most {changes[-1]}")
    verdicts = [line.rsplit(",", 1)[1] for line in storm("--senders", some, "--load", "120")[0].splitlines() if line.startswith("arrive,")]
    print(f"senders {some} at a load of 1.2: " + ", ".join(f"{word} {verdicts.count(word)}" for word in ("mark", "early", "bytes", "packets")))
PY
