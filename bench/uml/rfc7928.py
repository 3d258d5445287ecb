#!/usr/bin/env python3
"""Runs the scenarios of RFC 7928 (characterization guidelines for queue management): reverse load and both ways at once, super-packets, UDP that
ignores drops and marks, 0.5 Mbit/s to 1 Gbit/s, round trips of 5 to 500 ms, voice, DNS and web, bursts, and a rate that changes. Each is run by this
link's PIE and by the kernel's pie, fq_codel, cake and pfifo. It continues where it was stopped: first the first block of every scenario, then the
second. FOLDER/results.csv has the runs; docs/results.py draws an ellipse for each queue and scenario.

usage: bench/uml/rfc7928.py PIE FOLDER [--jobs 2]      runs; status 1 if a run failed
       bench/uml/rfc7928.py --estimate FILE.csv        the processor hours of the suite, by the runs stored in FILE
  PIE      the built program; build/pie is what make builds
  --jobs   the number of runs at a time, 1 by default
UML_LINUX=FILE in the environment is a Linux whose time is simulated (build.sh)."""
import argparse
import csv
import subprocess
import sys
from concurrent.futures import ThreadPoolExecutor
from pathlib import Path
from statistics import fmean

HERE = Path(__file__).resolve().parent
sys.path.insert(0, str(HERE))
sys.dont_write_bytecode = True
from scenarios import FIVE, SCENARIOS, SUITE, queues_of  # noqa: E402


def estimate(rows):
    """Returns the number of the suite's runs, those of them that are stored, and the processor hours of all of them."""
    runs, stored, seconds = 0, 0, 0.0
    costs = {}
    for row in rows:
        if row["processor"]:
            costs.setdefault(row["scenario"], {})[row["queue"], row["block"]] = float(row["processor"])
    every = [cost for them in costs.values() for cost in them.values()]
    keys = {(row["scenario"], row["queue"], row["block"]) for row in rows}
    for name in SUITE:
        blocks = {queue: count for queue, count in SCENARIOS[name]["queues"].items() if queue in queues_of(FIVE, 1)}
        count = sum(blocks.values())
        runs += count
        stored += sum(scenario == name and int(block) <= blocks.get(queue, 0) for scenario, queue, block in keys)
        seconds += count * fmean(costs.get(name, {0: fmean(every)}).values())
    return runs, stored, seconds / 3600


def run(words, name, block):
    """Runs a block of a scenario, and returns beside.py's status."""
    done = subprocess.run([str(HERE / "beside.py"), words.program, words.folder, "--blocks", f"{block}-{block}", name],
                          stdout=subprocess.PIPE, text=True)
    failures = [line for line in done.stdout.splitlines() if line.startswith("bench/uml/beside.py:")]
    print(f"{name}: block {block}: {'done' if not done.returncode else chr(10).join(failures) or 'failed'}", flush=True)
    return done.returncode


def main():
    parser = argparse.ArgumentParser(usage=__doc__.split("usage: ")[1])
    parser.add_argument("--estimate")
    parser.add_argument("--jobs", type=int, default=1)
    parser.add_argument("program", nargs="?")
    parser.add_argument("folder", nargs="?")
    words = parser.parse_args()
    if words.estimate:
        with open(words.estimate, newline="") as file:
            runs, stored, hours = estimate(list(csv.DictReader(file)))
        print(f"{runs} runs, {stored} of them stored; all take {hours:.1f} processor hours")
        return 0
    if not words.folder:
        parser.error("PIE and FOLDER are missing")
    most = max(max(SCENARIOS[name]["queues"].values()) for name in SUITE)
    parts = [(name, block) for block in range(1, most + 1) for name in SUITE if block <= max(SCENARIOS[name]["queues"].values())]
    with ThreadPoolExecutor(words.jobs) as pool:
        return int(any(list(pool.map(lambda it: run(words, *it), parts))))


if __name__ == "__main__":
    sys.exit(main())
