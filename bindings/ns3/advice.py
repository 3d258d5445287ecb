#!/usr/bin/env python3
"""Compares the mean wait that `pie advise` predicts with the mean wait of simulations, and prints a record of each cell: a rate, a
round-trip time and a number of TCP flows. The stored records are advice.csv.

A run has 25 simulated seconds, of which the first 5 are left out, with this repository's PIE by time stamps and CUBIC senders whose slow
start ends at the threshold. `measured_ms` is the mean over the seeds. `predicted_ms` is what `pie advise` prints, also if it warns:
the square root of target^2 + t^2, t the time of two packets of 1024 bytes. `warned` is 1 if it has no prediction.

usage: bindings/ns3/advice.py PIE [SEEDS [RUNS.csv]]      SEEDS: 1 by default; RUNS.csv: records of dumbbell in place of new runs"""
import csv
import io
import math
import subprocess
import sys
from collections import defaultdict
from pathlib import Path
from statistics import fmean

HERE = Path(__file__).resolve().parent
RATES, FLOWS, TRIPS = (2, 5, 10, 20, 50), (1, 4, 16, 64), (10, 20, 40, 100, 200)   # Mbit/s, flows, ms
TARGET, MEAN_PKT = 0.015, 1024


def runs(seeds):
    """Yields the records of new runs."""
    for rate in RATES:
        for flows in FLOWS:
            for trip in TRIPS:
                for seed in range(1, seeds + 1):
                    words = {"queue": "recorded-stamp+bounded", "rate": rate, "flows": flows, "rtt": trip, "seed": seed, "seconds": 25, "warm-up": 5,
                             "history": "/dev/null", "header": 1}
                    done = subprocess.run([HERE / "out/dumbbell", *(f"--{name}={value}" for name, value in words.items())],
                                          capture_output=True, text=True, check=True)
                    yield from csv.DictReader(io.StringIO(done.stdout))


def advice(pie, rate, trip, flows):
    """Returns the line about the mean wait that `pie advise` prints."""
    words = ["--rate", f"{rate}mbit", "--rtt", f"{trip}ms", "--flows", str(flows)]
    text = subprocess.run([pie, "advise", *words], capture_output=True, text=True, check=True).stdout
    return next(line.split(maxsplit=2)[2] for line in text.splitlines() if line.startswith("mean wait "))


def main():
    if len(sys.argv) < 2 or sys.argv[1] == "--help":
        sys.exit(__doc__)
    pie, seeds = sys.argv[1], int(sys.argv[2]) if sys.argv[2:] else 1
    stored = csv.DictReader(Path(sys.argv[3]).read_text().splitlines()) if sys.argv[3:] else runs(seeds)
    waits = defaultdict(list)
    for row in stored:
        waits[row["mbit"], row["rtt_ms"], row["flows"]].append(float(row["wait_mean_ms"]))
    print("mbit,rtt_ms,flows,seeds,measured_ms,predicted_ms,warned")
    for (rate, trip, flows), measured in sorted(waits.items(), key=lambda it: [float(part) for part in it[0]]):
        predicted = 1000 * math.hypot(TARGET, 2 * MEAN_PKT * 8 / (float(rate) * 1e6))
        warned = int(advice(pie, rate, trip, flows).startswith("no prediction"))
        print(f"{rate},{trip},{flows},{len(measured)},{fmean(measured):.3f},{predicted:.3f},{warned}")


if __name__ == "__main__":
    main()
