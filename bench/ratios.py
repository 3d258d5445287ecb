#!/usr/bin/env python3
"""Reads lines `name value unit` of several runs, and prints for each pair of names the best value and the median of
each side, and their ratios, as rows of a table. The best of times is the least, of throughputs the greatest. For a
single name it prints the least, the median and the greatest value.

usage: bench/ratios.py LINES NAME/OTHER.. NAME..     a pair of checksums has to be the same in all runs, else exit status 1
If PIE_ROWS in the environment names a file, as bench/times.csv.xz, it receives each line with the commit, the machine, the compiler and the load; then
tests/documents/performance.py compares the tables of docs/PERFORMANCE.md with it. Rows of the same name from an earlier commit are dropped.
"""
import csv
import lzma
import os
import re
import statistics
import subprocess
import sys

values, units = {}, {}
for line in open(sys.argv[1]):
    name, value, unit = line.split()
    values.setdefault(name, []).append(int(value) if unit == "sum" else float(value))
    units[name] = unit
FIELDS = ["name", "run", "value", "unit", "commit", "machine", "compiler", "load"]


def store(path):
    """Writes the values to the file of rows, in place of those with the same names."""
    said = lambda *words: subprocess.run(words, capture_output=True, text=True, check=False).stdout.strip()  # noqa: E731
    model = re.search(r"model name\s*: (.*)", open("/proc/cpuinfo").read())
    about = {"commit": said("git", "rev-parse", "--short=8", "HEAD"), "machine": model[1] if model else os.uname().machine,
             "compiler": said(os.environ.get("CC", "cc"), "-dumpfullversion"), "load": open("/proc/loadavg").read().split()[0]}
    kept, opened = [], lzma.open if path.endswith(".xz") else open
    if os.path.exists(path):
        with opened(path, "rt", newline="") as file:
            kept = [row for row in csv.DictReader(file) if row["name"] not in values]
    rows = [{"name": name, "run": run, "value": f"{value:.12g}", "unit": units[name], **about}
            for name, them in values.items() for run, value in enumerate(them, 1)]
    with opened(path, "wt", newline="") as file:
        out = csv.DictWriter(file, FIELDS, lineterminator="\n")
        out.writeheader()
        out.writerows(kept + rows)


if os.environ.get("PIE_ROWS"):
    store(os.environ["PIE_ROWS"])
pairs = [pair.split("/") for pair in sys.argv[2:] if "/" in pair]
alone = [name for name in sys.argv[2:] if "/" not in name]
load = " ".join(open("/proc/loadavg").read().split()[:2])
print(f"load {load} (the last minute, the last five) on {os.cpu_count()} processors; best (median) of the runs in turn")
print("| measured | runs | here | the other | ratio |")
print("|---|---|---|---|---|")


def shown(number, unit):
    return f"{number / 1e6:.1f}" if unit in ("calls/s", "packets/s") else f"{number:.1f}"


def side(name):
    unit = units[name]
    best = max(values[name]) if unit in ("calls/s", "packets/s") else min(values[name])
    return best, statistics.median(values[name]), f"million {unit}" if unit in ("calls/s", "packets/s") else unit


differ = []
for name, other in pairs:
    if units[name] == "sum":
        if len(set(values[name] + values[other])) != 1:
            differ.append(name)
        continue
    best, median, unit = side(name)
    other_best, other_median, _ = side(other)
    ours = f"{shown(best, units[name])} ({shown(median, units[name])}) {unit}"
    theirs = f"{shown(other_best, units[name])} ({shown(other_median, units[name])}) {unit}"
    print(f"| {name} / {other} | {len(values[name])} | {ours} | {theirs} | {best / other_best:.2f} ({median / other_median:.2f}) |")
for name in alone:
    least, median, most = min(values[name]), statistics.median(values[name]), max(values[name])
    between = f"{least:.12g}" if least == most else f"{least:.12g} to {most:.12g}, median {median:.12g}"
    print(f"{name}: {between} {units[name]}, {len(values[name])} runs")
if any(units[name] == "sum" for name, _ in pairs):
    print("CHECKSUMS DIFFER: " + ", ".join(differ) if differ else "all checksums are the same")
sys.exit(bool(differ))
