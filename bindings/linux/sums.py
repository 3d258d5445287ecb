#!/usr/bin/env python3
"""Compares the steps of queues, the text of pie-watch, with the counters of `tc -s -j`, and checks that no step is
missing without a row `lost`.

FOLDER/NAME.json is the output of `tc -s -j qdisc show` just before the steps FOLDER/NAME.csv ended, and NAME.later just
after; a queue that was removed is not in NAME.later. The last counters of the steps must lie between those of tc. If a
queue was recorded from its creation on without a loss, the sums of its rows must too.

The number of each row `lost` must be the number of enqueues and dequeues between the counters and lengths before and
after it, and of calculations that fit into its time. small.csv must have such a row, and each other text none. A row
`resume` is followed by a row `wait` for each packet of its queue. running.csv must have such packets.

The texts together must have at least ENQUEUES enqueues of both kinds of queues, and a quarter of it of fq_pie.

usage: bindings/linux/sums.py FOLDER ENQUEUES"""
import csv
import json
import sys
from collections import Counter
from pathlib import Path

COUNTERS = {"packets_in": "pkts_in", "dropped": "dropped", "overlimit": "overlimit", "ecn_mark": "ecn_mark", "maxq": "maxq"}
JIFFY = 4_000_000  # ns, of Debian's kernels


class Queue:
    """The rows of a queue: the number of each type, and of enqueues that queued and dropped; the lost steps; the last row with counters; the faults."""

    def __init__(self):
        self.rows, self.lost, self.bytes, self.next, self.faults = Counter(), 0, 0, 0, []
        self.counters = self.last = self.gap = None
        self.kind = ""
        self.waiting = 0  # packets of the last row `resume` without a row `wait`
        self.after = 0  # enqueues after the last lost step

    def add(self, row):
        kind, self.kind = row["type"], row["kind"]
        self.rows[kind] += 1
        self.waiting -= kind == "wait"
        if kind in ("flow", "wait"):
            return
        if self.waiting != 0:
            self.faults.append(f"step {row['seq']} follows a resumed queue, of which {self.waiting} packets are missing")
        self.waiting = int(row["qlen1"]) if kind == "resume" else 0
        if int(row["seq"]) != self.next:
            self.faults.append(f"step {row['seq']} follows step {self.next - 1}")
        self.next = int(row["seq"]) + 1
        if kind == "enq":
            self.rows["queued" if row["ret"] == "0" else "refused"] += 1
            self.after += 1
        if kind == "deq":
            self.bytes += int(row["pktlen"])
        if self.gap is not None:
            self.compare_gap(row)
        if kind in ("enq", "init", "resume", "change", "reset", "destroy"):
            self.counters = row
        self.last = row

    def add_lost(self, number):
        self.lost += number
        self.next += number
        self.gap = number
        self.after = 0

    def compare_gap(self, row):
        """Compares the number of lost steps with the row after them, if a row before them was recorded."""
        number, self.gap = self.gap, None
        if row["type"] != "resume":
            self.faults.append(f"{row['type']} follows lost steps")
        elif self.last is not None:
            queued = int(row["packets_in"]) - int(self.counters["packets_in"])
            dropped = int(row["dropped"]) - int(self.counters["dropped"])
            dequeued = queued - (int(row["qlen1"]) - int(self.last["qlen1"]))
            rest = number - queued - dropped - dequeued
            most = (int(row["ns"]) - int(self.last["ns"])) // (JIFFY * (int(row["tupdate"]) - 1)) + 2
            if not 0 <= rest <= most:
                self.faults.append(f"{number} lost steps: {queued} + {dropped} enqueues, {dequeued} dequeues, at most {most} calculations")

    def compare(self, told, later):
        """Compares the rows with the counters of tc, which may have increased until `later`."""
        pairs = [(name, int(self.counters[name]), its) for name, its in COUNTERS.items() if self.counters is not None and its in told]
        if self.rows["init"] and not self.lost:
            # (the packets of tc are the segments of a packet that the device would segment)
            pairs.append(("bytes that were dequeued", self.bytes, "bytes"))
            pairs.append(("packets that were queued", self.rows["queued"], "pkts_in"))
            pairs.append(("packets that were dropped", self.rows["refused"], "dropped"))
        self.faults += [f"{what}: {ours}, tc: {told[its]} to {later[its]}" for what, ours, its in pairs if not told[its] <= ours <= later[its]]


def read(path):
    """Returns the queues of a text by their names."""
    queues = {}
    for row in csv.DictReader(path.open()):
        if row["qid"] == "lost":
            queues.setdefault(row["type"], Queue()).add_lost(int(row["kind"]))
        else:
            queues.setdefault(row["qid"], Queue()).add(row)
    return queues


def tc(path):
    """Returns the counters of tc of each queue by its handle."""
    return {it["handle"]: it for it in json.loads(path.read_text()) if it["kind"] in ("pie", "fq_pie")}


def main():
    folder, least, failed = Path(sys.argv[1]), int(sys.argv[2]), False
    enqueues = Counter()
    for path in sorted(folder.glob("*.csv")):
        queues = read(path)
        told, later = tc(path.with_suffix(".json")), tc(path.with_suffix(".later"))
        compared = 0
        for name, queue in queues.items():
            handle = name.split("/")[1]
            if handle in told:
                queue.compare(told[handle], later.get(handle, told[handle]))
                compared += 1
            if (queue.lost != 0) != (path.stem == "small"):
                queue.faults.append("no lost steps" if queue.lost == 0 else "lost steps")
            if queue.lost != 0 and queue.after == 0:
                queue.faults.append("no enqueue after the lost steps")
            if path.stem == "running" and queue.rows["wait"] == 0:
                queue.faults.append("no packet waits")
            failed |= bool(queue.faults)
            enqueues[queue.kind] += queue.rows["enq"]
            print(f"  {path.stem} {name}: {queue.next - queue.lost} steps, {queue.rows['enq']} enqueues, {queue.lost} lost",
                  *(f"DIFFERENT: {it}" for it in queue.faults))
        if compared != 1:
            print(f"  {path.stem}: {compared} queues were compared with tc")
            failed = True
    print(f"  {enqueues['pie']} enqueues of pie, {enqueues['fq_pie']} of fq_pie")
    sys.exit(failed or enqueues.total() < least or enqueues["fq_pie"] < least // 4)


main()
