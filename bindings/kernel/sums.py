#!/usr/bin/env python3
"""Audits the histories of a boot and compares their sums with those of `tc -s -j` and of the receiver. FOLDER contains for each queue NAME:

- NAME.history: its record as a history
- NAME.json: the output of `tc -s -j qdisc show` when the record ended
- NAME.before, NAME.after: the receiver's /proc/net/netstat

NAME.trace are the kernel's events of each packet that came to a device, and of each dropped one. Packets and segments are dropped with an event each, and
those that the queue's parent 1: counts are the packets of which nothing is queued, super-packets among them.

Each NAME.excerpt, a record without sums, must be clean. NAME.csv names the flows of NAME.history, except those whose place another flow has.

Each history must be clean, and its sums must be equal. A purge drops packets that no counter of `tc` has: its departures have a caller of their own. The
history NAME of a module with a fault begins with mutant_: if its sums are equal and it is clean, the fault was not found, which is a failure.

usage: bindings/kernel/sums.py PIE FOLDER [MUTANT..]      MUTANT: there must be a history mutant_MUTANT"""
import csv
import io
import json
import re
import subprocess
import sys
from pathlib import Path

DEQUEUE, PURGE = "2", "4"
PLACES = 1024  # PIE_RECORDED_FLOWS
ARP = "42"  # bytes of a request or reply


def said(pie, history, *words):
    return subprocess.run([pie, *words, history], stdout=subprocess.PIPE, stderr=subprocess.PIPE, check=False).stdout.decode()


def summed(pie, history):
    """Returns the sums of `pie explain --summary`, and those of departures by caller and by ECN field."""
    summary = next(csv.DictReader(io.StringIO(said(pie, history, "explain", "--summary", "--csv"))))
    sums = {key: int(summary[key]) for key in ("arrivals", "enqueue", "mark", "early", "bytes", "packets", "left")}
    departs = [line.split(",") for line in history.read_text().splitlines() if line.startswith("depart,")]
    sums["purged"] = sum(it[1] == PURGE for it in departs)
    sums["sent"] = sum(it[1] == DEQUEUE for it in departs)
    sums["sent_ce"] = sum(it[1] == DEQUEUE and it[-1] == "ce" for it in departs)
    return sums


def congestion_marks(path):
    """Returns the number of packets with CE that the receiver counted."""
    names, numbers = (line.split() for line in path.read_text().splitlines() if line.startswith("IpExt:"))
    return int(numbers[names.index("InCEPkts")])


def differences(sums, told, arrived_ce):
    """Returns the sums that differ from those in `told`, the queue's part of tc's output. After a purge one marked
    packet may be missing: the one that a parent peeked at."""
    dropped = sums["early"] + sums["bytes"] + sums["packets"]
    pairs = [("departures and packets sent", sums["sent"], told["packets"]), ("drops", dropped, told["drops"]),
             ("arrivals and what became of them", sums["arrivals"], sums["enqueue"] + sums["mark"] + dropped),
             ("packets that wait", sums["arrivals"] - dropped - sums["sent"] - sums["purged"], told["qlen"])]
    if "ecn_mark" in told:
        pairs += [("marks", sums["mark"], told["ecn_mark"]), ("drops by limits", sums["bytes"] + sums["packets"], told["overlimit"]),
                  ("drops of pie", dropped, told["dropped"]), ("packets enqueued", sums["enqueue"] + sums["mark"], told["pkts_in"])]
    missing = sums["sent_ce"] - arrived_ce
    if not 0 <= missing <= (1 if sums["purged"] else 0):
        pairs.append(("marks that left and arrived", sums["sent_ce"], arrived_ce))
    return [f"{what}: {recorded} recorded, {counted} counted" for what, recorded, counted in pairs if recorded != counted]


def unnamed(folder, name):
    """Returns the errors in the file of flows."""
    arrivals = [line.split(",") for line in (folder / f"{name}.history").read_text().splitlines() if line.startswith("arrive,")]
    numbers = {int(it[3]) >> 32 for it in arrivals if it[4] != ARP} - {0}
    rows = list(csv.DictReader(io.StringIO((folder / f"{name}.csv").read_text())))
    named = {int(row["flow"], 16) for row in rows}
    ways = {(row["protocol"], row["source"], row["destination"], row["destination_port"]) for row in rows}
    expected = {("tcp", "10.0.1.1", "10.0.2.1", "5201"), ("icmp", "10.0.1.1", "10.0.2.1", "")}
    print(f"  {name}: {len(named)} of {len(numbers)} flows have addresses")
    wrong = [f"flow {it:#010x} has no packet" for it in named - numbers]
    wrong += [f"flow {it:#010x} has no addresses" for it in numbers - named if it % PLACES not in {other % PLACES for other in named}]
    return wrong + [f"no flow {it}" for it in expected - ways]


def dropped_whole(trace):
    """Returns the numbers of packets, of super-packets and of packets and segments that the queue of rb dropped, by the kernel's events. A packet that is
    dropped ends before the next one comes. It ends before its segments."""
    current, packets, supers, ends = {}, 0, 0, 0
    for line in trace.read_text().splitlines():
        fields = dict(re.findall(r"(\w+)[=:] ?(\S+)", line))
        if "len" in fields:
            current = fields
        elif fields.get("reason", "").startswith("QDISC") and current.get("dev") == "rb":
            is_whole = fields["skbaddr"] == current["skbaddr"]
            ends += 1
            packets += is_whole
            supers += is_whole and int(current["len"]) > 1514
    return packets, supers, ends


def trace_differences(trace, parent, told):
    """Returns the drops by the kernel's events that differ from those of tc."""
    packets, supers, ends = dropped_whole(trace)
    print(f"  {trace.stem}: {packets} packets dropped whole, {supers} of them super-packets; {ends} events of drops")
    wrong = [] if supers else ["no super-packet was dropped whole"]
    pairs = [("drops of the parent", packets, parent["drops"]), ("events of drops", ends, told["drops"] + supers)]
    return wrong + [f"{what}: {seen} by the kernel's events, {counted} counted" for what, seen, counted in pairs if seen != counted]


def judged(pie, folder, name):
    """Prints the sums of a queue, and returns what is wrong."""
    history = folder / f"{name}.history"
    finding = said(pie, history, "audit").strip().removeprefix(f"{history}: ")
    # tc without a plugin for the kind prints text in its JSON
    told = re.sub(r"\[Unknown qdisc, optlen=\d+\] ", "", (folder / f"{name}.json").read_text())
    queues = {it["handle"]: it for it in json.loads(told)}
    told = queues["2:"]
    sums = summed(pie, history)
    arrived = congestion_marks(folder / f"{name}.after") - congestion_marks(folder / f"{name}.before")
    wrong = [] if re.fullmatch(r"clean,\d+", finding) else [f"audit: {finding}"]
    wrong += differences(sums, told, arrived)
    if (folder / f"{name}.csv").exists():
        wrong += unnamed(folder, name)
    if (folder / f"{name}.trace").exists():
        wrong += trace_differences(folder / f"{name}.trace", queues["1:"], told)
    print(f"  {name}: {finding}; {sums['sent']} sent, {sums['early']} early, {sums['bytes'] + sums['packets']} by limits, {sums['mark']} marked, "
          f"{sums['purged']} purged, {arrived} marks arrived")
    return wrong


def main():
    pie, folder, wanted = sys.argv[1], Path(sys.argv[2]), sys.argv[3:]
    names = sorted(it.stem for it in folder.glob("*.history"))
    missing = [it for it in wanted if f"mutant_{it}" not in names]
    failures = len(missing)
    for it in missing:
        print(f"FAILED: no history of the mutant {it}")
    for excerpt in sorted(folder.glob("*.excerpt")):
        finding = said(pie, excerpt, "audit").strip().removeprefix(f"{excerpt}: ")
        print(f"  {excerpt.stem}: {finding}")
        failures += not finding.startswith("clean,")
    for name in names:
        wrong = judged(pie, folder, name)
        is_mutant = name.startswith("mutant_")
        if is_mutant and wrong:
            print(f"    found by {wrong[0]}")
        elif is_mutant or wrong:
            failures += 1
            print(f"FAILED: {name}: {'; '.join(wrong) or 'the fault was not found'}")
    sys.exit(1 if failures else 0)


main()
