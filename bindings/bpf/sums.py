#!/usr/bin/env python3
"""Audits the records that boot.sh or trixie.sh made, and compares their sums.

FOLDER/NAME.history is a record, FOLDER/NAME.tc the output of `tc -s -j qdisc show` and FOLDER/NAME.show that of `pie-qdisc show --json`, both after the last
packet. The record must be clean, and its last numbers of packets, bytes, drops by cause, and events must be those of NAME.show. The drops, the bytes and the
length of the queue must be those of NAME.tc. NAME.next is a record from the next packet on, which must begin with exactly the state that ends NAME.history.
mutant_NAME must have a fault. small.part and small.part.2 and so on are the excerpts of one record, whose lost events are between them. mq.show and mq.tc are
of four queues, whose records are mq1.history and so on. fq.flows/flowN are the records of the flows of one queue, and fq.next/flowN is a record from the next
packet on.

FOLDER/verified has the number of instructions that the kernel's verifier processed for each program. Each must be at most half more than that in verified.txt.

usage: bindings/bpf/sums.py PIE FOLDER FAULT.."""
import json
import re
import subprocess
import sys
from collections import Counter
from pathlib import Path

HERE = Path(__file__).parent
PIE, FOLDER, FAULTS = sys.argv[1], Path(sys.argv[2]), sys.argv[3:]
STATISTICS = ("arrivals", "enqueued", "marked", "early", "over_bytes", "over_packets", "left", "left_bytes", "empty", "updates", "resets", "changes")
VERDICTS = {"enqueue": "enqueued", "mark": "marked", "early": "early", "bytes": "over_bytes", "packets": "over_packets"}
ME = "bindings/bpf/sums.py"
ALONE = ("killed", "detached", "fqone")  # records without statistics
CAP = 65535  # the greatest size of an event
MOST = 1 << 17  # bytes of a packet
problems = []


class Record:
    """The last sums of a record: its events, those before it, and the packets in its queue."""

    def __init__(self, path):
        rows = [line.split(",") for line in path.read_text().splitlines()]
        first = rows[0] if rows else []
        if not first or first[0] != "resume":
            raise ValueError("no excerpt")
        self.sums = dict(zip(STATISTICS, map(int, first[-15:])))
        self.begins = self.events = int(first[29 + (len(first) == 61)])
        self.queued = int(first[31 + (len(first) == 61)])
        self.capped = 0  # departures that were counted with 65535 bytes
        for row in rows[1:]:
            self.add(row)

    def add(self, row):
        if row[0] in ("queued", "clock"):
            return
        self.events += 1
        if row[0] == "arrive":
            self.sums["arrivals"] += 1
            self.sums[VERDICTS[row[-1]]] += 1
            self.queued += row[-1] == "enqueue"
        elif row[0] == "depart":
            self.sums["left"] += 1
            self.sums["left_bytes"] += int(row[5])
            self.capped += int(row[5]) == CAP
            self.queued -= 1
        else:
            self.sums[{"update": "updates", "reset": "resets", "params": "changes"}[row[0]]] += 1


def audited(path):
    return subprocess.run([PIE, "audit", path], stdout=subprocess.PIPE, stderr=subprocess.STDOUT, text=True, check=False).stdout.strip()


def faults_of(name, path):
    """Returns what is wrong with a record."""
    found = []
    answer = audited(path)
    try:
        record = Record(path)
    except (ValueError, IndexError, KeyError) as why:
        return [f"{answer}; {why}"], None
    if answer.rsplit(": ", 1)[-1] != f"clean,{record.events - record.begins}" and answer.rsplit(": ", 1)[-1] != f"clean,{record.events}":
        found.append(answer)
    return found + compared(name, record) + joined(name, path), record


def joined(name, path):
    """Compares the state at the end of a record with that at the beginning of the next one."""
    return follows(path, FOLDER / f"{name}.next") if (FOLDER / f"{name}.next").exists() else []


def follows(path, after):
    done = subprocess.run([PIE, "audit", "--joined", path, after], stdout=subprocess.PIPE, stderr=subprocess.STDOUT, text=True, check=False)
    return [] if f"{after}: follows\n" in done.stdout else [done.stdout.strip().replace("\n", "; ")]


def queue_of(name, ending):
    """Returns the statistics of the queue of a record."""
    child = re.fullmatch(r"(mq)(\d)", name)
    queues = json.loads((FOLDER / f"{child[1] if child else name}.{ending}").read_text())
    found = [it for it in queues if it["kind"] == "bpf_pie" and (not child or it["parent"] == f"1:{child[2]}")]
    return found[0] if len(found) == 1 else sys.exit(f"{ME}: {name}.{ending} has {len(found)} queues")


def compared(name, record):
    """Compares the sums of a record with those of the kernel and of pie-qdisc."""
    if name in ALONE:
        return []
    shown, kernel = queue_of(name, "show"), queue_of(name, "tc")
    sums = record.sums
    drops = sums["early"] + sums["over_bytes"] + sums["over_packets"]
    mine = {"events": record.events, "packets": sums["left"], "bytes": sums["left_bytes"], "drops": drops, "early": sums["early"], "over_bytes": sums["over_bytes"],
            "over_packets": sums["over_packets"], "qlen": record.queued, "refused": 0, "lost": 0}
    found = [f"{key} {value}, and pie-qdisc has {shown[key]}" for key, value in mine.items() if shown[key] != value and (name, key) != ("small", "lost")]
    kernels = {"drops": drops, "qlen": record.queued, "backlog": shown["backlog"], "handle": shown["handle"]}
    found += [f"{key} {value}, and tc has {kernel[key]}" for key, value in kernels.items() if kernel[key] != value]
    # (the kernel counts each byte of a longer packet)
    if not sums["left_bytes"] <= kernel["bytes"] <= sums["left_bytes"] + record.capped * (MOST - CAP):
        found.append(f"bytes {sums['left_bytes']}, {record.capped} packets of at least {CAP} among them, and tc has {kernel['bytes']}")
    return found


def small():
    """Checks the excerpts of a record with lost events."""
    parts = sorted(FOLDER.glob("small.part*"), key=lambda it: int(re.search(r"\d*$", it.name)[0] or 1))
    before, after = (json.loads((FOLDER / f"small.{it}").read_text())[0] for it in ("before", "show"))
    kept, end = 0, None
    for number, part in enumerate(parts, 1):
        found, record = faults_of("small" if number == len(parts) else "killed", part)
        problems.extend(f"small: excerpt {number}: {it}" for it in found)
        if record:
            kept += record.events - record.begins
            if end is not None and record.begins < end:
                problems.append(f"small: excerpt {number} begins before the end of the one before it")
            end = record.events
    lost = after["lost"] - before["lost"]
    # (events without a reader are before the first excerpt)
    first = Record(parts[0]).begins
    if len(parts) < 2 or not lost or first + kept + lost != after["events"]:
        problems.append(f"small: {len(parts)} excerpts with {kept} events, {lost} lost, of {after['events'] - first}")
    print(f"  small: {len(parts)} excerpts of {kept} events, {lost} lost, each clean alone")


def flows():
    """Checks the records of the flows of one queue: each is clean alone, and their sums are those of the queue."""
    shown, kernel = (json.loads((FOLDER / f"fq.{it}").read_text())[0] for it in ("show", "tc"))
    records = {}
    for path in sorted(FOLDER.glob("fq.flows/flow*")):
        answer = audited(path)
        records[path.name] = record = Record(path)
        if answer.rsplit(": ", 1)[-1] != f"clean,{record.events - record.begins}":
            problems.append(f"fq: {path.name}: {answer}")
    sums = Counter()
    for record in records.values():
        sums.update(record.sums)
        sums["events"] += record.events
        sums["queued"] += record.queued
    drops = sums["early"] + sums["over_bytes"] + sums["over_packets"] + shown["over_limit"]
    mine = {"events": sums["events"], "packets": sums["left"], "bytes": sums["left_bytes"], "drops": drops, "early": sums["early"], "flows": len(records),
            "qlen": sums["queued"], "refused": 0, "lost": 0}
    problems.extend(f"fq: {key} {value}, and pie-qdisc has {shown[key]}" for key, value in mine.items() if shown[key] != value)
    kernels = {"bytes": sums["left_bytes"], "drops": drops, "qlen": sums["queued"], "kind": "bpf_fq_pie"}
    problems.extend(f"fq: {key} {value}, and tc has {kernel[key]}" for key, value in kernels.items() if kernel[key] != value)
    after = list(FOLDER.glob("fq.next/flow*"))
    problems.extend(f"fq: {it}" for path in after for it in follows(FOLDER / "fq.flows" / path.name, path))
    if len(records) < 64 or not sums["early"] or not shown["over_limit"] or len(after) != 1:
        problems.append(f"fq: {len(records)} flows, {sums['early']} early, {shown['over_limit']} over the limit, {len(after)} next: fewer than there must be")
    print(f"  fq: {len(records)} flows, each clean alone: {sums['enqueued']} queued, {sums['early']} early, {sums['over_bytes']} over_bytes, {shown['over_limit']} over the "
          f"limit, {sums['updates']} updates")


def mutants():
    for name in FAULTS:
        found, _ = faults_of(f"mutant_{name}", FOLDER / f"mutant_{name}.history")
        if not found:
            problems.append(f"the fault {name} is not found")
        print(f"  fault {name}: {found[0][:110] if found else 'NOT FOUND'}")


def multiqueue():
    """Checks that packets came to several of the four queues below mq."""
    shown = json.loads((FOLDER / "mq.show").read_text())
    busy = sum(it["packets"] > 20 for it in shown)
    if len(shown) != 4 or busy < 2:
        problems.append(f"mq: packets in {busy} of {len(shown)} queues")


def verified():
    """Compares the instructions that the verifier processed."""
    wanted = {name: int(count) for name, count in (line.split() for line in (HERE / "verified.txt").read_text().splitlines() if not line.startswith("#"))}
    found = {name: int(count) for name, count in re.findall(r"^(\w+) processed (\d+) insns", (FOLDER / "verified").read_text(), re.M)}
    print("  instructions that the verifier processed: " + ", ".join(f"{name.removeprefix('qdisc_op_')} {count}" for name, count in found.items()))
    if found.keys() != wanted.keys():
        problems.append(f"programs {sorted(found)}, and verified.txt has {sorted(wanted)}")
    problems.extend(f"{name}: {found[name]} instructions were processed, and {wanted[name]} before" for name in found.keys() & wanted.keys() if 2 * found[name] > 3 * wanted[name])


if (FOLDER / "verified").exists():
    verified()
for path in sorted(FOLDER.glob("*.history")):
    if path.stem.startswith("mutant_"):
        continue
    if path.stem.startswith("mq") and not path.stat().st_size:
        print(f"  {path.stem}: no packet")
        continue
    faults, it = faults_of(path.stem, path)
    problems += [f"{path.stem}: {fault}" for fault in faults]
    if it:
        if path.stem == "changed" and it.sums["changes"] < 2 or path.stem == "flows" and not it.sums["early"] or path.stem == "packets" and not it.sums["over_packets"]:
            problems.append(f"{path.stem}: fewer changes or drops than there must be")
        print(f"  {path.stem}: {audited(path).rsplit(': ', 1)[-1]}; {it.sums['enqueued']} queued, {it.sums['early']} early, {it.sums['over_bytes']} over_bytes, "
              f"{it.sums['over_packets']} over_packets, {it.sums['updates']} updates, {it.sums['changes']} changes")
if (FOLDER / "small.show").exists():
    small()
if (FOLDER / "fq.show").exists():
    flows()
if (FOLDER / "mq.show").exists():
    multiqueue()
mutants()
for problem in problems:
    print(f"{ME}: {problem}", file=sys.stderr)
sys.exit(1 if problems else 0)
