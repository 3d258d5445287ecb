#!/usr/bin/env python3
"""The plans and the rows of sparse.sh.

usage: bindings/bpf/sparse.py plans FOLDER BLOCKS    writes a plan of bench/uml/traffic.c for each block
       bindings/bpf/sparse.py rows FOLDER BLOCKS     prints the rows of the runs: of kind `probe` with the delay of each packet of the sparse flow in ns
                                                     (empty: it did not arrive), and of kind `bytes` with those of each other flow from FROM to UNTIL
       bindings/bpf/sparse.py check PIE FOLDER       audits each flow's record of the recorded run
       bindings/bpf/sparse.py table ROWS             prints the results"""
import csv
import json
import lzma
import random
import subprocess
import sys
from pathlib import Path
from statistics import fmean

QUEUES = ("fq_here", "fq_pie", "fq_codel")
SECOND = 1_000_000_000
BEGIN, FROM, UNTIL = 1, 3, 9  # seconds: the flows begin, and what is counted
PERIOD = 20_000_000
SPARSE, BULK, ALL = 0, 8, 64  # the number of the sparse flow, of bulk flows, and of all


def plan_of(block):
    draw = random.Random(block).randrange
    lines = [f"probe {SPARSE} 0 {UNTIL * SECOND} 10.0.1.1 {PERIOD} 36 0"]
    lines += [f"tcp {flow} {BEGIN * SECOND + draw(SECOND // 2)} {UNTIL * SECOND} 10.0.1.1 cubic" for flow in range(1, BULK + 1)]
    lines += [f"udp {flow} {BEGIN * SECOND + draw(SECOND // 2)} {UNTIL * SECOND} 10.0.1.1 {200_000_000 + draw(4_000_000)} 172 0" for flow in range(BULK + 1, ALL)]
    return "\n".join(lines) + "\n"


def rows_of(folder, queue, block):
    received = [line.split() for line in (folder / f"{queue}.{block}.received").read_text().splitlines()]
    sent = {int(line.split()[1]): int(line.split()[2]) for line in (folder / f"{queue}.{block}.sent").read_text().splitlines() if line.startswith("sent ")}
    delays = {int(row[2]): row[4] for row in received if row[0] == "probe"}
    for number in range(sent[SPARSE]):
        yield [queue, block, "probe", SPARSE, number, delays.get(number, "")]
    for flow in range(1, ALL):
        yield [queue, block, "bytes", flow, "", sum(int(row[3]) for row in received if row[0] == "bytes" and int(row[1]) == flow and FROM * 10 <= int(row[2]) < UNTIL * 10)]


def results(path):
    """Returns for each queue the blocks' waits of the sparse flow in ms, its lost packets, and the bytes of each bulk flow."""
    found = {queue: {} for queue in QUEUES}
    with lzma.open(path, "rt", newline="") as file:
        for row in csv.DictReader(file):
            it = found[row["queue"]].setdefault(int(row["block"]), {"delays": {}, "lost": 0, "bulk": []})
            if row["kind"] == "bytes":
                it["bulk"] += [int(row["value"])] * (int(row["flow"]) <= BULK)
            elif row["value"]:
                it["delays"][int(row["number"])] = int(row["value"])
            else:
                it["lost"] += 1
    for blocks in found.values():
        for it in blocks.values():
            # the delay of an empty queue is that before the flows begin
            empty = min(delay for number, delay in it["delays"].items() if number * PERIOD < BEGIN * SECOND)
            it["waits"] = [(delay - empty) / 1e6 for number, delay in it["delays"].items() if number * PERIOD >= FROM * SECOND]
    return found


def percentile(values, part):
    return sorted(values)[min(len(values) - 1, int(len(values) * part))]


def summary(blocks):
    """Returns the number of waits, their mean, 99th percentile and greatest, the lost packets, the Mbit/s of the bulk flows, and Jain's index of them."""
    waits = [wait for it in blocks.values() for wait in it["waits"]]
    rate = fmean(sum(it["bulk"]) * 8 / (UNTIL - FROM) / 1e6 for it in blocks.values())
    jain = fmean(sum(it["bulk"]) ** 2 / (len(it["bulk"]) * sum(bytes_ ** 2 for bytes_ in it["bulk"])) for it in blocks.values())
    return len(waits), fmean(waits), percentile(waits, 0.99), max(waits), sum(it["lost"] for it in blocks.values()), rate, jain


def check(pie, folder):
    flows, events = sorted((folder / "flows").glob("flow*")), 0
    for path in flows:
        answer = subprocess.run([pie, "audit", path], stdout=subprocess.PIPE, stderr=subprocess.STDOUT, text=True, check=False).stdout.strip()
        if not answer.rsplit(": ", 1)[-1].startswith("clean,"):
            sys.exit(f"bindings/bpf/sparse.py: {path.name}: {answer}")
        events += int(answer.rsplit(",", 1)[1])
    shown = json.loads((folder / "recorded.show").read_text())[0]
    status = (folder / "flows.status").read_text().strip()
    if len(flows) != shown["flows"] or status != "0" or shown["lost"] or shown["refused"]:
        sys.exit(f"bindings/bpf/sparse.py: {len(flows)} records of {shown['flows']} flows, status {status}, {shown['lost']} lost")
    print(f"  recorded: {len(flows)} flows, {events} events, each record clean alone")


def main():
    command, words = sys.argv[1], sys.argv[2:]
    if command == "plans":
        Path(words[0]).mkdir(parents=True)
        for block in range(1, int(words[1]) + 1):
            (Path(words[0]) / str(block)).write_text(plan_of(block))
    elif command == "rows":
        out = csv.writer(sys.stdout, lineterminator="\n")
        out.writerow(["queue", "block", "kind", "flow", "number", "value"])
        for block in range(1, int(words[1]) + 1):
            for queue in QUEUES:
                out.writerows(rows_of(Path(words[0]), queue, block))
    elif command == "check":
        check(words[0], Path(words[1]))
    else:
        for queue, blocks in results(words[0]).items():
            count, mean, high, most, lost, rate, jain = summary(blocks)
            print(f"  {queue}: {count} waits: mean {mean:.2f} ms, 99 % {high:.2f} ms, greatest {most:.2f} ms, {lost} lost; bulk {rate:.2f} Mbit/s, Jain {jain:.3f}")


if __name__ == "__main__":
    main()
