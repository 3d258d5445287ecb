#!/usr/bin/env python3
"""Compares the rows of `pie-watch --drops` and the metrics of `pie-watch serve` with the counters of tc (summed_init.sh).

Each drop and mark that tc counts in drops.csv must have a row with its cause, the sums of each queue must be those of tc, and a row must have each column.
The metrics of a queue must be those of tc, and the sums of all queues those of the queues. The server has no privileges.

usage: bindings/linux/summed.py FOLDER LEAVES SCRAPES"""
import csv
import json
import re
import sys
from collections import Counter
from pathlib import Path

KINDS = ("pie", "fq_pie")
FIELDS = 33
faults = []


def expect(what, ours, right):
    if ours != right:
        faults.append(f"{what}: {ours}, right is {right}")


def queues(path):
    """Returns tc's queues of pie and fq_pie by device and class."""
    return {(it["dev"], it.get("parent", "root")): it for it in json.loads(path.read_text()) if it["kind"] in KINDS}


class Drops:
    """The rows of a text of --drops, by the queue, which begins with its creation."""

    def __init__(self, path):
        with path.open() as file:
            names, *rows = csv.reader(file)
        expect(f"{path.name}: columns", len(names), FIELDS)
        self.counts, self.sums, self.rows = [], [], []
        last = 0
        for fields in rows:
            expect(f"{path.name}: fields of a row", len(fields), FIELDS)
            row = dict(zip(names, fields, strict=False))
            expect(f"{path.name}: the order of moments", int(row["ns"]) >= last, True)
            last = int(row["ns"])
            self.rows.append(row)
            if row["event"] == "created":
                self.counts.append(Counter())
            elif row["event"] in ("drop", "mark"):
                self.counts[-1][row["event"] + " " + row["cause"]] += 1
            elif row["event"] == "sums":
                self.sums.append(row)

    def compare(self, at, told, earlier=None):
        """Compares the queue created as number `at` with tc; `earlier`: counters before the recording, of a queue that worked already."""
        counts, sums, before = self.counts[at], self.sums[at], earlier or Counter()
        limit = counts["drop limit"]
        expect(f"queue {at}: dropped early", counts["drop early"] + before["early"], told["dropped"] - told["overlimit"])
        expect(f"queue {at}: dropped by the limit", limit + before["over"], told["overlimit"])
        expect(f"queue {at}: marked", counts["mark random"] + before["marked"], told["ecn_mark"])
        for name, right in (("arrived", told["pkts_in"] + told["dropped"]), ("early", told["dropped"] - told["overlimit"]), ("over", told["overlimit"]),
                            ("marked", told["ecn_mark"])):
            expect(f"queue {at}: the sum {name}", int(sums[name]), right)
        print(f"  queue {at}: {sum(counts.values())} rows: {dict(counts)}; {sums['departed']} departed, {sums['waited_ms']} ms waited")


def first_row(drops, at):
    """Returns the kernel's counters before the first row of a queue that worked already."""
    seen = [index for index, row in enumerate(drops.rows) if row["event"] == "created"][at]
    row = next((row for row in drops.rows[seen + 1:] if row["event"] in ("drop", "mark", "created")), None)
    if row is None or row["event"] == "created":
        return Counter()
    before = Counter({name: int(row[name]) for name in ("early", "over", "marked")})
    before["early"] -= (row["event"], row["cause"]) == ("drop", "early")
    before["over"] -= (row["event"], row["cause"]) == ("drop", "limit")
    before["marked"] -= row["event"] == "mark"
    return before


def metrics(path):
    """Returns the values of a text of metrics by name and labels."""
    values = {}
    for line in path.read_text().splitlines():
        if not line.startswith("#"):
            name, value = line.rsplit(" ", 1)
            expect(f"{path.name}: {name} is there once", name in values, False)
            values[name] = float(value)
    return values


def compare_metrics(values, link, parent, labels, told, before=None):
    """Compares the metrics of a queue with tc's counters; `before`: those at the beginning of the server, which counts departures from then on."""
    at = f'{{link="{link}",queue="{parent}"{labels}}}'
    before = before or Counter()
    for name, right in (("arrived_packets_total", told["pkts_in"] + told["dropped"]), ("early_drops_total", told["dropped"] - told["overlimit"]),
                        ("packet_limit_drops_total", told["overlimit"]), ("marked_packets_total", told["ecn_mark"]),
                        ("departed_bytes_total", told["bytes"] - before["bytes"]), ("byte_limit_drops_total", 0), ("queue_bytes", told["backlog"]),
                        ("wait_seconds_count", told["pkts_in"] - told["qlen"] - before["pkts_in"] + before["qlen"])):
        expect(f"pie_{name}{at}", values.get(f"pie_{name}{at}"), right)


def compare_host(path, values):
    """Compares the sums of the host with those of the queues, if no queue was removed."""
    for name in ("arrived_packets_total", "early_drops_total", "packet_limit_drops_total", "marked_packets_total", "departed_bytes_total"):
        expect(f"{path}: pie_host_{name}", values[f"pie_host_{name}"], sum(value for key, value in values.items() if key.startswith(f"pie_{name}{{")))
    expect(f"{path}: the buckets", values['pie_host_wait_seconds_bucket{le="+Inf"}'], values["pie_host_wait_seconds_count"])
    ours = sum(value for key, value in values.items() if key.startswith("pie_wait_seconds_count{"))
    expect(f"{path}: pie_host_wait_seconds_count", values["pie_host_wait_seconds_count"], ours)
    series = Counter(match[1] for key in values if (match := re.search(r'\{(link="[^"]*",queue="[^"]*")', key)))
    expect(f"{path}: series of a queue", max(series.values()), 12)


def screen(path):
    """Returns the text of a terminal's output, without its control sequences."""
    return re.sub(r"\x1b[\[(][0-9;?]*[A-Za-z0-9]?|\x1b[=>78]|\x0f|\x0e", " ", path.read_text(errors="replace"))


def compare_few(folder):
    """Compares the modes beside queues that are created and removed."""
    drops = Drops(folder / "drops.csv")
    expect("created queues", len(drops.counts), 3)
    names = ["running", "limit", "last"]
    for at, name in enumerate(names):
        (told,) = queues(folder / f"{name}.json").values()
        drops.compare(at, told, first_row(drops, at) if name == "running" else None)
    packets = [row for row in drops.rows if row["event"] in ("drop", "mark")]
    expect("a destination", {row["destination"] for row in packets}, {"10.0.2.9"})
    expect("a port", all(1000 <= int(row["source_port"]) <= 1100 for row in packets), True)
    expect("ECN", {row["ecn"] for row in packets if row["event"] == "mark"}, {"ce"})
    expect("flows of fq_pie", all((row["flow"] != "") == (row["kind"] == "fq_pie") for row in packets), True)
    one = Drops(folder / "one.csv")
    expect("one queue", len(one.counts), 1)
    one.compare(0, next(it for it in queues(folder / "one.json").values()))
    expect("no addresses", {row["destination"] + row["source"] + row["source_port"] for row in one.rows}, {""})

    values = metrics(folder / "served.metrics")
    for name, prefix in (("served", ""), ("served_b", "b/")):
        for (device, parent), told in queues(folder / f"{name}.json").items():
            compare_metrics(values, prefix + device, parent, ',subscriber="4711",plan="gold",site="west"' if device == "rb" else "", told,
                            queues(folder / f"before_{name}.json")[(device, parent)])
    expect("queues", values["pie_host_queues"], 2)
    compare_host("served", values)
    removed = metrics(folder / "removed.metrics")
    expect("removed queues", (removed["pie_host_queues"], removed["pie_host_removed_queues_total"]), (1, 1))
    for name in ("arrived_packets_total", "early_drops_total", "departed_bytes_total", "wait_seconds_count"):
        expect(f"after the removal: pie_host_{name}", removed[f"pie_host_{name}"] >= values[f"pie_host_{name}"] > 0, True)
    expect("health", json.loads((folder / "health.json").read_text())["status"], "ok")
    worst, match = json.loads((folder / "queues.json").read_text()), json.loads((folder / "match.json").read_text())
    expect("the longest mean wait", (len(worst["queues"]), worst["found"], worst["queues"][0]["link"]), (1, 2, "rb"))
    expect("the queues of a label", [it["labels"]["subscriber"] for it in match["queues"]], ["4711"])
    privileges = (folder / "privileges").read_text()
    expect("a process of nobody without capabilities", "Uid:\t65534\t65534\t65534\t65534\n" in privileges and "CapPrm:\t0000000000000000\n" in privileges, True)
    kept = {int(it, 16) for it in re.findall(r"CapPrm:\t([0-9a-f]+)", privileges)}
    expect("capabilities", kept, {0, 1 << 38 | 1 << 39})

    text = screen(folder / "top.screen")
    for part in ("DEVICE", "rb", "1:1", "by wait", "by drops", "limit: 25 of 25 packets", "10.0.2.9", "AGO"):
        expect(f"top shows {part}", part in text, True)


def compare_many(folder, leaves):
    """Compares the metrics of two devices with many leaves."""
    values = metrics(folder / "many.metrics")
    told = {(prefix + device, parent): it for name, prefix in (("r", ""), ("b", "b/"))
            for (device, parent), it in queues(folder / f"many_{name}.json").items()}
    expect("queues", values["pie_host_queues"], 2 * leaves)
    used = 0
    for (link, parent), it in told.items():
        if it["pkts_in"]:
            compare_metrics(values, link, parent, "", it)
            used += 1
    compare_host("many", values)
    print(f"  {len(told)} queues, {used} with traffic, {sum(it['pkts_in'] for it in told.values())} packets, "
          f"{sum(it['dropped'] for it in told.values())} dropped; lost events {json.loads((folder / 'many_health.json').read_text())}")


def compare_long(folder, scrapes):
    """Compares the counters of a server that was read each second: none falls, and the last ones are those of tc."""
    times = [[float(it) for it in line.split()] for line in (folder / "scrapes").read_text().splitlines()]
    expect("scrapes", len(times), scrapes)
    last = {}
    for number in range(1, scrapes + 1):
        now = metrics(folder / f"scrape.{number}")
        counters = {name: value for name, value in now.items() if re.search(r"(total|count)(\{|$)", name)}
        expect(f"scrape {number}: counters that fell or are missing", [name for name in last if counters.get(name, -1) < last[name]], [])
        expect(f"scrape {number}: queues", (now["pie_host_queues"], now["pie_host_missed_queues_total"]), (2, 0))
        compare_host(f"scrape {number}", now)
        last = counters
    health = json.loads((folder / "long_health.json").read_text())
    expect("health", (health["status"], health["queues"], health["missed_queues"]), ("ok", 2, 0))
    values = metrics(folder / "long.metrics")
    (told,) = queues(folder / "long.json").values()
    (before,) = queues(folder / "before_long.json").values()
    compare_metrics(values, "rb", "1:1", "", told, before)
    compare_host("long", values)
    print(f"  {scrapes} scrapes in {times[-1][1] - times[0][0]:.0f} s, each in at most {max(to - at for at, to in times):.2f} s; "
          f"{told['pkts_in'] + told['dropped']} packets, {told['dropped']} dropped; {health}")


def main():
    folder, leaves, scrapes = Path(sys.argv[1]), int(sys.argv[2]), int(sys.argv[3])
    if scrapes:
        compare_long(folder, scrapes)
    elif leaves:
        compare_many(folder, leaves)
    else:
        compare_few(folder)
    for fault in faults[:20]:
        print(f"DIFFERENT: {fault}")
    sys.exit(bool(faults))


main()
