#!/usr/bin/env python3
"""Runs scenarios through a list of queues in a Linux in a process (run.sh): this repository's link and queues of the kernel. It audits every history
of the link and adds a row for each part of a run to FOLDER/results.csv. Runs that are in this file are not made again, so a batch that was stopped
continues.

usage: bench/uml/beside.py PIE FOLDER [--blocks FIRST-LAST] [--kept COUNT] [NAME..]     scenarios of scenarios.py; all if none is named
       bench/uml/beside.py PIE FOLDER --queues stamp,pie [--blocks 1-2] OPTIONS         one scenario by options, as scenarios.py has them
  PIE        the built program; build/pie is what make builds
  --queues   of the link: tail, stamp, rate (the delay by the departure rate), half (the other decay), wide (a target of 20 ms), marks (ECN up to any
             probability), slowwide (a target of 30 ms), mtu (a mean_pkt of 1514 bytes), ecn (TCP and the queue use ECN), limit20 (a limit of
             20 ms at the first rate, in bytes; any number of ms); of the kernel: pfifo, pie, pie-rate (dq_rate_estimator), pie-low and pie-high (targets of
             12.5 and 17.5 ms), fq_codel, cake, codel, red (adaptive), fq_pie, and of rules.sh pie-RULE. NAME-again runs the queue once more, with other random words
  --blocks   the blocks of the scenario, as 1-2; all by default
  --kept     the number of blocks of each scenario whose files stay in the folder; 1 by default
  --late     also runs whose traffic began late: for a test in real time on a busy machine
UML_LINUX=FILE in the environment is a Linux whose time is simulated (build.sh). Status 1: a run failed, or a history is not clean.

A wait is the time from arrival to departure in ms: of packets by the history, and of probes for all queues. A probe is a packet of UDP of 64 bytes.
One clock measures its delay in one direction; the delay of the probes that crossed the empty queue before the traffic is subtracted."""
import argparse
import csv
import fcntl
import json
import os
import random
import re
import resource
import shutil
import subprocess
import sys
from pathlib import Path
from statistics import fmean, median

HERE = Path(__file__).resolve().parent
sys.path.insert(0, str(HERE))
sys.dont_write_bytecode = True
from scenarios import SAME_BLOCKS, SCENARIOS  # noqa: E402

OURS = {
    "tail": ["--queue", "tail"],
    "stamp": [],
    "rate": ["--delay", "rate"],
    "half": ["--decay", "half"],
    "wide": ["--target", "20ms"],
    "slowwide": ["--target", "30ms"],
    "mtu": ["--mean_pkt", "1514b"],
    "marks": ["--mark_ecnth", "100%"],
    "ecn": ["--ecn"],
    # wrong bottlenecks, which tests/program/beside.sh must find
    "late": ["--queue", "tail", "--delivery", "end"],
    "fast": ["--queue", "tail", "--rate", "10020kbit"],
}
THEIRS = {
    "pfifo": "pfifo limit {packets}",
    "pie": "pie limit {packets} target 15ms tupdate 15ms",
    "pie-rate": "pie limit {packets} target 15ms tupdate 15ms dq_rate_estimator",
    "pie-low": "pie limit {packets} target 12500us tupdate 15ms",
    "pie-high": "pie limit {packets} target 17500us tupdate 15ms",
    "codel": "codel limit {packets}",
    "red": "red limit {bytes} min {least} max {most} avpkt 1000 probability 0.02 adaptive bandwidth {rate}bit",
    "fq_pie": "fq_pie target 15ms tupdate 15ms",
    "fq_codel": "fq_codel",
    "cake": "cake unlimited besteffort",
}
# rules of Linux's pie that can be exchanged, in the order of rules.sed; pie-all has all of this project's, pie-all-NAME has all except one
RULES = ["decay", "small", "holds", "far", "delay", "burst", "calm"]
RED_WAIT = 0.0075           # seconds: the time that RED's least queue takes at the first rate
UNITS = {"ns": 1e-9, "us": 1e-6, "ms": 1e-3, "s": 1, "bit": 1, "kbit": 1e3, "mbit": 1e6, "gbit": 1e9}
FIELDS = ["scenario", "queue", "block", "from", "to", "goodput", "groups", "jain", "wait", "wait95", "wait99", "probe", "probe95", "probe99",
          "probes", "lost", "over150", "share", "voice", "voice99", "voice_lost", "dns", "dns99", "early", "tail", "marks", "sent", "prob", "base",
          "late", "audit", "processor", "version"]
SHORT_FIELDS = ["scenario", "queue", "block", "bytes", "since", "took"]
MOST_DELAYS = 15            # bands of netem
JITTER = 0.1                # of a round trip, up and down
SPREAD = 0.5                # seconds in which the flows of a group start
PROBE, BASE, SHORT, VOICE, DNS = 0, 1000, 500, 900, 950     # numbers of flows; groups have those from 1 on
PROBE_BYTES = 36            # of payload: 64 with the headers of IP and UDP
MTU_PAYLOAD = 1472


def number(text, *units):
    found = re.fullmatch(r"([\d.]+)([a-z]+)", text)
    if not found or found[2] not in units:
        sys.exit(f"bench/uml/beside.py: {text}: not a number with a unit of {', '.join(units)}")
    return float(found[1]) * UNITS[found[2]]


def rate_of(text):
    return int(number(text, "bit", "kbit", "mbit", "gbit"))


def rates_of(text):
    parts = [part.split(":") for part in text.split(",")]
    return [(number(part[0], "ms", "s") if len(part) == 2 else 0, rate_of(part[-1])) for part in parts]


def group_of(text, seconds):
    way = "back" if text.startswith("back:") else "there"
    count, kind, rtt, *lasts = text.removeprefix("back:").split(":")
    since, until = (number(moment, "ms", "s") for moment in lasts[0].split("-")) if lasts else (0, seconds)
    return {"way": way, "count": int(count), "kind": kind, "rtt": number(rtt, "us", "ms", "s"), "since": since, "until": until}


def is_tcp(group):
    return re.fullmatch("[a-z]+", group["kind"]) and group["kind"] != "voice"


class Plan:
    """The plan of a block's senders: each flow's start, round trip and address, drawn by the block's name."""

    def __init__(self, scenario, block):
        self.scenario, self.dice = scenario, random.Random(f"{scenario['seed']}-{block}")
        self.delays, self.lines, self.groups, self.next = [], {"there": [], "back": []}, [], 1
        groups = scenario["groups"]
        share = max(1, MOST_DELAYS // max(1, len(groups)))
        if scenario["reverse"]:
            self.draw_delay(groups[0])
        for group in groups:
            places = [0] if scenario["reverse"] else [self.draw_delay(group) for _ in range(min(group["count"], share))]
            self.groups.append([])
            for it in range(group["count"]):
                self.add_flow(group, places[it % len(places)])
        self.add_short()
        period = round(scenario["probe"] * 1e9)
        since = self.dice.randrange(period)
        self.lines["there"] += [f"probe {BASE} {-1_500_000_000} {-600_000_000} 10.1.0.1 100000000 {PROBE_BYTES} 0",
                                f"probe {PROBE} {since} {self.ns(scenario['seconds'])} 10.1.0.1 {period} {PROBE_BYTES} 0"]

    def draw_delay(self, group):
        self.delays.append(round(group["rtt"] * 1e6 * self.dice.uniform(1 - JITTER, 1 + JITTER)))
        return len(self.delays) - 1

    def ns(self, seconds):
        return round(seconds * 1e9)

    def add_flow(self, group, place):
        since = group["since"] + self.dice.uniform(0, SPREAD)
        source = f"10.1.0.{place + 1}" if group["way"] == "there" else "10.2.0.1"
        name, _, word = group["kind"].partition("=")
        ends, lines = self.ns(group["until"]), self.lines[group["way"]]
        flow, self.next = self.next, self.next + 1
        self.groups[-1].append(flow)
        if is_tcp(group):
            lines.append(f"tcp {flow} {self.ns(since)} {ends} {source} {name}")
        elif name in ("udp", "ect"):
            period, tos = round(MTU_PAYLOAD * 8e9 / rate_of(word)), 2 * (name == "ect")
            lines.append(f"udp {flow} {self.ns(since)} {ends} {source} {period} {MTU_PAYLOAD} {tos}")
        elif name == "voice":
            lines.append(f"probe {VOICE} {self.ns(since)} {ends} {source} 20000000 172 0")
        elif name == "dns":
            while (since := since + self.dice.expovariate(float(word))) < group["until"]:
                lines.append(f"probe {DNS} {self.ns(since)} {self.ns(since) + 1} {source} 1000000000 {PROBE_BYTES} 0")
        elif name == "burst":
            packets, period = word.split("x")
            while since < group["until"]:
                lines.append(f"udp {flow} {self.ns(since)} {self.ns(since) + int(packets) * 1000} {source} 1000 {MTU_PAYLOAD} 0")
                since += number(period, "ms", "s")
        else:
            sys.exit(f"bench/uml/beside.py: {group['kind']}: no kind of flow")

    def add_short(self):
        flow = SHORT
        for part in self.scenario["short"].split(",") if self.scenario["short"] else []:
            size, often = part.split("x")
            moment = self.dice.expovariate(float(often))
            while moment < self.scenario["seconds"] - 3:
                self.lines["there"].append(f"short {flow} {self.ns(moment)} {size} 10.1.0.1 cubic")
                flow, moment = flow + 1, moment + self.dice.expovariate(float(often))


def queue_of(name, words):
    name = name.removesuffix("-again")
    if limit := re.fullmatch(r"limit(\d+)", name):
        bytes_of_limit = rates_of(words.rate)[0][1] * int(limit[1]) // 8000
        return {"kind": "ours", "words": ["--limit", f"{bytes_of_limit}b", "--tupdate", "15ms"]}
    if name in OURS:
        more = ["--tupdate", "15ms"] + ["--ecn"] * words.ecn + (["--grant", words.grant] if words.grant else [])
        return {"kind": "ours", "words": OURS[name] + more, "ecn": int(words.ecn or name == "ecn")}
    if found := re.fullmatch(rf"pie-(all-)?({'|'.join([*RULES, 'all'])})", name):
        every, one = (1 << len(RULES)) - 1, 1 << RULES.index(found[2]) if found[2] in RULES else 0
        return queue_of("pie", words) | {"rules": every - one if found[1] or not one else one}
    if name not in THEIRS:
        sys.exit(f"bench/uml/beside.py: {name}: no queue of {', '.join([*OURS, *THEIRS])}")
    text = THEIRS[name]
    if name.startswith("pie"):
        text += " ecn" * words.ecn
    if name == "fq_codel":
        text += " ecn" if words.ecn else " noecn"
    if name == "red":
        rate = rates_of(words.rate)[0][1]
        least = max(1500, round(rate / 8 * RED_WAIT))
        text = text.format(bytes=int(rate / 8 * number(words.limit, "ms", "s")), least=least, most=3 * least, rate=rate)
    return {"kind": "theirs", "words": text.split()}


def options(words=None):
    parser = argparse.ArgumentParser(usage=__doc__.split("usage: ")[1])
    if words is None:
        for name in ("program", "folder"):
            parser.add_argument(name)
        parser.add_argument("--blocks")
        parser.add_argument("--kept", type=int, default=1)
        parser.add_argument("--late", action="store_true")
        parser.add_argument("names", nargs="*")
    parser.add_argument("--queues")
    parser.add_argument("--seconds", type=int, default=12)
    parser.add_argument("--rate", default="10mbit")
    parser.add_argument("--flows", nargs="+", default=["4:cubic:20ms"])
    parser.add_argument("--limit", default="200ms")
    parser.add_argument("--probe")
    parser.add_argument("--reverse")
    parser.add_argument("--bucket", type=int, default=1)
    parser.add_argument("--grant")
    parser.add_argument("--short")
    parser.add_argument("--ecn", action="store_true")
    parser.add_argument("--from", dest="beginning", type=float, default=4)
    parser.add_argument("--offload", action="store_true")
    return parser.parse_intermixed_args(words)


def scenario_of(name, words, queues, blocks):
    rates, seconds = rates_of(words.rate), words.seconds
    groups = [group_of(text, seconds) for text in words.flows]
    bounds = {0, seconds} | {moment for moment, _ in rates} | {group[end] for group in groups for end in ("since", "until")}
    bounds = sorted(bounds | ({words.beginning} if 0 < words.beginning < seconds else set()))
    probe = number(words.probe, "ms", "s") if words.probe else 0.1 if rates[0][1] >= 10e6 and len(rates) == 1 else 0.2
    queues = {queue: queue_of(queue, words) | {"blocks": count} for queue, count in queues.items()}
    found = {"name": name, "seed": SAME_BLOCKS.get(name, name), "queues": queues, "seconds": seconds, "rates": rates, "groups": groups,
             "short": words.short, "ecn": int(words.ecn), "offload": words.offload, "bounds": bounds, "probe": probe, "bucket": words.bucket,
             "reverse": rate_of(words.reverse) if words.reverse else 0, "packets": max(1, int(rates[0][1] / 8 * number(words.limit, "ms", "s") / 1500))}
    plans = {str(block): Plan(found, block) for block in blocks}
    found["blocks"] = {block: {"delays": plan.delays, "plan": plan.lines, "groups": plan.groups} for block, plan in plans.items()}
    return found


def order_of(scenario, block, done):
    """The runs of a block that are not made yet: the queues in a random order."""
    queues = sorted(queue for queue, it in scenario["queues"].items() if it["blocks"] >= int(block))
    random.Random(f"{scenario['name']}-{block}-order").shuffle(queues)
    return [f"{block}-{queue}" for queue in queues if (scenario["name"], queue, block) not in done]


def last_of(values, share):
    """The value below which this share of them lies: the nearest rank."""
    return sorted(values)[max(0, -int(-len(values) * share // 1) - 1)]


def three(values):
    return [fmean(values), last_of(values, 0.95), last_of(values, 0.99)] if values else [None] * 3


class Found:
    """The measurements of a run, by the moments of its traffic in seconds."""

    def __init__(self, scenario, block, folder, program, may_be_late=False):
        self.scenario, self.block = scenario, scenario["blocks"][block]
        about = json.loads((folder / "run.json").read_text())
        self.counts, self.probes = {}, {}
        self.read_received(folder / "there.received")
        if (folder / "back.received").exists():
            self.read_received(folder / "back.received")
        if not may_be_late and max(moment for moment, _ in self.probes.get(BASE, [(1, 0)])) > 0:
            raise ValueError("the traffic began late: the machine is too busy for a Linux in real time")
        self.base = median(delay for _, delay in self.probes.get(BASE, [(0, 0)]))
        self.broken, self.took = [], []
        self.read_sent(folder / "there.sent")
        self.departures, self.ends, self.updates, self.late, self.audit, self.counters = [], [], [], None, "-", None
        if (folder / "history").exists() and program:
            self.read_history(folder / "history", about["begin"])
            self.late = int(re.search(r"updates, (\d+) of them later", (folder / "link").read_text())[1])
            with open(folder / "history") as file:
                self.audit = subprocess.run([program, "audit"], stdin=file, capture_output=True, text=True).stdout.strip()
        elif (folder / "queue.json").exists():
            self.counters = {moment: self.queue_of(text) for moment, text in json.loads((folder / "queue.json").read_text())}

    def read_received(self, file):
        for line in file.read_text().splitlines():
            kind, flow, place, *words = line.split()
            if kind == "bytes":
                self.counts.setdefault(int(flow), {})[int(place)] = int(words[0])
            else:
                self.probes.setdefault(int(flow), []).append((int(words[0]) / 1e9, int(words[1]) / 1e6))

    def read_sent(self, file):
        for line in file.read_text().splitlines():
            kind, flow, *words = line.split()
            if kind == "took":
                self.took.append((int(words[0]), int(words[1]) / 1e9, None if words[2] == "-" else int(words[2]) / 1e6))
            elif kind == "failed":
                self.broken.append(flow)

    def read_history(self, file, begin):
        """Departures as (moment, wait in ms, bytes), arrivals' answers and updates as (moment, answer)."""
        since, lead = {}, None
        for line in open(file):
            words = line.rstrip("\n").split(",")
            if words[0] == "arrive":
                moment = int(words[2]) / 1e9 - lead
                since[words[3]] = moment
                self.ends.append((moment, words[7]))
            elif words[0] == "depart" and words[3] == "left":
                moment = int(words[2]) / 1e9 - lead
                self.departures.append((moment, (moment - since.pop(words[4])) * 1e3, int(words[5])))
            elif words[0] == "update":
                self.updates.append((int(words[2]) / 1e9 - lead, int(words[4]) / 1e12))
            elif words[0] == "clock":
                lead = (int(words[1]) + begin - int(words[2])) / 1e9

    def queue_of(self, text):
        """Early drops, tail drops, marks, bytes, packets and probability of a kernel's queue so far."""
        it = next(it for it in text if it["handle"] == "10:")
        kind, drops = it["kind"], it["drops"]
        ends = [0, drops, 0]
        if kind == "pie":
            ends = [it["dropped"] - it["overlimit"], it["overlimit"], it["ecn_mark"]]
        elif kind == "fq_pie":
            ends = [it["dropped"], it["overlimit"] + it["overmemory"], it["ecn_mark"]]
        elif kind == "red":
            ends = [it["early"], it["pdrop"], it["marked"]]
        elif kind in ("codel", "fq_codel"):
            ends = [drops - it["drop_overlimit"], it["drop_overlimit"], it["ecn_mark"]]
        elif kind == "cake":
            ends = [drops, 0, sum(tin["ecn_mark"] for tin in it["tins"])]
        return [*ends, it["bytes"], it["packets"]]

    def counted(self, begin, end):
        """Early drops, tail drops, marks, bytes and packets from here to there."""
        if self.counters is not None:
            return [last - first for first, last in zip(self.counters[begin], self.counters[end])]
        ends = [word for moment, word in self.ends if begin <= moment < end]
        sizes = [size for moment, _, size in self.departures if begin <= moment < end]
        return [ends.count("early"), ends.count("bytes") + ends.count("packets"), ends.count("mark"), sum(sizes), len(sizes)]

    def bits(self, flow, begin, end):
        first, last = round(begin * 10), round(end * 10)
        return 8 * sum(count for place, count in self.counts.get(flow, {}).items() if first <= place < last)

    def delays(self, flow, begin, end):
        return [delay - self.base for moment, delay in self.probes.get(flow, []) if begin <= moment < end]

    def planned(self, flow, begin, end):
        """Returns the number of probes that the plan sends for a flow between two moments."""
        count = 0
        for line in self.block["plan"]["there"]:
            words = line.split()
            if words[0] == "probe" and int(words[1]) == flow:
                since, until, period = (int(words[it]) / 1e9 for it in (2, 3, 5))
                moments = [since + it * period for it in range(max(1, -int(-(until - since) / period // 1)))]
                count += sum(begin <= moment < end and moment < until for moment in moments)
        return count

    def row(self, begin, end):
        groups = [sum(self.bits(flow, begin, end) for flow in flows) / (end - begin) / 1e6 for flows in self.block["groups"]]
        about = list(zip(groups, self.scenario["groups"]))
        flows = [self.bits(flow, begin, end) for group, numbers in zip(self.scenario["groups"], self.block["groups"]) if is_tcp(group)
                 and group["since"] < end and group["until"] > begin for flow in numbers]
        short = sum(self.bits(SHORT + it, begin, end) for it in range(VOICE - SHORT)) / (end - begin) / 1e6
        probes, voice, dns = (self.delays(flow, begin, end) for flow in (PROBE, VOICE, DNS))
        early, tail, marks, sent, packets = self.counted(begin, end)
        planned, voices = self.planned(PROBE, begin, end), self.planned(VOICE, begin, end)
        found = {
            "goodput": sum(it for it, group in about if group["way"] == "there") + short, "groups": "/".join(f"{it:.3f}" for it in groups),
            "jain": sum(flows) ** 2 / len(flows) / sum(it * it for it in flows) if any(flows) else None,
            "probes": planned, "lost": planned - len(probes), "over150": sum(it > 150 for it in probes),
            "share": len(probes) / packets if packets else None,
            "early": early, "tail": tail, "marks": marks, "sent": sent, "base": self.base, "late": self.late, "audit": self.audit,
            "voice": fmean(voice) if voice else None, "voice99": last_of(voice, 0.99) if voice else None,
            "voice_lost": voices - len(voice) if voices else None,
            "dns": fmean(dns) if dns else None, "dns99": last_of(dns, 0.99) if dns else None}
        updates = [probability for moment, probability in self.updates if begin <= moment < end]
        found["prob"] = fmean(updates) if updates else None
        for name, values in (("wait", [wait for moment, wait, _ in self.departures if begin <= moment < end]), ("probe", probes)):
            found |= zip((name, f"{name}95", f"{name}99"), three(values))
        return found


def parts_of(scenario):
    bounds = scenario["bounds"]
    return list(zip(bounds, bounds[1:])) + ([(bounds[0], bounds[-1])] if len(bounds) > 2 else [])


def short_form(value):
    return round(value, 4) if isinstance(value, float) else value


def version_of():
    """Git's names of the files that made a run: of network.py, traffic.c, examples/link and dist. `git log --find-object=NAME` finds the commits.
    A `+` follows if one of them has a change that is not committed."""
    top, files = str(HERE.parents[1]), ("bench/uml/network.py", "bench/uml/traffic.c", "examples/link", "dist")
    names = [subprocess.run(["git", "-C", top, "rev-parse", f"HEAD:{name}"], capture_output=True, text=True).stdout[:8] for name in files]
    changed = subprocess.run(["git", "-C", top, "diff", "--quiet", "HEAD", "--", *files]).returncode
    return ".".join(names) + "+" * bool(changed)


class Table:
    """The file of rows: the runs that were made."""

    def __init__(self, file, fields):
        self.file, self.fields = file, fields
        if not file.exists():
            file.write_text(",".join(fields) + "\n")
        with open(file, newline="") as text:
            self.rows = list(csv.DictReader(text))

    def add(self, rows):
        with open(self.file, "a", newline="") as out:
            fcntl.flock(out, fcntl.LOCK_EX)
            csv.DictWriter(out, self.fields, lineterminator="\n").writerows({key: short_form(it) for key, it in row.items()} for row in rows)


def processor_seconds():
    """Seconds that the ended children of this process took from a processor."""
    it = resource.getrusage(resource.RUSAGE_CHILDREN)
    return it.ru_utime + it.ru_stime


def run(scenario, number, folder, program, results, short, words):
    """Makes those runs of a block that are not made yet, and adds their rows. Returns the failures."""
    done = {(row["scenario"], row["queue"], row["block"]) for row in results.rows}
    scenario["order"] = order_of(scenario, number, done)
    if not scenario["order"]:
        return []
    folder.mkdir(parents=True, exist_ok=True)
    (folder / f"{number}.json").write_text(json.dumps(scenario))
    linux = [str(HERE / "run.sh")] * (not os.environ.get("IN_USER_MODE_LINUX"))
    before = processor_seconds()
    with open(folder / "said", "w") as said:
        subprocess.run([*linux, sys.executable, str(HERE / "network.py"), str(folder / f"{number}.json")], stderr=said)
    failed, version, processor = [], version_of(), (processor_seconds() - before) / len(scenario["order"])
    for place in scenario["order"]:
        block, queue = place.split("-", 1)
        try:
            found = Found(scenario, block, folder / place, program, words.late)
            same = {"scenario": scenario["name"], "queue": queue, "block": block}
            more = {"processor": round(processor, 1), "version": version}
            rows = [same | {"from": begin, "to": end} | more | found.row(begin, end) for begin, end in parts_of(scenario)]
        except (OSError, ValueError, KeyError, StopIteration) as why:
            failed.append(f"{scenario['name']}: {place}: {type(why).__name__}: {why}: {(folder / 'said').read_text()[-2000:]}")
            continue
        if found.audit != "-" and not found.audit.startswith("clean,"):
            failed.append(f"{scenario['name']}: {place}: the history is not clean: {found.audit}")
        if found.broken or not any(row["goodput"] for row in rows):
            failed.append(f"{scenario['name']}: {place}: carried nothing, or flows broke: {found.broken}")
        results.add(rows)
        short.add([same | {"bytes": size, "since": since, "took": took} for size, since, took in found.took])
        if int(block) > words.kept:
            shutil.rmtree(folder / place)
    return failed


def tell(folder, name):
    """The rows of a scenario, of each queue the means over blocks."""
    fields = ["goodput", "wait", "probe", "probe99", "early", "tail", "marks", "base"]
    rows = [row for row in Table(folder / "results.csv", FIELDS).rows if row["scenario"] == name]
    print(f"| {name}: seconds | queue | blocks | " + " | ".join(fields) + " |\n" + "|---" * (3 + len(fields)) + "|")
    for key in dict.fromkeys((row["from"], row["to"], row["queue"]) for row in rows):
        these = [row for row in rows if (row["from"], row["to"], row["queue"]) == key]
        cells = [[float(row[field]) for row in these if row[field]] for field in fields]
        means = " | ".join(f"{fmean(it):.3f}" if it else "" for it in cells)
        print(f"| {float(key[0]):g} to {float(key[1]):g} | {key[2]} | {len(these)} | {means} |")


def main():
    words = options()
    if subprocess.run(["make", "-s", "-C", HERE]).returncode or subprocess.run(["make", "-s", "-C", HERE.parents[1] / "examples/link"]).returncode:
        sys.exit(1)
    program, folder = os.path.abspath(words.program), Path(words.folder).resolve()
    folder.mkdir(parents=True, exist_ok=True)
    blocks = [int(it) for it in words.blocks.split("-")] if words.blocks else None
    chosen = {name: SCENARIOS[name] for name in words.names or ([] if words.queues else SCENARIOS)}
    if words.queues:
        last = blocks[-1] if blocks else 2
        chosen["own"] = {"queues": dict.fromkeys(words.queues.split(","), last)}
    failed = []
    for name, it in chosen.items():
        queues = it["queues"] | it.get("again", {})
        last = max(queues.values())
        for number in range(blocks[0], min(blocks[-1], last) + 1) if blocks else range(1, last + 1):
            scenario = scenario_of(name, options(it["options"]) if "options" in it else words, queues, [number])
            results, short = Table(folder / "results.csv", FIELDS), Table(folder / "short.csv", SHORT_FIELDS)
            failed += run(scenario, str(number), folder / name, program, results, short, words)
        tell(folder, name)
    for it in failed:
        print(f"bench/uml/beside.py: {it}")
    sys.exit(1 if failed else 0)


if __name__ == "__main__":
    main()
