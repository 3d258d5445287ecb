#!/usr/bin/env python3
"""Computes each number of three sections of docs/RESULTS.md again from the stored rows: Limits, Flows with queues of their own, and In ns-3. No code of
docs/results.py, bench/equivalence.py or bindings/bpf/sparse.py is used for it. Each line of a table, and each sentence with figures, must be the one that the
rows give. (tests/documents/questions.py does the same for the plan's questions.)
needs: nothing"""
import csv
import lzma
import math
import re
import sys
from pathlib import Path

sys.path.insert(0, str(Path(__file__).resolve().parents[1] / "shared"))
from checks import NAME, ROOT, check, finish  # noqa: E402
from student import mean, spread, t95  # noqa: E402


def rows_of(name):
    with lzma.open(ROOT / name, "rt", newline="") if name.endswith(".xz") else open(ROOT / name, newline="") as file:
        return list(csv.DictReader(file))


def text_of(number, digits):
    text = f"{number:.{digits}f}"
    return text.removeprefix("-") if float(text) == 0 else text


def verdict_of(difference, half, margin):
    if abs(difference) + half < margin:
        return "same"
    return "different" if abs(difference) - half > margin else "open"


# ---- Limits ----

UML = rows_of("bench/uml/results.csv.xz")
NAMES = {"limits": "four", "burstlimits": "burst", "farlimits": "far", "gigabitlimits": "gigabit", "twolimits": "two", "slowlimits": "slow"}
BLOCKS = {"far": 20, "gigabit": 4}      # of the plan; 12 in the other scenarios
WORDS = {"goodput": "goodput", "bursts": "goodput of the bursts", "wait": "mean wait", "wait99": "99th percentile"}
RULES = {"the rule": ("four", "burst", "far", "gigabit"), "the least limit": ("two", "slow")}


class Limits:
    """The runs of a scenario: the first of its parts is the start, the second is later, and the longest is the whole."""

    def __init__(self, scenario):
        self.name = NAMES[scenario]
        self.rows = {}
        for row in (row for row in UML if row["scenario"] == scenario):
            self.rows.setdefault(int(row["queue"].removeprefix("limit")), {}).setdefault((float(row["from"]), float(row["to"])), {})[row["block"]] = row
        parts = sorted(next(iter(self.rows.values())))
        self.whole = max(parts, key=lambda it: it[1] - it[0])
        self.start, *later = [it for it in parts if it != self.whole] or [self.whole]
        self.later = later[0] if later else None
        self.present = max(self.rows)
        self.blocks = sorted(set.intersection(*(set(them[self.whole]) for them in self.rows.values())))

    def values(self, limit, measure, part):
        rows = [self.rows[limit][part][block] for block in self.blocks]
        return [float(row["groups"].split("/")[1] if measure == "bursts" else row[measure]) for row in rows]

    def measures(self):
        return [("goodput", self.whole), ("wait", self.start), ("wait99", self.start), ("wait", self.later), ("wait99", self.later), ("bursts", self.whole)]

    def is_measured(self, measure, part):
        return part and (measure != "bursts" or self.name == "burst")

    def compared(self, limit, measure, part):
        """Returns difference, half the interval, margin and verdict."""
        theirs = self.values(self.present, measure, part)
        each = [a - b for a, b in zip(self.values(limit, measure, part), theirs)]
        margin = {"wait": max(0.1 * mean(theirs), 1), "wait99": max(0.1 * mean(theirs), 2)}.get(measure, 0.01 * mean(theirs))
        half = t95(len(each) - 1) * math.sqrt(spread(each))
        verdict = verdict_of(mean(each), half, margin)
        if verdict == "different":
            verdict = "better" if (mean(each) > 0) == (measure in ("goodput", "bursts")) else "worse"
        return mean(each), half, margin, verdict

    def line(self, limit):
        cells = []
        for measure, part in self.measures():
            if not self.is_measured(measure, part):
                cells.append("")
                continue
            digits = 1 if measure.startswith("wait") or self.name == "gigabit" else 3
            cells.append(text_of(mean(self.values(limit, measure, part)), digits))
            if limit != self.present:
                difference, half, _, verdict = self.compared(limit, measure, part)
                cells[-1] += f": {text_of(difference, digits)}±{text_of(half, digits)} {verdict}"
        drops = "/".join(text_of(mean(self.values(limit, "tail", part)), 0) for part in (self.start, self.later) if part)
        return f"|`{self.name}`|{limit}|{len(self.blocks)}/{BLOCKS.get(self.name, 12)}|{'|'.join(cells)}|{drops}|"

    def faults(self, limit):
        """Returns the measures of a limit that may be worse, in words, and true if the start's 99th percentile is better."""
        wrong = []
        for measure, part in (it for it in self.measures() if self.is_measured(*it)):
            difference, half, margin, verdict = self.compared(limit, measure, part)
            if (margin < half - difference if measure in ("goodput", "bursts") else margin < difference + half):
                when = "" if part == self.whole and not measure.startswith("wait") else " in the start" if part == self.start else " later"
                wrong.append(f"{WORDS[measure]}{when} of `{self.name}` `{verdict}`")
        return wrong, self.compared(limit, "wait99", self.start)[3] == "better"


def limits():
    """Returns the lines of the table and the sentence about what the shorter limits lack."""
    every = {NAMES[it]: Limits(it) for it in NAMES}
    lines = [it.line(limit) for it in every.values() for limit in sorted(it.rows)]
    lacks = []
    for question, names in RULES.items():
        these = []
        for step, words in enumerate(("100 ms", "50 ms", "25 ms") if question == "the rule" else ("25000 bytes", "12500 bytes", "6250 bytes")):
            found = [every[name].faults(((100, 50, 25) if name != "slow" else (400, 200, 100))[step]) for name in names]
            wrong, shorter = [it for them, _ in found for it in them], sum(is_better for _, is_better in found)
            wrong += [f"a shorter 99th percentile in {shorter} of {len(names)} starts only"] * (2 * shorter < len(names))
            these += [f"{words} ({', '.join(wrong)})"] * bool(wrong)
        lacks += [f"{question}: {'; '.join(these)}"] * bool(these)
    return lines, [f"What the shorter limits lack: {'. '.join(lacks)}."]


# ---- In ns-3 ----

NS3, BURSTS = rows_of("bindings/ns3/results.csv"), rows_of("bindings/ns3/bursts.csv")
OTHERS = {"pie-stamp": "`PieQueueDisc`", "pie-mark-stamp": "`PieQueueDisc`, marks changed", "pie-mark-burst-stamp": "`PieQueueDisc`, marks and bursts changed"}


def of_ns3(queue, mbit, flows, ecn, field="seed"):
    return [float(row[field]) for row in NS3 if (row["queue"], row["mbit"], row["flows"], row["ecn"]) == (queue, mbit, flows, ecn)]


def share_of_waits():
    """Returns half the difference of Linux's pie with two targets, as a share of their mean."""
    four = [row for row in UML if (row["scenario"], float(row["from"]), float(row["to"])) == ("four", 4, 12)]
    rows = {queue: {row["block"]: float(row["probe"]) for row in four if row["queue"] == queue}
            for queue in ("pie-high", "pie-low")}
    both = rows["pie-high"].keys() & rows["pie-low"].keys()
    high, low = (mean([them[block] for block in both]) for them in rows.values())
    return (high - low) / (high + low)


def welch(ours, theirs, margin):
    parts = spread(ours), spread(theirs)
    freedom = sum(parts) ** 2 / (parts[0] ** 2 / (len(ours) - 1) + parts[1] ** 2 / (len(theirs) - 1))
    difference, half = mean(ours) - mean(theirs), t95(freedom) * math.sqrt(sum(parts))
    return difference, half, verdict_of(difference, half, margin)


def ns3():
    share, lines, verdicts, found = share_of_waits(), [], [], {}
    for mbit, flows, ecn in sorted({(row["mbit"], row["flows"], row["ecn"]) for row in NS3}, key=lambda it: (int(it[0]), int(it[1]), it[2])):
        for queue, name in OTHERS.items():
            cells = [f"{mbit} Mbit/s, {flows} flows{', ECN' if ecn == '1' else ''}", name]
            for field, digits, part in (("link_mbit", 2, 0.01), ("wait_mean_ms", 1, share)):
                ours, theirs = of_ns3("recorded-stamp", mbit, flows, ecn, field), of_ns3(queue, mbit, flows, ecn, field)
                if len(theirs) < 2:
                    break
                it = found[mbit, flows, ecn, queue, field] = welch(ours, theirs, part * mean(theirs))
                verdicts.append(it[2])
                margin = "1.0" if part == 0.01 else f"{100 * share:.0f}"
                cells += [f"{len(ours)}, {len(theirs)}"] * (digits == 2) + [f"{mean(ours):.1f}, {mean(theirs):.1f}",
                                                                            f"{text_of(it[0], digits)}±{text_of(it[1], digits)} {it[2]} ({margin} %)"]
            if len(cells) > 2:
                lines.append(f"|{'|'.join(cells)}|")
    count = verdicts.count
    says = [f"Of {len(verdicts)} comparisons, {count('same')} are `same`, {count('different')} are `different`, and {count('open')} are `open`",
            f"and that of waits {100 * share:.0f} %"]
    (one, half, verdict), (other, its, plain) = (found["10", "4", "1", queue, "link_mbit"] for queue in ("pie-mark-stamp", "pie-stamp"))
    says.append(f"differs by {one:.2f} ({one - half:.2f} to {one + half:.2f}) Mbit/s, `{verdict}`, instead of {other:.2f} "
                f"({other - its:.2f} to {other + its:.2f}) Mbit/s, `{plain}`")
    return lines, says + unsettled()


def four(queue):
    return [row for row in NS3 if (row["queue"], row["flows"], row["ecn"]) == (queue, "4", "0")]


def unsettled():
    long = {queue: [row for row in four(queue) if float(row["wait_mean_ms"]) > 20]
            for queue in ("pie-stamp", "recorded-stamp", "pie-mark-burst-stamp", "recorded-stamp+bounded")}
    parts = [f"{len(long[queue])} of {len(four(queue))} with {words}" for queue, words in (
        ("pie-stamp", "`PieQueueDisc`"), ("recorded-stamp", "this repository"), ("pie-mark-burst-stamp", "`PieQueueDisc` with marks and bursts changed"))]
    names = [f"seed {row['seed']} at {row['mbit']} Mbit/s (mean wait {float(row['wait_mean_ms']):.0f} ms, {float(row['link_mbit']):.1f} Mbit/s on the link)"
             for row in long["recorded-stamp"]]
    here = [row for row in BURSTS if row["queue"] == "recorded-stamp"]
    least = min(float(row["link_mbit"]) / float(row["mbit"]) for row in four("recorded-stamp+bounded"))
    return [f"these have a mean wait above 20 ms: {', '.join(parts)}.",
            f"Here {len(names)} of {len(four('recorded-stamp'))} runs of four flows without ECN do not settle: {' and '.join(names)}.",
            f"{sum(int(row['opened']) for row in here)} of {sum(int(row['bursts']) for row in here)} bursts have such an opening, of up to "
            f"{max(int(row['greatest_opening']) for row in here)} segments",
            f"{len(long['recorded-stamp+bounded'])} of {len(four('recorded-stamp+bounded'))} runs have a mean wait above 20 ms, and the link carries at least "
            f"{100 * least:.1f} % of its rate"]


def bursts():
    lines = []
    for row in (row for row in BURSTS if row["queue"] == "recorded-stamp"):
        run, bounded = (next(it for it in four(queue) if (it["mbit"], it["seed"]) == (row["mbit"], row["seed"]))
                        for queue in ("recorded-stamp", "recorded-stamp+bounded"))
        its = next(it for it in BURSTS if (it["queue"], it["mbit"], it["seed"]) == ("recorded-stamp+bounded", row["mbit"], row["seed"]))
        rate, wait = ([f"{float(it[field]):.{digits}f}" for it in (run, bounded)] for field, digits in (("link_mbit", 1), ("wait_mean_ms", 0)))
        middle = [row[field] for field in ("bursts", "opened", "greatest", "greatest_opening", "empty")]
        lines.append("|" + "|".join([row["mbit"], row["seed"], rate[0], wait[0], *middle, rate[1], wait[1], its["bursts"]]) + "|")
    return lines


# ---- Flows with queues of their own ----

def flows():
    """Returns the lines of the sparse flow: its waits from 3 s on, less the least delay before the flows begin, and the rates of eight flows for 6 s."""
    runs = {}
    for row in rows_of("bindings/bpf/sparse.csv.xz"):
        runs.setdefault(row["queue"], {}).setdefault(row["block"], []).append(row)
    lines = []
    for queue, words in (("fq_here", "`pie-qdisc attach DEV fq`"), ("fq_pie", "`fq_pie`"), ("fq_codel", "`fq_codel`")):
        waits, lost, rates, indices = [], 0, [], []
        for rows in runs[queue].values():
            sent = [row for row in rows if row["kind"] == "probe"]
            came = {int(row["number"]): int(row["value"]) for row in sent if row["value"]}
            empty = min(delay for number, delay in came.items() if number < 50)
            waits += [(delay - empty) / 1e6 for number, delay in came.items() if number >= 150]
            lost += len(sent) - len(came)
            each = [int(row["value"]) for row in rows if row["kind"] == "bytes" and int(row["flow"]) <= 8]
            rates.append(sum(each) * 8 / 6e6)
            indices.append(sum(each) ** 2 / 8 / sum(it * it for it in each))
        high = sorted(waits)[len(waits) * 99 // 100]
        lines.append(f"|{words}|{len(waits)}|{mean(waits):.2f}|{high:.2f}|{max(waits):.2f}|{lost}|{mean(rates):.2f}|{mean(indices):.3f}|")
    return lines, [f"from {len(runs['fq_here'])} blocks"]


def faults(page, expected):
    """Returns the lines and sentences that a page does not have, and the lines of tables that it has beside them."""
    wrong = []
    for head, (lines, says) in expected.items():
        text = page.split(f"\n## {head}\n")[1].split("\n## ")[0]
        plain = " ".join(text.split())
        wrong += [f"{head} does not say: {it}" for it in says if it not in plain]
        printed = [it for it in text.splitlines() if it.startswith("|") and re.search(r"\|-?[\d.]+[|:]|±", it)]
        wrong += [f"{head}: {it}" for it in set(printed) ^ set(lines)]
    return wrong


def main():
    page = (ROOT / "docs/RESULTS.md").read_text()
    lines, says = ns3()
    expected = {"Limits": limits(), "In ns-3": (lines + bursts(), says), "Flows with queues of their own": flows()}
    wrong = faults(page, expected)
    check(not wrong, f"docs/RESULTS.md differs from the stored rows: {wrong[:6]}")
    count = sum(len(re.findall(r"(?<![\w.])\d[\d.]*", it)) for them, says in expected.values() for it in [*them, *says])
    check(count > 700, f"only {count} numbers are computed")
    tried = 0
    for head, (them, _) in expected.items():
        for it in them[::3]:
            begin, end = list(re.finditer(r"\d+", it))[-1].span()
            tried += 1
            check(faults(page.replace(it, it[:begin] + str(int(it[begin:end]) + 1) + it[end:]), expected), f"{head}: another number passes: {it}")
    print(f"{NAME}: {count} numbers; in {tried} lines another number is found")


main()
finish()
