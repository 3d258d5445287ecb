#!/usr/bin/env python3
"""Writes docs/RESULTS.md, bench/uml/README.md, docs/comparisons.csv, the pictures and a part of README.md from docs/RESULTS.in, bench/uml/README.in and
the stored runs: bench/uml/queues.csv.xz (by docs/questions.py), bench/uml/results.csv.xz, bench/uml/short.csv.xz, bindings/bpf/sparse.csv.xz and
bindings/ns3/results.csv. Every figure of the pages is an expression in their sources, between {{ and }}, which this script evaluates. `elsewhere` has the
sentences of other pages that rest on runs.

usage: docs/results.py [--check | --needs]
  --check   writes nothing. Status 1 if a file differs from the result of the runs, if a source has a figure of its own, or if a sentence of
            another page differs
  --needs   prints the number of blocks that each open comparison needs"""
import csv
import functools
import lzma
import math
import re
import sys
import textwrap
from collections import Counter
from pathlib import Path
from statistics import fmean, median, stdev
from types import SimpleNamespace

ROOT = Path(__file__).resolve().parents[1]
sys.path[:0] = [str(ROOT / "bench"), str(ROOT / "bench/uml"), str(ROOT / "bindings/bpf")]
sys.dont_write_bytecode = True
from equivalence import compare, compare_pairs, power  # noqa: E402
import beside  # noqa: E402
import questions  # noqa: E402
import sparse  # noqa: E402
from rfc7928 import estimate  # noqa: E402
from scenarios import FIVE, SAME_BLOCKS, SCENARIOS, TWICE, queues_of  # noqa: E402

# numbers of the sources that are settings of a scenario, a test, or RFC 8033: decimal numbers, and numbers with a unit
SETTINGS = {"0.5", "0.85", "1.85", "1.5", "3.37", "4.4", "6.1", "12.5", "17.5", *(f"{it} ms" for it in (5, 10, 12.5, 15, 17.5, 20, 30, 40, 100, 200, 500)),
            *(f"{it} s" for it in (1.5, 2, 4, 8, 10, 14, 40, 60)), *(f"{it} Mbit/s" for it in (0.5, 2, 10, 12)), *(f"{it} bytes" for it in (64, 1500, 1514, 16384, 262144)),
            "4 µs", "200 packets", *(f"{it} %" for it in (1, 5, 10, 80, 84, 90, 100))}
UNITS = {"goodput": "Mbit/s"}
DIGITS = {"goodput": 2, "jain": 2, "early": 0, "tail": 0, "marks": 0, "lost": 0, "probes": 0}
NAMES = {"tail": "tail drop, here", "stamp": "PIE, here", "wide": "PIE, here, target 20 ms", "half": "PIE, here, `--decay half`",
         "rate": "PIE, here, departure rate",
         "mtu": "PIE, here, `--mean_pkt 1514b`", "marks": "PIE, here, `--mark_ecnth 100%`", "slowwide": "PIE, here, target 30 ms", "pfifo": "`pfifo`", "pie": "`pie`",
         "pie-rate": "`pie dq_rate_estimator`", "pie-low": "`pie`, target 12.5 ms", "pie-high": "`pie`, target 17.5 ms",
         "fq_codel": "`fq_codel`", "cake": "`cake`"}


FIVE_NAMES = list(queues_of(FIVE, 1))


def read(name):
    with (lzma.open(ROOT / name, "rt", newline="") if name.endswith(".xz") else open(ROOT / name, newline="")) as file:
        return list(csv.DictReader(file))


class Runs:
    """The stored rows, by scenario, queue and part."""

    def __init__(self, rows):
        self.rows = {}
        for row in rows:
            if row["late"] not in ("", "0") or not (row["audit"] == "-" or row["audit"].startswith("clean,")):
                sys.exit(f"docs/results.py: a run that is late or not clean: {row}")
            part = (float(row["from"]), float(row["to"]))
            self.rows.setdefault((row["scenario"], row["queue"]), {}).setdefault(part, {})[int(row["block"])] = row

    def parts(self, scenario):
        """Returns the parts of a scenario: those that follow each other, and the whole."""
        return sorted(next(parts for (name, _), parts in self.rows.items() if name == scenario))

    def part(self, scenario, name):
        """Returns a part by its name: `start` is the first, `after` the second, `whole` all; others have the form 18-32."""
        parts = self.parts(scenario)
        last = max(to for _, to in parts)
        split = [it for it in parts if it != (parts[0][0], last) or len(parts) == 1]
        if name in ("start", "after"):
            return split[min(name == "after", len(split) - 1)]
        return (parts[0][0], last) if name == "whole" else tuple(float(it) for it in name.split("-"))

    def blocks(self, scenario, queue, part="after"):
        """Returns the rows by block; none if the scenario did not run with this queue."""
        found = self.rows.get((scenario, queue), {})
        return found.get(self.part(scenario, part), {}) if found else {}

    def values(self, scenario, queue, field, part="after"):
        return {block: float(row[field]) for block, row in sorted(self.blocks(scenario, queue, part).items()) if row[field]}

    def common_blocks(self, scenario):
        """Returns the blocks that every queue of a scenario ran. Means are over these, so that figures of two queues are of the same blocks."""
        whole = [self.blocks(scenario, queue, "whole").keys() for queue in SCENARIOS[scenario]["queues"] if (scenario, queue) in self.rows]
        return set.intersection(*map(set, whole)) if whole else set()

    def common(self, scenario, queue, part="after", blocks=None):
        """Returns the rows of the common blocks, or of `blocks`."""
        chosen = self.common_blocks(scenario) if blocks is None else blocks
        return {block: row for block, row in sorted(self.blocks(scenario, queue, part).items()) if block in chosen}

    def common_values(self, scenario, queue, field, part="after", blocks=None):
        return [float(row[field]) for row in self.common(scenario, queue, part, blocks).values() if row[field]]


# scenarios of PLAN.md's section Limits, which have runs of a version of their own, and those with the same traffic
LIMITS = {"limits": "four", "burstlimits": "burst", "farlimits": "far", "gigabitlimits": "gigabit", "twolimits": "two", "slowlimits": "slow"}
STORED = read("bench/uml/results.csv.xz")
ROWS = [row for row in STORED if row["scenario"] not in LIMITS]
RUNS = Runs(ROWS)
LIMIT_ROWS = [row for row in STORED if row["scenario"] in LIMITS]
LIMIT_RUNS = Runs(LIMIT_ROWS)
SHORT = read("bench/uml/short.csv.xz")
PLANNED = questions.Rows(read("bench/uml/queues.csv.xz"))
# the parts of the sources that go when the runs of the plan are complete
OLDER = re.compile(r"^<!-- older runs -->\n(.*?)^<!-- to here -->\n", re.M | re.S)
HAS_OLDER = not PLANNED.is_complete(*questions.SCENARIOS)
NS3 = read("bindings/ns3/results.csv")


def shown(number, field="probe", digits=None):
    text = f"{number:.{DIGITS.get(field, 1) if digits is None else digits}f}"
    return text[1:] if re.fullmatch(r"-0\.?0*", text) else text


def value(scenario, queue, field, part="after", digits=None, blocks=None, runs=RUNS):
    """Returns the mean over the common blocks."""
    found = runs.common_values(scenario, queue, field, part, blocks)
    return shown(fmean(found), field, digits) if found else ""


def spread(scenario, queue, field, part="after", digits=None, blocks=None):
    """Returns the mean over the common blocks, and in brackets the least and the greatest."""
    found = RUNS.common_values(scenario, queue, field, part, blocks)
    return f"{shown(fmean(found), field, digits)} ({shown(min(found), field, digits)} to {shown(max(found), field, digits)})" if found else ""


def percent(scenario, queue, field, part="after", digits=1):
    found = RUNS.common_values(scenario, queue, field, part)
    return f"{100 * fmean(found):.{digits}f}" if found else ""


def share(scenario):
    """Probes among the packets that the link sent, in per cent, over all queues and blocks."""
    parts = [RUNS.values(scenario, queue, "share") for name, queue in RUNS.rows if name == scenario]
    return f"{100 * fmean(value for part in parts for value in part.values()):.1f}"


def lost(scenario, queue, part="after", blocks=None):
    """Returns the probes that were dropped, in per cent of those that were sent."""
    found, sent = (sum(RUNS.common_values(scenario, queue, field, part, blocks)) for field in ("lost", "probes"))
    return f"{100 * found / sent:.1f}" if sent else ""


def group(scenario, queue, place, part="after", digits=2):
    """Returns the goodput of one group of flows."""
    rows = RUNS.common(scenario, queue, part).values()
    return f"{fmean(float(row['groups'].split('/')[place]) for row in rows):.{digits}f}" if rows else ""


def difference_of(scenario, one, other, field, part="after", other_scenario=None):
    """Returns the mean difference of the blocks that both queues got."""
    ours, theirs = RUNS.values(scenario, one, field, part), RUNS.values(other_scenario or scenario, other, field, part)
    both = sorted(ours.keys() & theirs.keys())
    return [ours[it] for it in both], [theirs[it] for it in both]


# The margins are half the spread of queues that are known to differ and are not compared: of goodput Linux's queues with other algorithms, in the
# same scenario and part, and of waits Linux's pie with two targets, in the scenario or in `four`.
LINUX = ["pfifo", "pie", "fq_codel", "cake"]
TARGETS = ("pie-high", "pie-low")


def algorithm(queue):
    """Returns Linux's queue with the algorithm of this queue."""
    return "pfifo" if queue == "tail" else queue if queue in LINUX else "pie"


def references(one, other):
    return [queue for queue in LINUX if queue not in (algorithm(one), algorithm(other))]


def reference_scenario(scenario, one, other):
    """Returns the scenario whose reference queues serve: this one, or the one whose blocks it has, or `four`."""
    for name in (scenario, SAME_BLOCKS.get(scenario)):
        if name and all(RUNS.rows.get((name, queue)) for queue in references(one, other)):
            return name
    return "four"


def means_of(scenario, queues, field, part):
    """Returns the means of queues over the blocks that all of them have."""
    values = [RUNS.values(scenario, queue, field, part) for queue in queues]
    both = set.intersection(*(set(it) for it in values))
    return [fmean(it[block] for block in both) for it in values]


def half_spread(scenario, queues, field, part):
    """Returns half the spread of the means of queues, as a share of their mean."""
    means = means_of(scenario, queues, field, part)
    return (max(means) - min(means)) / 2 / fmean(means)


@functools.cache
def goodput_share(scenario, one, other, part):
    """Returns the margin of goodput as a share: that of the scenario, and at least that of the same part of `four`."""
    name = reference_scenario(scenario, one, other)
    kind = "whole" if part == "whole" else "start" if is_start(scenario, RUNS.part(scenario, part)) else "after"
    own = half_spread(name, references(one, other), "goodput", part if name == scenario else kind)
    return max(own, half_spread("four", references(one, other), "goodput", kind))


def target_scenario(scenario):
    """Returns the scenario whose two targets give the margin of waits: this one, or the one whose blocks it has, or `four`."""
    return next(name for name in (scenario, SAME_BLOCKS.get(scenario), "four") if (name, TARGETS[0]) in RUNS.rows)


@functools.cache
def wait_share(scenario="four"):
    """Returns the margin of the waits of PIE as a share, or nothing if the two targets are not known to differ."""
    name = target_scenario(scenario)
    differs = compare_pairs(*difference_of(name, *TARGETS, "probe"), 1)[1] > 0
    return half_spread(name, TARGETS, "probe", "after") if differs else None


def wait_margin():
    """Returns the margin of waits in ms: of tail drop, and where the target has no effect."""
    high, low = means_of("four", TARGETS, "probe", "after")
    return (high - low) / 2


def margin_of(scenario, one, other, field, part, theirs):
    """Returns the margin of a comparison in ms or in Mbit/s."""
    if field == "goodput":
        return goodput_share(scenario, one, other, part) * fmean(theirs)
    is_fixed = algorithm(one) == algorithm(other) == "pfifo" or not wait_share(scenario)
    return wait_margin() if is_fixed else wait_share(scenario) * fmean(theirs)


PRINTED = {}        # the comparisons that the pages print
IS_PRINTING = []    # the sources that are being evaluated


def test(scenario, one, other, field, part="after", other_scenario=None):
    """Compares two queues, and notes the comparison if a page prints it."""
    if IS_PRINTING:
        PRINTED[scenario, field, RUNS.part(scenario, part), one, other, other_scenario] = part
    return judged(scenario, one, other, field, part, other_scenario)


@functools.cache
def judged(scenario, one, other, field, part, other_scenario):
    """Returns the difference, its interval and the verdict, or nothing if there is only one block."""
    ours, theirs = difference_of(scenario, one, other, field, part, other_scenario)
    return compare_pairs(ours, theirs, margin_of(scenario, one, other, field, part, theirs)) if len(ours) > 1 else None


def interval(found, field, digits=None):
    digits = digits if digits is not None else DIGITS.get(field, 1)
    return f"{shown(found[0], field, digits)} ({shown(found[1], field, digits)} to {shown(found[2], field, digits)})"


def significant(number):
    """Returns a number with two significant digits."""
    return f"{number:.{max(0, 1 - math.floor(math.log10(number)))}f}" if number else "0"


def margin_text(scenario, one, other, field, part, other_scenario=None):
    """Returns the margin of a comparison in per cent of the other queue's mean."""
    theirs = difference_of(scenario, one, other, field, part, other_scenario)[1]
    return f"{significant(100 * margin_of(scenario, one, other, field, part, theirs) / fmean(theirs))} %"


def plus_minus(found, field, digits=None, margin=""):
    """Returns the difference, half the width of its 90 % interval, and the verdict with its margin, for a table. If there is only one block, returns an
    empty text."""
    if not found:
        return ""
    digits = digits if digits is not None else DIGITS.get(field, 1)
    return f"{shown(found[0], field, digits)}±{shown((found[2] - found[1]) / 2, field, digits)} {found[3]}{f' ({margin})' if margin else ''}"


def difference(scenario, one, other, field, part="after", other_scenario=None, digits=None):
    """Returns the difference, its interval and the verdict, in words; of `same` also the margin."""
    found = test(scenario, one, other, field, part, other_scenario)
    margin = f" (margin {margin_text(scenario, one, other, field, part, other_scenario)})" if found[3] == "same" else ""
    return f"{interval(found, field, digits)} {UNITS.get(field, 'ms')}, `{found[3]}`{margin}"


def change(scenario, one, other, part="whole"):
    """Returns the paired difference of the goodput in per cent of the other queue's."""
    test(scenario, one, other, "goodput", part)
    ours, theirs = difference_of(scenario, one, other, "goodput", part)
    return f"{shown(100 * (fmean(ours) / fmean(theirs) - 1), digits=1)} %"


def add(scenario, queue, *fields, part="after"):
    """Returns the sum of the means of several counts."""
    return shown(sum(fmean(RUNS.common_values(scenario, queue, field, part)) for field in fields), "early")


# The criterion of PLAN.md: the shorter limits of each question, with the queue that has each in each scenario. The first one is in force
RULE = {"200 ms": "limit200", "100 ms": "limit100", "50 ms": "limit50", "25 ms": "limit25"}
CANDIDATES = {
    "the rule": {name: dict.fromkeys(("limits", "burstlimits", "farlimits", "gigabitlimits"), queue) for name, queue in RULE.items()},
    "the least limit": {"48448 bytes": {"twolimits": "limit200", "slowlimits": "limit775"}, "25000 bytes": {"twolimits": "limit100", "slowlimits": "limit400"},
                        "12500 bytes": {"twolimits": "limit50", "slowlimits": "limit200"}, "6250 bytes": {"twolimits": "limit25", "slowlimits": "limit100"}}}
LIMIT_MEASURES = [("goodput", "whole"), ("wait", "start"), ("wait99", "start"), ("wait", "after"), ("wait99", "after")]
LIMIT_MARGINS = {"goodput": (0.01, 0), "bursts": (0.01, 0), "wait": (0.1, 1), "wait99": (0.1, 2)}     # a share, and the least margin in ms
LIMIT_WORDS = {"goodput": "goodput", "bursts": "goodput of the bursts", "wait": "mean wait", "wait99": "99th percentile"}


def present_limit(name):
    """Returns the queue with the limit in force: the first of the scenario's question."""
    return next(it[name] for question in CANDIDATES.values() for it in question.values() if name in it)


def limit_queues(name):
    """Returns the limits of the plan that have runs in a scenario."""
    return [queue for queue in SCENARIOS[name]["queues"] if LIMIT_RUNS.rows.get((name, queue))]


def limit_measures(name):
    """Returns the measures of a scenario: one that is not divided has no later part."""
    divided = beside.options(SCENARIOS[name]["options"]).beginning > 0
    return [it for it in LIMIT_MEASURES if divided or it[1] != "after"] + [("bursts", "whole")] * (name == "burstlimits")


def limit_values(name, queue, field, part):
    """Returns the values of a measure by block."""
    if field == "bursts":
        return {block: float(row["groups"].split("/")[1]) for block, row in LIMIT_RUNS.common(name, queue, part).items()}
    return {block: float(row[field]) for block, row in LIMIT_RUNS.common(name, queue, part).items()}


@functools.cache
def limit_test(name, queue, field, part):
    """Compares a limit with the one in force. Returns the difference, its interval, the verdict and the margin."""
    present = present_limit(name)
    ours, theirs = (list(limit_values(name, it, field, part).values()) for it in (queue, present))
    share_of, least_margin = LIMIT_MARGINS[field]
    margin = max(share_of * fmean(theirs), least_margin)
    difference, least, most, verdict, _ = compare_pairs(ours, theirs, margin)
    is_good = (difference > 0) == (field in ("goodput", "bursts"))
    verdict = ("better" if is_good else "worse") if verdict == "different" else verdict
    return difference, least, most, verdict, margin


def limit_faults(limits):
    """Returns the intervals that reach beyond the margin to the worse side, in words, and the number of scenarios whose 99th percentile of the waits in
    the start is `better`, for the queue of each scenario."""
    faults, shorter = [], 0
    for name, queue in limits.items():
        for field, part in limit_measures(name):
            _, least, most, verdict, margin = limit_test(name, queue, field, part)
            if least < -margin if field in ("goodput", "bursts") else most > margin:
                when = "" if part == "whole" else " in the start" if part == "start" else " later"
                faults.append(f"{LIMIT_WORDS[field]}{when} of `{LIMITS[name]}` `{verdict}`")
        shorter += limit_test(name, queue, "wait99", "start")[3] == "better"
    return faults, shorter


def not_run_limits(question):
    """Returns the scenarios of a question without runs of each limit."""
    return sorted({name for limits in CANDIDATES[question].values() for name, queue in limits.items() if queue not in limit_queues(name)})


def chosen_limit(question):
    """Returns the limit that the criterion gives, and for each shorter one what it lacks, in words. The present limit stays if a scenario was not run."""
    (present, _), *others = CANDIDATES[question].items()
    if not_run_limits(question):
        return present, []
    chosen, lacks = present, []
    for limit, queues in others:
        faults, shorter = limit_faults(queues)
        if not faults and 2 * shorter >= len(queues):
            chosen = limit if chosen == present else chosen
            continue
        few = [f"a shorter 99th percentile in {shorter} of {len(queues)} starts only"] if 2 * shorter < len(queues) else []
        lacks.append(f"{limit} ({', '.join([*faults, *few])})")
    return chosen, lacks


def shorter_limits(queue="limit100"):
    """Names the scenarios of the rule in which a shorter limit shortens the waits in the start, and those in which it changes the goodput, in words."""
    names = [name for name in CANDIDATES["the rule"]["200 ms"] if queue in limit_queues(name)]
    shorter = [f"`{LIMITS[name]}`" for name in names if limit_test(name, queue, "wait99", "start")[3] == "better"]
    goodputs = [f"`{limit_test(name, queue, 'goodput', 'whole')[3]}` in `{LIMITS[name]}`" for name in names]
    return (f"Compared with 200 ms, {queue.removeprefix('limit')} ms shortens the 99th percentile of the waits in the start of {' and '.join(shorter)}; the "
            f"goodput is {', '.join(goodputs)} ([runs](#limits)).")


def limits_text():
    """Returns the outcome of the criterion of PLAN.md, in words."""
    says = [shorter_limits()]
    for question in CANDIDATES:
        present, (chosen, _) = next(iter(CANDIDATES[question])), chosen_limit(question)
        if lacking := not_run_limits(question):
            says.append(f"Not all runs of {', '.join(f'`{LIMITS[name]}`' for name in lacking)} exist, so {question} of {present} stays.")
        elif chosen == present:
            says.append(f"The [criterion](../bench/uml/PLAN.md#limits) keeps {question} of {present}.")
        else:
            says.append(f"It gives {chosen} for {question}, in place of {present}.")
    return " ".join(says)


# versions that no commit of this repository contains
LOST = {"7a0deebb"}


def limits_section():
    """Returns the section of PIE here with other limits. The runs of a scenario have one version."""
    lines, lost_of = [], []
    for name in (name for name in LIMITS if limit_queues(name)):
        present = present_limit(name)
        for queue in limit_queues(name):
            cells = []
            for field, part in [*LIMIT_MEASURES, ("bursts", "whole")]:
                if (field, part) not in limit_measures(name):
                    cells.append("")
                    continue
                digits = (1 if name == "gigabitlimits" else 3) if field in ("goodput", "bursts") else 1
                text = shown(fmean(limit_values(name, queue, field, part).values()), digits=digits)
                cells.append(text if queue == present else f"{text}: {plus_minus(limit_test(name, queue, field, part), field, digits)}")
            drops = [value(name, queue, "tail", part, runs=LIMIT_RUNS) for part in ("start", "after")[:len(split_of(LIMIT_RUNS, name))]]
            lines.append([f"`{LIMITS[name]}`", queue.removeprefix("limit"), f"{len(LIMIT_RUNS.common_blocks(name))}/{SCENARIOS[name]['queues'][queue]}",
                          *cells, "/".join(drops)])
        if LOST & set(version_of([row for row in LIMIT_ROWS if row["scenario"] == name], 4)):
            lost_of.append(f"`{LIMITS[name]}`")
    heads = ["traffic of", "limit", "blocks, run/planned", "goodput", "mean wait, start", "99th percentile, start", "mean wait, later", "99th percentile, later",
             "goodput of the bursts", "tail drops, start/later"]
    lacks = [f"{question}: {'; '.join(found)}" for question in CANDIDATES if (found := chosen_limit(question)[1])]
    margins = ", ".join(f"{100 * share_of:.0f} % of the {LIMIT_WORDS[field]}{f' and at least {least} ms' * bool(least)}"
                        for field, (share_of, least) in LIMIT_MARGINS.items() if field != "bursts")
    return ("## Limits\n\nPIE here with other limits in ms. The [plan](../bench/uml/PLAN.md#limits) has verdicts, margins and criterion: "
            f"{margins}. Waits are those of packets. After a colon is the difference to the present limit. The runs of a scenario have one version (column `version` "
            f"of results.csv){f'; the dist/ of {chr(32).join(lost_of)} is in no commit' * bool(lost_of)}.\n\n" + table(heads, lines) + (f"\n\nWhat the shorter limits lack: {'. '.join(lacks)}." if lacks else ""))


def verdict_sentence(scenario):
    goodput, wait = test(scenario, "stamp", "pie", "goodput", "whole"), test(scenario, "stamp", "pie", "probe")
    return (f"the goodput differs by {interval(goodput, 'goodput')} Mbit/s, `{goodput[3]}` (margin {margin_text(scenario, 'stamp', 'pie', 'goodput', 'whole')}), "
            f"and the wait after the start by {interval(wait, 'probe')} ms, `{wait[3]}` (margin {margin_text(scenario, 'stamp', 'pie', 'probe', 'after')})")


def table(heads, lines):
    return "\n".join(["|" + "|".join(heads) + "|", "|---" * len(heads) + "|", *("|" + "|".join(line) + "|" for line in lines)])


def name_of_part(part):
    return f"{part[0]:g}–{part[1]:g}"


def was_run(scenario):
    return any(name == scenario for name, _ in RUNS.rows)


def cell(scenario, queue):
    """Returns goodput, wait and lost probes of a queue after the start."""
    found = RUNS.common_values(scenario, queue, "goodput")
    goodput = fmean(found) if found else 0
    digits = 3 if goodput < 3 else 1 if goodput > 100 else 2
    return f"{shown(goodput, 'goodput', digits)}/{value(scenario, queue, 'probe') or '-'}/{lost(scenario, queue)}" if found else ""


def scenarios_table():
    """Returns every scenario that was run, with the result of every queue that ran it."""
    lines = []
    for name, it in SCENARIOS.items():
        if was_run(name):
            others = [f"{queue} {cell(name, queue)}" for queue in it["queues"] if queue not in FIVE_NAMES and cell(name, queue)]
            lines.append([f"`{name}`", it["words"], it["section"], share(name), str(len(RUNS.common_blocks(name))),
                          *(cell(name, queue) for queue in FIVE_NAMES), "; ".join(others)])
    heads = ["name", "traffic", "RFC 7928", "probes, %", "blocks", "PIE, here", *(NAMES[queue] for queue in FIVE_NAMES[1:]), "other queues"]
    return table(heads, lines)


def suite():
    """Returns the number of runs of RFC 7928's suite, and the processor time that they take, in words."""
    runs, stored, hours = estimate(ROWS)
    return f"{runs} runs, {'all' if stored == runs else stored} of them in results.csv, which take {hours:.1f} processor hours together"


def version_of(rows, count):
    """Returns the first `count` hashes of the version of rows: of network.py, traffic.c, examples/link and dist. A table has rows of one version."""
    found = {tuple(row["version"].split(".")[:count]) for row in rows}
    if len(found) != 1:
        sys.exit(f"docs/results.py: runs of one table have several versions: {sorted(found)}")
    return found.pop()


def key_of(row):
    return row["scenario"], row["queue"], row["block"]


def versions():
    """Returns the number of runs, and the version of network.py and traffic.c that made them, in words. The table of limits may have another."""
    network, traffic = version_of(ROWS, 2)
    made = {(row["scenario"], row["queue"], row["block"]) for row in ROWS}
    others = Counter(tuple(row["version"].split(".")[2:4]) for row in {key_of(row): row for row in ROWS}.values())
    several = len(queues := {(row["scenario"], row["queue"]) for row in ROWS}) - len(
        [it for it in queues if len({row["version"] for row in ROWS if (row["scenario"], row["queue"]) == it}) == 1])
    pairs = ", ".join(f"{link}/{dist} {count}" for (link, dist), count in others.most_common())
    return (f"All {len(made)} runs, without those of [Limits](../../docs/RESULTS.md#limits), have one version of network.py ({network}) and traffic.c "
            f"({traffic}). **They mix {len(others)} versions of examples/link and dist/** ({pairs} runs); {several} of {len(queues)} queues of a scenario have "
            "runs of several versions.")


def mixed_versions():
    """Returns the number of versions of the link and of dist/ that the runs mix, in words."""
    found = {tuple(row["version"].split(".")[2:4]) for row in ROWS}
    return (f"The runs without those of [Limits](#limits) mix {len(found)} versions of the link and of dist/ "
            "([which](../bench/uml/README.md#how-older-runs-were-measured)).")


def not_run():
    """Names the scenarios that have no stored run."""
    found = [f"{it['words']} (`{name}`)" for name, it in SCENARIOS.items() if not was_run(name) and name not in LIMITS]
    return f"The following scenarios are defined, but have no stored run: {'; '.join(found)}." if found else ""


def split_of(runs, scenario):
    """Returns the parts without the whole."""
    parts = runs.parts(scenario)
    whole = (min(begin for begin, _ in parts), max(to for _, to in parts))
    return [it for it in parts if it != whole or len(parts) == 1]


def pairs_of(one="stamp", other="pie"):
    """Yields scenario, measure, part and seconds of each comparison of two queues: goodput over the whole run, and the wait in each part."""
    for name in SCENARIOS:
        if RUNS.rows.get((name, one)) and RUNS.rows.get((name, other)):
            yield name, "goodput", "whole", RUNS.part(name, "whole")
            for part in split_of(RUNS, name):
                yield name, "probe", f"{part[0]:g}-{part[1]:g}", part


def verdicts(field, one="stamp", other="pie"):
    """Returns the number of comparisons with each verdict, in words."""
    found = [test(name, one, other, measure, part) for name, measure, part, _ in pairs_of(one, other) if measure == field]
    found = [it[3] for it in found if it]
    return f"{found.count('same')} same, {found.count('different')} different, {found.count('open')} open"


def differing(one="stamp", other="pie"):
    """Returns the number of `different` comparisons, and their scenarios, in words."""
    found = [(name, test(name, one, other, field, part)) for name, field, part, _ in pairs_of(one, other)]
    found = [(name, it[3]) for name, it in found if it]
    names = dict.fromkeys(f"`{name}`" for name, verdict in found if verdict == "different")
    return f"Of all {len(found)} comparisons, {sum(it[1] == 'different' for it in found)} are `different`: {', '.join(names)}."


def excluding(which):
    """Returns the number of intervals of PIE here beside `pie` that are above 0, the number of those below 0, and the number of all, of the comparisons
    that `which` selects by measure and part."""
    found = [(name, test(name, "stamp", "pie", field, part)) for name, field, part, bounds in pairs_of() if which(name, field, bounds)]
    found = [it for it in found if it[1]]
    return [it for it in found if it[1][1] > 0], [it for it in found if it[1][2] < 0], found


def coverage():
    """Returns the number of intervals of PIE here beside `pie` that exclude 0, of all comparisons and by measure, in words."""
    above, below, every = excluding(lambda name, field, bounds: True)
    kinds = {"goodputs": lambda name, field, bounds: field == "goodput",
             "waits in a start": lambda name, field, bounds: field == "probe" and is_start(name, bounds),
             "later waits": lambda name, field, bounds: field == "probe" and not is_start(name, bounds)}
    parts = []
    for words, which in kinds.items():
        greater, less, found = excluding(which)
        parts.append(f"of {len(found)} {words} {len(greater)} are greater here and {len(less)} are less")
    return (f"{len(above) + len(below)} of {len(every)} intervals of 90 % exclude 0. About {0.1 * len(every):.0f} would if the queues were equal: "
            f"{'; '.join(parts)}. So the queues differ.")


def longer():
    """Returns the median of the differences of the later waits, in words."""
    found = excluding(lambda name, field, bounds: field == "probe" and not is_start(name, bounds))[2]
    return f"The median of the differences of the later waits is {shown(median(it[0] for _, it in found))} ms (longer here)."


def blocks_needed(scenario, one, other, field, part, most=512):
    """Returns the number of blocks that makes a comparison `same` with a chance of 80 % if there is no difference, by the spread of the stored
    blocks; `most` if it is more."""
    ours, theirs = difference_of(scenario, one, other, field, part)
    spread_of, margin = stdev(it - their for it, their in zip(ours, theirs)), margin_of(scenario, one, other, field, part, theirs)
    least = 2       # bisection: the power grows with the number of blocks
    while least < most:
        count = (least + most) // 2
        least, most = (least, count) if power(margin, spread_of / math.sqrt(count), count - 1) >= 0.8 else (count + 1, most)
    return least


PAIRS = [("stamp", "pie"), ("tail", "pfifo"), *((f"{it}-again", it) for it in TWICE)]


def print_needs():
    """Prints for each open comparison the blocks that it has, and those that it needs."""
    for name, field, part, _, one, other in [(*it, *pair) for pair in PAIRS for it in pairs_of(*pair)]:
        found = test(name, one, other, field, part)
        if found and found[3] == "open":
            has = len(difference_of(name, one, other, field, part)[0])
            print(f"{name}, {part}, {one} and {other}, {field}: {has} of {blocks_needed(name, one, other, field, part)}")


def same_calibration_table():
    """Compares the same algorithm through both bottlenecks."""
    lines = []
    for name, field, part, bounds in pairs_of("tail", "pfifo"):
        ours, theirs = difference_of(name, "tail", "pfifo", field, part)
        lines.append([f"`{name}`", name_of_part(bounds), "wait" if field == "probe" else field, str(len(ours)), shown(fmean(ours), field, 3),
                      shown(fmean(theirs), field, 3),
                      plus_minus(test(name, "tail", "pfifo", field, part), field, 3, margin_text(name, "tail", "pfifo", field, part))])
    return table(["scenario", "seconds", "measure", "blocks", "tail drop, here", "`pfifo`", "difference"], lines)


# ms of a probe's mean wait, and share of the goodput, within which the starts at both bottlenecks are alike
NEAR, NEAR_GOODPUT = 0.15, 0.001


@functools.cache
def starts(*names):
    """Returns for the start of each block of tail drop here and `pfifo` the differences of the wait in ms, of the goodput as a share, and of the
    number of dropped probes; of all scenarios if none is named."""
    found = []
    for name in names or dict.fromkeys(name for name, _, _, _ in pairs_of("tail", "pfifo")):
        ours, theirs = (RUNS.blocks(name, queue, "start") for queue in ("tail", "pfifo"))
        for block in sorted(ours.keys() & theirs.keys()):
            (wait, goodput, lost), (wait_there, goodput_there, lost_there) = ([float(row[field]) for field in ("probe", "goodput", "lost")]
                                                                              for row in (ours[block], theirs[block]))
            found.append((abs(wait - wait_there), abs(goodput / goodput_there - 1), abs(lost - lost_there)))
    return found


def alike():
    """Returns the number of starts that are alike at both bottlenecks, in words."""
    others = [it for it in starts() if it[0] > NEAR]
    return (f"In {len(starts()) - len(others)} of {len(starts())} starts the waits differ by at most {NEAR} ms. In {sum(it[2] > 0 for it in others)} of the "
            f"other {len(others)} one bottleneck dropped more probes. The goodput differs by less than {100 * NEAR_GOODPUT:.1f} % in "
            f"{sum(it[1] < NEAR_GOODPUT for it in starts())} starts, and by at most {100 * max(it[1] for it in starts()):.1f} %.")


@functools.cache
def equal_queues(*pairs):
    """Returns the comparisons of queues that are equal: by default two runs of each PIE in the same blocks, with different random words, and tail drop
    here with `pfifo`. Each has the scenario, both queues, the measure, the part, and the result."""
    found = [(name, one, other, field, part, test(name, one, other, field, part))
             for one, other in pairs or PAIRS[1:] for name, field, part, _ in pairs_of(one, other)]
    return [it for it in found if it[-1]]


def is_start(scenario, part):
    return tuple(part) == RUNS.part(scenario, "start") and len(RUNS.parts(scenario)) > 1


def repeats_count():
    """Returns the number of comparisons of equal queues, of verdicts, and of 90 % intervals that contain 0, in words."""
    verdicts_of = [it[-1][3] for it in equal_queues()]
    inside = [it[-1][1] <= 0 <= it[-1][2] for it in equal_queues()]
    return (f"Of {len(verdicts_of)} intervals of 90 %, {100 * sum(inside) / len(inside):.0f} % contain 0. Blocks were added until each verdict was `same`, so "
            f"that the verdicts alone say little.")


MEASURES = {"goodput": "goodput in Mbit/s", "probe": "wait in ms", "wait": "packets' wait in ms", "wait99": "99th percentile of packets' waits in ms",
            "bursts": "goodput of the bursts in Mbit/s", "link_mbit": "rate of the link in Mbit/s", "wait_mean_ms": "packets' wait in ms"}


@functools.cache
def comparisons():
    """Returns the rows of docs/comparisons.csv: each comparison that a page prints or counts."""
    for source in SOURCES.values():
        page(source)
    for pair in PAIRS * HAS_OLDER:
        for name, field, part, bounds in pairs_of(*pair):
            PRINTED.setdefault((name, field, bounds, *pair, None), part)
    lines = [["scenario", "from", "to", "measure", "queue", "beside", "blocks", "difference", "least", "most", "margin", "verdict"]]
    for (name, field, bounds, one, other, other_name), part in PRINTED.items():
        found, theirs = judged(name, one, other, field, part, other_name), difference_of(name, one, other, field, part, other_name)[1]
        if found:
            beside_it = f"{other} of {other_name}" if other_name else other
            lines.append([name, *bounds, field, one, beside_it, len(theirs), *found[:3], margin_of(name, one, other, field, part, theirs), found[3]])
    for name, part, most, least, found, margin, blocks in extremes() * HAS_OLDER:
        lines.append([name, *RUNS.part(name, part), "goodput", most, least, blocks, *found[:3], margin, found[3]])
    for name in LIMITS:
        for queue in (it for it in limit_queues(name) if it != present_limit(name)):
            for field, part in limit_measures(name):
                found = limit_test(name, queue, field, part)
                blocks = len(limit_values(name, queue, field, part))
                lines.append([name, *LIMIT_RUNS.part(name, part), field, queue, present_limit(name), blocks, *found[:3], found[4], found[3]])
    lines += questions.listed(PLANNED)
    for mbit, flows, ecn in sorted({(row["mbit"], row["flows"], row["ecn"]) for row in NS3}, key=lambda it: (int(it[0]), int(it[1]), it[2])):
        for queue in NS3_OTHERS:
            for field in ("link_mbit", "wait_mean_ms"):
                if compared := ns3_compare(mbit, flows, ecn, queue, field):
                    one, other, found = compared
                    margin = (NS3_MARGIN if field == "link_mbit" else wait_share()) * fmean(other)
                    lines.append([f"ns-3 {mbit} Mbit/s {flows} flows{' ECN' * (ecn == '1')}", 10, 60, field, "recorded-stamp", queue,
                                  min(len(one), len(other)), *found[:3], margin, found[3]])
    return "".join(",".join(MEASURES.get(it, it) if isinstance(it, str) else f"{it:g}" if isinstance(it, int) or it == int(it) and abs(it) < 1e6
                            else shown(it, "", 4) for it in line) + "\n" for line in lines)


# comparisons of queues that are known to differ, and that give no margin: scenario, queues, measure, part
CONTROLS = [("four", "wide", "stamp", "probe", "after"), ("far", "wide", "stamp", "probe", "after"), ("slow", "slowwide", "stamp", "probe", "after"),
            ("four", "tail", "stamp", "probe", "after"),
            ("udp", "fq_codel", "stamp", "probe", "after"), ("udp", "fq_codel", "stamp", "goodput", "whole"),
            ("step", "rate", "stamp", "goodput", "whole")]


def control_table():
    lines = []
    for name, one, other, field, part in CONTROLS:
        theirs = difference_of(name, one, other, field, part)[1]
        words = f"{NAMES[one]}: {'wait' if field == 'probe' else field}"
        margin = margin_of(name, one, other, field, part, theirs)
        lines.append([f"`{name}`", words, shown(margin, field), plus_minus(test(name, one, other, field, part), field)])
    return table(["scenario", "queue", "margin", "difference from PIE, here"], lines)


@functools.cache
def extremes():
    """Returns for each scenario the comparison of its reference queues with the greatest and the least mean goodput, if they differ by more than those
    of `four`, so that they give the margin; with the margin and the number of blocks."""
    found, queues = [], references("stamp", "pie")
    for name, field, part, _ in pairs_of("stamp", "pie"):
        is_own = field == "goodput" and reference_scenario(name, "stamp", "pie") == name
        if is_own and half_spread(name, queues, "goodput", part) == goodput_share(name, "stamp", "pie", part):
            means = means_of(name, queues, "goodput", part)
            most, least = queues[means.index(max(means))], queues[means.index(min(means))]
            ours, theirs = difference_of(name, most, least, "goodput", part)
            margin = (max(means) - min(means)) / 2
            found.append((name, part, most, least, compare_pairs(ours, theirs, margin), margin, len(ours)))
    return found


def extremes_count():
    """Returns the number of parts in which the reference queues with the greatest and the least goodput are found to differ, in words."""
    return f"{sum(it[4][3] == 'different' for it in extremes())} of {len(extremes())}"


def base_text():
    """Returns the delay of the empty queue in each kind of bottleneck, in us, and apart from it that of a link which sends at grants."""
    every = [(name, row) for (name, _), parts in RUNS.rows.items() for blocks in parts.values() for row in blocks.values()]
    rows = [row for name, row in every if "--grant" not in SCENARIOS[name]["options"]]
    granted = [float(row["base"]) for name, row in every if "--grant" in SCENARIOS[name]["options"]]
    parts = []
    for is_ours in (True, False):
        found = [1e3 * float(row["base"]) for row in rows if (row["audit"] != "-") == is_ours]
        least, most = f"{min(found):.0f}", f"{max(found):.0f}"
        parts.append(f"{least} µs" if least == most else f"{least} to {most} µs")
    grants = f" ({min(granted):.1f} to {max(granted):.1f} ms if it sends only every 30 ms, `grant30`)" if granted else ""
    return f"{parts[0]} at the link{grants}, and by {parts[1]}"


def queues_table(it, queues):
    """Returns goodput, waits and losses of queues of a scenario, in the blocks that all of them ran."""
    queues = [queue for queue in queues if RUNS.blocks(it, queue)]
    blocks = set.intersection(*(set(RUNS.blocks(it, queue)) for queue in queues))
    lines = []
    for queue in queues:
        start = [value(it, queue, field, "start", blocks=blocks) for field in ("goodput", "probe")]
        waits = [value(it, queue, "wait", blocks=blocks), value(it, queue, "wait99", digits=0, blocks=blocks), spread(it, queue, "probe", blocks=blocks),
                 value(it, queue, "probe95", digits=0, blocks=blocks)]
        lines.append([NAMES[queue], *start, lost(it, queue, "start", blocks), value(it, queue, "goodput", blocks=blocks), *waits,
                      lost(it, queue, blocks=blocks), *(value(it, queue, field, blocks=blocks) for field in ("early", "tail"))])
    heads = ["queue", "goodput, start", "wait, start", "probes lost, start, %", "goodput, later", "packets' wait, later", "packets' wait, 99th percentile",
             "wait, later", "wait, 95th percentile", "probes lost, later, %", "early drops, later", "tail drops, later"]
    return table(heads, lines) + f"\n\nEach row has the same {len(blocks)} blocks."


def probes_table():
    lines = []
    for queue in ("stamp", "fq_codel"):
        for name in ("four", "hundred"):
            scenarios = [it for it in ((f"{name}20", name, f"{name}200") if name == "hundred" else ("probe20", name, "probe200")) if was_run(it)]
            blocks = set.intersection(*(set(RUNS.blocks(scenario, queue)) for scenario in scenarios))
            cells = [f"{value(scenario, queue, 'probe', blocks=blocks)} ({share(scenario)} %)" for scenario in scenarios]
            lines.append([NAMES[queue], SCENARIOS[name]["words"], str(len(blocks)), *cells])
    return table(["queue", "traffic", "blocks", "a probe every 20 ms", "every 100 ms", "every 200 ms"], lines)


def took(scenario, queue, size):
    """Returns the times of all short flows of this size, in ms; one that did not end counts as a minute."""
    blocks = RUNS.common_blocks(scenario)
    rows = (row for row in SHORT if (row["scenario"], row["queue"], row["bytes"]) == (scenario, queue, str(size)) and int(row["block"]) in blocks)
    return sorted(6e4 if row["took"] == "" else float(row["took"]) for row in rows)


def short_table():
    sizes = sorted({int(row["bytes"]) for row in SHORT if row["scenario"] == "short"})
    lines = []
    for queue in SCENARIOS["short"]["queues"]:
        if not RUNS.blocks("short", queue):
            continue
        cells = [NAMES[queue], "/".join(str(len(took("short", queue, size))) for size in sizes)]
        for size in sizes:
            times = took("short", queue, size)
            cells.append(f"{median(times):.0f}, {times[max(0, math.ceil(len(times) * 0.95) - 1)]:.0f}" if times else "")
        lines.append([*cells, group("short", queue, 0)])
    return table(["queue", "flows", *(f"{size} bytes" for size in sizes), "long flow's goodput"], lines)


def step_table():
    lines = []
    for queue in SCENARIOS["step"]["queues"]:
        if RUNS.blocks("step", queue, "whole"):
            cells = [value("step", queue, "goodput", "8-18"), spread("step", queue, "probe", "8-18"), lost("step", queue, "8-18"),
                     value("step", queue, "goodput", "18-32"), value("step", queue, "wait", "18-32"), spread("step", queue, "probe", "18-32"),
                     lost("step", queue, "18-32"), percent("step", queue, "prob", "18-32")]
            lines.append([NAMES[queue], *cells])
    return table(["queue", "at 2 Mbit/s: goodput", "wait", "probes lost, %", "at 10 Mbit/s again: goodput", "packets' wait", "wait", "probes lost, %",
                  "probability, %"], lines)


def shares_table():
    """Returns the results of each group in scenarios whose flows differ."""
    lines = []
    for name in ("udp", "trips", "bbrcubic"):
        for queue in SCENARIOS[name]["queues"]:
            rows = RUNS.blocks(name, queue)
            if rows:
                count = len(next(iter(rows.values()))["groups"].split("/"))
                lines.append([f"`{name}`", NAMES[queue], "/".join(group(name, queue, it) for it in range(count)), value(name, queue, "jain"),
                              value(name, queue, "probe"), value(name, queue, "probe95", digits=0), value(name, queue, "wait99", digits=0), lost(name, queue)])
    return table(["scenario", "queue", "goodput of each group", "Jain's index of TCP", "wait", "wait, 95th percentile", "packets' wait, 99th percentile",
                  "probes lost, %"], lines)


def voice_lost(queue):
    """Returns the packets of voice that were dropped, in per cent of those that the senders' plan has."""
    begin, end = RUNS.part("mixed", "after")
    blocks = sorted(RUNS.common_blocks("mixed"))
    plan = beside.scenario_of("mixed", beside.options(SCENARIOS["mixed"]["options"]), {"stamp": 1}, blocks)["blocks"]
    sent = sum(beside.Found.planned(SimpleNamespace(block=plan[str(block)]), beside.VOICE, begin, end) for block in blocks)
    return f"{100 * sum(RUNS.common_values('mixed', queue, 'voice_lost')) / sent:.1f}"


def mixed_table():
    lines = []
    for queue in SCENARIOS["mixed"]["queues"]:
        if RUNS.blocks("mixed", queue):
            voice = [value("mixed", queue, "voice"), value("mixed", queue, "voice99", digits=0), voice_lost(queue)]
            web = [f"{median(took('mixed', queue, size)):.0f}" for size in (14600, 146000)]
            lines.append([NAMES[queue], group("mixed", queue, 0), *voice, value("mixed", queue, "dns"), *web])
    heads = ["voice: wait", "voice: 99th percentile", "voice: packets lost, %", "DNS: wait", "web, 14,600 bytes", "web, 146,000 bytes"]
    return table(["queue", "goodput of 2 CUBIC", *heads], lines)


def ecn_table():
    lines = []
    for name in ("ecn", "ecnmany", "ecnudp"):
        for queue in SCENARIOS[name]["queues"]:
            if RUNS.blocks(name, queue):
                cells = [value(name, queue, field) for field in ("wait", "marks", "early", "tail")]
                lines.append([f"`{name}`", NAMES[queue], group(name, queue, 0), *cells, lost(name, queue), percent(name, queue, "prob")])
    heads = ["scenario", "queue", "goodput of TCP", "packets' wait", "marks", "early drops", "tail drops", "probes lost, %", "probability, %"]
    return table(heads, lines)


NS3_MARGIN = 0.01       # of the link's rate


def ns3_rows(queue, mbit, flows, ecn):
    return {row["seed"]: row for row in NS3 if (row["queue"], row["mbit"], row["flows"], row["ecn"]) == (queue, mbit, flows, ecn)}


def ns3_compare(mbit, flows, ecn, queue, field):
    """Compares this repository's queue with another one. Returns the values of both and the result, or nothing if there are too few runs."""
    one, other = ([float(row[field]) for row in ns3_rows(it, mbit, flows, ecn).values()] for it in ("recorded-stamp", queue))
    if min(len(one), len(other)) < 2:
        return None
    return one, other, compare(one, other, NS3_MARGIN * fmean(other) if field == "link_mbit" else wait_share() * fmean(other))


def ns3_difference(mbit, flows, ecn, queue):
    found = ns3_compare(mbit, flows, ecn, queue, "link_mbit")[2]
    return f"{interval(found, 'goodput')} Mbit/s, `{found[3]}`"


NS3_OTHERS = {"pie-stamp": "`PieQueueDisc`", "pie-mark-stamp": "`PieQueueDisc`, marks changed",
              "pie-mark-burst-stamp": "`PieQueueDisc`, marks and bursts changed"}


def ns3_table():
    lines = []
    for mbit, flows, ecn in sorted({(row["mbit"], row["flows"], row["ecn"]) for row in NS3}, key=lambda it: (int(it[0]), int(it[1]), it[2])):
        for queue, name in NS3_OTHERS.items():
            if not ns3_compare(mbit, flows, ecn, queue, "link_mbit"):
                continue
            cells = [f"{mbit} Mbit/s, {flows} flows{', ECN' * (ecn == '1')}", name]
            for field in ("link_mbit", "wait_mean_ms"):
                one, other, found = ns3_compare(mbit, flows, ecn, queue, field)
                cells += [f"{len(one)}, {len(other)}"] * (len(cells) == 2)
                cells += [f"{fmean(one):.1f}, {fmean(other):.1f}", plus_minus(found, field, 2 if field == "link_mbit" else 1,
                                                                                        f"{significant(100 * (NS3_MARGIN if field == 'link_mbit' else wait_share()))} %")]
            lines.append(cells)
    heads = ["traffic", "other queue", "seeds, here and other", "link's rate, here and other", "difference", "wait, here and other", "difference"]
    return table(heads, lines)


SPARSE = sparse.results(ROOT / "bindings/bpf/sparse.csv.xz")


def sparse_table():
    lines = []
    for queue, name in (("fq_here", "`pie-qdisc attach DEV fq`"), ("fq_pie", "`fq_pie`"), ("fq_codel", "`fq_codel`")):
        count, mean, high, most, lost, rate, jain = sparse.summary(SPARSE[queue])
        lines.append([name, str(count), f"{mean:.2f}", f"{high:.2f}", f"{most:.2f}", str(lost), f"{rate:.2f}", f"{jain:.3f}"])
    return table(["queue", "waits", "mean", "99th percentile", "greatest", "lost", "8 flows, Mbit/s", "Jain's index"], lines)


def sparse_blocks():
    """Returns the number of blocks, in words."""
    count = {len(it) for it in SPARSE.values()}
    if len(count) != 1:
        sys.exit("docs/results.py: the queues of sparse.csv.xz have different blocks")
    return "one block" if count == {1} else f"{min(count)} blocks"


BURSTS = read("bindings/ns3/bursts.csv")


def ns3_open():
    """Returns the number of comparisons of the table with each verdict, in words."""
    keys = sorted({(row["mbit"], row["flows"], row["ecn"]) for row in NS3})
    found = [it[2][3] for key in keys for queue in NS3_OTHERS for field in ("link_mbit", "wait_mean_ms") if (it := ns3_compare(*key, queue, field))]
    return (f"Of {len(found)} comparisons, {found.count('same')} are `same`, {found.count('different')} are `different`, and {found.count('open')} are `open`, "
            f"because there are only 5 or 8 seeds.")


def settle_sentence():
    """Names the runs here whose mean wait is above 20 ms, with their bursts, beside the others."""
    rows = ns3_four("recorded-stamp")
    wrong = [row for row in rows.values() if float(row["wait_mean_ms"]) > 20]
    names = " and ".join(f"seed {row['seed']} at {row['mbit']} Mbit/s (mean wait {float(row['wait_mean_ms']):.0f} ms, {float(row['link_mbit']):.1f} Mbit/s on "
                         f"the link)" for row in wrong)
    return f"Here {len(wrong)} of {len(rows)} runs of four flows without ECN do not settle: {names}."


BOUNDED = "recorded-stamp+bounded"


def ns3_four(queue):
    """Returns the runs of four flows without ECN, by rate and seed."""
    return {(row["mbit"], row["seed"]): row for row in NS3 if (row["queue"], row["flows"], row["ecn"]) == (queue, "4", "0")}


def bursts_table():
    """Returns the bursts of each run of four flows without ECN here, beside its link's rate and mean wait, and those of the same run with a slow start
    that ends at the threshold."""
    found, others = ns3_four("recorded-stamp"), ns3_four(BOUNDED)
    bounded = {(row["mbit"], row["seed"]): row["bursts"] for row in BURSTS if row["queue"] == BOUNDED}
    lines = []
    for row in BURSTS:
        if row["queue"] == "recorded-stamp":
            key = (row["mbit"], row["seed"])
            run, other = found[key], others[key]
            lines.append([row["mbit"], row["seed"], f"{float(run['link_mbit']):.1f}", f"{float(run['wait_mean_ms']):.0f}", row["bursts"], row["opened"],
                          row["greatest"], row["greatest_opening"], row["empty"],
                          f"{float(other['link_mbit']):.1f}", f"{float(other['wait_mean_ms']):.0f}", bounded[key]])
    heads = ["Mbit/s", "seed", "link's rate", "wait", "bursts", "of these with an opening", "greatest burst, packets", "greatest opening, segments",
             "queue empty, s", "link's rate, bounded", "wait, bounded", "bursts, bounded"]
    return table(heads, lines)


def openings():
    """Returns the number of bursts with an opening of a window, and the greatest one, in words."""
    rows = [row for row in BURSTS if row["queue"] == "recorded-stamp"]
    opened, every = (sum(int(row[field]) for row in rows) for field in ("opened", "bursts"))
    return f"{opened} of {every} bursts have such an opening, of up to {max(int(row['greatest_opening']) for row in rows)} segments"


def bounded_sentence():
    """Returns how many runs settle if slow start ends at the threshold, in words."""
    rows = list(ns3_four(BOUNDED).values())
    return (f"{sum(float(row['wait_mean_ms']) > 20 for row in rows)} of {len(rows)} runs have a mean wait above 20 ms, and the link carries at least "
            f"{min(float(row['link_mbit']) / float(row['mbit']) for row in rows) * 100:.1f} % of its rate")


def burst_sentence():
    """Returns the number of runs of four flows that never settle: those that wait above 20 ms on average."""
    parts = []
    names = {"pie-stamp": "`PieQueueDisc`", "recorded-stamp": "this repository", "pie-mark-burst-stamp": "`PieQueueDisc` with marks and bursts changed"}
    for queue, name in names.items():
        rows = [row for mbit in ("10", "50") for row in ns3_rows(queue, mbit, "4", "0").values()]
        if rows:
            parts.append(f"{sum(float(row['wait_mean_ms']) > 20 for row in rows)} of {len(rows)} with {name}")
    return f"Of the runs of four flows without ECN, these have a mean wait above 20 ms: {', '.join(parts)}."


# ---- the picture ----

COLOURS = {"stamp": "#1f5fa8", "pie": "#b0303a", "fq_codel": "#2f8a2f", "cake": "#c08020", "tail": "#888888", "pfifo": "#222222", "half": "#7a4fa0",
           "rate": "#10a0a0", "wide": "#60b0f0", "pie-rate": "#f07878", "pie-low": "#f0b0a0", "pie-high": "#801010", "marks": "#a0a020",
           "slowwide": "#60b0f0", "mtu": "#8080ff"}
WIDE, HIGH, ACROSS, HEAD = 310, 200, 3, 44
LEFT, TOP, INNER_WIDE, INNER_HIGH = 46, 24, 252, 138      # the frame of a panel
SHORTEST = 0.1      # ms: the axis is logarithmic, and shorter waits are drawn as this one


def ellipse_of(points):
    """Returns centre, half axes and angle of the ellipse of one standard deviation."""
    xs, ys = zip(*points)
    if len(points) < 2:
        return fmean(xs), fmean(ys), 0, 0, 0
    x, y = fmean(xs), fmean(ys)
    a, c = stdev(xs) ** 2, stdev(ys) ** 2
    b = sum((it - x) * (other - y) for it, other in points) / (len(points) - 1)
    middle, reach = (a + c) / 2, math.hypot((a - c) / 2, b)
    return x, y, math.sqrt(max(middle + reach, 0)), math.sqrt(max(middle - reach, 0)), math.degrees(math.atan2(2 * b, a - c) / 2)


def ticks_of(least, most, count):
    """Returns round numbers within these bounds: about `count`, at least two."""
    raw = (most - least) / count
    step = 10 ** math.floor(math.log10(raw))
    step *= next(it for it in (1, 2, 5, 10) if it * step >= raw)
    found = [it * step for it in range(math.ceil(least / step), math.floor(most / step) + 1)]
    return found if len(found) > 1 else ticks_of(least, most, count + 2)


def log_ticks(least, most):
    """Returns numbers that begin with 1, 2 or 5 within these bounds; all round ones if these are too few."""
    found = [digit * 10 ** power_of for power_of in range(-2, 5) for digit in (1, 2, 5) if least <= digit * 10 ** power_of <= most]
    if len(found) > 6:
        found = [it for it in found if f"{it:e}"[0] == "1"]
    return found if len(found) > 1 else ticks_of(least, most, 4)


def panel(name, left, top):
    """Returns the panel of a scenario: waits from long to short, on a logarithmic axis, and goodput upwards, so that better is up and to the right."""
    points = {}
    for queue in SCENARIOS[name]["queues"]:
        waits, goodputs = RUNS.values(name, queue, "probe"), RUNS.values(name, queue, "goodput")
        if both := [(max(waits[it], SHORTEST), goodputs[it]) for it in waits.keys() & goodputs.keys()]:
            points[queue] = both
    xs, ys = [], []
    for them in points.values():
        for found, values in ((xs, [math.log(x) for x, _ in them]), (ys, [y for _, y in them])):
            reach = stdev(values) if len(values) > 1 else 0
            found += [*values, fmean(values) - reach, fmean(values) + reach]
    wide, high = max((max(xs) - min(xs)) * 1.15, math.log(1.3)), max((max(ys) - min(ys)) * 1.25, 0.01 * max(ys))
    middle_x, middle_y = (max(xs) + min(xs)) / 2, (max(ys) + min(ys)) / 2

    def place(x, y):
        return LEFT + INNER_WIDE * (0.5 - (math.log(x) - middle_x) / wide), TOP + INNER_HIGH * (0.5 - (y - middle_y) / high)

    bottom = TOP + INNER_HIGH
    out = [f'<g transform="translate({left},{top})"><text x="{LEFT}" y="17"><tspan font-weight="bold">{name}</tspan>: {SCENARIOS[name]["words"]}</text>']
    for it in log_ticks(math.exp(middle_x - wide / 2), math.exp(middle_x + wide / 2)):
        x = place(it, middle_y)[0]
        out += [f'<path d="M{x:.1f} {TOP}V{bottom}" stroke="#ddd"/>', f'<text x="{x:.1f}" y="{bottom + 12}" text-anchor="middle">{it:g}</text>']
    ticks = ticks_of(middle_y - high / 2, middle_y + high / 2, 4)
    decimals = max(0, -math.floor(math.log10(ticks[1] - ticks[0]) + 1e-9))
    for it in ticks:
        y = place(math.exp(middle_x), it)[1]
        out += [f'<path d="M{LEFT} {y:.1f}H{LEFT + INNER_WIDE}" stroke="#ddd"/>',
                f'<text x="{LEFT - 4}" y="{y + 3:.1f}" text-anchor="end">{it:.{decimals}f}</text>']
    out.append(f'<rect x="{LEFT}" y="{TOP}" width="{INNER_WIDE}" height="{INNER_HIGH}" fill="none" stroke="#888"/>')
    for queue, them in points.items():
        scaled = [place(*point) for point in them]
        x, y, one, other, angle = ellipse_of(scaled)
        out.append(f'<ellipse cx="{x:.1f}" cy="{y:.1f}" rx="{max(one, 2.5):.1f}" ry="{max(other, 2.5):.1f}" transform="rotate({angle:.0f} {x:.1f} {y:.1f})" '
                   f'fill="{COLOURS[queue]}" fill-opacity="0.45" stroke="{COLOURS[queue]}"/>')
    return "\n".join([*out, "</g>"])


@functools.cache
def picture():
    names = [name for name in SCENARIOS if was_run(name) and sum(bool(RUNS.blocks(name, queue)) for queue in SCENARIOS[name]["queues"]) > 1]
    down = -(-len(names) // ACROSS)
    used = [queue for queue in COLOURS if any(RUNS.blocks(name, queue) for name in names)]
    legend, left = "", 16
    for queue in used:
        legend += f'<circle cx="{left}" cy="14" r="4" fill="{COLOURS[queue]}"/><text x="{left + 7}" y="17">{queue}</text>'
        left += 26 + 6 * len(queue)
    panels = "\n".join(panel(name, WIDE * (place % ACROSS), HEAD + HIGH * (place // ACROSS)) for place, name in enumerate(names))
    return (f'<svg xmlns="http://www.w3.org/2000/svg" viewBox="0 0 {WIDE * ACROSS + 10} {HEAD + HIGH * down}" font-family="sans-serif" font-size="10">\n'
            f'<rect width="100%" height="100%" fill="white"/>\n{legend}\n<text x="{LEFT}" y="36">upwards: goodput in Mbit/s; to the right: shorter waits '
            f'of a probe, in ms (logarithmic)</text>\n{panels}\n</svg>\n')


def wrapped(block):
    """Returns a paragraph, or the items of a list, in lines of 100 columns. Tables, headings, pictures and commands are unchanged."""
    if re.search(r"^(\||#|!|    )", block, re.M) and not re.match(r"\d+\. ", block):
        return block
    items = re.split(r"\n(?=\d+\. |- )", block)
    indents = [re.match(r"(?:\d+\. |- |)", item)[0] for item in items]
    return "\n".join(textwrap.fill(" ".join(item.split()), 100, subsequent_indent=" " * len(indent), break_long_words=False, break_on_hyphens=False)
                     for item, indent in zip(items, indents))


@functools.cache
def page(source="docs/RESULTS.in"):
    text = OLDER.sub(r"\1" if HAS_OLDER else "", (ROOT / source).read_text())
    IS_PRINTING.append(source)
    text = re.sub(r"\{\{(.*?)\}\}", lambda found: str(eval(found[1], globals())), text, flags=re.S)  # noqa: S307 (its own page)
    IS_PRINTING.pop()
    return "\n\n".join(wrapped(block) for block in text.rstrip("\n").split("\n\n")) + "\n"


def own_figures(source):
    """Returns the numbers that a source of a page has itself, decimal or with a unit, except versions, sections and settings."""
    text = re.sub(r"\{\{.*?\}\}|^    [^\n]*$|\[[^\]]*\]\([^)]*\)|`[^`\n]*`", "", (ROOT / source).read_text(), flags=re.M | re.S)
    found = re.findall(r"(?<![\w.])(?:[Ss]ection |Linux |ns-3 |DPDK |version )?\d+\.\d+", text)
    found += re.findall(r"(?<![\w.])[\d.,]+\s(?:ms|s|Mbit/s|bytes|%|µs|blocks|runs|packets)(?!\w)", text)
    return [it for it in (" ".join(it.split()) for it in found) if it[0].isdigit() and it not in SETTINGS]


WORTH = re.compile(r"(?<=<!-- by docs/results.py -->\n).*?(?=<!-- to here -->)", re.S)


def worth():
    """Returns what README.md says of the worth: four flows behind tail drop and PIE, and the plan's answers."""
    if PLANNED.is_complete("four"):
        waits, carried = ([shown(fmean(PLANNED.values("four", queue, measure, 3)), digits=digits) for queue in ("tail", "stamp")]
                          for measure, digits in (("wait", 0), ("goodput", 2)))
    else:
        waits, carried = ([value("four", queue, measure, digits=digits) for queue in ("tail", "stamp")] for measure, digits in (("wait", 0), ("goodput", 2)))
    four = (f"With four CUBIC flows at 10 Mbit/s a packet waits {waits[0]} ms on average with tail drop and {waits[1]} ms with PIE. "
            f"The goodput is {carried[0]} and {carried[1]} Mbit/s ([docs/RESULTS.md](docs/RESULTS.md)).")
    return "\n\n".join(map(wrapped, [four, *questions.readme(PLANNED).split("\n\n")])) + "\n"


def elsewhere():
    """Returns sentences of other pages that rest on stored runs, as (page, sentence)."""
    return [("README.md", f"<!-- by docs/results.py --> {' '.join(worth().split())} <!-- to here -->"),
            ("docs/PARAMETERS.md", f"Many flows exceed it: sixteen flows settle at a probability of {percent('ecnmany', 'stamp', 'prob', digits=0)} "
                                   "per cent ([RESULTS.md]")]


SOURCES = {"docs/RESULTS.md": "docs/RESULTS.in", "bench/uml/README.md": "bench/uml/README.in"}
MADE = {**{name: functools.partial(page, source) for name, source in SOURCES.items()}, "docs/comparisons.csv": comparisons,
        **({"docs/ellipses.svg": picture} if HAS_OLDER else {}),
        **{f"docs/{name}": functools.partial(str, text) for name, text in questions.pictures(PLANNED).items()}}


def differences(stored):
    """Returns the differences between the pages and the result of the runs. `stored` has texts instead of files."""
    wrong = [f"{name} is not the result of the stored runs; docs/results.py writes it" for name, text in MADE.items()
             if (stored[name] if name in stored else (ROOT / name).read_text()) != text()]
    for name, sentence in elsewhere():
        if sentence not in " ".join((stored[name] if name in stored else (ROOT / name).read_text()).split()):
            wrong.append(f"{name} has no such sentence, which the stored runs give: {sentence}..")
    return wrong + [f"{source} has a figure of its own: {it}" for source in SOURCES.values() for it in own_figures(source)]


def main():
    if "--needs" in sys.argv:
        print_needs()
        return 0
    if "--check" not in sys.argv:
        for name, text in MADE.items():
            (ROOT / name).write_text(text())
        readme = ROOT / "README.md"
        readme.write_text(WORTH.sub(lambda _: worth(), readme.read_text()))
        return 0
    wrong = differences({})
    for it in wrong:
        print(f"docs/results.py: {it}")
    return 1 if wrong else 0


if __name__ == "__main__":
    sys.exit(main())
