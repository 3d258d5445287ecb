#!/usr/bin/env python3
"""Computes each number that docs/questions.py prints again, from the rows and bench/uml/PLAN.md alone: answers, tables, pictures, predictions, README's part
and comparisons.csv. No code of docs/questions.py, bench/uml/queues.py or bench/equivalence.py is used for it.

The pages of the repository are compared with the stored rows, and what docs/questions.py makes of invented rows with those: all blocks, some scenarios
with missing blocks, equal queues, shares at the edge of Holm's correction, and rows with which each prediction of the plan comes true. A fault that is
planted in docs/questions.py must be found (PLANTS). Rows of two versions, a run that is not of the plan, and a run that is there twice are refused.
usage: tests/documents/questions.py [--plants]     --plants: names each planted fault and its first finding
needs: nothing"""
import csv
import io
import lzma
import math
import random
import re
import sys
import types
from pathlib import Path

sys.path.insert(0, str(Path(__file__).resolve().parents[1] / "shared"))
from checks import NAME, ROOT, check, finish  # noqa: E402
from student import mean, spread, t95, tail  # noqa: E402

PLAN = (ROOT / "bench/uml/PLAN.md").read_text().split("## Queues")[1]
SCRIPT = ROOT / "docs/questions.py"
NINE = ["stamp", "pie", "codel", "red", "fq_pie", "fq_codel", "cake", "tail", "pfifo"]
RULES = ["decay", "small", "holds", "far", "delay", "burst", "calm"]
MEASURES = ["goodput", "wait", "wait99", "short"]
IN_WORDS = {"goodput": "goodput", "wait": "mean wait", "wait99": "99th percentile of waits", "short": "short flows"}
IN_LIST = {"goodput": "goodput in Mbit/s", "wait": "packets' wait in ms", "wait99": "99th percentile of packets' waits in ms",
           "short": "time of a short flow in ms"}


# ---- the plan ----

class Scenario:
    def __init__(self, different, queues, blocks=None):
        found = re.search(r"(\d+) blocks", different)
        self.queues, self.blocks = queues, blocks or (int(found[1]) if found else 12)
        seconds = re.search(r"(\d+) s(?:,|$)", different)
        self.seconds = int(seconds[1]) if seconds else 20

    def planned(self, queue):
        return min(3, self.blocks) if queue in ("tail", "pfifo") else self.blocks


def names_in(text):
    return re.findall(r"`(\w+)`", text)


def read_plan():
    """Returns the scenarios, and for each question its pairs of queues with their scenarios."""
    more = {}
    lines = [[cell.strip() for cell in line.strip("|").split("|")] for line in PLAN.splitlines() if line.startswith("| ")]
    rows = {cells[0]: cells[1:] for cells in lines if re.fullmatch(r"[\d–]+", cells[0])}
    with_ecn = names_in(rows["7"][2])
    with_half, with_rate = (names_in(it) for it in rows["8"][2].split(";"))
    with_rules = names_in(rows["9"][2])
    for queue, them in (("ecn", with_ecn), ("half", with_half), ("rate", with_rate)):
        for name in them:
            more.setdefault(name, []).append(queue)
    table = [(cells[0].strip("`"), cells[3]) for cells in lines if re.fullmatch(r"`\w+`", cells[0])]
    scenarios = {name: Scenario(different, NINE + more.get(name, [])) for name, different in table}
    every, here = list(scenarios), [f"{name}rules" for name in with_rules]
    exchanged = ["stamp", "pie", *(f"pie-{it}" for it in RULES), "pie-all", *(f"pie-all-{it}" for it in RULES)]
    scenarios |= {f"{name}rules": Scenario(different, exchanged, 8) for name, different in table if name in with_rules}
    pairs = {number: [("stamp", queue, every)] for number, queue in enumerate(("pie", "codel", "red", "fq_codel", "cake", "fq_pie"), 1)}
    pairs[7] = [("ecn", "stamp", with_ecn)]
    pairs[8] = [("half", "stamp", with_half), ("rate", "stamp", with_rate)]
    pairs[9] = [("stamp", "pie", here), *((f"pie-{it}", "pie", here) for it in RULES), ("pie-all", "pie", here),
                *((f"pie-all-{it}", "pie-all", here) for it in RULES), ("stamp", "pie-all", here)]
    return scenarios, pairs


SCENARIOS, PAIRS = read_plan()
EVERY = [name for name in SCENARIOS if not name.endswith("rules")]
KEYS = {(name, queue, block) for name, it in SCENARIOS.items() for queue in it.queues for block in range(1, it.planned(queue) + 1)}


# ---- the verdicts ----

class Judged:
    """A comparison, from the rows."""

    def __init__(self, rows, scenario, measure, one, other, blocks):
        self.scenario, self.measure, self.one, self.other, self.blocks = scenario, measure, one, other, blocks
        ours, theirs = ([float(rows[scenario, queue, block][measure]) for block in range(1, blocks + 1)] for queue in (one, other))
        self.ours, self.theirs = mean(ours), mean(theirs)
        each = [a - b for a, b in zip(ours, theirs)]
        self.difference = mean(each)
        error = math.sqrt(spread(each))
        self.half = t95(blocks - 1) * error
        tenth = 0.1 * self.theirs
        self.margin = {"goodput": 0.01 * self.theirs, "wait": max(1, tenth), "wait99": max(2, tenth), "short": tenth}[measure]
        beyond = (abs(self.difference) - self.margin) / error
        self.chance = tail(beyond, blocks - 1) if beyond > 0 else 1 - tail(-beyond, blocks - 1)
        self.is_good = self.difference > 0 if measure == "goodput" else self.difference < 0
        self.verdict = "same" if -self.margin < self.difference - self.half and self.difference + self.half < self.margin else "open"


def measures_in(name):
    return MEASURES if name in ("short", "mixed") else MEASURES[:3]


class Expected:
    """What the rows give."""

    def __init__(self, rows):
        self.rows = {(row["scenario"], row["queue"], int(row["block"])): row for row in rows}
        self.complete = {name: sum(all((name, queue, block) in self.rows for queue in it.queues if block <= it.planned(queue))
                                   for block in range(1, it.blocks + 1)) for name, it in SCENARIOS.items()}
        self.is_whole = {name: self.complete[name] == it.blocks for name, it in SCENARIOS.items()}
        self.questions = {number: self.judged(pairs) for number, pairs in PAIRS.items()}
        self.tails = [Judged(self.rows, name, measure, "tail", "pfifo", SCENARIOS[name].planned("tail"))
                      for name in EVERY if self.is_whole[name] for measure in MEASURES[:3]]

    def judged(self, pairs):
        found = [Judged(self.rows, name, measure, one, other, SCENARIOS[name].blocks)
                 for one, other, names in pairs for name in names if self.is_whole[name] for measure in measures_in(name)]
        left = sum(len(measures_in(name)) for _, _, names in pairs for name in names)
        for it in sorted(found, key=lambda it: it.chance):
            if it.chance * left > 0.05:
                break
            it.verdict, left = "better" if it.is_good else "worse", left - 1
        return found

    def is_answered(self, number):
        return all(self.is_whole[name] for _, _, names in PAIRS[number] for name in names)

    # ---- the texts ----

    def clauses(self, found):
        return ", ".join(self.clause([it for it in found if it.measure == measure]) for measure in MEASURES if any(it.measure == measure for it in found))

    def short(self, number):
        parts = []
        for measure in MEASURES:
            found = [it for it in self.questions[number] if it.measure == measure]
            better, worse = (sum(it.verdict == verdict for it in found) for verdict in ("better", "worse"))
            parts.append(f"{self.clause(found).replace('*', '').partition(' (')[0]} ({better} better, {worse} worse of {len(found)})")
        return f"{', '.join(parts)}."

    @staticmethod
    def clause(found):
        names = {verdict: [f"`{it.scenario}`" for it in found if it.verdict == verdict] for verdict in ("better", "worse", "same", "open")}
        if names["better"] and names["worse"]:
            word = "it depends"
        elif names["better"] or names["worse"]:
            word = "yes" if names["better"] else "no"
        else:
            word = "not decided" if names["open"] else "no difference"
        parts = [f"`{it}` in {', '.join(names[it]) if len(names[it]) < 7 else f'{len(names[it])} of {len(found)}'}" for it in ("better", "worse") if names[it]]
        parts += [f"{len(names[it])} `{it}`" for it in ("same", "open") if names[it]]
        return f"{IN_WORDS[found[0].measure]} **{word}** ({'; '.join(parts)})"

    def whole(self, number):
        names = dict.fromkeys(name for _, _, names in PAIRS[number] for name in names)
        return f"{sum(self.is_whole[name] for name in names)} of {len(names)} scenarios are complete"

    def of(self, number, one, other):
        return [it for it in self.questions[number] if it.one == one and it.other == other]

    def answer(self, number):
        if not self.is_answered(number):
            return f"not answered yet: {self.whole(number)}."
        found = self.questions[number]
        if number == 8:
            return f"`--decay half`: {self.clauses(self.of(8, 'half', 'stamp'))}; `--delay rate`: {self.clauses(self.of(8, 'rate', 'stamp'))}."
        if number < 9:
            return f"{self.clauses(found)}."
        parts = []
        for head, prefix, other in (("exchanged alone", "pie", "pie"), ("if all others are exchanged", "pie-all", "pie-all")):
            named = []
            for rule in RULES:
                if them := [it for it in self.of(9, f"{prefix}-{rule}", other) if it.verdict not in ("same", "open")]:
                    named.append(f"`{rule}` ({', '.join(f'{it.verdict} {IN_WORDS[it.measure]} in `{it.scenario}`' for it in them)})")
            parts.append(f"{head}, {' and '.join(named) if named else 'no rule'} {'make' if len(named) > 1 else 'makes'} a difference")
        return (f"{'; '.join(parts)}. PIE here beside `pie`: {self.clauses(self.of(9, 'stamp', 'pie'))}; beside `pie` with all rules exchanged: "
                f"{self.clauses(self.of(9, 'stamp', 'pie-all'))}.")

    def lost(self, name, queue):
        rows = [row for (scenario, its, _), row in self.rows.items() if scenario == name and its == queue]
        lost, passed = math.fsum(int(row["lost"]) for row in rows), math.fsum(int(row["packets"]) for row in rows)
        return 100 * lost / (lost + passed)

    def wrong_predictions(self):
        """Returns each prediction of the plan that did not come true, with what came, and the number of those that are not decided, and of all."""
        unlike = ("bbrcubic", "udp", "trips", "burst", "short", "mixed")
        wide = f"in the mean wait wherever flows differ ({', '.join(f'`{name}`' for name in unlike)})"
        found = [
            (1, "PIE here is `same` as `pie` except in `slow`", "same", [it for it in self.questions[1] if it.scenario != "slow"]),
            *((number, f"PIE here is `worse` than `{queue}` {wide}", "worse", [it for it in self.questions[number] if it.scenario in unlike and it.measure == "wait"])
              for number, queue in ((4, "fq_codel"), (5, "cake besteffort"), (6, "fq_pie"))),
            (7, "waits with ECN are `same`", "same", [it for it in self.questions[7] if it.measure != "goodput"]),
            (8, "`half` is `better` in the goodput of `far`", "better", [it for it in self.of(8, "half", "stamp") if it.scenario + it.measure == "fargoodput"]),
            (9, "`pie` with all rules exchanged is `same` as PIE here", "same", self.of(9, "stamp", "pie-all")),
            (9, "the rule `small`, exchanged alone, makes the waits of `slow` `better`", "better",
             [it for it in self.of(9, "pie-small", "pie") if it.scenario + it.measure == "slowruleswait"])]
        wrong = []
        for _, words, wanted, them in (it for it in found if self.is_answered(it[0])):
            came = []
            for verdict in ("better", "worse", "same", "open"):
                if verdict != wanted and (names := list(dict.fromkeys(it.scenario for it in them if it.verdict == verdict))):
                    came.append(f"`{verdict}` in {', '.join(f'`{name}`' for name in names)}")
            wrong += [f"{words}: {', '.join(came)}"] * bool(came)
        if self.is_answered(7):
            more = [name for name in PAIRS[7][0][2] if self.lost(name, "ecn") >= self.lost(name, "stamp")]
            wrong += [f"fewer packets are lost with ECN: not in {', '.join(f'`{name}`' for name in more)}"] * bool(more)
        unknown = sum(not self.is_answered(number) for number in [7, *(it[0] for it in found)])
        return wrong, unknown, len(found) + 1

    def stored(self):
        return f"{len(self.rows):,} of {len(KEYS):,} runs"


# ---- what is printed ----

def near(text, number):
    """Returns true if a text is this number, rounded."""
    return abs(float(text) - number) <= 0.5001 * 10 ** -len(text.partition(".")[2]) + 1e-12


CELL = re.compile(r"(-?[\d.]+)/(-?[\d.]+), (-?[\d.]+)±([\d.]+)/([\d.]+), \*\*(\w+)\*\*")


def cell_faults(cell, it):
    found = CELL.fullmatch(cell)
    if not found:
        return [f"no comparison: {cell}"]
    wanted = (it.ours, it.theirs, it.difference, it.half, it.margin)
    is_right = all(map(near, found.groups(), wanted)) and found[6] == it.verdict and len(re.sub(r"^0\.?0*", "", found[5]).replace(".", "")) > 1
    return [] if is_right else [f"{it.scenario}, {it.one} and {it.other}, {it.measure}: {cell}, and the rows give {wanted}, {it.verdict}"]


def table_faults(text, judged):
    """Compares a table with the comparisons: each has a cell, and there is no other."""
    wrong, left = [], {(it.scenario, it.one, it.other, it.measure): it for it in judged}
    heads = []
    for line in (line for line in text.splitlines() if line.startswith("|")):
        cells = line.strip("|").split("|") if not line.endswith("||") else line[1:-1].split("|")
        if cells[0] == "scenario":
            heads = [{"goodput, Mbit/s": "goodput", "mean wait, ms": "wait", "99th percentile of waits, ms": "wait99",
                      "median time of a short flow, ms": "short"}[it] for it in cells[3:]]
        elif cells[0].startswith("`"):
            one, other = cells[1].strip("`").split("/")
            for measure, cell in zip(heads, cells[3:]):
                it = left.pop((cells[0].strip("`"), one, other, measure), None)
                if it is None:
                    wrong += [f"a cell that is not of the plan: {line}"] * bool(cell)
                    continue
                wrong += cell_faults(cell, it) + [f"{cells[2]} blocks: {line}"] * (cells[2] != str(it.blocks))
    return wrong + [f"the table lacks {key}" for key in left]


def picture_faults(text, judged):
    """Compares each line of a picture with its comparison: names, interval, middle and verdict."""
    lines = re.findall(r'text-anchor="end"[^>]*>([^<]*)</text>\n<path d="M([\d.]+) [\d.]+ H([\d.]+)" stroke="([^"]+)"[^>]*/>'
                       r'<circle cx="([\d.]+)"[^>]*fill="([^"]+)"/>'
                       r"<text[^>]*>(\w+)</text>", text)
    if len(lines) != len(judged):
        return [f"the picture has {len(lines)} comparisons of {len(judged)}"]
    middle, unit = 460.0, 65.0
    colours = {"better": "#2e7d32", "worse": "#b03030", "same": "#2060a0", "open": "#999999"}

    def place(number):
        return middle + unit * max(-4.0, min(4.0, number))
    wrong = []
    for (words, left, right, colour, dot, dot_colour, verdict), it in zip(lines, judged):
        way = 1 if it.measure == "goodput" else -1
        ends = sorted(place(way * (it.difference + side * it.half) / it.margin) for side in (-1, 1))
        names = [it.scenario, it.measure] if it.one == "stamp" and len({other.other for other in judged}) == 1 else [
            it.scenario, f"{it.one}/{it.other}" if it.one == "stamp" else it.one, it.measure]
        is_right = words.split() == names and near(left, ends[0]) and near(right, ends[1]) and near(dot, place(way * it.difference / it.margin))
        if not is_right or verdict != it.verdict or {colour, dot_colour} != {colours[verdict]}:
            wrong.append(f"the picture has {words} {left} {right} {dot} {verdict}, and the rows give {names} {ends} {it.verdict}")
    return wrong


def list_faults(text, expected):
    """Compares the lines of comparisons.csv that are those of the plan."""
    wrong, left = [], {}
    for words, judged in [*((f"question {number}", it) for number, it in expected.questions.items()), ("tail drop", expected.tails)]:
        left |= {(f"{words}: {it.scenario}", IN_LIST[it.measure], it.one, it.other): it for it in judged}
    for row in csv.reader(io.StringIO(text)):
        if not re.match(r"(question \d|tail drop): ", row[0]):
            continue
        it = left.pop((row[0], row[3], row[4], row[5]), None)
        if it is None:
            wrong.append(f"comparisons.csv has a line that is not of the plan: {row}")
            continue
        seconds = SCENARIOS[it.scenario].seconds
        least, most = it.difference - it.half, it.difference + it.half
        wanted = (seconds / 4 if it.measure.startswith("wait") else 0, seconds, it.blocks, it.difference, least, most, it.margin)
        if row[11] != it.verdict or any(abs(float(a) - b) > 0.00006 + 1e-6 * abs(b) for a, b in zip([row[1], row[2], *row[6:11]], wanted)):
            wrong.append(f"comparisons.csv has {row}, and the rows give {wanted}, {it.verdict}")
    return wrong + [f"comparisons.csv lacks {key}" for key in left]


HEADS = {1: "In place of Linux's `pie`?", 2: "In place of `codel`?", 3: "In place of RED?", 4: "In place of `fq_codel`?", 5: "In place of `cake`?",
         6: "In place of `fq_pie`?", 7: "A mark in place of a drop?", 8: "Optional elements?", 9: "Why does `pie` differ?"}
PREDICTED, CALIBRATION = "What was predicted and did not happen", "Tail drop at both bottlenecks"


def list_of(text):
    """Returns the items of the lists of a text."""
    return [" ".join(it.split()) for it in re.findall(r"^- (.*?)(?=\n- |\n\n|\n<!--|\Z)", text, re.M | re.S)]


def faults(expected, page, readme, comparisons, pictures):
    """Returns the differences between what is printed and what the rows give."""
    before, *parts = re.split(r"^### (.*)\n", page, flags=re.M)
    parts = dict(zip(parts[::2], parts[1::2]))
    wanted = [f"**{HEADS[number]}** {expected.answer(number)}" for number in HEADS]
    wrong = [f"the answers have {a}, and the rows give {b}" for a, b in zip(list_of(before) + [""] * 9, wanted) if a != b]
    wrong += [f"there are {len(list_of(before))} answers"] * (len(list_of(before)) != 9)
    blocks = re.findall(r"`(\w+)` (\d+) of (\d+)(?=[,.])", " ".join(before.split()).partition("Blocks: ")[2])
    wanted = [(name, str(expected.complete[name]), str(it.blocks)) for name, it in SCENARIOS.items()]
    wrong += [f"the blocks: {set(blocks) ^ set(wanted)}"] * (sorted(blocks) != sorted(wanted))
    for number, head in HEADS.items():
        text, judged = parts.pop(head, None), expected.questions[number]
        if (text is None) != (not judged):
            wrong.append(f"a section with verdicts of no complete scenario, or none: {head}")
            continue
        wrong += [f"a picture: {number}"] * ((f"question_{number}.svg" in pictures) != bool(judged))
        if not judged or wrong:
            continue
        excluding = sum(abs(it.difference) > it.half for it in judged)
        says = f"{expected.whole(number)}; the others have no verdict." if not expected.is_answered(number) else (
            f"{excluding} of {len(judged)} intervals exclude 0; about {round(0.1 * len(judged))} would if the queues were equal. `better` and `worse` hold "
            f"together with a chance of 95 % (Holm's correction over {len(judged)} comparisons).")
        wrong += [f"{head} does not say: {says}"] * (says not in " ".join(text.split()))
        wrong += table_faults(text, judged) + picture_faults(pictures[f"question_{number}.svg"], judged)
        if number == 7:
            found = re.search(r"in per cent: (.*?)\.(?=\s|$)", " ".join(text.split()))
            lost = {name: (a, b) for name, a, b in re.findall(r"`(\w+)` ([\d.]+) and ([\d.]+)", found[1] if found else "")}
            names = [name for name in PAIRS[7][0][2] if expected.is_whole[name]]
            is_right = list(lost) == names and all(near(text, expected.lost(name, queue)) for name in names for text, queue in zip(lost[name], ("ecn", "stamp")))
            wrong += [f"the lost packets: {lost}"] * (not is_right)
    these, unknown, every = expected.wrong_predictions()
    text = parts.pop(PREDICTED, "")
    printed = list_of(text)
    wrong += [f"the predictions: {printed}, and the rows give {these}"] * (printed != these)
    wrong += [f"{unknown} predictions are unknown"] * ((f"{unknown} of {every} predictions are not decided yet." in text) != (unknown > 0))
    wrong += ["the predictions that came true"] * (("Every prediction" in text) != (unknown < every and not these))
    text = parts.pop(CALIBRATION, "")
    wrong += table_faults(text, expected.tails) + [f"an unknown section: {it}" for it in parts]
    if all(expected.is_answered(number) for number in range(1, 6)):
        wrong += ["README's answers"] * (list_of(readme) != [f"**{HEADS[number]}** {expected.short(number)}" for number in range(1, 6)])
    else:
        wrong += ["README's state of the runs"] * (f"{expected.stored()} of the" not in " ".join(readme.split()) or "**" in readme)
    return wrong + list_faults(comparisons, expected)


# ---- invented rows ----

def invented(seed, missing=(), by_name=None):
    """Returns rows of the plan: a value that all queues of a block share, and for each queue, scenario and measure a difference in margins, with a spread.
    Both are random, or the difference is that of `by_name`. Of the scenarios in `missing`, one run lacks."""
    dice, rows, shift = random.Random(seed), {}, {}
    for name, it in SCENARIOS.items():
        for block in range(1, it.blocks + 1):
            mean_of = {"goodput": 9.5, "wait": dice.choice([4, 15]), "wait99": dice.choice([9, 40]), "short": 200}
            common = {measure: value * dice.uniform(0.97, 1.03) for measure, value in mean_of.items()}
            for queue in (queue for queue in it.queues if block <= it.planned(queue)):
                lost = dice.randint(5, 50) if not by_name or queue != "ecn" else 1
                row = {"scenario": name, "queue": queue, "block": str(block), "version": "one", "lost": str(lost), "packets": str(dice.randint(900, 9000))}
                for measure, value in common.items():
                    margin = max({"goodput": 0.01, "wait": 0.1, "wait99": 0.1, "short": 0.1}[measure] * value, {"wait": 1, "wait99": 2}.get(measure, 0))
                    drawn = dice.choice([0, 0, 0.4, -0.4, 1, -1, 1.4, -1.4, 2, -3]), dice.choice([0.1, 0.3, 0.8])
                    by, reach = (by_name(name, queue, measure), 0.05) if by_name else shift.setdefault((name, queue, measure), drawn)
                    row[measure] = f"{value + margin * (by + dice.gauss(0, reach)):.4f}"
                rows[name, queue, block] = row
    for name in missing:
        rows.pop(dice.choice([key for key in rows if key[0] == name]))
    return list(rows.values())


def as_predicted(name, queue, measure):
    """Differences with which each prediction of the plan comes true."""
    is_shorter = queue in ("fq_codel", "cake", "fq_pie") and name in ("bbrcubic", "udp", "trips", "burst", "short", "mixed")
    if measure == "wait" and (is_shorter or (name, queue) in (("slow", "stamp"), ("slowrules", "pie-small"))):
        return -3
    return 3 if (name, queue, measure) == ("far", "half", "goodput") else 0


def nearly(*it):
    """The same, except in the last of the scenarios whose flows differ."""
    return 0 if it == ("mixed", "fq_pie", "wait") else as_predicted(*it)


def at_the_edge():
    """Returns rows whose nine comparisons of question 8 have the same chance, 5 % over 8.6: Holm's correction ends at the first of them."""
    rows = {(row["scenario"], row["queue"], int(row["block"])): row for row in invented(5, by_name=lambda *_: 0)}
    for one, other, names in PAIRS[8]:
        for name in names:
            blocks = SCENARIOS[name].blocks
            low, high = 0.0, 50.0
            for _ in range(50):
                middle = (low + high) / 2
                low, high = (middle, high) if tail(middle, blocks - 1) > 0.05 / 8.6 else (low, middle)
            for measure, value, margin in (("goodput", 900, 9), ("wait", 100, 10), ("wait99", 100, 10)):
                for block in range(1, blocks + 1):
                    rows[name, other, block][measure] = str(value)
                    rows[name, one, block][measure] = f"{value + margin + margin * low / math.sqrt(blocks - 1) + margin * (-1) ** block:.6f}"
    return list(rows.values())


def loaded(source):
    module = types.ModuleType("planted")
    module.__file__ = str(SCRIPT)
    exec(compile(source, str(SCRIPT), "exec"), module.__dict__)  # noqa: S102 (the script itself)
    return module


def printed_by(module, rows):
    """Returns what the script prints of rows: page, README's part, comparisons.csv and pictures."""
    found = module.Rows(rows)
    lines = [",".join(IN_LIST.get(it, it) if place == 3 else str(it) for place, it in enumerate(line)) for line in module.listed(found)]
    page = "\n\n".join([module.answers(found), module.progress(found), module.sections(found)])
    return page, module.readme(found), "\n".join(lines), module.pictures(found)


# a text of docs/questions.py, and a wrong one in place of it
PLANTS = [
    ("fmean(ours), fmean(theirs), fmean(differences)", "fmean(theirs), fmean(ours), fmean(differences)"),
    ('"goodput": (0.01, 0)', '"goodput": (0.011, 0)'), ('"wait": (0.1, 1)', '"wait": (0.1, 1.1)'), ('"wait99": (0.1, 2)', '"wait99": (0.1, 1)'),
    ('"short": (0.1, 0)', '"short": (0.2, 0)'), ("max(part * self.theirs, least)", "max(part * self.ours, least)"),
    ("max(part * self.theirs, least)", "part * self.theirs"), ("max(part * self.theirs, least)", "part * self.theirs + least"),
    ("student_quantile(1 - LEVEL, freedom)", "student_quantile(1 - LEVEL / 2, freedom)"), ("self.blocks - 1", "self.blocks"),
    ("math.sqrt(variance(differences) / self.blocks)", "math.sqrt(variance(differences))"),
    ("math.sqrt(variance(differences) / self.blocks)", "math.sqrt((variance(ours) + variance(theirs)) / self.blocks)"),
    ("abs(self.difference) + self.reach < self.margin", "abs(self.difference) < self.margin"),
    ("abs(self.difference) + self.reach < self.margin", "self.difference + self.reach < self.margin"),
    ("abs(self.difference) - self.margin", "abs(self.difference)"), ("(1 - student(beyond / error, freedom))", "student(beyond / error, freedom)"),
    ("(1 - student(beyond / error, freedom))", "2 * (1 - student(beyond / error, freedom))"),
    ('(self.measure == "goodput")', '(self.measure != "goodput")'), ('(self.measure == "goodput")', '(self.measure in ("goodput", "wait99"))'),
    ("LEVEL / (planned - place)", "LEVEL / planned"), ("LEVEL / (planned - place)", "LEVEL"),
    ("LEVEL / (planned - place)", "LEVEL / (len(comparisons) - place)"),
    ("sorted(comparisons, key=lambda it: it.share)", "sorted(comparisons, key=lambda it: -it.share)"),
    ("sorted(comparisons, key=lambda it: it.share)", "comparisons"), ("            return\n        it.verdict", "            continue\n        it.verdict"),
    ('"better" if it.is_good() else "worse"', '"worse" if it.is_good() else "better"'),
    ("for block in range(1, blocks + 1)]", "for block in range(1, blocks)]"), ("zip(ours, theirs, strict=True)", "zip(ours, theirs[1:] + theirs[:1])"),
    ("self.blocks[name] == SCENARIOS[name].blocks", "self.blocks[name] >= SCENARIOS[name].blocks - 1"),
    ("for queue in it.queues if block <= it.blocks_of(queue))", "for queue in it.queues[:1])"),
    ("for name in filter(rows.is_complete, names):", "for name in names:"), ("return all(self.blocks[name]", "return any(self.blocks[name]"),
    ("0.1 * len(found)", "0.05 * len(found)"), ("abs(self.difference) > self.reach", "abs(self.difference) > self.margin"),
    ("100 * lost / (lost + packets)", "100 * lost / packets"), ('for queue in ("ecn", "stamp"):', 'for queue in ("stamp", "ecn"):'),
    ('return f"{ours}/{theirs}, ', 'return f"{theirs}/{ours}, '), ("{difference}±{reach}/{margin}", "{difference}±{margin}/{reach}"),
    ("1 - math.floor(math.log10(margin))", "-math.floor(math.log10(margin))"), ('"\\n".join(lines)', '"\\n".join(lines[:-1])'),
    ('1 if it.measure == "goodput" else -1', "1"), ("sign * it.difference / it.margin))", "sign * it.difference))"),
    ("sign * (it.difference + side * it.reach) / it.margin", "sign * (it.difference + side * it.margin) / it.margin"), ("REACH = 4 ", "REACH = 5 "),
    ("COLOURS[it.verdict]\n        words", 'COLOURS["same"]\n        words'), ("it.verdict, size=11, colour=colour", '"same", size=11, colour=colour'),
    ("it.difference - it.reach, it.difference + it.reach, it.margin", "it.difference - it.reach, it.difference + it.reach, it.reach"),
    ("it.difference - it.reach, it.difference + it.reach, it.margin", "it.difference + it.reach, it.difference - it.reach, it.margin"),
    ("seconds / 4", "seconds / 2"), ("words, came in known if came", "words, came in known if not came"), ('"short", "mixed")\n\n', '"short")\n\n'), ("if wrong else [", "if not wrong else ["),
    ("float.__ge__(*", "float.__le__(*"),
    ('it.scenario in UNLIKE and it.measure == "wait"', "it.scenario in UNLIKE"), ('it.scenario != "slow")', 'it.scenario != "two")'),
    ("if verdict != wanted}", 'if verdict not in (wanted, "open")}'), ('("half", "far", "goodput")', '("half", "trips", "goodput")'),
    ('"slowrules", "wait")', '"tworules", "wait")'), ('it.measure in ("wait", "wait99")', 'it.measure == "wait"'),
    ('(True, False): "yes", (False, True): "no"', '(True, False): "no", (False, True): "yes"'), ('(True, True): "it depends"', '(True, True): "yes"'),
    ('"not decided" if counts["open"] else "no difference"', '"no difference"'),
    ('counts["better"] > 0, counts["worse"] > 0', 'counts["better"] > 1, counts["worse"] > 0'),
    ('for verdict in ("better", "worse") if counts[verdict]]', 'for verdict in ("better",) if counts[verdict]]'),
    ("for it in found if it.verdict == verdict]", 'for it in found if it.verdict in (verdict, "open")]'),
    ('("stamp", "red", ALL)', '("stamp", "codel", ALL)'), ('("exchanged alone", "pie-", "pie")', '("exchanged alone", "pie-all-", "pie-all")'),
    ('it.verdict in ("better", "worse")] for rule', 'it.verdict in ("better",)] for rule'),
    ("pair_of(found, 'stamp', 'pie-all')", "pair_of(found, 'stamp', 'pie')"),
    ('(queue, "pie-all" if "all-" in queue else "pie", RULES_SCENARIOS)', '(queue, "pie", RULES_SCENARIOS)'),
    ('for queue in ("tail", "pfifo")))', 'for queue in ("pfifo", "tail")))'), ('blocks_of("tail")) for queue', 'blocks_of("tail") - 1) for queue'),
    ("MOST_NAMES = 6 ", "MOST_NAMES = 5 "), ("{counts['better']} better, {counts['worse']} worse", "{counts['worse']} better, {counts['better']} worse"),
    ("WORTH = QUESTIONS[:5]", "WORTH = QUESTIONS[1:5]"), ("{len(rows.found):,} of", "{len(rows.found) + 1:,} of"),
    ("{sum(map(rows.is_complete, question.scenarios))} of", "{len(question.scenarios)} of"), ("{rows.blocks[name]} of", "{it.blocks} of"),
    ("judge(found, question.planned())", "judge(found, len(found))"), ('if it != "short" or SCENARIOS[name].options.short', 'if it != "short"'),
]


def refused(module, rows):
    """Returns what the script says as it refuses rows, or nothing."""
    try:
        module.Rows(rows)
    except SystemExit as why:
        return str(why.code)
    return ""


def check_repository():
    """The pages of the repository are those of the stored rows."""
    with lzma.open(ROOT / "bench/uml/queues.csv.xz", "rt", newline="") as file:
        rows = list(csv.DictReader(file))
    check(all(row["version"] in PLAN for row in rows), "a stored row has another version than the plan")
    results, readme = (ROOT / "docs/RESULTS.md").read_text(), (ROOT / "README.md").read_text()
    page = results.split("## What to choose\n")[1].split("\n## ")[0]
    worth = readme.split("<!-- by docs/results.py -->\n")[1].split("<!-- to here -->")[0]
    pictures = {file.name: file.read_text() for file in (ROOT / "docs").glob("question_*.svg")}
    expected = Expected(rows)
    wrong = faults(expected, page, worth, (ROOT / "docs/comparisons.csv").read_text(), pictures)
    check(not wrong, f"the pages are not those of the stored rows: {wrong[:5]}")
    check(f"{expected.stored()} are stored" in " ".join(page.split()), f"RESULTS does not say that {expected.stored()} are stored")
    # README's four flows: the plan's blocks of tail drop, or until they are there the later part of the older runs that all queues have
    if expected.is_whole["four"]:
        four = [[mean([float(expected.rows["four", queue, block][field]) for block in (1, 2, 3)]) for queue in ("tail", "stamp")] for field in ("wait", "goodput")]
    else:
        with lzma.open(ROOT / "bench/uml/results.csv.xz", "rt", newline="") as file:
            older = [row for row in csv.DictReader(file) if (row["scenario"], float(row["from"]), float(row["to"])) == ("four", 4, 12)]
        blocks = set.intersection(*({row["block"] for row in older if row["queue"] == queue} for queue in {row["queue"] for row in older}))
        four = [[mean([float(row[field]) for row in older if row["queue"] == queue and row["block"] in blocks]) for queue in ("tail", "stamp")]
                for field in ("wait", "goodput")]
    (waits, carried), words = four, " ".join(worth.split())
    for says in (f"a packet waits {waits[0]:.0f} ms on average with tail drop and {waits[1]:.0f} ms with PIE",
                 f"The goodput is {carried[0]:.2f} and {carried[1]:.2f} Mbit/s"):
        check(says in words, f"README does not say: {says}")
    print(f"{NAME}: {expected.stored()}, {sum(map(len, expected.questions.values()))} comparisons")


def check_invented():
    text = SCRIPT.read_text()
    script = loaded(text)
    missing = ["four", "many", "mixed", "slowrules", "step", "udp"]
    cases = [invented(1), invented(2, missing), at_the_edge(), invented(3, by_name=as_predicted), invented(4, by_name=nearly), invented(4, EVERY[:-1])]
    every = [(rows, Expected(rows)) for rows in cases]
    for rows, expected in every:
        wrong = faults(expected, *printed_by(script, rows))
        check(not wrong, f"docs/questions.py: {len(wrong)} differences: {wrong[:5]}")
    found = [it.verdict for _, expected in every[:2] for judged in expected.questions.values() for it in judged]
    check(min(map(found.count, ("better", "worse", "same", "open"))) > 50, f"the invented rows have too few of a verdict: {set(found)}")
    edges = ("far", "trips", "step")        # (the scenarios of question 8)
    check(all(it.verdict == ("open" if number == 8 else "same") for number, judged in every[2][1].questions.items() for it in judged
              if number == 8 or it.scenario not in edges),
          "equal queues are not all `same`, or a comparison at the edge is not `open`")
    check([len(every[place][1].wrong_predictions()[0]) for place in (3, 4)] == [0, 1], "the predictions of the cases for them")
    found = 0
    for right, wrong in PLANTS:
        check(text.count(right) >= 1, f"docs/questions.py has no such text: {right}")
        finding = ""
        try:
            module = loaded(text.replace(right, wrong))
            for rows, expected in every:
                finding = finding or next(iter(faults(expected, *printed_by(module, rows))), "")
        except (Exception, SystemExit) as why:  # noqa: BLE001 (a planted fault may end the script)
            finding = f"{type(why).__name__}: {why}"
        check(finding, f"a planted fault is not found: {wrong} in place of {right}")
        found += bool(finding)
        if "--plants" in sys.argv:
            print(f"{wrong!r}: {finding[:160]}")
    rows = cases[0]
    for changed, word in ((rows + rows[:1], "two rows"), ([rows[0] | {"version": "two"}, *rows[1:]], "versions"), ([rows[0] | {"queue": "none"}], "not a run")):
        check(word in refused(script, changed), f"rows pass: {word}")
    print(f"{NAME}: {found} of {len(PLANTS)} planted faults are found")


check(len(KEYS) == 2400, f"the plan has {len(KEYS)} runs")
for freedom, t in ((3, 2.353363), (7, 1.894579), (11, 1.795885), (23, 1.713872)):      # (from published tables)
    check(abs(t95(freedom) - t) < 2e-6, f"Student's t with {freedom} degrees of freedom is exceeded at {t95(freedom)}, not {t}")
check_repository()
check_invented()
finish()
