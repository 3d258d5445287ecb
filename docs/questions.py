#!/usr/bin/env python3
"""Answers the questions of bench/uml/PLAN.md, section Queues, by the rows of bench/uml/queues.csv.xz: for each question one sentence, one table and one
picture. A scenario has verdicts if all of its planned blocks are stored, and a question has an answer if all of its scenarios have verdicts; otherwise the
text has the number of blocks. docs/results.py writes the pages.

usage: docs/questions.py ROWS FOLDER     writes what the rows of a file give, to FOLDER: answers.md,
                              progress.md, sections.md, readme.md, comparisons.csv, question_N.svg

A comparison is that of a measure of two queues in a scenario, paired by block. Its 90 % interval is Student's. The verdict is `same` if the interval
is within the margin, `better` or `worse` if it is beyond the margin and the difference remains so with Holm's correction over all planned comparisons of
the question, and otherwise `open`."""
import argparse
import csv
import functools
import lzma
import math
import sys
from pathlib import Path
from statistics import fmean, variance

ROOT = Path(__file__).resolve().parents[1]
sys.path[:0] = [str(ROOT / "docs"), str(ROOT / "bench"), str(ROOT / "bench/uml")]
sys.dont_write_bytecode = True
from beside import RULES  # noqa: E402
from curves import text_at  # noqa: E402
from equivalence import LEVEL, student, student_quantile  # noqa: E402
from queues import ALL, EXCHANGED, RULES_SCENARIOS, SCENARIOS, expected_keys, key_of  # noqa: E402

NAMES = {"half": "`--decay half`", "rate": "`--delay rate`", "fq_codel": "`fq_codel`", "cake": "`cake besteffort`", "fq_pie": "`fq_pie`"}
WORDS = {"goodput": "goodput, Mbit/s", "wait": "mean wait, ms", "wait99": "99th percentile of waits, ms", "short": "median time of a short flow, ms"}
CLAUSES = {"goodput": "goodput", "wait": "mean wait", "wait99": "99th percentile of waits", "short": "short flows"}
COLOURS = {"better": "#2e7d32", "worse": "#b03030", "same": "#2060a0", "open": "#999999"}
REACH = 4       # margins that a picture reaches to each side
MOST_NAMES = 6  # scenarios that a sentence names
# scenarios whose flows differ: in congestion control, in round trip, or in length
UNLIKE = ("bbrcubic", "udp", "trips", "burst", "short", "mixed")


class Question:
    """A question of the plan: pairs of queues, the first of which is judged, each with its scenarios."""

    def __init__(self, number, words, *pairs):
        self.number, self.words, self.pairs = number, words, pairs
        self.scenarios = list(dict.fromkeys(name for _, _, names in pairs for name in names))

    def planned(self):
        """Returns the number of comparisons."""
        return sum(len(measures_of(name)) for _, _, names in self.pairs for name in names)


QUESTIONS = [
    Question(1, "In place of Linux's `pie`?", ("stamp", "pie", ALL)),
    Question(2, "In place of `codel`?", ("stamp", "codel", ALL)),
    Question(3, "In place of RED?", ("stamp", "red", ALL)),
    Question(4, "In place of `fq_codel`?", ("stamp", "fq_codel", ALL)),
    Question(5, "In place of `cake`?", ("stamp", "cake", ALL)),
    Question(6, "In place of `fq_pie`?", ("stamp", "fq_pie", ALL)),
    Question(7, "A mark in place of a drop?", ("ecn", "stamp", ["four", "far", "many", "udp"])),
    Question(8, "Optional elements?", ("half", "stamp", ["far", "trips"]), ("rate", "stamp", ["step"])),
    Question(9, "Why does `pie` differ?",
             *((queue, "pie-all" if "all-" in queue else "pie", RULES_SCENARIOS) for queue in EXCHANGED if queue != "pie"),
             ("stamp", "pie-all", RULES_SCENARIOS)),
]
WORTH = QUESTIONS[:5]       # those whose answers README repeats
# a share of the other queue's mean, and the least margin in ms
MARGINS = {"goodput": (0.01, 0), "wait": (0.1, 1), "wait99": (0.1, 2), "short": (0.1, 0)}


def measures_of(name):
    """Returns the measures that are compared in a scenario."""
    return [it for it in MARGINS if it != "short" or SCENARIOS[name].options.short]


class Rows:
    """The rows by scenario, queue and block. They have one version, and each run is there at most once."""

    def __init__(self, rows):
        versions = {row["version"] for row in rows}
        if len(versions) > 1:
            sys.exit(f"docs/questions.py: the rows have {len(versions)} versions: {'; '.join(sorted(versions))}")
        self.found = {}
        for row in rows:
            if key_of(row) in self.found:
                sys.exit(f"docs/questions.py: two rows of {key_of(row)}")
            self.found[key_of(row)] = row
        if strange := self.found.keys() - expected_keys():
            sys.exit(f"docs/questions.py: not a run of the plan: {min(strange)}")
        self.blocks = {name: sum(all((name, queue, block) in self.found for queue in it.queues if block <= it.blocks_of(queue))
                                 for block in range(1, it.blocks + 1)) for name, it in SCENARIOS.items()}

    def is_complete(self, *names):
        return all(self.blocks[name] == SCENARIOS[name].blocks for name in names)

    def values(self, name, queue, measure, blocks):
        return [float(self.found[name, queue, block][measure]) for block in range(1, blocks + 1)]


class Comparison:
    """A measure of two queues in a scenario: the difference, its interval and its margin. `share` is the probability of such a difference or a
    greater one if the queues differ by the margin."""

    def __init__(self, scenario, measure, one, other, ours, theirs):
        self.scenario, self.measure, self.one, self.other = scenario, measure, one, other
        differences = [it - their for it, their in zip(ours, theirs, strict=True)]
        self.blocks, self.ours, self.theirs, self.difference = len(differences), fmean(ours), fmean(theirs), fmean(differences)
        part, least = MARGINS[measure]
        self.margin = max(part * self.theirs, least)
        error, freedom = math.sqrt(variance(differences) / self.blocks), self.blocks - 1
        self.reach = student_quantile(1 - LEVEL, freedom) * error
        beyond = abs(self.difference) - self.margin
        self.share = (1 - student(beyond / error, freedom)) if error else float(beyond <= 0)
        self.verdict = "same" if abs(self.difference) + self.reach < self.margin else "open"

    def excludes_0(self):
        return abs(self.difference) > self.reach

    def is_good(self):
        return (self.difference > 0) == (self.measure == "goodput")


def judge(comparisons, planned):
    """Gives `better` and `worse` by Holm's correction: the least share is compared with 5 % over the number of planned comparisons, the next with 5 %
    over one less, and so on until one is greater. Comparisons that are still missing count as those with the greatest shares, so that none of these
    verdicts changes when the missing ones come."""
    for place, it in enumerate(sorted(comparisons, key=lambda it: it.share)):
        if it.share > LEVEL / (planned - place):
            return
        it.verdict = "better" if it.is_good() else "worse"


def read(file):
    with lzma.open(file, "rt", newline="") if str(file).endswith(".xz") else open(file, newline="") as text:
        return list(csv.DictReader(text))


@functools.cache
def compared(rows, question):
    """Returns the comparisons of a question in scenarios that are complete, with their verdicts."""
    found = []
    for one, other, names in question.pairs:
        for name in filter(rows.is_complete, names):
            for measure in measures_of(name):
                ours, theirs = (rows.values(name, queue, measure, SCENARIOS[name].blocks) for queue in (one, other))
                found.append(Comparison(name, measure, one, other, ours, theirs))
    judge(found, question.planned())
    return found


def shown(number, margin):
    """Returns a number with the digits that its margin needs."""
    text = f"{number:.{max(0, 1 - math.floor(math.log10(margin))) if margin else 3}f}"
    return text[1:] if float(text) == 0 and text.startswith("-") else text


def cell(it):
    ours, theirs, difference, reach, margin = (shown(number, it.margin) for number in (it.ours, it.theirs, it.difference, it.reach, it.margin))
    return f"{ours}/{theirs}, {difference}±{reach}/{margin}, **{it.verdict}**"


def where(found, verdict):
    """Names the scenarios with a verdict, or returns their number if they are many."""
    names = [f"`{it.scenario}`" for it in found if it.verdict == verdict]
    return ", ".join(names) if len(names) <= MOST_NAMES else f"{len(names)} of {len(found)}"


def clause(found, measure, is_short=False):
    """Returns the answer by one measure, with its evidence."""
    these = [it for it in found if it.measure == measure]
    counts = {verdict: sum(it.verdict == verdict for it in these) for verdict in COLOURS}
    word = {(True, True): "it depends", (True, False): "yes", (False, True): "no"}.get(
        (counts["better"] > 0, counts["worse"] > 0), "not decided" if counts["open"] else "no difference")
    if is_short:
        return f"{CLAUSES[measure]} {word} ({counts['better']} better, {counts['worse']} worse of {len(these)})"
    evidence = [f"`{verdict}` in {where(these, verdict)}" for verdict in ("better", "worse") if counts[verdict]]
    evidence += [f"{counts[verdict]} `{verdict}`" for verdict in ("same", "open") if counts[verdict]]
    return f"{CLAUSES[measure]} **{word}** ({'; '.join(evidence)})"


def clauses(found, is_short=False):
    return ", ".join(clause(found, measure, is_short) for measure in MARGINS if any(it.measure == measure for it in found))


def pair_of(found, one, other):
    return [it for it in found if (it.one, it.other) == (one, other)]


def reason(found):
    """Returns the rules whose exchange makes a difference, alone and as the only one that is not exchanged."""
    parts = []
    for words, before, other in (("exchanged alone", "pie-", "pie"), ("if all others are exchanged", "pie-all-", "pie-all")):
        unlike = {rule: [it for it in pair_of(found, before + rule, other) if it.verdict in ("better", "worse")] for rule in RULES}
        named = [f"`{rule}` ({', '.join(f'{it.verdict} {CLAUSES[it.measure]} in `{it.scenario}`' for it in them)})" for rule, them in unlike.items() if them]
        parts.append(f"{words}, {' and '.join(named) or 'no rule'} {'make' if len(named) > 1 else 'makes'} a difference")
    return (f"{'; '.join(parts)}. PIE here beside `pie`: {clauses(pair_of(found, 'stamp', 'pie'))}; beside `pie` with all rules exchanged: "
            f"{clauses(pair_of(found, 'stamp', 'pie-all'))}")


def completed(rows, question):
    return f"{sum(map(rows.is_complete, question.scenarios))} of {len(question.scenarios)} scenarios are complete"


def sentence(rows, question):
    """Returns the answer in one sentence, with its evidence."""
    if not rows.is_complete(*question.scenarios):
        return f"not answered yet: {completed(rows, question)}."
    found = compared(rows, question)
    if question.number == 9:
        return f"{reason(found)}."
    if len(question.pairs) == 1:
        return f"{clauses(found)}."
    return "; ".join(f"{NAMES[one]}: {clauses(pair_of(found, one, other))}" for one, other, _ in question.pairs) + "."


def answers(rows):
    """Returns the list of all answers."""
    return "\n".join(f"- **{it.words}** {sentence(rows, it)}" for it in QUESTIONS)


def progress(rows):
    """Returns for each scenario the number of blocks in which each queue has its run, of those that are planned, in words."""
    return "Blocks: " + ", ".join(f"`{name}` {rows.blocks[name]} of {it.blocks}" for name, it in SCENARIOS.items()) + "."


def stored(rows):
    """Returns the number of runs that are stored, in words."""
    return f"{len(rows.found):,} of {len(expected_keys()):,} runs"


def readme(rows):
    """Returns what README says of the worth: the answers, or the state of the runs if one is missing."""
    if all(rows.is_complete(*it.scenarios) for it in WORTH):
        return ("Waits, goodput and short flows in the scenarios of a [plan](bench/uml/PLAN.md#queues):\n\n"
                + "\n".join(f"- **{it.words}** {clauses(compared(rows, it), is_short=True)}." for it in WORTH))
    return (f"If it is worth more than `pie`, `codel`, RED, `fq_codel` or `cake` is not answered yet: {stored(rows)} of the "
            "[plan](bench/uml/PLAN.md#queues) are stored.")


def chance(found):
    """Returns the number of intervals that exclude 0, and the number that would by chance, in words."""
    return (f"{sum(it.excludes_0() for it in found)} of {len(found)} intervals exclude 0; about {0.1 * len(found):.0f} would if the queues were equal. "
            f"`better` and `worse` hold together with a chance of 95 % (Holm's correction over {len(found)} comparisons).")


def table(found):
    """Returns a row for each pair of queues and scenario, and a column for each measure."""
    columns = [measure for measure in WORDS if any(it.measure == measure for it in found)]
    lines = [f"|scenario|queues|blocks|{'|'.join(WORDS[it] for it in columns)}|", "|---" * (3 + len(columns)) + "|"]
    for key in dict.fromkeys((it.one, it.other, it.scenario) for it in found):
        cells = {it.measure: it for it in found if (it.one, it.other, it.scenario) == key}
        first = next(iter(cells.values()))
        words = "|".join(cell(cells[it]) if it in cells else "" for it in columns)
        lines.append(f"|`{key[2]}`|`{key[0]}/{key[1]}`|{first.blocks}|{words}|")
    return "\n".join(lines)


def picture(found):
    """Draws the interval of each comparison, in margins. To the right is the better side."""
    left, width, line, top = 200, 520, 13, 40
    middle, unit = left + width / 2, width / 2 / REACH
    height = top + line * len(found) + 30
    parts = [f'<svg xmlns="http://www.w3.org/2000/svg" width="{left + width + 90}" height="{height}" font-family="Helvetica, sans-serif">',
             '<rect width="100%" height="100%" fill="white"/>',
             f'<rect x="{middle - unit:.1f}" y="{top - 8}" width="{2 * unit:.1f}" height="{line * len(found) + 6}" fill="#e8eef6"/>',
             text_at(middle, 16, "difference in margins, and its 90 % interval", anchor="middle"), text_at(left, 30, "worse"),
             text_at(left + width, 30, "better", anchor="end")]
    for number in range(-REACH, REACH + 1):
        x = middle + number * unit
        parts.append(f'<path d="M{x:.1f} {top - 8} V{height - 30}" stroke="{"#888888" if number == 0 else "#dddddd"}"/>'
                     + text_at(x, height - 14, str(number), size=11, anchor="middle"))
    several = len({it.other for it in found}) > 1
    for place, it in enumerate(found):
        y, sign = top + line * place + 4, 1 if it.measure == "goodput" else -1
        ends = sorted(middle + unit * max(-REACH, min(REACH, sign * (it.difference + side * it.reach) / it.margin)) for side in (-1, 1))
        dot, colour = middle + unit * max(-REACH, min(REACH, sign * it.difference / it.margin)), COLOURS[it.verdict]
        words = [it.scenario, *([it.one] if it.one != "stamp" else [f"{it.one}/{it.other}"] if several else []), it.measure]
        parts.append(text_at(left - 8, y + 4, " ".join(words), size=11, anchor="end"))
        parts.append(f'<path d="M{ends[0]:.1f} {y} H{ends[1]:.1f}" stroke="{colour}" stroke-width="2"/>'
                     f'<circle cx="{dot:.1f}" cy="{y}" r="3" fill="{colour}"/>' + text_at(left + width + 8, y + 4, it.verdict, size=11, colour=colour))
    return "\n".join([*parts, "</svg>"]) + "\n"


def lost_shares(rows, name):
    """Returns the lost packets with ECN and without, in per cent."""
    shares = []
    for queue in ("ecn", "stamp"):
        these = [row for (scenario, its, _), row in rows.found.items() if (scenario, its) == (name, queue)]
        lost, packets = (sum(int(row[field]) for row in these) for field in ("lost", "packets"))
        shares.append(100 * lost / (lost + packets))
    return shares


def lost_text(rows):
    """Returns the lost packets with and without ECN in scenarios that are complete, in words."""
    parts = [f"`{name}` {' and '.join(f'{it:.2f}' for it in lost_shares(rows, name))}" for name in QUESTIONS[6].scenarios if rows.is_complete(name)]
    return [f"Lost packets with ECN and without, in per cent: {', '.join(parts)}."] if parts else []


# what the plan expects, the question, the verdict, and the comparisons that should have it
EXPECTED = [
    ("PIE here is `same` as `pie` except in `slow`", 1, "same", lambda it: it.scenario != "slow"),
    *((f"PIE here is `worse` than {NAMES[queue]} in the mean wait wherever flows differ ({', '.join(f'`{it}`' for it in UNLIKE)})", number, "worse",
       lambda it: it.scenario in UNLIKE and it.measure == "wait") for number, queue in ((4, "fq_codel"), (5, "cake"), (6, "fq_pie"))),
    ("waits with ECN are `same`", 7, "same", lambda it: it.measure in ("wait", "wait99")),
    ("`half` is `better` in the goodput of `far`", 8, "better", lambda it: (it.one, it.scenario, it.measure) == ("half", "far", "goodput")),
    ("`pie` with all rules exchanged is `same` as PIE here", 9, "same", lambda it: (it.one, it.other) == ("stamp", "pie-all")),
    ("the rule `small`, exchanged alone, makes the waits of `slow` `better`", 9, "better",
     lambda it: (it.one, it.other, it.scenario, it.measure) == ("pie-small", "pie", "slowrules", "wait")),
]
FEWER_LOST = "fewer packets are lost with ECN"


def unmet(rows, number, wanted, is_meant):
    """Returns the verdicts that a prediction did not expect, with their scenarios."""
    found = list(filter(is_meant, compared(rows, QUESTIONS[number - 1])))
    others = {verdict: list(dict.fromkeys(f"`{it.scenario}`" for it in found if it.verdict == verdict)) for verdict in COLOURS if verdict != wanted}
    return ", ".join(f"`{verdict}` in {', '.join(names)}" for verdict, names in others.items() if names)


def predictions(rows):
    """Returns the predictions of the plan that did not come true, with what came, and the number of those that are not decided, in words."""
    known = [(words, unmet(rows, number, wanted, is_meant)) for words, number, wanted, is_meant in EXPECTED
             if rows.is_complete(*QUESTIONS[number - 1].scenarios)]
    if rows.is_complete(*QUESTIONS[6].scenarios):
        more = [f"`{name}`" for name in QUESTIONS[6].scenarios if float.__ge__(*lost_shares(rows, name))]
        known.append((FEWER_LOST, f"not in {', '.join(more)}" if more else ""))
    wrong = [f"- {words}: {came}" for words, came in known if came]
    parts = ["\n".join(wrong)] if wrong else ["Every prediction that is decided came true."] if known else []
    every = len(EXPECTED) + 1
    return parts + [f"{every - len(known)} of {every} predictions are not decided yet."] * (len(known) < every)


def calibrations(rows):
    """Returns the comparisons of tail drop at both bottlenecks in scenarios that are complete."""
    return [Comparison(name, measure, "tail", "pfifo", *(rows.values(name, queue, measure, SCENARIOS[name].blocks_of("tail")) for queue in ("tail", "pfifo")))
            for name in filter(rows.is_complete, ALL) for measure in ("goodput", "wait", "wait99")]


def sections(rows):
    """Returns a section for each question that has verdicts, one for the predictions, and one for tail drop."""
    parts = []
    for it in QUESTIONS:
        if found := compared(rows, it):
            is_whole = rows.is_complete(*it.scenarios)
            parts += [f"### {it.words}", chance(found) if is_whole else f"{completed(rows, it)}; the others have no verdict.", table(found),
                      f"![{it.words}](question_{it.number}.svg)", *(lost_text(rows) if it.number == 7 else [])]
    parts += ["### What was predicted and did not happen", *predictions(rows)]
    if found := calibrations(rows):
        parts += ["### Tail drop at both bottlenecks", table(found)]
    return "\n\n".join(parts)


def pictures(rows):
    """Returns the pictures by name: one for each question that has comparisons."""
    every = {it.number: compared(rows, it) for it in QUESTIONS}
    return {f"question_{number}.svg": picture(found) for number, found in every.items() if found}


def listed(rows):
    """Returns a line of docs/comparisons.csv for each comparison that has a verdict."""
    lines = []
    for words, found in [*((f"question {it.number}", compared(rows, it)) for it in QUESTIONS), ("tail drop", calibrations(rows))]:
        for it in found:
            seconds = SCENARIOS[it.scenario].options.seconds
            measure = "time of a short flow in ms" if it.measure == "short" else it.measure
            lines.append([f"{words}: {it.scenario}", seconds / 4 if it.measure.startswith("wait") else 0, seconds, measure, it.one, it.other, it.blocks,
                          it.difference, it.difference - it.reach, it.difference + it.reach, it.margin, it.verdict])
    return lines


def main():
    parser = argparse.ArgumentParser(usage=__doc__.split("usage: ")[1].split("\n\n")[0])
    parser.add_argument("rows")
    parser.add_argument("folder", type=Path)
    words = parser.parse_args()
    rows = Rows(read(words.rows))
    lines = "".join(",".join(str(it) for it in line) + "\n" for line in listed(rows))
    pages = {"answers.md": answers(rows), "progress.md": progress(rows), "sections.md": sections(rows), "readme.md": readme(rows)}
    for name, text in {**{name: text + "\n" for name, text in pages.items()}, "comparisons.csv": lines, **pictures(rows)}.items():
        (words.folder / name).write_text(text)


if __name__ == "__main__":
    main()
