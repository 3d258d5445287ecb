#!/usr/bin/env python3
"""Prints tables of the records of scenarios.sh. Goodput is in Mbit/s, waits are in ms.

usage: bindings/ns3/table.py RESULTS.csv [full | same | beside | plot | choices] [stamp | random | uncapped | all | scaled]

full    for each scenario a table with a line for each queue: the mean of each figure over the runs,
        with the least and the greatest in brackets
same    two one-sided tests that this repository's PIE and PieQueueDisc are equivalent: in the bytes
        that left the link, within 5 per cent, and in the mean wait, within 2 ms; with their power
        (bench/equivalence.py)
beside  a line for each scenario: this repository's PIE, and PieQueueDisc with de-randomization; then
        all scenarios together. With a name, both queues have another optional element of RFC 8033,
        or all three
plot    the mean waits, for draw.sh
choices for each rate a table of RFC 8033's optional elements, with a line for each choice in each
        scenario that was run with several choices. A line has this repository's PIE, with the
        chances of its differences from the usual elements, and PieQueueDisc, with the chances of its
        differences from this PIE: of the mean wait, then of goodput. A table of all scenarios
        together follows

The comparison was fixed before the runs were made. The runs of the two queues are mixed and divided
again at random, 5,000 times. `chance` is the share of these partitions in which the means differ at
least as much as in the real runs. Below 0.05 the means differ by more than the spread of the runs. Of
a hundred comparisons of a queue with itself, some five have such a chance.

For all scenarios together, the ratio of the two means of each scenario is computed. The mean of the
logarithms of these ratios is compared, with new partitions of the runs of each scenario. A scenario
with fewer than four runs of each queue has no chance of its own, since no partition of six runs is
rarer than one in ten, but it counts for all scenarios together.
"""
import csv
import math
import random
import sys
from collections import defaultdict
from pathlib import Path

sys.path.insert(0, str(Path(__file__).resolve().parents[2] / "bench"))
sys.dont_write_bytecode = True
from equivalence import compare  # noqa: E402

QUEUES = {
    "fifo": "tail drop",
    "recorded": "PIE, this repository",
    "pie": "PieQueueDisc, de-randomized",
    "pie-random": "PieQueueDisc, not de-randomized",
}
CHOICES = {
    "stamp": "by time stamps",
    "random": "not de-randomized",
    "uncapped": "not capped",
    "all": "by time stamps, not de-randomized, not capped",
    "scaled": "scaled by size",
}
FIGURES = {
    "goodput_mbit": "goodput",
    "link_mbit": "link",
    "wait_mean_ms": "wait mean",
    "wait_median_ms": "median",
    "wait_p95_ms": "95th",
    "wait_p99_ms": "99th",
    "early": "early drops",
    "tail": "tail drops",
    "marked": "marks",
}
COMPARED = ("wait_mean_ms", "goodput_mbit")
PARTINGS = 5000
BEYOND = 0.05


def read(path):
    """Returns the records of the runs of each scenario and queue, each seed once."""
    runs = defaultdict(dict)
    with open(path, newline="") as file:
        for record in csv.DictReader(file):
            scenario = tuple(record[name] for name in ("mbit", "flows", "rtt_ms", "ecn", "udp"))
            runs[scenario, record["queue"]][record["seed"]] = record
    return {key: list(by_seed.values()) for key, by_seed in runs.items()}


def values(records, figure):
    return [float(record[figure]) for record in records]


def mean(numbers):
    return sum(numbers) / len(numbers)


def shown(records, figure):
    numbers = values(records, figure)
    digits = 1 if figure.endswith("_mbit") or mean(numbers) < 1 and max(numbers) > 0 else 0
    text = f"{mean(numbers):.{digits}f}"
    if len(numbers) > 1 and min(numbers) < max(numbers):
        text += f" ({min(numbers):.{digits}f} to {max(numbers):.{digits}f})"
    return text


def name_of(scenario):
    mbit, flows, rtt, ecn, udp = scenario
    text = f"{mbit} Mbit/s, {flows} {'flow' if flows == '1' else 'flows'}, {rtt} ms"
    return text + (", ECN" if ecn == "1" else "") + (", a UDP burst" if udp != "0" else "")


def ratio(pairs):
    """Returns the mean, over pairs of lists, of the logarithm of the ratio of their means."""
    return mean([math.log(mean(ours) / mean(theirs)) for ours, theirs in pairs])


def chance(pairs):
    """Returns the share of random partitions of each pair's runs whose ratio is at least as far
    from 1 as that of the pairs themselves."""
    dice = random.Random(8033)
    found = abs(ratio(pairs)) - 1e-12
    further = 0
    for _ in range(PARTINGS):
        parted = []
        for ours, theirs in pairs:
            mixed = ours + theirs
            dice.shuffle(mixed)
            parted.append((mixed[: len(ours)], mixed[len(ours) :]))
        further += abs(ratio(parted)) >= found
    return (further + 1) / (PARTINGS + 1)


def name_of_queue(queue):
    if queue in QUEUES:
        return QUEUES[queue]
    kind, choice = queue.split("-")
    return f"{'PieQueueDisc' if kind == 'pie' else QUEUES[kind]}, {CHOICES[choice]}"


def print_full(runs, scenarios):
    queues = dict.fromkeys([*QUEUES, *(f"{kind}-{choice}" for choice in CHOICES for kind in ("recorded", "pie"))])
    for scenario in scenarios:
        print(f"\n{name_of(scenario)}:\n")
        print("| queue | runs | " + " | ".join(FIGURES.values()) + " |")
        print("|---|" + "---|" * (len(FIGURES) + 1))
        for queue in queues:
            records = runs.get((scenario, queue))
            if records:
                print(f"| {name_of_queue(queue)} | {len(records)} | " + " | ".join(shown(records, figure) for figure in FIGURES) + " |")


def figures(ours, theirs, fifo, figure, is_judged):
    """Returns the cells of one figure, with the chance if there are enough runs."""
    found = chance([(values(ours, figure), values(theirs, figure))]) if is_judged else None
    text = "" if found is None else f"{found:.2f}" if found >= 0.01 else f"{found:.4f}"
    tail = f"{mean(values(fifo, figure)):.{1 if figure == 'goodput_mbit' else 0}f}" if fifo else ""
    return [tail, shown(ours, figure), shown(theirs, figure), f"**{text}**" if found is not None and found < BEYOND else text], found


def print_together(runs, beside, compared, name):
    for figure in COMPARED:
        pairs = [tuple(values(runs[scenario, queue], figure) for queue in beside) for scenario in compared]
        print(f"{name}, {len(pairs)} scenarios together: {FIGURES[figure]} here is {math.exp(ratio(pairs)):.3f} times that of PieQueueDisc, "
              f"chance {chance(pairs):.4f}.")


def print_beside(runs, scenarios, choice=None):
    """Prints a line for each scenario. With fewer than four runs of each queue no partition is
    rarer than one in ten, so such a scenario has no chance of its own."""
    beside = beside_of(choice)
    counts = {it: [len(runs.get((it, queue), [])) for queue in beside] for it in scenarios}
    compared = [it for it in scenarios if min(counts[it]) > 0]
    print("| scenario | runs | wait, tail drop | wait, here | wait, PieQueueDisc | chance | goodput, tail drop | goodput, here "
          "| goodput, PieQueueDisc | chance |")
    print("|---|" + "---|" * 9)
    chances = []
    for scenario in compared:
        queues = [runs.get((scenario, queue), []) for queue in (*beside, "fifo")]
        line = [name_of(scenario), ", ".join(str(it) for it in sorted(set(counts[scenario])))]
        for figure in COMPARED:
            cells, found = figures(*queues, figure, min(counts[scenario]) >= 4)
            line += cells
            chances += [] if found is None else [found]
        print("| " + " | ".join(line) + " |")
    beyond = sum(it < BEYOND for it in chances)
    print(f"\n{beyond} of {len(chances)} comparisons are beyond the spread; {BEYOND * len(chances):.1f} would be by chance alone.")
    for rate in dict.fromkeys(it[0] for it in compared):
        print_together(runs, beside, [it for it in compared if it[0] == rate], f"{rate} Mbit/s")
    print_together(runs, beside, [it for it in compared if it[3] == "0"], "Without ECN")
    print_together(runs, beside, compared, "All")


def beside_of(choice):
    """Returns this repository's queue of a choice, and that of ns-3 beside it. With a limit in
    bytes PieQueueDisc always scales."""
    return (f"recorded-{choice}", "pie" if choice == "scaled" else f"pie-{choice}") if choice else ("recorded", "pie")


def chances_of(ours, theirs):
    """Returns the chance of a difference in each compared figure, as a cell; it is empty if there
    are too few runs, or if the runs are the same."""
    if ours is theirs or min(len(ours), len(theirs)) < 4:
        return ""
    found = [chance([(values(ours, figure), values(theirs, figure))]) for figure in COMPARED]
    return ", ".join(f"**{it:.2g}**" if it < BEYOND else f"{it:.2f}" for it in found)


def print_choice(runs, scenario, choice, name):
    usual = runs[scenario, "recorded"]
    ours, theirs = [runs.get((scenario, queue), []) for queue in beside_of(choice)]
    if not ours or not theirs:
        return
    shares = [shown(ours, figure) for figure in ("wait_mean_ms", "wait_p99_ms", "goodput_mbit", "early", "tail", "marked")]
    counts = ", ".join(str(it) for it in sorted({len(ours), len(theirs)}))
    cells = [name, CHOICES[choice] if choice else "usual", counts, *shares, chances_of(ours, usual)]
    print("| " + " | ".join([*cells, shown(theirs, "wait_mean_ms"), shown(theirs, "goodput_mbit"), chances_of(ours, theirs)]) + " |")


def together(runs, scenarios, queues):
    """Returns the ratios of two queues' means over the scenarios that both have, with their chance:
    mean wait, and goodput."""
    both = [it for it in scenarios if all((it, queue) in runs for queue in queues)]
    cells = []
    for figure in COMPARED if both else ():
        pairs = [tuple(values(runs[it, queue], figure) for queue in queues) for it in both]
        cells.append(f"{math.exp(ratio(pairs)):.2f} ({chance(pairs):.2g})")
    return cells or ["", ""]


def print_choices(runs, scenarios):
    scenarios = [it for it in scenarios if any((it, f"recorded-{choice}") in runs for choice in CHOICES)]
    for rate in dict.fromkeys(it[0] for it in scenarios):
        print(f"\n{rate} Mbit/s:\n")
        print("| scenario | elements | runs | wait | wait 99th | goodput | early drops | tail drops | marks | chance beside usual "
              "| wait, PieQueueDisc | goodput, PieQueueDisc | chance beside it |")
        print("|---|" + "---|" * 12)
        for scenario in scenarios:
            name = name_of(scenario).split(", ", 1)[1]
            for choice in (None, *CHOICES) if scenario[0] == rate else ():
                print_choice(runs, scenario, choice, name if choice is None else "")
    print("\nAll scenarios above together, as ratios of mean wait and of goodput, with the chance of each:\n")
    print("| elements | wait, beside usual | goodput | wait, PieQueueDisc beside its usual | goodput | wait, here beside PieQueueDisc | goodput |")
    print("|---|" + "---|" * 6)
    for choice in CHOICES:
        ours, theirs = beside_of(choice)
        queues = [(ours, "recorded"), (theirs, "pie"), (ours, theirs)]
        cells = [cell for pair in queues for cell in together(runs, scenarios, pair)]
        print(f"| {CHOICES[choice]} | " + " | ".join(cells) + " |")


def print_same(runs, scenarios, choice=None):
    """Prints, for each scenario, the rate at the link and the mean wait, tested for equivalence,
    also for the changed PieQueueDisc if it was run."""
    ours, theirs = beside_of(choice)
    behind = f"-{choice}" if choice else ""
    others = {theirs: "PieQueueDisc", f"pie-mark{behind}": "its marks changed", f"pie-mark-burst{behind}": "and its bursts"}
    print("| scenario | runs | of | here | beside | theirs | difference, 90 % interval | verdict | power |\n|" + "---|" * 9)
    for scenario in scenarios:
        for queue, name in others.items():
            both = [runs.get((scenario, it), []) for it in (ours, queue)]
            if min(map(len, both)) < 2:
                continue
            for figure in ("link_mbit", "wait_mean_ms"):
                one, other = (values(it, figure) for it in both)
                margin = 0.05 * mean(other) if figure == "link_mbit" else 2.0
                difference, least, most, verdict, power = compare(one, other, margin)
                print(f"| {name_of(scenario)} | {len(one)}, {len(other)} | {FIGURES[figure]} | {shown(both[0], figure)} | {name} "
                      f"| {shown(both[1], figure)} | {difference:.2f} ({least:.2f} to {most:.2f}) | {verdict} | {power:.2f} |")


def print_plot(runs, scenarios):
    """Prints, for each scenario, its rate, its place among those of this rate, its name, and the
    mean, least and greatest of each queue."""
    for rate in dict.fromkeys(scenario[0] for scenario in scenarios):
        for place, scenario in enumerate(it for it in scenarios if it[0] == rate):
            name = "\\n".join(name_of(scenario).split(", ")[1:])
            cells = []
            for queue in QUEUES:
                numbers = values(runs.get((scenario, queue), []), "wait_mean_ms") or [math.nan]
                cells += [mean(numbers), min(numbers), max(numbers)]
            print(rate, place, f'"{name}"', *cells)


def main():
    runs = read(sys.argv[1])
    scenarios = sorted({scenario for scenario, _ in runs}, key=lambda it: (float(it[0]), it[3], it[4], float(it[2]) != 40, float(it[2]), int(it[1])))
    kinds = {"full": print_full, "same": print_same, "beside": print_beside, "choices": print_choices, "plot": print_plot}
    kinds[sys.argv[2] if len(sys.argv) > 2 else "full"](runs, scenarios, *sys.argv[3:])


main()
