#!/usr/bin/env python3
"""Compares each ratio in the tables of docs/PERFORMANCE.md with the two figures before it in its row. The page says that a ratio compares the
medians, and the ratio in brackets the least figures. A ratio must lie between the least and the greatest quotient that the rounded figures allow.
A section in which ratios are medians of those of the runs says so, and is left out.

The tables of times in TIMES are those of the rows in bench/times.csv.xz, which PIE_ROWS of bench/ratios.py stores. A ratio there is that of the medians,
and has a 95 % interval: the ratios of the medians of runs that are drawn from these runs again and again, both sides of a run together.

The table of a packet's instructions through DPDK is that of bench/dpdk_counts.csv, and the counts of the library for C are those of
bench/pie_c_count.txt.
usage: tests/documents/performance.py [--write]     --write: writes the tables of DPDK and of times
needs: nothing"""
import csv
import itertools
import lzma
import os
import random
import re
import statistics
import sys

sys.path.insert(0, f"{os.path.dirname(os.path.abspath(__file__))}/../shared")
from checks import NAME, ROOT, check, finish  # noqa: E402

PAGE = "docs/PERFORMANCE.md"
FIGURE = re.compile(r"(\d+(?:\.\d+)?)(?: ns)?(?: \((\d+(?:\.\d+)?)\))?")


def bounds(text):
    """Returns the least and the greatest number that is rounded to this text."""
    half = 0.5 * 10 ** -len(text.partition(".")[2])
    return float(text) - half, float(text) + half


def agrees(ratio, here, other):
    (low, high), (here_low, here_high), (other_low, other_high) = bounds(ratio), bounds(here), bounds(other)
    return low <= here_high / other_low and here_low / other_high <= high


def ratios_of(section):
    """Returns (row, ratio, here, other) for each ratio of a section's tables whose two figures stand before it."""
    names = []
    for line in section.splitlines():
        cells = [cell.strip() for cell in line.strip("|").split("|")] if line.startswith("|") else []
        if not cells:
            names = []
        elif not names:
            names = cells
        else:
            for at in (at for at, name in enumerate(names) if name == "ratio" and at >= 2 and at < len(cells)):
                found = [FIGURE.fullmatch(cells[place]) for place in (at, at - 2, at - 1)]
                if all(found):
                    yield from ((line, *part) for part in zip(*(it.groups() for it in found)) if all(part))


KINDS = {"rte_pie": "rte_pie", "kept": "rte_pie and events in C", "added": "rte_pie and sums in C", "dropping": "the stage without marks", "stage": "the stage",
         "flight": "the stage and its flight recorder", "summed": "the stage and records of intervals"}
TABLE = re.compile(r"(?<=<!-- by tests/documents/performance.py -->\n).*?(?=<!-- to here -->)", re.S)


def dpdk_table():
    """Returns the instructions of an arriving packet by probability, and in brackets the share of packets that were dropped."""
    with open(ROOT / "bench/dpdk_counts.csv", newline="") as file:
        rows = {(row["through"], row["percent"]): row for row in csv.DictReader(file)}
    percents = sorted({percent for _, percent in rows}, key=int)
    lines = ["| through | " + " | ".join(f"{percent} %" for percent in percents) + " |", "|---" * (1 + len(percents)) + "|"]
    for kind, words in KINDS.items():
        cells = []
        for percent in percents:
            row = rows.get((kind, percent))
            cell = f"{int(row['instructions']) / int(row['arrived']):.0f}" if row else ""
            cells.append(cell + (f" ({100 * int(row['dropped']) / int(row['arrived']):.1f})" if row and row["dropped"] != "0" else ""))
        lines.append(f"| {words} | {' | '.join(cells)} |")
    return "\n".join(lines) + "\n"


# the head of a table, the number of its runs, and the names of its rows in bench/times.csv.xz
TIMES = {
    "| per event | here | C, decided only | ratio |": (9, [(name, "c_book_decided") for name in (
        "book_decided", "book_recorded_bounded", "book_recorded_rolling", "c_book_recorded_bounded", "c_book_recorded_rolling")]),
    "| measured; compared with | library | the other | ratio |": (28, [
        ("arrive_library", "arrive_c"), ("arrive_library", "arrive_c_checked"), ("depart_library", "depart_c"), ("depart_library", "depart_c_checked"),
        ("update_library", "update_c"), ("stream_library", "stream_none"), ("stream_library", "stream_c"), ("stream_library", "stream_dpdk")])}


DRAWS = 400


def ratio_of(runs):
    """Returns the ratio of the medians of runs; each has the values of both sides."""
    ours, theirs = (statistics.median(itertools.chain(*them)) for them in zip(*runs))
    return ours / theirs


def interval(runs):
    """Returns the 95 % interval of the ratio of medians."""
    dice = random.Random(len(runs))
    found = sorted(ratio_of(dice.choices(runs, k=len(runs))) for _ in range(DRAWS))
    return found[DRAWS // 40], found[-1 - DRAWS // 40]


def time_cells(rows, count, here, other):
    """Returns the cells of a row: the median in ns of each side with its least value, and the ratio of the medians with its interval. A run has several
    rounds, which follow each other."""
    sides = [[float(row["value"]) for row in rows if row["name"] == name] for name in (here, other)]
    runs = [[them[place * len(them) // count:(place + 1) * len(them) // count] for them in sides] for place in range(count)]
    low, high = interval(runs)
    return [*(f"{statistics.median(them):.1f} ns ({min(them):.1f})" for them in sides), f"{ratio_of(runs):.2f} ({low:.2f} to {high:.2f})"]


def with_times(page):
    """Returns the page with the figures of the stored rows in the tables of times."""
    with lzma.open(ROOT / "bench/times.csv.xz", "rt", newline="") as file:
        rows = list(csv.DictReader(file))
    lines = page.split("\n")
    for head, (count, pairs) in TIMES.items():
        check(head in lines, f"{PAGE} has no table {head}")
        first = lines.index(head) + 2
        for at, pair in enumerate(pairs, first):
            check(lines[at].startswith("| ") and lines[at].count("|") == 5, f"{PAGE}: no row of the table {head}: {lines[at]}")
            lines[at] = "| ".join([*lines[at].split("| ")[:2], " | ".join(time_cells(rows, count, *pair)) + " |"])
    return "\n".join(lines)


def check_times(page):
    sample = [{"name": name, "value": value} for name, values in {"a": "234567892", "b": "468246825"}.items() for value in values]
    *cells, ratio = time_cells(sample, 9, "a", "b")
    check(cells == ["5.0 ns (2.0)", "5.0 ns (2.0)"] and ratio.startswith("1.00 ("), f"the cells of a sample are wrong: {cells}, {ratio}")
    # runs of two equal sides, and runs whose ratio is 2 in all but four: the interval of the median of 100
    alike, unlike = [[[it], [it]] for it in range(1, 30)], [[[2.0], [1.0]]] * 96 + [[[9.0], [1.0]]] * 4
    check(interval(alike) == (1, 1) and interval(unlike) == (2, 2), "the interval of a ratio is wrong")
    low, high = interval([[[1 + it / 1000], [1.0]] for it in range(101)])
    check(abs(low - 1.04) < 0.012 and abs(high - 1.06) < 0.012, f"the interval of a ratio of 1.05 is {low} to {high}")
    for line, wanted in zip(page.split("\n"), with_times(page).split("\n")):
        check(line == wanted, f"{PAGE}: bench/times.csv.xz gives {wanted}: {line}")


# the sentences about counts of the library for C, with the names of bench/pie_c_count.txt
COUNTED = ["{update} for an update, {write_event} for the text of a record; at a link {link_arrive} for an arrival and {link_depart} for a departure",
           "An update takes {update_too_soon} of its {update} instructions to check the state"]


def check_counts(page):
    check(TABLE.findall(page) == [dpdk_table()], f"{PAGE}: the table of DPDK is not that of bench/dpdk_counts.csv; --write writes it")
    counts = dict(line.split() for line in (ROOT / "bench/pie_c_count.txt").read_text().splitlines())
    for sentence in COUNTED:
        check(sentence.format(**counts) in " ".join(page.split()), f"{PAGE} does not say: {sentence.format(**counts)}")


def main():
    page = (ROOT / PAGE).read_text()
    if "--write" in sys.argv:
        (ROOT / PAGE).write_text(with_times(TABLE.sub(lambda _: dpdk_table(), page)))
        return
    check_counts(page)
    check_times(page)
    sections = [it for it in re.split(r"^##+ ", (ROOT / PAGE).read_text(), flags=re.M) if "Ratios are medians" not in it]
    tried = 0
    for row, ratio, here, other in (it for section in sections for it in ratios_of(section)):
        tried += 1
        check(agrees(ratio, here, other), f"{PAGE}: {here} to {other} is {float(here) / float(other):.2f}, and not {ratio}: {row}")
    check(tried > 12, f"{PAGE}: only {tried} ratios were found")
    check(not agrees("1.46", "40.5", "31.0"), "a wrong ratio passes")
    print(f"{NAME}: {tried} ratios of {PAGE} are the quotients of their figures")


main()
finish()
