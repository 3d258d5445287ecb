#!/usr/bin/env python3
"""Compares the words of `pie explain` with the records of `pie explain --csv` for each considered arrival of the
traces of tests/rows/choices.txt.xz. If sizes scale the probability, the words contain the scaled value: floor(probability x
size / mean_pkt) for a packet below mean_pkt. They contain the accumulated probability, with this packet's part,
only if probabilities accumulate: never with `random`. The exit status is 1 if something differs.

usage: tests/program/scaled_words.py [PROGRAM]      PROGRAM: crates/pie/out/pie by default
needs: program
"""
import os
import re
import sys

sys.path.insert(0, f"{os.path.dirname(os.path.abspath(__file__))}/../shared")
from checks import NAME, expect, rows  # noqa: E402
from explaining import pie, records  # noqa: E402

TOLD = re.compile(r"  the probability, (.*), is scaled to (.*) for a packet of this size\n")
SUM = re.compile(r"  the accumulated probability, with this one, is (.*?)(?:, below 85 %|, at least 850 %)?\n")
COMPARED = re.compile(r"is (?:not )?below (the probability|the scaled probability), (.*)\n")
CONSIDERED = ("no_probability", "little_accumulated", "picked_by", "word_not_below")


def per_cent(part):
    return f"{part // 10**10}.{part % 10**10 // 10**6:04} %"


def hold(name, history):
    """Compares the words with the records. Returns the number of packets whose words contained the
    scaled probability, and of those with the accumulated probability."""
    _, rows, _ = records(name, history)
    _, words, _ = pie(history, "--all")
    events = re.split(r"(?m)^event ", words)[1:]
    target_place, mean_place = -9, -4
    opening = history.splitlines()[0].split(",")
    mean, is_scaled, is_random = int(opening[mean_place]), opening[5] == "scaled", opening[3] == "random"
    changed = [line.split(",") for line in history.splitlines() if line.startswith("params,")]
    told = summed = 0
    for row, text in zip(rows, events, strict=True):
        if row["kind"] == "params":
            mean = int(changed.pop(0)[3 + mean_place - target_place])
        prob = int(row["probability"])
        if not row["cause"].startswith(CONSIDERED):
            expect(f"{name}: event {row['number']}", TOLD.findall(text), [])
            continue
        size = int(row["size"])
        counted = prob * size // mean if is_scaled and size < mean else prob
        accumulated = int(row["accumulated_probability"])
        by_sum = row["cause"] == "little_accumulated" or row["cause"].startswith("picked_by_sum")
        sums = [per_cent(accumulated + counted)] if by_sum or ("word" in row["cause"] and accumulated) else []
        expect(f"{name}: event {row['number']}: what was accumulated", SUM.findall(text), sums)
        expect(f"{name}: event {row['number']}: nothing accumulates", is_random and bool(accumulated or sums), False)
        expect(f"{name}: event {row['number']}", TOLD.findall(text), [] if counted == prob else [(per_cent(prob), per_cent(counted))])
        compared = [("the probability" if counted == prob else "the scaled probability", per_cent(counted))]
        expect(f"{name}: event {row['number']}: what the word is compared with", COMPARED.findall(text), compared if "word" in row["cause"] else [])
        told += counted != prob
        summed += len(sums)
    return told, summed


def main():
    texts = {path.stem: path.read_text() for path in sorted((rows() / "choices").glob("*.out"))}
    histories = {name: text for name, text in texts.items() if text.startswith("open3,") and text.splitlines()[0].count(",") > 12}
    counts = [hold(name, text) for name, text in histories.items()]
    told, summed = sum(it[0] for it in counts), sum(it[1] for it in counts)
    expect("histories", told > 0 and summed > 0 and any("random" in name for name in histories), True)
    print(f"{NAME}: {len(histories)} histories: the words have the scaled probability of {told} packets, and the accumulated one of {summed}")


main()
