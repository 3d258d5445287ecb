#!/usr/bin/env python3
"""Audits excerpts: random histories with each optional element, resumed at many places by
tests/shared/reference_resumed.py, which computes the preamble by look-backs over the whole. Each must be clean,
with the number of the whole's last event. Then the texts are damaged: a byte changed, a line removed, two lines
exchanged. The finding and the fault of `pie audit` must be those of the reference, which decides the events from
the numbers of the preamble alone. Each text is also explained, as CSV and in sums: its records must be those of the
whole history after the preamble, number for number. If the preamble does not contain the setter of the probability,
the records say so.

usage: tests/program/resumed.py [PROGRAM [FIRST_SEED [RUNS]]]      PROGRAM: crates/pie/out/pie by default
needs: program
"""
import random
import sys
from pathlib import Path

sys.path.insert(0, str(Path(__file__).resolve().parents[1] / "shared"))
import reference_resumed  # noqa: E402
from checks import check, finish  # noqa: E402
from excerpts import audited, changed, explained, rows_within  # noqa: E402

FIRST, RUNS = ([int(word) for word in sys.argv[2:4]] + [1, 16][len(sys.argv[2:4]) :])[:2]
# The most events of a history, and the distance between two places at which it is resumed.
EVENTS, STEP = 60, 7
# The places at which the sums of an excerpt were compared with those of the whole history.
summed = []


def check_explanations(seed, book, n, text, is_known, whole):
    """Returns true if the explanation of an excerpt after n events has these records of the whole history's
    explanation."""
    header, *records = whole
    wanted_rows = rows_within(whole, n, len(book.events), is_known)
    got = explained(text, "--all")
    check(got == (0, wanted_rows), f"seed {seed}, resumed after event {n}: explained otherwise than the whole")
    if n:
        status, rows = explained(text, "--event", str(n))
        check((status, rows) == (1, [header]), f"seed {seed}, resumed after event {n}: --event {n} ended with {status}")
    if len(book.events) > n:
        at = str(n + 1)
        check(explained(text, "--event", at) == (0, wanted_rows[:2]), f"seed {seed}, resumed after event {n}: --event {at}")
        moment = records[n][header.index("effective_moment")]
        same = explained(reference_resumed.whole_text(book), "--summary", "--from", f"{moment}ns")
        first = next(place for place, record in enumerate(records) if int(record[header.index("effective_moment")]) >= int(moment))
        if first == n:
            summed.append(n)
            check(explained(text, "--summary", "--from", f"{moment}ns") == same, f"seed {seed}, resumed after event {n}: summed up otherwise")
    return len(wanted_rows) - 1


def wanted(text):
    """Returns the finding and the fault by the reference."""
    _, output, error = reference_resumed.audit(text)
    return output.strip(), error.strip().removeprefix("pie: ")


def main():
    texts, damaged, told, tried = 0, 0, 0, {"clean": 0, "differs": 0, "": 0}
    for seed in range(FIRST, FIRST + RUNS):
        book = reference_resumed.random_book(seed, EVENTS)
        places = range(seed % STEP, len(book.events) + 1, STEP)
        whole = [reference_resumed.excerpt(book, n, n % 2 == 0) for n in places]
        status, found = audited(whole)
        check(status == 0, f"seed {seed}: status {status} of texts that are clean")
        for n, got in zip(places, found):
            check(got == (f"clean,{len(book.events)}", ""), f"seed {seed}, resumed after event {n}: {got}")
        records = explained(reference_resumed.whole_text(book), "--all")[1]
        told += sum(check_explanations(seed, book, n, text, n % 2 == 0, records) for n, text in zip(places, whole))
        chance = random.Random(seed)
        wrong = [changed(text, chance) for text in whole for _ in range(4)]
        for text, got in zip(wrong, audited(wrong)[1]):
            want = wanted(text)
            check(got == want, f"seed {seed}: {got} of a text of which the reference says {want}:\n{text[:600]}")
            tried[want[0].split(",")[0]] += 1
        texts, damaged = texts + len(whole), damaged + len(wrong)
    check(told > 0 and summed, "nothing was explained, or nothing summed up")
    check(tried["differs"] > 0 and tried[""] > 0, f"the changes showed too little: {tried}")
    print(f"{texts} texts that go on, {told} events of them explained, {len(summed)} summed up")
    print(f"{damaged} with a change: {tried['clean']} of these clean, {tried['differs']} differ, {tried['']} with a fault")
    finish()


main()
