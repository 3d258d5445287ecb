#!/usr/bin/env python3
"""Runs traces that resume a history: random histories with each optional element, resumed at many places by
tests/shared/reference_resumed.py, followed by the commands from there without their answers. The output of `pie
run` must be the preamble as it was read, then line for line the output of the whole trace, with its registers,
statistics and number of events. Then other commands follow the preamble: changed parameters, folds and refused
commands, in bounded and rolling books whose log or limit of events is nearly full. Each line must be that of the
look-backs of reference.py over the history and the new commands, with an empty log at the preamble; the output must
audit clean. The same commands must have the same answers after 2^32 and 2^40 events. Last come changed texts: their
fault, and the end of the output.

usage: tests/program/resumed_runs.py [PROGRAM [FIRST_SEED [RUNS]]]      PROGRAM: crates/pie/out/pie by default
needs: program
"""
import random
import subprocess
import sys
from pathlib import Path

sys.path.insert(0, str(Path(__file__).resolve().parents[1] / "shared"))
from checks import check, finish  # noqa: E402
from reference import PROFILES, Book, random_command, record_of  # noqa: E402
from reference_resumed import begun, history_rows, opening_of, random_book, resumed_at  # noqa: E402
from reference_texts import Fault, answered, error_of, records, request, text_of, up_to_fault  # noqa: E402
from running import PROGRAM  # noqa: E402

FIRST, RUNS = ([int(word) for word in sys.argv[2:4]] + [1, 16][len(sys.argv[2:4]) :])[:2]
# The most commands of a history, and the distance between two places at which it is resumed.
STEPS, STEP = 60, 7
# The number of refused records after the preambles by code, and of changed texts by kind of fault.
refused, faults = {}, {"beginning": 0, "later": 0, "none": 0}


def ran(rows):
    """Returns the status, the output and the error stream of `pie run --count` for these records."""
    text = "".join(map(text_of, rows))
    done = subprocess.run([PROGRAM, "run", "--count"], input=text, capture_output=True, text=True, check=False)
    return done.returncode, done.stdout, done.stderr


def check_clean(seed, n, text, events):
    """Returns true if the output of a run is clean, with the number of the whole's last event."""
    done = subprocess.run([PROGRAM, "audit"], input=text, capture_output=True, text=True, check=False)
    check(done.stdout == f"clean,{events}\n", f"seed {seed}, resumed after event {n}: the audit of what was run says {done.stdout}{done.stderr}")


def gone_on(whole, n, tail, most, is_rolling):
    """Returns a book after the first n events of another one, with an empty tail and limits of its own."""
    book = Book(whole.packets, tail, most, list(whole.opened.values()), whole.start, is_rolling, whole.profile, whole.elements)
    book.events = list(whole.events[:n])
    return book


def counted(book, refusals):
    return f"pie: {len(book.events)} events, {refusals} refused records\n"


def check_same(seed, whole, n, of_whole):
    """Returns true if the commands after n events have the answers of the whole run, given by these lines."""
    beginning = resumed_at(whole, n, n % 2 == 0)
    rows = [*beginning, *(record_of(caller, command) for caller, command, _ in whole.events[n:]), ["show"], ["tally"]]
    later = of_whole[len(of_whole) - len(rows) + len(beginning) :]
    want = 0, "".join([*map(text_of, beginning), *later]), counted(whole, 0)
    check(ran(rows) == want, f"seed {seed}, resumed after event {n}: run otherwise than the whole")
    check_clean(seed, n, want[1], len(whole.events))
    return len(later)


def check_far(seed, whole, n, chance):
    """Returns true if commands have the same answers after many more events, up to the greatest number that a
    history may have."""
    last = len(whole.events)
    more = chance.choice((2**32 - last, 2**32 - n - 1, 2**32, 2**40 - n - 1, 2**40, 2**47 - last))
    (first, *packets) = resumed_at(whole, n, False)
    k = len(first) - 60  # (one more field if the record has the decay)
    # (the earlier events are departures that found no packet, because the statistics must agree
    # with their number)
    empty = int(first[53 + k]) + more
    beginning = [[*first[: 10 + k], 2**47, *first[11 + k : 29 + k], n + more, *first[30 + k : 53 + k], empty, *first[54 + k :]], *packets]
    rows = [*beginning, *(record_of(caller, command) for caller, command, _ in whole.events[n:])]
    text = "".join(map(text_of, [*beginning, *history_rows(whole, n)]))
    got = ran(rows)
    check(got == (0, text, f"pie: {more + last} events, 0 refused records\n"), f"seed {seed}, behind {n + more} events: {got}")
    check_clean(seed, n, text, more + last)


def other_row(chance, book, tag):
    """Returns a record that is not a command of the history; a book in this state accepts or refuses it."""
    kind = chance.randrange(10)
    if kind == 0:
        return ["fold", chance.choice((0, 1, 3, book.held, book.held + 1))]
    if kind == 1:
        return ["params", 9, book.moment(len(book.events)), *chance.choice(PROFILES)[:8], chance.choice((1000, 1024, 65536))]
    if kind == 2:
        return [chance.choice(("show", "tally"))]
    if kind == 3:
        return ["depart", 9, 2**60]
    if kind == 4:
        return ["arrive", 9, 0, tag, chance.choice((0, 65536)), "not", 0]
    return record_of(chance.randrange(1, 4), random_command(chance, book, tag))


def check_other(seed, whole, n, chance):
    """Returns true if other commands after n events have the answers of the look-backs over those events and the
    new ones."""
    tail, is_rolling = chance.choice((1, 4, 40)), chance.randrange(3) == 0
    book = gone_on(whole, n, tail, n + chance.choice((3, 10, 1000)), is_rolling)
    beginning = resumed_at(book, n, n % 2 == 0)
    rows = [list(map(str, row)) for row in beginning]
    # The parameters are other ones from here on.
    later = [["params", 9, book.moment(n), *chance.choice(PROFILES)]]
    wanted, refusals = [], 0
    for place in range(24):
        row = later[0] if place == 0 else other_row(chance, book, 1000 + place)
        number = len(rows) + 1
        rows.append(list(map(str, row)))
        told = answered(book, 3, number, rows[-1], request(number, rows[-1], 3))
        wanted.append(told)
        if told[0] == "refused":
            refusals += 1
            refused[told[2]] = refused.get(told[2], 0) + 1
    want = 0, "".join(map(text_of, [*beginning, *wanted])), counted(book, refusals)
    got = ran(rows)
    check(got == want, f"seed {seed}, resumed after event {n}: {got} of other commands, where the look-backs say {want}")
    check_clean(seed, n, got[1], len(book.events))
    return rows, len(beginning)


def changed(rows, beginning, chance):
    """Returns the records with one field changed, one record omitted, or two exchanged."""
    rows = [list(row) for row in rows]
    kind, place = chance.randrange(4), chance.choice((0, chance.randrange(beginning), chance.randrange(len(rows))))
    if kind == 0:
        return rows[:place] + rows[place + 1 :]
    if kind == 1:
        other = chance.randrange(len(rows))
        rows[place], rows[other] = rows[other], rows[place]
        return rows
    at = chance.randrange(len(rows[place]))
    rows[place][at] = chance.choice(["0", "1", "65536", str(2**64 - 1), str(2**64), "", "x", str(chance.randrange(2**20))])
    return rows


def check_changed(seed, n, rows):
    """Returns true if the fault of these records is the reference's, and the output ends where the reference's
    does."""
    rows = records("".join(map(text_of, rows)))
    status, output, error = ran(rows)
    try:
        _, read, _ = begun(rows)
    except Fault as fault:
        faults["beginning"] += 1
        want = 1, "", error_of(fault)
        got = status, output, error
        check(got == want, f"seed {seed}, after event {n}: {got} of a beginning with a fault; wanted {want}")
        return
    good, fault = up_to_fault(rows[read - 1 :], lambda number, row: request(number + read - 1, row, 3))
    faults["later" if fault else "none"] += 1
    lines = output.splitlines(keepends=True)
    check(lines[:read] == list(map(text_of, rows[:read])), f"seed {seed}, after event {n}: the beginning was not written as it was read")
    check(len(lines) == read + len(good), f"seed {seed}, after event {n}: {len(lines)} lines of {read + len(good)} records without a fault")
    is_told = (status, error) == (1, error_of(fault)) if fault else (status, error[:5], error[-17:]) == (0, "pie: ", " refused records\n")
    check(is_told, f"seed {seed}, after event {n}: {status}, {error}, wanted {fault}")


def main():
    texts, lines = 0, 0
    for seed in range(FIRST, FIRST + RUNS):
        whole, chance = random_book(seed, STEPS), random.Random(seed)
        opening = opening_of(whole)
        trace = [opening, *(record_of(caller, command) for caller, command, _ in whole.events), ["show"], ["tally"]]
        status, output, _ = ran(trace)
        of_whole = output.splitlines(keepends=True)
        check((status, len(of_whole)) == (0, len(trace)), f"seed {seed}: the run of the whole ended with {status}, {len(of_whole)} lines")
        for n in range(seed % STEP, len(whole.events) + 1, STEP):
            lines += check_same(seed, whole, n, of_whole)
            check_far(seed, whole, n, chance)
            rows, beginning = check_other(seed, whole, n, chance)
            for _ in range(3):
                check_changed(seed, n, changed(rows, beginning, chance))
            texts += 1
    check(lines > 0 and set(refused) == set(range(1, 8)), f"not each refusal was met: {refused}")
    check(min(faults.values()) > 0, f"the changes showed too little: {faults}")
    told = ", ".join(f"{count} with the code {code}" for code, count in sorted(refused.items()))
    print(f"{texts} traces that go on, {lines} lines of them as in the whole's run; of other commands there were refused {told}")
    print(f"with a change: {faults['beginning']} with a fault of the beginning, {faults['later']} with a later one, {faults['none']} with none")
    finish()


main()
