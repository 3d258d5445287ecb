#!/usr/bin/env python3
"""Compares `pie explain --all --csv` with tests/shared/reference.py, event by event: for each
worked trace of tests/rows every field of every event, with verdicts, causes and delays. The
reference computes them by looking back over the whole list of events. The exit status is 1 if
something differs.

usage: tests/program/explained_rows.py [PROGRAM]      PROGRAM: crates/pie/out/pie by default
needs: program
"""
import csv
import io
import os
import re
import sys

sys.path.insert(0, f"{os.path.dirname(os.path.abspath(__file__))}/../shared")
from checks import NAME, check, expect, finish, rows  # noqa: E402
from explaining import pie  # noqa: E402
from reference import ANSWERS, USUAL, Book  # noqa: E402

# RFC 8033's parameters, and this project's defaults for the others.
DEFAULTS = (15_000_000, 15_000_000, 150_000_000, 125, 1250, 1024, 262_144, 100_000_000_000, 16_384)
STATE = ("bytes", "packets", "delay", "probability", "accumulated_probability", "burst_allowance", "active")


def opened(fields):
    """Returns the book that a first record opens."""
    kind, *rest = fields
    profile = int(rest.pop(0)) if kind in ("open2", "open3") else 1
    words = USUAL if len(fields) in (12, 21) else USUAL[:-1]  # the record may have the decay or not
    elements = (*(rest.pop(0) for _ in words), *USUAL[len(words) :]) if kind == "open3" else USUAL
    mode = rest.pop(0) if kind in ("open2", "open3") else kind
    moment, packets, tail, most, *params = map(int, rest)
    return Book(packets, tail, most, params or DEFAULTS, moment, mode == "rolling", profile, elements)


def step_of(fields):
    """Returns the caller and the step of a record of a trace; none for a `show`, a `tally` or a `clock`."""
    kind, *rest = fields
    if kind == "arrive":
        caller, moment, tag, size, ecn, word = rest
        return int(caller), ("arrive", int(moment), int(tag), int(size), ecn, int(word))
    if kind == "params":
        return int(rest[0]), ("set", int(rest[1]), tuple(map(int, rest[2:])))
    if kind == "fold":
        return 0, ("fold", int(rest[0]))
    return None if kind in ("show", "tally", "clock") else (int(rest[0]), (kind, int(rest[1])))


def state(book, n):
    """Returns the state of the controller after the first n events."""
    numbers = (book.bytes(n), len(book.waiting(n)), book.delay(n), book.prob(n), book.accu(n), book.burst(n), int(book.active(n)))
    return dict(zip(STATE, numbers))


def record(book, i):
    """Returns the fields of the CSV record that explains event i."""
    caller, command, answer = book.events[i - 1]
    kind, before, after = command[0], state(book, i - 1), state(book, i)
    told = {"number": i, "kind": "params" if kind == "set" else kind, "caller": caller, "moment": command[1], "effective_moment": book.moment(i)}
    told |= {"verdict": ANSWERS.get(answer[0], answer[0]), "set_by": book.set_by(i - 1) or ""}
    told |= dict.fromkeys(("tag", "size", "cause", "ecn", "word", "waited"), "")
    if kind == "arrive":
        told |= dict(zip(("tag", "size", "ecn", "word"), command[2:])) | {"cause": book.cause(i - 1, command)}
    if answer[0] == "left":
        told |= dict(zip(("tag", "size", "ecn"), answer[1:])) | {"waited": book.moment(i) - book.waiting(i - 1)[0][3]}
    told |= before | {f"{name}_after": value for name, value in after.items()}
    return {name: str(value) for name, value in told.items()}


def hold(trace):
    """Returns the number of events compared in this row, and their causes."""
    lines = [line.replace('"', "").split(",") for line in trace.read_text().splitlines()]
    history = trace.with_suffix(".out").read_text()
    book = opened(lines[0])
    for fields, answer in zip(lines[1:], history.splitlines()[1:], strict=True):
        # (the reference does not name the parameters that are out of their ranges)
        step = None if re.fullmatch(r"refused,\d+,7", answer) else step_of(fields)
        if step:
            book.step(*step)
    status, text, errors = pie(history, "--all", "--csv")
    expect(f"{trace.stem}: status", (status, errors), (0, ""))
    rows = list(csv.DictReader(io.StringIO(text)))
    expect(f"{trace.stem}: events", len(rows), len(book.events))
    for i, row in enumerate(rows, 1):
        wanted = record(book, i)
        other = {name: (row.get(name), wanted.get(name)) for name in {*row, *wanted} if row.get(name) != wanted.get(name)}
        check(not other, f"{trace.stem}: event {i}, each other field with what it has and what it should have: {other}")
    return len(rows), {row["cause"] for row in rows}


def main():
    # A run that ends with a fault at its first record has no event to explain.
    traces = [path for path in sorted(rows().glob("**/*.in")) if not path.with_suffix(".fault").exists()]
    count, causes = 0, set()
    for trace in traces:
        held, of_row = hold(trace)
        count, causes = count + held, causes | of_row
    expect("rows and causes", (len(traces) >= 50, len(causes) >= 13), (True, True))
    print(f"{NAME}: {count} events of {len(traces)} rows are explained as the reference has them, by {len(causes - {''})} causes")
    finish()


main()
