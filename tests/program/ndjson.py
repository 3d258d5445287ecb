#!/usr/bin/env python3
"""Compares `pie explain --json` with `--csv` of the same selection, field by field: for each history of
examples/, and for random ones by tests/shared/reference.py whose tags are above 2^53 at random. Python's
json and jq, if it is installed, read each line. A decimal number below 2^64 must be a number with the
same digits, an empty field null, and any other field a string. Then it checks the refused pairs of
options, and a fault and a difference in the middle of a text. The exit status is 1 if something
differs.

usage: tests/program/ndjson.py [PROGRAM [FIRST_SEED [RUNS [STEPS]]]]      PROGRAM: crates/pie/out/pie by default
needs: program
"""
import csv
import io
import json
import os
import shutil
import subprocess
import sys

sys.path.insert(0, f"{os.path.dirname(os.path.abspath(__file__))}/../shared")
from checks import NAME, expect  # noqa: E402
from explaining import hold_each, pie, records, within, written  # noqa: E402

JQ = shutil.which("jq")
SELECTIONS = (("--all",), ("--lost",), ("--marked",), ("--summary",), ("--lost", "--summary"), ("--flows=2",), ("--lost", "--flows=1"))


def value(field):
    """Returns the value for a field, as the text of JSON."""
    if not field:
        return "null"
    if field.isdecimal() and field.isascii() and (field == "0" or field[0] != "0") and int(field) < 2**64:
        return field
    return json.dumps(field)


def objects(text):
    """Returns the objects for a CSV text."""
    header, *rows = csv.reader(io.StringIO(text))
    return "".join("{" + ",".join(f"{json.dumps(name)}:{value(field)}" for name, field in zip(header, row, strict=True)) + "}\n" for row in rows)


def as_jq_reads(text):
    """Returns the objects as jq writes them. It keeps the digits of a number below 2^53, or all of them since version 1.7."""
    return subprocess.run([JQ, "--compact-output", "."], input=text, capture_output=True, check=True, encoding="utf-8").stdout


def is_short(number):
    return not isinstance(number, int) or number < 2**53


def hold_text(what, table, text):
    """Checks the output with `--json` against the CSV text."""
    expect(what, text, objects(table))
    rows = list(csv.DictReader(io.StringIO(table)))
    found = [json.loads(line) for line in text.splitlines()]
    expect(f"{what}: read by json", [{name: "" if it is None else str(it) for name, it in one.items()} for one in found], rows)
    if JQ:
        by_jq = [json.loads(line) for line in as_jq_reads(text).splitlines()]
        short = [{name: it for name, it in one.items() if is_short(it)} for one in found]
        expect(f"{what}: read by jq", [{name: one[name] for name in kept} for one, kept in zip(by_jq, short, strict=True)], short)


def with_long_tags(history, words):
    """Returns the history with tags above 2^53 and up to 2^64 - 1, some of which have another flow."""
    lines, first = history.splitlines(keepends=True), words.choice((2**53, 2**63, 2**64 - 2**20))
    for number, line in enumerate(lines):
        fields = line.split(",")
        place = {"arrive": 3, "depart": 4}.get(fields[0])
        if place is not None and len(fields) > place and (fields[0] == "arrive" or fields[3] == "left"):
            fields[place] = str(int(fields[place]) + first)
            lines[number] = ",".join(fields)
    return "".join(lines)


def hold(name, history, words):
    if name.startswith("seed"):
        history = with_long_tags(history, words)
    _, rows, moments = records(name, history)
    every = f"--every={written(max(moments[-1] - moments[0], 100) // words.randrange(2, 30) + 1, words)}"
    one = (f"--event={words.choice(rows)['number']}",), (f"--tag={words.choice([row['tag'] for row in rows if row['tag']] or ['0'])}",)
    for options, _ in within(moments, words):
        for which in (*SELECTIONS, *one, (every,), ("--lost", every), ("--flows=3", every)):
            chosen = [*which, *options, *words.choice(((), ("--wall",)))]
            table, text = pie(history, *chosen, "--csv"), pie(history, *chosen, "--json")
            expect(f"{name}: {chosen}: end", (text[0], text[2]), (table[0], table[2]))
            hold_text(f"{name}: {chosen}", table[1], text[1])


def refusals():
    """Checks the options that exclude each other."""
    for other in ("--csv", "--digest"):
        got = pie("", "--all", "--json", other)
        expect(f"--json {other}", got[:2], (1, ""))
        expect(f"--json {other}: message", "--json cannot be combined with --csv or --digest" in got[2], True)


def faults():
    """Checks that the objects before a fault and before a difference are written."""
    opening, arrival = "open,0,4,16,100\n", "arrive,1,10,7,1500,ect0,0,enqueue\n"
    for end, status in (("arrive,1,x\n", 1), ("arrive,1,11,8,1500,ect0,0,mark\n", 2)):
        history = opening + arrival + end
        table, text = pie(history, "--all", "--csv"), pie(history, "--all", "--json")
        expect(f"{end!r}: end", (text[0], text[2]), (table[0], table[2]))
        expect(f"{end!r}: status", text[0], status)
        hold_text(f"{end!r}", table[1], text[1])
        expect(f"{end!r}: objects", text[1].count("\n"), 1)


refusals()
faults()
hold_each(hold, "--json has the fields of --csv" + ("" if JQ else "; jq is not installed"))
if not JQ:
    print(f"NOT RUN: {NAME}: jq did not read the objects")
