#!/usr/bin/env python3
"""Tests which columns of pie-watch's text `pie audit` compares (tests/rows/linux_columns.csv.xz: several texts, each with a first row of its own).

The first five texts have no column `rq`, and each has steps whose input it lacks: the protocol behind a VLAN tag, the packets that the device returned, a
refused change of fq_pie, a change whose row comes after its departures, and a priority that names the flow of a packet at the limit. Each is clean, and
the audit prints the number of such steps. A number that no such input explains is named.

The others have each input. Each is clean, and so is each of its pieces. If a number that the rules determine is changed in a copy, the audit names this
row: at least 1,000 copies, each column of each type of row among them.

usage: tests/program/linux_columns.py [PROGRAM]      PROGRAM: crates/pie/out/pie by default
needs: program
"""
import csv
import lzma
import random
import sys
from concurrent.futures import ThreadPoolExecutor
from pathlib import Path

sys.path.insert(0, str(Path(__file__).resolve().parents[1] / "shared"))
from checks import ROOT, check, finish  # noqa: E402
from running import run as run_program  # noqa: E402

OLD = 5
# what the audits of the first texts print on standard error
LACKING = [
    "pie: steps without the protocol behind a VLAN tag: 1\n",
    "pie: steps without the returned packets (column rq): 5\n",
    "pie: steps without the row of a change: 1\n",
    "pie: steps without the row of a change: 2\n",
]
# the columns that name the queue and the row, and columns that no step reads
NAMES = {"qid", "kind", "type", "cpu"}
FLAGS = {"room", "ecn", "bytemode", "dqrate", "drop"}
PARAMS = {"target", "tupdate", "plimit", "alpha", "beta", "ecn", "bytemode", "dqrate"}
STATS = {"packets_in", "dropped", "overlimit", "ecn_mark", "maxq"}
FQ = {"truesize", "x0", "x2"}


def texts():
    """Returns the columns and the rows of each text."""
    found = []
    for row in csv.reader(lzma.open(ROOT / "tests/rows/linux_columns.csv.xz", "rt")):
        if row[0] == "qid":
            found.append((row, []))
        else:
            found[-1][1].append(row)
    return found


def audit(columns, rows, words=("audit",)):
    text = "".join(",".join(row) + "\n" for row in [columns, *rows])
    status, output, errors = run_program(list(words), text.encode())
    return status, output.decode(), errors.decode()


def inputs(row):
    """Returns the columns of a row whose numbers the rules do not determine, or of which another column of a later row tells."""
    fq, kind = row["kind"] == "fq_pie", row["type"]
    state = {name for name in row if name.startswith("a_")}
    if kind in ("flow", "wait"):
        return set(row)
    if kind == "enq":
        own = {"size", "pktlen", "mtu", "proto", "l3", "room", "rnd"} | ({"hash", "prio", "truesize"} if fq else set())
        is_timed = row["ns"] != str(64 * int(row["enq"] or 0))
        return own - ({"rnd"} if row["nrnd"] in ("", "0") else set()) | ({"ns", "enq"} if is_timed or row["ret"] not in ("", "0") else set()) - (
            {"enq"} if row["ret"] not in ("", "0") else set())
    if kind == "deq":
        readings = {f"t{place}" for place in range(int(row["nt"] or 0))}
        return readings | ({"ns"} if row["nt"] not in ("", "0") else set()) | ({"flow", "drop"} if fq else set())
    if kind == "calc":
        return {"ns"} | ({"flow"} if fq else set())
    if kind == "timer":
        return {"ns"}
    if kind == "change":
        return {"ns", "mtu", "moved"} | PARAMS - {"plimit"} | (FQ if fq else set())
    if kind in ("reset", "destroy"):
        return {"ns", "mtu"} | ({"rq"} if kind == "reset" and not fq else set())
    if kind == "init":
        return {"seq", "ns", "mtu"} | PARAMS - {"plimit"} | ({"x1"} | FQ if fq else set())
    return {"seq", "ns", "mtu", "qlen1", "bl1", "rq"} | PARAMS - {"plimit"} | STATS | ({"t0", "t1", "t2", "x1"} | FQ if fq else state)


def changed(columns, row, name):
    """Returns a row with another number in this column."""
    place = columns.index(name)
    was = row[place]
    if name in ("proto", "l3"):
        wrong = "1"
    elif name in FLAGS:
        wrong = "1" if was in ("", "0") else "0"
    elif was in ("-1", str(2**64 - 1), str(2**32 - 1)):
        wrong = "0"
    else:
        wrong = str(int(was or 0) + 1)
    return [*row[:place], wrong, *row[place + 1 :]]


TEXTS = texts()
for number, (columns, rows) in enumerate(TEXTS):
    got = audit(columns, rows)
    check(got[:2] == (0, f"clean,{len(rows)}\n"), "text", number, "of", len(rows), "rows:", got)
    check(got[2] == (LACKING[number] if number < len(LACKING) else ""), "steps without an input of text", number, got[2])
    check(("rq" in columns) == (number >= OLD), "text", number, "has other columns")
    for first in (2, len(rows) // 2, len(rows) - 3):
        status, piece, errors = audit(columns, rows, ("cut", "--event", str(first), "--around", "2"))
        again = run_program(["audit"], piece.encode())
        check(status == again[0] == 0, "a piece of text", number, "at", first, errors, again)

# the columns of each type of row first, then others
copies = []
for number, (columns, rows) in enumerate(TEXTS):
    for at, row in enumerate(rows):
        if number >= OLD and len(row) == len(columns):
            named = dict(zip(columns, row))
            free = inputs(named) | NAMES
            copies += [((named["kind"], named["type"], name), number, at, name) for name in columns if name not in free and not name.startswith("b_")]
random.Random(8033).shuffle(copies)
firsts = {copy[0]: copy for copy in reversed(copies)}
chosen = [*firsts.values(), *copies[: max(0, 1200 - len(firsts))]]


def tried(copy):
    """Returns the answer about a copy with another number, up to some rows after it."""
    _, number, at, name = copy
    columns, rows = TEXTS[number]
    return audit(columns, [*rows[:at], changed(columns, rows[at], name), *rows[at + 1 : at + 3]])


with ThreadPoolExecutor(4) as pool:
    for (kind, number, at, name), got in zip(chosen, pool.map(tried, chosen)):
        check(got[0] == 2 and got[1] == f"differs,{at + 1}\n", "text", number, "row", at + 1, *kind, "is changed, and the audit says", got)
check(len(chosen) >= 1000 and len(firsts) >= 300, "only", len(chosen), "copies of", len(firsts), "kinds")
finish()
