#!/usr/bin/env python3
"""Tests `pie audit`, `pie explain` and `pie cut` of a text of pie-watch, with steps that were recorded on Debian 12's kernel 6.1, unmodified
(tests/rows/linux_steps.csv: four queues, each from its beginning or taken over while it ran; then a pie and an fq_pie with their rows mixed, a queue
of which steps were lost, and one that a lower limit shortens; and parts of two queues of kernel 6.12, whose devices returned 22 of 30 packets, and 7
segments of one packet).

- Every step is decided as the kernel did.
- If one recorded number is changed, standard output has the event, and standard error its queue, step and column, the changed number and the right
  one. For each type of step, each column that the program compares is changed once.
- If an input is changed, a later number differs.
- After a step that differs, the steps of its queue up to the next row `init` or `resume` are not decided; all others are. Each step that differs is
  named, queue by queue, up to 100, and counted. A fault after them is reported after them. `--queue` audits one queue alone.
- A missing row is found, and so is a queue that is not resumed after lost steps.
- A text without a column or without a queue's first step, and a field that is no number, are refused.
- `explain --lost` explains each packet that an enqueue, a lower limit or a reset dropped, with its cause; `--marked`, `--all` and `--event N` each chosen
  packet. Two choices are refused. linux_reports.py tests other choices and forms.
- `cut` writes the chosen rows as they are, after the first row and rows that hold the numbers of the queues that are alive. Pieces together have each row
  once. The audit of each piece is clean; if a compared number of the piece's first row is changed, it finds the same step, column and numbers as an
  audit of the whole text. A cut of a cut equals the cut. A step that differs ends the piece.
- Several files, also with histories among them, are audited in turn; `--joined` is refused for steps.
- A text is recognized in reads of all sizes. A text that begins almost so is a history.
- Each allocation, read and write fails in turn.

usage: tests/program/linux_steps.py [PROGRAM]      PROGRAM: crates/pie/out/pie by default
needs: program
"""
import csv
import errno
import json
import random
import sys
import tempfile
from collections import Counter
from pathlib import Path

sys.path.insert(0, str(Path(__file__).resolve().parents[1] / "shared"))
from checks import ROOT, check, finish, refusing  # noqa: E402
from running import MEMORY, ONCE_AND_ON, TRACE, in_turn, read_fault, write_fault  # noqa: E402
from running import run as run_program  # noqa: E402
from running import without_lacks  # noqa: E402

TEXT = (ROOT / "tests/rows/linux_steps.csv").read_text()
COLUMNS, *ROWS = list(csv.reader(TEXT.splitlines()))
LOST = [row for row in ROWS if row[0] == "lost"]
STATE = [name for name in COLUMNS if name.startswith("a_")]
STATS = ["packets_in", "dropped", "overlimit", "ecn_mark", "maxq"]
COMPARED = {
    ("pie", "enq"): ["qlen0", "bl0", "limit", "early", "nrnd", "ret", *STATS, "backlog", *STATE],
    ("fq_pie", "enq"): ["qlen0", "early", "nrnd", "ret", *STATS, "backlog", *STATE, "x0", "x1", "x2"],
    ("pie", "deq"): ["size", "pktlen", "enq", "backlog", "qlen1", "bl1", *STATE],
    ("fq_pie", "deq"): ["size", "pktlen", "enq", "backlog", "qlen1", "bl1", *STATE],
    ("pie", "calc"): STATE,
    ("fq_pie", "calc"): ["backlog", *STATE],
    ("pie", "change"): ["size", "limit", *STATS, *STATE],
    ("pie", "reset"): [*STATS, *STATE],
}
# inputs, each with a type of step at which a change makes a number of this or a later step differ
INPUTS = [("deq", "a_dq_tstamp"), ("calc", "backlog"), ("enq", "enq"), ("enq", "size"), ("enq", "pktlen"), ("resume", "a_prob"), ("resume", "target"),
          ("resume", "alpha"), ("wait", "pktlen")]


def text_of(rows, columns=COLUMNS):
    return "".join(",".join(row) + "\n" for row in [columns, *rows])


def run(rows, columns=COLUMNS, words=("audit",), **environment):
    """Returns the status, the output and the error stream of the program for these rows."""
    status, output, errors = run_program(list(words), text_of(rows, columns).encode(), **environment)
    return status, output.decode(), without_lacks(errors)


def field(row, name):
    """Returns a field, of a row of lost steps an empty one."""
    return row[COLUMNS.index(name)] if len(row) == len(COLUMNS) else ""


def changed(at, name):
    """Returns the rows with the number of this row and column one higher, and both numbers."""
    place = COLUMNS.index(name)
    recorded = int(ROWS[at][place] or 0)
    wrong = recorded + 1 if recorded < 2**64 - 1 else recorded - 1
    rows = list(ROWS)
    rows[at] = [*rows[at][:place], str(wrong), *rows[at][place + 1 :]]
    return rows, recorded, wrong


def differs(at, name, recorded, right, rows=ROWS, file=""):
    """Returns the line about a step that differs."""
    return f"pie: {file}queue {rows[at][0]}, step {field(rows[at], 'seq')}: {name} is recorded as {recorded}, the rules give {right}\n"


def first(kind, step):
    """Returns the first row of this kind and type. It follows no departure, since the parent may have peeked at that packet."""
    for at, row in enumerate(ROWS):
        if (field(row, "kind"), field(row, "type")) == (kind, step) and (kind == "pie" or field(row, "flow") != "-1") and field(ROWS[at - 1], "type") != "deq":
            return at
    raise SystemExit(f"there is no {step} of {kind}")


# ---- an audit

lost = sum(int(row[1]) for row in LOST)
steps = sum(field(row, "type") not in ("", "flow", "wait") for row in ROWS)
WERE_LOST = f"pie: steps that were lost when the text was recorded: {lost}\n"
CLEAN = (0, f"clean,{len(ROWS)}\n", WERE_LOST)
LACKING = "pie: steps without the returned packets (column rq): 28\n"
check(run_program(["audit"], text_of(ROWS).encode())[2].decode() == WERE_LOST + LACKING, "steps without an input:", run_program(["audit"], text_of(ROWS).encode()))
check(run(ROWS) == CLEAN and steps == 396 and lost == 18829, "the recorded steps:", run(ROWS), steps, lost)
tried = 0
for (kind, step), names in COMPARED.items():
    at = first(kind, step)
    for name in names:
        if (step, name) == ("deq", "a_dq_tstamp"):
            continue  # an input: the clock of the departure
        rows, recorded, wrong = changed(at, name)
        got = run(rows)
        check(got == (2, f"differs,{at + 1}\n", differs(at, name, wrong, recorded)), kind, step, name, wrong, "not", recorded, "is answered by", got)
        tried += 1
for step, name in INPUTS:
    places = [at for at, row in enumerate(ROWS) if field(row, "type") == step][:40]
    check(any(run(changed(at, name)[0])[0] == 2 for at in places), "no change of the input", name, "at", step, "makes a number differ")
picked = next(at for at, row in enumerate(ROWS) if field(row, "type") == "enq" and field(row, "early") == field(row, "nrnd") == "1")
place = COLUMNS.index("rnd")
unpicked = [*ROWS[:picked], [*ROWS[picked][:place], str(2**64 - 1), *ROWS[picked][place + 1 :]], *ROWS[picked + 1 :]]
check(run(unpicked) == (2, f"differs,{picked + 1}\n", differs(picked, "early", 1, 0)), "the greatest random word picks a packet:", run(unpicked))
arrival = next(at for at, row in enumerate(ROWS) if field(row, "type") == "enq")
unbegun = f"pie: step {field(ROWS[arrival], 'seq')} of queue {ROWS[arrival][0]}: no row of the type init or resume is before it\n"
check(run(ROWS[arrival:]) == (1, "", unbegun), "a text that begins with an arrival:", run(ROWS[arrival:]))
uncolumned = [[*row[: COLUMNS.index("a_prob")], *row[COLUMNS.index("a_prob") + 1 :]] for row in ROWS[:3]]
got = run(uncolumned, [name for name in COLUMNS if name != "a_prob"])
check(got == (1, "", "pie: the first row has no column a_prob\n"), "a text without the column a_prob:", got)
FAULTS = {"a_prob": ("x", "not a number in range"), "size": (str(2**32), "not a number in range"), "seq": (str(2**64), "not a number in range"),
          "type": ("enqueue", "unknown word"), "kind": ("codel", "unknown word"), "flow": ("-2", "not a number in range"), "l3": ("12345", "not a number in range")}
for name, (bad_field, why) in FAULTS.items():
    place = COLUMNS.index(name)
    bad = [*ROWS[:arrival], [*ROWS[arrival][:place], bad_field, *ROWS[arrival][place + 1 :]], *ROWS[arrival + 1 :]]
    for words in (["audit"], ["explain", "--lost"]):
        status, output, errors = run(bad, words=words)
        check((status, errors) == (1, f"pie: record {arrival + 2}: {why}\n") and (output == "" or words[0] == "explain"), words, "the field", name, bad_field, status, errors)
check(run([*ROWS[:2], ROWS[2][:-1]]) == (1, "", "pie: record 4: wrong number of fields\n"), "a row with a missing field:", run([*ROWS[:2], ROWS[2][:-1]]))
check(run([]) == (0, "clean,0\n", "pie: no step was recorded\n"), "a header alone:", run([]))
check(tried >= 120, "only", tried, "numbers were changed")

# two queues whose rows are mixed are decided apart; a row that is missing is found
mixed = [row for row in ROWS if row[0] in ("rb/2:/0", "ra/3:/1")]
check(len({row[0] for row in mixed}) == 2 and run(mixed) == (0, f"clean,{len(mixed)}\n", ""), "two queues in one text:", run(mixed))
check(run([[mixed[0][0], *row[1:]] for row in mixed])[0] == 2, "two queues with one name are clean")
missing = mixed[:9] + mixed[10:]
at = next(at for at in range(9, len(missing)) if missing[at][0] == mixed[9][0])
check(run(missing) == (2, f"differs,{at + 1}\n", differs(at, "seq", field(missing[at], "seq"), field(mixed[9], "seq"), missing)), "a missing row:", run(missing))
at = ROWS.index(LOST[0])
unresumed = run([*ROWS[: at + 1], *ROWS[at + 2 :]])
told = f"pie: step {field(ROWS[at + 2], 'seq')} of queue {LOST[0][2]}: no row of the type init or resume is before it\n"
check(unresumed == (1, "", told), "lost steps, not resumed:", unresumed)

# several steps differ


def undecided(rows, at):
    """Returns the numbers of the events that are not decided after this row differs."""
    its = [later for later in range(at, len(rows)) if rows[later][0] == rows[at][0]]
    again = next((later for later in its[1:] if field(rows[later], "type") in ("init", "resume")), len(rows))
    return {later + 1 for later in its if later < again}


def told(rows, places, name="a_prob", file="", before=1):
    """Returns the status, the output and the error stream of an audit of rows of which these differ."""
    place = COLUMNS.index(name)
    lines = {at: differs(at, name, int(rows[at][place] or 0) + 1, int(rows[at][place] or 0), rows, file) for at in places}
    numbered = [lines[at].replace("queue ", f"event {at + 1}, queue ", 1) for queue in dict.fromkeys(rows[at][0] for at in places) for at in places[:100] if rows[at][0] == queue and at not in places[:before]]
    more = [f"pie: events that differ: {len(places)}\n"] if len(places) > 1 else []
    beyond = [f"pie: further events that differ: {len(places) - 100}\n"] if len(places) > 100 else []
    return 2, f"differs,{places[0] + 1}\n", "".join([*[lines[at] for at in places[:before]], *more, *numbered, *beyond])


def wrong_at(rows, places, name="a_prob"):
    place = COLUMNS.index(name)
    return [[*row[:place], str(int(row[place] or 0) + 1), *row[place + 1 :]] if at in places else row for at, row in enumerate(rows)]


updates = [at for at, row in enumerate(ROWS) if field(row, "type") == "calc"]
chosen, over = [], set()
for at in updates:
    if at + 1 not in over:
        chosen.append(at)
        over |= undecided(ROWS, at)
check(len(chosen) > 9 and len({ROWS[at][0] for at in chosen}) > 5 and max(Counter(ROWS[at][0] for at in chosen).values()) > 2, "steps that differ:", chosen)
one_queue = [at for at in chosen if ROWS[at][0] == ROWS[chosen[1]][0]][:2]
two_queues = [chosen[0], next(at for at in chosen if ROWS[at][0] != ROWS[chosen[0]][0])]
for what, places in (("one", chosen[:1]), ("two in one queue", one_queue), ("two in two queues", two_queues), ("all that can", chosen)):
    got = run(wrong_at(ROWS, places))
    check(got == told(ROWS, places), what, "of the steps differ:", got, told(ROWS, places))
got = run(wrong_at(ROWS, updates))
check(got == told(ROWS, chosen), "all updates differ:", got)
resumed = next(at for at in range(one_queue[0], len(ROWS)) if ROWS[at][0] == ROWS[one_queue[0]][0] and field(ROWS[at], "type") == "resume")
got = run(wrong_at(ROWS[: resumed + 1], one_queue[:1]))
check(got == told(ROWS, one_queue[:1]) and one_queue[0] < resumed < one_queue[1], "a step that differs, then resume:", got)
for name in dict.fromkeys(row[0] for row in ROWS if row[0] != "lost"):
    its = [at for at in chosen if ROWS[at][0] == name]
    its_lost = sum(int(row[1]) for row in LOST if row[2] == name)
    want = told(ROWS, its) if its else (0, f"clean,{len(ROWS)}\n", f"pie: steps that were lost when the text was recorded: {its_lost}\n" if its_lost else "")
    got = run(wrong_at(ROWS, chosen), words=["audit", "--queue", name])
    check(got == want, "the queue", name, "alone:", got, want)
check(run(ROWS, words=["audit", "--queue", "x"]) == (1, "", "pie: the text has no queue x\n"), "no queue:", run(ROWS, words=["audit", "--queue", "x"]))
got = run_program(["audit", "--queue", "x"], run_program(["run"], TRACE)[1])
check(got == (1, b"", b"pie: --queue is only for a text of pie-watch\n"), "a history with --queue:", got)
# two queues again and again, one step of each wrong each time: each is counted, and 100 are named
repeated = mixed * 160
its = [at for at, row in enumerate(repeated) if field(row, "type") == "enq"]
chosen_again, over = [], {}
for at in its:
    if over.get(repeated[at][0], -1) < at // len(mixed):
        chosen_again.append(at)
        over[repeated[at][0]] = at // len(mixed)
got = run(wrong_at(repeated, chosen_again, "qlen0"))
check(len(chosen_again) > 256 and got == told(repeated, chosen_again, "qlen0"), len(chosen_again), "steps differ:", got[:2], got[2][:400], got[2][-200:])
# a fault after them
faulty = [*wrong_at(ROWS, one_queue), ROWS[-1][:-1]]
lines = "".join(differs(at, "a_prob", int(field(ROWS[at], "a_prob")) + 1, int(field(ROWS[at], "a_prob"))).replace("queue ", f"event {at + 1}, queue ", 1) for at in one_queue)
got = run(faulty)
check(got == (1, "", f"pie: events that differ: 2\n{lines}pie: record {len(ROWS) + 2}: wrong number of fields\n"), "two steps that differ before a fault:", got)
# as JSON
status, output, errors = run(wrong_at(ROWS, one_queue), words=["audit", "--json"])
reasons = [differs(at, "a_prob", int(field(ROWS[at], "a_prob")) + 1, int(field(ROWS[at], "a_prob")))[5:-1] for at in one_queue]
numbers = [{"recorded": int(field(ROWS[at], "a_prob")) + 1, "right": int(field(ROWS[at], "a_prob")), "reason": reason} for at, reason in zip(one_queue, reasons)]
want = {"file": "-", "finding": "differs", "event": one_queue[0] + 1, **numbers[0], "differences": 2, "others": [{"event": one_queue[1] + 1, **numbers[1]}]}
check((status, json.loads(output), errors) == (2, want, told(ROWS, one_queue)[2]), "JSON of two steps that differ:", output, want)

# an arrival after the device returned 22 packets. The text has no column rq, so that their number is taken from the row; pie's backlog has their bytes
at = next(at for at, row in enumerate(ROWS) if row[0] == "eth0/1:/0" and field(row, "type") == "enq")
bytes_before = COLUMNS.index("bl0")
fewer = [*ROWS[:at], [*ROWS[at][:bytes_before], str(int(field(ROWS[at], "bl0")) - 400), *ROWS[at][bytes_before + 1 :]], *ROWS[at + 1 :]]
found = run(fewer)
check(field(ROWS[at], "qlen0") == "28" and found == (2, f"differs,{at + 1}\n", differs(at, "backlog", 11200, 10800)), "fewer bytes that came back:", found)

# ---- an explanation


def refuse_in_turn(library, met, words):
    """Checks a command over a few steps while each allocation, read and write fails in turn."""
    text = text_of(mixed[:14]).encode()
    want = run_program(words, text)
    for variable, says in {"REFUSE_MEMORY": MEMORY, "REFUSE_READ": read_fault(errno.EIO), "REFUSE_WRITE": write_fault(errno.EIO)}.items():
        places = 0
        for on in ONCE_AND_ON:
            for place, (status, output, errors), is_refused in in_turn(library, met, words, text, variable, on, REFUSE_STEP="700"):
                places += is_refused
                did_with_less = variable == "REFUSE_MEMORY" and not on and (status, output, errors) == want
                holds = (status, errors) == (1, says) and want[1].startswith(output) or did_with_less
                check(holds if is_refused else (status, output, errors) == want, words, variable, place, on, status, output[-80:], errors)
        check(places > 2, words, variable, "was refused at", places, "places")


def explained(*words, rows=ROWS):
    """Returns the status, the blocks and the error stream."""
    status, output, errors = run(rows, words=["explain", *words])
    return status, [f"event {block.rstrip()}\n" for block in ("\n" + output).split("\nevent ")[1:]], errors


status, blocks, errors = explained("--lost")
check((status, errors) == (0, WERE_LOST), "--lost:", status, errors)
CAUSES = {
    "over": ("DROPPED over the limit\n", "\n  the queue is at its limit (overlimit)\n"),
    "word": ("DROPPED early\n", "\n  picked: the random word is below the probability\n"),
    "sum": ("DROPPED early\n", "\n  picked: the accumulated probability (accu_prob) is at least 850 %\n"),
}
arrivals = [(at, row) for at, row in enumerate(ROWS) if field(row, "type") == "enq"]
dropped = [(at, row) for at, row in arrivals if field(row, "ret") not in ("", "0")]
for at, row in dropped:
    its = [block for block in blocks if block.startswith(f"event {at + 1}: ")]
    prob, moment = int(field(row, "a_prob") or 0) * 10**6 >> 56, int(field(row, "ns") or 0)
    cause = "over" if field(row, "early") == "255" else "word" if field(row, "nrnd") == "1" else "sum"
    parts = [f": queue {field(row, 'qid')}, step {field(row, 'seq')}, {field(row, 'pktlen')} bytes: ", f"\n  probability {prob // 10**4}.{prob % 10**4:04} %",
             f"\n  at {moment // 10**9}.{moment % 10**9:09} s since boot", f"  before it: {field(row, 'qlen0') or 0} packets of at most ",
             f", {field(row, 'bl0') or 0} bytes, a delay of ", *CAUSES[cause]]
    check(len(its) == 1 and all(part in its[0] for part in parts), "the drop", row[:5], "is explained as", its, parts)
by_change = sum(int(field(row, "size") or 0) for row in ROWS if (field(row, "kind"), field(row, "type")) == ("pie", "change"))
check(by_change > 0 and sum("DROPPED by a change of the limit\n" in block for block in blocks) == by_change, "packets that a lower limit dropped:", by_change)
by_reset = {int(block.split(":")[0][6:]) - 1 for block in blocks if "DROPPED by a reset\n" in block}
check(by_reset and all(field(ROWS[at], "type") == "reset" for at in by_reset), "packets that a reset dropped:", by_reset)
check(len(blocks) == len(dropped) + sum(" by a " in block for block in blocks), "--lost explains other packets")
marks = [at + 1 for (at, row), (_, before) in zip(arrivals[1:], arrivals) if (at, row) not in dropped and int(field(row, "ecn_mark") or 0) == int(field(before, "ecn_mark") or 0) + 1 and row[0] == before[0]]
status, marked, errors = explained("--marked")
check((status, errors) == (0, WERE_LOST) and marks and {int(block.split(":")[0][6:]) for block in marked} >= set(marks), "--marked:", status, errors, len(marked), marks)
check(all(block.split("\n")[0].endswith(": MARKED") and block.count("\n  marked: ecn is on, and the packet is ECN-capable\n") == 1 for block in marked), "--marked explains other packets")
status, every, errors = explained("--all")
check((status, errors) == (0, WERE_LOST) and [block for block in every if ": DROPPED" in block.split("\n")[0]] == blocks, "--all has other drops than --lost")
check([block for block in every if block.split("\n")[0].endswith(": MARKED")] == marked, "--all has other marks than --marked")
check({int(block.split(":")[0][6:]) for block in every} >= {at + 1 for at, _ in arrivals}, "--all lacks arrivals")
at = dropped[0][0]
only = [block for block in every if block.startswith(f"event {at + 1}: ")]
check(explained("--event", str(at + 1)) == (0, only, WERE_LOST) and len(only) == 1, "--event:", explained("--event", str(at + 1)))
update = next(at for at, row in enumerate(ROWS) if field(row, "type") == "calc")
check(explained("--event", str(update + 1)) == (1, [], f"{WERE_LOST}pie: event {update + 1} is no arrival, and drops no packet\n"), "an update:", explained("--event", str(update + 1)))
beyond = len(ROWS) + 1
check(explained("--event", str(beyond)) == (1, [], f"{WERE_LOST}pie: there is no event {beyond}: the text has {len(ROWS)} events\n"), "no event:", explained("--event", str(beyond)))

# the packets of other steps than those that are not decided are explained
for at in (dropped[0][0], dropped[len(dropped) // 2][0], dropped[-1][0]):
    rows, recorded, wrong = changed(at, "qlen0")
    refusal = f"pie: event {at + 1} is not what the rules give there, so it and its queue's events up to the next init or resume are not explained\n"
    others = [block for block in blocks if int(block.split(":")[0][6:]) not in undecided(ROWS, at)]
    got = explained("--lost", rows=rows)
    check(got == (2, others, refusal + differs(at, "qlen0", wrong, recorded)) and others, "a step that differs:", at, got[0], len(got[1]), got[2])
first_row, second_row = dropped[0][0], dropped[-1][0]
rows[first_row] = changed(first_row, "qlen0")[0][first_row]
got = explained("--lost", rows=rows)
others = [block for block in blocks if int(block.split(":")[0][6:]) not in undecided(ROWS, first_row) | undecided(ROWS, second_row)]
check(got[:2] == (2, others) and got[2].endswith("\npie: events that differ: 2\n"), "two steps that differ:", got[0], len(got[1]), got[2])

two = "pie: explain takes only one of --event N, --tag T, --lost, --marked and --all; see pie explain --help\n"
got = run(ROWS, words=["explain", "--lost", "--all"])
check(got[:2] == (1, "") and got[2].startswith(two), "two choices:", got)
for words in (["run"], ["migrate"], ["what-if", "--from", "0"]):
    check(run(ROWS, words=words) == (1, "", "pie: the first record is not an open record\n"), words, run(ROWS, words=words))

# ---- files

with tempfile.TemporaryDirectory() as folder:
    names = {name: f"{folder}/{name}" for name in ("steps", "wrong", "faulty", "history", "out")}
    rows, recorded, wrong = changed(update, "a_prob")
    history = run_program(["run"], TRACE)[1]
    given = {"steps": TEXT, "wrong": text_of(rows), "faulty": text_of(ROWS[arrival:]), "history": history.decode()}
    for name, text in given.items():
        Path(names[name]).write_text(text)
    events = run_program(["audit"], history)[1].decode()[6:-1]
    lines = {
        "steps": (f"{names['steps']}: clean,{len(ROWS)}\n", WERE_LOST.replace("pie: ", f"pie: {names['steps']}: ")),
        "wrong": (f"{names['wrong']}: differs,{update + 1}\n", differs(update, "a_prob", wrong, recorded, file=f"{names['wrong']}: ")),
        "faulty": ("", unbegun.replace("pie: ", f"pie: {names['faulty']}: ")),
        "history": (f"{names['history']}: clean,{events}\n", ""),
    }
    for status, chosen in ((0, ["steps", "history", "steps"]), (2, ["history", "wrong", "steps"]), (1, ["faulty", "wrong", "history"])):
        got = run([], words=["audit", *(names[name] for name in chosen)])
        check(got == (status, *("".join(lines[name][part] for name in chosen) for part in (0, 1))), "an audit of", chosen, got)
    got = run(ROWS, words=["audit", names["history"], "-"])
    check(got == (0, f"{lines['history'][0]}-: clean,{len(ROWS)}\n", WERE_LOST.replace("pie: ", "pie: -: ")), "steps as standard input among files:", got)
    got = run([], words=["audit", "--joined", names["steps"], names["history"]])
    check(got == (1, lines["history"][0], f"pie: {names['steps']}: --joined is not for a text of pie-watch\n"), "--joined:", got)
    got = run([], words=["audit", "--joined", names["history"], names["steps"]])
    check(got == (1, lines["history"][0], f"pie: {names['steps']}: --joined is not for a text of pie-watch\n"), "--joined, steps last:", got)
    # the output of -o, and a fault of a named file
    all_lost = run(ROWS, words=["explain", "--lost"])[1]
    got = run([], words=["explain", "--lost", names["steps"], "-o", names["out"]])
    check(got == (0, "", WERE_LOST) and Path(names["out"]).read_text() == all_lost, "-o:", got)
    got = run([], words=["explain", "--lost", names["faulty"], "-o", names["out"], "--force"])
    check(got == (1, "", f"{unbegun}pie: the text is in {names['faulty']}\n") and Path(names["out"]).read_text() == all_lost, "-o with a fault:", got)
    got = run([], words=["explain", "--lost", names["wrong"], "-o", names["out"], "--force"])
    check(got[0] == 2 and Path(names["out"]).read_text() in all_lost, "-o with a step that differs:", got)

    # ---- reads and failures
    library = refusing(folder, "a text of pie-watch")
    if library:
        met = f"{folder}/met"
        for size in (1, 2, 3, 4, 5, 7, 4096):
            got = run(ROWS, LD_PRELOAD=library, REFUSE_MET=met, REFUSE_STEP=str(size))
            check(got == CLEAN, "reads of", size, "bytes:", got)
        for words in (["audit"], ["explain", "--all"]):
            refuse_in_turn(library, met, words)

# texts that begin almost so are histories; each is read as one, to its last byte
for begin in ("", "q", "qi", "qid", "qid;", "qi,d", "Qid,", "qxd,", " qid,", "\ufeffqid,", '"qid",', "oqid,"):
    text = (begin + TEXT[4:]).encode() if begin else b""
    for given in {text, begin.encode()}:
        for words in (["audit"], ["explain", "--lost"]):
            check(run_program(words, given) == (1, b"", b"pie: the first record is not an open record\n"), words, begin, given[:20], run_program(words, given))
for text in (b"qid,", b"qid,\n", b"qid,seq\n"):
    check(run_program(["audit"], text) == (1, b"", b"pie: the first row has no column seq\n" if b"seq" not in text else b"pie: the first row has no column qlen0\n"), text, run_program(["audit"], text))
# ---- a cut

LINES = [",".join(row) + "\n" for row in ROWS]
HEAD = ",".join(COLUMNS) + "\n"
MOMENTS = []
for row in ROWS:
    MOMENTS.append(max(MOMENTS[-1] if MOMENTS else 0, int(field(row, "ns") or 0)))


def cut(*words, text=TEXT):
    """Returns the status, the output and the error stream of a cut of this text."""
    status, output, errors = run_program(["cut", *words], text.encode())
    return status, output.decode(), errors.decode()


def audited(text):
    status, output, errors = run_program(["audit"], text.encode())
    return status, output.decode(), without_lacks(errors)


def queues_before(at):
    """Returns the names of the queues that are alive before this row."""
    alive = {}
    for row in ROWS[:at]:
        if row[0] == "lost":
            alive.pop(row[2], None)
        elif field(row, "type") == "destroy":
            alive.pop(row[0], None)
        else:
            alive[row[0]] = True
    return list(alive)


def check_piece(text, at, rows):
    """Checks the piece that begins with this row and has these rows. Returns the number of rows before them."""
    lines = text.splitlines(keepends=True)
    resumed = [line.split(",") for line in lines[1 : len(lines) - len(rows)]]
    check(lines[0] == HEAD and lines[len(lines) - len(rows) :] == rows, "a piece from", at, "has other rows")
    check([row[0] for row in resumed if row[2] == "resume"] == queues_before(at), "a piece from", at, "resumes", [row[0] for row in resumed if row[2] == "resume"])
    check(all(row[2] in ("resume", "flow", "wait") for row in resumed), "a piece from", at, "begins with other rows")
    status, _, errors = audited(text)
    check(status == 0 and errors in ("", WERE_LOST), "the audit of a piece from", at, status, errors)
    return len(resumed)


def cut_in_segments(every):
    """Cuts all rows into segments, and checks each."""
    status, text, errors = cut("--every", str(every))
    pieces = [HEAD + piece for piece in text.split(HEAD)[1:]]
    check((status, errors, len(pieces)) == (0, "", -(-len(LINES) // every)) and text.startswith(HEAD), "--every", every, status, errors, len(pieces))
    for number, piece in enumerate(pieces):
        check_piece(piece, every * number, LINES[every * number : every * (number + 1)])


def cut_by_moments(first, second, third):
    """Cuts at three moments, in order: two pieces that follow each other, and pieces of a piece."""
    status, piece, errors = cut("--from", str(first), "--to", str(third))
    at = sum(moment < first for moment in MOMENTS)
    rows = [line for line, moment in zip(LINES, MOMENTS) if first <= moment <= third]
    check((status, errors) == (0, ""), "a cut from", first, "to", third, status, errors)
    check_piece(piece, at, rows)
    words = ("--from", str(first), "--to", str(third))
    check(cut(*words, text=piece) == (0, piece, ""), "a cut of the cut from", first, "to", third, "differs from it")
    check(cut("--from", str(second), "--to", str(third), text=piece) == cut("--from", str(second), "--to", str(third)), "a cut of a cut at", second)
    before = cut("--to", str(second - 1))[1]
    after = cut("--from", str(second))[1]
    check(before == HEAD + "".join(LINES[: sum(moment < second for moment in MOMENTS)]), "a cut to", second - 1)
    check(after.endswith("".join(LINES[sum(moment < second for moment in MOMENTS) :])), "a cut from", second)


def compare_first_rows():
    """Changes each compared number of the first row of a piece: the audit finds what that of the whole text finds."""
    for (kind, step), names in {**COMPARED, ("fq_pie", "timer"): ["flow"]}.items():
        at = next(at for at, row in reversed(list(enumerate(ROWS))) if (field(row, "kind"), field(row, "type")) == (kind, step)
                  and (kind == "pie" or field(row, "flow") != "-1"))
        status, text, errors = cut("--event", str(at + 1), "--around", "0")
        before = check_piece(text, at, [LINES[at]]) if (status, errors) == (0, "") else 0
        for name in names:
            if (step, name) == ("deq", "a_dq_tstamp"):
                continue
            rows, _, _ = changed(at, name)
            whole = run(rows)
            got = audited(text.removesuffix(LINES[at]) + ",".join(rows[at]) + "\n")
            check(got == (2, f"differs,{before + 1}\n", whole[2]) and whole[0] == 2, kind, step, name, "in a piece:", got, "in the text:", whole)


def cut_after_a_reset():
    """fq_pie's memory keeps that of the packets that a reset drops. A piece from there on has it too."""
    waits = [at for at, row in enumerate(ROWS) if (row[0], field(row, "type")) == ("d4", "wait")]
    end = next(at for at in waits if at + 1 not in waits) + 1
    named = {name: COLUMNS.index(name) for name in COLUMNS}
    began = max(at for at in range(end) if field(ROWS[at], "type") == "resume")
    arrival = list(next(row for row in ROWS if (row[0], field(row, "type"), field(row, "early")) == ("d4", "enq", "")))
    seq = int(field(ROWS[began], "seq"))
    reset = [*ROWS[began][:2], "reset", str(seq + 1), *[""] * (len(COLUMNS) - 4)]
    arrival[named["seq"]] = str(seq + 2)
    for _ in range(len(COLUMNS)):
        text = text_of([*ROWS[began:end], reset, arrival])
        status, _, errors = audited(text)
        if status == 0:
            break
        name, right = errors.split(": ")[-1].split(" ")[0], errors.strip().split(" ")[-1]
        arrival[named[name]] = right
    check(status == 0 and field(arrival, "x0") not in ("", "0"), "an arrival after a reset:", status, errors, field(arrival, "x0"))
    status, piece, errors = cut("--event", str(end - began + 2), text=text)
    check((status, errors, audited(piece)[0]) == (0, "", 0), "a piece after a reset:", status, errors, audited(piece))


def cut_before_returned_packets():
    """Pieces that begin with an arrival after packets came back."""
    for name in ("eth0/1:/0", "eth2/1:/0"):
        for at in [at for at, row in enumerate(ROWS) if (row[0], field(row, "type")) == (name, "enq")][:3]:
            status, piece, errors = cut("--event", str(at + 1))
            check((status, errors) == (0, ""), "a cut before returned packets:", status, errors)
            check_piece(piece, at, [LINES[at]])


def refuse_cuts():
    """Cuts that are refused, that differ, or that choose no row."""
    check(cut("--from", "2026-11-24T20:00:00Z") == (1, "", "pie: a text of pie-watch has moments since boot and no wall-clock times; see pie cut --help\n"),
          "a bound in UTC:", cut("--from", "2026-11-24T20:00:00Z"))
    nothing = (1, "", "pie: no event of the text is selected\n")
    for words in (("--event", str(len(ROWS) + 1)), ("--from", str(MOMENTS[-1] + 1)), ("--from", "0", "--to", "0")):
        got = cut(*words)
        check(got == nothing if words[1] != "0" else got == (0, HEAD + "".join(line for line, moment in zip(LINES, MOMENTS) if moment == 0), "") or got == nothing,
              words, "chooses no row:", got[0], got[2])
    check(cut("--every", "3", text=HEAD) == nothing, "a header alone:", cut("--every", "3", text=HEAD))
    check(cut("--last", "3") == (1, "", "pie: cut --last reads its input twice, so it needs a file\n"), "--last of standard input:", cut("--last", "3"))
    at = first("pie", "calc")
    rows, recorded, wrong = changed(at, "a_prob")
    refusal = f"pie: event {at + 1} is not what the rules give there, so what comes after it is not cut\n" + differs(at, "a_prob", wrong, recorded)
    status, text, errors = cut("--event", str(at), "--around", "9", text=text_of(rows))
    check((status, errors) == (2, refusal) and text.endswith("".join([*LINES[at - 10 : at], ",".join(rows[at]) + "\n"])), "a step that differs:", status, errors)
    check(cut("--event", str(at + 5), text=text_of(rows)) == (2, "", refusal), "a step that differs before the piece")
    check(cut("--event", str(at), text=text_of(rows)) == cut("--event", str(at)), "a step that differs after the piece")
    bad = text_of([*ROWS, ROWS[-1][:-1]])
    status, text, errors = cut("--event", "3", text=bad)
    check((status, errors) == (1, f"pie: record {len(ROWS) + 2}: wrong number of fields\n"), "a fault after the piece:", status, errors)


def cut_other_forms():
    """Columns in another order, unknown columns, and a name in quotes."""
    order = [*range(len(COLUMNS) - 1, 0, -1), 0]
    names = ["qid", "b_prob", *[COLUMNS[place] for place in order if place != 0]]
    few = [row for row in ROWS if row[0] == "eth2/1:/0"]
    rows = [['"a""b,c"', "5", *[row[place] for place in order if place != 0]] for row in few]
    text = text_of(rows, names)
    check(audited(text) == (0, f"clean,{len(rows)}\n", ""), "columns in another order:", audited(text))
    status, piece, errors = cut("--event", str(len(rows) - 2), "--around", "2", text=text)
    check((status, errors, audited(piece)[0]) == (0, "", 0) and piece.count('\n"a""b,c",') > 5, "a cut of these columns:", status, errors, audited(piece))


cut_in_segments(9)
cut_in_segments(83)
cut_in_segments(len(ROWS))
generator = random.Random(8033)
for _ in range(8):
    cut_by_moments(*sorted(generator.sample(sorted(set(MOMENTS)), 3)))
compare_first_rows()
cut_after_a_reset()
cut_before_returned_packets()
refuse_cuts()
cut_other_forms()
with tempfile.TemporaryDirectory() as folder:
    steps = f"{folder}/steps"
    Path(steps).write_text(TEXT)
    status, text, errors = run([], words=["cut", "--last", "40", steps])
    check((status, errors) == (0, ""), "--last:", status, errors)
    check_piece(text, len(ROWS) - 40, LINES[-40:])
    got = run([], words=["cut", "--last", "40", steps, "-o", f"{folder}/out"])
    check(got == (0, "", "") and Path(f"{folder}/out").read_text() == text, "-o:", got)
    for words in (["run"], ["migrate"], ["what-if", "--from", "0"]):
        hint = f"pie: the first record is not an open record\npie: {steps} is a text of pie-watch; pie audit, pie explain and pie cut read it\n"
        check(run([], words=[*words, steps]) == (1, "", hint), words, "of a named file:", run([], words=[*words, steps]))
    library = refusing(folder, "a cut of a text of pie-watch")
    if library:
        refuse_in_turn(library, f"{folder}/met", ["cut", "--every", "5"])
finish()
