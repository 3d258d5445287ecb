#!/usr/bin/env python3
"""Tests the reports of `pie explain` about a text of pie-watch (tests/rows/linux_steps.csv), and `--queue`.

A separate loop over the recorded numbers computes the event of each row: the state before a step is the recorded one after the step before of the
same flow; the verdict and the cause of an arrival follow from the recorded results and that state; a wait from the recorded moments.

- Each record of `--all --csv` is that event, of all queues and of each alone. `--lost`, `--marked`, `--tag`, `--event`, `--from` and `--to` choose
  those that they name.
- `--summary`, `--every` and `--flows`, in CSV, are sums over these events. In words they have the same numbers, and `--json` has the objects for the
  CSV. `--digest` has the summaries, and the lost and marked packets.
- In words, `--tag`, `--from`, `--to` and `--queue` choose among the packets of `--all`.
- One event has the same number, queue, size, verdict and cause in words (`--event`, `--lost`, `--marked`), in `--digest`, `--csv` and `--json`, and the
  same size, verdict and cause in the sums of `--full`. The name of a queue may need quotes in CSV, and is a string in JSON.
- The rows of other queues are not decided. A queue that the text lacks is an error, and so is `--queue` with a history.
- A step that differs is left out, and so are the later steps of its queue up to the next row init or resume. All other steps are reported.

usage: tests/program/linux_reports.py [PROGRAM]      PROGRAM: crates/pie/out/pie by default
needs: program
"""
import csv
import io
import json
import re
import sys
from collections import Counter, defaultdict
from pathlib import Path

sys.path.insert(0, str(Path(__file__).resolve().parents[1] / "shared"))
from checks import ROOT, check, finish  # noqa: E402
from running import TRACE  # noqa: E402
from running import run as run_program  # noqa: E402
from running import without_lacks  # noqa: E402

TEXT = (ROOT / "tests/rows/linux_steps.csv").read_text()
COLUMNS, *ROWS = list(csv.reader(TEXT.splitlines()))
WERE_LOST = "pie: steps that were lost when the text was recorded: 18829\n"
ONE = 2**56
STATE = ["qdelay", "qdelay_old", "burst_time", "prob", "accu_prob"]
VERDICTS = ["enqueue", "mark", "early", "bytes", "packets"]
CAUSES = ("no_room_in_bytes no_room_in_packets inactive burst_allowed low_delay short_queue no_probability little_accumulated picked_by_sum "
          "picked_by_sum_not_capable picked_by_sum_not_below picked_by_word picked_by_word_not_capable picked_by_word_not_below word_not_below").split()


def run(*words, rows=ROWS):
    """Returns the status, the output and the error stream of `pie explain WORDS` for these rows."""
    text = "".join(",".join(row) + "\n" for row in [COLUMNS, *rows])
    status, output, errors = run_program(["explain", *words], text.encode())
    return status, output.decode(), without_lacks(errors)


def table(*words, rows=ROWS):
    """Returns the records of `pie explain WORDS --csv`."""
    status, output, errors = run(*words, "--csv", rows=rows)
    check((status, errors.replace(WERE_LOST, "")) == (0, ""), words, status, errors)
    return list(csv.DictReader(io.StringIO(output)))


def parts(prob):
    return prob * 10**12 // ONE


class Queue:
    """The numbers of a queue, from its rows alone."""

    def __init__(self, row):
        self.flows, self.opening, self.first = int(row["x1"] or 1), 0, 0
        self.state = defaultdict(lambda: {name: int(row[f"a_{name}"]) for name in STATE} if row["kind"] == "pie" else dict.fromkeys(STATE, 0) | {"burst_time": 2343750})
        self.waiting, self.updates = defaultdict(list), {}
        self.change(row)

    def change(self, row):
        self.target, self.ecn, self.by_rate = (int(row[name]) for name in ("target", "ecn", "dqrate"))
        self.most = 10**11 if row["kind"] == "pie" else row["x0"] * 10**10


def ecn_of(row):
    """Returns the ECN field in the recorded header."""
    header = int(row["l3"] or "0", 16)
    bits = {"800": header % 4, "86dd": header // 16 % 4}.get(row["proto"], 0) if row["room"] else 0
    return ("not", "ect1", "ect0", "ce")[bits]


def decision(queue, row, before, marked):
    """Returns the verdict and the cause of an arrival, from the recorded results and the state before it."""
    if row["early"] == 255:
        return "packets", "no_room_in_packets"
    if row["ret"] or marked:
        how = f"picked_by_{'word' if row['nrnd'] else 'sum'}"
        if marked:
            return "mark", how
        above = not queue.ecn or parts(before["prob"]) > queue.most
        return "early", f"{how}_{'not_below' if above else 'not_capable'}"
    if row["nrnd"]:
        return "enqueue", "word_not_below"
    if before["burst_time"]:
        return "enqueue", "burst_allowed"
    if before["qdelay"] < queue.target // 2 and before["prob"] < (ONE - 1) // 5:
        return "enqueue", "low_delay"
    return "enqueue", "short_queue" if row["backlog"] < 2 * row["mtu"] else "little_accumulated"


def events(chosen=None, rows=ROWS):
    """Yields the events of these rows, or of one queue: numbers and names of the fields of a record, and the target and the time since the last update."""
    queues, counters, latest = {}, {}, 0
    for number, fields in enumerate(rows, 1):
        if fields[0] == "lost":
            queues.pop(fields[2], None)
            continue
        row = {name: field if name in ("qid", "kind", "type", "proto", "l3") else int(field or 0) for name, field in zip(COLUMNS, fields)}
        name, kind = row["qid"], row["type"]
        if chosen not in (None, name):
            continue
        latest = max(latest, row["ns"])
        if kind in ("init", "resume"):
            queues[name] = Queue(row)
            counters[name] = row["ecn_mark"]
        queue = queues[name]
        if row["ns"] and not queue.opening:
            queue.opening, queue.first = row["ns"], latest
        flow = row["flow"] if row["flow"] >= 0 else row["hash"] * queue.flows >> 32 if row["kind"] == "fq_pie" else 0
        before = dict(queue.state[flow])
        event = {"number": number, "queue": name, "moment": row["ns"], "effective_moment": latest, "target": queue.target * 64, "flow": flow}
        recorded = {name: row[f"a_{name}"] for name in STATE}
        if kind == "flow":
            queue.state[flow] = recorded
        if kind == "wait" and not row["x0"]:
            queue.waiting[flow].append(0)
        if kind == "enq":
            marked = row["ecn_mark"] > counters[name]
            counters[name] = row["ecn_mark"]
            verdict, cause = decision(queue, row, before, marked)
            queued = verdict in ("enqueue", "mark")
            if queued:
                queue.waiting[flow].append(row["ns"])
            queue.state[flow] = before | {"accu_prob": 0} if cause == "no_room_in_packets" else recorded
            event |= {"kind": "arrive", "verdict": verdict, "cause": cause, "size": row["pktlen"], "ecn": ecn_of(row), "word": row["rnd"], "tag": flow << 32,
                      "packets": row["qlen0"], "bytes": row["bl0"], "packets_after": row["qlen0"] + queued, "bytes_after": row["bl0"] + queued * row["pktlen"]}
        elif kind == "deq":
            since = queue.waiting[flow].pop(0)
            waited = row["ns"] - max(since, queue.opening) if queue.by_rate else (row["a_dq_tstamp"] - row["enq"]) * 64
            queue.state[flow] = recorded
            event |= {"kind": "depart", "verdict": "left", "cause": "", "size": row["pktlen"], "ecn": "not", "word": "", "tag": flow << 32, "waited": waited,
                      "packets_after": row["qlen1"], "bytes_after": row["bl1"], "packets": row["qlen1"] + 1, "bytes": row["bl1"] + row["pktlen"]}
        elif kind == "calc":
            queue.state[flow] = recorded
            event |= {"kind": "update", "verdict": "updated"}
        elif kind in ("change", "reset", "destroy"):
            if kind == "change":
                queue.change(row)
                del queue.waiting[flow][: row["size"]]
            if kind == "reset":
                queue.waiting.clear()
            queue.state[flow] = before if kind == "destroy" else recorded
            event |= {"kind": "params" if kind == "change" else "reset", "verdict": "done"}
        else:
            continue
        update = queue.updates.get(flow)
        event |= {"set_by": update[0] if update else "", "since": latest - (update[1] if update else queue.first), "target_after": queue.target * 64}
        if kind == "calc":
            queue.updates[flow] = number, latest
        for end, state in (("", before), ("_after", queue.state[flow])):
            event |= {f"delay{end}": state["qdelay"] * 64, f"probability{end}": parts(state["prob"]), f"accumulated_probability{end}": parts(state["accu_prob"]),
                      f"burst_allowance{end}": state["burst_time"] * 64}
        yield event


def hold_events(wanted, found, what):
    """Compares records with the events of the loop, in all fields that the loop has."""
    check([event["number"] for event in wanted] == [int(row["number"]) for row in found], what, "other events", len(wanted), len(found))
    for event, row in zip(wanted, found):
        wrong = {name: (row[name], event[name]) for name in row if name in event and row[name] != str(event[name])}
        check(not wrong, what, "event", event["number"], event["kind"], wrong)
        empty = ["size", "cause", "tag"] * (event["kind"] not in ("arrive", "depart")) + ["waited"] * (event["verdict"] != "left") + ["caller"] * 0
        check((row["caller"], row["active"], [row[name] for name in empty]) == ("0", "1", [""] * len(empty)), what, "event", event["number"], row)


def sums(some):
    """Returns the numbers of a summary of these events, by the names of its fields."""
    arrivals = [event for event in some if event["kind"] == "arrive"]
    left = [event for event in some if event["verdict"] == "left"]
    updates = [event for event in some if event["kind"] == "update"]
    waits = sorted(event["waited"] for event in left)
    by = Counter(event["verdict"] for event in arrivals) + Counter(event["cause"] for event in arrivals)
    return {name: by[name] for name in [*VERDICTS, *CAUSES]} | {
        "events": len(some), "first_moment": some[0]["effective_moment"], "last_moment": some[-1]["effective_moment"], "arrivals": len(arrivals),
        "arrived_bytes": sum(event["size"] for event in arrivals), "left": len(left), "carried_bytes": sum(event["size"] for event in left),
        "greatest_wait": max(waits, default=0), "mean_wait": sum(waits) // max(len(waits), 1), "updates": len(updates),
        "greatest_delay": max((event["delay_after"] for event in updates), default=0), "last_delay": updates[-1]["delay_after"] if updates else 0,
        "greatest_probability": max(event["probability_after"] for event in some), "last_probability": some[-1]["probability_after"],
        "last_target": some[-1]["target_after"], "last_burst_allowance": some[-1]["burst_allowance_after"],
        "waited_above_target": sum(event["waited"] > event["target"] for event in left),
        "time_above_target": sum(event["since"] for event in updates if event["delay_after"] > event["target"]), "turned_on": 0, "turned_off": 0}


def hold_sums(wanted, row, what):
    wrong = {name: (row[name], number) for name, number in wanted.items() if row[name] != str(number)}
    check(not wrong, what, wrong)


# ---- each event

ALL = list(events())
QUEUES = sorted({row[0] for row in ROWS if row[0] != "lost"})
kinds = Counter(event["kind"] for event in ALL)
causes = {event["cause"] for event in ALL if event["kind"] == "arrive"}
check(kinds == {"arrive": 179, "depart": 114, "update": 55, "reset": 5, "params": 4} and len(causes) == 8, "the rows have other events:", kinds, causes)
RECORDS = table("--all")
hold_events(ALL, RECORDS, "--all")
for name in QUEUES:
    hold_events(list(events(name)), table("--all", "--queue", name), name)
choices = {"--lost": lambda event: event["verdict"] in ("early", "packets"), "--marked": lambda event: event["verdict"] == "mark",
           "--tag=0": lambda event: event.get("tag") == 0, f"--tag={17 << 32}": lambda event: event.get("tag") == 17 << 32}
middle = ALL[len(ALL) // 3]["effective_moment"], ALL[len(ALL) // 2]["effective_moment"]
for words, is_chosen in choices.items():
    hold_events([event for event in ALL if is_chosen(event)], table(words), words)
within = [event for event in ALL if middle[0] <= event["effective_moment"] <= middle[1]]
hold_events(within, table("--all", f"--from={middle[0]}", f"--to={middle[1]}"), "--from --to")
one = next(event for event in ALL if event["kind"] == "update")
hold_events([one], table("--event", str(one["number"])), "--event")
lines = [line.rpartition(",") for line in run("--all", "--csv")[1].splitlines()]
check(lines[0][0].endswith(",active_after") and lines[0][2] == "queue", "the header", lines[0])
check(run("--all", "--csv", "--wall")[1] == "".join(f"{line[0]},{'' if at else 'wall'},{line[2]}\n" for at, line in enumerate(lines)), "--wall")

# ---- sums

hold_sums(sums(ALL), table("--summary")[0], "--summary")
check(table() == table("--summary"), "no choice")
for name in QUEUES:
    some = list(events(name))
    if some:
        hold_sums(sums(some), table("--summary", "--queue", name)[0], f"--summary --queue {name}")
chosen = [event for event in ALL if choices["--lost"](event)]
hold_sums(sums(chosen), table("--summary", "--lost")[0], "--summary --lost")
for every in (10**9, 10**7, 10**11):
    groups = defaultdict(list)
    for event in ALL:
        groups[event["effective_moment"] // every].append(event)
    found = table(f"--every={every}")
    check(len(found) == len(groups), "--every", every, len(found), len(groups))
    for group, row in zip(groups.values(), found):
        hold_sums(sums(group), row, f"--every {every}")
    # a line has the mean wait and the delay in thousandths of a millisecond
    lines = [line.split() for line in run(f"--every={every}")[1].splitlines()[1:]]
    check([line[1:4] for line in lines] == [[row["arrivals"], row["mark"], row["early"]] for row in found], "the lines of --every", every)
    check([line[5] for line in lines] == [f"{int(row['mean_wait']) // 10**6}.{int(row['mean_wait']) % 10**6 // 1000:03}" if row["left"] != "0" else "-" for row in found],
          "the waits in the lines of --every", every)
flows = defaultdict(list)
for event in ALL:
    if "tag" in event:
        flows[event["flow"]].append(event)
check(len(flows) == 7, "flows:", sorted(flows))
found = table("--flows", "1000")
order = sorted(flows, key=lambda flow: (-sums(flows[flow])["arrived_bytes"], flow))
check([int(row["flow"], 16) for row in found] == order, "--flows:", [row["flow"] for row in found], order)
for flow, row in zip(order, found):
    wanted = sums(flows[flow])
    hold_sums({name: wanted[name] for name in ("arrivals", "arrived_bytes", *VERDICTS, "left", "carried_bytes", "greatest_wait", "mean_wait")}, row, f"flow {flow}")

# a queue that the text lacks has no summary
for words in (["--summary"], ["--summary", "--csv"], ["--every=1s"], ["--flows=3", "--json"], ["--digest"], ["--lost"]):
    status, output, errors = run(*words, "--queue", "absent")
    check((status, output, errors.splitlines()[-1]) == (1, "", "pie: the text has no queue absent"), "--queue absent:", words, status, output, errors)

# ---- the other forms have the numbers of the CSV

for words in (["--all"], ["--summary"], ["--every=1s"], ["--flows=3"], ["--lost"]):
    objects = [json.loads(line) for line in run(*words, "--json")[1].splitlines()]
    texts = [{name: "" if field is None else str(field) for name, field in one.items()} for one in objects]
    check(texts == table(*words), "the objects of", words)
words = run("--summary")[1]
wanted = sums(ALL)
for part in (f"{wanted['events']} events, from ", f"  {wanted['arrivals']} arrivals, {wanted['arrived_bytes']} bytes\n", f"    burst_allowed: {wanted['burst_allowed']}, ",
             f"  {wanted['left']} packets left, with {wanted['carried_bytes']} bytes; they waited at most "):
    check(part in words, "--summary in words lacks", part, words)
check(run("--every=1s", "--full")[1].count(" events, from ") == len(table("--every=1s")), "--every --full")
# ---- packets in words


def blocks(*words, rows=ROWS):
    status, output, errors = run(*words, rows=rows)
    check((status, errors.replace(WERE_LOST, "")) == (0, ""), words, status, errors)
    return [f"event {block.rstrip()}\n" for block in ("\n" + output).split("\nevent ")[1:]]


def number_of(block):
    return int(block.split(":")[0][6:])


every = blocks("--all")
lost = [event for event in ALL if choices["--lost"](event) or choices["--marked"](event)]
words_of = {event["number"]: block for event in lost for block in every if number_of(block) == event["number"]}
digest = run("--digest")[1]
check(digest.endswith(run("--summary")[1]) and digest.count("\nevent ") + digest.startswith("event ") == len(lost) == len(words_of), "--digest", len(lost), digest.count("event "))
for event in lost:
    check(words_of[event["number"]] in digest, "--digest lacks event", event["number"])
    check(" caller " not in words_of[event["number"]], "caller in words", words_of[event["number"]])

# one event in each form: the same number, queue, size, verdict and cause
VERDICT_WORDS = {"MARKED": "mark", "DROPPED early": "early", "DROPPED over the limit": "packets", "queued": "enqueue"}
CAUSE_WORDS = {
    "the queue is at its limit (overlimit)": "no_room_in_packets", "picked: the accumulated probability (accu_prob) is at least 850 %": "picked_by_sum",
    "picked: the random word is below the probability": "picked_by_word", "queued: the random word is not below the probability": "word_not_below",
    "queued: burst allowance is left (burst_time)": "burst_allowed", "queued: fewer than two MTUs wait": "short_queue",
    "queued: the delay is below half the target, and the probability below 20 %": "low_delay",
    "queued: the accumulated probability (accu_prob) is below 85 %": "little_accumulated"}
ENDS = {"dropped: ecn is off": "_not_below", "dropped: the probability is above the limit for marks": "_not_below", "dropped: the packet cannot be marked": "_not_capable"}


def in_words(text, number):
    """Returns the event with this number in a text of words."""
    block = next(f"event {block}" for block in f"\n{text}".split("\nevent ")[1:] if block.startswith(f"{number}: "))
    first, *lines = block.split("\n")
    _, at, queue, _, _, size, _, verdict = re.match(r"(event) (\d+): queue (\S+), (step) (\d+), (\d+) (bytes): (.*)", first).groups()
    lines = [line.strip() for line in lines]
    cause = next(CAUSE_WORDS[line] for line in lines if line in CAUSE_WORDS)
    return at, queue, size, VERDICT_WORDS[verdict], cause + next((ENDS[line] for line in lines if line in ENDS), "")


def in_fields(record):
    return tuple(str(record[name]) for name in ("number", "queue", "size", "verdict", "cause"))


# a text in which the names of the queues need quotes in CSV, or are numbers
NAMES = {name: name if at > 1 else ('a,"1', "12")[at] for at, name in enumerate(QUEUES)}
QUOTED = {name: '"' + other.replace('"', '""') + '"' for name, other in NAMES.items()}
OTHER = [[QUOTED.get(row[0], row[0]), row[1], QUOTED.get(row[2], row[2]) if row[0] == "lost" else row[2], *row[3:]] if len(row) > 2 else row for row in ROWS]
renamed = table("--all", rows=OTHER)
check([row["queue"] for row in renamed] == [NAMES[row["queue"]] for row in RECORDS] and len({row["queue"] for row in renamed} & {'a,"1', "12"}) == 2, "names of queues")
check([json.loads(line)["queue"] for line in run("--all", "--json", rows=OTHER)[1].splitlines()] == [row["queue"] for row in renamed], "names of queues in JSON")

queued = [event for event in ALL if event["kind"] == "arrive" and event["verdict"] == "enqueue"]
for event in lost[:5] + lost[-5:] + queued[:3]:
    number, wanted = str(event["number"]), in_fields(event)
    is_lost = event in lost
    choice = "--marked" if event["verdict"] == "mark" else "--lost"
    check(in_words(run("--event", number)[1], number) == wanted, "in words", wanted, run("--event", number)[1])
    for words in [(choice,), ("--digest",), ("--digest", choice), ("--digest", choice, "--every=1s", "--full")] * is_lost:
        text = run(*words)[1]
        check(in_words(text, number) == wanted and run("--event", number)[1] in text, words, "of", wanted)
    record, object = table("--event", number)[0], json.loads(run("--event", number, "--json")[1])
    check(in_fields(record) == wanted == in_fields(object), "--csv and --json of", wanted, record, object)
    check({name: "" if field is None else str(field) for name, field in object.items()} == record, "--json of event", number, object)
    full = run("--event", number, "--every=1s", "--full")[1]
    sum_of = table("--event", number, "--every=1s")[0]
    check(f"1 events, from " in full and f"  1 arrivals, {event['size']} bytes\n" in full, "--full of", wanted, full)
    check([name for name in VERDICTS + CAUSES if sum_of[name] == "1"] == [event["verdict"], event["cause"]], "the sums of", wanted, sum_of)

moments = {event["number"]: event["effective_moment"] for event in ALL}
check(blocks("--all", f"--from={middle[0]}", f"--to={middle[1]}") == [block for block in every if middle[0] <= moments[number_of(block)] <= middle[1]], "--from and --to in words")
tagged = {event["number"] for event in ALL if event["kind"] == "arrive" and event["tag"] == 17 << 32}
check(tagged and blocks(f"--tag={17 << 32}") == [block for block in every if number_of(block) in tagged], "--tag in words")
for name in QUEUES:
    check(blocks("--all", "--queue", name) == [block for block in every if f": queue {name}, step " in block], "--all of queue", name)

# ---- a queue alone, and ends

name = QUEUES[0]
at = next(at for at, row in enumerate(ROWS) if row[0] != name and row[COLUMNS.index("type")] == "calc")
prob = COLUMNS.index("a_prob")
wrong = [*ROWS[:at], [*ROWS[at][:prob], str(int(ROWS[at][prob] or 0) + 1), *ROWS[at][prob + 1 :]], *ROWS[at + 1 :]]
again = next((later for later in range(at + 1, len(ROWS)) if ROWS[later][0] == ROWS[at][0] and ROWS[later][COLUMNS.index("type")] in ("init", "resume")), len(ROWS))
left = [row for row in RECORDS if not (at < int(row["number"]) <= again and ROWS[int(row["number"]) - 1][0] == ROWS[at][0])]
check(at < again < len(ROWS) and 0 < len(left) < len(RECORDS), "no step of the queue of row", at, "is left out, or none is reported after", again)
for words in (["--all"], ["--summary"], ["--every=1s"], ["--flows=5"], ["--digest"]):
    status, output, errors = run(*words, "--csv", rows=wrong)
    check(status == 2 and errors.startswith(f"pie: event {at + 1} is not what the rules give there") and f"a_prob is recorded as" in errors, words, status, errors)
    check(words != ["--all"] or list(csv.DictReader(io.StringIO(output))) == left, words, "reports other events than those that are not left out")
    check(words != ["--summary"] or next(csv.DictReader(io.StringIO(output)))["events"] == str(len(left)), words, output)
    check(run(*words, "--csv", "--queue", name, rows=wrong) == run(*words, "--csv", "--queue", name), words, "of another queue than the one that differs")
for words in (["--all"], ["--summary"], ["--lost"], ["--all", "--csv"]):
    status, output, errors = run(*words, "--queue", "x")
    check((status, errors) == (1, "pie: the text has no queue x\n"), words, "of no queue:", status, errors)
history = run_program(["run"], TRACE)[1]
check(run_program(["explain", "--queue", "x"], history) == (1, b"", b"pie: --queue is only for a text of pie-watch\n"), "a history with --queue")
check(run("--tag=5", "--csv")[::2] == (1, f"{WERE_LOST}pie: no packet has the tag 5\n"), "no tag", run("--tag=5", "--csv"))
check(run("--event=1", "--csv", "--queue", name)[0] == 1 and run("--event=1", "--from=1h", "--csv")[::2] == (1, f"{WERE_LOST}pie: no chosen event is at the moments that are wanted\n"),
      "no event", run("--event=1", "--from=1h", "--csv"))
finish()
