#!/usr/bin/env python3
"""Compares `pie explain --flows` with a separate count over the records of `pie explain --all
--csv`: for each history of examples/, and for random ones by tests/shared/reference.py whose tags
receive flows in their upper 32 bits. It tries all events, events within some moments, lost ones,
and each interval, in words and as CSV, for one flow, for some, and for more than there are. The
exit status is 1 if something differs.

usage: tests/program/flows.py [PROGRAM [FIRST_SEED [RUNS [STEPS]]]]      PROGRAM: crates/pie/out/pie by default
needs: program
"""
import os
import random
import sys
from itertools import compress

sys.path.insert(0, f"{os.path.dirname(os.path.abspath(__file__))}/../shared")
from checks import expect  # noqa: E402
from explaining import LOST, hold_each, millis, pie, records, within, written  # noqa: E402

VERDICTS = ("enqueue", "mark", "early", "bytes", "packets")
NAMES = ["arrivals", "arrived_bytes", *VERDICTS, "left", "carried_bytes", "greatest_wait", "mean_wait", "byte_microseconds"]
FLOWS = (0, 1, 0x10, 0xFFFFFFFF, 0x80000000, 0x9C1DE0A7, 0x12345678, 7)


def with_flows(history, seed):
    """Returns the history with a flow above each packet's tag. Most flows have few packets, so that some have equally many bytes."""
    picks = random.Random(seed)
    flows, lines = {}, history.splitlines(keepends=True)
    for number, line in enumerate(lines):
        fields = line.split(",")
        place = {"arrive": 3, "depart": 4}.get(fields[0])
        if place is not None and len(fields) > place and (fields[0] == "arrive" or fields[3] == "left"):
            tag = int(fields[place])
            flow = flows.setdefault(tag, FLOWS[min(int(picks.expovariate(0.7)), len(FLOWS) - 1)])
            fields[place] = str(flow << 32 | tag & 0xFFFFFFFF)
            lines[number] = ",".join(fields)
    return "".join(lines)


def share(part, whole):
    parts = part * 10**6 // max(whole, 1)
    return f"{parts // 10**4}.{parts % 10**4:04} %"


def flow_of(row):
    """Returns the flow of a record of an arrival or of a packet that left; None for any other."""
    return int(row["tag"]) >> 32 if row["kind"] == "arrive" or row["verdict"] == "left" else None


def numbers(rows):
    arrivals = [row for row in rows if row["kind"] == "arrive"]
    left = [row for row in rows if row["verdict"] == "left"]
    waits = [int(row["waited"]) for row in left]
    found = {"arrivals": len(arrivals), "arrived_bytes": sum(int(row["size"]) for row in arrivals)}
    found |= {verdict: sum(row["verdict"] == verdict for row in arrivals) for verdict in VERDICTS}
    found |= {"left": len(left), "carried_bytes": sum(int(row["size"]) for row in left)}
    found |= {"greatest_wait": max(waits, default=0), "mean_wait": sum(waits) // max(len(waits), 1)}
    return found | {"byte_microseconds": sum(int(row["size"]) * (int(row["waited"]) // 1000) for row in left)}


def by_flow(rows, most):
    """Returns the flows of these records in order: each flow's number and statistics, and last those of all other
    flows with their number."""
    flows = {}
    for row in rows:
        if flow_of(row) is not None:
            flows.setdefault(flow_of(row), []).append(row)
    order = sorted(flows, key=lambda flow: (-numbers(flows[flow])["arrived_bytes"], flow))
    found = [(f"0x{flow:08x}", numbers(flows[flow])) for flow in order[:most]]
    others = order[most:]
    if others:
        found.append((len(others), numbers([row for flow in others for row in flows[flow]])))
    return found, len(order), numbers([row for flow in order for row in flows[flow]])


def span(rows):
    moments = [int(row["effective_moment"]) for row in rows]
    return (moments[0], moments[-1]) if moments else (0, 0)


def in_words(rows, most):
    found, count, total = by_flow(rows, most)
    first, last = span(rows)
    lines = [f"{len(rows)} events, from {millis(first)} to {millis(last)}"]
    lines += [f"  {count} flows: {total['arrivals']} arrivals, {total['arrived_bytes']} bytes"]
    for name, n in found:
        name = f"flow {name}" if isinstance(name, str) else f"the other {name} flows"
        of_all, of_queue = share(n["arrived_bytes"], total["arrived_bytes"]), share(n["byte_microseconds"], total["byte_microseconds"])
        lines += [f"  {name}: {n['arrivals']} arrivals, {n['arrived_bytes']} bytes, {of_all} of all; {of_queue} of the queue"]
        lines += [f"    queued {n['enqueue']}, marked {n['mark']}, dropped early {n['early']}, without room in bytes {n['bytes']}, in packets {n['packets']}"]
        lines += [f"    left {n['left']}, with {n['carried_bytes']} bytes; they waited at most {millis(n['greatest_wait'])}, on average {millis(n['mean_wait'])}"]
    return "".join(line + "\n" for line in lines)


def in_csv(rows, most):
    first, last = span(rows)
    lines = []
    for name, n in by_flow(rows, most)[0]:
        lines.append([first, last, name if isinstance(name, str) else "others", *(n[field] for field in NAMES)])
    return "".join(",".join(map(str, line)) + "\n" for line in lines)


HEADER = ",".join(["first_moment", "last_moment", "flow", *NAMES]) + "\n"


def by_period(rows, every):
    """Returns the records of each interval that has some."""
    periods = [int(row["effective_moment"]) // every for row in rows]
    starts = [place for place in range(len(rows)) if place == 0 or periods[place] != periods[place - 1]]
    return [rows[start:end] for start, end in zip(starts, [*starts[1:], len(rows)])]


def hold(name, history, words):
    history = with_flows(history, words.randrange(2**32))
    _, rows, moments = records(name, history)
    length = max(moments[-1] - moments[0], 100)
    for options, are_kept in within(moments, words):
        kept = list(compress(rows, are_kept))
        for which, some in (((), kept), (("--lost",), [row for row in kept if row["verdict"] in LOST])):
            most = words.choice((1, 2, 3, 5, len(FLOWS) - 1, len(FLOWS), 1000))
            every = words.choice((10**6, length // 2 + 1, length // words.randrange(3, 30) + 1))
            period, flows = f"--every={written(every, words)}", f"--flows={most}"
            for form, told in (((), in_words), (("--csv",), in_csv)):
                header = HEADER if form else ""
                got = pie(history, *words.choice(((), ("--summary",))), flows, *form, *which, *options)
                expect(f"{name}: {flows} {form} {which} {options}", got, (0, header + told(some, most), ""))
                got = pie(history, flows, *options, *which, *form, period)
                wanted = header + "".join(told(part, most) for part in by_period(some, every))
                expect(f"{name}: {flows} {period} {form} {which} {options}", got, (0, wanted, ""))


def by_wall():
    """Checks wall-clock times: those of the events if the history has them, otherwise an empty field."""
    history = "open3,1,rate,derandomized,capped,unscaled,bounded,0,4,16,100\narrive,1,1500000,42949672967,100,ect0,0,enqueue\n"
    told = pie(history, "--flows", "1", "--wall", "--csv")
    expect("--wall without a clock", (told[0], told[1].splitlines()[0][-5:], told[1].splitlines()[1][-3:]), (0, ",wall", ",0,"))
    history = history.replace("100\n", "100\nclock,1000000,1795550400000000000\n", 1)
    told = pie(history, "--flows", "1", "--wall", "--csv")
    wanted = "1500000,1500000,0x0000000a,1,100,1,0,0,0,0,0,0,0,0,0,2026-11-24T20:00:00.000500000Z"
    expect("--wall", (told[0], told[1].splitlines()[1:]), (0, [wanted]))
    words = pie(history, "--flows", "1", "--wall")[1].splitlines()[1]
    expect("--wall in words", words, "  in wall-clock time from 2026-11-24T20:00:00.000500000Z to 2026-11-24T20:00:00.000500000Z")


def many():
    """Tests more than 2^16 flows in one interval: each must have a record, and memory must
    suffice."""
    count = (1 << 16) + 1000
    arrivals = "".join(f"arrive,1,5,{flow << 32},{1 + flow % 9},not,0,{'packets' if flow else 'enqueue'}\n" for flow in range(count))
    status, text, errors = pie(f"open,0,1,16,1000000\n{arrivals}", "--csv", "--flows", "1", "--every", "1s")
    first, others = text.splitlines()[1:]
    size = sum(1 + flow % 9 for flow in range(count))
    expect("many flows", (status, errors, first.split(",")[:5], others.split(",")[2:5]),
           (0, "", ["5", "5", "0x00000008", "1", "9"], ["others", str(count - 1), str(size - 9)]))
    words = pie(f"open,0,1,16,1000000\n{arrivals}", "--flows", "1")[1].splitlines()
    expect("many flows, in words", words[1], f"  {count} flows: {count} arrivals, {size} bytes")


def long_waits():
    """Tests waits whose sum is above 2^64 ns: the mean must be that of the summary."""
    last = (1 << 60) - 1
    history = "open,0,64,1024,1000\n" + "".join(f"arrive,1,0,{7 << 32 | tag},1000,not,0,enqueue\n" for tag in range(40))
    history += "".join(f"depart,2,{last},left,{7 << 32 | tag},1000,not\n" for tag in range(40))
    fields, row = (line.split(",") for line in pie(history, "--csv", "--flows", "1")[1].splitlines())
    expect("long waits", (row[2], dict(zip(fields, row))["mean_wait"]), ("0x00000007", str(last)))
    names, numbers_told = (line.split(",") for line in pie(history, "--csv", "--summary")[1].splitlines())
    expect("long waits, of all", dict(zip(names, numbers_told))["mean_wait"], str(last))


def refusals():
    history = "open,0,4,16,100\nreset,1,1500000,done\n"
    expect("--flows --digest", pie(history, "--flows=2", "--digest"), (1, "", "pie: --flows cannot be combined with --digest\n"))
    for text in ("0", "1001", "x"):
        expect(f"--flows {text}", pie(history, "--flows", text)[0], 1)


def main():
    refusals()
    by_wall()
    many()
    long_waits()
    hold_each(hold, "their flows are summed up as they have to be")


main()
