#!/usr/bin/env python3
"""Runs the program on large inputs, and compares its output with a line of Python for each record: 1.2 million
events that are run, audited, migrated and explained; a fold of the greatest log, 2^20 events, and folds of 5000; a
full log; 65536 packets, and one too many; packets with the tag 0; an excerpt with 70,000 packets and 60,000 events,
which is cut, run, audited, explained, cut again and cut into segments; faults after record 100,000, in the last of
70,000 packets and after 2.5 million records; ten million records with a short log, also summed up; and 2.5 million
explanations. Each command stores one record, its queue and
its log, so its memory does not grow with the text: it runs with its address space limited to MEMORY bytes.

usage: tests/program/large.py [PROGRAM]      PROGRAM: crates/pie/out/pie by default
needs: program"""
import os
import resource
import subprocess
import sys
import tempfile

sys.path.insert(0, f"{os.path.dirname(os.path.abspath(__file__))}/../shared")
from checks import NAME, check, finish, program  # noqa: E402

PROGRAM = program()
TAIL, PACKETS, PAIRS, FOLD, MANY, EXPLAINED = 2**20, 65536, 600_000, 5000, 10_000_000, 2_500_000
# No queue here reaches the dq_threshold of 65536 bytes, so no delay and no probability is above 0.
OPENING = f"0,{PACKETS},{TAIL},4194304,15000000,15000000,150000000,125,1250,1024,262144,100000000000,65536\n"
# An excerpt of a deeper queue. At its first departure the queue has at least dq_threshold bytes, so a cycle of the
# departure rate begins, which does not end.
QUEUED, LEAVING, HALF = 70_000, 60_000, 50_001
CHOICES = "1,rate,derandomized,capped,unscaled,bounded"
DEEP = f"0,{QUEUED},{TAIL},4194304,15000000,15000000,150000000,125,1250,1024,262144,100000000000,65536\n"
HEADER = (
    "number,kind,caller,moment,effective_moment,tag,size,verdict,cause,bytes,packets,delay,probability,accumulated_probability,burst_allowance,"
    "ecn,word,waited,active,set_by,bytes_after,packets_after,delay_after,probability_after,accumulated_probability_after,burst_allowance_after,"
    "active_after\n"
)
NONE = "0.000000 ms"
SUMMARY = f"""{MANY} events, from 0.000001 ms to 0.000001 ms
  0 arrivals, 0 bytes
    queued: 0, 0.0000 %
    queued and marked: 0, 0.0000 %
    dropped early: 0, 0.0000 %
    dropped, no room in bytes: 0, 0.0000 %
    dropped, no room in packets: 0, 0.0000 %
  by cause
  0 packets left, with 0 bytes; they waited at most {NONE},
    on average {NONE}, and 99 of 100 at most {NONE}
  0 updates; the greatest delay was {NONE}, and the last {NONE}
  the greatest probability was 0.0000 %, and the last 0.0000 %
  the delay was above the target for {NONE}
  0 packets, 0.0000 % of those that left, waited longer than the target,
    at the head of the queue for {NONE}
  after the last event the target was 15.000000 ms, and the burst allowance 150.000000 ms:
    until it is used up, no packet is marked or dropped early
"""
# (the log takes 112 bytes for each event, and each of two rings at most 48 bytes for each packet)
MEMORY = 512 * 2**20
ECNS = ("not", "ect1", "ect0", "ce")


class Course:
    """A trace and its expected output, record by record."""

    def __init__(self, opening=OPENING):
        self.trace, self.history, self.migrated, self.explained = [f"open,{opening}"], [f"open,{opening}"], [f"open2,1,bounded,{opening}"], [HEADER]
        self.events, self.waiting, self.bytes, self.next = 0, 0, 0, 0
        self.arrived = {}

    def record(self, asked, told, migrated=None):
        self.trace.append(asked)
        self.history.append(told)
        self.migrated.append(migrated or told)

    def arrive(self, moment, tag, size, verdict="enqueue", cause="burst_allowed"):
        ecn = ECNS[tag % 4]
        asked = f"arrive,{tag % 65536},{moment},{tag},{size},{ecn},{tag}"
        self.record(f"{asked}\n", f"{asked},{verdict}\n")
        self.arrived[tag] = moment
        grown = (self.bytes + size, self.waiting + 1) if verdict == "enqueue" else (self.bytes, self.waiting)
        self.explain(f"arrive,{tag % 65536},{moment},{moment},{tag},{size},{verdict},{cause}", f"{ecn},{tag},", *grown)

    def depart(self, moment, tag, size):
        asked = f"depart,7,{moment}"
        self.record(f"{asked}\n", f"{asked},left,{tag},{size},{ECNS[tag % 4]}\n")
        waited = moment - self.arrived.pop(tag)
        self.explain(f"depart,7,{moment},{moment},{tag},{size},left,", f"{ECNS[tag % 4]},,{waited}", self.bytes - size, self.waiting - 1)

    def explain(self, event, more, size, packets):
        """Adds the record of an event after which the queue has this size in bytes and in packets."""
        self.events += 1
        rest = "0,0,0,150000000"
        self.explained.append(f"{self.events},{event},{self.bytes},{self.waiting},{rest},{more},1,,{size},{packets},{rest},1\n")
        self.bytes, self.waiting = size, packets


def size_of(tag):
    return 1 + tag % 1500


def many_events():
    """Adds packets, each of which departs before the next arrives."""
    course = Course()
    fold = TAIL
    held = 0
    for tag in range(PAIRS):
        for step in range(2):
            if held == fold:
                if fold == TAIL:
                    course.record("depart,7,1\n", f"refused,{TAIL + 2},5\n")
                course.record(f"fold,{held}\n", f"folded,{held}\n")
                held, fold = 0, FOLD
            if step == 0:
                course.arrive(2 * tag, tag, size_of(tag))
            else:
                course.depart(2 * tag + 1, tag, size_of(tag))
            held += 1
    shown = f"shown,{2 * PAIRS},{2 * PAIRS - 1},0,0,0,0,0,150000000,0,0,0"
    course.record("show\n", f"{shown}\n", f"{shown},1\n")
    every = sum(size_of(tag) for tag in range(PAIRS))
    course.record("tally\n", f"tallied,{PAIRS},{PAIRS},0,0,0,0,{PAIRS},{every},0,0,0,0,{size_of(1499)},0,{PAIRS}\n")
    course.record(f"fold,{held + 1}\n", f"refused,{len(course.trace) + 1},6\n")
    return course


def full_queue():
    """Fills a queue with the most packets that it can have, and one more; then they depart in order."""
    course = Course()
    for tag in range(PACKETS):
        course.arrive(tag, tag, 1)
    course.arrive(PACKETS, PACKETS, 1, "packets", "no_room_in_packets")
    for tag in range(PACKETS):
        course.depart(PACKETS + tag, tag, 1)
    course.arrive(2 * PACKETS, 0, 1)
    course.record("tally\n", f"tallied,{PACKETS + 2},{PACKETS + 1},0,0,0,1,{PACKETS},{PACKETS},0,0,0,0,{PACKETS},0,{PACKETS * PACKETS}\n")
    return course


def resumed(number, moment, waited):
    """Returns the preamble of an excerpt of `deep_queue` that begins after this number of events at this moment. Packets
    of 1 byte arrived at the moments 0 to QUEUED - 1, and from then on they departed in order; the sum of their waits is
    `waited`. No update was made. The cycle of the departure rate counts the bytes after its first departure."""
    left = max(number - QUEUED, 0)
    packets = min(number, QUEUED) - left
    burst = DEEP.split(",")[6]
    nine = ",".join(DEEP.rstrip().split(",")[4:])
    cycle = f"1,{QUEUED},{left - 1}" if left else "0,0,0"
    registers = f"{packets},{packets},{moment},0,0,0,{burst},0,0,{cycle},0,1"
    stats = f"{QUEUED},{QUEUED},0,0,0,0,{left},{left},0,0,0,0,{QUEUED},0,{waited}"
    first = f"resume,{CHOICES},0,{QUEUED},{TAIL},4194304,{nine},{nine},{number},0,{registers},{stats}\n"
    return [first] + [f"queued,{tag},1,{ECNS[tag % 4]},{tag}\n" for tag in range(left, QUEUED)]


def deep_excerpt(work):
    """Cuts an excerpt with QUEUED packets and LEAVING events from a history, and processes it."""
    name = f"an excerpt with {QUEUED} packets:"
    course = Course(DEEP)
    course.trace[0] = course.history[0] = f"open3,{CHOICES},{DEEP}"
    for tag in range(QUEUED):
        course.arrive(tag, tag, 1)
    for tag in range(LEAVING):
        course.depart(QUEUED + tag, tag, 1)
    start, last = QUEUED, QUEUED + LEAVING
    preamble = resumed(start, QUEUED - 1, 0)
    events = course.history[1 + start :]
    excerpt = preamble + events
    compare(work, name, ["cut", "--last", str(LEAVING), "given"], course.history, excerpt)
    compare(work, name, ["cut", "--event", str(last), "--around", str(LEAVING - 1)], course.history, excerpt)
    compare(work, name, ["cut", "--from", str(QUEUED)], course.history, excerpt)
    compare(work, name, ["cut", "--last", str(last), "given"], excerpt, excerpt)
    compare(work, name, ["run"], preamble + course.trace[1 + start :], excerpt)
    compare(work, name, ["audit"], excerpt, [f"clean,{last}\n"])
    compare(work, name, ["explain", "--all", "--csv"], excerpt, [HEADER] + course.explained[1 + start :])
    # (the packet with the tag t departs at QUEUED + t and arrived at t)
    middle = resumed(start + HALF, QUEUED + HALF - 1, HALF * QUEUED)
    compare(work, name, ["cut", "--every", str(HALF)], excerpt, preamble + events[:HALF] + middle + events[HALF:])
    # a fault after record 100,000, with the number of its record
    for text in (course.history, excerpt):
        fault = f"record {len(text) + 1}: unknown word\n"
        for words in (["audit"], ["explain", "--summary"], ["cut", "--last", "1", "given"], ["cut", "--every", str(LEAVING)]):
            cause = f'pie: line {len(text) + 1} of given, field 4 (answer): "lef"; allowed is empty\n'
            told = f"{fault}{cause}" if "given" in words else fault
            compare(work, f"{name} with a fault:", words, text + ["depart,7,1,lef\n"], None, (1, told))
    # the last packet arrives before its predecessor, whose moment bounds it
    damaged = [*excerpt]
    damaged[QUEUED] = f"queued,{QUEUED - 1},1,{ECNS[(QUEUED - 1) % 4]},0\n"
    cause = f'pie: line {QUEUED + 1} of given, field 5 (since): "0"; allowed is a number from {QUEUED - 2} to {QUEUED - 1}\n'
    told = f"record {QUEUED + 1}: a packet that arrived before its predecessor\n{cause}"
    compare(work, f"{name} with a fault:", ["audit", "given"], damaged, [], (1, told))
    print(f"{NAME}: {name} {len(excerpt)} records")


def ten_million(work):
    """Runs more events than any log contains: departures of an empty queue in a rolling book with a
    log of sixteen, and then the registers."""
    opening = "open2,1,rolling,0,1,16,1099511627776\n"
    history = [opening, "depart,7,1,empty\n" * MANY, f"shown,{MANY},1,0,0,0,0,0,150000000,0,0,0,1\n"]
    compare(work, "ten million records:", ["run"], [opening, "depart,7,1\n" * MANY, "show\n"], history)
    compare(work, "ten million records:", ["audit"], history, [f"clean,{MANY}\n"])
    compare(work, "ten million records:", ["migrate"], history, history)
    compare(work, "ten million records:", ["explain", "--summary"], history, [SUMMARY])
    # (these explanations of 2.5 million events take 190 megabytes)
    history[1] = "depart,7,1,empty\n" * EXPLAINED
    explained = (f"{number},depart,7,1,1,,,empty,,0,0,0,0,0,150000000,,,,1,,0,0,0,0,0,150000000,1\n" for number in range(1, EXPLAINED + 1))
    compare(work, "2.5 million explanations:", ["explain", "--all", "--csv"], history[:2], [HEADER, *explained])
    last = EXPLAINED + 2
    told = f'record {last}: unknown word\npie: line {last} of given, field 4 (answer): "lef"; allowed is empty\n'
    compare(work, "2.5 million records with a fault:", ["audit", "given"], [*history[:2], "depart,7,1,lef\n"], [], (1, told))


def limit():
    resource.setrlimit(resource.RLIMIT_AS, (MEMORY, MEMORY))


def compare(work, name, words, given, wanted, end=(0, "")):
    """Compares the program's output for this text, its status, and the end of its error stream. `wanted` is None if the
    output may be any."""
    with open(f"{work}/given", "w", encoding="ascii") as file:
        file.writelines(given)
    with open(f"{work}/given", "rb") as file, open(f"{work}/output", "wb") as output:
        done = subprocess.run([PROGRAM, *words], stdin=file, stdout=output, stderr=subprocess.PIPE, preexec_fn=limit, timeout=3000, cwd=work)
    error = done.stderr.decode()
    check(done.returncode == end[0] and error.endswith(end[1]) and (error != "") == (end[1] != ""), name, *words, done.returncode, error[:100])
    if wanted is None:
        return
    with open(f"{work}/output", encoding="latin-1") as file:
        text = file.read()
    want = "".join(wanted)
    place = next((at for at in range(min(len(text), len(want))) if text[at] != want[at]), None) if text != want else None
    where = "" if text == want else f"other output, {len(text)} bytes and not {len(want)}, at {place}: {text[place or 0:][:80]!r}"
    check(text == want, name, *words, where)


def main():
    with tempfile.TemporaryDirectory() as work:
        for name, course in (("many events:", many_events()), ("65536 packets:", full_queue())):
            compare(work, name, ["run"], course.trace, course.history)
            compare(work, name, ["audit"], course.history, [f"clean,{course.events}\n"])
            compare(work, name, ["migrate"], course.history, course.migrated)
            compare(work, name, ["audit"], course.migrated, [f"clean,{course.events}\n"])
            compare(work, name, ["explain", "--all", "--csv"], course.history, course.explained)
            of_tag = [line for line in course.explained if line == HEADER or line.split(",")[5] == "0"]
            compare(work, name, ["explain", "--tag", "0", "--csv"], course.history, of_tag)
            compare(work, name, ["explain", "--csv", "--event", str(course.events)], course.history, [HEADER, course.explained[-1]])
            print(f"{NAME}: {name} {len(course.trace)} records, {course.events} events")
        deep_excerpt(work)
        ten_million(work)
    finish()


main()
