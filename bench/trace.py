#!/usr/bin/env python3
"""Writes a trace to standard output; the same seed gives the same bytes.

usage: bench/trace.py RECORDS [SEED] [plain|mixed]

The first record opens the controller, and RECORDS records follow.

plain (the default): arrivals of 64 to 1500 bytes by four callers and departures by a fifth, in about equal numbers, at
increasing moments. The event log has room for all events.

mixed: a link that is loaded for a while, then idle for a while. The records are arrivals and departures, an update at
each due moment, and sometimes new parameters, a reset, `show` or `tally`. Before the event log is full, it is folded.
"""
import random
import sys

NINE = (15000000, 15000000, 150000000, 125, 1250, 1024, 262144, 100000000000, 16384)
TAIL = 65536
BUSY, CALM = 2000000000, 200000000


def plain(records, words):
    yield f"open,0,1024,1048576,{records}\n"
    moment, tag = 0, 0
    for _ in range(records):
        moment += words.randrange(2000)
        if words.random() < 0.5:
            tag += 1
            yield arrival(words, moment, tag)
        else:
            yield f"depart,5,{moment}\n"


def arrival(words, moment, tag):
    ecn = ("not", "ect1", "ect0", "ce")[words.randrange(4)]
    return f"arrive,{words.randrange(1, 5)},{moment},{tag},{words.randrange(64, 1501)},{ecn},{words.getrandbits(64)}\n"


def mixed(records, words):
    yield f"open,0,1024,{TAIL},{records},{','.join(map(str, NINE))}\n"
    moment, due, tag, held = 0, NINE[1], 0, 0
    for number in range(records):
        # A packet of about 780 bytes departs every hundred microseconds: some 60 million bits a second.
        moment += words.randrange(100000)
        busy = moment // (BUSY + CALM) * (BUSY + CALM) + BUSY > moment
        if held + 1 >= TAIL:
            yield f"fold,{held}\n"
            held = 0
        elif moment >= due:
            yield f"update,6,{moment}\n"
            due, held = moment + NINE[1], held + 1
        elif number % 50021 == 50020:
            target = (15000000, 20000000)[words.randrange(2)]
            yield f"params,7,{moment},{target},{','.join(map(str, NINE[1:]))}\n"
            held += 1
        elif number % 200003 == 200002:
            yield f"reset,7,{moment}\n"
            held += 1
        elif number % 10007 == 10006:
            yield "show\n"
        elif number % 100003 == 100002:
            yield "tally\n"
        elif words.random() < (0.52 if busy else 0.35):
            tag, held = tag + 1, held + 1
            yield arrival(words, moment, tag)
        else:
            held += 1
            yield f"depart,5,{moment}\n"


def main() -> None:
    records = int(sys.argv[1])
    words = random.Random(int(sys.argv[2]) if len(sys.argv) > 2 else 1)
    kind = mixed if len(sys.argv) > 3 and sys.argv[3] == "mixed" else plain
    lines = []
    for line in kind(records, words):
        lines.append(line)
        if len(lines) == 65536:
            sys.stdout.write("".join(lines))
            lines.clear()
    sys.stdout.write("".join(lines))


main()
