#!/usr/bin/env python3
"""Writes the traces of this folder, each of which shows one purpose of PIE. The output is always the same.

usage: examples/traces.py [FOLDER]

A packet has 1250 bytes. A link of 10 Mbit/s sends one a millisecond; a link of 5 Mbit/s one each two milliseconds. There is an
update each 15 milliseconds. Caller 1 sends, caller 2 is the link, caller 3 makes updates, and caller 4 is the operator.
"""
import random
import sys
from pathlib import Path

MS = 1_000_000
SIZE = 1250
UPDATE = 15 * MS
# The default parameters, a ring of 1000 packets, and a rolling event log of 1000 events. The order
# of the parameters is
# target, t_update, max_burst, alpha, beta, mean_pkt, limit_bytes, mark_ecnth and dq_threshold.
OPENING = "rolling,0,1000,1000,1000000"


def steady(first, last, gap):
    count = int((last - first) / gap)
    return [round((first + i * gap) * MS) for i in range(count)]


def written(opening, arrivals, departs, updates, others=(), ecns=("not",), seed=1):
    """Returns the records by moment. At one moment departures come first, then arrivals, then an
    update."""
    words = random.Random(seed)
    events = [(moment, 0, f"depart,2,{moment}") for moment in departs] + [(moment, 2, f"update,3,{moment}") for moment in updates]
    events += [(moment, 3, record) for moment, record in others]
    for tag, moment in enumerate(sorted(arrivals), 1):
        ecn = ecns[tag % len(ecns)]
        events.append((moment, 1, f"arrive,1,{moment},{tag},{SIZE},{ecn},{words.getrandbits(64)}"))
    return "\n".join([opening, *[record for _, _, record in sorted(events, key=lambda event: event[:2])]]) + "\n"


def burst():
    """Returns the trace of a link of 10 Mbit/s at half load. At 30 ms forty packets arrive at once: 50 kilobytes, 40 milliseconds of the link."""
    arrivals = steady(0, 30, 2) + [30 * MS] * 40 + steady(32, 120, 2)
    return written(OPENING, arrivals, steady(1, 120, 1), steady(15, 120, 15))


def overload():
    """Returns the trace of a link of 5 Mbit/s. For 0.6 seconds 1.5 times its rate arrives, and then half its rate. No packet is ECN-capable."""
    return written(OPENING, steady(0, 600, 4 / 3) + steady(600, 900, 4), steady(2, 900, 2), steady(15, 900, 15))


def marks():
    """Returns the trace of a link of 5 Mbit/s. For 0.48 seconds 1.25 times its rate arrives, and then 0.83 times. Every other packet is ECN-capable;
    packets are marked below 20 per cent."""
    arrivals = steady(0, 480, 1.6) + steady(480, 750, 2.4)
    opening = OPENING + ",15000000,15000000,150000000,125,1250,1024,262144,200000000000,16384"
    return written(opening, arrivals, steady(2, 750, 2), steady(15, 750, 15), ecns=("ect0", "not"))


def ignored_marks():
    """Returns the trace of a link of 5 Mbit/s. For 1.2 seconds 1.25 times its rate arrives, ECN-capable, from a sender that ignores marks. Packets
    are marked up to a probability of 100 per cent; at 0.6 seconds the operator sets the default of 10 per cent. The gains are four times the default,
    so that a second shows the effect."""
    nine = "15000000,15000000,50000000,500,5000,1024,75000,{},16384".format
    opening = "open3,1,stamp,derandomized,capped,unscaled,rolling,0,1000,1000,1000000," + nine(10**12)
    change = (600 * MS, f"params,4,{600 * MS}," + nine(10**11))
    return written(opening, steady(0, 1200, 1.6), steady(2, 1200, 2), steady(15, 1200, 15), [change], ecns=("ect0",))


def off_and_on():
    """Returns the trace of a link of 10 Mbit/s, with a limit of 60 kilobytes and profile two: 16 packets, 20 kilobytes, activate the controller, and
    low load deactivates it."""
    nine = "15000000,15000000,150000000,125,1250,1024,60000,100000000000,4096"
    arrivals = [*steady(0, 20, 2), *[20 * MS] * 20, *steady(22, 120, 4)]
    shows = [(moment * MS, "show") for moment in (10, 20, 70)]
    return written(f"open2,2,rolling,0,1000,1000,1000000,{nine}", arrivals, steady(1, 120, 1), steady(15, 120, 15), shows)


def reset():
    """Returns the trace of a link of 5 Mbit/s. For 0.6 seconds 1.5 times its rate arrives. At 0.5 seconds the operator resets the controller."""
    return written(OPENING, steady(0, 600, 4 / 3), steady(2, 600, 2), steady(15, 600, 15), [(500 * MS, f"reset,4,{500 * MS}")])


def main():
    folder = Path(sys.argv[1]) if len(sys.argv) > 1 else Path(__file__).resolve().parent
    for trace in (burst, overload, marks, ignored_marks, off_and_on, reset):
        (folder / f"{trace.__name__}.trace").write_text(trace(), encoding="ascii")


if __name__ == "__main__":
    main()
