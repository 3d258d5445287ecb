#!/usr/bin/env python3
"""Prints for histories of scenarios.sh the bursts that arrived, and the times at which the queue was empty, as records of bursts.csv. `pie explain
--every 15ms --csv` sums the events of each 15 ms, which is the time between two updates.

usage: bindings/ns3/bursts.py PIE HISTORY..
       HISTORY: FOLDER/histories/QUEUE-RATE-FLOWS-RTT-ECN-UDP-SEED, of a run whose tags contain the flow (dumbbell --flows-file);
       FOLDER/windows has the congestion windows of its senders by the same name

The fields after the numbers of the run:
  bursts     intervals of 15 ms in which at least twice as many packets arrive as the link sends in this time
  sent       packets that the link sends in an interval
  greatest   the most packets that arrive in an interval
  opened     bursts in whose interval, or the one before, an acknowledgement opened a sender's window by at least 10 segments at once
  greatest_opening   the most segments by which an acknowledgement opened a window
  one_flow   the share of the flow with the most packets in the bursts
  empty      seconds at whose updates the delay is 0
  above      seconds at whose updates the probability is at least 20 %
  most       the greatest probability, in per cent"""
import csv
import io
import subprocess
import sys
from collections import Counter

PERIOD = 15_000_000     # ns
SEGMENT, LEAST = 1448, 10      # bytes; segments of an opening
FIELDS = ["queue", "mbit", "flows", "ecn", "seed", "bursts", "sent", "greatest", "opened", "greatest_opening", "one_flow", "empty", "above", "most"]


def intervals(pie, history):
    """Yields place, arrivals, delay in ns and probability of each interval; delay and probability are None if it has no update."""
    done = subprocess.run([pie, "explain", "--every", "15ms", "--csv", history], capture_output=True, text=True, check=True)
    for row in csv.DictReader(io.StringIO(done.stdout)):
        has_update = row["updates"] not in ("", "0")
        yield (int(row["first_moment"]) // PERIOD, int(row["arrivals"]), int(row["last_delay"]) if has_update else None,
               int(row["greatest_probability"]) / 1e12 if has_update else None)


def openings(windows):
    """Yields place and segments of each growth of a sender's window after its first one."""
    for line in open(windows):
        moment, _, before, after = (int(word) for word in line.split(","))
        if 0 < before < after:
            yield moment // PERIOD, (after - before) // SEGMENT


def shares(history, places):
    """Returns the share of the flow with the most packets in these intervals: its packets over all packets, summed over the intervals."""
    counts = {place: Counter() for place in places}
    with open(history) as file:
        for line in file:
            if line.startswith("arrive,"):
                words = line.split(",")
                if (place := int(words[2]) // PERIOD) in counts:
                    counts[place][int(words[3]) >> 32] += 1
    most, every = sum(max(it.values()) for it in counts.values()), sum(sum(it.values()) for it in counts.values())
    return most / every if every else 0


def record(pie, history):
    folder, name = history.rsplit("/histories/", 1)
    queue, mbit, flows, _, ecn, _, seed = name.rsplit("-", 6)
    rows = list(intervals(pie, history))
    sent, seconds = int(mbit) * 1e6 * PERIOD / 1e9 / 8 / 1500, PERIOD / 1e9
    bursts = [place for place, arrivals, _, _ in rows if arrivals >= 2 * sent]
    empty = sum(delay == 0 for _, _, delay, _ in rows) * seconds
    above = sum(probability is not None and probability >= 0.2 for _, _, _, probability in rows) * seconds
    grown = list(openings(f"{folder}/windows/{name}"))
    wide = {place for place, segments in grown if segments >= LEAST}
    opened = sum(place in wide or place - 1 in wide for place in bursts)
    return [queue, mbit, flows, ecn, seed, len(bursts), f"{sent:.1f}", max(it[1] for it in rows), opened, max(it[1] for it in grown), f"{shares(history, bursts):.2f}", f"{empty:.1f}", f"{above:.1f}",
            f"{100 * max(it[3] or 0 for it in rows):.0f}"]


def main():
    if len(sys.argv) < 3:
        print(__doc__)
        sys.exit(1)
    out = csv.writer(sys.stdout, lineterminator="\n")
    out.writerow(FIELDS)
    for history in sys.argv[2:]:
        out.writerow(record(sys.argv[1], history))


main()
