#!/usr/bin/env python3
"""Computes each step of recorded histories again by the rules of ns-3's PieQueueDisc 3.37
(pie-queue-disc.cc), in its own floating point. From the probability, the delays and the burst
allowance of the history it computes the delay and the probability of an update (CalculateP), and
the decision about an arrival (DropEarly). The result shows whether two runs differ because of a rule,
or only because of their random words.

usage: bindings/ns3/steps.py HISTORY..
       HISTORY: without ECN, with a limit in bytes and packets of MEAN_PKT bytes, as scenarios.sh makes it

Prints, for all histories together, the number of steps and the number of different results: delays
(only by time stamps) that differ by more than a nanosecond, probabilities that differ by more than
10^-9, and verdicts. Updates during a burst allowance are counted separately, since PieQueueDisc
holds the probability at 0 there. """
import sys
from collections import Counter, deque

TARGET, CAP, DECAY, MEAN_PKT = 0.015, 0.02, 0.98, 1500
STEPS = ((1e-6, 2048), (1e-5, 512), (1e-4, 128), (1e-3, 32), (1e-2, 8), (1e-1, 2))


def next_probability(prob, delay, old, is_capped, is_half):
    """Returns the probability after an update outside a burst (CalculateP), with A 0.125 and B
    1.25. The decay below half the target, which ns-3 does not have, is optional."""
    step = 0.125 * (delay - TARGET) + 1.25 * (delay - old)
    step /= next((divisor for bound, divisor in STEPS if prob < bound), 1)
    if is_capped and prob >= 0.1 and step > CAP:
        step = CAP
    after = prob + step
    if max(delay, old) < TARGET / 2 if is_half else delay == old == 0:
        after *= DECAY
    return min(max(after, 0), 1)


class Queue:
    """The registers of the history, and the queued packets."""

    def __init__(self, opening):
        words = opening.split(",")
        assert words[0] in ("open2", "open3"), f"{words[0]} is no opening that this script reads"
        elements = words[2:6] if words[0] == "open3" else ["rate", "derandomized", "capped", "unscaled"]
        self.by_stamps = elements[0] == "stamp"
        self.is_derandomized = elements[1] == "derandomized"
        self.is_capped = elements[2] == "capped"
        self.is_half = words[6] == "half"
        self.limit = int(words[-3])
        self.packets = deque()
        self.bytes = 0
        self.prob = self.old = self.accumulated = self.waited = 0.0
        self.burst = 0.15

    def is_picked(self, size, word):
        """Returns true if the packet is picked (DropEarly)."""
        if self.burst > 0 or self.old < TARGET / 2 and self.prob < 0.2 or self.bytes <= 2 * MEAN_PKT:
            return False
        if self.is_derandomized:
            self.accumulated = 0 if self.prob == 0 else self.accumulated + self.prob
            if self.accumulated < 0.85:
                return False
            if self.accumulated >= 8.5:
                return True
        return word / 2**64 <= self.prob * size / MEAN_PKT

    def arrive(self, moment, size, word):
        if self.bytes + size > self.limit:
            verdict = "bytes"
        else:
            verdict = "early" if self.is_picked(size, word) else "enqueue"
        if verdict != "enqueue":
            self.accumulated = 0
        return verdict

    def depart(self, moment):
        arrived, size = self.packets.popleft()
        self.bytes -= size
        self.waited = (moment - arrived) / 1e9 if self.bytes else 0.0


def take(path, found):
    with open(path) as file:
        queue = Queue(next(file).rstrip("\n"))
        for line in file:
            words = line.rstrip("\n").split(",")
            moment = int(words[2])
            if words[0] == "arrive":
                found["arrivals"] += 1
                size, verdict = int(words[4]), words[7]
                found["verdicts that differ"] += queue.arrive(moment, size, int(words[6])) != verdict
                if verdict == "enqueue":
                    queue.packets.append((moment, size))
                    queue.bytes += size
                else:
                    queue.accumulated = 0
            elif words[0] == "depart":
                queue.depart(moment)
            else:
                assert words[0] == "update", f"{path}: {words[0]}"
                delay, prob = int(words[3]) / 1e9, int(words[4]) / 1e12
                found["updates"] += 1
                if queue.by_stamps:
                    found["delays that differ"] += abs(queue.waited - delay) > 1e-9
                differs = abs(next_probability(queue.prob, delay, queue.old, queue.is_capped, queue.is_half) - prob) > 1e-9
                found["probabilities that differ"] += differs
                found["updates in a burst"] += queue.burst > 0
                found["of them with a probability above 0"] += queue.burst > 0 and prob > 0
                queue.prob, queue.old, queue.burst = prob, delay, int(words[5]) / 1e9


def main():
    found = Counter()
    for path in sys.argv[1:]:
        take(path, found)
    for name in ("arrivals", "verdicts that differ", "updates", "delays that differ", "probabilities that differ", "updates in a burst",
                 "of them with a probability above 0"):
        print(f"{found[name]} {name}")


main()
