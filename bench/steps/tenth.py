#!/usr/bin/env python3
"""Writes a trace with time stamps after which the probability is exactly 10 per cent, and 40 packets with ECN arrive: a
packet waits before each update as long as the rule of the probability needs for it.

usage: bench/steps/tenth.py"""
TARGET, ALPHA, BETA, MARK = 15_000_000, 125, 1250, 100_000_000_000

print("open3,1,stamp,derandomized,capped,unscaled,rolling,0,1000,1024,1000000000,"
      f"{TARGET},15000000,150000000,{ALPHA},{BETA},1024,1073741824,{MARK},16384")
records, prob, old = [], 0, 0


def wait_for(step):
    """Returns the wait with this step of the probability, which is below 10^-6, or below 10^-5 from 10^-6 on."""
    divisor = 2048 if prob < 1_000_000 else 512
    return -(-(step * divisor + ALPHA * TARGET + BETA * old) // (ALPHA + BETA))


def update(at, wait):
    """Adds an update, before which a packet departs after this wait. Another packet is queued then, so that the delay is not 0."""
    global prob, old
    records.extend([(at - wait, "arrive 1500"), (at - 1_000, "arrive 1500"), (at, "depart"), (at + 10_000, "update")])
    prob += int((ALPHA * (wait - TARGET) + BETA * (wait - old)) / (2048 if prob < 1_000_000 else 512))
    old = wait


now = 30_000_000
update(now, TARGET + 10_000)
for _ in range(12):     # the burst allowance ends at a probability below 10^-6
    records.append((now + 20_000, "depart"))
    now += 15_000_000
    update(now, wait_for(500_000 - prob))
records.append((now + 20_000, "depart"))
wait = wait_for(MARK - prob)
update(now + 1_000_000 + wait, wait)
now += 2_000_000 + wait
records += [(now + i, "arrive 1500") for i in range(40)]
for tag, (moment, event) in enumerate(sorted(records)):
    name, *size = event.split()
    caller = {"arrive": 1, "depart": 2, "update": 3}[name]
    print(f"{name},{caller},{moment}" + (f",{tag},{size[0]},ect0,0" if size else ""))
