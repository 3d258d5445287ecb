#!/usr/bin/env python3
"""Writes a trace of a link that is in turn idle, lightly loaded, overloaded, flooded and idle again: small and full
packets, with and without ECN, and an update every 15 ms. The same arguments give the same bytes.

usage: bench/steps/trace.py SEED DELAY MARK_ECNTH [TURNS [DECAY [LIMIT]]]      DELAY: stamp or rate; MARK_ECNTH: in
       units of 10^-12; DECAY: zero or half; LIMIT: in bytes, by default 700000"""
import random
import sys

seed, delay, mark = sys.argv[1:4]
turns = int(sys.argv[4]) if len(sys.argv) > 4 else 40
decay = f"{sys.argv[5]}," if len(sys.argv) > 5 else ""       # told where it is said: the opening has one field more
limit = sys.argv[6] if len(sys.argv) > 6 else "700000"
random.seed(int(seed))
params = f"15000000,15000000,150000000,125,1250,1024,{limit},{mark},16384"
print(f"open3,1,{delay},derandomized,capped,unscaled,{decay}rolling,0,1000,1024,1000000000,{params}")
moment, tag, events = 0, 0, []
SLOT = 1_200_000                        # a full packet at 10 Mbit/s
for turn in range(turns):
    load = random.choice([0, 0.02, 0.5, 0.9, 1.05, 1.2, 2, 8])
    lasts = random.randrange(200, 1500) * 1_000_000
    end = moment + lasts
    is_unlucky = random.random() < 0.15     # high words alone, so that nothing is picked before the upper bound
    while load and moment < end:
        moment += max(1, round(random.expovariate(load / SLOT)))
        size = random.choice([60, 600, 1500, 1500, 1500])
        tag += 1
        ecn, word = random.choice(["not", "ect0", "ect1", "ce"]), 2**64 - 2**16 if is_unlucky else random.getrandbits(64)
        events.append((moment, f"arrive,1,{moment},{tag},{size},{ecn},{word}"))
    moment = end
events += [(at + 300_000, f"depart,2,{at + 300_000}") for at in range(0, moment, SLOT)]
events += [(at, f"update,3,{at}") for at in range(15_000_000, moment, 15_000_000)]
for _, line in sorted(events, key=lambda it: it[0]):
    print(line)
