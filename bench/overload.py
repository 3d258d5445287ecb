#!/usr/bin/env python3
"""Draws queueing delay, probability, drops, marks and queued bytes over time for a link that is overloaded for four
seconds (examples/plot.sh draws the output of `pie explain`).

usage: bench/overload.py PIE [PICTURE]     PIE: the built program, as crates/pie/out/ has it after `rt run`; PICTURE:
                                           docs/overload.png by default

The link carries 10 million bits a second: it sends a packet of 1000 bytes each 0.8 milliseconds. Packets come at random
moments, at half of that rate; from second 2 to second 6 at 1.2 times that rate, whatever is dropped. At second 1 sixty
packets more come at once. A quarter of the packets is ECN-capable. There is an update each 15 milliseconds.
"""
import os
import random
import subprocess
import sys
import tempfile
from pathlib import Path

TOP = Path(__file__).resolve().parent.parent

SLOT = 800_000
END = 8_000_000_000
OVERLOAD = (2_000_000_000, 6_000_000_000)
BURST = (1_000_000_000, 60)


def arrivals(words):
    moment = 0.0
    while moment < END:
        load = 1.2 if OVERLOAD[0] <= moment < OVERLOAD[1] else 0.5
        moment += words.expovariate(load / SLOT)
        yield int(moment)


def trace():
    words = random.Random(1)
    moments = [*arrivals(words), *[BURST[0]] * BURST[1]]
    events = [(moment, "arrive") for moment in moments if moment < END]
    events += [(moment, "depart") for moment in range(SLOT, END, SLOT)]
    events += [(moment, "update") for moment in range(15_000_000, END, 15_000_000)]
    tag = 0
    yield "rolling,0,1024,1024,1000000\n"
    for moment, kind in sorted(events):
        if kind == "arrive":
            tag += 1
            ecn = "ect0" if words.random() < 0.25 else "not"
            yield f"arrive,1,{moment},{tag},1000,{ecn},{words.getrandbits(64)}\n"
        else:
            yield f"{kind},{2 if kind == 'depart' else 3},{moment}\n"


def main() -> None:
    program, picture = sys.argv[1], sys.argv[2] if len(sys.argv) > 2 else TOP / "docs/overload.png"
    words = {**os.environ, "PIE": program, "TITLE": "sixty packets at once at 1; load 1.2 from 2 to 6, else 0.5"}
    with tempfile.NamedTemporaryFile() as history:
        subprocess.run([program, "run"], input="".join(trace()), stdout=history, text=True, check=True)
        subprocess.run([TOP / "examples/plot.sh", history.name, picture], env=words, check=True)


main()
