#!/usr/bin/env python3
"""Draws docs/bounds.svg: three bounds of docs/GUARANTEES.md, and runs of `pie run` inside them:

- a burst of 150 packets at 1 Gbit/s into a link of 10 Mbit/s, 100 microseconds before an update,
  and the first packet that is dropped early;
- the fraction of picked packets at one probability, with random words, with the least word each
  time, and with the greatest;
- the probability at a delay of twice the target from 0 on, and without delay from 1 on.

With --check nothing is drawn: the stored picture must be the one that the script would draw, and
each run must be inside its bound.

usage: docs/bounds.py [PROGRAM] [--check]      PROGRAM: crates/pie/out/pie by default"""
import random
import subprocess
import sys
from pathlib import Path
from curves import COLOURS, Panel, keep, picture

ROOT = Path(__file__).resolve().parent.parent
WORDS = [word for word in sys.argv[1:] if word != "--check"]
PROGRAM = WORDS[0] if WORDS else str(ROOT / "crates/pie/out/pie")
DEFAULTS = (15_000_000, 15_000_000, 150_000_000, 125, 1250, 1024, 262144, 10**11, 16384)
UPDATE = DEFAULTS[1]
RUN, BOUND, OTHER = COLOURS[3], COLOURS[0], COLOURS[2]


def run(delay, params, records, picking="derandomized"):
    """Returns the rows of the history of these records, from an opening with the default choices except the delay
    and the picking."""
    lines = [("open3", 1, delay, picking, "capped", "unscaled", "rolling", 0, 65536, 65536, 2**40, *params), *records]
    text = "".join(",".join(map(str, line)) + "\n" for line in lines)
    done = subprocess.run([PROGRAM, "run"], input=text.encode(), capture_output=True, check=True)
    return [line.split(",") for line in done.stdout.decode().splitlines()]


def holds(what, is_so):
    if not is_so:
        sys.exit(f"docs/bounds.py: {what}")


# ---- a burst

def burst(picking, word):
    """Returns for each event after the burst began its milliseconds since then, its row and the registers after it. The link's rate was measured by
    forty packets before."""
    begins = 41 * UPDATE - 100_000
    arrivals = [(0, tag) for tag in range(40)] + [(begins + 8_000 * place, 100 + place) for place in range(150)]
    arrivals += [(begins + 1_200_000 + 800_000 * place, 300 + place) for place in range(300)]
    records = [("arrive", 1, moment, tag, 1000, "not", word()) for moment, tag in arrivals]
    records += [("depart", 1, 800_000 * (place + 1)) for place in range(40)] + [("depart", 1, begins + 800_000 * place) for place in range(1, 300)]
    records += [("update", 1, UPDATE * (place + 1)) for place in range(57)]
    records.sort(key=lambda record: record[2])
    rows = run("rate", DEFAULTS, [it for record in records for it in (record, ("show",))], picking)[1:]
    return [((int(row[2]) - begins) / 1e6, row, shown) for row, shown in zip(rows[::2], rows[1::2]) if begins <= int(row[2]) <= begins + 240_000_000]


def first_drop(rows):
    at, shown = next((at, shown) for at, row, shown in rows if row[0] == "arrive" and row[7] == "early")
    holds(f"the first early drop came after {at} ms", 135 <= at)
    return at, int(shown[4]) * 8 / 1e4


def burst_panel():
    draw = random.Random(1)
    rows, worst = burst("derandomized", lambda: draw.getrandbits(64)), first_drop(burst("random", lambda: 0))
    allowed = [(0, 150)]
    for at, row, shown in rows:
        allowed += [(at, allowed[-1][1]), (at, int(shown[8]) / 1e6)]
    ticks = [(it, str(it)) for it in range(0, 241, 30)]
    panel = Panel("A burst", "ms since the burst began", "ms", ticks, ticks[:7])
    panel.line([(135, 0), (135, 165)], BOUND, 2, "5 3")
    panel.words(133, 168, "no early drop before 135 ms", anchor="end", colour=BOUND)
    panel.line(allowed, OTHER)
    panel.words(4, 153, "burst allowance left", colour=OTHER)
    panel.line([(at, int(shown[4]) * 8 / 1e4) for at, row, shown in rows], RUN)
    panel.words(24, 105, "time to send what waits", colour=RUN)
    for (at, wait), above, said in ((worst, 8, "with the worst words"), (first_drop(rows), -14, "first early drop")):
        panel.dots([(at, wait)], BOUND, 4)
        panel.words(238, wait + above, f"{said}: {at:.1f} ms", colour=BOUND, anchor="end")
    return panel


# ---- the share of picks

def share(part, words):
    """Returns the share of considered packets that were picked at this probability, up to the last pick. One update
    sets the probability: a delay by time stamps, multiplied by beta alone, divided by the first divisor of
    auto-tuning."""
    count = 60 * 10**12 // part
    delay = part * 2048 // 10**6
    records = [("arrive", 1, 0, 0, 1000, "not", 0)] * 2 + [("depart", 1, delay), ("update", 1, delay)]
    for place in range(count):
        records.append(("arrive", 1, delay, place, 1000, "not", words()))
    rows = run("stamp", (2, 1, 0, 0, 10**6, 1, 2**30, 10**12, 65536), records)
    holds(f"the probability is {rows[4][4]}", int(rows[4][4]) == delay * 10**6 // 2048)
    picked = [place + 1 for place, row in enumerate(rows[5:]) if row[7] == "early"]
    return len(picked) / picked[-1]


def share_panel():
    ticks = [(10**place / 100, f"{10**place} %") for place in range(3)]
    panel = Panel("Picked packets", "probability", "of the considered packets", ticks, [(0.001, "0.1 %"), *ticks], xlog=True, ylog=True)
    parts = [10 ** (place / 20) / 100 for place in range(41)]
    panel.line([(part, min(1, part / 0.85)) for part in parts], BOUND)
    panel.line([(part, part / (8.5 + part)) for part in parts], BOUND)
    panel.words(0.0115, 0.06, "p / 0.85 at most", colour=BOUND)
    panel.words(0.13, 0.008, "p / (8.5 + p) at least", colour=BOUND)
    draw = random.Random(2)
    for words, colour in ((lambda: draw.getrandbits(64), RUN), (lambda: 0, OTHER), (lambda: 2**64 - 1, OTHER)):
        for part in (0.01, 0.02, 0.05, 0.1, 0.2, 0.4, 0.8):
            found = share(round(part * 10**12), words)
            holds(f"a share of {found} at {part}", part / (8.5 + part) * 0.999 <= found <= part / 0.85 * 1.001)
            panel.dots([(part, found)], colour, 4)
    panel.words(0.025, 0.0028, "random words", colour=RUN)
    panel.words(0.025, 0.0019, "least and greatest words", colour=OTHER)
    return panel


# ---- the probability at one delay

def probabilities(delay, count, params, first=()):
    """Returns the probability after each of these updates with this delay by time stamps: before each update a
    packet departs that waited for that delay."""
    updates = [20 * 10**9 + UPDATE * place for place in range(count + 1)]
    records = [("arrive", 1, now - delay, 0, 1000, "not", 0) for now in updates]
    records += [record for now in updates[:-1] for record in (("depart", 1, now), ("update", 1, now))]
    rows = run("stamp", params, [*first, *sorted(records, key=lambda record: record[2])])
    rows = [row for row in rows if row[0] == "update"][-count:]
    holds("a delay is another", all(int(row[3]) == delay for row in rows))
    return [int(row[4]) / 1e12 for row in rows]


def rising_bound(delay):
    """Yields the greatest number of updates after which the probability is at the end of each row of the table of auto-tuning, by the law."""
    after, low = 0, 0
    for high, by in ((10**6, 2048), (10**7, 512), (10**8, 128), (10**9, 32), (10**10, 8), (10**11, 2)):
        yield after, max(low, 1) / 1e12
        after += (high - low) // min(125 * (delay - 15_000_000) // by, 2 * 10**10) + 1
        yield after, max(low, 1) / 1e12
        low = high
    yield after, low / 1e12


def pace_panel():
    parts = [(10.0**place, f"{10.0 ** (place + 2):.{max(0, -place - 2)}f} %") for place in range(-6, 1)]
    panel = Panel("The probability at one delay", "s", "", [(it, str(it)) for it in range(4)], parts, ylog=True)
    seconds = UPDATE / 1e9
    rising = probabilities(30_000_000, 180, DEFAULTS)
    # the first update raises the probability to 1; the second, without delay and gains, clears the old delay
    still = (*DEFAULTS[:3], 0, 0, *DEFAULTS[5:])
    start = [("params", 1, 0, *DEFAULTS[:3], 0, 10**6, *DEFAULTS[5:]), *[("arrive", 1, 0, 0, 1000, "not", 0)] * 3, ("depart", 1, 3 * 10**9),
             ("update", 1, 3 * 10**9), ("params", 1, 3 * 10**9, *still), ("depart", 1, 3 * 10**9), ("depart", 1, 3 * 10**9), ("update", 1, 4 * 10**9),
             ("params", 1, 4 * 10**9, *DEFAULTS)]
    falling = probabilities(0, 200, DEFAULTS, start)
    bound = list(rising_bound(30_000_000))
    for (from_update, low), (until, _) in zip(bound[::2], bound[1::2]):
        holds("a rise is too slow", until > 180 or all(part >= low or low < 1e-11 for part in rising[from_update - 1:until]))
    holds("a fall is too slow", all(part <= 0.98 ** (place + 1) for place, part in enumerate(falling)))
    panel.line([(after * seconds, part) for after, part in bound] + [(2.9, 0.1)], BOUND)
    panel.line([(0.001, 1), *(((place + 1) * seconds, 0.98 ** (place + 1)) for place in range(200))], BOUND)
    panel.line([((place + 1) * seconds, part) for place, part in enumerate(rising)], RUN)
    panel.line([((place + 1) * seconds, part) for place, part in enumerate(falling) if part > 1e-6], OTHER)
    panel.words(1.15, 3e-5, "at 30 ms: above the bound", colour=RUN)
    panel.words(0.95, 0.4, "at no delay: below the bound", colour=OTHER)
    return panel


def main():
    is_check = "--check" in sys.argv
    keep("bounds.svg", picture([burst_panel(), share_panel(), pace_panel()]), is_check)
    if is_check:
        print("docs/bounds.py: the picture is as it would be drawn, and each run inside its bound")


if __name__ == "__main__":
    main()
