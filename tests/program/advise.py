#!/usr/bin/env python3
"""Compares `pie advise` with a Bode computation of its own, in floating-point numbers: at 200 random links both margins agree
within 0.5 degrees and 0.2 dB and are not above the exact ones; over random ranges no margin at any sampled place, nor at an
edge of the auto-tuning divisor, is below the printed ones, and the least sampled ones are within the same distance. Outside
the model no margin is printed.

Then it compares the advice with stored runs: the simulations of bindings/ns3/advice.csv, and the runs of PIE over user-mode
Linux in bench/uml/results.csv.xz whose flows have one round-trip time. For at least 40 cells of rate, round trip and flows, the
predicted mean wait is within 20 per cent of the measured one, or the advice has no prediction and a warning. The cells that
are missed are those that `pie advise --help` names.

The record of the opening must be the one of `pie params`. The lines of tc must have the limits of docs/PARAMETERS.md. The
warnings are compared with conditions that this script computes, over random links. The words of three advices are compared
exactly. Wrong options must be refused in words.

usage: tests/program/advise.py [PROGRAM]      PROGRAM: crates/pie/out/pie by default
needs: program
"""
import cmath
import csv
import lzma
import math
import os
import random
import re
import subprocess
import sys
from collections import defaultdict

sys.path.insert(0, f"{os.path.dirname(os.path.abspath(__file__))}/../shared")
from checks import ROOT, check, expect, finish, program  # noqa: E402

PIE = program()
TARGET, BURST, MEAN_PKT, FULL = 15_000_000, 150_000_000, 1024, 1514
# scenarios of bench/uml: rate in Mbit/s, round trip in ms, flows
LINUX = {"four": (10, 20, 4), "ecn": (10, 20, 4), "two": (2, 20, 4), "slow": (0.5, 20, 4), "far": (10, 100, 4), "farther": (10, 500, 4), "near": (10, 5, 4),
         "one": (10, 20, 1), "sixteen": (10, 20, 16), "ecnmany": (10, 20, 16), "hundred": (10, 20, 100), "fifty": (50, 20, 4), "offload": (10, 20, 4)}


def run(*words):
    done = subprocess.run([PIE, *words], stdout=subprocess.PIPE, stderr=subprocess.PIPE, encoding="utf-8", check=False)
    return done.returncode, done.stdout, done.stderr


def advice(rate, trips, flows, *more):
    status, text, errors = run("advise", "--rate", rate, "--rtt", trips, "--flows", flows, *more)
    expect(f"advise --rate {rate} --rtt {trips} --flows {flows} {more}", (status, errors), (0, ""))
    return text


def line(text, name):
    return next(it.removeprefix(name).strip() for it in text.splitlines() if it.startswith(name))


def cells():
    """Yields the name, rate in Mbit/s, round trip in ms, flows, measured mean wait in ms, and whether it is stored that there is no
    prediction, of each stored cell; None if that is not stored."""
    with open(ROOT / "bindings/ns3/advice.csv", newline="") as file:
        for row in csv.DictReader(file):
            yield "ns-3", float(row["mbit"]), float(row["rtt_ms"]), int(row["flows"]), float(row["measured_ms"]), row["warned"] == "1"
    sums = defaultdict(lambda: [0.0, 0.0])
    with lzma.open(ROOT / "bench/uml/results.csv.xz", "rt", newline="") as file:
        for row in csv.DictReader(file):
            if row["queue"] == "stamp" and row["scenario"] in LINUX and float(row["from"]) > 0:
                sums[row["scenario"]][0] += float(row["wait"]) * float(row["sent"])
                sums[row["scenario"]][1] += float(row["sent"])
    for name, (waits, sent) in sums.items():
        yield name, *LINUX[name], waits / sent, None


def hold_cells():
    count, warned, missed = 0, 0, set()
    for name, rate, trip, flows, measured, is_stored in cells():
        text = advice(f"{rate:g}mbit", f"{trip:g}ms", str(flows), *(["--ecn"] if name.startswith("ecn") else []))
        wait = line(text, "mean wait ")
        count += 1
        check(is_stored in (None, wait.startswith("no prediction")), name, rate, trip, flows, "the stored column `warned` differs")
        if wait.startswith("no prediction"):
            warned += 1
            check("\nwarning: " in text, name, rate, trip, flows, "no prediction and no warning")
            continue
        predicted = float(wait.split()[0])
        wanted = math.hypot(TARGET / 1e6, 2 * MEAN_PKT * 8 / (rate * 1e3))
        check(abs(predicted - wanted) < 0.002, name, rate, trip, flows, f"predicted {predicted}, and not {wanted}")
        if abs(predicted - measured) > 0.2 * measured:
            missed.add(f"{flows} flows at {rate:g} Mbit/s and {trip:g} ms")
    status, told, _ = run("advise", "--help")
    named = set(re.findall(r"\d+ flows at [\d.]+ Mbit/s and [\d.]+ ms", " ".join(told.split())))
    expect("the cells that the help names as missed", named, missed)
    check(count >= 40 and count - warned >= 40, f"{count} cells, {warned} without a prediction")
    print(f"tests/program/advise.py: {count} cells, {warned} without a prediction, {len(missed)} missed")


# ---- margins of stability, by a Bode computation

T, ALPHA, BETA, PER_PICK, PACKET_BITS = 0.015, 0.125, 1.25, 1.85, 12000
# windows above which the auto-tuning divisor is 2, 8, 32 and so on: the probability is 3.7 over the window's square
EDGES = [math.sqrt(2 * PER_PICK / 10.0 ** -place) for place in range(1, 7)]
DIVISORS = (1, 2, 8, 32, 128, 512, 2048)
FREQUENCIES = [10 ** (place / 100) for place in range(-500, 232)]  # rad/s, to pi / T


def open_loop(trip, window):
    """Returns the gain and the phase of the open loop, as functions of a frequency in rad/s. `trip` is in s, and contains the
    target."""
    divisor = DIVISORS[sum(window > edge for edge in EDGES)]

    def rest(w):  # all factors but the delay of a round trip, turned by a right angle
        held = (ALPHA + BETA - BETA * cmath.exp(-1j * w * T)) / (w * T) / PER_PICK / divisor
        return held * window / (2 * trip) / (1j * w + 2 / (trip * window)) / (1j * w + 1 / trip)

    return lambda w: abs(rest(w)), lambda w: math.degrees(cmath.phase(rest(w)) - w * trip) - 90


def falls_to(value, function):
    """Returns the frequency at which a function falls below a value for the first time."""
    high = next(w for w in FREQUENCIES if function(w) < value)
    low = high / 10 ** 0.01
    for _ in range(60):
        middle = (low + high) / 2
        low, high = (low, middle) if function(middle) < value else (middle, high)
    return high


def bode(rate, trip, flows):
    """Returns the phase margin in degrees and the gain margin in dB of a link: its rate in bit/s, the round-trip time without the
    queue in s, and the number of flows. Returns None outside the model."""
    trip += TARGET / 1e9
    window = rate / flows * trip / PACKET_BITS
    if not 2 <= window <= 1e6 or trip > 10 + TARGET / 1e9:
        return None
    gain, phase = open_loop(trip, window)
    return 180 + phase(falls_to(1, gain)), -20 * math.log10(gain(falls_to(-180, phase)))


def printed(text):
    """Returns the margins of an advice, or None, and its line."""
    words = line(text, "margins ")
    found = re.fullmatch(r"phase (?:at least )?(-?\d+\.\d) degrees, gain (?:at least )?(-?\d+\.\d) dB, by a linear model(?: for windows of two packets or more)?", words)
    check(found or words.startswith("outside the linear model"), "the margins:", words)
    return (float(found[1]), float(found[2])) if found else None, words


def compare(what, found, least):
    """Compares printed margins with the exact ones."""
    for name, one, exact, within in zip(("phase", "gain"), found, least, (0.5, 0.2)):
        check(exact - within <= one <= exact + 1e-9, f"{what}: {name} margin {one}, and not {exact}")


def hold_margins(rng):
    """Random links, of which at least 200 are in the model."""
    inside = outside = 0
    while inside < 200:
        rate, trip, flows = int(10 ** rng.uniform(5, 11)), int(10 ** rng.uniform(5, 9.6)), int(10 ** rng.uniform(0, 3))
        text = advice(f"{rate}bit", f"{trip}ns", str(flows))
        exact, (found, words) = bode(rate, trip / 1e9, flows), printed(text)
        what = f"{rate} bit/s, {trip} ns, {flows} flows"
        check((exact is None) == (found is None), f"{what}: {words}")
        check("at least" not in words, f"{what}: {words}")
        if exact and found:
            inside += 1
            compare(what, found, exact)
            check(("linear model is unstable" in text) == (min(exact) < 0) or abs(min(exact)) < 0.1, f"{what}: a warning of a loop with {exact}")
            check(("\ndecay " in text) == (exact[0] < 10) or abs(exact[0] - 10) < 0.1, f"{what}: a decay of a loop with {exact}")
        else:
            outside += 1
            check("unstable" not in text, f"{what}: outside the model, and unstable")
    check(outside > 50, f"{outside} links outside the model")
    for rate, trips, flows, words in (("1mbit", "5ms", "4", "outside the linear model: windows are below two packets"), ("1tbit", "100ms", "1", "outside the linear model"),
                                      ("1gbit", "10001ms", "1000", "outside the linear model"), ("1mbit", "20s", "1", "outside the linear model")):
        text = advice(rate, trips, flows)
        expect(f"margins at {rate}, {trips}", printed(text)[1], words)
        check("unstable" not in text and ("this is outside the linear model" in text) == (words == "outside the linear model"), text)


def places(rng, rate, trips, flows):
    """Yields round-trip times in s and numbers of flows of ranges: the ends, the edges of the divisor, and others."""
    numbers = {*flows, *(rng.randint(*flows) for _ in range(20)), *(int(flows[0] * (flows[1] / flows[0]) ** rng.random()) for _ in range(20))}
    for edge in EDGES:
        at = rate * (trips[1] + TARGET / 1e9) / PACKET_BITS / edge
        numbers |= {min(max(number, flows[0]), flows[1]) for number in (math.floor(at), math.ceil(at))}
    for number in numbers:
        for edge in EDGES:
            yield edge * PACKET_BITS * number / rate * (1 - 1e-9) - TARGET / 1e9, number
        for trip in (*trips, rng.uniform(*trips), rng.uniform(*trips)):
            yield trip, number


def hold_ranges(rng):
    """Random ranges: the printed margins are the least ones."""
    whole = 0
    while whole < 40:
        rate, least, fewest = int(10 ** rng.uniform(6, 10)), int(10 ** rng.uniform(6, 8.5)), int(10 ** rng.uniform(0, 2))
        trips, flows = (least, int(least * rng.choice((1, 1.5, 10)))), (fewest, int(fewest * rng.choice((1.01, 2, 30))) + 1)
        text = advice(f"{rate}bit", f"{trips[0]}ns-{trips[1]}ns", f"{flows[0]}-{flows[1]}")
        (found, words), inside, short = printed(text), [], False
        for trip, number in places(rng, rate, [it / 1e9 for it in trips], flows):
            if trips[0] <= round(trip * 1e9, 3) <= trips[1]:
                exact = bode(rate, trip, number)
                short = short or rate / number * (trip + TARGET / 1e9) < 2 * PACKET_BITS
                inside += [exact] if exact else []
        what = f"{rate} bit/s, {trips} ns, {flows} flows"
        check((found is None) == (not inside), f"{what}: {words}")
        if found and inside:
            whole += 1
            check(words.count("at least") == 2 and words.endswith("two packets or more") == short, f"{what}: {words}")
            compare(what, found, [min(it) for it in zip(*inside)])


def hold_lines(rng):
    for _ in range(60):
        rate, overhead, ecn = int(10 ** rng.uniform(4, 11.5)), rng.choice((0, 0, 40, -14)), rng.random() < 0.5
        more = [*([f"--overhead={overhead}"] if overhead else []), *(["--ecn"] if ecn else [])]
        trips, flows = f"{rng.randint(1, 300)}ms", str(rng.randint(1, 3000))
        text = advice(f"{rate}bit", trips, flows, *more)
        limit = min(max(-(-rate // 40), 25000), 2 ** 30)
        expect("the record", line(text, "pie run ") + "\n", run("params", "--rate", f"{rate}bit", *more)[1])
        stab, end = f" stab overhead {overhead}" if overhead else "", " ecn" if ecn else ""
        options = f"target 15000us tupdate 15000us alpha 2 beta 20{end}"
        expect("tc, pie", line(text, "Linux "), f"tc qdisc replace dev DEV root{stab} pie limit {-(-limit // FULL)} {options}")
        expect("tc, pie_recorded", line(text, "this module "), f"tc qdisc replace dev DEV root{stab} pie_recorded rate {rate}bit {options}")
        mark = 100_000_000_000 if ecn else 0
        expect("rte_pie", line(text, "rte_pie "), f"qdelay_ref 15, dp_update_interval 15, max_burst 150, tailq_th {min(-(-limit // FULL), 65535)}")
        packets = min(limit // 64, 2 ** 20)
        first = "limit_bytes is reached first" if packets == limit // 64 else f"reached first if packets have fewer than {-(-limit // 2 ** 20)} bytes on average"
        expect("packets", line(text, "packets "), f"{packets}: limit_bytes / 64, at most 1048576 (this project's own); {first}")
        expect("C", line(text, "C "), f"pie_default_opening(&opening, {rate}); opening.params.mean_pkt = {MEAN_PKT + overhead}; opening.params.mark_ecnth = {mark};")
        told = "\n".join(re.findall(r"^warning: (.*)$", text, re.M))
        for words, holds in (("below rate x", limit * 8e9 < rate * (TARGET + BURST)), ("more than a second", limit * 8 > rate),
                             ("a single flow", flows == "1"), ("tailq_th of rte_pie has 16 bits", limit > 65535 * FULL), ("a packet of each", int(flows) * 1500 > limit)):
            check((words in told) == holds, f"rate {rate}, {flows} flows: {words!r} in {told!r}")


def hold_refusals():
    time, number, reversed_ = "must be a time with ns, us, ms or s, such as 20ms", "must be a whole number, such as 4", "has a least value above its greatest: "
    reversed_ += "write the least first, such as 10ms-50ms or 4-16"
    usual = {"rate": "20mbit", "rtt": "10ms-100ms", "flows": "1-16"}
    for change, wanted in (({"rtt": "100ms-10ms"}, f"pie: --rtt {reversed_}\n"), ({"rtt": "10"}, f"pie: --rtt {time}\n"),
                           ({"rtt": "10-50ms"}, f"pie: --rtt has a least value that {time}\n"), ({"rtt": "10ms-50"}, f"pie: --rtt has a greatest value that {time}\n"),
                           ({"rtt": "10ms-20ms-30ms"}, f"pie: --rtt has a greatest value that {time}\n"), ({"rtt": ""}, f"pie: --rtt {time}\n"),
                           ({"rtt": "-10ms"}, f"pie: --rtt has a least value that {time}\n"), ({"rtt": "1.5ns"}, "pie: --rtt must be a whole number of nanoseconds\n"),
                           ({"flows": "many"}, f"pie: --flows {number}\n"), ({"flows": "16-4"}, f"pie: --flows {reversed_}\n"),
                           ({"flows": "1-2.5"}, "pie: --flows has a greatest value that must be a whole number\n"),
                           ({"flows": "0-4"}, "pie: --flows must be at least 1\n"), ({"rate": "0bit"}, "pie: --rate must be at least 1bit\n"),
                           ({"rate": None}, "pie: advise needs --rate, such as --rate 20mbit\n"),
                           ({"rtt": None}, "pie: advise needs --rtt, such as --rtt 10ms-100ms\n"),
                           ({"flows": None}, "pie: advise needs --flows, such as --flows 1-16\n"),
                           ({"overhead": "x"}, "pie: --overhead must be a whole number of bytes, -65535 to 65535\n"),
                           ({"overhead": "64512"}, "pie: --overhead must be at most 64511: mean_pkt is 1024 bytes and the overhead, and at most 65535\n"),
                           ({"overhead": "65535"}, "pie: --overhead must be at most 64511: mean_pkt is 1024 bytes and the overhead, and at most 65535\n")):
        words = [f"--{name}={value}" for name, value in (usual | change).items() if value is not None]
        expect(f"advise {words}", run("advise", *words), (1, "", wanted))
    advice("20mbit", "10ms", "4", "--overhead=64511")


# An advice for ranges; one for a single link without ECN; and one with each warning that a fast link can have.
WHOLE = """\
link         20000000 bit/s; round trips of 10.000 ms to 50.000 ms; 4 to 16 flows

target       15.000 ms: the probability rises while packets wait longer (RFC 8033, section 4.2)
t_update     15.000 ms: the gains are for this interval (4.2)
alpha        125 thousandths per second: weighs the distance from the target (4.2)
beta         1250 thousandths per second: weighs the change of the delay (4.2)
max_burst    150.000 ms: no early drop for this time after a calm (4.4)
limit_bytes  500000: 200 ms at the rate, at least 25000 and at most 1073741824 (this project's own)
packets      7812: limit_bytes / 64, at most 1048576 (this project's own); limit_bytes is reached first
mark_ecnth   10 %: marks below this probability, and drops from it on, since a sender may ignore marks (5.1)

Linux        tc qdisc replace dev DEV root pie limit 331 target 15000us tupdate 15000us alpha 2 beta 20 ecn
this module  tc qdisc replace dev DEV root pie_recorded rate 20000000bit target 15000us tupdate 15000us alpha 2 beta 20 ecn
C            pie_default_opening(&opening, 20000000); opening.params.mean_pkt = 1024; opening.params.mark_ecnth = 100000000000;
DPDK stage   pie_stage_default_params(&params, 20000000); params.opening.params.mean_pkt = 1024; params.opening.params.mark_ecnth = 100000000000;
rte_pie      qdelay_ref 15, dp_update_interval 15, max_burst 150, tailq_th 331
pie run      open3,1,stamp,derandomized,capped,unscaled,rolling,0,7812,7812,140737488355328,15000000,15000000,150000000,125,1250,1024,500000,100000000000,16384

mean wait    15.022 ms, predicted for TCP that always sends
margins      phase at least PHASE degrees, gain at least GAIN dB, by a linear model
"""
LINK = {"20mbit 51ms 4": "link         20000000 bit/s; a round trip of 51.000 ms; 4 flows\n", "20mbit 51ms 1": "link         20000000 bit/s; a round trip of 51.000 ms; 1 flow\n",
        "20mbit 51ms 1-1 --overhead=40": "link         20000000 bit/s; a round trip of 51.000 ms; 1 flow; 40 bytes more on the link\n",
        "20mbit 0ms-51ms 1-2 --overhead=-14": "link         20000000 bit/s; round trips of 0.000 ms to 51.000 ms; 1 to 2 flows; 14 bytes fewer on the link\n"}
ENDS = {"20mbit 51ms 4": """\
mean wait    15.022 ms, predicted for TCP that always sends
margins      phase 23.1 degrees, gain 14.5 dB, by a linear model
""", "8gbit 200ms 1": """\
mean wait    no prediction: see the warnings
margins      phase PHASE degrees, gain GAIN dB, by a linear model
decay        zero if the wait matters more than the goodput; otherwise half, which pie params --decay half writes (docs/RESULTS.md, advice 5)
warning: the loop of the linear model is unstable at some of these round trips and flows: the delay oscillates
warning: a single flow empties the queue after each loss
warning: tailq_th of rte_pie has 16 bits: its limit of 65535 packets is below limit_bytes
""", "60gbit 11s 800000": """\
mean wait    no prediction: see the warnings
margins      outside the linear model
warning: a round trip is above 10 s, or a window above a million packets: this is outside the linear model
warning: with the most flows, a packet of each is more than limit_bytes: senders wait for timeouts
warning: limit_bytes is below rate x (target + max_burst): bursts that PIE admits fill the queue
warning: tailq_th of rte_pie has 16 bits: its limit of 65535 packets is below limit_bytes
""", "100kbit 20ms 4": """\
mean wait    164.525 ms, predicted for TCP that always sends
margins      outside the linear model: windows are below two packets
warning: limit_bytes is more than a second at the rate
"""}


def with_margins(wanted, found):
    """Returns an expected text with the margins of a printed one, which other checks compare."""
    both = re.search(r"phase (?:at least )?(-?[\d.]+) degrees, gain (?:at least )?(-?[\d.]+) dB", found)
    return wanted.replace("PHASE", both[1]).replace("GAIN", both[2]) if both else wanted


def hold_words():
    text = advice("20mbit", "10ms-50ms", "4-16", "--ecn")
    expect("the words of an advice", text, with_margins(WHOLE, text))
    for words, wanted in LINK.items():
        expect(f"the link of {words}", advice(*words.split()).split("\n", 1)[0] + "\n", wanted)
    for words, wanted in ENDS.items():
        end = advice(*words.split()).partition("\nmean wait ")
        expect(f"the end of {words}", end[1].lstrip() + end[2], with_margins(wanted, end[2]))
    check("mark_ecnth   0 %: no packet is marked; with --ecn, packets of ECN-capable endpoints are (5.1)\n" in advice("20mbit", "51ms", "4"), "the words without ECN")


def main():
    rng = random.Random(1)
    hold_refusals()
    hold_margins(rng)
    hold_ranges(rng)
    hold_words()
    hold_lines(rng)
    hold_cells()
    finish()


main()
