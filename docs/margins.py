#!/usr/bin/env python3
"""Draws docs/margins.svg: phase margin and gain margin of the control loop with the default
parameters, over the rate per flow, for some round-trip times. The margins are computed from a
linear model. They are not proved.

TCP is the fluid model of Hollot, Misra, Towsley and Gong (INFOCOM 2001). The PIE paper to which RFC
8033 refers uses this model. N Reno flows have a window W = R C / N at a rate C and a round-trip time R,
which includes the target delay. They lose or mark a share s = 2 / W^2 of their packets. The transfer
function of the loop from the share to the queueing delay is
    (W / 2R) e^-Rs / ((s + 2 / RW) (s + 1 / R)).
The share is not the drop probability p: by default probabilities accumulate, and no packet is picked
before their sum reaches 0.85. At a constant probability p a pick takes 0.85 / p + 1 / p packets on
average, so the share is p / 1.85 (for small p). The controller is the update of RFC 8033, section
4.2, divided by the auto-tuning divisor at p = 1.85 s, and held from one update to the next:
    ((alpha + beta) - beta e^-Ts) / Ts.
The margins therefore depend on R and on the rate per flow, C / N.

`pie advise` computes the margins of a link by the same model, in fixed-point numbers. Its test compares
them with another computation (tests/program/advise.py).

With --check nothing is written. The stored picture must equal the one that this script makes, and the
margins are compared with other methods:

- An integrator with a delay has its margins in closed form.
- The frequency at which the loop's gain is 1 solves a cubic, if the controller is alpha and beta
  without sampling.
- The mean number of packets to a pick is summed exactly.
- A stepwise simulation of the fluid model, which is not linear, with this project's rule in
  integers, must settle where the margins are positive, and oscillate where they are negative.

The numbers in docs/GUARANTEES.md must be the computed ones, rounded so that each sentence holds: least
margins down, also those at the edges of the auto-tuning divisor.

usage: docs/margins.py [--check]"""
import cmath
import math
import sys
from pathlib import Path
from curves import COLOURS, Panel, keep, picture

ALPHA, BETA, UPDATE, TARGET, PACKET = 0.125, 1.25, 0.015, 0.015, 12000  # per second, seconds, and bits
NEVER, ALWAYS = 0.85, 8.5  # the sum of probabilities below which no packet is picked, and from which each is (RFC 8033, section 5.4)
PER_PICK = 1 + NEVER  # probability that adds up from pick to pick, on average
TUNING = ((1e-6, 2048), (1e-5, 512), (1e-4, 128), (1e-3, 32), (1e-2, 8), (1e-1, 2))
TRIPS = (0.01, 0.02, 0.05, 0.1, 0.2)
RATES = [10 ** (place / 40) for place in range(-35, 81)]  # Mbit/s for each flow


def divisor(prob):
    return next((by for below, by in TUNING if prob < below), 1)


class Loop:
    """The open loop at a round-trip time, which includes the target delay, and a share of packets that are lost or marked."""

    def __init__(self, trip, share):
        self.trip, self.window, self.tuned = trip, math.sqrt(2 / share), 1 / divisor(PER_PICK * share) / PER_PICK

    def gain(self, w):
        controller = self.tuned * abs(ALPHA + BETA - BETA * cmath.exp(-1j * w * UPDATE)) / (w * UPDATE)
        return controller * self.window / (2 * self.trip) / abs((1j * w + 2 / (self.trip * self.window)) * (1j * w + 1 / self.trip))

    def phase(self, w):
        controller = cmath.phase(ALPHA + BETA - BETA * cmath.exp(-1j * w * UPDATE)) - math.pi / 2
        return controller - w * self.trip - math.atan(w * self.trip * self.window / 2) - math.atan(w * self.trip)


class Integrator:
    """A gain k over s with a delay: its gain is 1 at k, and its phase -180 degrees at pi / 2 over the delay."""

    def __init__(self, k, delay):
        self.k, self.delay = k, delay

    def gain(self, w):
        return self.k / w

    def phase(self, w):
        return -math.pi / 2 - w * self.delay


def crossing(falls):
    """Returns the zero of a decreasing function."""
    low, high = 1e-9, 1e9
    for _ in range(120):
        middle = math.sqrt(low * high)
        low, high = (middle, high) if falls(middle) > 0 else (low, middle)
    return low


def margins(loop):
    """Returns the phase margin in degrees and the gain margin in decibels."""
    phase = 180 + math.degrees(loop.phase(crossing(lambda w: loop.gain(w) - 1)))
    return phase, -20 * math.log10(loop.gain(crossing(lambda w: loop.phase(w) + math.pi)))


def share_at(rate, trip):
    """Returns the share of packets that flows of `rate` Mbit/s lose at a round-trip time, which includes the target delay."""
    return 2 / (trip * rate * 1e6 / PACKET) ** 2


def curve(trip, rates=RATES):
    """Yields the rates at which the model's window is at least two packets, each with its margins."""
    for rate in rates:
        share = share_at(rate, trip + TARGET)
        if share <= 0.5:
            yield rate, margins(Loop(trip + TARGET, share))


def drawn():
    rates = [(0.1, "0.1"), (1, "1"), (10, "10"), (100, "100")]
    panels = [Panel("Phase margin", "Mbit/s per flow", "degrees", rates, [(it, str(it)) for it in range(-90, 121, 30)], xlog=True),
              Panel("Gain margin", "Mbit/s per flow", "dB", rates, [(it, str(it)) for it in range(-60, 41, 20)], xlog=True)]
    for colour, trip in zip(COLOURS[::-1], TRIPS):
        points = list(curve(trip))
        for place, panel in enumerate(panels):
            panel.line([(rate, both[place]) for rate, both in points], colour)
    for panel in panels:
        panel.line([(0.1, 0), (100, 0)], "#333333", 1, "4 3")
    panels[0].words(0.105, -86, "computed from a linear model, not proved: unstable below 0")
    panels[1].words(0.105, -18, "round-trip time:")
    for place, (colour, trip) in enumerate(zip(COLOURS[::-1], TRIPS)):
        panels[1].words(0.105, -25 - 7 * place, f"{trip * 1000:.0f} ms", colour=colour, weight="bold")
    return picture(panels)


def check(what, found, wanted, within):
    if abs(found - wanted) > within:
        sys.exit(f"docs/margins.py: {what}: {found}, and not {wanted}")


def cubic_crossing(loop):
    """Returns the frequency at which the gain is 1 with (alpha + (beta + alpha / 2) T s) / Ts for the controller: a cubic in the
    frequency's square, by Newton from above."""
    k = (loop.tuned * loop.window / (2 * loop.trip * UPDATE)) ** 2
    a, b = (2 / (loop.trip * loop.window)) ** 2, (1 / loop.trip) ** 2
    slope = ((BETA + ALPHA / 2) * UPDATE) ** 2
    x = 1e6
    for _ in range(400):
        x -= (x * (x + a) * (x + b) - k * (ALPHA ** 2 + slope * x)) / (3 * x * x + 2 * (a + b) * x + a * b - k * slope)
    return math.sqrt(x)


def next_prob(prob, delay, old):
    """Returns the next probability by the rule in whole numbers: probabilities in 10^-12, delays in nanoseconds."""
    by = next((by for below, by in TUNING if prob < round(below * 1e12)), 1)
    raw = 125 * (delay - 15_000_000) + 1250 * (delay - old)
    step = raw // by if raw >= 0 else -(-raw // by)
    step = min(step, 20_000_000_000) if prob >= 10**11 else step
    total = prob + step
    total = total * 98 // 100 if delay == 0 and old == 0 else total
    return max(0, min(10**12, total))


def swings(trip, share, seconds=40, step=0.0005):
    """Returns the range of the delay, in milliseconds, in the third and in the last tenth of a simulation that begins a twentieth above rest."""
    rest = trip + TARGET
    window, delay, prob, old = math.sqrt(2 / share), TARGET * 1.05, round(PER_PICK * share * 1e12), round(TARGET * 1e9)
    rate, past, delays, due = window / rest, [(window, rest, share)], [], UPDATE
    for count in range(1, round(seconds / step) + 1):
        now = trip + delay
        was, was_trip, was_share = past[max(0, len(past) - 1 - round(now / step))]
        window = max(1.0, window + step * (1 / now - window * was * was_share / (2 * was_trip)))
        delay = max(0.0, delay + step * (window / now / rate - 1))
        past.append((window, trip + delay, prob / PER_PICK / 1e12))
        if count * step >= due - 1e-9:
            due += UPDATE
            prob, old = next_prob(prob, round(delay * 1e9), old), round(delay * 1e9)
        delays.append(delay * 1000)
    tenth = len(delays) // 10
    return [max(it) - min(it) for it in (delays[2 * tenth:3 * tenth], delays[9 * tenth:])]


def packets_to_a_pick(prob):
    """Returns the mean number of considered packets from one pick to the next, at one probability."""
    mean, unpicked, count = 0.0, 1.0, 0
    while unpicked > 0:
        count += 1
        mean += unpicked
        total = count * prob
        unpicked *= 1 if total < NEVER else 0 if total >= ALWAYS else 1 - prob
    return mean


def rates_at(trip, steps):
    """Returns rates per flow over the width of the picture, in Mbit/s, and those just below, at and above each edge of the
    auto-tuning divisor."""
    rates = [10 ** (place / steps) for place in range(round(steps * math.log10(RATES[0])), 2 * steps + 1)]
    edges = [math.sqrt(2 * PER_PICK / below) / (trip + TARGET) * PACKET / 1e6 for below, _ in TUNING]
    return sorted([*rates, *(edge * part for edge in edges for part in (1 - 1e-9, 1 + 1e-9) if RATES[0] < edge < RATES[-1])])


def least_margins(trip):
    """Returns the least phase margin and the least gain margin of all rates in the picture."""
    found = [both for _, both in curve(trip, rates_at(trip, 400))]
    return min(phase for phase, _ in found), min(gain for _, gain in found)


def stable_ranges(trip):
    """Returns the ranges of rates per flow, in Mbit/s, in which the loop is stable."""
    ranges, was_stable = [], False
    for rate, both in curve(trip, rates_at(trip, 4000)):
        if min(both) >= 0:
            ranges = [*ranges[:-1], (ranges[-1][0], rate)] if was_stable else [*ranges, (rate, rate)]
        was_stable = min(both) >= 0
    return ranges


def up(number, places):
    return math.ceil(number * 10 ** places) / 10 ** places


def down(number, places):
    return math.floor(number * 10 ** places) / 10 ** places


def stated():
    """Returns the sentences of docs/GUARANTEES.md that contain computed numbers."""
    phase, gain = least_margins(0.05)
    (_, low), (from_, to) = stable_ranges(0.1)
    ((_, lowest),) = stable_ranges(0.2)
    return (f"(at least {down(gain, 1):.1f} dB and {down(phase, 1):.1f} degrees at 50 ms)",
            f"stable up to {down(low, 2):.2f} Mbit/s per flow at 100 ms, and from {up(from_, 2):.2f} to {down(to, 2):.2f} Mbit/s",
            f"up to {down(lowest, 2):.2f} Mbit/s at 200 ms")


def checks():
    for k, delay in ((1, 0.1), (20, 0.03)):
        phase, gain = margins(Integrator(k, delay))
        check("phase margin of an integrator", phase, 90 - math.degrees(k * delay), 1e-6)
        check("gain margin of an integrator", gain, 20 * math.log10(math.pi / (2 * k * delay)), 1e-6)
    for trip in TRIPS:
        for share in (1e-5, 1e-3, 0.02, 0.2):
            loop = Loop(trip + TARGET, share)
            found = crossing(lambda w: loop.gain(w) - 1)
            # sampling changes it by less than a fiftieth if the frequency is below a fifth of the updates' own
            if found * UPDATE < 0.5:
                check(f"crossing at {trip} s and {share}", found / cubic_crossing(loop), 1, 0.02)
    for prob in (1e-4, 1e-3, 0.01, 0.02):
        check(f"packets to a pick at {prob}", packets_to_a_pick(prob) * prob / PER_PICK, 1, 0.01)
    for trip, share in ((0.01, 0.003), (0.01, 0.03), (0.05, 0.003), (0.1, 0.001), (0.1, 0.02), (0.2, 0.003)):
        phase, gain = margins(Loop(trip + TARGET, share))
        early, late = swings(trip, share)
        if (phase > 0) != (gain > 0) or (phase > 0) != (late < 0.01) or (phase < 0) != (late > early / 2 and late > 1):
            sys.exit(f"docs/margins.py: at {trip} s and {share}: margins {phase}, {gain}, and swings of {early}, {late} ms")
    page = " ".join((Path(__file__).parent / "GUARANTEES.md").read_text().split())
    for sentence in stated():
        if sentence not in page:
            sys.exit(f"docs/margins.py: docs/GUARANTEES.md does not contain: {sentence}")


def main():
    is_check = sys.argv[1:] == ["--check"]
    keep("margins.svg", drawn(), is_check)
    if is_check:
        checks()
        print("docs/margins.py: the stored picture is the one that this script makes; other methods find the same margins, and simulations agree")


if __name__ == "__main__":
    main()
