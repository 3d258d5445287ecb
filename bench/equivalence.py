#!/usr/bin/env python3
"""Tests whether two queues give the same results within a margin fixed beforehand: two one-sided tests (Schuirmann)
of Welch's kind at 5 per cent, with the power of this number of runs if there is no difference. "Not significant"
means nothing; only `same` and `different` are results.

The numerics are this project's own, because they need nothing beside Python's standard library:
tests/documents/equivalence.py compares them with published values."""
import functools
import math
from statistics import NormalDist, fmean, variance

LEVEL = 0.05
NORMAL = NormalDist()


def beta_fraction(a, b, x):
    """Returns the continued fraction of the incomplete beta function (Lentz)."""
    c, d = 1.0, 1 / (1 - (a + b) * x / (a + 1))
    found = d
    for m in range(1, 500):
        for step in (m * (b - m) * x / ((a + 2 * m - 1) * (a + 2 * m)), -(a + m) * (a + b + m) * x / ((a + 2 * m) * (a + 2 * m + 1))):
            d = 1 / (1 + step * d)
            c = 1 + step / c
            found *= c * d
        if abs(c * d - 1) < 1e-15:
            break
    return found


def incomplete_beta(a, b, x):
    if x <= 0 or x >= 1:
        return float(x >= 1)
    front = math.exp(math.lgamma(a + b) - math.lgamma(a) - math.lgamma(b) + a * math.log(x) + b * math.log1p(-x))
    if x < (a + 1) / (a + b + 2):
        return front * beta_fraction(a, b, x) / a
    return 1 - front * beta_fraction(b, a, 1 - x) / b


def student(t, freedom):
    """Returns the distribution function of Student's t."""
    half = incomplete_beta(freedom / 2, 0.5, freedom / (freedom + t * t)) / 2
    return 1 - half if t > 0 else half


@functools.cache
def student_quantile(share, freedom):
    least, most = -1e4, 1e4
    for _ in range(200):
        middle = (least + most) / 2
        least, most = (middle, most) if student(middle, freedom) < share else (least, middle)
    return (least + most) / 2


def power(margin, error, freedom, difference=0.0, level=LEVEL):
    """Returns the probability that two one-sided tests say `same` at this difference. The estimated
    error is distributed as the root of chi-square over its degrees of freedom."""
    if error == 0:
        return float(abs(difference) < margin)
    quantile = student_quantile(1 - level, freedom)
    most, steps, total = margin / (quantile * error), 1000, 0.0
    scale = math.log(2) + freedom / 2 * math.log(freedom / 2) - math.lgamma(freedom / 2)
    for step in range(steps):
        u = most * (step + 0.5) / steps
        density = math.exp(scale + (freedom - 1) * math.log(u) - freedom * u * u / 2)
        reach = margin - quantile * error * u
        total += density * max(0.0, NORMAL.cdf((reach - difference) / error) - NORMAL.cdf((-reach - difference) / error))
    return total * most / steps


def judge(difference, error, freedom, margin):
    """Returns the difference, its 90 per cent interval, the verdict, and the power at no
    difference. The verdict is `same` if the interval lies within the margin, `different` if it lies
    outside, otherwise `open`."""
    reach = student_quantile(1 - LEVEL, freedom) * error
    least, most = difference - reach, difference + reach
    verdict = "same" if -margin < least and most < margin else "different" if least > margin or most < -margin else "open"
    return difference, least, most, verdict, power(margin, error, freedom)


def compare(ours, theirs, margin):
    """Returns the verdict on the difference of the means (`judge`)."""
    parts = [variance(ours) / len(ours), variance(theirs) / len(theirs)]
    difference, error = fmean(ours) - fmean(theirs), math.sqrt(sum(parts))
    if error == 0:
        freedom = len(ours) + len(theirs) - 2
    else:
        freedom = sum(parts) ** 2 / (parts[0] ** 2 / (len(ours) - 1) + parts[1] ** 2 / (len(theirs) - 1))
    return judge(difference, error, freedom, margin)


def compare_pairs(ours, theirs, margin):
    """Judges, as `compare` does, blocks that both got: the mean of the differences within a block, tested by Student's t."""
    differences = [one - other for one, other in zip(ours, theirs, strict=True)]
    difference, error, freedom = fmean(differences), math.sqrt(variance(differences) / len(differences)), len(differences) - 1
    return judge(difference, error, freedom, margin)
