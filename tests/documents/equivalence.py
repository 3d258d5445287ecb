#!/usr/bin/env python3
"""Compares the statistics of bench/equivalence.py with published values: quantiles of Student's
t; the power of two one-sided tests, with the values of the R package PowerTOST (2x2 crossover, a
true ratio of 0.95, limits of 0.8 and 1.25); Welch's degrees of freedom; and the verdicts.
needs: nothing"""
import math
import os
import sys

HERE = os.path.dirname(os.path.abspath(__file__))
sys.path[:0] = [f"{HERE}/../shared", f"{HERE}/../../bench"]
sys.dont_write_bytecode = True
from checks import check, finish  # noqa: E402
from equivalence import compare, power, student, student_quantile  # noqa: E402

for share, freedom, known in ((0.95, 1, 6.313752), (0.95, 4, 2.131847), (0.95, 10, 1.812461), (0.975, 8, 2.306004), (0.95, 120, 1.657651)):
    found = student_quantile(share, freedom)
    check(abs(found - known) < 2e-6, f"the quantile of {share} at {freedom} degrees of freedom is {found}, not {known}")
    check(abs(student(known, freedom) - share) < 1e-6 and abs(student(-known, freedom) - 1 + share) < 1e-6, f"the share below {known}")
for variation, count, known in ((0.2, 20, 0.834680), (0.25, 28, 0.807439), (0.3, 40, 0.815845)):
    error = math.sqrt(math.log(1 + variation**2)) * math.sqrt(2 / count)
    found = power(math.log(1.25), error, count - 2, math.log(0.95))
    check(abs(found - known) < 2e-4, f"the power at a variation of {variation} with {count} is {found}, not {known}")
# at the margin itself the tests say `same` at most in 5 per cent of all cases
check(abs(power(2, 0.3, 8, 2) - 0.05) < 1e-3, f"the power at the margin is {power(2, 0.3, 8, 2)}")
for ours, theirs, known in (
    ([10, 10.1, 9.9, 10.2, 9.8], [10.1, 10, 10.2, 9.9, 10], "same"),
    ([10, 10.1, 9.9, 10.2, 9.8], [14, 14.1, 13.9, 14.2, 13.8], "different"),
    ([14, 14.1, 13.9, 14.2, 13.8], [10, 10.1, 9.9, 10.2, 9.8], "different"),
    ([10, 4, 16, 8, 12], [10, 11, 3, 17, 9], "open"),
    ([10.0] * 5, [10.0] * 5, "same"),
):
    found = compare(ours, theirs, 2)
    check(found[3] == known, f"{ours} and {theirs} are {found[3]}, not {known}")
# Welch's interval, by hand: variances 2.5 and 10, degrees of freedom 5.882, an error of sqrt(2.5)
found = compare([1, 2, 3, 4, 5], [2, 4, 6, 8, 10], 2)
reach = student_quantile(0.95, 6.25 / (0.25 / 4 + 4 / 4)) * math.sqrt(2.5)
check(abs(found[0] + 3) < 1e-12 and abs(found[1] + 3 + reach) < 1e-9 and abs(found[2] + 3 - reach) < 1e-9, f"Welch's interval is {found}")
finish()
