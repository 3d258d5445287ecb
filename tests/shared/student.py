"""Student's t for the scripts that compute printed numbers again: by Simpson's rule, and so without code of bench/equivalence.py."""
import functools
import math


def tail(t, freedom):
    """Returns the probability of more than t, for t from 0: the integral of cos ** (freedom - 1) from atan(t / sqrt(freedom)), by Simpson's rule."""
    def area(begin, parts=400):
        step = (math.pi / 2 - begin) / parts
        at = [math.cos(begin + place * step) ** (freedom - 1) for place in range(parts)] + [1.0 if freedom == 1 else 0.0]
        return step / 3 * (at[0] + at[-1] + 4 * sum(at[1:-1:2]) + 2 * sum(at[2:-1:2]))
    return area(math.atan(t / math.sqrt(freedom))) / area(0.0) / 2


@functools.cache
def t95(freedom):
    """Returns the t that is exceeded with a probability of 5 %."""
    low, high = 0.0, 100.0
    for _ in range(60):
        middle = (low + high) / 2
        low, high = (middle, high) if tail(middle, freedom) > 0.05 else (low, middle)
    return low


def mean(values):
    return math.fsum(values) / len(values)


def spread(values):
    """Returns the variance of the mean of independent values."""
    middle = mean(values)
    return math.fsum((it - middle) ** 2 for it in values) / (len(values) - 1) / len(values)
