/* The division of a 128-bit number by a 64-bit number, for processors that have no such instruction: pie_c.ll calls pie_div_low. In a BPF program the
 * function stays a function (`noinline`), so that the kernel verifies it once, for any arguments. */
#ifndef PIE_DIVISION_H
#define PIE_DIVISION_H

#include <stdint.h>

uint64_t pie_div_low(uint64_t high, uint64_t low, uint64_t by);

/* Returns `first` or a smaller digit: that of the quotient of a number with the upper digits `rest` + first * upper, and the next digit `next`, by a
 * divisor with the digits `upper` and `lower`. A digit has 32 bits. */
static inline __attribute__((__always_inline__)) uint64_t pie_digit(uint64_t first, uint64_t rest, uint64_t next, uint64_t upper, uint64_t lower) {
    uint64_t digit = first;
    if (digit >> 32 || digit * lower > (rest << 32 | next)) {
        digit--;
        rest += upper;
        if (!(rest >> 32) && (digit >> 32 || digit * lower > (rest << 32 | next)))
            digit--;
    }
    return digit;
}

/* Returns the quotient of high * 2^64 + low by `by`, where `high` is below `by`: two digits of Knuth's algorithm D. Otherwise returns any number. */
__attribute__((__noinline__)) uint64_t pie_div_low(uint64_t high, uint64_t low, uint64_t by) {
    uint64_t upper, lower, first, second, rest;
    unsigned int zeros = 0;
    /* until the greatest bit of the divisor is 1 */
#define PIE_SHIFT(bits) \
    if (!(by >> (64 - (bits)))) { \
        by <<= (bits); \
        zeros += (bits); \
    }
    PIE_SHIFT(32)
    PIE_SHIFT(16)
    PIE_SHIFT(8)
    PIE_SHIFT(4)
    PIE_SHIFT(2)
    PIE_SHIFT(1)
#undef PIE_SHIFT
    if (zeros)
        high = high << zeros | low >> (64 - zeros);
    low <<= zeros;
    upper = by >> 32;
    lower = by & 0xffffffff;
    first = pie_digit(high / upper, high % upper, low >> 32, upper, lower);
    rest = (high << 32 | low >> 32) - first * by;
    second = pie_digit(rest / upper, rest % upper, low & 0xffffffff, upper, lower);
    return (first << 32) + second;
}

#endif
