/* Products, quotients and shifts of 128 bits, which LLVM calls where a processor has no such instruction. tests/web compares them with gcc's. */
#include "../bpf/division.h"

typedef unsigned __int128 wide;
typedef __int128 signed_wide;

static inline uint64_t low_of(wide number) {
    return (uint64_t)number;
}

static inline uint64_t high_of(wide number) {
    union {
        wide number;
        uint64_t halves[2];
    } it = {number};
    return it.halves[1];
}

static inline wide joined(uint64_t high, uint64_t low) {
    union {
        uint64_t halves[2];
        wide number;
    } it = {{low, high}};
    return it.number;
}

wide __ashlti3(wide number, int places);
wide __lshrti3(wide number, int places);
signed_wide __ashrti3(signed_wide number, int places);
wide __multi3(wide one, wide two);
wide __udivti3(wide number, wide by);
wide __umodti3(wide number, wide by);
signed_wide __divti3(signed_wide number, signed_wide by);
signed_wide __modti3(signed_wide number, signed_wide by);

wide __ashlti3(wide number, int places) {
    uint64_t low = low_of(number), high = high_of(number);
    if (places >= 64) return joined(low << (places - 64), 0);
    return places == 0 ? number : joined(high << places | low >> (64 - places), low << places);
}

wide __lshrti3(wide number, int places) {
    uint64_t low = low_of(number), high = high_of(number);
    if (places >= 64) return joined(0, high >> (places - 64));
    return places == 0 ? number : joined(high >> places, low >> places | high << (64 - places));
}

signed_wide __ashrti3(signed_wide number, int places) {
    uint64_t low = low_of((wide)number);
    int64_t high = (int64_t)high_of((wide)number);
    if (places >= 64) return (signed_wide)joined((uint64_t)(high >> 63), (uint64_t)(high >> (places - 64)));
    return places == 0 ? number : (signed_wide)joined((uint64_t)(high >> places), low >> places | (uint64_t)high << (64 - places));
}

wide __multi3(wide one, wide two) {
    uint64_t a = low_of(one), b = low_of(two);
    uint64_t al = a & 0xffffffff, ah = a >> 32, bl = b & 0xffffffff, bh = b >> 32;
    uint64_t middle = ah * bl + (al * bl >> 32), other;
    /* (otherwise the compiler makes a call of this function of these steps) */
    __asm__("" : "+r"(middle));
    other = al * bh + (middle & 0xffffffff);
    return joined(ah * bh + (middle >> 32) + (other >> 32) + a * high_of(two) + high_of(one) * b, a * b);
}

/* Returns the quotient, and stores the rest. A divisor of more than 64 bits is divided bit by bit: its quotient has less than 64 bits. */
static wide divided(wide number, wide by, wide *rest) {
    uint64_t high = high_of(number), low = low_of(number), upper = high_of(by), lower = low_of(by), quotient = 0;
    wide left;
    int place;
    if (upper == 0) {
        uint64_t first, second;
        if (high == 0) {
            *rest = joined(0, low % lower);
            return joined(0, low / lower);
        }
        first = high / lower;
        second = pie_div_low(high % lower, low, lower);
        *rest = joined(0, low - second * lower);
        return joined(first, second);
    }
    if (number < by) {
        *rest = number;
        return 0;
    }
    left = number;
    place = __builtin_clzll(upper) - __builtin_clzll(high);
    by = __ashlti3(by, place);
    for (; place >= 0; place--) {
        quotient <<= 1;
        if (left >= by) {
            left -= by;
            quotient |= 1;
        }
        by = __lshrti3(by, 1);
    }
    *rest = left;
    return joined(0, quotient);
}

wide __udivti3(wide number, wide by) {
    wide rest;
    return divided(number, by, &rest);
}

wide __umodti3(wide number, wide by) {
    wide rest;
    divided(number, by, &rest);
    return rest;
}

signed_wide __divti3(signed_wide number, signed_wide by) {
    wide rest, quotient = divided(number < 0 ? -(wide)number : (wide)number, by < 0 ? -(wide)by : (wide)by, &rest);
    return (signed_wide)((number < 0) != (by < 0) ? -quotient : quotient);
}

signed_wide __modti3(signed_wide number, signed_wide by) {
    wide rest;
    divided(number < 0 ? -(wide)number : (wide)number, by < 0 ? -(wide)by : (wide)by, &rest);
    return (signed_wide)(number < 0 ? -rest : rest);
}
