/* Compares the products and quotients of 128 bits that dist/bpf computes with those of gcc's __int128: so many random cases, and all pairs of odd numbers.
 * bpf.py compiles it with the functions `product` and `quotient`. */
#include "division.h"

#include <stdio.h>
#include <stdlib.h>

typedef unsigned __int128 wide;

void product(const wide *one, const wide *two, wide *to);
void quotient(const wide *one, const wide *two, wide *to);

static uint64_t state = 1;

static uint64_t random_word(void) {
    uint64_t it = state += UINT64_C(0x9e3779b97f4a7c15);
    it = (it ^ it >> 30) * UINT64_C(0xbf58476d1ce4e5b9);
    it = (it ^ it >> 27) * UINT64_C(0x94d049bb133111eb);
    return it ^ it >> 31;
}

/* Returns a number with a random number of bits. Half of the numbers have long runs of equal bits. */
static uint64_t number(void) {
    uint64_t it = random_word(), about = random_word();
    if (about & 64)
        it = (it & random_word() & random_word()) ^ -(about >> 7 & 1);
    return it >> (about & 63);
}

static void compare(wide one, wide two) {
    wide it;
    uint64_t by = (uint64_t)two;
    product(&one, &two, &it);
    if (it != one * two) {
        printf("a product differs: %llx%016llx, %llx%016llx\n", (unsigned long long)(one >> 64), (unsigned long long)one, (unsigned long long)(two >> 64), (unsigned long long)two);
        exit(1);
    }
    if (by == 0)
        return;
    two = by;
    quotient(&one, &two, &it);
    if (it != one / two) {
        printf("a quotient differs: %llx%016llx, %llx\n", (unsigned long long)(one >> 64), (unsigned long long)one, (unsigned long long)by);
        exit(1);
    }
}

int main(int count, char **words) {
    static uint64_t odd[200];
    long cases = count > 1 ? atol(words[1]) : 1, pairs = 0;
    int odds = 0;
    for (int bit = 0; bit < 64; bit++)
        for (int by = -1; by <= 1; by++)
            if (bit == 63 || bit == 32 || bit == 31 || bit % 4 == 0)
                odd[odds++] = (UINT64_C(1) << bit) + by;
    odd[odds++] = UINT64_MAX - 1;
    odd[odds++] = UINT64_C(0xffffffff00000000);
    odd[odds++] = UINT64_C(0xffffffff00000001);
    odd[odds++] = UINT64_C(0x80000000ffffffff);
    odd[odds++] = UINT64_C(0x8000000000000001);
    odd[odds++] = UINT64_C(1000000000000);
    for (int a = 0; a < odds; a++)
        for (int b = 0; b < odds; b++)
            for (int c = 0; c < odds; c++, pairs++)
                compare((wide)odd[a] << 64 | odd[b], (wide)odd[b] << 64 | odd[c]);
    for (long at = 0; at < cases; at++)
        compare((wide)number() << 64 | number(), (wide)number() << 64 | number());
    printf("equal: %ld random cases, %ld odd ones\n", cases, pairs);
    return 0;
}
