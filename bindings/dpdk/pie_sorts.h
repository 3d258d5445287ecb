/* Buckets of histograms for waiting times and probabilities. A bucket (`sort`) counts values up to its bound and above
 * the bound of the previous bucket. The last bucket has no bound. */
#ifndef PIE_SORTS_H
#define PIE_SORTS_H

#include <stdint.h>

#define PIE_WAIT_SORTS 13
#define PIE_PROB_SORTS 13

/* Returns the bound of a bucket of waits in nanoseconds: 250 us, 500 us and so on to 512 ms. */
static inline uint64_t pie_wait_bound(uint32_t sort) {
    return UINT64_C(250000) << sort;
}

/* Returns the bucket of a wait. Each bound is twice the previous one. */
static inline uint32_t pie_wait_sort(uint64_t wait) {
    uint64_t bounds = (wait - (wait != 0)) / pie_wait_bound(0);
    uint32_t sort = bounds == 0 ? 0 : 64 - (uint32_t)__builtin_clzll(bounds);
    return sort < PIE_WAIT_SORTS ? sort : PIE_WAIT_SORTS - 1;
}

/* Returns the bound of a bucket of probabilities in units of 10^-12: 0.0001, 0.0002, 0.0005, 0.001 and so on to 0.5. */
static inline uint64_t pie_prob_bound(uint32_t sort) {
    uint64_t bound = sort % 3 == 0 ? 100000000 : sort % 3 == 1 ? 200000000 : 500000000;
    for (; sort >= 3; sort -= 3)
        bound *= 10;
    return bound;
}

/* Returns the bucket of a probability. */
static inline uint32_t pie_prob_sort(uint64_t prob) {
    uint32_t sort = 0;
    while (sort + 1 < PIE_PROB_SORTS && prob > pie_prob_bound(sort))
        sort++;
    return sort;
}

#endif
