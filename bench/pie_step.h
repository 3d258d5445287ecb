/* PIE in plain C, with the steps of pie_rate, pie_control and pie_early in the same integers. All
 * measurements compare this repository's code with these functions. A function whose name ends in
 * `_by` or `_after` is inlined into its caller, and a STEP is a call. The file also has the common
 * parts of the measurements: the default parameters, words in place of random ones, and the clock. */
#ifndef PIE_STEP_H
#define PIE_STEP_H

#include <stdint.h>
#include <time.h>

#define ONE 1000000000000ull
#define MAX_DELAY (1ull << 40)

/* A step is a separate call, as between the crates of the repository. */
#if defined(__GNUC__) && !defined(__clang__)
#define STEP __attribute__((noipa, unused)) static
#else
#define STEP __attribute__((noinline, unused)) static
#endif

/* The decisions of an arrival, with the numbers of pie.h. */
enum choice { ENQUEUE, MARK, DROP_EARLY, DROP_BYTES, DROP_PACKETS };

struct params {
    uint64_t target, t_update, max_burst, alpha, beta, mean_pkt, limit_bytes, mark_ecnth, dq_threshold;
};

__attribute__((unused)) static const struct params default_params = {15000000, 15000000, 150000000,      125,  1250,
                                                                     1024,     262144,   100000000000ull, 16384};

struct control {
    uint64_t prob, old_delay, burst, last;
};

struct rate {
    uint64_t average, start, count;
    int begun;
};

/* Early drop (RFC 8033, sections 4.1, 5.1 and 5.4). */
static inline enum choice consider_by(uint64_t *accu, const struct params *params, const struct control *control,
                                      uint64_t bytes, int ecn, uint64_t word) {
    if (control->burst != 0 || bytes <= 2 * params->mean_pkt ||
        (2 * control->old_delay < params->target && control->prob < 200000000000ull))
        return ENQUEUE;
    uint64_t prob = control->prob;
    if (prob == 0) {
        *accu = 0;
        return ENQUEUE;
    }
    uint64_t sum = *accu + prob;
    if (sum < 850000000000ull ||
        (sum < 8500000000000ull && !((unsigned __int128)word * ONE < (unsigned __int128)prob << 64))) {
        *accu = sum;
        return ENQUEUE;
    }
    *accu = 0;
    return ecn != 0 && prob < params->mark_ecnth ? MARK : DROP_EARLY;
}

STEP enum choice consider(uint64_t *accu, const struct params *params, const struct control *control, uint64_t bytes,
                          int ecn, uint64_t word) {
    return consider_by(accu, params, control, bytes, ecn, word);
}

/* Tail drop by bytes, then by packets (appendix A); ENQUEUE if there is room for the packet. */
static inline enum choice tail_drop_by(uint64_t *accu, const struct params *params, uint64_t bytes, uint32_t size,
                                       int is_full) {
    if (bytes + size <= params->limit_bytes && !is_full)
        return ENQUEUE;
    *accu = 0;
    return bytes + size > params->limit_bytes ? DROP_BYTES : DROP_PACKETS;
}

/* An arrival: tail drop, and then early drop. */
static inline enum choice arrived_by(uint64_t *accu, const struct params *params, const struct control *control,
                                     uint64_t bytes, uint32_t size, int is_full, int ecn, uint64_t word) {
    enum choice drop = tail_drop_by(accu, params, bytes, size, is_full);
    return drop != ENQUEUE ? drop : consider_by(accu, params, control, bytes, ecn, word);
}

/* Adds a departure to the estimate of the departure rate (section 5.2). */
static inline void departed_by(struct rate *rate, uint32_t size, uint64_t left, uint64_t moment, uint64_t threshold) {
    if (rate->begun) {
        uint64_t count = rate->count + size;
        if (count < threshold) {
            rate->count = count;
            return;
        }
        uint64_t sample = moment > rate->start ? moment - rate->start : 0;
        if (sample == 0)
            sample = 1;
        if (rate->average == 0)
            rate->average = sample;
        else
            rate->average = (uint64_t)(((unsigned __int128)sample * threshold +
                                        (unsigned __int128)rate->average * (65536 - threshold)) / 65536);
    }
    rate->begun = left >= threshold;
    rate->start = moment;
    rate->count = 0;
}

STEP void departed(struct rate *rate, uint32_t size, uint64_t left, uint64_t moment, uint64_t threshold) {
    departed_by(rate, size, left, moment, threshold);
}

/* Returns the delay of this many bytes (section 5.2). */
static inline uint64_t delay_by(uint64_t bytes, uint64_t average, uint64_t threshold) {
    unsigned __int128 estimate = (unsigned __int128)bytes * average / threshold;
    return estimate > MAX_DELAY ? MAX_DELAY : (uint64_t)estimate;
}

STEP uint64_t delay(uint64_t bytes, uint64_t average, uint64_t threshold) {
    return delay_by(bytes, average, threshold);
}

/* Returns the next probability (sections 4.2 and 5.5), with or without decay. */
static inline uint64_t probability_by(const struct params *p, uint64_t prob, uint64_t delay, uint64_t old, int decays) {
    __int128 step = (__int128)p->alpha * ((__int128)delay - p->target) + (__int128)p->beta * ((__int128)delay - old);
    step /= prob < 1000000ull        ? 2048
            : prob < 10000000ull     ? 512
            : prob < 100000000ull    ? 128
            : prob < 1000000000ull   ? 32
            : prob < 10000000000ull  ? 8
            : prob < 100000000000ull ? 2
                                     : 1;
    if (prob >= 100000000000ull && step > 20000000000ll)
        step = 20000000000ll;
    step += prob;
    if (decays)
        step = step * 98 / 100;
    return step < 0 ? 0 : step > (__int128)ONE ? ONE : (uint64_t)step;
}

/* Returns the next probability; it decays if both delays are 0. */
static inline uint64_t probability_after(const struct params *p, uint64_t prob, uint64_t delay, uint64_t old) {
    return probability_by(p, prob, delay, old, delay == 0 && old == 0);
}

STEP uint64_t next_probability(const struct params *p, uint64_t prob, uint64_t delay, uint64_t old) {
    return probability_after(p, prob, delay, old);
}

/* An update: the probability, and then the burst allowance (section 4.4). */
static inline struct control control_by(const struct control *control, const struct params *p, uint64_t delay,
                                        uint64_t moment, int decays) {
    uint64_t old = control->old_delay;
    uint64_t prob = probability_by(p, control->prob, delay, old, decays);
    uint64_t burst = control->burst > p->t_update ? control->burst - p->t_update : 0;
    if (prob == 0 && 2 * delay < p->target && 2 * old < p->target)
        burst = p->max_burst;
    return (struct control){prob, delay, burst, moment};
}

static inline struct control control_after(const struct control *control, const struct params *p, uint64_t delay,
                                           uint64_t moment) {
    return control_by(control, p, delay, moment, delay == 0 && control->old_delay == 0);
}

STEP void updated(struct control *control, const struct params *p, uint64_t delay, uint64_t moment) {
    *control = control_after(control, p, delay, moment);
}

static uint64_t last = 1;

/* The next word: a linear congruential generator by Knuth's factor, as in crates/pie_library_tests/src/event_costs.rt. */
__attribute__((unused)) static uint64_t word(void) {
    last = last * 6364136223846793005ull + 1442695040888963407ull;
    return last ^ (last >> 32);
}

__attribute__((unused)) static double nanos(void) {
    struct timespec now;
    clock_gettime(CLOCK_MONOTONIC, &now);
    return (double)now.tv_sec * 1e9 + (double)now.tv_nsec;
}

#endif
