/* Tests docs/LIBRARY.md over the library: the clock, the timer, the random word, sizes, limits and parameters.
 * Exits with status 1 at the first statement that is not true, and prints its line. */
#include "pie.h"

#include <stdio.h>
#include <string.h>

#define CHECK(condition)                                                       \
    do {                                                                       \
        if (!(condition)) {                                                    \
            fprintf(stderr, "traps.c:%d: %s\n", __LINE__, #condition);         \
            return 1;                                                          \
        }                                                                      \
    } while (0)

/* Opens with these parameters at this moment, with delays by the departure rate; the rest of the opening is the default. */
static uint32_t open_with(struct pie_state *state, const struct pie_params *params, uint64_t moment) {
    struct pie_opening opening;
    pie_default_opening(&opening, 0);
    opening.params = *params;
    opening.moment = moment;
    opening.choices = PIE_USUAL;
    return pie_open(state, &opening);
}

/* A controller with the defaults, opened at a moment. */
static struct pie_state opened(uint64_t moment) {
    struct pie_params params;
    struct pie_state state;
    pie_default_params(&params);
    open_with(&state, &params, moment);
    return state;
}

static int same(const struct pie_state *a, const struct pie_state *b) {
    return memcmp(a, b, sizeof *a) == 0;
}

static int clock_far_ahead(void) {
    struct pie_state pie = opened(1000);
    uint64_t far = 3600000000000000; /* a thousand hours */
    CHECK(pie_arrive(&pie, 0, 1500, 9, PIE_NOT_ECT, 0, far) == PIE_ENQUEUE);
    CHECK(pie_update(&pie, 0, 15001000).code == PIE_DONE && pie.last == far);
    for (uint64_t k = 2; k <= 1000; k++)
        CHECK(pie_update(&pie, 0, 15001000 * k).code == PIE_TOO_SOON);
    CHECK(pie_reset(&pie, 20000000000) == PIE_DONE && pie_update(&pie, 0, 20000000000).code == PIE_TOO_SOON);
    CHECK(pie_due(&pie) == far + 15000000 && pie_update(&pie, 0, pie_due(&pie)).code == PIE_DONE);
    CHECK(open_with(&pie, &pie.params, 20000000000) == PIE_DONE && pie_due(&pie) == 20015000000);
    CHECK(pie_update(&pie, 0, 20015000000).code == PIE_DONE);
    /* nanoseconds since 1970: of the first day of 2007 and of a day in 2026 */
    CHECK(pie_empty(&pie, 1167609600000000000) == PIE_BAD_MOMENT && pie_empty(&pie, 1795417200000000000) == PIE_BAD_MOMENT);
    CHECK(pie_empty(&pie, PIE_MAX_MOMENT + 1) == PIE_BAD_MOMENT && pie_empty(&pie, PIE_MAX_MOMENT) == PIE_DONE);
    return 0;
}

static int timers(void) {
    struct pie_state pie = opened(0);
    CHECK(pie_due(&pie) == 15000000 && pie_update(&pie, 0, 15000100).due == 30000100 && pie_due(&pie) == 30000100);
    struct pie_updated early = pie_update(&pie, 0, 30000050);
    CHECK(early.code == PIE_TOO_SOON && early.due - 30000050 == 50);
    CHECK(pie_update(&pie, 0, 45000020).code == PIE_DONE && pie.last == 45000020);
    /* a late update makes one step */
    struct pie_state prompt = opened(0), late = prompt;
    prompt.average = late.average = 30000000;
    struct pie_updated one = pie_update(&prompt, 16384, 15000000), other = pie_update(&late, 16384, 150000000);
    CHECK(one.prob != 0 && one.prob == other.prob && one.burst == other.burst && one.delay == other.delay);
    CHECK(other.due == 165000000);
    /* new parameters change the moment of the next update */
    struct pie_params params = late.params;
    params.t_update = 20000000;
    CHECK(pie_set_params(&late, &params, 150000000) == PIE_DONE && pie_due(&late) == 170000000);
    CHECK(pie_update(&late, 16384, 169999999).code == PIE_TOO_SOON && pie_update(&late, 16384, 170000000).code == PIE_DONE);
    return 0;
}

/* Tests words: at a probability of 117 * 10^-12 each word below 2^31 picks the packet, and at one half, half of all
 * words. */
static int words(void) {
    struct pie_state pie = opened(0);
    pie.prob = 117, pie.old_delay = 15000000, pie.burst = 0;
    struct pie_state before = pie;
    for (uint64_t word = 1; word < (uint64_t)1 << 31; word *= 2) {
        pie = before, pie.accu = 850000000000;
        CHECK(pie_arrive(&pie, 3000, 1500, 1, PIE_NOT_ECT, word, 0) == PIE_EARLY);
    }
    pie = before, pie.accu = 850000000000, pie.prob = PIE_ONE / 2;
    before = pie;
    CHECK(pie_arrive(&pie, 3000, 1500, 1, PIE_NOT_ECT, ((uint64_t)1 << 63) - 1, 0) == PIE_EARLY);
    pie = before;
    CHECK(pie_arrive(&pie, 3000, 1500, 1, PIE_NOT_ECT, (uint64_t)1 << 63, 0) == PIE_ENQUEUE);
    return 0;
}

static int answers_and_sizes(void) {
    struct pie_state pie = opened(0), before = pie;
    CHECK(pie_arrive(&pie, 0, PIE_MAX_SIZE + 1, 1, PIE_NOT_ECT, 0, 0) == PIE_BAD_SIZE && same(&pie, &before));
    CHECK(pie_arrive(&pie, 0, PIE_MAX_SIZE, 1, PIE_NOT_ECT, 0, 0) == PIE_ENQUEUE);
    CHECK(pie_depart(&pie, PIE_MAX_SIZE + 1, 0, 0) == PIE_BAD_SIZE && same(&pie, &before));
    CHECK(pie_depart(&pie, PIE_MAX_SIZE, PIE_MAX_BYTES + 1, 0) == PIE_BAD_QUEUE && same(&pie, &before));
    CHECK(pie_depart(&pie, PIE_MAX_SIZE, PIE_MAX_BYTES, 0) == PIE_DONE);
    /* each code has a text of its own, and no other number has one */
    const uint64_t codes[] = {0, 1, 2, 3, 4, 5, 101, 102, 103, 107, 110, 111, 112, 113, 114, 115, 116, 117, 118, 119, 120, PIE_BAD_EVERY};
    for (uint64_t code = 0; code < 300; code++) {
        int is_code = 0;
        for (size_t k = 0; k < sizeof codes / sizeof *codes; k++) {
            is_code |= codes[k] == code;
            CHECK(codes[k] == code || strcmp(pie_text(codes[k]), pie_text(code)) != 0);
        }
        CHECK(is_code != (strcmp(pie_text(code), pie_text(UINT64_MAX)) == 0));
    }
    CHECK(strncmp(pie_text(PIE_BAD_STATE), "refused: ", 9) == 0 && strncmp(pie_text(PIE_MARK), "queue ", 6) == 0);
    return 0;
}

static int limits_by_rate(void) {
    const struct { uint64_t rate, wanted, limit; } table[] = {
        {10000000, 18750, 250000},        {100000000, 187500, 2500000},         {1000000000, 1875000, 25000000},
        {1, 0, 25000},                    {500000, 0, 25000},                   {2000000, 3750, 50000},
        {1000000, 0, 25000},              {1000001, 0, 25001},                  {10480000, 0, 262000},
        {10000000000, 18750000, 250000000}, {40000000000, 75000000, 1000000000}, {100000000000, 187500000, 1073741824},
        {0, 0, 262144},                   {UINT64_MAX, 0, 1073741824},          {10485761, 0, 262145},
        {42949672960, 0, 1073741824},     {42949672961, 0, 1073741824},         {42949672920, 0, 1073741823},
    };
    struct pie_params defaults, params;
    struct pie_opening opening;
    struct pie_state pie;
    pie_default_params(&defaults);
    for (size_t k = 0; k < sizeof table / sizeof *table; k++) {
        memset(&params, 255, sizeof params);
        pie_params_for(table[k].rate, &params);
        CHECK(params.limit_bytes == table[k].limit && pie_check_params(&params) == 0);
        CHECK(table[k].wanted == 0 || table[k].rate / 8000 * 15 == table[k].wanted);
        memset(&opening, 255, sizeof opening);
        pie_default_opening(&opening, table[k].rate);
        CHECK(memcmp(&params, &opening.params, sizeof params) == 0 && pie_open(&pie, &opening) == PIE_DONE);
        CHECK(opening.moment == 0 && opening.profile == PIE_ALWAYS_ON && opening.choices == PIE_DELAY_STAMP && opening.mode == PIE_ROLLING);
        CHECK(opening.packets == 1 << 20 && opening.tail == 1024 && opening.events == (uint64_t)1 << 47);
        params.limit_bytes = defaults.limit_bytes;
        CHECK(memcmp(&params, &defaults, sizeof params) == 0);
    }
    /* 262144 bytes: 15 ms at 140 Mbit/s and 210 ms at 10; 16384: 15 ms at 8.7 Mbit/s and 131 ms at 1; 2^30: 86 ms at 100 Gbit/s */
    CHECK(defaults.limit_bytes * 8000 / 140000 == 14979 && defaults.limit_bytes * 8000 / 10000 == 209715);
    CHECK(defaults.dq_threshold * 8000 / 8700 == 15065 && defaults.dq_threshold * 8000 / 1000 == 131072);
    CHECK(PIE_MAX_BYTES * 8 / 100000 == 85899);
    return 0;
}

/* The state's own parameters as an argument have the effect of a copy of them. */
static int own_params(void) {
    struct pie_params copy = {14999999, 15000001, 150000002, 126, 1253, 1025, 262151, 100000000008, 32768};
    struct pie_state own = opened(3);
    own.params = copy;
    own.prob = 5, own.old_delay = 6, own.burst = 7, own.accu = 8, own.average = 9, own.moment = 20;
    own.measuring = 1, own.cycle_start = 11, own.cycle_count = 12;
    struct pie_state other = own;
    CHECK(pie_set_params(&own, &own.params, 21) == PIE_DONE && pie_set_params(&other, &copy, 21) == PIE_DONE && same(&own, &other));
    CHECK(memcmp(&own.params, &copy, sizeof copy) == 0 && own.average == 0 && own.measuring == 0 && own.prob == 5);
    CHECK(pie_set_params(&own, &own.params, PIE_MAX_MOMENT + 1) == PIE_BAD_MOMENT && same(&own, &other));
    own.params.beta = other.params.beta = 1000001;
    CHECK(pie_set_params(&own, &own.params, 24) == PIE_BAD_STATE && same(&own, &other));
    return 0;
}

/* A link under overload: packets of 1000 bytes, six for each five that it can send, this many in all. */
struct outcome {
    uint64_t early, tail, most;
};

static int overload(struct pie_params params, uint64_t byte_picos, uint64_t packets, struct outcome *outcome) {
    struct pie_state pie;
    uint64_t queued = 0, free_at = 0, word = 1;
    memset(outcome, 0, sizeof *outcome);
    CHECK(open_with(&pie, &params, 0) == PIE_DONE);
    for (uint64_t k = 0; k < packets; k++) {
        uint64_t now = k * byte_picos * 5 / 6; /* a packet's time on the link is 1000 * byte_picos / 1000 ns */
        while (queued != 0 && free_at <= now) {
            queued -= 1000;
            CHECK(pie_depart(&pie, 1000, queued, free_at) == PIE_DONE);
            free_at += byte_picos;
        }
        if (pie_due(&pie) <= now)
            CHECK(pie_update(&pie, queued, now).code == PIE_DONE);
        word = word * 6364136223846793005u + 1442695040888963407u;
        uint32_t verdict = pie_arrive(&pie, queued, 1000, 1, PIE_NOT_ECT, word ^ word >> 29, now);
        CHECK(verdict == PIE_ENQUEUE || verdict == PIE_EARLY || verdict == PIE_BYTES);
        outcome->early += verdict == PIE_EARLY;
        outcome->tail += verdict == PIE_BYTES;
        if (verdict != PIE_ENQUEUE)
            continue;
        if (queued == 0)
            free_at = now + byte_picos;
        queued += 1000;
        if (queued > outcome->most)
            outcome->most = queued;
    }
    return 0;
}

static int limits_under_overload(void) {
    struct pie_params defaults, params;
    struct outcome by_default, by_rate;
    pie_default_params(&defaults);
    /* a gigabit a second: a byte takes 8 ns */
    pie_params_for(1000000000, &params);
    CHECK(overload(defaults, 8000, 1000000, &by_default) == 0 && overload(params, 8000, 1000000, &by_rate) == 0);
    CHECK(by_default.early == 0 && by_default.tail > 150000);
    CHECK(by_rate.early > 100000 && by_rate.tail == 0);
    /* 1 Mbit/s: with a smaller dq_threshold the rate is measured sooner, so fewer packets are
     * queued before PIE acts */
    params = defaults;
    params.dq_threshold = 1024;
    CHECK(overload(defaults, 8000000, 10000, &by_default) == 0 && overload(params, 8000000, 10000, &by_rate) == 0);
    CHECK(by_default.most > by_rate.most + 4000 && by_rate.early > 1000);
    return 0;
}

int main(void) {
    return clock_far_ahead() || timers() || words() || answers_and_sizes() || own_params() || limits_by_rate() || limits_under_overload();
}
