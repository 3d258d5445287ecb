/* The worked rows of the parts of the controller, through the library. If a check fails, exits with the status 1 and names its
 * line. */
#include "pie.h"

#include <stdio.h>
#include <string.h>

#define CHECK(condition)                                                       \
    do {                                                                       \
        if (!(condition)) {                                                    \
            fprintf(stderr, "rows.c:%d: %s\n", __LINE__, #condition);          \
            return 1;                                                          \
        }                                                                      \
    } while (0)

#define TENTH 100000000000u
#define ONE 1000000000000u
#define LATEST 1152921504606846975u /* 2^60 - 1 */

/* Opens with these; the rest of the opening is the default. */
static uint32_t open_with(struct pie_state *state, const struct pie_params *params, uint64_t moment, uint64_t profile, uint64_t choices) {
    struct pie_opening opening;
    pie_default_opening(&opening, 0);
    opening.params = *params;
    opening.moment = moment;
    opening.profile = profile;
    opening.choices = choices;
    return pie_open(state, &opening);
}

static uint32_t open_usual(struct pie_state *state, const struct pie_params *params, uint64_t moment) {
    return open_with(state, params, moment, PIE_ALWAYS_ON, PIE_USUAL);
}

/* A controller with the default parameters and delays by the departure rate, opened at 0. */
static struct pie_state opened(void) {
    struct pie_opening opening;
    struct pie_state state;
    pie_default_opening(&opening, 0);
    opening.choices = PIE_USUAL;
    pie_open(&state, &opening);
    return state;
}

/* A state with this probability and old delay, and no burst allowance. */
static struct pie_state at(uint64_t prob, uint64_t old_delay) {
    struct pie_state state = opened();
    state.prob = prob;
    state.old_delay = old_delay;
    state.burst = 0;
    return state;
}

/* The probability after an update with this delay. */
static uint64_t next(uint64_t prob, uint64_t old_delay, uint64_t delay) {
    struct pie_state state = at(prob, old_delay);
    state.average = delay;
    return pie_update(&state, 16384, 15000000).prob;
}

static int same(const struct pie_state *a, const struct pie_state *b) {
    return memcmp(a, b, sizeof *a) == 0;
}

/* Texts with units of tc(8): bytes and bits, and invalid texts. */
static int texts(void) {
    static const struct {
        uint32_t (*read)(const char *, size_t, uint64_t *);
        const char *text;
        uint32_t code;
        uint64_t number;
    } rows[] = {
        {pie_read_time, "1.5ms", PIE_DONE, 1500000},     {pie_read_time, "20MSecs", PIE_DONE, 20000000},
        {pie_read_time, ".5us", PIE_DONE, 500},          {pie_read_time, "1.5ns", PIE_TOO_PRECISE, 0},
        {pie_read_time, "20", PIE_NOT_A_NUMBER, 0},      {pie_read_time, "1152921504.606846976s", PIE_TOO_GREAT, 0},
        {pie_read_time, "", PIE_NOT_A_NUMBER, 0},        {pie_read_time, "-1s", PIE_NOT_A_NUMBER, 0},
        {pie_read_rate, "100mbit", PIE_DONE, 100000000}, {pie_read_rate, "1kbps", PIE_DONE, 8000},
        {pie_read_rate, "1Kibit", PIE_DONE, 1024},       {pie_read_rate, "0.5tibps", PIE_DONE, UINT64_C(4398046511104)},
        {pie_read_rate, "0.5bit", PIE_TOO_PRECISE, 0},   {pie_read_rate, "100", PIE_NOT_A_NUMBER, 0},
        {pie_read_size, "256kb", PIE_DONE, 262144},      {pie_read_size, "1.5K", PIE_DONE, 1536},
        {pie_read_size, "1500", PIE_DONE, 1500},         {pie_read_size, "8kbit", PIE_DONE, 1024},
        {pie_read_packets, "1000p", PIE_DONE, 1000},     {pie_read_packets, "0.5p", PIE_TOO_PRECISE, 0},
    };
    for (size_t i = 0; i < sizeof rows / sizeof rows[0]; i++) {
        uint64_t number = 7;
        CHECK(rows[i].read(rows[i].text, strlen(rows[i].text), &number) == rows[i].code);
        CHECK(number == (rows[i].code == PIE_DONE ? rows[i].number : 7));
    }
    uint64_t number = 7;
    CHECK(pie_read_time("20ms", 3, &number) == PIE_NOT_A_NUMBER && number == 7);
    CHECK(pie_read_time("20ms and more", 4, &number) == PIE_DONE && number == 20000000);
    return 0;
}

static int parameters(void) {
    struct pie_params params;
    pie_default_params(&params);
    CHECK(params.target == 15000000 && params.t_update == 15000000 && params.max_burst == 150000000);
    CHECK(params.alpha == 125 && params.beta == 1250 && params.mean_pkt == 1024);
    CHECK(params.limit_bytes == 262144 && params.mark_ecnth == TENTH && params.dq_threshold == 16384);
    CHECK(pie_check_params(&params) == 0);
    params.dq_threshold = 3000;
    CHECK(pie_check_params(&params) == 9);
    params.target = 1;
    CHECK(pie_check_params(&params) == 1);
    params.dq_threshold = 16384;
    CHECK(pie_check_params(&params) == 1);
    struct pie_state state = opened(), before = state;
    CHECK(open_usual(&state, &params, LATEST + 1) == PIE_BAD_PARAMS && same(&state, &before));
    params.target = 2;
    CHECK(open_usual(&state, &params, LATEST + 1) == PIE_BAD_MOMENT && same(&state, &before));
    CHECK(open_with(&state, &params, LATEST + 1, 3, 32) == PIE_BAD_MOMENT && same(&state, &before));
    CHECK(open_with(&state, &params, 0, 0, 32) == PIE_BAD_PROFILE && same(&state, &before));
    CHECK(open_with(&state, &params, 0, 3, 0) == PIE_BAD_PROFILE && same(&state, &before));
    CHECK(open_with(&state, &params, 0, 1, 32) == PIE_BAD_CHOICES && same(&state, &before));
    CHECK(open_with(&state, &params, 0, 2, (uint64_t)1 << 32) == PIE_BAD_CHOICES && same(&state, &before));
    CHECK(open_usual(&state, &params, LATEST) == PIE_DONE && state.moment == LATEST && state.last == LATEST);
    CHECK(state.burst == 150000000 && state.params.target == 2);
    /* the mode and the limits of the history, last */
    struct pie_opening opening, bad;
    pie_default_opening(&opening, 0);
    before = state;
    for (int k = 0; k < 8; k++) {
        bad = opening;
        *(k < 2 ? &bad.packets : k < 4 ? &bad.tail : k < 6 ? &bad.events : &bad.mode) =
            k == 1 || k == 3 ? (1u << 20) + 1 : k == 5 ? ((uint64_t)1 << 47) + 1 : k == 6 ? 2 : k == 7 ? ((uint64_t)1 << 32) + 1 : 0;
        CHECK(pie_open(&state, &bad) == PIE_BAD_LIMITS && same(&state, &before));
        bad.choices = 32;
        CHECK(pie_open(&state, &bad) == PIE_BAD_CHOICES && same(&state, &before));
    }
    opening.packets = opening.tail = opening.events = 1, opening.mode = PIE_BOUNDED;
    CHECK(pie_open(&state, &opening) == PIE_DONE);
    return 0;
}

static int departure_rate(void) {
    struct pie_state state = opened();
    CHECK(pie_depart(&state, 1500, 20000, 1000) == PIE_DONE && state.measuring == 1);
    CHECK(pie_depart(&state, 16384, 16384, 12001000) == PIE_DONE);
    CHECK(state.average == 12000000 && state.measuring == 1);
    CHECK(pie_depart(&state, 16384, 0, 32001000) == PIE_DONE);
    CHECK(state.average == 14000000 && state.measuring == 0);
    state = opened();
    pie_depart(&state, 1500, 20000, 5);
    pie_depart(&state, 16384, 0, 5);
    CHECK(state.average == 1);
    /* the departure that opens a cycle isn't counted in it */
    state = opened();
    pie_depart(&state, 1500, 40000, 0);
    for (uint64_t k = 1; k <= 10; k++)
        pie_depart(&state, 1500, 20000, 1000000 * k);
    CHECK(state.average == 0 && state.cycle_count == 15000);
    pie_depart(&state, 1500, 16384, 11000000);
    CHECK(state.average == 11000000 && state.measuring == 1 && state.cycle_start == 11000000);
    return 0;
}

static int delays(void) {
    struct pie_state state = opened();
    state.average = 14000000;
    CHECK(pie_update(&state, 49152, 15000000).delay == 42000000);
    CHECK(state.old_delay == 42000000 && state.last == 15000000);
    state = opened();
    CHECK(pie_update(&state, 49152, 15000000).delay == 0);
    state = opened();
    state.average = (uint64_t)1 << 59;
    state.params.dq_threshold = 1024;
    CHECK(pie_update(&state, (uint64_t)1 << 30, 15000000).delay == 1099511627776);
    return 0;
}

static int probabilities(void) {
    CHECK(next(0, 0, 30000000) == 19226074);
    CHECK(next(19226074, 30000000, 30000000) == 33874511);
    CHECK(next(TENTH, 15000000, 60000000) == 120000000000);
    CHECK(next(99999999999, 15000000, 60000000) == 130937499999);
    CHECK(next(ONE, 0, 0) == 978162500000);
    CHECK(next(50, 0, 0) == 0);
    return 0;
}

static int early_drop(void) {
    struct pie_state state = at(TENTH, 15000000);
    for (uint64_t k = 1; k <= 84; k++) {
        CHECK(pie_arrive(&state, 3000, 1500, 1, PIE_NOT_ECT, UINT64_MAX, 0) == PIE_ENQUEUE);
        CHECK(state.accu == k * TENTH);
    }
    CHECK(pie_arrive(&state, 3000, 1500, 1, PIE_NOT_ECT, UINT64_MAX, 0) == PIE_EARLY && state.accu == 0);
    struct { uint32_t ecn; uint64_t prob; uint32_t verdict; } picked[] = {
        {PIE_NOT_ECT, TENTH, PIE_EARLY}, {PIE_ECT0, TENTH, PIE_EARLY},    {PIE_NOT_ECT, TENTH - 1, PIE_EARLY},
        {PIE_ECT0, TENTH - 1, PIE_MARK}, {PIE_ECT1, TENTH - 1, PIE_MARK}, {PIE_CE, TENTH - 1, PIE_MARK},
    };
    for (int k = 0; k < 6; k++) {
        state = at(picked[k].prob, 15000000);
        state.accu = 800000000000;
        CHECK(pie_arrive(&state, 3000, 1500, 1, picked[k].ecn, 0, 0) == picked[k].verdict && state.accu == 0);
    }
    /* a word at the probability itself isn't below it */
    state = at(TENTH, 15000000);
    state.accu = 800000000000;
    CHECK(pie_arrive(&state, 3000, 1500, 1, PIE_NOT_ECT, 1844674407370955162u, 0) == PIE_ENQUEUE);
    state.accu = 800000000000;
    CHECK(pie_arrive(&state, 3000, 1500, 1, PIE_NOT_ECT, 1844674407370955161u, 0) == PIE_EARLY);
    return 0;
}

static int considered(void) {
    struct { uint64_t prob, old_delay, queued, accu; } cases[] = {
        {TENTH, 15000000, 2048, 0},     {TENTH, 15000000, 2049, TENTH}, {TENTH, 7499999, 3000, 0},
        {TENTH, 7500000, 3000, TENTH},  {199999999999, 0, 3000, 0},     {200000000000, 0, 3000, 200000000000},
    };
    for (int k = 0; k < 6; k++) {
        struct pie_state state = at(cases[k].prob, cases[k].old_delay);
        CHECK(pie_arrive(&state, cases[k].queued, 1500, 1, PIE_NOT_ECT, UINT64_MAX, 0) == PIE_ENQUEUE);
        CHECK(state.accu == cases[k].accu);
    }
    struct pie_state state = at(TENTH, 15000000);
    state.burst = 1;
    CHECK(pie_arrive(&state, 3000, 1500, 1, PIE_NOT_ECT, 0, 0) == PIE_ENQUEUE && state.accu == 0);
    state = at(0, 15000000);
    state.accu = TENTH;
    CHECK(pie_arrive(&state, 3000, 1500, 1, PIE_NOT_ECT, 0, 0) == PIE_ENQUEUE && state.accu == 0);
    return 0;
}

static int tail_drop(void) {
    struct pie_state state = at(TENTH, 15000000);
    state.accu = TENTH;
    CHECK(pie_arrive(&state, 262140, 5, 0, PIE_ECT0, 0, 0) == PIE_BYTES && state.accu == 0);
    state.accu = TENTH;
    CHECK(pie_arrive(&state, 262140, 4, 0, PIE_ECT0, 0, 0) == PIE_PACKETS && state.accu == 0);
    CHECK(pie_arrive(&state, 262140, 4, 1, PIE_ECT0, 0, 0) == PIE_ENQUEUE && state.accu == TENTH);
    return 0;
}

static int burst_allowance(void) {
    struct pie_state state = opened();
    state.average = 30000000;
    for (uint64_t k = 1; k <= 10; k++)
        CHECK(pie_update(&state, 16384, 15000000 * k).burst == 150000000 - 15000000 * k);
    CHECK(pie_update(&state, 16384, 15000000 * 11).burst == 0);
    /* a calm update refills it */
    state = at(50, 7499999);
    state.burst = 20000000;
    state.average = 7500000;
    CHECK(pie_update(&state, 16384, 15000000).burst == 5000000);
    state.average = 7499999;
    CHECK(pie_update(&state, 16384, 30000000).burst == 0);
    CHECK(pie_update(&state, 16384, 45000000).burst == 150000000);
    return 0;
}

static int moments(void) {
    struct pie_state state = opened();
    CHECK(pie_empty(&state, 9) == PIE_DONE && state.moment == 9);
    CHECK(pie_empty(&state, 5) == PIE_DONE && state.moment == 9);
    struct pie_state before = state;
    struct pie_updated updated = pie_update(&state, 0, 14999999);
    CHECK(updated.code == PIE_TOO_SOON && updated.due == 15000000 && updated.burst == 150000000);
    CHECK(same(&state, &before));
    updated = pie_update(&state, 0, 15000000);
    CHECK(updated.code == PIE_DONE && updated.due == 30000000 && updated.delay == 0 && updated.prob == 0);
    CHECK(updated.burst == 150000000 && state.moment == 15000000);
    before = state;
    CHECK(pie_empty(&state, LATEST + 1) == PIE_BAD_MOMENT && same(&state, &before));
    CHECK(pie_empty(&state, LATEST) == PIE_DONE && state.moment == LATEST);
    /* the update's moment is the effective one */
    CHECK(pie_update(&state, 0, 0).code == PIE_DONE && state.last == LATEST);
    return 0;
}

/* Marks, drops and a lone enqueue; then new parameters and a reset. */
static int marks_and_drops(void) {
    struct pie_params params = {2, 1, 0, 850000, 0, 1, 100000, ONE, 1024};
    struct pie_state state;
    CHECK(open_usual(&state, &params, 0) == PIE_DONE);
    for (uint32_t k = 0; k < 4; k++)
        CHECK(pie_arrive(&state, 1024 * k, 1024, 8 - k, PIE_NOT_ECT, 0, 0) == PIE_ENQUEUE);
    CHECK(pie_depart(&state, 1024, 3072, 1000) == PIE_DONE);
    CHECK(pie_depart(&state, 1024, 2048, 1001000) == PIE_DONE);
    uint64_t probs[] = {830077294, 53955024169, 903954174169};
    for (uint32_t k = 0; k < 3; k++) {
        struct pie_updated updated = pie_update(&state, 2048, 1001000 + k);
        CHECK(updated.code == PIE_DONE && updated.delay == 2000000 && updated.prob == probs[k] && updated.burst == 0);
    }
    CHECK(pie_arrive(&state, 2048, 500, 6, PIE_ECT0, 0, 1001003) == PIE_MARK);
    CHECK(pie_arrive(&state, 2548, 500, 5, PIE_NOT_ECT, 0, 1001003) == PIE_EARLY);
    CHECK(pie_arrive(&state, 2548, 500, 5, PIE_NOT_ECT, UINT64_MAX, 1001003) == PIE_ENQUEUE);
    CHECK(state.moment == 1001003 && state.prob == 903954174169 && state.old_delay == 2000000);
    CHECK(state.accu == 903954174169 && state.burst == 0 && state.last == 1001002);
    CHECK(state.average == 1000000 && state.measuring == 1);
    params.max_burst = 50;
    CHECK(pie_set_params(&state, &params, 1001004) == PIE_DONE);
    CHECK(state.moment == 1001004 && state.prob == 903954174169 && state.accu == 903954174169 && state.burst == 0);
    CHECK(state.average == 0 && state.measuring == 0 && state.cycle_start == 0 && state.cycle_count == 0);
    CHECK(pie_reset(&state, 1001005) == PIE_DONE);
    CHECK(state.moment == 1001005 && state.prob == 0 && state.old_delay == 0 && state.accu == 0);
    CHECK(state.burst == 50 && state.last == 1001002 && state.average == 0 && state.measuring == 0);
    params.target = 1;
    struct pie_state before = state;
    CHECK(pie_set_params(&state, &params, LATEST + 1) == PIE_BAD_PARAMS && same(&state, &before));
    params.target = 2;
    CHECK(pie_set_params(&state, &params, LATEST + 1) == PIE_BAD_MOMENT && same(&state, &before));
    return 0;
}

/* Parameters under which 3072 bytes reach a third of the limit. */
static const struct pie_params small = {2, 1, 5, 850000, 0, 1, 9000, ONE, 1024};

/* Makes two arrivals of 1024 bytes at one moment, with this number of bytes in the queue. */
static int two_more(struct pie_state *state, uint64_t queued, uint64_t moment) {
    CHECK(pie_arrive(state, queued, 1024, 7, PIE_NOT_ECT, 0, moment) == PIE_ENQUEUE);
    CHECK(pie_arrive(state, queued + 1024, 1024, 6, PIE_NOT_ECT, 0, moment) == PIE_ENQUEUE);
    return 0;
}

/* Profile two turns on at a third of the limit, and off at a calm update. */
static int on_and_off(void) {
    struct pie_state state;
    CHECK(open_with(&state, &small, 0, PIE_ON_AND_OFF, PIE_USUAL) == PIE_DONE && state.profile == 2 && state.active == 0);
    CHECK(two_more(&state, 0, 0) == 0 && state.active == 0);
    CHECK(pie_depart(&state, 1024, 1024, 1) == PIE_DONE && state.active == 0 && state.measuring == 0);
    CHECK(two_more(&state, 1024, 1) == 0 && state.active == 1 && state.burst == 5);
    CHECK(pie_depart(&state, 1024, 2048, 2) == PIE_DONE && state.measuring == 1);
    CHECK(pie_depart(&state, 1024, 1024, 1002) == PIE_DONE && state.average == 1000);
    struct pie_updated made = pie_update(&state, 1024, 1002);
    CHECK(made.code == PIE_DONE && made.delay == 1000 && made.prob == 414208 && made.burst == 4 && state.active == 1);
    CHECK(pie_reset(&state, 1003) == PIE_DONE && state.active == 1);
    for (uint64_t moment = 1004; moment <= 1005; moment++) {
        made = pie_update(&state, 1024, moment);
        CHECK(made.code == PIE_DONE && made.delay == 0 && made.prob == 0 && made.burst == 5 && state.active == 0);
    }
    made = pie_update(&state, 1024, 1005);
    CHECK(made.code == PIE_TOO_SOON && made.due == 1006);
    /* the same calls in profile one */
    CHECK(open_usual(&state, &small, 0) == PIE_DONE && state.profile == 1 && state.active == 1);
    CHECK(two_more(&state, 0, 0) == 0 && pie_depart(&state, 1024, 1024, 1) == PIE_DONE && state.measuring == 1);
    CHECK(two_more(&state, 1024, 1) == 0 && pie_depart(&state, 1024, 2048, 2) == PIE_DONE);
    CHECK(pie_depart(&state, 1024, 1024, 1002) == PIE_DONE);
    made = pie_update(&state, 1024, 1002);
    CHECK(made.delay == 16 && made.prob == 5810 && made.burst == 4 && state.active == 1);
    return 0;
}

/* A tail drop activates it too, and new parameters do not change it. */
static int on_by_a_tail_drop(void) {
    struct pie_state state;
    CHECK(open_with(&state, &small, 0, PIE_ON_AND_OFF, PIE_USUAL) == PIE_DONE && two_more(&state, 0, 0) == 0 && state.active == 0);
    CHECK(pie_arrive(&state, 2048, 1024, 6, PIE_NOT_ECT, 0, 0) == PIE_ENQUEUE && state.active == 1);
    struct pie_updated made = pie_update(&state, 3072, 1);
    CHECK(made.code == PIE_DONE && made.delay == 0 && made.prob == 0 && made.burst == 5 && state.active == 0);
    CHECK(pie_set_params(&state, &small, 1) == PIE_DONE && state.active == 0);
    CHECK(pie_arrive(&state, 3072, 65535, 5, PIE_NOT_ECT, 0, 1) == PIE_BYTES && state.active == 1);
    return 0;
}

/* Arguments are checked in one order, and a refused call changes nothing. */
static int refusals(void) {
    struct pie_state state = opened(), before = state;
    CHECK(pie_arrive(&state, UINT64_MAX, 0, 0, 4, 0, LATEST + 1) == PIE_BAD_MOMENT);
    CHECK(pie_arrive(&state, UINT64_MAX, 0, 0, 4, 0, LATEST) == PIE_BAD_SIZE);
    CHECK(pie_arrive(&state, UINT64_MAX, 65536, 0, 4, 0, LATEST) == PIE_BAD_SIZE);
    CHECK(pie_arrive(&state, UINT64_MAX, 65535, 0, 4, 0, LATEST) == PIE_BAD_ECN);
    CHECK(pie_arrive(&state, UINT64_MAX, 65535, 0, 3, 0, LATEST) == PIE_BAD_QUEUE);
    CHECK(pie_depart(&state, 0, UINT64_MAX, LATEST + 1) == PIE_BAD_MOMENT);
    CHECK(pie_depart(&state, 0, UINT64_MAX, LATEST) == PIE_BAD_SIZE);
    CHECK(pie_depart(&state, 1, ((uint64_t)1 << 30) + 1, LATEST) == PIE_BAD_QUEUE);
    CHECK(pie_update(&state, UINT64_MAX, LATEST + 1).code == PIE_BAD_MOMENT);
    CHECK(pie_update(&state, UINT64_MAX, 0).code == PIE_BAD_QUEUE && pie_update(&state, UINT64_MAX, 0).due == 0);
    CHECK(pie_reset(&state, LATEST + 1) == PIE_BAD_MOMENT && same(&state, &before));
    /* each field of the state, out of its range */
    for (int field = 0; field < 24; field++) {
        state = opened();
        struct pie_params params = state.params;
        switch (field) {
        case 0: state.params.target = 1; break;
        case 1: state.params.dq_threshold = 3000; break;
        case 2: state.moment = LATEST + 1; break;
        case 3: state.prob = ONE + 1; break;
        case 4: state.old_delay = ((uint64_t)1 << 40) + 1; break;
        case 5: state.burst = ONE + 1; break;
        case 6: state.last = 1; break;
        case 7: state.accu = 8500000000000; break;
        case 8: state.average = LATEST + 1; break;
        case 9: state.measuring = 2; break;
        case 10: state.cycle_start = 1; break;
        case 11: state.cycle_count = 1; break;
        case 12: state.measuring = 1, state.cycle_start = 1; break;
        case 13: state.measuring = 1, state.cycle_count = 16384; break;
        case 14: state.params.limit_bytes = 0; break;
        case 15: state.last = UINT64_MAX; break;
        case 16: state.params.max_burst = UINT64_MAX; break;
        case 17: memset(&state, 255, sizeof state), state.choices = PIE_USUAL; break;
        case 18: state.profile = 0; break;
        case 19: state.profile = 3; break;
        case 20: state.active = 0; break; /* in profile one */
        case 21: state.profile = 2, state.active = 2; break;
        case 22: state.choices = 32; break;
        case 23: state.waited = ((uint64_t)1 << 40) + 1; break;
        }
        before = state;
        CHECK(pie_check_state(&state) == PIE_BAD_STATE);
        CHECK(pie_update(&state, UINT64_MAX, UINT64_MAX).code == PIE_BAD_STATE);
        CHECK(pie_reset(&state, UINT64_MAX) == PIE_BAD_STATE);
        CHECK(pie_set_params(&state, &params, UINT64_MAX) == PIE_BAD_STATE && same(&state, &before));
        /* the calls for each packet check their arguments, and not the state */
        CHECK(pie_arrive(&state, UINT64_MAX, 0, 0, 4, 0, UINT64_MAX) == PIE_BAD_MOMENT);
        CHECK(pie_depart(&state, 0, UINT64_MAX, UINT64_MAX) == PIE_BAD_MOMENT);
        CHECK(pie_empty(&state, UINT64_MAX) == PIE_BAD_MOMENT && same(&state, &before));
        CHECK(pie_arrive(&state, 3000, 1500, 1, PIE_ECT0, 1, 1) <= PIE_PACKETS);
        CHECK(pie_depart(&state, 1500, 20000, 2) == PIE_DONE && pie_empty(&state, 3) == PIE_DONE);
    }
    return 0;
}

/* Any bits as a state: sums and a threshold at the greatest numbers, and numbers other than 1 that count as 0. */
static int any_state(void) {
    struct pie_state state;
    memset(&state, 255, sizeof state);
    CHECK(pie_depart(&state, 1500, 65536, 0) == PIE_NOT_WAITED && pie_depart_waited(&state, 1500, 65536, 0, 0) == PIE_DONE);
    state.choices = PIE_USUAL;
    CHECK(pie_arrive(&state, 3000, 1500, 1, PIE_ECT0, 1, 0) == PIE_ENQUEUE); /* `active` isn't 1: inactive */
    CHECK(state.moment == UINT64_MAX && state.accu == UINT64_MAX && state.active == UINT64_MAX);
    state.active = 1, state.burst = 0, state.params.mean_pkt = 1;
    CHECK(pie_arrive(&state, 3000, 1500, 1, PIE_ECT0, 1, 0) == PIE_EARLY && state.accu == 0);
    CHECK(pie_depart(&state, 1500, 65536, 0) == PIE_DONE); /* `measuring` is not 1: a cycle opens */
    CHECK(state.measuring == 1 && state.cycle_start == UINT64_MAX && state.cycle_count == 0 && state.average == UINT64_MAX);
    state.cycle_count = UINT64_MAX, state.cycle_start = 0;
    CHECK(pie_depart(&state, 1500, 65535, 0) == PIE_DONE); /* it closes, with the whole weight of a threshold of 65536 */
    CHECK(state.measuring == 0 && state.cycle_count == 0 && state.average == UINT64_MAX);
    CHECK(pie_check_state(&state) == PIE_BAD_STATE);
    return 0;
}

/* Each number in its field, and complete: none is cut to 8, 16 or 32 bits on its way. */
static int widths(void) {
    CHECK(PIE_NOT_ECT == 0 && PIE_ECT1 == 1 && PIE_ECT0 == 2 && PIE_CE == 3 && PIE_ALWAYS_ON == 1 && PIE_ON_AND_OFF == 2);
    CHECK(sizeof(struct pie_params) == 72 && sizeof(struct pie_state) == 184 && sizeof(struct pie_updated) == 40);
    struct pie_state state = at(PIE_ONE / 2, 15000000), before = state;
    const uint32_t narrow[] = {4, 255, 256, 65535, 65536, 65538, UINT32_MAX};
    for (int k = 0; k < 7; k++)
        CHECK(pie_arrive(&state, 3000, 1500, 1, narrow[k], 0, 0) == PIE_BAD_ECN && same(&state, &before));
    CHECK(pie_arrive(&state, 3000, 65536 + 1500, 1, 0, 0, 0) == PIE_BAD_SIZE && pie_depart(&state, 65536 + 1500, 0, 0) == PIE_BAD_SIZE);
    CHECK(pie_arrive(&state, 3000, UINT32_MAX, 1, 0, 0, 0) == PIE_BAD_SIZE && pie_depart(&state, UINT32_MAX, 0, 0) == PIE_BAD_SIZE);
    const uint64_t wide = (uint64_t)1 << 32;
    CHECK(pie_arrive(&state, wide, 1500, 1, 0, 0, 0) == PIE_BAD_QUEUE && pie_depart(&state, 1500, wide, 0) == PIE_BAD_QUEUE);
    CHECK(pie_update(&state, wide, 15000000).code == PIE_BAD_QUEUE && same(&state, &before));
    const uint32_t rooms[] = {255, 256, 65535, 65536, (uint32_t)1 << 31, UINT32_MAX};
    for (int k = 0; k < 6; k++) {
        CHECK(pie_arrive(&state, 3000, 1500, rooms[k], PIE_CE, 0, 0) == PIE_ENQUEUE);
        CHECK(pie_arrive(&state, 3000, 1500, 0, PIE_CE, 0, 0) == PIE_PACKETS);
    }
    /* sizes and queues above 65535, and a queue that a packet of 65535 bytes fills */
    state.params.limit_bytes = (1 << 30) - 1;
    CHECK(pie_arrive(&state, 1 << 30, 1, 1, 0, UINT64_MAX, 0) == PIE_BYTES);
    CHECK(pie_arrive(&state, (1 << 30) - 65536, 65535, 1, 0, UINT64_MAX, 0) == PIE_ENQUEUE);
    CHECK(state.accu == PIE_ONE / 2);
    state.accu = 800000000000;
    CHECK(pie_arrive(&state, 3000, 1500, 1, 0, (uint64_t)1 << 63, 0) == PIE_ENQUEUE);
    state.accu = 800000000000;
    CHECK(pie_arrive(&state, 3000, 1500, 1, 0, ((uint64_t)1 << 63) - 1, 0) == PIE_EARLY);
    const uint64_t profiles[] = {0, 3, 256 + 1, 65536 + 1, UINT32_MAX, ((uint64_t)1 << 32) + 1};
    for (int k = 0; k < 6; k++)
        CHECK(open_with(&state, &before.params, 0, profiles[k], PIE_USUAL) == PIE_BAD_PROFILE);
    return 0;
}

/* Moments, delays and burst allowances near the ends of their ranges, in each call. */
static int large_numbers(void) {
    struct pie_params params;
    struct pie_state state;
    pie_default_params(&params);
    params.max_burst = PIE_ONE;
    params.t_update = 10000000000;
    uint64_t start = ((uint64_t)1 << 59) + 1;
    CHECK(open_usual(&state, &params, start) == PIE_DONE && state.moment == start && state.last == start && state.burst == PIE_ONE);
    CHECK(pie_due(&state) == start + 10000000000);
    struct pie_state odd = state;
    odd.last = UINT64_MAX - 10000000000;
    CHECK(pie_due(&odd) == UINT64_MAX);
    odd.last++;
    CHECK(pie_due(&odd) == UINT64_MAX);
    CHECK(pie_depart(&state, 65535, 16384, start + 5) == PIE_DONE && state.cycle_start == start + 5 && state.moment == start + 5);
    CHECK(pie_depart(&state, 65535, 16383, ((uint64_t)1 << 59) + 4000000006) == PIE_DONE && state.average == 4000000000);
    CHECK(pie_empty(&state, start + 5000000000) == PIE_DONE && state.moment == start + 5000000000);
    struct pie_updated made = pie_update(&state, 100000, start + 9999999999);
    CHECK(made.code == PIE_TOO_SOON && made.due == start + 10000000000 && made.delay == 0 && made.burst == PIE_ONE);
    made = pie_update(&state, 100000, start + 10000000000);
    CHECK(made.code == PIE_DONE && made.due == start + 20000000000 && made.delay == 24414062500 && made.burst == PIE_ONE - 10000000000);
    CHECK(made.prob == state.prob && state.prob == 16390361785 && state.old_delay == 24414062500 && state.last == start + 10000000000);
    CHECK(pie_arrive(&state, 0, 1500, 1, PIE_ECT1, 0, LATEST - 1) == PIE_ENQUEUE && state.moment == LATEST - 1);
    CHECK(pie_reset(&state, LATEST) == PIE_DONE && state.moment == LATEST && state.burst == PIE_ONE && state.last == start + 10000000000);
    CHECK(pie_set_params(&state, &params, LATEST) == PIE_DONE && pie_update(&state, 0, LATEST).due == LATEST + 10000000000);
    return 0;
}

/* A departure from an empty queue changes only the moment; a reset and new parameters change only
 * their fields. */
static int what_stays(void) {
    struct pie_state state = at(TENTH, 15000000);
    pie_depart(&state, 1500, 40000, 1);
    pie_depart(&state, 1500, 40000, 2);
    pie_arrive(&state, 3000, 1500, 1, PIE_NOT_ECT, UINT64_MAX, 3);
    state.average = 30000000;
    CHECK(pie_update(&state, 16384, 15000000).code == PIE_DONE && state.prob != 0 && state.accu != 0 && state.cycle_count == 1500);
    struct pie_state expected = state;
    CHECK(pie_empty(&state, 15000001) == PIE_DONE);
    expected.moment = 15000001;
    CHECK(same(&state, &expected));
    /* nine parameters, each with a new value */
    struct pie_params params = {14999999, 15000001, 150000002, 126, 1253, 1025, 262151, 100000000008, 32768};
    CHECK(pie_set_params(&state, &params, 15000002) == PIE_DONE);
    expected.params = params;
    expected.moment = 15000002;
    expected.average = expected.measuring = expected.cycle_start = expected.cycle_count = 0;
    CHECK(same(&state, &expected));
    CHECK(state.params.target == 14999999 && state.params.t_update == 15000001 && state.params.max_burst == 150000002);
    CHECK(state.params.alpha == 126 && state.params.beta == 1253 && state.params.mean_pkt == 1025);
    CHECK(state.params.limit_bytes == 262151 && state.params.mark_ecnth == 100000000008 && state.params.dq_threshold == 32768);
    CHECK(pie_reset(&state, 15000003) == PIE_DONE);
    expected.moment = 15000003;
    expected.prob = expected.old_delay = expected.accu = 0;
    expected.burst = 150000002;
    CHECK(same(&state, &expected));
    /* the same parameters at the opening */
    CHECK(open_usual(&state, &params, 7) == PIE_DONE);
    struct pie_state opening = {params, 7, 0, 0, 150000002, 7, 0, 0, 0, 0, 0, 1, 1, 0, 0};
    CHECK(same(&state, &opening) && open_with(&state, &params, 7, PIE_ON_AND_OFF, PIE_USUAL) == PIE_DONE);
    opening.profile = 2, opening.active = 0;
    CHECK(same(&state, &opening));
    return 0;
}

/* The choices: delays by time stamps with their errors, and the effect of each flag. */
static int choices(void) {
    struct pie_params params;
    struct pie_state state;
    pie_default_params(&params);
    CHECK(open_with(&state, &params, 0, PIE_ALWAYS_ON, PIE_DELAY_STAMP) == PIE_DONE && state.choices == 1 && state.waited == 0);
    struct pie_state before = state;
    CHECK(pie_depart(&state, 1500, 3000, 9) == PIE_NOT_WAITED && same(&state, &before));
    CHECK(pie_depart(&state, 0, 3000, LATEST + 1) == PIE_BAD_MOMENT && pie_depart(&state, 0, 3000, 9) == PIE_BAD_SIZE);
    CHECK(pie_depart(&state, 1500, (1u << 30) + 1, 9) == PIE_BAD_QUEUE && same(&state, &before));
    CHECK(pie_depart_waited(&state, 1500, 3000, 1, 9) == PIE_BAD_ARRIVED && same(&state, &before));
    CHECK(pie_depart_waited(&state, 0, 3000, 1, LATEST + 1) == PIE_BAD_MOMENT && pie_depart_waited(&state, 0, 3000, 1, 9) == PIE_BAD_SIZE);
    CHECK(pie_depart_waited(&state, 1500, (1u << 30) + 1, 1, 9) == PIE_BAD_QUEUE && same(&state, &before));
    /* the second of two packets waits longer: the wait of the last departed packet counts, since
     * its own arrival */
    CHECK(pie_arrive(&state, 0, 1500, 9, PIE_NOT_ECT, 0, 5) == PIE_ENQUEUE && state.moment == 5);
    CHECK(pie_arrive(&state, 1500, 1500, 8, PIE_NOT_ECT, 0, 3) == PIE_ENQUEUE && state.moment == 5);
    CHECK(pie_arrive(&state, 3000, 1500, 7, PIE_NOT_ECT, 0, 1000000) == PIE_ENQUEUE && state.moment == 1000000);
    CHECK(pie_depart_waited(&state, 1500, 3000, 5, 10000005) == PIE_DONE && state.waited == 10000000);
    CHECK(pie_depart_waited(&state, 1500, 1500, 5, 20000005) == PIE_DONE && state.waited == 20000000 && state.measuring == 0);
    struct pie_updated made = pie_update(&state, 1500, 20000005);
    CHECK(made.code == PIE_DONE && made.delay == 20000000 && state.old_delay == 20000000);
    /* a packet that leaves the queue empty waited 0; the greatest wait is 2^40; an earlier moment
     * counts as the effective one */
    CHECK(pie_depart_waited(&state, 1500, 0, 1000000, 21000000) == PIE_DONE && state.waited == 0);
    CHECK(pie_depart_waited(&state, 1500, 1, 20999999, 0) == PIE_DONE && state.waited == 1 && state.moment == 21000000);
    CHECK(pie_depart_waited(&state, 1500, 1, 0, LATEST) == PIE_DONE && state.waited == (uint64_t)1 << 40);
    CHECK(pie_check_state(&state) == PIE_DONE);
    state.waited++;
    CHECK(pie_check_state(&state) == PIE_BAD_STATE);
    state.waited = 7, state.choices = 32;
    CHECK(pie_check_state(&state) == PIE_BAD_STATE);
    /* a reset clears the wait, new parameters keep it */
    state.choices = PIE_DELAY_STAMP;
    CHECK(pie_set_params(&state, &params, LATEST) == PIE_DONE && state.waited == 7 && state.choices == 1);
    CHECK(pie_reset(&state, LATEST) == PIE_DONE && state.waited == 0 && state.choices == 1);
    /* if the delay comes from the departure rate, the call equals pie_depart for any moment of arrival */
    struct pie_state rate = opened(), same_calls = opened();
    CHECK(pie_depart_waited(&rate, 1500, 20000, LATEST, 1000) == PIE_DONE && pie_depart(&same_calls, 1500, 20000, 1000) == PIE_DONE);
    CHECK(same(&rate, &same_calls) && rate.measuring == 1);
    /* picked at random: the first considered packet, by its word */
    state = at(TENTH, 15000000);
    CHECK(pie_arrive(&state, 3000, 1500, 1, PIE_NOT_ECT, 0, 0) == PIE_ENQUEUE && state.accu == TENTH);
    state = at(TENTH, 15000000);
    state.choices = PIE_PICK_RANDOM;
    CHECK(pie_arrive(&state, 3000, 1500, 1, PIE_NOT_ECT, 0, 0) == PIE_EARLY);
    /* uncapped: from a tenth on by more than two hundredths */
    state = at(TENTH, 15000000);
    state.average = 60000000, state.choices = PIE_STEP_UNCAPPED;
    CHECK(pie_update(&state, 16384, 15000000).prob > 120000000000 && next(TENTH, 15000000, 60000000) == 120000000000);
    /* scaled: a packet of half the mean size counts by half the probability */
    state = at(TENTH, 15000000);
    state.choices = PIE_SIZE_SCALED;
    CHECK(pie_arrive(&state, 3000, 512, 1, PIE_NOT_ECT, UINT64_MAX, 0) == PIE_ENQUEUE && state.accu == TENTH / 2);
    /* half: after the step the probability decays if the delays are below half the target, and not
     * at half of it */
    state = at(TENTH, 7000000);
    state.choices = PIE_DECAY_HALF;
    CHECK(pie_update(&state, 0, 15000000).prob == 87587500000 && next(TENTH, 7000000, 0) == 89375000000);
    state = at(TENTH, 7500000);
    state.choices = PIE_DECAY_HALF;
    CHECK(pie_update(&state, 0, 15000000).prob == 88750000000);
    return 0;
}

int main(void) {
    int (*const rows[])(void) = {choices, widths,          large_numbers, what_stays,    parameters, departure_rate, delays,
                                 probabilities,   early_drop,    considered,    tail_drop,  burst_allowance, moments,
                                 marks_and_drops, on_and_off,    on_by_a_tail_drop, refusals,  any_state,    texts};
    for (size_t k = 0; k < sizeof rows / sizeof *rows; k++)
        if (rows[k]() != 0)
            return 1;
    return 0;
}
