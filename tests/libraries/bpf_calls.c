/* Makes random calls of dist/bpf/pie_c.ll, compiled for this processor with names that begin with bpf_, and the same calls of libpie_c.a: the results, states
 * and events must be equal. Openings have each profile, all choices and parameters over their ranges; moments, sizes and queues are odd at times.
 *
 * usage: bpf_calls CALLS      bpf.py compiles it */
#include "division.h"
#include "pie.h"

#include <stdio.h>
#include <stdlib.h>
#include <string.h>

uint32_t bpf_pie_open(struct pie_state *state, const struct pie_opening *opening);
uint32_t bpf_pie_arrive_event(struct pie_state *state, uint64_t queued, uint32_t room, struct pie_event *event);
uint32_t bpf_pie_depart_event(struct pie_state *state, uint64_t left, uint64_t arrived, struct pie_event *event);
uint32_t bpf_pie_empty_event(struct pie_state *state, struct pie_event *event);
uint32_t bpf_pie_update_event(struct pie_state *state, uint64_t queued, struct pie_event *event);
uint32_t bpf_pie_reset_event(struct pie_state *state, struct pie_event *event);
uint32_t bpf_pie_set_params_event(struct pie_state *state, const struct pie_params *params, struct pie_event *event);
uint64_t bpf_pie_due(const struct pie_state *state);
uint32_t bpf_pie_check_params(const struct pie_params *params);

static uint64_t seed = 7;

static uint64_t word(void) {
    uint64_t it = seed += UINT64_C(0x9e3779b97f4a7c15);
    it = (it ^ it >> 30) * UINT64_C(0xbf58476d1ce4e5b9);
    it = (it ^ it >> 27) * UINT64_C(0x94d049bb133111eb);
    return it ^ it >> 31;
}

/* Returns a number from `least` to `most`, of a random number of digits; seldom one outside. */
static uint64_t between(uint64_t least, uint64_t most) {
    uint64_t it = word() >> (word() & 63);
    return word() % 500 == 0 ? it : least + it % (most - least + 1);
}

static struct pie_params random_params(void) {
    struct pie_params it = {between(2, 10000000000), between(1, 10000000000), between(0, 1000000000000), between(0, 1000000), between(0, 1000000),
                            between(1, 65535),       between(1, 1 << 30),     between(0, PIE_ONE),       UINT64_C(1) << (10 + word() % 7)};
    if (word() % 2) {
        struct pie_params usual;
        pie_default_params(&usual);
        it.target = usual.target, it.t_update = usual.t_update, it.alpha = usual.alpha, it.beta = usual.beta;
    }
    return it;
}

static void differ(const char *what, long call) {
    printf("call %ld: %s differs\n", call, what);
    exit(1);
}

static void compare(long call, uint64_t one, uint64_t two, const struct pie_state states[2], const struct pie_event events[2]) {
    if (one != two)
        differ("the return value", call);
    if (memcmp(&states[0], &states[1], sizeof *states))
        differ("the state", call);
    if (memcmp(&events[0], &events[1], sizeof *events))
        differ("the event", call);
}

int main(int count, char **words) {
    struct pie_state states[2];
    struct pie_event events[2];
    struct pie_opening opening;
    struct pie_params params;
    long calls = count > 1 ? atol(words[1]) : 1000, verdicts[6] = {0}, refused = 0;
    uint64_t moment = 0, bytes = 0, one = 0, two = 0, since = 0;
    for (long call = 0; call < calls; call++) {
        if (call % 4000 == 0) {
            pie_default_opening(&opening, between(0, 100000000000));
            opening.params = random_params();
            opening.profile = 1 + word() % 2;
            opening.choices = word() % 32;
            opening.moment = moment = between(0, UINT64_C(1) << 50);
            memset(states, 0, sizeof states);
            memset(events, 0, sizeof events);
            one = pie_open(&states[0], &opening), two = bpf_pie_open(&states[1], &opening);
            compare(call, one, two, states, events);
            if (one != PIE_DONE)
                call += 3999;
            bytes = 0;
            continue;
        }
        moment += between(0, 1 << (word() % 31));
        memset(events, 0, sizeof events);
        events[0].moment = word() % 300 ? moment : word() >> (word() & 7);
        events[0].tag = word(), events[0].word = word(), events[0].caller = (uint16_t)word();
        events[0].size = (uint32_t)between(1, 65535), events[0].ecn = (uint8_t)(word() % (word() % 50 ? 4 : 256));
        if (word() % 8 == 0)
            bytes = between(0, word() % 2 ? 1 << 30 : opening.params.limit_bytes);
        events[1] = events[0];
        switch (word() % 16) {
        case 0: case 1: case 2: case 3: case 4: case 5:
            since = word() % 100 ? bytes : word();
            one = pie_arrive_event(&states[0], since, (uint32_t)(call % 97), &events[0]), two = bpf_pie_arrive_event(&states[1], since, (uint32_t)(call % 97), &events[1]);
            verdicts[one < 5 ? one : 5]++;
            break;
        case 6: case 7: case 8: case 9:
            since = word() % 100 ? moment - between(0, moment < (1 << 30) ? moment : 1 << 30) : word();
            one = pie_depart_event(&states[0], bytes, since, &events[0]), two = bpf_pie_depart_event(&states[1], bytes, since, &events[1]);
            break;
        case 10:
            one = pie_empty_event(&states[0], &events[0]), two = bpf_pie_empty_event(&states[1], &events[1]);
            break;
        case 11: case 12: case 13:
            if (word() % 8 && pie_due(&states[0]) > moment)
                events[0].moment = events[1].moment = moment = pie_due(&states[0]);
            one = pie_update_event(&states[0], bytes, &events[0]), two = bpf_pie_update_event(&states[1], bytes, &events[1]);
            break;
        case 14:
            if (word() % 40)
                continue;
            one = pie_reset_event(&states[0], &events[0]), two = bpf_pie_reset_event(&states[1], &events[1]);
            break;
        default:
            params = word() % 2 ? random_params() : states[0].params;
            if (pie_check_params(&params) != bpf_pie_check_params(&params) || pie_due(&states[0]) != bpf_pie_due(&states[1]))
                differ("a check", call);
            if (word() % 40)
                continue;
            one = pie_set_params_event(&states[0], &params, &events[0]), two = bpf_pie_set_params_event(&states[1], &params, &events[1]);
        }
        compare(call, one, two, states, events);
        refused += one > 100;
    }
    printf("equal: %ld calls; arrivals: %ld queued, %ld marked, %ld early, %ld over_bytes, %ld over_packets; %ld refused\n", calls, verdicts[0], verdicts[1],
           verdicts[2], verdicts[3], verdicts[4], refused);
    return !verdicts[0] || !verdicts[1] || !verdicts[2] || !verdicts[3] || !verdicts[4] || !refused;
}
