/* Decides random histories of dist/bpf/pie_c.ll again, by the rules of bpf_rules.h, from the recorded inputs alone: openings, moments, sizes, ECN fields,
 * random words, parameters. Each recorded result and each register must be equal. The calls are those of a queue with a link: rates from 8 kbit/s to
 * 100 Gbit/s, loads from a half to four, updates on time and late, parameters over their ranges.
 *
 * usage: bpf_decides ENQUEUES      bpf.py compiles it with the module, whose names begin with bpf_ */
#include "bpf_rules.h"
#include "division.h"

#include <stdio.h>
#include <stdlib.h>

uint32_t bpf_pie_open(struct pie_state *state, const struct pie_opening *opening);
uint32_t bpf_pie_arrive_event(struct pie_state *state, uint64_t queued, uint32_t room, struct pie_event *event);
uint32_t bpf_pie_depart_event(struct pie_state *state, uint64_t left, uint64_t arrived, struct pie_event *event);
uint32_t bpf_pie_update_event(struct pie_state *state, uint64_t queued, struct pie_event *event);
uint32_t bpf_pie_reset_event(struct pie_state *state, struct pie_event *event);
uint32_t bpf_pie_set_params_event(struct pie_state *state, const struct pie_params *params, struct pie_event *event);

#define STEPS 6000 /* of a history */

struct history {
    struct pie_state state;
    struct pie_event event;
    struct rules rules;
    struct link link;
    struct packet queue[PLACES];
    uint64_t head, tail, bytes, moment, packets, unlucky; /* random words are above the probability */
    uint64_t answers[5], departures, updates, others;
};

static void differ(const struct history *it, const char *what) {
    printf("after %llu updates and %llu departures: the %s of an event of kind %u differs\n", (unsigned long long)it->updates,
           (unsigned long long)it->departures, what, it->event.kind);
    exit(1);
}

/* Decides the last event again, and compares. */
static void decide_again(struct history *it, const struct pie_params *params) {
    struct pie_event expected = it->event;
    decide(&it->rules, &it->event, params, &expected);
    if (memcmp(&expected, &it->event, sizeof expected))
        differ(it, "record");
    if (!is_state(&it->rules, &it->state))
        differ(it, "state");
}

static void begin(struct history *it) {
    struct pie_opening opening;
    memset(it, 0, offsetof(struct history, answers));
    it->link = (struct link){.pace = between(80, 1000000000), .mean = 64 + draw() % 1437, .quarters = 2 + draw() % 15};
    memset(&opening, 0, sizeof opening);
    opening.params = random_params(&it->link);
    it->unlucky = draw() % 8 ? 0 : ~UINT64_C(0) << 8;
    opening.moment = it->moment = it->link.arrival = between(0, UINT64_C(1) << 58);
    opening.profile = 1 + draw() % 2;
    opening.choices = draw() % 32;
    opening.mode = PIE_ROLLING;
    opening.packets = it->packets = draw() % 4 ? PLACES : 1 + draw() % 100;
    opening.tail = 1024;
    opening.events = UINT64_C(1) << 47;
    if (bpf_pie_open(&it->state, &opening) != PIE_DONE)
        differ(it, "opening");
    open_rules(&it->rules, &opening);
}

/* Makes the event's inputs. Seldom the moment is one of the past. */
static void inputs(struct history *it) {
    memset(&it->event, 0, sizeof it->event);
    it->event.moment = draw() % 1000 ? it->moment : it->moment - it->moment % (draw() | 1);
    it->event.caller = (uint16_t)draw();
}

static void arrives(struct history *it) {
    uint64_t size = draw() % 3 ? it->link.mean : between(1, 2 * it->link.mean), gap = it->link.pace * it->link.mean / 1000 * 4 / it->link.quarters;
    inputs(it);
    it->event.size = (uint32_t)(draw() % 2000 ? size : between(1, PIE_MAX_SIZE));
    it->event.ecn = (uint8_t)(draw() % 4);
    it->event.word = draw() >> (draw() % 8 ? 0 : draw() & 63) | it->unlucky;
    it->event.tag = it->tail;
    if (bpf_pie_arrive_event(&it->state, it->bytes, (uint32_t)(it->packets - (it->tail - it->head)), &it->event) <= PIE_MARK) {
        if (it->head == it->tail)
            it->link.departure = it->moment + it->event.size * it->link.pace / 1000;
        it->queue[it->tail++ % PLACES] = (struct packet){it->state.moment, it->event.tag, it->event.size};
        it->bytes += it->event.size;
    }
    it->answers[it->event.answer % 5]++;
    decide_again(it, NULL);
    it->link.arrival = it->moment + (draw() % 8 ? gap / 2 + draw() % (gap + 1) : 0);
}

static void departs(struct history *it) {
    const struct packet *packet = &it->queue[it->head++ % PLACES];
    inputs(it);
    it->event.tag = packet->tag;
    it->event.size = packet->size;
    it->bytes -= packet->size;
    bpf_pie_depart_event(&it->state, it->bytes, packet->since, &it->event);
    it->departures++;
    decide_again(it, NULL);
    if (it->head != it->tail)
        it->link.departure = it->moment + (draw() % 8 ? it->queue[it->head % PLACES].size * it->link.pace / 1000 : 0);
}

static void updates(struct history *it) {
    inputs(it);
    bpf_pie_update_event(&it->state, it->bytes, &it->event);
    if ((it->event.moment > it->rules.now ? it->event.moment : it->rules.now) < it->rules.last + it->rules.params.t_update) {
        if (it->event.answer != PIE_TOO_SOON)
            differ(it, "refusal");
        return;
    }
    it->updates++;
    decide_again(it, NULL);
}

static void change(struct history *it, const struct pie_params *params) {
    inputs(it);
    if (params)
        bpf_pie_set_params_event(&it->state, params, &it->event);
    else
        bpf_pie_reset_event(&it->state, &it->event);
    it->others++;
    decide_again(it, params);
}

/* Moves the probability to a bound of the rules, if the delay comes from time stamps, by parameters and updates: each gain of 10^-12 for a nanosecond, or a
 * multiple of it, as long as the distance allows. */
static void aim(struct history *it) {
    static const int64_t bounds[] = {1000000, 10000000, 100000000, 1000000000, 10000000000, 100000000000, 200000000000};
    static const int64_t divisors[] = {2048, 512, 128, 32, 8, 2, 1};
    int64_t bound = bounds[draw() % 7];
    for (int64_t factor = 1000000; factor >= 1; factor /= 10) {
        struct pie_params params = it->state.params;
        int64_t prob = (int64_t)it->state.prob, delay = (int64_t)it->state.waited, target, gain;
        int scale = 0;
        while (scale < 6 && prob >= bounds[scale])
            scale++;
        gain = factor * divisors[scale] > 1000000 ? 1000000 / divisors[scale] : factor;
        target = delay - (bound - prob) / gain;
        params.target = target < 2 ? 2 : target > 10000000000 ? 10000000000 : target;
        params.alpha = gain * divisors[scale];
        params.beta = 0;
        params.t_update = 1;
        change(it, &params);
        it->moment = it->state.moment + 1;
        updates(it);
    }
    /* (half the target above the delay) */
    if (draw() % 2 && it->state.old_delay < 1000000000) {
        struct pie_params params = it->state.params;
        params.target = it->state.old_delay * 2 + 2;
        params.t_update = 1000000000;
        change(it, &params);
    }
}

/* A reset, random parameters, or parameters at a bound of the rules. */
static void changes(struct history *it) {
    struct pie_params params = random_params(&it->link), present = it->state.params;
    switch (draw() % 8) {
    case 0:
        change(it, NULL);
        break;
    case 1:
        change(it, &params);
        break;
    case 2:
        present.mark_ecnth = it->state.prob;
        change(it, &present);
        break;
    case 3:
        present.target = it->state.old_delay * 2 % 10000000000 + 2 * !it->state.old_delay;
        change(it, &present);
        break;
    default:
        aim(it);
    }
}

/* Makes the next event: the first of the next arrival, departure and due update. */
static void step(struct history *it) {
    uint64_t due = it->state.last + it->state.params.t_update, next = it->link.arrival;
    bool is_departure = it->head != it->tail && it->link.departure <= next;
    if (draw() % 2000 == 0) {
        changes(it);
        return;
    }
    if (draw() % 500 == 0)
        it->link.quarters = 2 + draw() % 15;
    if (is_departure)
        next = it->link.departure;
    if ((due <= next && draw() % 8) || draw() % 300 == 0) {
        it->moment = due > it->moment && due <= next ? due : it->moment;
        updates(it);
        if (it->state.params.t_update >= it->link.pace * it->link.mean / 1000)
            return;
    }
    it->moment = next > it->moment ? next : it->moment;
    if (is_departure)
        departs(it);
    else
        arrives(it);
}

int main(int count, char **words) {
    static struct history it;
    uint64_t wanted = count > 1 ? strtoull(words[1], NULL, 10) : 100000, arrivals = 0, histories = 0;
    while (arrivals < wanted) {
        begin(&it);
        for (int number = 0; number < STEPS; number++)
            step(&it);
        arrivals = it.answers[0] + it.answers[1] + it.answers[2] + it.answers[3] + it.answers[4];
        histories++;
    }
    printf("equal: %llu enqueues of %llu histories: %llu queued, %llu marked, %llu early, %llu over_bytes, %llu over_packets; %llu departures, %llu updates, "
           "%llu resets and changes\n", (unsigned long long)arrivals, (unsigned long long)histories, (unsigned long long)it.answers[0],
           (unsigned long long)it.answers[1], (unsigned long long)it.answers[2], (unsigned long long)it.answers[3], (unsigned long long)it.answers[4],
           (unsigned long long)it.departures, (unsigned long long)it.updates, (unsigned long long)it.others);
    /* (each result at least once in 500 enqueues) */
    for (int answer = 0; answer < 5; answer++) {
        if (it.answers[answer] * 500 < arrivals)
            return 1;
    }
    return 0;
}
