/* Rules of their own, by which bpf_decides.c and bpf_qdisc.c decide recorded events again (RFC 8033, and docs/MODEL.md for what the RFC leaves open), and random
 * parameters. */
#ifndef BPF_RULES_H
#define BPF_RULES_H

#include "pie.h"

#include <stdbool.h>
#include <string.h>

#define PLACES 4096

typedef __int128 wide;

struct packet {
    uint64_t since, tag;
    uint32_t size;
};

/* ---- The rules. Probabilities in units of 10^-12, so that thousandths per second times nanoseconds need no factor */

struct rules {
    struct pie_opening opening;
    struct pie_params params;
    uint64_t now, last, burst, old, average, waited, cycle_start, cycle_bytes, bytes, head, tail;
    wide prob, sum;
    bool is_on, has_cycle;
    struct packet queue[PLACES];
};

static bool chooses(const struct rules *it, uint64_t choice) {
    return it->opening.choices & choice;
}

static void start_anew(struct rules *it) {
    it->prob = it->sum = 0;
    it->old = it->average = it->waited = 0;
    it->has_cycle = false;
    it->burst = it->params.max_burst;
}

static void open_rules(struct rules *it, const struct pie_opening *opening) {
    it->opening = *opening;
    it->params = opening->params;
    it->bytes = it->head = it->tail = 0;
    start_anew(it);
    it->now = it->last = opening->moment;
    it->is_on = opening->profile == PIE_ALWAYS_ON;
}

/* 4.1, 4.4: returns true if a packet that fits into the queue may be picked. */
static bool is_exposed(const struct rules *it) {
    bool is_calm = it->old * 2 < it->params.target && it->prob * 5 < PIE_ONE;
    return it->is_on && it->burst == 0 && !is_calm && it->bytes > 2 * it->params.mean_pkt;
}

/* 4.1, 5.4: returns true if the packet is picked. */
static bool is_picked(struct rules *it, uint32_t size, uint64_t word) {
    wide chance = it->prob;
    bool is_below;
    if (chooses(it, PIE_SIZE_SCALED) && size < it->params.mean_pkt)
        chance = chance * size / it->params.mean_pkt;
    is_below = (wide)word * PIE_ONE < chance << 64;
    if (chooses(it, PIE_PICK_RANDOM))
        return is_below;
    it->sum = chance ? it->sum + chance : 0;
    return it->sum * 10 >= (wide)PIE_ONE * 85 || (it->sum * 100 >= (wide)PIE_ONE * 85 && is_below);
}

static uint32_t arrive(struct rules *it, const struct pie_event *event) {
    uint32_t verdict = PIE_ENQUEUE;
    if (it->bytes + event->size > it->params.limit_bytes)
        verdict = PIE_BYTES;
    else if (it->tail - it->head == it->opening.packets)
        verdict = PIE_PACKETS;
    else if (is_exposed(it) && is_picked(it, event->size, event->word))
        verdict = event->ecn != PIE_NOT_ECT && it->prob < it->params.mark_ecnth ? PIE_MARK : PIE_EARLY;
    if (verdict != PIE_ENQUEUE)
        it->sum = 0;
    if (verdict <= PIE_MARK) {
        it->queue[it->tail++ % PLACES] = (struct packet){it->now, event->tag, event->size};
        it->bytes += event->size;
    }
    if (!it->is_on && it->bytes * 3 >= it->params.limit_bytes) {
        start_anew(it);
        it->is_on = true;
    }
    return verdict;
}

/* 5.2: counts a departure in a cycle of the departure rate. */
static void measure(struct rules *it, uint32_t size) {
    uint64_t least = it->params.dq_threshold;
    if (it->has_cycle && (it->cycle_bytes += size) >= least) {
        uint64_t time = it->now - it->cycle_start;
        time += !time;
        it->average = it->average ? ((wide)time * least + (wide)it->average * (65536 - least)) / 65536 : time;
        it->has_cycle = false;
    }
    if (!it->has_cycle && it->bytes >= least) {
        it->has_cycle = true;
        it->cycle_start = it->now;
        it->cycle_bytes = 0;
    }
}

static uint64_t at_most(wide number) {
    return number > (wide)1 << 40 ? UINT64_C(1) << 40 : (uint64_t)number;
}

static struct packet depart(struct rules *it) {
    struct packet packet = it->queue[it->head++ % PLACES];
    it->bytes -= packet.size;
    if (it->is_on && !chooses(it, PIE_DELAY_STAMP))
        measure(it, packet.size);
    else if (it->is_on)
        it->waited = it->bytes ? at_most(it->now - packet.since) : 0;
    return packet;
}

/* 4.2, 5.5: returns the probability after an update with this delay. */
static wide following(const struct rules *it, uint64_t delay) {
    static const struct {
        wide below;
        int divisor;
    } scales[] = {{1000000, 2048}, {10000000, 512}, {100000000, 128}, {1000000000, 32}, {10000000000, 8}, {100000000000, 2}};
    wide step = (wide)it->params.alpha * ((wide)delay - it->params.target) + (wide)it->params.beta * ((wide)delay - it->old), prob;
    int scale = 0;
    while (scale < 6 && it->prob >= scales[scale].below)
        scale++;
    if (scale < 6)
        step /= scales[scale].divisor;
    else if (!chooses(it, PIE_STEP_UNCAPPED) && step * 50 > (wide)PIE_ONE)
        step = PIE_ONE / 50;
    prob = it->prob + step;
    if (chooses(it, PIE_DECAY_HALF) ? delay * 2 < it->params.target && it->old * 2 < it->params.target : !delay && !it->old)
        prob = prob * 98 / 100;
    return prob < 0 ? 0 : prob > (wide)PIE_ONE ? PIE_ONE : prob;
}

/* Returns the delay of the update; 0 if PIE is off. */
static uint64_t update(struct rules *it) {
    uint64_t delay = chooses(it, PIE_DELAY_STAMP) ? it->waited : at_most((wide)it->bytes * it->average / it->params.dq_threshold);
    it->last = it->now;
    if (!it->is_on)
        return 0;
    it->prob = following(it, delay);
    if (!it->prob && delay * 2 < it->params.target && it->old * 2 < it->params.target) { /* 4.4 */
        it->burst = it->params.max_burst;
        it->is_on = it->opening.profile == PIE_ALWAYS_ON;
    } else {
        it->burst -= it->burst < it->params.t_update ? it->burst : it->params.t_update;
    }
    it->old = delay;
    return delay;
}

/* Decides a recorded event again: `expected` receives its results. */
static void decide(struct rules *it, const struct pie_event *event, const struct pie_params *params, struct pie_event *expected) {
    struct packet packet;
    it->now = event->moment > it->now ? event->moment : it->now;
    expected->answer = PIE_DONE;
    switch (event->kind) {
    case PIE_EVENT_ARRIVE:
        expected->answer = arrive(it, event);
        break;
    case PIE_EVENT_DEPART:
        packet = depart(it);
        expected->tag = packet.tag;
        expected->size = packet.size;
        break;
    case PIE_EVENT_UPDATE:
        expected->delay = update(it);
        expected->prob = (uint64_t)it->prob;
        expected->burst = it->burst;
        break;
    case PIE_EVENT_RESET:
        start_anew(it);
        break;
    default:
        it->params = *params;
        it->average = 0;
        it->has_cycle = false;
    }
}

/* Returns true if the state has the numbers of the rules. */
static bool is_state(const struct rules *it, const struct pie_state *state) {
    return state->moment == it->now && state->prob == (uint64_t)it->prob && state->old_delay == it->old && state->burst == it->burst &&
           state->last == it->last && state->accu == (uint64_t)it->sum && state->average == it->average && state->measuring == it->has_cycle &&
           state->cycle_start == (it->has_cycle ? it->cycle_start : 0) && state->cycle_count == (it->has_cycle ? it->cycle_bytes : 0) &&
           state->active == it->is_on && state->waited == it->waited;
}

/* ---- Random parameters */

static uint64_t seed = 11;

static uint64_t draw(void) {
    uint64_t it = seed += UINT64_C(0x9e3779b97f4a7c15);
    it = (it ^ it >> 30) * UINT64_C(0xbf58476d1ce4e5b9);
    it = (it ^ it >> 27) * UINT64_C(0x94d049bb133111eb);
    return it ^ it >> 31;
}

/* Returns a number from `least` to `most`, of a random number of binary digits. */
static uint64_t between(uint64_t least, uint64_t most) {
    return least + (draw() >> (draw() & 63)) % (most - least + 1);
}

/* The link and its senders. */
struct link {
    uint64_t pace;     /* ps for a byte */
    uint64_t mean;     /* bytes of a packet */
    uint64_t quarters; /* of the load */
    uint64_t arrival, departure; /* the next ones */
};

/* Returns parameters in their ranges: half of them near those of the link, so that the probability grows and falls. */
static struct pie_params random_params(const struct link *link) {
    struct pie_params it = {between(2, 10000000000), between(1, 10000000000), between(0, 1000000000000), between(0, 1000000), between(0, 1000000),
                            between(1, 65535),       between(1, 1 << 30),     between(0, PIE_ONE),       UINT64_C(1) << (10 + draw() % 7)};
    uint64_t packet = link->pace * link->mean / 1000 + 1;
    if (draw() % 4) {
        it.target = packet * (1 + draw() % 30) % 10000000000 + 2;
        it.t_update = packet * (1 + draw() % 60) % 10000000000 + 1;
        it.max_burst = it.t_update * (draw() % 20) % 1000000000000;
        it.alpha = between(0, UINT64_C(2000000000000) / it.target) % 1000001;
        it.beta = it.alpha * (1 + draw() % 16) % 1000001;
        it.mean_pkt = link->mean;
        it.limit_bytes = link->mean * (4 + draw() % 400) % (1 << 30) + 1;
        it.mark_ecnth = draw() % 3 ? PIE_ONE / 10 : between(0, PIE_ONE);
    }
    return it;
}

#endif
