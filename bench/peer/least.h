/* The least that a record costs, written for this purpose alone: events in the five words of a flight recorder (include/pie_flight.h), and sums of an
 * interval (struct pie_period), for programs that compare the library with them. What is left out is in the heads of record.c and
 * bindings/dpdk/peer.h. */
#ifndef LEAST_H
#define LEAST_H

#include "pie_flight.h"

#include <stddef.h>
#include <string.h>

/* ---- events */

struct least_events {
    uint64_t *event, *events, *events_end, count;
};

/* Stores an event. */
static inline void least_put(struct least_events *it, uint64_t moment, uint64_t tag, uint64_t word, uint64_t size, uint64_t about) {
    uint64_t *to = it->event;
    to[0] = moment;
    to[1] = tag;
    to[2] = word;
    to[3] = size;
    to[4] = about;
    to += PIE_FLIGHT_EVENT;
    it->event = to != it->events_end ? to : it->events;
    it->count++;
}

/* ---- a flight recorder: the memory is that of pie_flight_open */

struct least_recorder {
    struct least_events kept;
    uint64_t *kept_word, *came, *leaves, *queued, *queued_end, answers[5], arrived, peak, largest, waited, waited_high;
};

static inline void least_put_event(struct least_recorder *it, const struct pie_event *from, uint64_t word) {
    uint64_t last[2];
    memcpy(last, (const char *)from + offsetof(struct pie_event, size), sizeof last);
    least_put(&it->kept, from->moment, from->tag, word, last[0], last[1]);
    *it->kept_word = it->kept.count;
}

/* Keeps the arrival of a packet that is queued, `since` its effective moment. */
static inline void least_keep_arrival(struct least_recorder *it, uint64_t since, const struct pie_event *from) {
    uint64_t *to = it->came;
    to[0] = from->tag;
    to[1] = since;
    memcpy(to + 2, (const char *)from + offsetof(struct pie_event, size), 16);
    to += PIE_FLIGHT_PACKET;
    it->came = to != it->queued_end ? to : it->queued;
    it->answers[from->answer]++;
    it->arrived += from->size;
    if (it->arrived > it->peak) {
        it->largest += it->arrived - it->peak;
        it->peak = it->arrived;
    }
    least_put_event(it, from, from->word);
}

static inline void least_keep_drop(struct least_recorder *it, const struct pie_event *from) {
    it->answers[from->answer]++;
    least_put_event(it, from, from->word);
}

static inline void least_keep_departure(struct least_recorder *it, uint64_t now, const struct pie_event *from) {
    uint64_t *at = it->leaves, since = at[1], waited = now - since;
    at += PIE_FLIGHT_PACKET;
    it->leaves = at != it->queued_end ? at : it->queued;
    it->peak += from->size;
    it->waited += waited;
    it->waited_high += it->waited < waited;
    least_put_event(it, from, since);
}

/* Opens a recorder over `memory`, with the places that `flight` has in its own memory. */
static inline void least_open(struct least_recorder *it, uint64_t *memory, const struct pie_flight *flight) {
    memset(it, 0, sizeof *it);
    it->kept_word = memory + PIE_FLIGHT_KEPT;
    it->queued = it->came = it->leaves = memory + (flight->queued - flight->words);
    it->queued_end = memory + (flight->queued_end - flight->words);
    it->kept.events = it->kept.event = memory + (flight->events - flight->words);
    it->kept.events_end = memory + (flight->events_end - flight->words);
}

/* Returns 1 if it has the events, the queued packets and the statistics of `flight`, for which pie_flight_sum was called. */
static inline int least_is_same(const struct least_recorder *it, const struct pie_flight *flight) {
    const size_t packets = (size_t)(it->queued_end - it->queued), events = (size_t)(it->kept.events_end - it->kept.events);
    return it->kept.count == flight->count && memcmp(it->queued, (const void *)flight->queued, packets * 8) == 0 &&
           memcmp(it->kept.events, (const void *)flight->events, events * 8) == 0 && flight->stats.waited == it->waited &&
           flight->stats.waited_high == it->waited_high && flight->stats.largest_queue == it->largest &&
           flight->stats.enqueued == it->answers[PIE_ENQUEUE] && flight->stats.marked == it->answers[PIE_MARK];
}

/* ---- sums of an interval */

/* Begins an interval, with the values that only updates change. */
__attribute__((noinline, unused)) static void least_begin(struct pie_period *it, uint64_t moment, const struct pie_state *state) {
    it->begun++;
    it->number = moment / it->every;
    it->start = it->number * it->every;
    it->end = it->start + it->every;
    memset(&it->meter, 0, sizeof it->meter);
    memset(it->waits, 0, sizeof it->waits);
    it->meter.first = it->meter.since = moment;
    it->meter.probs.greatest = it->meter.probs.last = state->prob;
    it->meter.target = state->params.target;
    it->meter.burst = state->burst;
}

static inline void least_enter(struct pie_period *it, uint64_t moment, const struct pie_state *state) {
    if (moment - it->start >= it->end - it->start)
        least_begin(it, moment, state);
    it->meter.last = moment;
}

static inline void least_sum_arrival(struct pie_period *it, uint64_t moment, const struct pie_state *state, uint32_t size, uint32_t answer,
                                     uint64_t cause) {
    least_enter(it, moment, state);
    it->meter.answers[answer]++;
    it->meter.causes[cause]++;
    it->meter.arrived.low += size;
}

/* Returns the range of a wait by divisions. */
__attribute__((noinline, unused)) static uint64_t least_range_of_any(uint64_t wait) {
    uint64_t ranges = 0;
    for (; wait >= 100; wait /= 10)
        ranges += 90;
    return ranges + wait;
}

/* Returns the range of a wait, fast from 10 us to 100 ms. */
static inline uint64_t least_range(uint64_t wait) {
    if (wait >= 10000000 && wait < 100000000)
        return wait / 1000000 + 540;
    if (wait >= 1000000 && wait < 10000000)
        return wait / 100000 + 450;
    if (wait >= 100000 && wait < 1000000)
        return wait / 10000 + 360;
    if (wait >= 10000 && wait < 100000)
        return wait / 1000 + 270;
    return least_range_of_any(wait);
}

static inline void least_sum_departure(struct pie_period *it, uint64_t moment, const struct pie_state *state, uint32_t size, uint64_t arrived) {
    const uint64_t wait = moment - arrived, target = state->params.target;
    least_enter(it, moment, state);
    it->meter.answers[5]++;
    it->meter.carried += size;
    it->meter.waits.low += wait;
    it->meter.waits.high += it->meter.waits.low < wait;
    if (wait > it->meter.greatest_wait)
        it->meter.greatest_wait = wait;
    if (wait > target) {
        const uint64_t excess = wait - target, since = moment - it->meter.since;
        it->meter.longer++;
        it->meter.late += excess < since ? excess : since;
    }
    it->meter.since = moment;
    it->waits[least_range(wait)]++;
}

/* Sets the sum that the record needs and that no event adds to. */
static inline void least_finish(struct pie_period *it) {
    uint64_t i;
    it->meter.arrivals = 0;
    for (i = PIE_ENQUEUE; i <= PIE_PACKETS; i++)
        it->meter.arrivals += it->meter.answers[i];
}

#endif
