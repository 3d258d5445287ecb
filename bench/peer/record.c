/* The least that a record costs in C: a flight recorder and sums of an interval, written for this purpose alone, beside pie_flight_keep and
 * pie_*_summed. Both make the same memory and the same record of an interval over the same stream of 10000 arrivals and 9984 departures, and the
 * program compares them. bench/pie_record_count.sh counts the instructions of its functions.
 *
 * The recorder here leaves out: other kinds of events, drops and refused calls, the check for an empty queue, snapshots, and stores that are ordered for
 * another thread. The sums here leave out: counters that saturate, profile 2, and the cause of an arrival, which the library computes and this program
 * is given.
 *
 * build: cc -O2 -std=gnu11 -Iinclude -o record bench/peer/record.c crates/pie_c/out/libpie_c.a
 * usage: record */
#include "least.h"

#include <stdio.h>
#include <stdlib.h>

#define COUNTED __attribute__((noipa)) /* (a function of its own, also if another has the same body) */
#define PACKETS 1000u
#define WAITING 16u

static struct pie_opening opening;
static struct pie_state pie, again;
static struct pie_event event;
static struct pie_flight flight;
static struct pie_period period, least_period;
static uint64_t came, left, moment;

/* ---- the recorder */

static struct least_recorder least;

COUNTED static void least_arrival(struct least_recorder *it, const struct pie_state *state, const struct pie_event *from) {
    least_keep_arrival(it, state->moment, from);
}

COUNTED static void least_departure(struct least_recorder *it, const struct pie_state *state, const struct pie_event *from) {
    least_keep_departure(it, state->moment, from);
}

COUNTED static void least_store(struct least_events *it, const struct pie_event *from) {
    memcpy(it->event, from, 40);
    it->count++;
}

COUNTED static void keep_arrival(struct pie_flight *it, const struct pie_state *state, const struct pie_event *from) {
    pie_flight_keep(it, state, from);
}

COUNTED static void keep_departure(struct pie_flight *it, const struct pie_state *state, const struct pie_event *from) {
    pie_flight_keep(it, state, from);
}

/* ---- the sums of an interval */

COUNTED static void sum_arrival(struct pie_period *it, const struct pie_state *state, const struct pie_event *from, uint64_t cause) {
    least_sum_arrival(it, state->moment, state, from->size, from->answer, cause);
}

COUNTED static void sum_departure(struct pie_period *it, const struct pie_state *state, const struct pie_event *from, uint64_t arrived) {
    least_sum_departure(it, state->moment, state, from->size, arrived);
}

/* ---- the stream: an arrival each 2 us while 16 packets are queued; the sums receive waits of 2 to 30 ms */

static void die(const char *what) {
    fprintf(stderr, "record: %s\n", what);
    exit(1);
}

static void arrive(void) {
    uint64_t causes[15], cause = 0, waits = came - left;
    struct pie_event copy;
    moment += 1000;
    event.moment = moment;
    event.tag = came;
    event.word = moment * UINT64_C(6364136223846793005);
    event.size = 1000;
    event.caller = 1;
    event.ecn = PIE_ECT0;
    copy = event;
    if (pie_arrive_event(&pie, waits * 1000, (uint32_t)(PACKETS - waits), &event) > PIE_MARK)
        die("a packet was dropped");
    keep_arrival(&flight, &pie, &event);
    least_arrival(&least, &pie, &event);
    memcpy(causes, period.meter.causes, sizeof causes);
    if (moment >= period.end)
        memset(causes, 0, sizeof causes);
    pie_arrive_summed(&again, waits * 1000, (uint32_t)(PACKETS - waits), &copy, &period);
    while (cause < 14 && period.meter.causes[cause] == causes[cause])
        cause++;
    sum_arrival(&least_period, &again, &copy, cause);
    came++;
}

static void depart(void) {
    const uint64_t arrived = again.moment - 2000000 - came * 7919 % 28000000;
    struct pie_event copy;
    moment += 1000;
    event.moment = moment;
    event.tag = left++;
    event.size = 1000;
    event.caller = 2;
    event.ecn = PIE_ECT0;
    copy = event;
    if (pie_depart_event(&pie, (came - left) * 1000, 0, &event) != PIE_DONE)
        die("no packet departed");
    keep_departure(&flight, &pie, &event);
    least_departure(&least, &pie, &event);
    pie_depart_summed(&again, (came - left) * 1000, arrived, &copy, &period);
    sum_departure(&least_period, &again, &copy, arrived);
    least_store(&(struct least_events){.event = (uint64_t[8]){0}}, &event);
}

/* Compares both recorders, and the records of both intervals. */
static void compare(void) {
    unsigned char records[2][PIE_RESUME_ROOM];
    size_t sizes[2];
    pie_flight_sum(&flight);
    if (!least_is_same(&least, &flight))
        die("the recorders keep other events, packets or statistics");
    least_finish(&least_period);
    sizes[0] = pie_write_period(&period, records[0], sizeof records[0]);
    sizes[1] = pie_write_period(&least_period, records[1], sizeof records[1]);
    if (sizes[0] == 0 || sizes[0] != sizes[1] || memcmp(records[0], records[1], sizes[0]) != 0 ||
        memcmp(period.waits, least_period.waits, sizeof period.waits) != 0)
        die("the records of the intervals differ");
}

int main(void) {
    size_t bytes = pie_flight_bytes(4000, PACKETS), i;
    uint64_t *memory = calloc(1, bytes), *words = calloc(1, bytes);
    pie_default_opening(&opening, 0);
    opening.choices = PIE_USUAL;
    opening.packets = PACKETS;
    opening.moment = moment = 100000000;
    opening.params.max_burst = 0;
    if (memory == NULL || words == NULL || pie_open(&pie, &opening) != PIE_DONE || pie_open_period(&period, 1000000000, 0) != PIE_DONE ||
        !pie_flight_open(&flight, memory, bytes, 4000, &opening, &pie))
        die("not opened");
    again = pie;
    least_period = period;
    least_open(&least, words, &flight);
    for (i = 0; i < WAITING; i++)
        arrive();
    for (i = WAITING; i < 10000; i++) {
        arrive();
        depart();
    }
    compare();
    return 0;
}
