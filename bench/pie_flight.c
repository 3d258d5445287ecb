/* Measures the cost of keeping an event in a flight recorder (include/pie_flight.h) beside the
 * event alone, beside a store of 40 bytes and a counter, and beside a recorder in C for this purpose
 * alone (peer/least.h), while PACKETS packets are queued; of a snapshot; and of a dump. Considered arrivals
 * (one in twenty is dropped early) and departures alternate, so that the queue keeps its length.
 * Packets have 1000 bytes. Prints lines `name value unit`, one for each run, for bench/ratios.py.
 * With `count` it makes events of one kind in a separate function, whose instructions
 * bench/pie_flight.sh counts, and prints their number. With `text` it writes a dump for an audit.
 *
 * usage: pie_flight EVENTS PACKETS                 EVENTS: the least number that the recorder keeps
 *        pie_flight EVENTS PACKETS count alone|kept|snapshot
 *        pie_flight EVENTS PACKETS text */
#define _GNU_SOURCE
#include "peer/least.h"

#include <inttypes.h>
#include <pthread.h>
#include <stdio.h>
#include <stdlib.h>
#include <time.h>

#define RUNS 15
#define CALLS 200000 /* pairs in a run: an arrival and a departure */
#define TURN 2000    /* pairs in a turn: the kinds alternate, so that other work on the machine affects all */
#define SIZE 1000    /* bytes of a packet */

/* The record of an event: none, 40 bytes, that of least.h, or that of the flight recorder. */
enum record { ALONE, STORED, LEAST, KEPT, RECORDS };
static const char *const names[RECORDS] = {"alone", "stored", "least", "kept"};

/* A queue of packets that have numbers only. */
struct queue {
    struct pie_state pie;
    struct pie_opening opening;
    uint64_t came, left, moment;
    struct pie_flight flight;
    struct least_recorder least; /* in place of it */
};

static struct queue queues[RECORDS];
static void *memory, *scratch, *memories[RECORDS]; /* the flight recorder's memory, for a copy of it, of the others */
static size_t bytes;
static volatile uint64_t sink;

static double now(void) {
    struct timespec it;
    clock_gettime(CLOCK_MONOTONIC, &it);
    return (double)it.tv_sec * 1e9 + (double)it.tv_nsec;
}

/* Stores 40 bytes of an event, and counts them. */
static inline void store(struct least_events *it, const struct pie_event *event) {
    memcpy(it->event, event, 8 * PIE_FLIGHT_EVENT);
    it->event += PIE_FLIGHT_EVENT;
    if (it->event == it->events_end)
        it->event = it->events;
    it->count++;
}

__attribute__((always_inline)) static inline void keep(struct queue *queue, const struct pie_event *event, const enum record record) {
    if (record == STORED)
        store(&queue->least.kept, event);
    else if (record == KEPT)
        pie_flight_keep(&queue->flight, &queue->pie, event);
    else if (record == LEAST && event->kind == PIE_EVENT_DEPART)
        least_keep_departure(&queue->least, queue->pie.moment, event);
    else if (record == LEAST && event->kind == PIE_EVENT_UPDATE)
        least_put_event(&queue->least, event, 0);
    else if (record == LEAST && event->answer > PIE_MARK)
        least_keep_drop(&queue->least, event);
    else if (record == LEAST)
        least_keep_arrival(&queue->least, queue->pie.moment, event);
}

/* Makes an arrival and, if it was queued, a departure. */
__attribute__((always_inline)) static inline uint32_t pair(struct queue *queue, const enum record record) {
    struct pie_event event;
    uint64_t waits = queue->came - queue->left;
    uint32_t answer;
    queue->moment += 100;
    event.moment = queue->moment;
    event.tag = queue->came;
    event.word = queue->moment * UINT64_C(6364136223846793005);
    event.size = SIZE;
    event.caller = 1;
    event.ecn = PIE_ECT0;
    answer = pie_arrive_event(&queue->pie, waits * SIZE, (uint32_t)(queue->opening.packets - waits), &event);
    keep(queue, &event, record);
    if (answer > PIE_MARK)
        return answer;
    queue->came++;
    queue->moment += 100;
    event.moment = queue->moment;
    event.tag = queue->left;
    event.size = SIZE;
    event.caller = 2;
    event.ecn = PIE_ECT0;
    answer += pie_depart_event(&queue->pie, waits * SIZE, 0, &event);
    queue->left++;
    keep(queue, &event, record);
    return answer;
}

__attribute__((noinline)) static uint32_t alone(void) {
    return pair(&queues[ALONE], ALONE);
}

__attribute__((noinline)) static uint32_t stored(void) {
    return pair(&queues[STORED], STORED);
}

__attribute__((noinline)) static uint32_t least(void) {
    return pair(&queues[LEAST], LEAST);
}

__attribute__((noinline)) static uint32_t kept(void) {
    return pair(&queues[KEPT], KEPT);
}

static uint32_t (*const calls[RECORDS])(void) = {alone, stored, least, kept};

__attribute__((noinline)) static uint32_t snapshot(void) {
    pie_flight_snapshot(&queues[KEPT].flight, &queues[KEPT].pie);
    return (uint32_t)queues[KEPT].flight.next;
}

static void open_queue(enum record record, uint64_t events, uint64_t packets) {
    struct queue *queue = &queues[record];
    struct pie_opening *opening = &queue->opening;
    uint64_t *own = memories[record];
    uint64_t i;
    pie_default_opening(opening, 0);
    opening->choices = PIE_USUAL; /* as the figures of docs/PERFORMANCE.md were measured */
    opening->params.limit_bytes = PIE_MAX_BYTES;
    opening->params.mark_ecnth = 0;
    opening->packets = packets + 1;
    pie_open(&queue->pie, opening);
    queue->pie.burst = 0;
    if (record == KEPT && !pie_flight_open(&queue->flight, memory, bytes, events, opening, &queue->pie))
        exit(1);
    if (record == STORED || record == LEAST)
        least_open(&queue->least, own, &queues[KEPT].flight);
    /* (no arrival is dropped while the probability is 0) */
    for (i = 0; i < packets; i++) {
        struct pie_event event = {.tag = i, .size = SIZE, .caller = 1, .ecn = PIE_ECT0};
        if (pie_arrive_event(&queue->pie, i * SIZE, (uint32_t)(packets + 1 - i), &event) != PIE_ENQUEUE)
            exit(1);
        keep(queue, &event, record);
        queue->came++;
    }
    /* (an update precedes a probability above 0, and has the delay) */
    queue->moment = opening->params.t_update;
    struct pie_event event = {.moment = queue->moment, .caller = 1};
    if (pie_update_event(&queue->pie, packets * SIZE, &event) != PIE_DONE)
        exit(1);
    event.delay = 15000000;
    keep(queue, &event, record);
    queue->pie.burst = 0;
    queue->pie.prob = UINT64_C(50000000000);
    queue->pie.old_delay = event.delay;
}

/* Counts the written bytes, and stores the time of the first write. */
static double begun;
static uint64_t written;

static int count_bytes(void *unused, const unsigned char *text, size_t count) {
    (void)unused;
    (void)text;
    if (written == 0)
        begun = now();
    written += count;
    return 0;
}

static int write_out(void *unused, const unsigned char *text, size_t count) {
    (void)unused;
    return fwrite(text, 1, count, stdout) == count ? 0 : 1;
}

/* Dumps again and again in another thread. */
static PIE_WORD is_over;

static void *dump_all(void *unused) {
    (void)unused;
    while (!PIE_LOAD(is_over))
        pie_flight_dump(memory, bytes, scratch, count_bytes, NULL);
    return NULL;
}

static double time_pairs(uint32_t (*call)(void), uint64_t pairs) {
    double start = now();
    for (uint64_t i = 0; i < pairs; i++)
        sink += call();
    return now() - start;
}

/* The time of an event of each kind; a pair has a few events less than two, since some arrivals are dropped. The
 * recorder in C must have the same events, packets and statistics. */
static void time_events(uint64_t packets) {
    for (int run = 0; run < RUNS; run++) {
        double times[RECORDS] = {0};
        uint64_t events = queues[KEPT].flight.count;
        for (int turn = 0; turn < CALLS / TURN; turn++)
            for (int kind = 0; kind < RECORDS; kind++)
                times[kind] += time_pairs(calls[kind], TURN);
        events = queues[KEPT].flight.count - events;
        for (int kind = 0; kind < RECORDS; kind++)
            printf("%s_%" PRIu64 " %.3f ns\n", names[kind], packets, times[kind] / (double)events);
    }
    pie_flight_sum(&queues[KEPT].flight);
    if (!least_is_same(&queues[LEAST].least, &queues[KEPT].flight) || queues[STORED].least.kept.count != queues[KEPT].flight.count) {
        fprintf(stderr, "pie_flight: the recorder in C has other events\n");
        exit(1);
    }
}

static void time_beside_dumps(uint64_t packets) {
    pthread_t thread;
    if (pthread_create(&thread, NULL, dump_all, NULL) != 0)
        exit(1);
    for (int run = 0; run < RUNS; run++) {
        uint64_t events = queues[KEPT].flight.count;
        double time = time_pairs(kept, CALLS);
        printf("dumped_%" PRIu64 " %.3f ns\n", packets, time / (double)(queues[KEPT].flight.count - events));
    }
    PIE_STORE(is_over, 1);
    pthread_join(thread, NULL);
}

/* Measures a dump with a copy, and the time until its first bytes are written. */
static void time_dumps(uint64_t packets) {
    for (int run = 0; run < RUNS; run++) {
        double start = now();
        written = 0;
        if (pie_flight_dump(memory, bytes, scratch, count_bytes, NULL) != PIE_FLIGHT_DONE)
            exit(1);
        printf("dump_%" PRIu64 " %.3f ms\ncopy_%" PRIu64 " %.3f ms\n", packets, (now() - start) / 1e6, packets, (begun - start) / 1e6);
        printf("text_%" PRIu64 " %.3f KB\n", packets, (double)written / 1e3);
    }
}

/* Measures a series of snapshots, because reading the clock takes longer than one. */
static void time_snapshots(uint64_t packets) {
    struct pie_flight *flight = &queues[KEPT].flight;
    uint64_t count = flight->count;
    for (int run = 0; run < RUNS; run++) {
        double start = now();
        for (int i = 0; i < 10000; i++) {
            flight->count += flight->period;
            sink += snapshot();
        }
        printf("snapshot_%" PRIu64 " %.3f ns\n", packets, (now() - start) / 10000);
    }
    flight->count = count;
}

/* Makes events for valgrind: a whole number of periods between snapshots, so that snapshots have their share. */
static int count_calls(const char *kind) {
    uint64_t begin = queues[KEPT].flight.count, period = queues[KEPT].flight.period, pairs = 0, i;
    if (strcmp(kind, "snapshot") == 0) {
        for (i = 0; i < 100; i++)
            sink += snapshot();
        printf("100 %" PRIu64 "\n", period);
        return 0;
    }
    /* both kinds make equal pairs: their decisions are equal */
    while (queues[KEPT].flight.count - begin < period) {
        sink += kept();
        pairs++;
    }
    begin = queues[KEPT].flight.count - begin;
    for (i = 0; i < pairs; i++)
        sink += alone();
    printf("%" PRIu64 " %" PRIu64 "\n", begin, period);
    return 0;
}

int main(int count, char **words) {
    if (count < 3)
        return 1;
    uint64_t events = strtoull(words[1], NULL, 10), packets = strtoull(words[2], NULL, 10);
    bytes = pie_flight_bytes(events, packets + 1);
    memory = aligned_alloc(64, (bytes + 63) / 64 * 64);
    scratch = aligned_alloc(64, (bytes + 63) / 64 * 64);
    if (bytes == 0 || memory == NULL || scratch == NULL)
        return 1;
    /* (the pages are allocated before the measurement) */
    memset(memory, 0, bytes);
    memset(scratch, 0, bytes);
    open_queue(KEPT, events, packets);
    for (int kind = ALONE; kind < KEPT; kind++) {
        memories[kind] = aligned_alloc(64, (bytes + 63) / 64 * 64);
        if (memories[kind] == NULL)
            return 1;
        memset(memories[kind], 0, bytes);
        open_queue((enum record)kind, events, packets);
    }
    if (count == 5)
        return count_calls(words[4]);
    time_events(packets);
    if (count == 4)
        return pie_flight_dump(memory, bytes, NULL, write_out, NULL);
    time_dumps(packets);
    time_beside_dumps(packets);
    time_snapshots(packets);
    return 0;
}
