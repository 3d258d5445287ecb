/* Functions that the parts of the stage's test share. stage_test.c runs all tests, and has those of the decisions. The
 * others are:
 *   stage_test_frames.c   marks in frames
 *   stage_test_texts.c    reading of histories and of the flight recorder's texts
 *   stage_test_records.c  interval records and flows
 *   stage_test_queues.c   several queues
 *   stage_test_threads.c  many threads at once */
#ifndef STAGE_TEST_H
#define STAGE_TEST_H

#include "pie_stage.h"

#include <rte_mbuf.h>
#include <stdio.h>
#include <stdlib.h>

#define MBUFS 8191u
#define EXPECT(what)                                                              \
    do {                                                                          \
        if (!(what)) {                                                            \
            fprintf(stderr, "stage_test: %s:%d: not so: %s\n", __FILE__, __LINE__, #what); \
            exit(1);                                                              \
        }                                                                         \
    } while (0)

extern struct rte_mempool *pool;
extern const char *folder; /* the folder of histories */

struct rte_mbuf *alloc(void);

void expect_all_back(void);

/* Returns a frame of this size with this ECN field, in one segment. */
struct rte_mbuf *plain(uint16_t size, uint8_t ecn);

/* Returns a frame of IPv6 behind `tags` VLAN tags. */
struct rte_mbuf *ipv6(int tags);

/* Sets the default parameters for 100 Mbit/s, without a flight recorder. */
void unrecorded(struct pie_stage_params *params);

struct pie_stage *stage_of(struct pie_stage_params *params);

/* The content of a history. */
struct content {
    uint64_t lines, lost, gaps; /* lines except clock records; missing events; lines `lost`, which report them */
    uint64_t clocks;            /* clock records */
};

/* Writes the pending part of the history to a file, and adds its lines to `content`. */
void take_history(struct pie_stage *stage, FILE *file, struct content *content);

/* Opens the file NAME.ENDING in the folder. open_history opens NAME.history. */
FILE *open_text(const char *name, const char *ending);

FILE *open_history(const char *name);

/* Returns the number of events that a stage counted. */
uint64_t events_of(const struct pie_stage_stats *stats);

int write_to(void *user, const unsigned char *bytes, size_t count);

/* An excerpt: the events before it, the packets queued then, its clock records, and its events. */
struct resumed {
    uint64_t before, queued, clocks, events;
};

struct resumed read_resumed(const char *name);

/* Writes the text of the flight recorder of an idle stage: all events, or at least this many, up to the last. */
struct resumed expect_flight(struct pie_stage *stage, const char *name, uint64_t least);

/* Checks that each decision of a recorded stage is in its history, or counted as lost. */
void expect_history(struct pie_stage *stage, const struct content *content);

/* The content of interval records. */
struct summed {
    uint64_t records, gaps, lost;                 /* records; lines `lost`; missing intervals, by these lines */
    uint64_t arrivals, left, updates, turned_off; /* sums of these fields over all records */
    int places[4];                                /* positions of these fields in a record */
};

/* Writes the pending records to a file, with `is_over` also the last one, and adds them to `summed`. */
void take_records(struct pie_stage *stage, bool is_over, FILE *file, struct summed *summed);

/* Checks that the records contain the stage's counts, or report missing records. */
void expect_summed(struct pie_stage *stage, const struct summed *summed);

void test_records(void);
void test_flows(uint32_t events, uint32_t flight);

/* Tests the queues of pie-fwd: classes, and equal shares. */
void test_queues(void);

void test_marks(void);
void test_no_ip(void);
void test_shared(void);

/* Cuts a history while packets arrive and depart, with a queue that is copied in many turns. Each text can be audited
 * alone, and begins at the end of the text before it. */
void test_cut_beside(int cuts);

/* Tests several threads at one stage, with flows in tags. Above 0, each of `events`, `flight` and `every` adds a thread
 * that writes the history, the flight recorder's texts or the interval records. */
void test_threads(uint32_t rounds, uint32_t events, uint32_t flight, uint64_t every);

#endif
