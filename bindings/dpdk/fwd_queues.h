/* The queues of a link with one sender. Each queue is a stage. The class in the IP header of a packet selects its
 * queue, and the sender serves the queues in turn. Queues with packets have equal shares of the rate. */
#ifndef FWD_QUEUES_H
#define FWD_QUEUES_H

#include "pie_stage.h"

#include <limits.h>

#define FWD_QUEUES 8 /* the most queues: there are eight classes */

struct fwd_queues {
    uint32_t count;
    struct pie_stage *stages[FWD_QUEUES];
    int64_t credits[FWD_QUEUES]; /* the sender's: bytes left in the turn of a queue, negative after an excess */
    uint32_t turn;
};

/* Makes `count` stages with these parameters, with the names `name`-1, `name`-2 and so on. Returns false with
 * rte_errno if that fails. */
bool fwd_queues_create(struct fwd_queues *queues, uint32_t count, const char *name, const struct pie_stage_params *params);

void fwd_queues_free(struct fwd_queues *queues);

/* Writes the name of a queue's file: unchanged for the first queue, with the suffix -1, -2 and so
 * on for the others. Returns false with errno if it is too long. */
bool fwd_queue_name(char name[PATH_MAX], const char *path, uint32_t queue);

/* Returns the queue of a packet, 0 to count - 1. The three highest bits of its DS field are its class (RFC 2474,
 * section 4.2.2), and each queue has an equal part of the eight classes. A packet without an IP header has queue 0. */
uint32_t fwd_queue_of(const struct rte_mbuf *mbuf, uint32_t count);

/* Enqueues a burst of at most 32 packets, each to its queue. Frees dropped packets. */
void fwd_queues_enqueue(struct fwd_queues *queues, struct rte_mbuf **mbufs, uint32_t count, uint64_t now);

/* Dequeues up to `count` packets while fewer than `bytes` were dequeued. Returns their number. Only the sending
 * lcore may call it. */
uint32_t fwd_queues_dequeue(struct fwd_queues *queues, struct rte_mbuf **mbufs, uint32_t count, uint64_t bytes, uint64_t now);

/* Makes the updates that are due. */
void fwd_queues_update(struct fwd_queues *queues, uint64_t now);

/* A pace: a limit in bytes per second. If the sender pauses while packets are queued, the pace makes up for at most 10
 * ms of the pause. Time without packets gives no credit. */
#define FWD_PACE_PAUSES 100 /* a second divided by the longest pause that is made up for, 10 ms */

struct fwd_pace {
    double cycles_a_byte;
    double at;   /* the time up to this moment is used, in cycles of the TSC */
    double most; /* the longest pause that is made up for, in cycles */
};

static inline struct fwd_pace fwd_pace_of(double bits_a_second, double hz, uint64_t now) {
    return (struct fwd_pace){.cycles_a_byte = hz * 8 / bits_a_second, .at = (double)now, .most = hz / FWD_PACE_PAUSES};
}

/* Returns the number of bytes that may be sent now. The last packet may exceed it; later packets then wait longer. */
static inline uint64_t fwd_pace_bytes(struct fwd_pace *pace, uint64_t now) {
    if (pace->at > (double)now)
        return 0;
    if (pace->at < (double)now - pace->most)
        pace->at = (double)now - pace->most;
    return 1 + (uint64_t)(((double)now - pace->at) / pace->cycles_a_byte);
}

/* Counts sent bytes. */
static inline void fwd_pace_move(struct fwd_pace *pace, uint64_t bytes) {
    pace->at += (double)bytes * pace->cycles_a_byte;
}

/* Notes that no packet was queued: the time up to `now` gives no credit. */
static inline void fwd_pace_rest(struct fwd_pace *pace, uint64_t now) {
    pace->at = (double)now;
}

#endif
