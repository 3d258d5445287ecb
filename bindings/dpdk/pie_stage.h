/* A queue with PIE (RFC 8033) for a data plane on DPDK. Receiving lcores enqueue bursts of mbufs,
 * and one lcore dequeues and sends. The controller, its parameters, choices and profiles are those
 * of pie.h.
 *
 *   struct pie_stage_params params;
 *   pie_stage_default_params(&params, 1000000000);                               // for a link of 1 Gbit/s
 *   struct pie_stage *stage = pie_stage_create("north", &params, SOCKET_ID_ANY); // NULL: rte_errno has the reason
 *   pie_stage_enqueue(stage, mbufs, count, rte_rdtsc());                         // on a receiving lcore
 *   count = pie_stage_dequeue(stage, mbufs, 32, rte_rdtsc());                    // on the sending lcore
 *   pie_stage_update(stage, rte_rdtsc());                                        // on a timer
 *   pie_stage_free(stage);
 *
 * DPDK's telemetry (dpdk-telemetry.py) lists the stages of a process, and sets their parameters
 * (stage_telemetry.h).
 *
 * `now` is rte_rdtsc() or rte_get_tsc_cycles(), in cycles of the TSC (rte_get_tsc_hz() per second).
 * It may differ between lcores: a `now` before the latest one counts as the latest one, and the
 * statistic `earlier` counts such calls. After one `now` far ahead, all later ones therefore count
 * as that one until the clock reaches it.
 *
 * PIE controls only the packets in the stage, not those in a card's descriptor ring. Dequeue no
 * faster than the link sends, by pie_stage_dequeue_bytes, or keep that ring short.
 *
 * Packets are Ethernet frames, and a packet's size is its pkt_len, without the frame check
 * sequence. A packet with a size outside 1 to 65535 bytes, as after segmentation offload, is
 * dropped (`oversized`). Marks are set in the outermost IP header, which may follow up to four VLAN
 * tags.
 *
 * Any number of threads may make calls at once, except create, free, and the calls for history and
 * records. The calls take one spin lock; while it is held, nothing waits or allocates memory. An
 * enqueue releases the lock after each 32 packets, a dequeue only at its end. A dequeue of an empty
 * stage, and an update that is not due, take no lock.
 *
 * A flight recorder (pie_flight.h) keeps the last `flight` arrivals, departures and updates. Any
 * lcore can write them with pie_stage_flight while the others continue. The result is an excerpt
 * (docs/FORMATS.md), which `pie audit` accepts:
 *
 *   if (pie_stage_flight_is_asked(stage))                                        // a packet waited longer than flight_wait
 *       pie_stage_flight(stage, write, file);
 *
 * With `events` above 0, one more thread follows the flight recorder (pie_follow.h) and writes the
 * whole history:
 *
 *   while ((size = pie_stage_history(stage, text, sizeof text)) != 0)            // on one lcore, again and again
 *       fwrite(text, 1, size, file);
 *
 * The tag of a packet is its number in the order of arrivals, and the caller is the lcore (65535
 * for a thread that is no lcore). With `flow`, the lower 32 bits of the tag are the lower bits of
 * that number, and the upper 32 bits are the number of the packet's flow (docs/FORMATS.md). Each
 * text begins with a clock record (CLOCK_REALTIME), for `pie explain --wall`.
 *
 * With `every` above 0 the stage adds its events up, also if it keeps none, and writes the records
 * of intervals:
 *
 *   while ((size = pie_stage_record(stage, false, text, sizeof text)) != 0)      // on one lcore, again and again
 *       fwrite(text, 1, size, file); */
#ifndef PIE_STAGE_H
#define PIE_STAGE_H

#include "pie_flight.h"
#include "pie_sorts.h"

#include <stdbool.h>
#include <stddef.h>
#include <stdint.h>

#ifdef __cplusplus
extern "C" {
#endif

struct rte_mbuf;
struct pie_stage;

/* Returns the number of a packet's flow. */
typedef uint32_t (*pie_stage_flow)(void *user, const struct rte_mbuf *mbuf);

#define PIE_STAGE_MAX_EVENTS (1u << 24) /* the most events of the flight recorder */
#define PIE_STAGE_FLIGHT (1u << 14)     /* the default number */

struct pie_stage_params {
    struct pie_opening opening; /* the controller's opening; `packets` is the queue's room, and the clock begins at 0 */
    bool ecn;                   /* mark ECN-capable packets; otherwise they are dropped like others */
    bool hands_back;            /* return dropped mbufs to the caller that enqueues them; otherwise the stage frees them */
    uint32_t flight;            /* the least number of events that the flight recorder keeps, up to 2^24, each of
                                   about 100 bytes with the memory for a copy; 0: its text is never requested */
    uint64_t flight_wait;       /* a packet that waited longer than this, in ns, requests the flight recorder's
                                   text; 0: none does */
    uint32_t events;            /* the least number of events that may be pending for the writer of the whole
                                   history, up to 2^24, each of about 50 bytes, in the flight recorder's memory; 0:
                                   no history is written */
    pie_stage_flow flow;        /* called by the lcore that enqueues, before it takes the lock, for each packet of a
                                   stage that keeps events; NULL: tags contain no flows */
    void *flow_user;
    uint64_t every;             /* the length of the intervals of pie_stage_record, 1 to 2^60 - 1 ns; 0: no records */
};

/* The statistics of a stage since it was created, and its present state. Each enqueued packet is counted once, as
 * queued (some of these are marked), early, bytes, full, oversized or refused. */
struct pie_stage_stats {
    uint64_t queued;         /* queued packets */
    uint64_t marked;         /* of these, packets marked */
    uint64_t early;          /* dropped by early drop */
    uint64_t bytes;          /* dropped because the queue would exceed limit_bytes */
    uint64_t full;           /* dropped because the queue has no room for another packet */
    uint64_t dropped_bytes;  /* bytes of these three kinds of drops */
    uint64_t oversized;      /* dropped because of a size outside 1 to 65535 bytes */
    uint64_t refused;        /* dropped because the controller refused the arrival: 0 in a correct program */
    uint64_t no_ip;          /* packets without an IP header, if the stage looked for one; they are never marked. It
                                reads headers while the probability is above 0, and a recording stage always */
    uint64_t shared;         /* packets that could be marked but share their header with others (reference count
                                above 1, a clone) and are never marked; only packets whose header was read are
                                counted */
    uint64_t departed;       /* dequeued packets */
    uint64_t departed_bytes; /* their bytes */
    uint64_t waited;         /* the sum of their waits in nanoseconds: the low 64 bits */
    uint64_t waited_high;    /* the upper 64 bits of that sum */
    uint64_t longest;        /* the longest of these waits, in nanoseconds */
    uint64_t waits[PIE_WAIT_SORTS]; /* departed packets in each bucket of waits (pie_sorts.h) */
    uint64_t updates;        /* updates made */
    uint64_t late;           /* of these, updates made more than t_update after they were due */
    uint64_t probs[PIE_PROB_SORTS]; /* updates in each bucket of the probability after them */
    uint64_t probs_sum;      /* the sum of these probabilities: the low 64 bits */
    uint64_t probs_high;     /* the upper 64 bits of that sum */
    uint64_t changes;        /* changes of the parameters */
    uint64_t earlier;        /* calls with packets whose `now` was before an earlier call's */
    uint64_t most;           /* the greatest number of packets in the queue */
    uint64_t lost;           /* events missing in the history, because it was written too slowly */
    uint64_t lost_periods;   /* intervals without a record, because they were written too slowly */

    uint64_t waiting;        /* packets in the queue */
    uint64_t waiting_bytes;  /* their bytes */
    uint64_t prob;           /* the probability, 0 to 10^12 */
    uint64_t delay;          /* the delay of the last update, in ns */
    uint64_t burst;          /* the burst allowance, in ns */
    uint64_t target;         /* the target in force, in ns */
};

/* Sets the default parameters for a link of `rate` bits per second: those of pie_default_opening,
 * except that the queue has room for limit_bytes of packets of 64 bytes, at most 65536 packets;
 * marks are on, dropped mbufs are freed, and the flight recorder keeps PIE_STAGE_FLIGHT events. */
void pie_stage_default_params(struct pie_stage_params *params, uint64_t rate);

/* Creates a stage in DPDK's memory on `socket`, which may be SOCKET_ID_ANY. `name` is the name of its rte_ring.
 * On an error returns NULL and sets rte_errno:
 *   EINVAL        a parameter is out of its range
 *   ENOMEM        no memory
 *   EEXIST        another ring has the name
 *   ENAMETOOLONG  the name is too long
 *   EIO           the system has no random bits */
struct pie_stage *pie_stage_create(const char *name, const struct pie_stage_params *params, int socket);

/* Frees a stage and its queued mbufs. NULL is accepted. */
void pie_stage_free(struct pie_stage *stage);

/* Enqueues a burst in order, after an update if one is due. Returns the number of queued packets. Reorders `mbufs`: the
 * queued packets come first, and belong to the stage now. The dropped packets follow. With hands_back they belong to
 * the caller, otherwise they are freed. */
uint32_t pie_stage_enqueue(struct pie_stage *stage, struct rte_mbuf **mbufs, uint32_t count, uint64_t now);

/* Dequeues up to `count` packets, oldest first. Returns their number. */
uint32_t pie_stage_dequeue(struct pie_stage *stage, struct rte_mbuf **mbufs, uint32_t count, uint64_t now);

/* Dequeues as pie_stage_dequeue, while this call has dequeued fewer than `bytes` bytes. The last packet may exceed the
 * limit. */
uint32_t pie_stage_dequeue_bytes(struct pie_stage *stage, struct rte_mbuf **mbufs, uint32_t count, uint64_t bytes, uint64_t now);

/* Makes an update if one is due. Returns true if it made one. Enqueuing and dequeuing make due updates too, so a timer
 * is needed only while there are no packets. */
bool pie_stage_update(struct pie_stage *stage, uint64_t now);

/* Sets new parameters while the stage runs, as pie_set_params of pie.h does, after an update if one
 * is due. History and flight recorder contain the change as an event. The queue's room for packets
 * is unchanged. Returns PIE_DONE, or PIE_BAD_PARAMS if a parameter is out of its range. */
uint32_t pie_stage_set_params(struct pie_stage *stage, const struct pie_params *params, uint64_t now);

/* Reads the parameters in force. */
void pie_stage_read_params(struct pie_stage *stage, struct pie_params *params);

/* Reads the statistics, all at one moment. */
void pie_stage_read(struct pie_stage *stage, struct pie_stage_stats *stats);

/* Writes the text of the flight recorder, as pie_flight_dump: at least the last `flight` events, if at most an eighth
 * of these arrived during the copy. Returns PIE_FLIGHT_NONE if the stage has no flight recorder. Call it from one
 * thread at a time. It releases the lock after each 256 queued packets, and does not hold it while it writes. */
int pie_stage_flight(struct pie_stage *stage, pie_flight_write write, void *user);

/* Returns true if a packet waited longer than flight_wait since the last call. */
bool pie_stage_flight_is_asked(struct pie_stage *stage);

/* Writes the history as text, in whole lines: the events since the last call, and first the opening. Returns the number
 * of bytes; 0 if there is no new event or `events` is 0. If it returns 0 after the last call of any other thread, the
 * history is complete. `room` is at least PIE_RECORD_ROOM, after a cut PIE_RESUME_ROOM. Call it from one thread at a
 * time. It takes no lock and delays no other call. If it is called too late, a line `lost,<count>` has the number of
 * missing events. An audit ends there; the next cut begins an excerpt. */
size_t pie_stage_history(struct pie_stage *stage, unsigned char *text, size_t room);

/* Cuts the history. pie_stage_history then writes the text up to this moment, returns 0 once, and writes a new excerpt
 * (docs/FORMATS.md). A gap stays in the text before the cut. Call it from the thread that writes the history. Returns
 * false and cuts nothing if `events` is 0, if nothing was written yet, or if the text before the last cut is not
 * complete. It releases the lock after each 256 queued packets, or after more if packets arrive as fast as they are
 * copied. */
bool pie_stage_history_cut(struct pie_stage *stage);

/* Writes the header row, or the record of the next complete interval, as `pie explain --every --csv --wall` does for
 * the history. Returns the number of bytes; 0 if no interval is complete or `every` is 0. If no other thread calls the
 * stage any more, `is_over` is true, and the last interval counts as complete. `room` is at least PIE_RESUME_ROOM. Call
 * it from one thread at a time. It delays other calls only once, for the header. Eight intervals may be pending; if it
 * is called too late, a line `lost,<count>` has the number of missing intervals. */
size_t pie_stage_record(struct pie_stage *stage, bool is_over, unsigned char *text, size_t room);

/* Converts cycles of the TSC to nanoseconds by the clock of the stage. The result is rounded down, and exact to
 * 10^-13. */
uint64_t pie_stage_nanoseconds(const struct pie_stage *stage, uint64_t cycles);

#ifdef __cplusplus
}
#endif

#endif
