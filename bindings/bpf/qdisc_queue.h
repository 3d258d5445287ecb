/* The data that the BPF programs of pie_qdisc.bpf.c and the program pie-qdisc share. */
#ifndef QDISC_QUEUE_H
#define QDISC_QUEUE_H

#include "pie.h"

#define QDISC_QUEUES 64     /* queues at a time */
#define QDISC_PACKETS 8192  /* places for packets of each queue, a power of two */
#define QDISC_LIMIT 4096    /* the greatest limit: a snapshot's packets keep their places while as many packets arrive */
#define QDISC_MOST_DUE 2048 /* the most updates that one packet catches up */
#define QDISC_FQS 8         /* queues with flows at a time, in the first places of the map `queues` */
#define QDISC_FLOWS 1024    /* the greatest number of flows of a queue */

/* The callers of the events. */
enum { QDISC_ENQUEUE = 1, QDISC_DEQUEUE = 2, QDISC_DUE = 3, QDISC_RESET = 4, QDISC_CHANGE = 5 };

/* The use of a place in the map `queues`. */
enum {
    QDISC_FREE = 0,
    QDISC_PREPARED = 1, /* pie-qdisc has written the configuration of the queue that it adds next */
    QDISC_USED = 2
};

/* A shaper. */
struct qdisc_shaper {
    uint64_t rate;    /* in bits per second; 0: no shaper */
    uint64_t cost;    /* the time of a byte at this rate, in units of 2^-20 ns */
    int64_t overhead; /* bytes that are added to each packet */
};

/* The configuration of a queue, which pie-qdisc writes. If `changes` differs from the queue's `changed`, the next packet applies `params` and
 * `shaper`. If `snapshots` differs from the queue's `snapshot`, the next packet begins an excerpt in the ring buffer. */
struct qdisc_config {
    uint64_t use;
    uint64_t netns; /* a prepared place is for this device and parent alone */
    uint32_t ifindex, parent;
    struct pie_opening opening;
    struct pie_params params;
    struct qdisc_shaper shaper;
    uint64_t changes;
    uint64_t snapshots;
    uint32_t flows;   /* of a queue with flows; otherwise 0 */
    uint32_t quantum; /* the bytes that a flow may send in a round */
};

/* A queue or a flow. Its programs alone write it, under the lock of its root queue discipline. A queue with flows uses only the numbers of packets, bytes and
 * places, for all flows together, and the shaper. */
struct qdisc_queue {
    struct qdisc_config config;
    struct pie_state pie;
    struct pie_event event; /* of the present call */
    struct pie_stats stats;
    uint64_t count;         /* events since the opening */
    uint64_t head, tail;    /* the numbers of the packets that departed, and that were queued */
    uint64_t bytes;         /* in the queue */
    uint64_t next;          /* the moment from which the shaper lets the next packet depart */
    struct qdisc_shaper shaper;
    uint64_t changed, snapshot;
    uint64_t refused;       /* calls that were refused: 0 */
    uint64_t unread;        /* events without a reader */
    uint64_t lost;          /* events for which the reader's ring buffer had no room */
    uint64_t is_skipping;   /* events are not stored until a snapshot is */
    uint64_t random[4];
    uint64_t handle;
    uint32_t flow;          /* the number of a flow in its queue; otherwise 0 */
    uint32_t first;         /* the place of a flow's first packet */
    uint64_t taken;         /* the number of places that the flows of the queue took before this call */
};

/* A flow. Its packets are linked by `next` of their places. */
struct qdisc_flow {
    struct qdisc_queue queue; /* `config` is a copy of that of the queue */
    uint64_t opened;          /* the opening of the queue in which the flow was opened */
    int64_t deficit;          /* the bytes that the flow may send in this round */
    uint32_t last;            /* the place of its last packet */
    uint32_t following;       /* 1 + the number of the next flow in the list of this one, or 0 */
    uint64_t is_listed;       /* the flow is in a list */
};

/* A list of flows: 1 + the number of the first and of the last one; 0, 0 if there is none. */
struct qdisc_list {
    uint32_t first, last;
};

/* The flows of a queue, as in sch_fq_pie: those that have got packets since they were empty are new ones for one round. */
struct qdisc_fq {
    struct qdisc_list new, old;
    uint64_t opened;       /* the number of openings */
    uint64_t taken, given; /* the number of places that were taken and given back. Between two openings they are equal */
    uint64_t over_limit;   /* packets that were dropped because the queue was full, before a flow received them */
    uint64_t moves;        /* flows that became old ones */
    uint32_t perturbation; /* of the hash */
    uint32_t cursor;       /* of a reset */
};

/* A queued packet. */
struct qdisc_place {
    uint64_t tag;
    uint64_t since; /* the state's moment after its arrival */
    uint32_t size;
    uint32_t next;  /* the place of the flow's next packet */
};

/* The messages of a ring buffer. */
enum { QDISC_EVENT = 1, QDISC_PARAMS = 2, QDISC_SNAPSHOT = 3, QDISC_END = 4 };

struct qdisc_message {
    uint32_t kind, flow;
    struct pie_event event;
};

struct qdisc_new_params {
    struct qdisc_message message;
    struct pie_params params;
};

/* The queue or the flow between two events. The packets of a queue are in their places from `head` on, and those of a flow from `first` on. */
struct qdisc_snapshot {
    uint32_t kind, flow;
    uint64_t snapshot; /* the request */
    uint64_t lost;
    uint64_t count, head, tail, bytes, first, taken;
    struct pie_opening opening;
    struct pie_state pie;
    struct pie_stats stats;
};

#endif
