/* The records that pie_watch.bpf.c writes to the ring buffer and that pie-watch reads from it, or from a compact copy. A record has at most 160 bytes.
 * An item of the ring has one record, or several ones of which each takes 160 bytes.
 * Times of the controller are in ticks of 64 ns, probabilities in units of 2^-56, as in the kernel's struct pie_vars.
 *
 * Every step of a queue has a number, from 0 without a gap. A record has the values after its step; the values before it are those of the record before. */
#ifndef WATCH_RECORD_H
#define WATCH_RECORD_H

#ifndef __VMLINUX__ /* (the program for BPF has its own types of these names) */
#include <stdint.h>
typedef uint8_t u8;
typedef uint16_t u16;
typedef uint32_t u32;
typedef uint64_t u64;
#endif

#define WATCH_FLOW_NONE 0xffffffffu
#define WATCH_EARLY_NONE 2 /* pie_drop_early was not called */

enum watch_kind { WATCH_PIE, WATCH_FQ_PIE };

enum watch_type {
    WATCH_QUEUE = 1, /* struct watch_queue: a queue has this number from now on; `seq` is the number of its first step, recorded or lost, after this record */
    WATCH_LOST,      /* struct watch_base: `counts` steps of the queue were not recorded; WATCH_RESUME follows */
    WATCH_INIT,      /* struct watch_whole: the queue was created; step 0 */
    WATCH_RESUME,    /* struct watch_whole: the queue before the next step; WATCH_FLOW and WATCH_WAIT follow */
    WATCH_FLOW,      /* struct watch_flow: a flow of the resumed queue */
    WATCH_WAIT,      /* struct watch_wait: a packet of the resumed queue, from the first to the last of each flow */
    WATCH_BASE,      /* struct watch_base: the values that the changes in later records refer to */
    WATCH_ENQUEUE,   /* struct watch_enqueue */
    WATCH_DEQUEUE,   /* struct watch_dequeue, without `at` unless WATCH_HAS_CLOCK */
    WATCH_TIMER,     /* struct watch_head: a round of fq_pie's timer begins with the flow */
    WATCH_CALC,      /* struct watch_calc; of fq_pie only if the calculation changed the flow's state */
    WATCH_CHANGE,    /* struct watch_whole */
    WATCH_RESET,     /* struct watch_whole */
    WATCH_DESTROY    /* struct watch_whole */
};

/* The bits of watch_head. */
enum {
    WATCH_ROOM = 1,      /* enqueue: the packet may be marked, and its network header lies in its first part */
    WATCH_EARLY = 6,     /* enqueue: two bits, the return value of pie_drop_early or WATCH_EARLY_NONE */
    WATCH_RANDOM = 24,   /* enqueue: two bits, the number of random words that were drawn */
    WATCH_READINGS = 7,  /* dequeue: three bits, the number of readings of the clock */
    WATCH_HAS_CLOCK = 8, /* dequeue: the record has `at`, since the rate estimator is on */
    WATCH_DROP = 16,     /* dequeue: a change of the limit dropped the packet */
    WATCH_ECN = 1,       /* whole: the parameters that are switches */
    WATCH_BYTEMODE = 2,
    WATCH_DQ_RATE = 4
};

/* Counters that an enqueue increased by 1; WATCH_COUNT_MAXQ: maxq is the number of packets before. */
enum {
    WATCH_COUNT_IN = 1,
    WATCH_COUNT_DROPPED = 2,
    WATCH_COUNT_OVERLIMIT = 4,
    WATCH_COUNT_MARK = 8,
    WATCH_COUNT_MAXQ = 16,
    WATCH_COUNT_OVERMEMORY = 32
};

struct watch_head {
    u64 ns; /* CLOCK_MONOTONIC when the record was written; 0: `enqueued` of an enqueue or `vars.dq_tstamp` of a dequeue, in ticks, has the moment */
    u32 seq;
    u32 flow; /* WATCH_FLOW_NONE for pie */
    u16 queue;
    u16 cpu;
    u8 type;
    u8 bits;
    u8 ret; /* enqueue: its return value, NET_XMIT_ in the lower and __NET_XMIT_ in the upper four bits */
    u8 counts;
};

/* struct pie_vars of the kernel. */
struct watch_vars {
    u64 qdelay, qdelay_old, burst_time, dq_tstamp, prob, accu_prob, dq_count;
    u32 avg_dq_rate, backlog_old;
};

/* struct pie_stats of the kernel. */
struct watch_stats {
    u32 packets_in, dropped, overlimit, ecn_mark, maxq;
};

struct watch_queue {
    struct watch_head head;
    u64 address; /* of the queue's parameters in the kernel */
    u32 kind, ifindex, handle, parent;
    u64 netns;
    char device[16];
};

/* The packets that the device returned, or at which the parent peeked, are counted by the queue again: `returned` is their number, and `returned_bytes`
 * the sum of their lengths. */

struct watch_base {
    struct watch_head head;
    struct watch_stats stats;
    u32 limit, mtu, memory, overmemory;
    u32 lost;
};

struct watch_whole {
    struct watch_head head;
    union {
        struct watch_vars vars;
        struct {
            u32 ecn_prob, flows, quantum, memory_limit, memory, overmemory, cursor, new_flows;
        } fq;
    };
    u64 target;
    u32 tupdate, alpha, beta;
    u32 limit, mtu;
    u32 qlen, backlog;
    struct watch_stats stats;
    u32 dropped_packets; /* change */
    union {
        u32 dropped_bytes; /* change */
        u32 kept_memory;   /* resume: fq_pie's memory that is not of its packets; a purge keeps it */
    };
    u32 returned_bytes;
    u16 returned, dropped_returned; /* change: the returned packets among the dropped ones */
};

struct watch_flow {
    struct watch_head head;
    struct watch_vars vars;
    u32 deficit, backlog, qlen;
    u32 list; /* 0: in no list; 1: of new flows; 2: of old flows; the records have the order of the lists */
};

struct watch_wait {
    struct watch_head head;
    u64 enqueued;
    u32 size, pkt_len;
    u32 memory;
    u32 is_peeked; /* the parent has peeked at this packet, or the device could not send it: it was dequeued, and is counted */
};

struct watch_enqueue {
    struct watch_head head;
    struct watch_vars vars;
    u32 size, pkt_len;
    u32 qlen_before, backlog_before, qlen, backlog;
    u32 decided_backlog; /* the argument of pie_drop_early */
    u32 hash, truesize, priority;
    u32 memory;
    u16 protocol, network; /* the protocol behind VLAN tags; the first two bytes of the network header, 0 if it was not read; in network byte order */
    u64 enqueued;
    u64 random;
    u32 returned_bytes;
    u16 returned, spare;
};

struct watch_dequeue {
    struct watch_head head;
    struct watch_vars vars;
    u32 size, pkt_len;
    u32 decided_backlog, qlen, backlog;
    u32 memory;
    u64 enqueued;
    u32 returned_bytes;
    u16 returned, spare;
    u64 at[3]; /* ns */
};

struct watch_calc {
    struct watch_head head;
    struct watch_vars vars;
    u32 decided_backlog, qlen, backlog, returned_bytes;
    u16 returned, spare[3];
};

#define WATCH_MOST 160
_Static_assert(sizeof(struct watch_enqueue) == WATCH_MOST && sizeof(struct watch_whole) == WATCH_MOST,
               "a record has at most 160 bytes");
_Static_assert(sizeof(struct watch_head) == 24 && sizeof(struct watch_vars) == 64, "the records have no gaps");

#endif
