/* The place of a queue in the table of pie_watch.bpf.c: what was recorded of the queue, and the scratch memory of its step. */
#ifndef WATCH_QUEUE_H
#define WATCH_QUEUE_H

#include "watch_record.h"

#ifndef __VMLINUX__
#include <stdbool.h>
#endif

#define DRAWS 16 /* random words, or readings of the clock, that are kept for each processor */

#define WATCH_HELD 8      /* records that a queue holds at most, a power of two */
#define WATCH_PLACES 2048 /* of the table, a power of two */

/* Values of a key that is no address. */
enum { NO_QUEUE, FREED, TAKEN };

struct queue {
    u64 key; /* the address of the queue's parameters */
    u32 place, segment; /* its place in the table; the segment of the output in which it was resumed */
    u64 sch, flows;
    u64 pointer;  /* scratch memory for a pointer that becomes a number */
    u64 changing; /* the task that changes the parameters, or 0 */
    u32 seq, lost;
    u32 own;      /* the waiting packets, without those that were returned, after the last step */
    u32 dropped;  /* the departures of the change in progress */
    u32 is_calculating, is_resetting;
    u64 returned_first;                  /* the returned packets that were summed up last: the first one, */
    u32 returned_packets, returned_sum;  /* their number and the sum of their lengths */
    u64 resumed;        /* the moment at which it was resumed last */
    u32 waiting_memory; /* of the packets, while the queue is resumed */
    u32 ifindex, handle, parent, netns;
    char device[16];
    u32 held, steps; /* the records in `records`, and how many of them are steps */
    u16 number;
    u8 kind;
    bool is_named;  /* WATCH_QUEUE was written */
    bool is_broken; /* the ring was full: steps are lost until the queue is resumed */
    bool is_due;    /* the program in user space sets it: the queue is resumed once, if the ring has a place for it */
    bool is_gone;   /* destroyed, and `lost` was not written */
    bool is_round;  /* fq_pie's timer runs, and calculated nothing yet */
    bool is_enqueue, is_dequeue; /* a beginning was seen */
    bool is_told;   /* WATCH_CHANGE was written before the departures of the change in progress */
    u32 limit, params_limit, mtu, memory, overmemory; /* of the last record that has them */
    struct watch_stats stats;
    /* the enqueue in progress, before it */
    u32 qlen, backlog, draws, flow, decided_backlog;
    u32 returned, returned_bytes;
    u16 protocol, network;
    u8 room, early;
    bool has_header;
    u32 readings;          /* the dequeue in progress */
    u64 stack;             /* an address of the stack at the beginning of the enqueue or dequeue in progress */
    u64 least_word, least_reading; /* the distance on the stack of its calls from there; 0 before the first one */
    u64 values[DRAWS], distances[DRAWS]; /* of these calls */
    struct watch_vars vars; /* fq_pie's flow before a calculation */
    struct {
        u64 words[WATCH_MOST / sizeof(u64)];
    } records[WATCH_HELD]; /* that are not yet written to the ring */
};

#endif
