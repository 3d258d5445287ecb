/* The sums of a queue that watch_sums.bpf.c keeps in the kernel, and the events that it writes to its ring. watch_totals.c reads both.
 *
 * Delays of the kernel are in ticks of 64 ns, probabilities in units of 2^-56. */
#ifndef WATCH_SUMS_H
#define WATCH_SUMS_H

#include "watch_record.h"

#ifndef __VMLINUX__
#include <stdbool.h>
#endif

#define SUMS_QUEUES 262144 /* queues at a time */
#define SUMS_WAITS 13      /* buckets of waits: the bound of bucket n is 250 us << n, and the last one has no bound */
#define SUMS_FIRST 250000  /* ns */
#define SUMS_RECENT 12     /* events of a queue that `pie-watch top` keeps */

/* Counters of the kernel, in 64 bits. `early` includes packets that were dropped because they cannot be marked. */
struct sums_counts {
    u64 arrived, early, over, marked;
    u64 departed, departed_bytes;
    u64 waited; /* the sum of waits, in ticks */
};

/* A queue. The kernel's counters are those of the last reading. */
struct sums_queue {
    u64 sch;  /* the address of the kernel's struct Qdisc; 0: the element is not yet filled */
    u64 vars, stats; /* the addresses of its struct pie_vars (0: fq_pie, which has one for each flow) and struct pie_stats */
    u64 born; /* ns since boot: the queue was created or first seen then */
    u32 kind, ifindex, handle, parent, netns, number;
    char device[16];
    struct sums_counts counts;
    u64 waits[SUMS_WAITS]; /* departed packets */
    u64 longest; /* ticks: the longest wait since the last reading */
    u64 probability, delay; /* of fq_pie the greatest of its departures since the last reading, or since the one before if there was none */
    u64 target;
    u32 packets, bytes, limit;
    u32 lost; /* events without a place in the ring */
    u32 slice; /* the reading to which `longest`, `probability` and `delay` belong */
    u32 last_in, last_dropped, last_over, last_marked; /* the kernel's counters that `counts` includes */
    u32 event_marked; /* the kernel's counter at the last packet */
};

enum sums_type { SUMS_CREATED = 1, SUMS_REMOVED, SUMS_DROPPED, SUMS_MARKED };

enum sums_cause { SUMS_EARLY, SUMS_OVER };

/* An event of a queue. SUMS_CREATED and SUMS_REMOVED have `queue`. The others have `packet`, and SUMS_PACKET bytes. */
struct sums_event {
    u64 ns;
    u64 key; /* the address of the queue's parameters */
    u32 number;
    u16 cpu;
    u8 type, cause;
    union {
        struct sums_queue queue;
        struct {
            u64 probability, delay, burst, target;
            u32 size, pkt_len, packets, bytes, limit;
            u32 flow, hash, priority, mark; /* `flow`: WATCH_FLOW_NONE for pie */
            u32 arrived, dropped, over, marked; /* the kernel's counters after the packet */
            u16 protocol; /* in network byte order, as the ports */
            u16 ports[2];
            u8 transport, tos; /* protocol of the transport layer; tos or traffic class */
            u8 has_header, has_ports, has_ecn, spare[3];
            u8 addresses[32]; /* source and destination, of 4 or 16 bytes each */
        } packet;
    };
};

#define SUMS_PACKET (__builtin_offsetof(struct sums_event, packet) + sizeof(((struct sums_event *)0)->packet))

#endif
