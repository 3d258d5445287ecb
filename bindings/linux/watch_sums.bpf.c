// SPDX-License-Identifier: GPL-2.0 OR MIT
/* Sums the waits of the kernel's sch_pie and sch_fq_pie for `pie-watch serve` and `top`, and writes lost and marked packets for `--drops` and `top`. No other
 * event leaves the kernel. watch_totals.c loads these programs; watch_sums.h describes the sums.
 *
 * The kernel counts arrivals, drops and marks itself. `sums_read` copies these counters at a reading, so that an arrival costs nothing. */
#include "kernel_structs.h"

#include <bpf/bpf_core_read.h>
#include <bpf/bpf_helpers.h>
#include <bpf/bpf_tracing.h>

#include "watch_sums.h"

#define MARKS 4096 /* a power of two */
#ifdef __bpf__
#define COPY_HALF(to, from) asm volatile("%0 = %1" : "=w"(to) : "w"(from))
#else
#define COPY_HALF(to, from) ((to) = (from)) /* (tests/libraries/watch_sums.c) */
#endif

char LICENSE[] SEC("license") = "Dual MIT/GPL";

/* The program in user space sets these before it loads the programs. */
const volatile char wanted_device[16]; /* empty: each */
const volatile u32 wanted_handle;      /* 0: each */
const volatile u32 wanted_netns;       /* 0: each */
const volatile bool has_addresses;     /* events have addresses and ports */

bool is_on;         /* the program in user space sets it after the programs are attached */
u32 queues_seen;    /* the number of the next queue */
u32 queues_missed;  /* no place in the map */
u32 lost_elsewhere; /* events of queues that are gone, without a place in the ring */
u32 slice;          /* the number of readings */
struct sums_counts gone; /* of removed queues */
u64 gone_waits[SUMS_WAITS];
u32 gone_number;
u64 marks[MARKS]; /* a part of a queue's key, and its counter of marks at the last packet */

struct {
    __uint(type, BPF_MAP_TYPE_HASH);
    __uint(max_entries, SUMS_QUEUES);
    __uint(map_flags, BPF_F_NO_PREALLOC);
    __type(key, u64); /* the address of the queue's parameters */
    __type(value, struct sums_queue);
} sums SEC(".maps");

struct {
    __uint(type, BPF_MAP_TYPE_RINGBUF);
    __uint(max_entries, 1 << 22);
} events SEC(".maps");

#define OFFSET(type, field) bpf_core_field_offset(struct type, field)
#define PIE_OF(sch) ((struct pie_sched_data *)((void *)(sch) + OFFSET(Qdisc, privdata)))
#define FQ_PIE_OF(sch) ((struct fq_pie_sched_data *)((void *)(sch) + OFFSET(Qdisc, privdata)))
#define PIE_KEY(sch) ((u64)(sch) + OFFSET(Qdisc, privdata) + OFFSET(pie_sched_data, params))
#define FQ_PIE_KEY(sch) ((u64)(sch) + OFFSET(Qdisc, privdata) + OFFSET(fq_pie_sched_data, p_params))
#define READ(to, from, type, field) bpf_probe_read_kernel(&(to), sizeof(to), (void *)((from) + OFFSET(type, field)))

#define IP 0x0008 /* in network byte order */
#define IPV6 0xdd86
#define TCP 6
#define UDP 17
#define NOW bpf_ktime_get_ns()

static const struct sums_queue empty;

/* ---- the life of a queue */

/* Reads the kernel's counters of a queue, and adds their increase to its sums. Types of fq_pie are not used here, since its module may come later. */
static __always_inline void read_state(struct sums_queue *queue, u64 key) {
    u32 in = 0, dropped = 0, over = 0, marked = 0;
    if (queue->vars != 0) {
        READ(queue->probability, queue->vars, pie_vars, prob);
        READ(queue->delay, queue->vars, pie_vars, qdelay);
    }
    if (queue->slice != slice) /* no packet departed since the last reading */
        queue->longest = 0;
    READ(in, queue->stats, pie_stats, packets_in);
    READ(dropped, queue->stats, pie_stats, dropped);
    READ(over, queue->stats, pie_stats, overlimit);
    READ(marked, queue->stats, pie_stats, ecn_mark);
    READ(queue->target, key, pie_params, target);
    READ(queue->limit, queue->sch, Qdisc, limit);
    READ(queue->packets, queue->sch, Qdisc, q.qlen);
    READ(queue->bytes, queue->sch, Qdisc, qstats.backlog);
    queue->counts.arrived += (u32)(in - queue->last_in) + (u64)(u32)(dropped - queue->last_dropped);
    queue->counts.over += (u32)(over - queue->last_over);
    queue->counts.early += (u32)(dropped - over - queue->last_dropped + queue->last_over);
    queue->counts.marked += (u32)(marked - queue->last_marked);
    queue->last_in = in;
    queue->last_dropped = dropped;
    queue->last_over = over;
    queue->last_marked = marked;
}

static __always_inline bool is_wanted(struct Qdisc *sch) {
    struct net_device *dev = sch->dev_queue->dev;
    char name[16] = {};
    if ((wanted_handle != 0 && sch->handle != wanted_handle) || (wanted_netns != 0 && dev->nd_net.net->ns.inum != wanted_netns))
        return false;
    if (wanted_device[0] == '\0')
        return true;
    bpf_probe_read_kernel_str(name, sizeof name, &dev->name);
    for (u32 i = 0; i < sizeof name; i++) {
        if (name[i] != wanted_device[i])
            return false;
    }
    return true;
}

/* Returns the lower half of a key. The verifier allows no arithmetic of an address, but this copy of its lower half. */
static __always_inline u32 half_of(u64 key) {
    u32 half;
    COPY_HALF(half, (u32)key);
    return half;
}

/* Returns the place of a queue in `marks`. */
static __always_inline u64 *mark_of(u32 half) {
    return &marks[half * 0x9e3779b1u >> 20 & (MARKS - 1)];
}

/* Begins an event. Returns NULL if the ring is full. */
static __always_inline struct sums_event *begin_event(u64 key, struct sums_queue *queue, enum sums_type type, u64 bytes) {
    struct sums_event *event = bpf_ringbuf_reserve(&events, bytes, 0);
    if (event == NULL) {
        queue->lost++;
        return NULL;
    }
    event->ns = NOW;
    event->key = key;
    event->number = queue->number;
    event->cpu = bpf_get_smp_processor_id();
    event->type = type;
    event->cause = 0;
    return event;
}

static __always_inline void end_event(struct sums_event *event) {
    bpf_ringbuf_submit(event, BPF_RB_NO_WAKEUP);
}

/* Writes that a queue was created or removed. */
static __always_inline void tell_life(u64 key, struct sums_queue *queue, enum sums_type type) {
    struct sums_event *event = begin_event(key, queue, type, sizeof *event);
    if (event == NULL)
        return;
    __builtin_memcpy(&event->queue, queue, sizeof event->queue);
    end_event(event);
}

/* Adds a queue, if it is wanted and not yet there. Returns NULL if it is not wanted, or the map is full. */
static __always_inline struct sums_queue *add(struct Qdisc *sch, u64 key, enum watch_kind kind, u64 vars, u64 stats) {
    struct sums_queue *queue;
    if (!is_on || !is_wanted(sch))
        return NULL;
    if (bpf_map_update_elem(&sums, &key, &empty, BPF_NOEXIST) != 0) {
        queue = bpf_map_lookup_elem(&sums, &key);
        if (queue == NULL)
            __sync_fetch_and_add(&queues_missed, 1);
        return queue;
    }
    queue = bpf_map_lookup_elem(&sums, &key);
    if (queue == NULL)
        return NULL;
    queue->born = NOW;
    queue->kind = kind;
    queue->ifindex = sch->dev_queue->dev->ifindex;
    queue->handle = sch->handle;
    queue->parent = sch->parent;
    queue->netns = sch->dev_queue->dev->nd_net.net->ns.inum;
    queue->number = __sync_fetch_and_add(&queues_seen, 1);
    queue->vars = vars;
    queue->stats = stats;
    READ(queue->event_marked, stats, pie_stats, ecn_mark);
    bpf_probe_read_kernel_str(queue->device, sizeof queue->device, &sch->dev_queue->dev->name);
    *mark_of(half_of(key)) = 0; /* of an earlier queue at this address */
    queue->sch = (u64)sch;
    read_state(queue, key);
    tell_life(key, queue, SUMS_CREATED);
    return queue;
}

/* Removes a queue, whose sums are added to those of removed queues. */
static __always_inline int leave(u64 key) {
    struct sums_queue *queue = bpf_map_lookup_elem(&sums, &key);
    if (queue == NULL)
        return 0;
    read_state(queue, key);
    tell_life(key, queue, SUMS_REMOVED);
    __sync_fetch_and_add(&gone_number, 1);
    __sync_fetch_and_add(&gone.arrived, queue->counts.arrived);
    __sync_fetch_and_add(&gone.early, queue->counts.early);
    __sync_fetch_and_add(&gone.over, queue->counts.over);
    __sync_fetch_and_add(&gone.marked, queue->counts.marked);
    __sync_fetch_and_add(&gone.departed, queue->counts.departed);
    __sync_fetch_and_add(&gone.departed_bytes, queue->counts.departed_bytes);
    __sync_fetch_and_add(&gone.waited, queue->counts.waited);
    for (u32 i = 0; i < SUMS_WAITS; i++)
        __sync_fetch_and_add(&gone_waits[i], queue->waits[i]);
    __sync_fetch_and_add(&lost_elsewhere, queue->lost);
    bpf_map_delete_elem(&sums, &key);
    return 0;
}

SEC("fexit/pie_init")
int BPF_PROG(pie_begins, struct Qdisc *sch, void *options, void *answer, int ret) {
    if (ret == 0)
        add(sch, PIE_KEY(sch), WATCH_PIE, (u64)PIE_OF(sch) + OFFSET(pie_sched_data, vars), (u64)PIE_OF(sch) + OFFSET(pie_sched_data, stats));
    return 0;
}

/* The program in user space lets the kernel dump its queues, so that those that exist already are found. */
SEC("fentry/pie_dump")
int BPF_PROG(pie_is_there, struct Qdisc *sch) {
    add(sch, PIE_KEY(sch), WATCH_PIE, (u64)PIE_OF(sch) + OFFSET(pie_sched_data, vars), (u64)PIE_OF(sch) + OFFSET(pie_sched_data, stats));
    return 0;
}

SEC("fentry/pie_destroy")
int BPF_PROG(pie_leaves, struct Qdisc *sch) {
    return leave(PIE_KEY(sch));
}

SEC("fexit/fq_pie_init")
int BPF_PROG(fq_pie_begins, struct Qdisc *sch, void *options, void *answer, int ret) {
    if (ret == 0)
        add(sch, FQ_PIE_KEY(sch), WATCH_FQ_PIE, 0, (u64)FQ_PIE_OF(sch) + OFFSET(fq_pie_sched_data, stats));
    return 0;
}

SEC("fentry/fq_pie_dump")
int BPF_PROG(fq_pie_is_there, struct Qdisc *sch) {
    add(sch, FQ_PIE_KEY(sch), WATCH_FQ_PIE, 0, (u64)FQ_PIE_OF(sch) + OFFSET(fq_pie_sched_data, stats));
    return 0;
}

SEC("fentry/fq_pie_destroy")
int BPF_PROG(fq_pie_leaves, struct Qdisc *sch) {
    return leave(FQ_PIE_KEY(sch));
}

/* ---- departures */

/* Returns the bucket of a wait. Short waits need few instructions. */
static __always_inline u32 bucket_of(u64 ticks) {
    u64 ns = ticks << 6;
#pragma clang loop unroll(full)
    for (u32 i = 0; i < SUMS_WAITS - 1; i++) {
        if (ns <= (u64)SUMS_FIRST << i)
            return i;
    }
    return SUMS_WAITS - 1;
}

/* Returns the moment at which the kernel enqueued a packet. (With the address as a number, the compiler knows no alignment, and would load it in parts.) */
static __always_inline u64 enqueued_at(struct sk_buff *skb) {
    return *(u64 *)((void *)skb->cb + OFFSET(qdisc_skb_cb, data) + OFFSET(pie_skb_cb, enqueue_time));
}

/* With the rate estimator the kernel keeps no time of the enqueue, so that the wait is the estimated delay. */
SEC("fexit/pie_process_dequeue")
int BPF_PROG(sums_departure, struct sk_buff *skb, struct pie_params *params, struct pie_vars *vars) {
    u64 key = (u64)params, wait;
    struct sums_queue *queue = bpf_map_lookup_elem(&sums, &key);
    u32 bucket;
    if (queue == NULL)
        return 0;
    wait = params->dq_rate_estimator ? vars->qdelay : vars->dq_tstamp - enqueued_at(skb);
    queue->counts.departed++;
    queue->counts.departed_bytes += ((struct qdisc_skb_cb *)skb->cb)->pkt_len;
    queue->counts.waited += wait;
    bucket = bucket_of(wait);
    if (bucket < SUMS_WAITS)
        queue->waits[bucket]++;
    if (queue->slice != slice) {
        queue->slice = slice;
        queue->longest = wait;
        if (queue->kind == WATCH_FQ_PIE)
            queue->probability = queue->delay = 0;
    } else if (wait > queue->longest) {
        queue->longest = wait;
    }
    if (queue->kind == WATCH_FQ_PIE) {
        u64 probability = vars->prob, delay = vars->qdelay;
        if (probability > queue->probability)
            queue->probability = probability;
        if (delay > queue->delay)
            queue->delay = delay;
    }
    return 0;
}

/* ---- lost and marked packets */

/* Returns the flow that fq_pie chose for a packet, as fq_pie_classify does. */
static __always_inline u32 flow_of(struct sk_buff *skb, struct Qdisc *sch) {
    u32 minor = skb->priority & 0xffff, flows = FQ_PIE_OF(sch)->flows_cnt;
    if ((skb->priority & 0xffff0000) == sch->handle && minor > 0 && minor <= flows)
        return minor - 1;
    return (u32)((u64)skb->hash * flows >> 32);
}

/* Reads the addresses, the protocol and the ports of a packet. */
static __always_inline void read_packet(struct sums_event *event, struct sk_buff *skb) {
    u8 header[40] = {};
    u64 at = (u64)skb->head + skb->network_header;
    u32 size = 0, fragment = 0;
    event->packet.protocol = skb->protocol;
    event->packet.has_header = 0;
    event->packet.has_ports = 0;
    event->packet.transport = event->packet.tos = 0;
    event->packet.ports[0] = event->packet.ports[1] = 0;
    __builtin_memset(event->packet.addresses, 0, sizeof event->packet.addresses);
    if (bpf_probe_read_kernel(header, 20, (void *)at) != 0)
        return;
    if (header[0] >> 4 == 4) {
        size = (header[0] & 15) * 4;
        event->packet.tos = header[1];
        event->packet.transport = header[9];
        fragment = (header[6] & 31) | header[7];
        __builtin_memcpy(event->packet.addresses, header + 12, 8);
    } else if (header[0] >> 4 == 6 && bpf_probe_read_kernel(header, 40, (void *)at) == 0) {
        size = 40;
        event->packet.tos = (header[0] & 15) << 4 | header[1] >> 4;
        event->packet.transport = header[6];
        __builtin_memcpy(event->packet.addresses, header + 8, 32);
    } else {
        return;
    }
    event->packet.has_header = header[0] >> 4;
    if (!has_addresses)
        __builtin_memset(event->packet.addresses, 0, sizeof event->packet.addresses);
    else if (fragment == 0 && (event->packet.transport == TCP || event->packet.transport == UDP))
        event->packet.has_ports = bpf_probe_read_kernel(event->packet.ports, sizeof event->packet.ports, (void *)(at + size)) == 0;
}

/* Writes an event of a packet. A packet is dropped by the limit exactly if the queue is full, before it and after it. */
static __always_inline void tell_packet(u64 key, struct sums_queue *queue, struct sk_buff *skb, struct Qdisc *sch, enum watch_kind kind, bool is_drop) {
    struct sums_event *event = begin_event(key, queue, is_drop ? SUMS_DROPPED : SUMS_MARKED, SUMS_PACKET);
    struct pie_vars vars = {};
    if (event == NULL)
        return;
    event->packet.packets = sch->q.qlen;
    event->packet.bytes = sch->qstats.backlog;
    event->packet.limit = sch->limit;
    event->cause = is_drop && event->packet.packets >= event->packet.limit ? SUMS_OVER : SUMS_EARLY;
    event->packet.size = skb->len;
    event->packet.pkt_len = ((struct qdisc_skb_cb *)skb->cb)->pkt_len;
    event->packet.hash = skb->hash;
    event->packet.priority = skb->priority;
    event->packet.mark = skb->mark;
    event->packet.flow = WATCH_FLOW_NONE;
    if (kind == WATCH_PIE) {
        bpf_probe_read_kernel(&vars, sizeof vars, &PIE_OF(sch)->vars);
        event->packet.target = PIE_OF(sch)->params.target;
        event->packet.has_ecn = PIE_OF(sch)->params.ecn;
        event->packet.arrived = PIE_OF(sch)->stats.packets_in;
        event->packet.dropped = PIE_OF(sch)->stats.dropped;
        event->packet.over = PIE_OF(sch)->stats.overlimit;
        event->packet.marked = PIE_OF(sch)->stats.ecn_mark;
    } else {
        u32 flow = flow_of(skb, sch);
        event->packet.flow = flow;
        if (flow < FQ_PIE_OF(sch)->flows_cnt)
            bpf_probe_read_kernel(&vars, sizeof vars,
                                  (void *)((u64)FQ_PIE_OF(sch)->flows + (u64)flow * bpf_core_type_size(struct fq_pie_flow) + OFFSET(fq_pie_flow, vars)));
        event->packet.target = FQ_PIE_OF(sch)->p_params.target;
        event->packet.has_ecn = FQ_PIE_OF(sch)->p_params.ecn;
        event->packet.arrived = FQ_PIE_OF(sch)->stats.packets_in;
        event->packet.dropped = FQ_PIE_OF(sch)->stats.dropped;
        event->packet.over = FQ_PIE_OF(sch)->stats.overlimit;
        event->packet.marked = FQ_PIE_OF(sch)->stats.ecn_mark;
    }
    event->packet.probability = vars.prob;
    event->packet.delay = vars.qdelay;
    event->packet.burst = vars.burst_time;
    read_packet(event, skb);
    end_event(event);
}

/* Returns false if the queue's counter of marks is the one of its last packet, as far as `marks` has it. A search in the map would need ten times the
 * instructions. */
static __always_inline bool may_be_marked(u64 key, u32 marked) {
    u32 half = half_of(key);
    u64 last = (u64)half << 32 | marked;
    u64 *at = mark_of(half);
    if (*at == last)
        return false;
    *at = last;
    return true;
}

SEC("fexit/pie_qdisc_enqueue")
int BPF_PROG(pie_arrival, struct sk_buff *skb, struct Qdisc *sch, struct sk_buff **to_free, int ret) {
    struct sums_queue *queue;
    u64 key = PIE_KEY(sch);
    if (ret == 0 && (!PIE_OF(sch)->params.ecn || !may_be_marked(key, PIE_OF(sch)->stats.ecn_mark)))
        return 0;
    queue = bpf_map_lookup_elem(&sums, &key);
    if (queue == NULL)
        return 0;
    if (ret != 0) {
        tell_packet(key, queue, skb, sch, WATCH_PIE, true);
    } else if (PIE_OF(sch)->stats.ecn_mark != queue->event_marked) {
        queue->event_marked = PIE_OF(sch)->stats.ecn_mark;
        tell_packet(key, queue, skb, sch, WATCH_PIE, false);
    }
    return 0;
}

SEC("fexit/fq_pie_qdisc_enqueue")
int BPF_PROG(fq_pie_arrival, struct sk_buff *skb, struct Qdisc *sch, struct sk_buff **to_free, int ret) {
    struct sums_queue *queue;
    u64 key = FQ_PIE_KEY(sch);
    if (ret == 0 && (!FQ_PIE_OF(sch)->p_params.ecn || !may_be_marked(key, FQ_PIE_OF(sch)->stats.ecn_mark)))
        return 0;
    queue = bpf_map_lookup_elem(&sums, &key);
    if (queue == NULL)
        return 0;
    if (ret != 0) {
        tell_packet(key, queue, skb, sch, WATCH_FQ_PIE, true);
    } else if (FQ_PIE_OF(sch)->stats.ecn_mark != queue->event_marked) {
        queue->event_marked = FQ_PIE_OF(sch)->stats.ecn_mark;
        tell_packet(key, queue, skb, sch, WATCH_FQ_PIE, false);
    }
    return 0;
}

/* ---- readings */

/* Writes a queue, with its present state, to the file that the program in user space reads. */
SEC("iter/bpf_map_elem")
int sums_read(struct bpf_iter__bpf_map_elem *context) {
    struct sums_queue *queue = context->value;
    u64 *key = context->key;
    if (key == NULL || queue == NULL || queue->sch == 0)
        return 0;
    read_state(queue, *key);
    bpf_seq_write(context->meta->seq, queue, sizeof *queue);
    return 0;
}
