// SPDX-License-Identifier: GPL-2.0 OR MIT
/* A queue discipline for Linux 6.16 and later whose decisions are the proved calls of pie.h (dist/bpf/pie_c.ll). pie_qdisc.c loads it and adds queues.
 *
 * The kernel calls the operations of a queue under the lock of its root queue discipline. A queue is a place of the map `queues`, whose number is in the
 * field `limit` of its struct Qdisc, plus 1: 0 is a queue without a place. The kernel does not use this field. Its packets are in the map `packets`.
 * fq_qdisc.bpf.h has the queue with flows. */
#include "kernel_types.h"

#include <stdbool.h>

#include <bpf/bpf_helpers.h>
#include <bpf/bpf_tracing.h>

#include "division.h"
#include "pie_text.h"
#include "qdisc_queue.h"

#define NONNULL __attribute__((btf_decl_tag("arg:nonnull")))
#define KPTR __attribute__((btf_type_tag("kptr")))
#define GLOBAL __attribute__((__noinline__))
#define DEFAULT_QUANTUM 1514

char LICENSE[] SEC("license") = "Dual MIT/GPL";

extern void bpf_qdisc_skb_drop(struct sk_buff *skb, struct bpf_sk_buff_ptr *to_free) __ksym;
extern void bpf_qdisc_bstats_update(struct Qdisc *sch, const struct sk_buff *skb) __ksym;
extern void bpf_qdisc_watchdog_schedule(struct Qdisc *sch, __u64 expire, __u64 delta_ns) __ksym;
extern __u32 bpf_skb_get_hash(struct sk_buff *skb) __ksym;
extern void bpf_kfree_skb(struct sk_buff *skb) __ksym;
extern int bpf_iter_num_new(struct bpf_iter_num *it, int start, int end) __ksym;
extern int *bpf_iter_num_next(struct bpf_iter_num *it) __ksym;
extern void bpf_iter_num_destroy(struct bpf_iter_num *it) __ksym;

/* A queued packet, which the map owns. */
struct qdisc_packet {
    struct sk_buff KPTR *skb;
};

struct {
    __uint(type, BPF_MAP_TYPE_ARRAY);
    __uint(map_flags, BPF_F_MMAPABLE);
    __uint(max_entries, QDISC_QUEUES);
    __type(key, uint32_t);
    __type(value, struct qdisc_queue);
} queues SEC(".maps");

struct {
    __uint(type, BPF_MAP_TYPE_ARRAY);
    __uint(map_flags, BPF_F_MMAPABLE);
    __uint(max_entries, QDISC_QUEUES * QDISC_PACKETS);
    __type(key, uint32_t);
    __type(value, struct qdisc_place);
} places SEC(".maps");

struct {
    __uint(type, BPF_MAP_TYPE_ARRAY);
    __uint(max_entries, QDISC_QUEUES * QDISC_PACKETS);
    __type(key, uint32_t);
    __type(value, struct qdisc_packet);
} packets SEC(".maps");

struct ring {
    __uint(type, BPF_MAP_TYPE_RINGBUF);
    __uint(max_entries, 1 << 20);
};

/* The ring buffer of each queue's reader, which the reader makes. */
struct {
    __uint(type, BPF_MAP_TYPE_ARRAY_OF_MAPS);
    __uint(max_entries, QDISC_QUEUES);
    __type(key, uint32_t);
    __array(values, struct ring);
} rings SEC(".maps");

/* The opening of a queue that `tc` adds without pie-qdisc. */
const volatile struct pie_opening default_opening;

/* ---- The record */

/* Stores the state of the queue, from which a reader begins an excerpt. */
GLOBAL int qdisc_snapshot(struct qdisc_queue *queue NONNULL, uint32_t number) {
    struct qdisc_snapshot *to;
    void *ring = bpf_map_lookup_elem(&rings, &number);
    if (!ring)
        return 0;
    to = bpf_ringbuf_reserve(ring, sizeof *to, 0);
    if (!to)
        return 0;
    to->kind = QDISC_SNAPSHOT;
    to->flow = queue->flow;
    to->snapshot = queue->config.snapshots;
    to->lost = queue->lost;
    to->count = queue->count;
    to->head = queue->head;
    to->tail = queue->tail;
    to->bytes = queue->bytes;
    to->first = queue->first;
    to->taken = queue->taken;
    to->opening = queue->config.opening;
    to->pie = queue->pie;
    to->stats = queue->stats;
    queue->snapshot = to->snapshot;
    queue->is_skipping = 0;
    bpf_ringbuf_submit(to, BPF_RB_NO_WAKEUP);
    return 1;
}

/* Counts queue->event, whose packet waited so long, and stores it for the reader. */
GLOBAL int qdisc_record(struct qdisc_queue *queue NONNULL, uint32_t number, uint64_t waited) {
    struct qdisc_message *to;
    void *ring;
    uint32_t kind = queue->event.kind;
    if (queue->event.answer > 100) {
        queue->refused++;
        return 0;
    }
    pie_count_event(&queue->stats, &queue->event, queue->bytes, waited);
    queue->count++;
    ring = bpf_map_lookup_elem(&rings, &number);
    if (!ring) {
        queue->unread++;
        queue->is_skipping = 1;
        return 0;
    }
    if (queue->is_skipping) {
        /* (the reader has requested no snapshot, or had one) */
        if (queue->snapshot == *(volatile uint64_t *)&queue->config.snapshots)
            queue->lost++;
        else
            queue->unread++;
        return 0;
    }
    if (kind == PIE_EVENT_PARAMS) {
        struct qdisc_new_params *change = bpf_ringbuf_reserve(ring, sizeof *change, 0);
        if (change) {
            change->message.kind = QDISC_PARAMS;
            change->message.flow = queue->flow;
            change->message.event = queue->event;
            change->params = queue->pie.params;
            bpf_ringbuf_submit(change, BPF_RB_NO_WAKEUP);
            return 1;
        }
    } else {
        to = bpf_ringbuf_reserve(ring, sizeof *to, 0);
        if (to) {
            to->kind = QDISC_EVENT;
            to->flow = queue->flow;
            to->event = queue->event;
            bpf_ringbuf_submit(to, BPF_RB_NO_WAKEUP);
            return 1;
        }
    }
    queue->lost++;
    queue->is_skipping = 1;
    return 0;
}

/* ---- The decisions. Each function is verified once, for any queue. */

GLOBAL uint32_t qdisc_open(struct qdisc_queue *queue NONNULL) {
    return pie_open(&queue->pie, &queue->config.opening);
}

GLOBAL uint32_t qdisc_arrive(struct qdisc_queue *queue NONNULL) {
    return pie_arrive_event(&queue->pie, queue->bytes, (uint32_t)(queue->config.opening.packets - (queue->tail - queue->head)), &queue->event);
}

GLOBAL uint32_t qdisc_depart(struct qdisc_queue *queue NONNULL, uint64_t since) {
    return pie_depart_event(&queue->pie, queue->bytes, since, &queue->event);
}

GLOBAL uint32_t qdisc_update(struct qdisc_queue *queue NONNULL) {
    return pie_update_event(&queue->pie, queue->bytes, &queue->event);
}

GLOBAL uint32_t qdisc_start_anew(struct qdisc_queue *queue NONNULL) {
    return pie_reset_event(&queue->pie, &queue->event);
}

GLOBAL uint32_t qdisc_set_params(struct qdisc_queue *queue NONNULL) {
    return pie_set_params_event(&queue->pie, &queue->config.params, &queue->event);
}

/* ---- Steps before a packet */

static __always_inline void begin(struct qdisc_queue *queue, uint64_t moment, uint16_t caller) {
    queue->event.moment = moment;
    queue->event.tag = 0;
    queue->event.word = 0;
    queue->event.size = 0;
    queue->event.ecn = PIE_NOT_ECT;
    queue->event.caller = caller;
}

/* Makes all updates that are due at `now`, each at the moment at which it was due: with the queue as it was then, since no packet arrived or departed. If
 * another update would change nothing but the moment of the last one, or too many are due, the last one is made at `now`. */
GLOBAL int qdisc_catch_up(struct qdisc_queue *queue NONNULL, uint32_t number, uint64_t now) {
    struct bpf_iter_num it;
    int *at;
    bpf_iter_num_new(&it, 0, QDISC_MOST_DUE);
    while ((at = bpf_iter_num_next(&it))) {
        uint64_t due = queue->pie.last + queue->pie.params.t_update;
        if (due > now)
            break;
        if (*at == QDISC_MOST_DUE - 1 ||
            (!queue->pie.prob && !queue->pie.old_delay && !queue->bytes && queue->pie.burst == queue->pie.params.max_burst && *at))
            due = now;
        begin(queue, due, QDISC_DUE);
        if (qdisc_update(queue) > 100)
            break;
        queue->random[0] ^= (uint64_t)bpf_get_prandom_u32() << 32;
        qdisc_record(queue, number, 0);
    }
    bpf_iter_num_destroy(&it);
    return 0;
}

/* Applies new parameters and a new shaper. */
GLOBAL int qdisc_change(struct qdisc_queue *queue NONNULL, uint32_t number, uint64_t now) {
    queue->changed = queue->config.changes;
    queue->shaper = queue->config.shaper;
    begin(queue, now, QDISC_CHANGE);
    qdisc_set_params(queue);
    qdisc_record(queue, number, 0);
    return 0;
}

static __always_inline void before_a_packet(struct qdisc_queue *queue, uint32_t number, uint64_t now) {
    uint64_t snapshots = *(volatile uint64_t *)&queue->config.snapshots, changes = *(volatile uint64_t *)&queue->config.changes;
    if (snapshots && (queue->snapshot != snapshots || queue->is_skipping))
        qdisc_snapshot(queue, number);
    if (queue->pie.last + queue->pie.params.t_update <= now)
        qdisc_catch_up(queue, number, now);
    if (queue->changed != changes)
        qdisc_change(queue, number, now);
}

#define TURN(it, by) ((it) << (by) | (it) >> (64 - (by)))

/* Returns a random word, as bindings/kernel/pie_random.h does. At the probability 0 the word has no effect; it is spread over its range nevertheless. */
static __always_inline uint64_t word(struct qdisc_queue *queue, uint64_t moment) {
    uint64_t v0 = queue->random[0], v1 = queue->random[1], v2 = queue->random[2], v3 = queue->random[3] ^ moment;
    if (!queue->pie.prob)
        return moment * 0x9e3779b97f4a7c15;
#define ROUND \
    v0 += v1, v1 = TURN(v1, 13), v1 ^= v0, v0 = TURN(v0, 32), v2 += v3, v3 = TURN(v3, 16), v3 ^= v2, v0 += v3, v3 = TURN(v3, 21), v3 ^= v0, v2 += v1, \
        v1 = TURN(v1, 17), v1 ^= v2, v2 = TURN(v2, 32)
    ROUND;
    ROUND;
#undef ROUND
    queue->random[0] = v0 ^ moment;
    queue->random[1] = v1;
    queue->random[2] = v2;
    queue->random[3] = v3;
    return v1 + v3;
}

/* ---- The operations of the queue discipline */

static __always_inline uint32_t length(const struct sk_buff *skb) {
    return *(const uint32_t *)skb->cb; /* qdisc_skb_cb(skb)->pkt_len */
}

static __always_inline uint32_t place_of(uint32_t number, uint64_t packet) {
    return number * QDISC_PACKETS + (uint32_t)(packet & (QDISC_PACKETS - 1));
}

SEC("struct_ops/qdisc_op_enqueue")
int BPF_PROG(qdisc_op_enqueue, struct sk_buff *skb, struct Qdisc *sch, struct bpf_sk_buff_ptr *to_free) {
    uint32_t number = sch->limit - 1, size = length(skb), at, verdict;
    uint64_t now = bpf_ktime_get_ns();
    struct qdisc_queue *queue = bpf_map_lookup_elem(&queues, &number);
    struct qdisc_packet *packet;
    struct qdisc_place *place;
    if (!queue)
        goto drop;
    at = place_of(number, queue->tail);
    place = bpf_map_lookup_elem(&places, &at);
    packet = bpf_map_lookup_elem(&packets, &at);
    if (!place || !packet)
        goto drop;
    before_a_packet(queue, number, now);
    queue->event.moment = now;
    /* (the hash of a packet without one takes some hundred instructions) */
    queue->event.tag = (queue->is_skipping ? 0 : (uint64_t)bpf_skb_get_hash(skb) << 32) | (uint32_t)queue->stats.arrivals;
    queue->event.word = word(queue, now);
    queue->event.size = size > PIE_MAX_SIZE ? PIE_MAX_SIZE : size ? size : 1;
    queue->event.ecn = PIE_NOT_ECT;
    queue->event.caller = QDISC_ENQUEUE;
    verdict = qdisc_arrive(queue);
    if (verdict == PIE_ENQUEUE) {
        if (queue->head == queue->tail && queue->next < now)
            queue->next = now;
        place->tag = queue->event.tag;
        place->since = queue->pie.moment;
        place->size = queue->event.size;
        queue->bytes += queue->event.size;
        queue->tail++;
    }
    qdisc_record(queue, number, 0);
    if (verdict != PIE_ENQUEUE)
        goto drop;
    sch->q.qlen++;
    sch->qstats.backlog += size;
    skb = bpf_kptr_xchg(&packet->skb, skb);
    if (skb)
        bpf_qdisc_skb_drop(skb, to_free);
    return NET_XMIT_SUCCESS;
drop:
    sch->qstats.drops++;
    bpf_qdisc_skb_drop(skb, to_free);
    return NET_XMIT_DROP;
}

/* Removes the first packet, which is in the place `at`, from the counts and records its departure. */
GLOBAL int qdisc_remove(struct qdisc_queue *queue NONNULL, uint32_t number, uint32_t at, uint64_t now, uint32_t caller) {
    struct qdisc_place *place = bpf_map_lookup_elem(&places, &at);
    if (!place)
        return 0;
    begin(queue, now, caller);
    queue->event.tag = place->tag;
    queue->event.size = place->size;
    queue->bytes -= place->size;
    queue->head++;
    queue->first = place->next;
    qdisc_depart(queue, place->since);
    qdisc_record(queue, number, queue->pie.moment - place->since);
    return 0;
}

SEC("struct_ops/qdisc_op_dequeue")
struct sk_buff *BPF_PROG(qdisc_op_dequeue, struct Qdisc *sch) {
    uint32_t number = sch->limit - 1, at, size;
    uint64_t now;
    struct qdisc_queue *queue = bpf_map_lookup_elem(&queues, &number);
    struct qdisc_packet *packet;
    struct sk_buff *skb;
    int64_t paced;
    if (!queue || queue->head == queue->tail)
        return NULL;
    now = bpf_ktime_get_ns();
    before_a_packet(queue, number, now);
    if (queue->shaper.cost && now < queue->next) {
        bpf_qdisc_watchdog_schedule(sch, queue->next, 0);
        return NULL;
    }
    at = place_of(number, queue->head);
    packet = bpf_map_lookup_elem(&packets, &at);
    if (!packet)
        return NULL;
    qdisc_remove(queue, number, at, now, QDISC_DEQUEUE);
    skb = bpf_kptr_xchg(&packet->skb, NULL);
    if (!skb)
        return NULL;
    size = length(skb);
    paced = (int64_t)size + queue->shaper.overhead;
    if (queue->shaper.cost && paced > 0)
        queue->next += (uint64_t)paced * queue->shaper.cost >> 20;
    sch->q.qlen--;
    sch->qstats.backlog -= size;
    bpf_qdisc_bstats_update(sch, skb);
    return skb;
}

/* Opens the queue in a place with the opening that is there. */
GLOBAL int qdisc_begin(struct qdisc_queue *queue NONNULL, uint64_t now) {
    queue->config.opening.moment = now;
    if (queue->config.opening.packets > QDISC_LIMIT)
        queue->config.opening.packets = QDISC_LIMIT;
    __builtin_memset(&queue->stats, 0, sizeof queue->stats);
    __builtin_memset(&queue->event, 0, sizeof queue->event);
    queue->count = queue->head = queue->tail = queue->bytes = queue->refused = queue->unread = queue->lost = 0;
    queue->is_skipping = 1;
    queue->next = now;
    queue->shaper = queue->config.shaper;
    queue->changed = queue->config.changes;
    queue->random[0] = (uint64_t)bpf_get_prandom_u32() << 32 | bpf_get_prandom_u32();
    queue->random[1] = (uint64_t)bpf_get_prandom_u32() << 32 | bpf_get_prandom_u32();
    queue->random[2] = (uint64_t)bpf_get_prandom_u32() << 32 | bpf_get_prandom_u32();
    queue->random[3] = (uint64_t)bpf_get_prandom_u32() << 32 | bpf_get_prandom_u32();
    return qdisc_open(queue) == PIE_DONE ? 0 : -22;
}

/* Returns the number of the place that pie-qdisc prepared for this queue, or else of a free one with the default opening; QDISC_QUEUES if there is none. A
 * queue with flows has one of the first places. */
GLOBAL uint32_t qdisc_find(uint32_t ifindex, uint32_t netns, uint32_t parent, uint32_t flows) {
    struct bpf_iter_num it;
    uint32_t found = QDISC_QUEUES, free = QDISC_QUEUES;
    int *at;
    bpf_iter_num_new(&it, 0, QDISC_QUEUES);
    while ((at = bpf_iter_num_next(&it))) {
        uint32_t number = *at;
        struct qdisc_queue *queue = bpf_map_lookup_elem(&queues, &number);
        if (!queue)
            break;
        if (flows && number >= QDISC_FQS)
            break;
        if (queue->config.use == QDISC_FREE)
            free = number;
        if (queue->config.use == QDISC_PREPARED && queue->config.ifindex == ifindex && queue->config.netns == netns && queue->config.parent == parent &&
            !queue->config.flows == !flows) {
            found = number;
            break;
        }
    }
    bpf_iter_num_destroy(&it);
    if (found == QDISC_QUEUES && free != QDISC_QUEUES) {
        struct qdisc_queue *queue = bpf_map_lookup_elem(&queues, &free);
        if (queue) {
            for (unsigned int word = 0; word < sizeof default_opening / 8; word++)
                ((uint64_t *)&queue->config.opening)[word] = ((const volatile uint64_t *)&default_opening)[word];
            queue->config.params = queue->config.opening.params;
            queue->config.shaper.rate = queue->config.shaper.cost = 0;
            queue->config.shaper.overhead = 0;
            queue->config.ifindex = ifindex;
            queue->config.netns = netns;
            queue->config.parent = parent;
            queue->config.flows = flows;
            queue->config.quantum = DEFAULT_QUANTUM;
            found = free;
        }
    }
    return found;
}

/* Adds a queue, with so many flows unless its place has another number. Returns 0 or a negative errno. */
static __always_inline int add(struct Qdisc *sch, uint32_t flows) {
    struct net_device *device = sch->dev_queue->dev;
    uint32_t number = qdisc_find(device->ifindex, device->nd_net.net->ns.inum, sch->parent, flows);
    struct qdisc_queue *queue;
    queue = bpf_map_lookup_elem(&queues, &number);
    if (!queue)
        return -28;
    sch->limit = number + 1;
    queue->handle = sch->handle;
    queue->config.use = QDISC_USED;
    if (qdisc_begin(queue, bpf_ktime_get_ns())) {
        queue->config.use = QDISC_FREE;
        sch->limit = 0;
        return -22;
    }
    return 0;
}

SEC("struct_ops/qdisc_op_init")
int BPF_PROG(qdisc_op_init, struct Qdisc *sch, struct nlattr *options, struct netlink_ext_ack *extack) {
    return add(sch, 0);
}

SEC("struct_ops/qdisc_op_reset")
void BPF_PROG(qdisc_op_reset, struct Qdisc *sch) {
    uint32_t number = sch->limit - 1;
    uint64_t now = bpf_ktime_get_ns();
    struct qdisc_queue *queue = bpf_map_lookup_elem(&queues, &number);
    struct bpf_iter_num it;
    if (!queue)
        return;
    before_a_packet(queue, number, now);
    bpf_iter_num_new(&it, 0, QDISC_PACKETS);
    while (bpf_iter_num_next(&it)) {
        uint32_t at = place_of(number, queue->head);
        struct qdisc_packet *packet;
        struct sk_buff *skb;
        if (queue->head == queue->tail)
            break;
        packet = bpf_map_lookup_elem(&packets, &at);
        if (!packet)
            break;
        qdisc_remove(queue, number, at, now, QDISC_RESET);
        skb = bpf_kptr_xchg(&packet->skb, NULL);
        if (skb)
            bpf_kfree_skb(skb);
    }
    bpf_iter_num_destroy(&it);
    begin(queue, now, QDISC_RESET);
    qdisc_start_anew(queue);
    qdisc_record(queue, number, 0);
    sch->q.qlen = 0;
    sch->qstats.backlog = 0;
}

/* Ends a queue and its record. */
static __always_inline void end(uint32_t number) {
    struct qdisc_queue *queue = bpf_map_lookup_elem(&queues, &number);
    struct qdisc_message *to;
    void *ring;
    if (!queue)
        return;
    ring = bpf_map_lookup_elem(&rings, &number);
    if (ring) {
        to = bpf_ringbuf_reserve(ring, sizeof *to, 0);
        if (to) {
            to->kind = QDISC_END;
            bpf_ringbuf_submit(to, 0);
        }
    }
    queue->config.use = QDISC_FREE;
}

SEC("struct_ops/qdisc_op_destroy")
void BPF_PROG(qdisc_op_destroy, struct Qdisc *sch) {
    end(sch->limit - 1);
}

SEC(".struct_ops")
struct Qdisc_ops pie_ops = {
    .id = "bpf_pie",
    .enqueue = (void *)qdisc_op_enqueue,
    .dequeue = (void *)qdisc_op_dequeue,
    .init = (void *)qdisc_op_init,
    .reset = (void *)qdisc_op_reset,
    .destroy = (void *)qdisc_op_destroy,
};

#include "fq_qdisc.bpf.h"
