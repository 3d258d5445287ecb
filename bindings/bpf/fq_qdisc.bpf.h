// SPDX-License-Identifier: GPL-2.0 OR MIT
/* A queue discipline with flows: FQ-PIE, with the lists, the quantum and the shared limit of sch_fq_pie. pie_qdisc.bpf.c includes it.
 *
 * A flow is a queue of its own, with a controller and a record, and is opened by its first packet. The places of all flows' packets are those of one queue. The
 * map `free_places` is a ring of the free ones, so that a place is not taken again before at least QDISC_PACKETS - QDISC_LIMIT other packets came. */

struct {
    __uint(type, BPF_MAP_TYPE_ARRAY);
    __uint(map_flags, BPF_F_MMAPABLE);
    __uint(max_entries, QDISC_FQS);
    __type(key, uint32_t);
    __type(value, struct qdisc_fq);
} fqs SEC(".maps");

struct {
    __uint(type, BPF_MAP_TYPE_ARRAY);
    __uint(map_flags, BPF_F_MMAPABLE);
    __uint(max_entries, QDISC_FQS * QDISC_FLOWS);
    __type(key, uint32_t);
    __type(value, struct qdisc_flow);
} flows SEC(".maps");

/* Each entry is the exclusive or of its own number and of that of a free place: a ring of zeros has all places. */
struct {
    __uint(type, BPF_MAP_TYPE_ARRAY);
    __uint(max_entries, QDISC_FQS * QDISC_PACKETS);
    __type(key, uint32_t);
    __type(value, uint32_t);
} free_places SEC(".maps");

/* The most flows that a call of dequeue considers: each flow may owe a packet of 64 KiB in rounds of the least quantum. */
#define FQ_MOST_CONSIDERED (QDISC_FLOWS * 258)

static __always_inline struct qdisc_flow *flow_at(uint32_t number, uint32_t flow) {
    uint32_t at = number * QDISC_FLOWS + (flow & (QDISC_FLOWS - 1));
    return bpf_map_lookup_elem(&flows, &at);
}

/* Returns the number of the flow of a hash. The bits are mixed, so that flows that share a number with one perturbation do not share it with another. */
static __always_inline uint32_t flow_of(uint32_t hash, uint32_t perturbation, uint32_t count) {
    hash ^= perturbation;
    hash = (hash ^ hash >> 16) * 0x85ebca6b;
    hash = (hash ^ hash >> 13) * 0xc2b2ae35;
    hash ^= hash >> 16;
    return (uint64_t)hash * count >> 32;
}

/* Appends a flow to a list. */
GLOBAL int fq_append(struct qdisc_list *list NONNULL, uint32_t number, uint32_t at) {
    struct qdisc_flow *flow = flow_at(number, at), *last = flow_at(number, list->last - 1);
    if (!flow || !last)
        return 0;
    flow->following = 0;
    flow->is_listed = 1;
    if (list->last)
        last->following = at + 1;
    else
        list->first = at + 1;
    list->last = at + 1;
    return 0;
}

/* Returns 1 + the number of the flow whose packet departs next, and moves those before it; 0 if there is none. */
GLOBAL uint32_t fq_next(struct qdisc_fq *fq NONNULL, uint32_t number, uint32_t quantum) {
    struct bpf_iter_num it;
    uint32_t found = 0;
    bpf_iter_num_new(&it, 0, FQ_MOST_CONSIDERED);
    while (bpf_iter_num_next(&it)) {
        bool is_new = fq->new.first;
        uint32_t at = is_new ? fq->new.first : fq->old.first;
        struct qdisc_flow *flow = flow_at(number, at - 1);
        struct qdisc_list *list = is_new ? &fq->new : &fq->old;
        if (!at || !flow)
            break;
        if (flow->deficit > 0 && flow->queue.head != flow->queue.tail) {
            found = at;
            break;
        }
        list->first = flow->following;
        if (!list->first)
            list->last = 0;
        /* (an empty new flow becomes an old one, so that it is not new again at once and the old ones wait) */
        if (flow->deficit > 0 && !(is_new && fq->old.first)) {
            flow->is_listed = 0;
            continue;
        }
        if (flow->deficit <= 0)
            flow->deficit += quantum;
        fq->moves++;
        fq_append(&fq->old, number, at - 1);
    }
    bpf_iter_num_destroy(&it);
    return found;
}

/* Opens a flow, with the parameters of the present. */
GLOBAL int fq_open(struct qdisc_queue *queue NONNULL, struct qdisc_flow *flow NONNULL, uint64_t opened, uint64_t now) {
    flow->queue.config = queue->config;
    flow->queue.config.opening.params = queue->config.params;
    flow->opened = opened;
    flow->deficit = 0;
    flow->is_listed = 0;
    return qdisc_begin(&flow->queue, now);
}

/* Does what is due before an event of a flow. */
static __always_inline void before_an_event(struct qdisc_queue *queue, struct qdisc_fq *fq, struct qdisc_flow *flow, uint32_t at, uint32_t number, uint64_t now) {
    if (flow->opened != fq->opened) {
        flow->queue.flow = at;
        fq_open(queue, flow, fq->opened, now);
    }
    if (flow->queue.config.changes != queue->config.changes) {
        flow->queue.config.changes = queue->config.changes;
        flow->queue.config.params = queue->config.params;
    }
    flow->queue.config.snapshots = queue->config.snapshots;
    flow->queue.taken = fq->taken;
    before_a_packet(&flow->queue, number, now);
}

SEC("struct_ops/fq_op_enqueue")
int BPF_PROG(fq_op_enqueue, struct sk_buff *skb, struct Qdisc *sch, struct bpf_sk_buff_ptr *to_free) {
    uint32_t number = sch->limit - 1, size = length(skb), hash, which, at, verdict, *free_place;
    uint64_t now = bpf_ktime_get_ns();
    struct qdisc_queue *queue = bpf_map_lookup_elem(&queues, &number);
    struct qdisc_fq *fq = bpf_map_lookup_elem(&fqs, &number);
    struct qdisc_flow *flow;
    struct qdisc_packet *packet;
    struct qdisc_place *place, *last;
    if (!queue || !fq)
        goto drop;
    if (queue->tail - queue->head >= queue->config.opening.packets) {
        fq->over_limit++;
        goto drop;
    }
    hash = bpf_skb_get_hash(skb);
    at = place_of(number, fq->taken);
    free_place = bpf_map_lookup_elem(&free_places, &at);
    if (!free_place)
        goto drop;
    at = place_of(number, *free_place ^ fq->taken);
    place = bpf_map_lookup_elem(&places, &at);
    packet = bpf_map_lookup_elem(&packets, &at);
    which = flow_of(hash, fq->perturbation, queue->config.flows);
    flow = flow_at(number, which);
    if (!place || !packet || !flow)
        goto drop;
    before_an_event(queue, fq, flow, which, number, now);
    last = bpf_map_lookup_elem(&places, &flow->last);
    if (!last)
        goto drop;
    begin(&flow->queue, now, QDISC_ENQUEUE);
    flow->queue.event.tag = (uint64_t)hash << 32 | (uint32_t)flow->queue.stats.arrivals;
    flow->queue.event.word = word(&flow->queue, now);
    flow->queue.event.size = size > PIE_MAX_SIZE ? PIE_MAX_SIZE : size ? size : 1;
    verdict = qdisc_arrive(&flow->queue);
    if (verdict == PIE_ENQUEUE) {
        if (queue->head == queue->tail && queue->next < now)
            queue->next = now;
        place->tag = flow->queue.event.tag;
        place->since = flow->queue.pie.moment;
        place->size = flow->queue.event.size;
        if (flow->queue.head == flow->queue.tail)
            flow->queue.first = at;
        else
            last->next = at;
        flow->last = at;
        flow->queue.bytes += place->size;
        flow->queue.tail++;
        fq->taken++;
        queue->bytes += place->size;
        queue->tail++;
        if (!flow->is_listed) {
            flow->deficit = queue->config.quantum;
            fq_append(&fq->new, number, which);
        }
    }
    qdisc_record(&flow->queue, number, 0);
    if (verdict != PIE_ENQUEUE)
        goto drop;
    sch->q.qlen++;
    sch->qstats.backlog += size;
    skb = bpf_kptr_xchg(&packet->skb, skb);
    if (skb)
        bpf_qdisc_skb_drop(skb, to_free);
    return NET_XMIT_SUCCESS;
drop:
    sch->qstats.drops++;
    bpf_qdisc_skb_drop(skb, to_free);
    return NET_XMIT_DROP;
}

/* Records the departure of a flow's first packet, which is in the place `at`, and gives the place back. */
static __always_inline void remove_first(struct qdisc_queue *queue, struct qdisc_fq *fq, struct qdisc_flow *flow, uint32_t at, uint64_t now, uint32_t caller) {
    uint32_t number = at / QDISC_PACKETS, end = place_of(number, fq->given), *free_place = bpf_map_lookup_elem(&free_places, &end);
    uint64_t bytes = flow->queue.bytes;
    if (!free_place)
        return;
    qdisc_remove(&flow->queue, number, at, now, caller);
    *free_place = (at ^ (uint32_t)fq->given) & (QDISC_PACKETS - 1);
    fq->given++;
    queue->bytes -= bytes - flow->queue.bytes;
    queue->head++;
}

SEC("struct_ops/fq_op_dequeue")
struct sk_buff *BPF_PROG(fq_op_dequeue, struct Qdisc *sch) {
    uint32_t number = sch->limit - 1, at, size;
    uint64_t now;
    struct qdisc_queue *queue = bpf_map_lookup_elem(&queues, &number);
    struct qdisc_fq *fq = bpf_map_lookup_elem(&fqs, &number);
    struct qdisc_flow *flow;
    struct qdisc_packet *packet;
    struct sk_buff *skb;
    int64_t paced;
    if (!queue || !fq || queue->head == queue->tail)
        return NULL;
    now = bpf_ktime_get_ns();
    if (queue->changed != queue->config.changes) {
        queue->changed = queue->config.changes;
        queue->shaper = queue->config.shaper;
    }
    if (queue->shaper.cost && now < queue->next) {
        bpf_qdisc_watchdog_schedule(sch, queue->next, 0);
        return NULL;
    }
    at = fq_next(fq, number, queue->config.quantum);
    flow = flow_at(number, at - 1);
    if (!at || !flow)
        return NULL;
    before_an_event(queue, fq, flow, at - 1, number, now);
    at = flow->queue.first;
    packet = bpf_map_lookup_elem(&packets, &at);
    if (!packet)
        return NULL;
    remove_first(queue, fq, flow, at, now, QDISC_DEQUEUE);
    skb = bpf_kptr_xchg(&packet->skb, NULL);
    if (!skb)
        return NULL;
    size = length(skb);
    flow->deficit -= size;
    paced = (int64_t)size + queue->shaper.overhead;
    if (queue->shaper.cost && paced > 0)
        queue->next += (uint64_t)paced * queue->shaper.cost >> 20;
    sch->q.qlen--;
    sch->qstats.backlog -= size;
    bpf_qdisc_bstats_update(sch, skb);
    return skb;
}

SEC("struct_ops/fq_op_init")
int BPF_PROG(fq_op_init, struct Qdisc *sch, struct nlattr *options, struct netlink_ext_ack *extack) {
    int error = add(sch, QDISC_FLOWS);
    uint32_t number = sch->limit - 1;
    struct qdisc_fq *fq = bpf_map_lookup_elem(&fqs, &number);
    if (error || !fq)
        return error ? error : -28;
    fq->opened++;
    fq->over_limit = fq->moves = 0;
    fq->perturbation = bpf_get_prandom_u32();
    return 0;
}

SEC("struct_ops/fq_op_reset")
void BPF_PROG(fq_op_reset, struct Qdisc *sch) {
    uint32_t number = sch->limit - 1;
    uint64_t now = bpf_ktime_get_ns();
    struct qdisc_queue *queue = bpf_map_lookup_elem(&queues, &number);
    struct qdisc_fq *fq = bpf_map_lookup_elem(&fqs, &number);
    struct bpf_iter_num it;
    if (!queue || !fq)
        return;
    fq->cursor = 0;
    bpf_iter_num_new(&it, 0, QDISC_PACKETS + QDISC_FLOWS);
    while (bpf_iter_num_next(&it)) {
        uint32_t at = fq->cursor;
        struct qdisc_flow *flow = flow_at(number, at);
        struct qdisc_packet *packet;
        struct sk_buff *skb;
        if (at >= QDISC_FLOWS || !flow)
            break;
        if (flow->opened != fq->opened) {
            fq->cursor++;
            continue;
        }
        before_an_event(queue, fq, flow, at, number, now);
        if (flow->queue.head == flow->queue.tail) {
            begin(&flow->queue, now, QDISC_RESET);
            qdisc_start_anew(&flow->queue);
            qdisc_record(&flow->queue, number, 0);
            flow->is_listed = 0;
            flow->deficit = 0;
            fq->cursor++;
            continue;
        }
        at = flow->queue.first;
        packet = bpf_map_lookup_elem(&packets, &at);
        if (!packet)
            break;
        remove_first(queue, fq, flow, at, now, QDISC_RESET);
        skb = bpf_kptr_xchg(&packet->skb, NULL);
        if (skb)
            bpf_kfree_skb(skb);
    }
    bpf_iter_num_destroy(&it);
    fq->new.first = fq->new.last = fq->old.first = fq->old.last = 0;
    sch->q.qlen = 0;
    sch->qstats.backlog = 0;
}

SEC("struct_ops/fq_op_destroy")
void BPF_PROG(fq_op_destroy, struct Qdisc *sch) {
    end(sch->limit - 1);
}

SEC(".struct_ops")
struct Qdisc_ops fq_ops = {
    .id = "bpf_fq_pie",
    .enqueue = (void *)fq_op_enqueue,
    .dequeue = (void *)fq_op_dequeue,
    .init = (void *)fq_op_init,
    .reset = (void *)fq_op_reset,
    .destroy = (void *)fq_op_destroy,
};
