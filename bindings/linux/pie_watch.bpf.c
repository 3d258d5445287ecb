// SPDX-License-Identifier: GPL-2.0 OR MIT
/* Records each step of the kernel's sch_pie and sch_fq_pie. pie_watch.c loads these programs; watch_record.h describes the records.
 *
 * A queue's steps are serialized by the lock of its root queue discipline, except pie_init, pie_reset and pie_destroy of a queue that no packet reaches.
 * So a queue's place in the map `queues` is also the scratch memory of its step: with PREEMPT_RT, a step may be preempted by another queue's step on the
 * same processor. */
#include "kernel_structs.h"

#include <bpf/bpf_core_read.h>
#include <bpf/bpf_helpers.h>
#include <bpf/bpf_tracing.h>

#include "watch_queue.h"

#define MOST_QUEUES 1024
#define PROBES 64             /* places among which a queue is searched */
#define NO_PLACE WATCH_PLACES
#define MOST_WAITING 65536    /* waiting packets of a resumed queue */
#define MOST_FLOWS 65536

char LICENSE[] SEC("license") = "Dual MIT/GPL";

/* The program in user space sets these before it loads the programs. */
const volatile char wanted_device[16]; /* empty: each */
const volatile u32 wanted_handle;      /* 0: each */
const volatile u32 wanted_netns;
const volatile u32 wanted_part; /* about one of this many queues is wanted, selected by device and handle */
const volatile bool has_fq_pie; /* the module sch_fq_pie is loaded */
const volatile u32 handled = 3; /* a bit for each kind of queues that these programs record. Other programs record fq_pie if its module was loaded later */

/* The program in user space changes `is_on` while the programs are attached. `has_clock`: the programs that read the clock are attached. Until then, a queue
 * that needs them is not recorded, and sets `needs_clock`. */
bool is_on, has_clock, needs_clock;
u32 queues_seen;   /* the number of the next queue */
u32 queues_missed; /* no place in the map */
u32 steps_missed;  /* an end of an enqueue without its beginning */
u32 lost_elsewhere; /* lost steps of queues whose places were taken by others */
u32 ring_needed;    /* the bytes that a resumed queue needs, if the ring is smaller */

/* A hash table with linear probing. A map of the kernel costs ten times the instructions. */
struct queue queues[WATCH_PLACES];
u32 queues_now; /* the number of queues in the table */
u32 segment;    /* of the output. The program in user space increments it, and each queue is resumed once */

struct {
    __uint(type, BPF_MAP_TYPE_RINGBUF);
    __uint(max_entries, 1 << 25);
} ring SEC(".maps");

#define OFFSET(type, field) bpf_core_field_offset(struct type, field)
#define PIE_OF(sch) ((struct pie_sched_data *)((void *)(sch) + OFFSET(Qdisc, privdata)))
#define FQ_PIE_OF(sch) ((struct fq_pie_sched_data *)((void *)(sch) + OFFSET(Qdisc, privdata)))
#define PIE_KEY(sch) ((u64)(sch) + OFFSET(Qdisc, privdata) + OFFSET(pie_sched_data, params))
#define FQ_PIE_KEY(sch) ((u64)(sch) + OFFSET(Qdisc, privdata) + OFFSET(fq_pie_sched_data, p_params))

#define IP 0x0008 /* in network byte order */
#define IPV6 0xdd86
#define VLAN 0x0081
#define SERVICE_VLAN 0xa888
#define ETHERNET_HEADER 14
#define TAG 4        /* bytes */
#define MOST_TAGS 7  /* that the kernel skips */

/* Reads a field of a struct whose address is a number. */
#define READ(to, from, type, field) bpf_probe_read_kernel(&(to), sizeof(to), (void *)((from) + OFFSET(type, field)))

/* ---- records */

static __always_inline bool is_fq_pie(const struct queue *queue) {
    return has_fq_pie && queue->kind == WATCH_FQ_PIE;
}

static __always_inline bool is_handled(const struct queue *queue) {
    return queue != NULL && handled >> queue->kind & 1;
}

/* Returns the hash of a queue's key. The verifier allows no arithmetic of an address, but a copy of its lower half. */
static __always_inline u32 hash_of(u64 key) {
    return (u32)key * 0x9e3779b1u >> 16;
}

/* Returns the place of a key in the table after its first place, or NO_PLACE. This function and the others that are not static are verified once, instead of
 * once for each state of their callers. */
__noinline u32 search(const u64 *key) {
    if (key == NULL)
        return NO_PLACE;
    for (u32 i = 1; i < PROBES; i++) {
        u32 place = (hash_of(*key) + i) % WATCH_PLACES;
        if (queues[place].key == *key)
            return place;
        if (queues[place].key == NO_QUEUE)
            break;
    }
    return NO_PLACE;
}

/* Returns the queue of a key: the address of the queue's parameters. NULL: it is not recorded. */
static __always_inline struct queue *find(u64 key) {
    struct queue *queue;
    u32 place;
    if (!is_on)
        return NULL;
    queue = &queues[hash_of(key) % WATCH_PLACES];
    if (queue->key == key)
        return queue;
    place = queue->key != NO_QUEUE ? search(&key) : NO_PLACE;
    return place < WATCH_PLACES ? &queues[place] : NULL;
}

/* Takes a free place of the table for a key. Returns NO_PLACE if there is none. */
__noinline u32 take_place(const u64 *key) {
    if (key != NULL && __sync_fetch_and_add(&queues_now, 1) < MOST_QUEUES) {
        for (u32 i = 0; i < PROBES; i++) {
            u32 place = (hash_of(*key) + i) % WATCH_PLACES;
            u64 free = queues[place].key;
            if (free <= FREED && __sync_val_compare_and_swap(&queues[place].key, free, TAKEN) == free)
                return place;
        }
    }
    __sync_fetch_and_add(&queues_now, -1);
    return NO_PLACE;
}

static __always_inline void fill_head(struct watch_head *head, const struct queue *queue, enum watch_type type, u32 seq, u64 ns) {
    head->ns = ns;
    head->seq = seq;
    head->flow = WATCH_FLOW_NONE;
    head->queue = queue->number;
    head->cpu = bpf_get_smp_processor_id();
    head->type = type;
    head->bits = head->ret = head->counts = 0;
}

#define NOW bpf_ktime_get_ns()
#define IN_RECORD 0 /* another field of the record has the moment */

/* Writes the records that a queue holds to the ring. If it is full, their steps are lost. */
__noinline int flush(u32 place) {
    struct queue *queue = &queues[place % WATCH_PLACES];
    u32 held = queue->held, bytes = held * WATCH_MOST;
    queue->held = 0;
    if (held == 0 || held > WATCH_HELD)
        return 0;
    if (bpf_ringbuf_output(&ring, queue->records, bytes, BPF_RB_NO_WAKEUP) != 0) {
        queue->is_broken = true;
        queue->lost += queue->steps;
    }
    queue->steps = 0;
    return 0;
}

/* Returns the place of the queue's next record, until `hold` is called. */
static __always_inline void *next_record(struct queue *queue) {
    return &queue->records[queue->held % WATCH_HELD];
}

/* Holds the next record. Several records are written at once, since a place in the ring costs more instructions than a record. */
static __always_inline void hold(struct queue *queue) {
    if (++queue->held >= WATCH_HELD)
        flush(queue->place);
}

/* Begins the record of a step, which has the queue's next number. Returns NULL if the step is lost. */
#define STEP(queue, type, ns)                        \
    ({                                               \
        u32 seq_ = (queue)->seq;                     \
        void *record_ = NULL;                        \
        (queue)->seq = seq_ + 1;                     \
        if ((queue)->is_broken) {                    \
            (queue)->lost++;                         \
        } else {                                     \
            record_ = next_record(queue);            \
            fill_head(record_, queue, type, seq_, ns); \
            (queue)->steps++;                        \
        }                                            \
        record_;                                     \
    })

static __always_inline void write(void *record) {
    bpf_ringbuf_submit(record, BPF_RB_NO_WAKEUP);
}

static __always_inline void copy_vars(struct watch_vars *to, const struct pie_vars *from) {
    to->qdelay = from->qdelay;
    to->qdelay_old = from->qdelay_old;
    to->burst_time = from->burst_time;
    to->dq_tstamp = from->dq_tstamp;
    to->prob = from->prob;
    to->accu_prob = from->accu_prob;
    to->dq_count = from->dq_count;
    to->avg_dq_rate = from->avg_dq_rate;
    to->backlog_old = from->backlog_old;
}

static __always_inline void copy_stats(struct watch_stats *to, const struct pie_stats *from) {
    to->packets_in = from->packets_in;
    to->dropped = from->dropped;
    to->overlimit = from->overlimit;
    to->ecn_mark = from->ecn_mark;
    to->maxq = from->maxq;
}

static __always_inline u32 mtu_of(struct Qdisc *sch) {
    struct net_device *dev = sch->dev_queue->dev;
    return dev->mtu + dev->hard_header_len;
}

/* Makes a pointer a number: the verifier allows no arithmetic of two pointers, and no pointer as a number of a function that is not static. */
static __always_inline u64 number_of(struct queue *queue, const void *pointer) {
    *(volatile u64 *)&queue->pointer = (u64)pointer;
    return *(volatile u64 *)&queue->pointer;
}

static __always_inline u32 flow_of(struct queue *queue, const struct pie_vars *vars) {
    return is_fq_pie(queue) ? (u32)((number_of(queue, vars) - queue->flows) / bpf_core_type_size(struct fq_pie_flow)) : WATCH_FLOW_NONE;
}

static __always_inline void fill_base(struct watch_base *record, const struct queue *queue, enum watch_type type, u32 lost) {
    fill_head(&record->head, queue, type, queue->seq, NOW);
    record->stats = queue->stats;
    record->limit = queue->limit;
    record->mtu = queue->mtu;
    record->memory = queue->memory;
    record->overmemory = queue->overmemory;
    record->lost = lost;
}

/* ---- returned packets */

struct sum {
    u64 next;
    u32 bytes;
};

static long add_returned(u32 number, struct sum *sum) {
    u64 cb = sum->next + OFFSET(sk_buff, cb);
    u32 bytes = 0;
    READ(bytes, cb, qdisc_skb_cb, pkt_len);
    sum->bytes += bytes;
    READ(sum->next, sum->next, sk_buff, next);
    return 0;
}

/* Returns the sum of the lengths of the packets that were returned to the queue at a place, and stores their number in `returned_packets`. The sum is kept
 * until the first packet or the number changes. */
__noinline u32 sum_returned(u32 place) {
    struct queue *queue = &queues[place % WATCH_PLACES];
    struct sum sum = {};
    u32 packets = 0, others = 0;
    READ(sum.next, queue->sch, Qdisc, gso_skb.next);
    READ(packets, queue->sch, Qdisc, gso_skb.qlen);
    READ(others, queue->sch, Qdisc, skb_bad_txq.qlen);
    if (others == 0 && queue->returned_first == sum.next && queue->returned_packets == packets)
        return queue->returned_sum;
    queue->returned_first = others == 0 ? sum.next : 0;
    bpf_loop(packets < MOST_WAITING ? packets : MOST_WAITING, add_returned, &sum, 0);
    READ(sum.next, queue->sch, Qdisc, skb_bad_txq.next);
    bpf_loop(others < MOST_WAITING ? others : MOST_WAITING, add_returned, &sum, 0);
    queue->returned_packets = packets + others;
    queue->returned_sum = sum.bytes;
    return sum.bytes;
}

static __always_inline u16 narrow(u32 number) {
    return number < 0xffff ? number : 0xffff;
}

/* Reads the returned packets after a step that leaves `own` other packets of `qlen`. */
static __always_inline u32 returned_after(struct queue *queue, u32 qlen, u32 own, u16 *returned) {
    u32 bytes = 0;
    *returned = 0;
    if (qlen != own) {
        bytes = sum_returned(queue->place);
        *returned = narrow(queue->returned_packets);
        own = qlen - queue->returned_packets;
    }
    queue->own = own;
    return bytes;
}

/* ---- the whole queue */

/* Returns the address of a queue's device. */
static __always_inline u64 device_of(const struct queue *queue) {
    u64 dev_queue = 0, device = 0;
    READ(dev_queue, queue->sch, Qdisc, dev_queue);
    READ(device, dev_queue, netdev_queue, dev);
    return device;
}

/* Fills a record with the whole queue, on which later WATCH_ENQUEUE records build. */
static __always_inline void read_whole(struct watch_whole *record, struct queue *queue) {
    u64 sch = queue->sch, own = sch + OFFSET(Qdisc, privdata), params, stats, device = device_of(queue);
    u8 ecn = 0, bytemode = 0, rate = 0;
    u16 header = 0;
    u32 mtu = 0;
    if (is_fq_pie(queue)) {
        __builtin_memset(&record->vars, 0, sizeof record->vars);
        READ(record->fq.ecn_prob, own, fq_pie_sched_data, ecn_prob);
        READ(record->fq.flows, own, fq_pie_sched_data, flows_cnt);
        READ(record->fq.quantum, own, fq_pie_sched_data, quantum);
        READ(record->fq.memory_limit, own, fq_pie_sched_data, memory_limit);
        READ(record->fq.memory, own, fq_pie_sched_data, memory_usage);
        READ(record->fq.overmemory, own, fq_pie_sched_data, overmemory);
        READ(record->fq.cursor, own, fq_pie_sched_data, flows_cursor);
        READ(record->fq.new_flows, own, fq_pie_sched_data, new_flow_count);
        stats = own + OFFSET(fq_pie_sched_data, stats);
        queue->memory = record->fq.memory;
        queue->overmemory = record->fq.overmemory;
        params = own + OFFSET(fq_pie_sched_data, p_params);
    } else {
        READ(record->vars, own, pie_sched_data, vars);
        stats = own + OFFSET(pie_sched_data, stats);
        params = own + OFFSET(pie_sched_data, params);
    }
    READ(record->stats.packets_in, stats, pie_stats, packets_in);
    READ(record->stats.dropped, stats, pie_stats, dropped);
    READ(record->stats.overlimit, stats, pie_stats, overlimit);
    READ(record->stats.ecn_mark, stats, pie_stats, ecn_mark);
    READ(record->stats.maxq, stats, pie_stats, maxq);
    READ(record->target, params, pie_params, target);
    READ(record->tupdate, params, pie_params, tupdate);
    READ(record->alpha, params, pie_params, alpha);
    READ(record->beta, params, pie_params, beta);
    READ(ecn, params, pie_params, ecn);
    READ(bytemode, params, pie_params, bytemode);
    READ(rate, params, pie_params, dq_rate_estimator);
    record->head.bits = (ecn ? WATCH_ECN : 0) | (bytemode ? WATCH_BYTEMODE : 0) | (rate ? WATCH_DQ_RATE : 0);
    READ(record->limit, sch, Qdisc, limit);
    READ(queue->params_limit, params, pie_params, limit);
    READ(record->qlen, sch, Qdisc, q.qlen);
    READ(record->backlog, sch, Qdisc, qstats.backlog);
    READ(mtu, device, net_device, mtu);
    READ(header, device, net_device, hard_header_len);
    record->mtu = queue->mtu = mtu + header;
    queue->limit = record->limit;
    queue->stats = record->stats;
    record->dropped_packets = record->dropped_bytes = record->dropped_returned = 0;
    record->returned_bytes = sum_returned(queue->place);
    record->returned = narrow(queue->returned_packets);
    queue->own = record->qlen - queue->returned_packets;
}

/* Writes a step that has the whole queue. `packets` and `bytes` are those that a change dropped, returned ones among them. */
__noinline int write_whole(u32 at, u32 type, u32 packets, u32 bytes) {
    struct queue *queue = &queues[at % WATCH_PLACES];
    struct watch_whole *record = STEP(queue, type, NOW);
    u32 own = queue->own;
    if (record == NULL)
        return 0;
    read_whole(record, queue);
    record->dropped_packets = packets;
    record->dropped_bytes = bytes;
    if (packets != 0)
        record->dropped_returned = narrow(packets - (is_fq_pie(queue) ? queue->dropped : own - queue->own));
    if (type == WATCH_RESET) /* the kernel removes the packets now */
        queue->own = 0;
    if (record->head.bits & WATCH_DQ_RATE && !has_clock && (type == WATCH_INIT || type == WATCH_CHANGE)) {
        needs_clock = true;
        queue->is_broken = true;
    }
    hold(queue);
    flush(queue->place);
    return 0;
}

/* Writes WATCH_CHANGE before a step with parameters that no record has. The step is the departure of a packet with this length and memory, unless `packets`
 * is 0. */
__noinline int tell_change(u32 at, u32 packets, u32 bytes, u32 memory) {
    struct queue *queue = &queues[at % WATCH_PLACES];
    struct watch_whole *record = STEP(queue, WATCH_CHANGE, NOW);
    if (record == NULL)
        return 0;
    read_whole(record, queue);
    record->qlen += packets;
    record->backlog += bytes;
    queue->own += packets;
    queue->memory += memory;
    hold(queue);
    return 0;
}

static __always_inline bool write_name(struct queue *queue) {
    struct watch_queue *record = bpf_ringbuf_reserve(&ring, sizeof *record, 0);
    if (record == NULL)
        return false;
    fill_head(&record->head, queue, WATCH_QUEUE, queue->seq - queue->lost, NOW);
    record->address = queue->key;
    record->kind = queue->kind;
    record->ifindex = queue->ifindex;
    record->handle = queue->handle;
    record->parent = queue->parent;
    record->netns = queue->netns;
    __builtin_memcpy(record->device, queue->device, sizeof record->device);
    write(record);
    return true;
}

/* Writes the queue's name, unless it was written, and the number of its lost steps. Returns false if the ring is full. */
static __always_inline bool write_lost(struct queue *queue) {
    struct watch_base *lost;
    if (!queue->is_named && !write_name(queue))
        return false;
    queue->is_named = true;
    if (queue->lost == 0)
        return true;
    lost = bpf_ringbuf_reserve(&ring, sizeof *lost, 0);
    if (lost == NULL)
        return false;
    fill_base(lost, queue, WATCH_LOST, queue->lost);
    write(lost);
    queue->lost = 0;
    return true;
}

#include "watch_resume.bpf.h"

/* ---- queues */

/* Returns true if the queue's device has the wanted name. A device that comes again under its name has it too. */
static __always_inline bool is_wanted_device(struct net_device *dev) {
    char name[16] = {};
    if (wanted_device[0] == '\0')
        return true;
    bpf_probe_read_kernel_str(name, sizeof name, &dev->name);
    for (u32 i = 0; i < sizeof name; i++) {
        if (name[i] != wanted_device[i])
            return false;
    }
    return true;
}

static __always_inline bool is_wanted(struct Qdisc *sch) {
    struct net_device *dev = sch->dev_queue->dev;
    u32 mixed = ((u32)dev->ifindex * 0x9e3779b1u + (sch->handle >> 16)) * 0x85ebca6bu;
    return (wanted_handle == 0 || sch->handle == wanted_handle) && (mixed >> 16) % wanted_part == 0 && dev->nd_net.net->ns.inum == wanted_netns &&
           is_wanted_device(dev);
}

/* Gives a wanted queue a place in the map. Returns NULL if it is not wanted, or the map is full. */
static __always_inline struct queue *add(struct Qdisc *sch, u64 key, enum watch_kind kind) {
    struct queue *queue;
    u32 place;
    if (!is_on || !is_wanted(sch))
        return NULL;
    queue = find(key);
    if (queue != NULL) {
        flush(queue->place);
        if (queue->lost != 0 && !write_lost(queue))
            __sync_fetch_and_add(&lost_elsewhere, queue->lost);
        queue->key = TAKEN;
    } else {
        place = take_place(&key);
        if (place >= WATCH_PLACES) {
            __sync_fetch_and_add(&queues_missed, 1);
            return NULL;
        }
        queue = &queues[place];
        queue->place = place;
    }
    __builtin_memset((void *)queue + __builtin_offsetof(struct queue, sch), 0, __builtin_offsetof(struct queue, records) - __builtin_offsetof(struct queue, sch));
    queue->sch = (u64)sch;
    queue->number = __sync_fetch_and_add(&queues_seen, 1);
    queue->kind = kind;
    queue->segment = segment;
    queue->ifindex = sch->dev_queue->dev->ifindex;
    queue->handle = sch->handle;
    queue->parent = sch->parent;
    queue->netns = wanted_netns;
    bpf_probe_read_kernel_str(queue->device, sizeof queue->device, &sch->dev_queue->dev->name);
    if (kind == WATCH_FQ_PIE)
        queue->flows = (u64)FQ_PIE_OF(sch)->flows;
    __sync_lock_test_and_set(&queue->key, key);
    return queue;
}

/* ---- enqueue */

#include "watch_drawn.bpf.h"

/* Returns false if pie can neither mark nor drop the packet early: there is burst allowance left, or the sum of probabilities is below 0.5. */
static __always_inline bool may_pick(const struct pie_vars *vars) {
    return vars->burst_time == 0 && vars->accu_prob + vars->prob >= 1ull << 55;
}

static __always_inline bool is_tag(u32 protocol) {
    return protocol == VLAN || protocol == SERVICE_VLAN;
}

/* Returns the protocol behind the tags of a packet of `length` bytes, whose first part has `size` bytes at `data`. The first tag of type `protocol` begins at
 * byte `at`. If a tag lies beyond the first part, returns its type. */
__noinline u32 skip_tags(u64 data, u32 size, u32 length, u32 at, u32 protocol) {
    for (u32 i = 0; i < MOST_TAGS && is_tag(protocol); i++) {
        u16 next = 0;
        if (at + TAG > length)
            return 0;
        if (at + TAG > size)
            return protocol;
        bpf_probe_read_kernel(&next, sizeof next, (void *)(data + at + TAG - sizeof next));
        protocol = next;
        at += TAG;
    }
    return is_tag(protocol) ? 0 : protocol;
}

/* Returns the protocol of a packet behind its tags, as the kernel's skb_protocol does. */
static __always_inline u16 protocol_of(struct queue *queue, struct sk_buff *skb) {
    u16 protocol = skb->protocol;
    u32 mac = skb->mac_len;
    if (!is_tag(protocol))
        return protocol;
    if (mac != 0 && mac < TAG)
        return 0;
    return skip_tags(number_of(queue, skb->data), skb->len - skb->data_len, skb->len, mac != 0 ? mac - TAG : ETHERNET_HEADER, protocol);
}

static __always_inline void read_header(struct queue *queue, struct sk_buff *skb) {
    u32 at = skb->network_header;
    bpf_probe_read_kernel(&queue->network, sizeof queue->network, skb->head + at);
    queue->room = at + (queue->protocol == IPV6 ? 40 : 20) <= skb->tail;
    queue->has_header = true;
}

/* The network header is an input only if a picked packet may be marked. */
static __always_inline void begin_enqueue(struct queue *queue, struct sk_buff *skb, struct Qdisc *sch, enum watch_kind kind, const void *stack) {
    struct drawn *drawn = drawn_here(&words);
    queue->qlen = sch->q.qlen;
    queue->backlog = sch->qstats.backlog;
    queue->returned = sch->gso_skb.qlen + sch->skb_bad_txq.qlen;
    queue->returned_bytes = queue->returned != 0 ? sum_returned(queue->place) : 0;
    queue->protocol = protocol_of(queue, skb);
    queue->draws = drawn != NULL ? drawn->count : 0;
    queue->stack = (u64)stack;
    queue->early = WATCH_EARLY_NONE;
    queue->flow = WATCH_FLOW_NONE;
    queue->network = 0;
    queue->room = 0;
    queue->has_header = false;
    queue->is_enqueue = true;
    if (kind == WATCH_PIE ? PIE_OF(sch)->params.ecn && may_pick(&PIE_OF(sch)->vars) : FQ_PIE_OF(sch)->p_params.ecn)
        read_header(queue, skb);
}

/* Returns the flow that fq_pie chose for a packet, as fq_pie_classify does. (fq_pie has no classes, so that tc attaches no filters.) */
static __always_inline u32 chosen_flow(struct sk_buff *skb, struct Qdisc *sch) {
    u32 minor = skb->priority & 0xffff, flows = FQ_PIE_OF(sch)->flows_cnt;
    if ((skb->priority & 0xffff0000) == sch->handle && minor > 0 && minor <= flows)
        return minor - 1;
    return (u32)((u64)skb->hash * flows >> 32);
}

/* Returns the bits of counters that the enqueue increased, or -1 if one changed otherwise. */
static __always_inline int counts_of(const struct queue *queue, const struct watch_stats *stats, u32 overmemory) {
    u32 in = stats->packets_in - queue->stats.packets_in, dropped = stats->dropped - queue->stats.dropped,
        overlimit = stats->overlimit - queue->stats.overlimit, mark = stats->ecn_mark - queue->stats.ecn_mark, over = overmemory - queue->overmemory,
        is_maxq = stats->maxq != queue->stats.maxq;
    if ((in | dropped | overlimit | mark | over) > 1 || (is_maxq && stats->maxq != queue->qlen))
        return -1;
    return in | dropped << 1 | overlimit << 2 | mark << 3 | is_maxq << 4 | over << 5;
}

static __always_inline void end_enqueue(struct queue *queue, struct sk_buff *skb, struct Qdisc *sch, enum watch_kind kind, int ret) {
    struct qdisc_skb_cb *cb = (struct qdisc_skb_cb *)skb->cb;
    struct watch_stats stats;
    u32 overmemory = 0, memory = 0, limit = sch->limit, mtu = mtu_of(sch), bits, own;
    bool is_timed; /* the kernel wrote the moment to the packet */
    int counts;
    if (!queue->is_enqueue) {
        __sync_fetch_and_add(&steps_missed, 1);
        return;
    }
    queue->is_enqueue = false;
    if (kind == WATCH_PIE) {
        copy_stats(&stats, &PIE_OF(sch)->stats);
    } else {
        copy_stats(&stats, &FQ_PIE_OF(sch)->stats);
        memory = FQ_PIE_OF(sch)->memory_usage;
        overmemory = FQ_PIE_OF(sch)->overmemory;
    }
    counts = counts_of(queue, &stats, overmemory);
    if (limit != queue->limit || mtu != queue->mtu || counts < 0) {
        queue->limit = limit;
        queue->mtu = mtu;
        if (counts < 0) {
            queue->stats = stats;
            queue->overmemory = overmemory;
            counts = 0;
        }
        if (!queue->is_broken) {
            fill_base(next_record(queue), queue, WATCH_BASE, 0);
            hold(queue);
        }
    }
    own = own_words(queue);
    if (own > 1) /* this step cannot be recorded */
        queue->is_broken = true;
    if (kind == WATCH_FQ_PIE && queue->flow == WATCH_FLOW_NONE) /* the limit came before pie_drop_early */
        queue->flow = chosen_flow(skb, sch);
    if (ret != 0 && !queue->has_header)
        read_header(queue, skb);
    queue->own = sch->q.qlen - queue->returned;
    is_timed = counts & WATCH_COUNT_IN && !(kind == WATCH_PIE ? PIE_OF(sch)->params.dq_rate_estimator : FQ_PIE_OF(sch)->p_params.dq_rate_estimator);
    struct watch_enqueue *record = STEP(queue, WATCH_ENQUEUE, is_timed ? IN_RECORD : NOW);
    if (record == NULL)
        return;
    queue->stats = stats;
    queue->memory = memory;
    queue->overmemory = overmemory;
    if (kind == WATCH_PIE) {
        copy_vars(&record->vars, &PIE_OF(sch)->vars);
        queue->early = counts & WATCH_COUNT_OVERLIMIT ? WATCH_EARLY_NONE : (counts & (WATCH_COUNT_DROPPED | WATCH_COUNT_MARK)) != 0;
        queue->decided_backlog = queue->early != WATCH_EARLY_NONE ? queue->backlog : 0;
    } else if (queue->flow < FQ_PIE_OF(sch)->flows_cnt) {
        bpf_probe_read_kernel(&record->vars, sizeof record->vars,
                              (void *)(queue->flows + (u64)queue->flow * bpf_core_type_size(struct fq_pie_flow) + OFFSET(fq_pie_flow, vars)));
    } else {
        __builtin_memset(&record->vars, 0, sizeof record->vars);
    }
    if (queue->early == WATCH_EARLY_NONE)
        queue->decided_backlog = 0;
    record->head.flow = queue->flow;
    record->head.ret = (ret & 15) | (ret >> 16 & 15) << 4;
    record->head.counts = counts;
    record->size = skb->len;
    record->pkt_len = cb->pkt_len;
    record->qlen_before = queue->qlen;
    record->backlog_before = queue->backlog;
    record->qlen = sch->q.qlen;
    record->backlog = sch->qstats.backlog;
    record->decided_backlog = queue->decided_backlog;
    record->hash = kind == WATCH_FQ_PIE ? skb->hash : 0;
    record->truesize = kind == WATCH_FQ_PIE ? skb->truesize : 0;
    record->priority = kind == WATCH_FQ_PIE ? skb->priority : 0;
    record->memory = memory;
    record->protocol = queue->protocol;
    record->network = queue->network;
    record->returned = narrow(queue->returned);
    record->returned_bytes = queue->returned_bytes;
    record->spare = 0;
    record->enqueued = counts & WATCH_COUNT_IN ? ((struct pie_skb_cb *)cb->data)->enqueue_time : 0;
    bits = (queue->room ? WATCH_ROOM : 0) | queue->early << 1;
    record->random = own != 0 ? queue->values[0] : 0;
    bits |= own << 3;
    record->head.bits = bits;
    hold(queue);
}

static __always_inline int enqueue(struct sk_buff *skb, struct Qdisc *sch, u64 key, enum watch_kind kind, const void *stack) {
    struct queue *queue = find(key);
    if (queue == NULL) {
        queue = add(sch, key, kind);
        if (queue == NULL)
            return 0;
        queue->is_broken = true;
    }
    resume_if_due(queue);
    if (sch->limit != queue->limit && !queue->is_broken) /* a command was refused, and its limit is kept */
        tell_change(queue->place, 0, 0, 0);
    begin_enqueue(queue, skb, sch, kind, stack);
    return 0;
}

SEC("fentry/pie_qdisc_enqueue")
int BPF_PROG(pie_enqueue_begins, struct sk_buff *skb, struct Qdisc *sch) {
    return enqueue(skb, sch, PIE_KEY(sch), WATCH_PIE, ctx);
}

SEC("fexit/pie_qdisc_enqueue")
int BPF_PROG(pie_enqueue_ends, struct sk_buff *skb, struct Qdisc *sch, struct sk_buff **to_free, int ret) {
    struct queue *queue = find(PIE_KEY(sch));
    if (queue != NULL)
        end_enqueue(queue, skb, sch, WATCH_PIE, ret);
    return 0;
}

static __always_inline int keep_word(void *to, u64 count, const void *stack) {
    u64 word;
    if (count != sizeof word)
        return 0;
    bpf_probe_read_kernel(&word, sizeof word, to);
    keep_drawn(&words, word, stack);
    return 0;
}

/* A program is not entered again on a processor where it runs. If a packet is enqueued by an interrupt of the first program, the second one runs. */
SEC("fexit/get_random_bytes")
int BPF_PROG(random_first, void *to, u64 count) {
    return keep_word(to, count, ctx);
}

SEC("fexit/get_random_bytes")
int BPF_PROG(random_second, void *to, u64 count) {
    return keep_word(to, count, ctx);
}

/* ---- dequeue */

/* Reads the packets and bytes of a queue. `backlog` is an argument of the kernel's function: for pie, it has the bytes. */
static __always_inline void read_lengths(const struct queue *queue, u32 *qlen, u32 *bytes, u32 backlog) {
    bpf_probe_read_kernel(qlen, sizeof *qlen, (void *)(queue->sch + OFFSET(Qdisc, q.qlen)));
    *bytes = backlog;
    if (is_fq_pie(queue))
        bpf_probe_read_kernel(bytes, sizeof *bytes, (void *)(queue->sch + OFFSET(Qdisc, qstats.backlog)));
}

SEC("fentry/pie_process_dequeue")
int BPF_PROG(dequeue_begins, struct sk_buff *skb, struct pie_params *params) {
    struct queue *queue = find((u64)params);
    struct drawn *drawn = drawn_here(&readings);
    if (is_handled(queue) && drawn != NULL) {
        queue->readings = drawn->count;
        queue->stack = (u64)ctx;
        queue->is_dequeue = true;
    }
    return 0;
}

/* Returns true if the departure is a drop of a change of the limit, which fq_pie makes by its function for departures. */
static __always_inline bool is_dropped(const struct queue *queue, const struct pie_params *params) {
    u32 qlen = 0;
    if (queue->changing == 0 || queue->changing != bpf_get_current_task())
        return false;
    READ(qlen, queue->sch, Qdisc, q.qlen);
    return qlen >= params->limit;
}

/* Writes WATCH_CHANGE before a departure, if its parameters are in no record. Returns true if a change dropped the packet. */
static __always_inline bool tell_departure(struct queue *queue, struct sk_buff *skb, const struct pie_params *params) {
    struct qdisc_skb_cb *cb = (struct qdisc_skb_cb *)skb->cb;
    bool is_drop = is_dropped(queue, params);
    queue->dropped += is_drop;
    if (queue->is_broken || (params->limit == queue->params_limit && (!is_drop || queue->is_told)))
        return is_drop;
    queue->is_told = is_drop;
    tell_change(queue->place, 1, cb->pkt_len, is_fq_pie(queue) ? ((struct pie_skb_cb *)cb->data)->mem_usage : 0);
    return is_drop;
}

static __always_inline void fill_dequeue(struct watch_dequeue *record, struct queue *queue, struct sk_buff *skb, struct pie_params *params,
                                         struct pie_vars *vars, u32 backlog) {
    struct qdisc_skb_cb *cb = (struct qdisc_skb_cb *)skb->cb;
    record->head.flow = flow_of(queue, vars);
    copy_vars(&record->vars, vars);
    record->size = skb->len;
    record->pkt_len = cb->pkt_len;
    record->decided_backlog = backlog;
    read_lengths(queue, &record->qlen, &record->backlog, backlog);
    record->returned_bytes = returned_after(queue, record->qlen, queue->own - 1, &record->returned);
    record->spare = 0;
    record->memory = queue->memory -= is_fq_pie(queue) ? ((struct pie_skb_cb *)cb->data)->mem_usage : 0;
    record->enqueued = ((struct pie_skb_cb *)cb->data)->enqueue_time;
}

SEC("fexit/pie_process_dequeue")
int BPF_PROG(dequeue_ends, struct sk_buff *skb, struct pie_params *params, struct pie_vars *vars, u32 backlog) {
    struct queue *queue = find((u64)params);
    struct watch_dequeue *record;
    bool is_drop;
    if (!is_handled(queue))
        return 0;
    is_drop = tell_departure(queue, skb, params);
    if (!params->dq_rate_estimator) {
        record = STEP(queue, WATCH_DEQUEUE, IN_RECORD);
        if (record == NULL)
            return 0;
        fill_dequeue(record, queue, skb, params, vars, backlog);
    } else {
        u32 own = has_clock && queue->is_dequeue ? own_readings(queue) : 0;
        if (own == 0 || own > 3) /* this step cannot be recorded */
            queue->is_broken = true;
        queue->is_dequeue = false;
        record = STEP(queue, WATCH_DEQUEUE, NOW);
        if (record == NULL)
            return 0;
        fill_dequeue(record, queue, skb, params, vars, backlog);
        record->at[0] = queue->values[0];
        record->at[1] = own > 1 ? queue->values[1] : 0;
        record->at[2] = own > 2 ? queue->values[2] : 0;
        record->head.bits = WATCH_HAS_CLOCK | own;
    }
    if (is_drop)
        record->head.bits |= WATCH_DROP;
    hold(queue);
    return 0;
}

SEC("fexit/ktime_get")
int BPF_PROG(clock_first, u64 ns) {
    keep_drawn(&readings, ns, ctx);
    return 0;
}

SEC("fexit/ktime_get")
int BPF_PROG(clock_second, u64 ns) {
    keep_drawn(&readings, ns, ctx);
    return 0;
}

/* ---- the probability */

static __always_inline bool is_same(const struct pie_vars *one, const struct watch_vars *other) {
    return one->qdelay == other->qdelay && one->qdelay_old == other->qdelay_old && one->burst_time == other->burst_time &&
           one->dq_tstamp == other->dq_tstamp && one->prob == other->prob && one->accu_prob == other->accu_prob && one->dq_count == other->dq_count &&
           one->avg_dq_rate == other->avg_dq_rate && one->backlog_old == other->backlog_old;
}

SEC("fexit/pie_calculate_probability")
int BPF_PROG(calculation_ends, struct pie_params *params, struct pie_vars *vars, u32 backlog) {
    struct queue *queue = find((u64)params);
    struct watch_calc *record;
    if (!is_handled(queue))
        return 0;
    if (is_fq_pie(queue) && is_same(vars, &queue->vars)) {
        queue->is_calculating = 0;
        return 0;
    }
    record = STEP(queue, WATCH_CALC, NOW);
    if (record != NULL) {
        record->head.flow = flow_of(queue, vars);
        copy_vars(&record->vars, vars);
        record->decided_backlog = backlog;
        read_lengths(queue, &record->qlen, &record->backlog, backlog);
        record->returned_bytes = returned_after(queue, record->qlen, queue->own, &record->returned);
        __builtin_memset(record->spare, 0, sizeof record->spare);
        hold(queue);
    }
    if (!is_fq_pie(queue)) {
        flush(queue->place);
        resume_if_due(queue);
    }
    queue->is_calculating = 0;
    return 0;
}

/* ---- changes, resets and removal */

static __always_inline int begin_change(u64 key) {
    struct queue *queue = find(key);
    if (queue != NULL) {
        queue->dropped = 0;
        queue->is_told = false;
        queue->changing = bpf_get_current_task();
    }
    return 0;
}

static __always_inline int make_change(struct Qdisc *sch, u64 key, enum watch_kind kind, u32 packets, u32 bytes) {
    struct queue *queue = find(key);
    if (queue != NULL && queue->kind == kind && queue->sch == (u64)sch && queue->changing == bpf_get_current_task())
        write_whole(queue->place, WATCH_CHANGE, packets, bytes);
    return 0;
}

static __always_inline int end_change(u64 key) {
    struct queue *queue = find(key);
    if (queue != NULL)
        queue->changing = 0;
    return 0;
}

static __always_inline int end_init(struct Qdisc *sch, u64 key, enum watch_kind kind, int ret) {
    struct queue *queue = ret == 0 ? add(sch, key, kind) : NULL;
    if (queue == NULL)
        return 0;
    queue->is_named = write_name(queue);
    queue->is_broken = !queue->is_named;
    write_whole(queue->place, WATCH_INIT, 0, 0);
    return 0;
}

/* The reset of a queue that is removed does not take its lock. If the timer calculates meanwhile, neither step can be recorded. */
static __always_inline int begin_reset(u64 key) {
    struct queue *queue = find(key);
    if (queue == NULL)
        return 0;
    __sync_fetch_and_add(&queue->is_resetting, 1);
    if (queue->is_calculating != 0)
        queue->is_broken = true;
    return 0;
}

static __always_inline int end_reset(u64 key) {
    struct queue *queue = find(key);
    if (queue == NULL)
        return 0;
    write_whole(queue->place, WATCH_RESET, 0, 0);
    queue->is_resetting = 0;
    return 0;
}

static __always_inline int end_destroy(u64 key) {
    struct queue *queue = find(key);
    if (queue == NULL)
        return 0;
    write_whole(queue->place, WATCH_DESTROY, 0, 0);
    queue->is_gone = queue->lost != 0 && !write_lost(queue);
    if (!queue->is_gone) {
        __sync_lock_test_and_set(&queue->key, FREED);
        __sync_fetch_and_add(&queues_now, -1);
    }
    return 0;
}

SEC("fentry/pie_change")
int BPF_PROG(pie_change_begins, struct Qdisc *sch) {
    return begin_change(PIE_KEY(sch));
}

/* pie_change and fq_pie_change call this function under the lock, after the last packet that they drop. */
SEC("fentry/qdisc_tree_reduce_backlog")
int BPF_PROG(change_is_made, struct Qdisc *sch, int packets, int bytes) {
    return make_change(sch, PIE_KEY(sch), WATCH_PIE, packets, bytes);
}

SEC("fexit/pie_change")
int BPF_PROG(pie_change_ends, struct Qdisc *sch) {
    return end_change(PIE_KEY(sch));
}

SEC("fexit/pie_init")
int BPF_PROG(pie_init_ends, struct Qdisc *sch, void *options, void *answer, int ret) {
    return end_init(sch, PIE_KEY(sch), WATCH_PIE, ret);
}

SEC("fentry/pie_reset")
int BPF_PROG(pie_reset_begins, struct Qdisc *sch) {
    return begin_reset(PIE_KEY(sch));
}

SEC("fexit/pie_reset")
int BPF_PROG(pie_reset_ends, struct Qdisc *sch) {
    return end_reset(PIE_KEY(sch));
}

SEC("fexit/pie_destroy")
int BPF_PROG(pie_destroy_ends, struct Qdisc *sch) {
    return end_destroy(PIE_KEY(sch));
}

/* ---- fq_pie */

SEC("fentry/fq_pie_qdisc_enqueue")
int BPF_PROG(fq_pie_enqueue_begins, struct sk_buff *skb, struct Qdisc *sch) {
    return enqueue(skb, sch, FQ_PIE_KEY(sch), WATCH_FQ_PIE, ctx);
}

/* The only function that receives the flow. It is not called if the queue is full. */
SEC("fexit/pie_drop_early")
int BPF_PROG(drop_early_ends, struct Qdisc *sch, struct pie_params *params, struct pie_vars *vars, u32 backlog, u32 size, u64 result) {
    struct queue *queue = find((u64)params);
    if (queue == NULL || !is_fq_pie(queue))
        return 0;
    queue->flow = flow_of(queue, vars);
    queue->decided_backlog = backlog;
    queue->early = (u8)result != 0; /* (a function that returns `bool` sets the lowest byte) */
    return 0;
}

SEC("fexit/fq_pie_qdisc_enqueue")
int BPF_PROG(fq_pie_enqueue_ends, struct sk_buff *skb, struct Qdisc *sch, struct sk_buff **to_free, int ret) {
    struct queue *queue = find(FQ_PIE_KEY(sch));
    if (queue != NULL)
        end_enqueue(queue, skb, sch, WATCH_FQ_PIE, ret);
    return 0;
}

SEC("fentry/fq_pie_timer")
int BPF_PROG(fq_pie_round_begins, struct timer_list *timer) {
    struct queue *queue = find((u64)timer - OFFSET(fq_pie_sched_data, adapt_timer) + OFFSET(fq_pie_sched_data, p_params));
    if (queue != NULL)
        queue->is_round = true;
    return 0;
}

/* The first calculation of a round is under the lock; the beginning of fq_pie_timer is not. */
SEC("fentry/pie_calculate_probability")
int BPF_PROG(calculation_begins, struct pie_params *params, struct pie_vars *vars) {
    struct queue *queue = find((u64)params);
    if (!is_handled(queue))
        return 0;
    __sync_fetch_and_add(&queue->is_calculating, 1);
    if (queue->is_resetting != 0)
        queue->is_broken = true;
    if (!is_fq_pie(queue))
        return 0;
    if (queue->is_round) {
        queue->is_round = false;
        resume_if_due(queue);
        struct watch_head *record = STEP(queue, WATCH_TIMER, NOW);
        if (record != NULL) {
            record->flow = flow_of(queue, vars);
            hold(queue);
            flush(queue->place);
        }
    }
    copy_vars(&queue->vars, vars);
    return 0;
}

SEC("fentry/fq_pie_change")
int BPF_PROG(fq_pie_change_begins, struct Qdisc *sch) {
    return begin_change(FQ_PIE_KEY(sch));
}

SEC("fexit/fq_pie_change")
int BPF_PROG(fq_pie_change_ends, struct Qdisc *sch) {
    return end_change(FQ_PIE_KEY(sch));
}

SEC("fentry/qdisc_tree_reduce_backlog")
int BPF_PROG(fq_pie_change_is_made, struct Qdisc *sch, int packets, int bytes) {
    return make_change(sch, FQ_PIE_KEY(sch), WATCH_FQ_PIE, packets, bytes);
}

SEC("fexit/fq_pie_init")
int BPF_PROG(fq_pie_init_ends, struct Qdisc *sch, void *options, void *answer, int ret) {
    return end_init(sch, FQ_PIE_KEY(sch), WATCH_FQ_PIE, ret);
}

SEC("fentry/fq_pie_reset")
int BPF_PROG(fq_pie_reset_begins, struct Qdisc *sch) {
    return begin_reset(FQ_PIE_KEY(sch));
}

SEC("fexit/fq_pie_reset")
int BPF_PROG(fq_pie_reset_ends, struct Qdisc *sch) {
    return end_reset(FQ_PIE_KEY(sch));
}

/* fq_pie_destroy releases its flows, which the record of fq_pie does not read. */
SEC("fexit/fq_pie_destroy")
int BPF_PROG(fq_pie_destroy_ends, struct Qdisc *sch) {
    return end_destroy(FQ_PIE_KEY(sch));
}
