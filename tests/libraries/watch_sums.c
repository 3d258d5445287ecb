/* Runs the BPF programs of watch_sums.bpf.c in user space, with a kernel that this file makes (watch.py): random queues of pie and fq_pie are created, found,
 * filled, emptied and removed. Each sum, each event and each queue must be the one that this file counts by itself, in other ways.
 *
 * usage: watch_sums [SEED [STEPS]] */
#include <stdio.h>
#include <stdlib.h>
#include <string.h>

#define const /* (this file changes the filters of the programs) */
#include "watch_sums.bpf.c"
#undef const

#define QUEUES 24
#define FLOWS 8
#define HELD 64
#define CHECK(what, ours, right)                                                                                                   \
    do {                                                                                                                           \
        unsigned long long ours_ = (unsigned long long)(ours), right_ = (unsigned long long)(right);                               \
        if (ours_ != right_) {                                                                                                     \
            printf("%s: %llu, right is %llu (step %lu, line %d)\n", what, ours_, right_, steps, __LINE__);                         \
            exit(1);                                                                                                               \
        }                                                                                                                          \
    } while (0)

/* A queue of the kernel, and what is counted of it. */
struct made {
    union {
        struct Qdisc sch;
        unsigned char memory[1024];
    };
    struct fq_pie_flow flows[FLOWS];
    struct netdev_queue dev_queue;
    struct net_device device;
    struct net net;
    bool is_there, is_fq, is_known, is_wanted;
    u32 number;
    u64 arrived, early, over, marked, departed, departed_bytes, waited, longest, waits[SUMS_WAITS];
    u64 probability, delay; /* of fq_pie's departures since the last reading */
    u64 offset_in, offset_dropped, offset_over, offset_marked; /* of the kernel's counters, when the queue was created */
    u32 lost;
};

static struct made all[QUEUES];
static struct sums_counts right_gone;
static u64 right_gone_waits[SUMS_WAITS];
static unsigned long steps;
static u64 clock_ns = 1000;
static u32 number_of_next, removed, lost_of_gone;

/* ---- the kernel's helpers */

static struct {
    u64 key;
    struct sums_queue value;
} elements[QUEUES + 1];
static u32 most_elements = QUEUES;
static struct sums_event event, *last_event;
static u64 event_bytes;
static bool is_full, is_submitted;
static struct sums_queue row;
static u32 rows;

void *bpf_map_lookup_elem(void *map, void *key) {
    for (u32 i = 0; i < QUEUES && map == &sums; i++) {
        if (elements[i].key == *(u64 *)key)
            return &elements[i].value;
    }
    return NULL;
}

long bpf_map_update_elem(void *map, void *key, void *value, u64 flags) {
    u32 count = 0;
    if (flags != BPF_NOEXIST || bpf_map_lookup_elem(map, key) != NULL)
        return -17;
    for (u32 i = 0; i < QUEUES; i++)
        count += elements[i].key != 0;
    for (u32 i = 0; i < QUEUES && count < most_elements; i++) {
        if (elements[i].key == 0) {
            elements[i].key = *(u64 *)key;
            memcpy(&elements[i].value, value, sizeof elements[i].value);
            return 0;
        }
    }
    return -7;
}

long bpf_map_delete_elem(void *map, void *key) {
    for (u32 i = 0; i < QUEUES && map == &sums; i++) {
        if (elements[i].key == *(u64 *)key)
            elements[i].key = 0;
    }
    return 0;
}

void *bpf_ringbuf_reserve(void *ring, u64 size, u64 flags) {
    if (is_full || ring != &events || (size != sizeof event && size != SUMS_PACKET) || flags != 0)
        return NULL;
    memset(&event, 0xa5, sizeof event);
    event_bytes = size;
    is_submitted = false;
    return last_event = &event;
}

void bpf_ringbuf_submit(void *data, u64 flags) {
    is_submitted = data == &event && flags == BPF_RB_NO_WAKEUP;
    for (u64 i = event_bytes; i < sizeof event; i++)
        CHECK("a byte after the event", ((unsigned char *)&event)[i], 0xa5);
}

long bpf_probe_read_kernel(void *to, u32 size, void *from) {
    if ((u64)from < 4096)
        return -14;
    memcpy(to, from, size);
    return 0;
}

long bpf_probe_read_kernel_str(void *to, u32 size, void *from) {
    snprintf(to, size, "%s", (char *)from);
    return (long)strlen(to) + 1;
}

u64 bpf_ktime_get_ns(void) {
    return clock_ns;
}

u32 bpf_get_smp_processor_id(void) {
    return 3;
}

long bpf_seq_write(struct seq_file *seq, void *data, u32 bytes) {
    CHECK("the bytes of a row", bytes, sizeof row);
    (void)seq;
    memcpy(&row, data, sizeof row);
    rows++;
    return 0;
}

/* ---- the kernel's queues */

static u64 chance(u64 below) {
    static u64 state = 88172645463325252ull;
    state ^= state << 13;
    state ^= state >> 7;
    state ^= state << 17;
    return state % below;
}

static void *own(struct made *made) {
    return (unsigned char *)made + __builtin_offsetof(struct Qdisc, privdata);
}

static struct pie_stats *stats_of(struct made *made) {
    return made->is_fq ? &((struct fq_pie_sched_data *)own(made))->stats : &((struct pie_sched_data *)own(made))->stats;
}

static struct pie_params *params_of(struct made *made) {
    return made->is_fq ? &((struct fq_pie_sched_data *)own(made))->p_params : &((struct pie_sched_data *)own(made))->params;
}

static struct pie_vars *vars_of(struct made *made, u32 flow) {
    return made->is_fq ? &made->flows[flow].vars : &((struct pie_sched_data *)own(made))->vars;
}

/* Takes the last event, which must be there if the ring was not full. Returns NULL if it was. */
static struct sums_event *taken(struct made *made, u8 type) {
    struct sums_event *found = last_event;
    last_event = NULL;
    if (is_full) {
        made->lost++;
        CHECK("an event without a place", found != NULL, false);
        return NULL;
    }
    CHECK("an event", found != NULL && is_submitted, true);
    CHECK("its type", found->type, type);
    CHECK("its bytes", event_bytes, type == SUMS_CREATED || type == SUMS_REMOVED ? sizeof event : SUMS_PACKET);
    CHECK("its number", found->number, made->number);
    CHECK("its moment", found->ns, clock_ns);
    CHECK("its processor", found->cpu, 3);
    return found;
}

static void create(struct made *made) {
    u32 ret = chance(8) == 0 ? -22 : 0;
    struct sums_event *found;
    memset(made, 0, sizeof *made);
    made->is_fq = chance(2);
    made->sch.dev_queue = &made->dev_queue;
    made->dev_queue.dev = &made->device;
    made->device.nd_net.net = &made->net;
    made->device.ifindex = 7;
    made->net.ns.inum = 4026530000u + chance(2);
    snprintf(made->device.name, sizeof made->device.name, "%s", chance(2) ? "eth0" : "eth01");
    made->sch.handle = (1 + (u32)chance(2)) << 16;
    made->sch.parent = 0x10000 + (u32)chance(100);
    made->sch.limit = 10;
    params_of(made)->target = 234375 + chance(100);
    params_of(made)->ecn = chance(2);
    params_of(made)->dq_rate_estimator = chance(4) == 0;
    stats_of(made)->packets_in = -(u32)chance(40);
    stats_of(made)->dropped = 4 + (u32)chance(5);
    stats_of(made)->overlimit = 2;
    stats_of(made)->ecn_mark = -(u32)chance(5);
    if (made->is_fq) {
        ((struct fq_pie_sched_data *)own(made))->flows = made->flows;
        ((struct fq_pie_sched_data *)own(made))->flows_cnt = FLOWS;
    }
    made->is_there = ret == 0;
    made->is_wanted = (wanted_netns == 0 || made->net.ns.inum == wanted_netns) && (wanted_handle == 0 || made->sch.handle == wanted_handle) &&
                      (wanted_device[0] == '\0' || strcmp(made->device.name, (char *)wanted_device) == 0);
    if (!is_on && ret != 0)
        return;
    if (made->is_fq)
        fq_pie_begins(&made->sch, NULL, NULL, (int)ret);
    else
        pie_begins(&made->sch, NULL, NULL, (int)ret);
    made->is_known = is_on && made->is_wanted && ret == 0 && most_elements != 0;
    CHECK("a queue is there", bpf_map_lookup_elem(&sums, &(u64){made->is_fq ? FQ_PIE_KEY(&made->sch) : PIE_KEY(&made->sch)}) != NULL, made->is_known);
    if (!made->is_known) {
        CHECK("no event", last_event != NULL, false);
        return;
    }
    made->number = number_of_next++;
    found = taken(made, SUMS_CREATED);
    if (found == NULL)
        return;
    CHECK("the kind", found->queue.kind, made->is_fq ? WATCH_FQ_PIE : WATCH_PIE);
    CHECK("the handle", found->queue.handle, made->sch.handle);
    CHECK("the parent", found->queue.parent, made->sch.parent);
    CHECK("the namespace", found->queue.netns, made->net.ns.inum);
    CHECK("the device's name", strcmp(found->queue.device, made->device.name), 0);
    CHECK("the beginning", found->queue.born, clock_ns);
}

/* The counters of the kernel before the queue was seen are in its sums then, in 32 bits, except those of its departures. */
static void count_earlier(struct made *made) {
    struct pie_stats *stats = stats_of(made);
    made->arrived = (u64)stats->packets_in + stats->dropped;
    made->early = stats->dropped - stats->overlimit;
    made->over = stats->overlimit;
    made->marked = stats->ecn_mark;
}

/* The kernel dumps a queue: it is found, if it was created before `is_on`. */
static void dump(struct made *made) {
    bool is_new = made->is_there && !made->is_known && made->is_wanted;
    if (!made->is_there)
        return;
    if (made->is_fq)
        fq_pie_is_there(&made->sch);
    else
        pie_is_there(&made->sch);
    if (is_new) {
        made->is_known = true;
        count_earlier(made);
        made->number = number_of_next++;
        taken(made, SUMS_CREATED);
    }
    CHECK("no event", last_event != NULL, false);
}

static struct sk_buff *packet(struct made *made, u8 *header, u32 *flow, u8 *ecn, u8 *version) {
    static struct sk_buff skb;
    memset(&skb, 0, sizeof skb);
    memset(header, 0, 64);
    skb.len = 60 + (u32)chance(1400);
    skb.hash = (u32)chance(1ull << 32);
    skb.mark = (u32)chance(1000);
    skb.priority = chance(3) == 0 ? made->sch.handle | (u32)chance(FLOWS + 3) : (u32)chance(100);
    *flow = (u32)((u64)skb.hash * FLOWS >> 32);
    if ((skb.priority & 0xffff0000) == made->sch.handle && (skb.priority & 0xffff) >= 1 && (skb.priority & 0xffff) <= FLOWS)
        *flow = (skb.priority & 0xffff) - 1;
    *ecn = (u8)chance(4);
    *version = (u8[]){4, 6, 0}[chance(3)];
    skb.head = header;
    skb.network_header = 4;
    if (*version == 4) {
        memcpy(header + 4, (u8[]){0x46, *ecn, 0, 60, 0, 0, 0, 0, 64, 6, 0, 0, 192, 0, 2, 7, 198, 51, 100, 9, 1, 1, 1, 1, 0x01, 0xbb, 0xc8, 0x22}, 28);
    } else if (*version == 6) {
        header[4] = 0x60;
        header[5] = (u8)(*ecn << 4);
        header[10] = 17;
        for (u8 i = 0; i < 32; i++)
            header[12 + i] = i + 1;
        memcpy(header + 44, (u8[]){0x01, 0xbb, 0xc8, 0x22}, 4);
    }
    ((struct qdisc_skb_cb *)skb.cb)->pkt_len = skb.len + 14;
    return &skb;
}

static void check_packet(struct made *made, struct sums_event *found, struct sk_buff *skb, u32 flow, u8 ecn, u8 version, bool is_drop, bool is_over) {
    CHECK("the cause", found->cause, is_drop && is_over ? SUMS_OVER : SUMS_EARLY);
    CHECK("the size", found->packet.size, skb->len);
    CHECK("the length", found->packet.pkt_len, skb->len + 14);
    CHECK("the packets", found->packet.packets, made->sch.q.qlen);
    CHECK("the bytes", found->packet.bytes, made->sch.qstats.backlog);
    CHECK("the limit", found->packet.limit, made->sch.limit);
    CHECK("the hash", found->packet.hash, skb->hash);
    CHECK("the mark", found->packet.mark, skb->mark);
    CHECK("the priority", found->packet.priority, skb->priority);
    CHECK("the flow", found->packet.flow, made->is_fq ? flow : WATCH_FLOW_NONE);
    CHECK("the probability", found->packet.probability, vars_of(made, flow)->prob);
    CHECK("the delay", found->packet.delay, vars_of(made, flow)->qdelay);
    CHECK("the burst", found->packet.burst, vars_of(made, flow)->burst_time);
    CHECK("the target", found->packet.target, params_of(made)->target);
    CHECK("ecn", found->packet.has_ecn, params_of(made)->ecn);
    CHECK("arrived", found->packet.arrived, stats_of(made)->packets_in);
    CHECK("dropped", found->packet.dropped, stats_of(made)->dropped);
    CHECK("over", found->packet.over, stats_of(made)->overlimit);
    CHECK("marked", found->packet.marked, stats_of(made)->ecn_mark);
    CHECK("the header", found->packet.has_header, version);
    if (version != 0)
        CHECK("the ECN field", found->packet.tos & 3, ecn);
    CHECK("the transport", found->packet.transport, version == 4 ? 6 : version == 6 ? 17 : 0);
    CHECK("ports", found->packet.has_ports, version != 0 && has_addresses);
    CHECK("a port", found->packet.ports[1], found->packet.has_ports ? 0x22c8 : 0);
    u8 addresses[32] = {192, 0, 2, 7, 198, 51, 100, 9};
    for (u8 i = 0; i < 32 && version == 6; i++)
        addresses[i] = i + 1;
    if (version == 0 || !has_addresses)
        memset(addresses, 0, sizeof addresses);
    CHECK("the addresses", memcmp(found->packet.addresses, addresses, 32), 0);
}

static void enqueue(struct made *made) {
    u8 header[64], ecn, version;
    u32 flow, ret = 0;
    struct sk_buff *skb = packet(made, header, &flow, &ecn, &version);
    struct sums_event *found;
    struct pie_vars *vars = vars_of(made, flow);
    bool is_over = made->sch.q.qlen >= made->sch.limit, is_drop = is_over || chance(4) == 0, is_mark = !is_drop && params_of(made)->ecn && chance(3) == 0;
    vars->prob = chance(1ull << 56);
    vars->qdelay = chance(1 << 24);
    vars->burst_time = chance(1 << 24);
    if (is_drop) {
        stats_of(made)->dropped++;
        stats_of(made)->overlimit += is_over;
        made->early += !is_over;
        made->over += is_over;
        ret = made->is_fq ? 2 : 1;
    } else {
        made->sch.q.qlen++;
        made->sch.qstats.backlog += skb->len + 14;
        stats_of(made)->packets_in++;
        stats_of(made)->ecn_mark += is_mark;
        made->marked += is_mark;
    }
    made->arrived++;
    if (made->is_fq)
        fq_pie_arrival(skb, &made->sch, NULL, (int)ret);
    else
        pie_arrival(skb, &made->sch, NULL, (int)ret);
    if (!made->is_known || (!is_drop && !is_mark)) {
        CHECK("no event", last_event != NULL, false);
        return;
    }
    found = taken(made, is_drop ? SUMS_DROPPED : SUMS_MARKED);
    if (found != NULL)
        check_packet(made, found, skb, flow, ecn, version, is_drop, is_over);
}

static void dequeue(struct made *made) {
    static struct sk_buff skb;
    u32 flow = (u32)chance(FLOWS), bucket = 0;
    struct pie_vars *vars = vars_of(made, flow);
    u64 wait = chance(4) == 0 ? 250000ull * (1ull << chance(13)) / 64 + chance(3) - 1 : chance(1ull << (1 + chance(24)));
    if (made->sch.q.qlen == 0)
        return;
    made->sch.q.qlen--;
    vars->dq_tstamp = 1ull << 40;
    vars->prob = chance(1ull << 56);
    vars->qdelay = params_of(made)->dq_rate_estimator ? wait : chance(1 << 24);
    *(u64 *)((void *)skb.cb + OFFSET(qdisc_skb_cb, data)) = params_of(made)->dq_rate_estimator ? chance(1000) : vars->dq_tstamp - wait;
    ((struct qdisc_skb_cb *)skb.cb)->pkt_len = 60 + (u32)chance(1400);
    made->sch.qstats.backlog -= made->sch.qstats.backlog < ((struct qdisc_skb_cb *)skb.cb)->pkt_len ? 0 : ((struct qdisc_skb_cb *)skb.cb)->pkt_len;
    sums_departure(&skb, params_of(made), vars);
    CHECK("no event", last_event != NULL, false);
    if (!made->is_known)
        return;
    made->departed++;
    made->departed_bytes += ((struct qdisc_skb_cb *)skb.cb)->pkt_len;
    made->waited += wait;
    while (bucket < SUMS_WAITS - 1 && wait * 64 > 250000ull << bucket)
        bucket++;
    made->waits[bucket]++;
    made->longest = wait > made->longest ? wait : made->longest;
    if (made->is_fq) {
        if (made->delay == ~0ull)
            made->probability = made->delay = 0;
        made->probability = vars->prob > made->probability ? vars->prob : made->probability;
        made->delay = vars->qdelay > made->delay ? vars->qdelay : made->delay;
    }
}

static void check_counts(struct made *made, struct sums_counts *ours, u64 *waits) {
    CHECK("arrived", ours->arrived, made->arrived);
    CHECK("early", ours->early, made->early);
    CHECK("over", ours->over, made->over);
    CHECK("marked", ours->marked, made->marked);
    CHECK("departed", ours->departed, made->departed);
    CHECK("departed bytes", ours->departed_bytes, made->departed_bytes);
    CHECK("waited", ours->waited, made->waited);
    for (u32 i = 0; i < SUMS_WAITS; i++)
        CHECK("waits", waits[i], made->waits[i]);
}

static void read_all(void) {
    u32 known = 0, lost = 0;
    rows = 0;
    for (u32 i = 0; i < QUEUES; i++) {
        struct made *made = &all[i];
        u64 key = made->is_fq ? FQ_PIE_KEY(&made->sch) : PIE_KEY(&made->sch);
        struct sums_queue *queue = made->is_known ? bpf_map_lookup_elem(&sums, &key) : NULL;
        if (queue == NULL)
            continue;
        sums_read(&(struct bpf_iter__bpf_map_elem){.meta = &(struct bpf_iter_meta){NULL}, .key = &key, .value = queue});
        CHECK("rows", rows, ++known);
        CHECK("the number", row.number, made->number);
        check_counts(made, &row.counts, row.waits);
        CHECK("packets", row.packets, made->sch.q.qlen);
        CHECK("bytes", row.bytes, made->sch.qstats.backlog);
        CHECK("the limit", row.limit, made->sch.limit);
        CHECK("the target", row.target, params_of(made)->target);
        CHECK("the longest wait", row.longest, made->longest);
        CHECK("lost", row.lost, made->lost);
        if (!made->is_fq) {
            CHECK("the probability", row.probability, vars_of(made, 0)->prob);
            CHECK("the delay", row.delay, vars_of(made, 0)->qdelay);
        } else if (made->delay != ~0ull) {
            CHECK("the greatest probability", row.probability, made->probability);
            CHECK("the greatest delay", row.delay, made->delay);
        }
        made->longest = 0;
        if (made->is_fq)
            made->delay = ~0ull; /* until the next departure it stays */
        lost += made->lost;
    }
    slice++;
    CHECK("queues seen", queues_seen, number_of_next);
    CHECK("removed queues", gone_number, removed);
    CHECK("sums of removed queues", memcmp(&gone, &right_gone, sizeof gone), 0);
    CHECK("waits of removed queues", memcmp(gone_waits, right_gone_waits, sizeof gone_waits), 0);
    CHECK("events of removed queues without a place", lost_elsewhere, lost_of_gone);
}

static void destroy(struct made *made) {
    struct sums_event *found;
    if (made->is_fq)
        fq_pie_leaves(&made->sch);
    else
        pie_leaves(&made->sch);
    made->is_there = false;
    if (!made->is_known) {
        CHECK("no event", last_event != NULL, false);
        return;
    }
    found = taken(made, SUMS_REMOVED);
    if (found != NULL)
        check_counts(made, &found->queue.counts, found->queue.waits);
    made->is_known = false;
    removed++;
    lost_of_gone += made->lost;
    right_gone.arrived += made->arrived;
    right_gone.early += made->early;
    right_gone.over += made->over;
    right_gone.marked += made->marked;
    right_gone.departed += made->departed;
    right_gone.departed_bytes += made->departed_bytes;
    right_gone.waited += made->waited;
    for (u32 i = 0; i < SUMS_WAITS; i++)
        right_gone_waits[i] += made->waits[i];
}

static void begin(unsigned filter) {
    memset(all, 0, sizeof all);
    memset(elements, 0, sizeof elements);
    is_on = false;
    wanted_handle = filter == 1 ? 1 << 16 : 0;
    wanted_netns = filter == 2 ? 4026530001u : 0;
    memset((char *)wanted_device, 0, sizeof wanted_device);
    if (filter == 3)
        strcpy((char *)wanted_device, "eth0");
    has_addresses = filter != 1;
}

static void step(void) {
    struct made *made = &all[chance(QUEUES)];
    u64 what = chance(100);
    clock_ns += chance(1000);
    is_full = chance(16) == 0;
    if (!made->is_there) {
        create(made);
        if (made->is_there)
            count_earlier(made);
    } else if (what < 45) {
        enqueue(made);
    } else if (what < 90) {
        dequeue(made);
    } else if (what < 92) {
        destroy(made);
    } else if (what < 96) {
        if (is_on)
            dump(made);
    } else {
        read_all();
    }
}

int main(int count, char **words) {
    unsigned long most = count > 2 ? strtoul(words[2], NULL, 10) : 200000;
    for (unsigned long i = count > 1 ? strtoul(words[1], NULL, 10) : 1; i > 0; i--)
        chance(2);
    for (unsigned filter = 0; filter < 4; filter++) {
        begin(filter);
        for (steps = 0; steps < most / 4; steps++) {
            is_on = steps >= 200;
            step();
        }
        is_full = false;
        for (u32 i = 0; i < QUEUES; i++)
            dump(&all[i]);
        read_all();
        /* a map without a place */
        most_elements = 0;
        for (u32 i = 0; i < QUEUES; i++) {
            if (all[i].is_there)
                destroy(&all[i]);
        }
        u32 missed = queues_missed;
        do {
            create(&all[0]);
            last_event = NULL;
            if (all[0].is_there && all[0].is_wanted)
                break;
        } while (true);
        CHECK("a queue without a place", queues_missed, missed + 1);
        most_elements = QUEUES;
    }
    printf("%u queues, %llu departures\n", number_of_next, (unsigned long long)right_gone.departed);
    return 0;
}
