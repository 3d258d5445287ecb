/* The kernel's side of bindings/bpf/pie_qdisc.bpf.c, which is compiled for this processor with the calls of dist/bpf/pie_c.ll: maps, ring buffers, functions,
 * packets and a device, instead of libbpf's headers. bpf_qdisc.c and bpf_fq.c include it. */
#ifndef BPF_KERNEL_H
#define BPF_KERNEL_H

#define pie_open bpf_pie_open
#define pie_arrive_event bpf_pie_arrive_event
#define pie_depart_event bpf_pie_depart_event
#define pie_update_event bpf_pie_update_event
#define pie_reset_event bpf_pie_reset_event
#define pie_set_params_event bpf_pie_set_params_event
#include "bpf_rules.h"

#include <stdio.h>
#include <stdlib.h>

/* ---- The kernel's side: maps, ring buffers and functions, instead of libbpf's headers */

#define __BPF_HELPERS__
#define __BPF_TRACING_H__
#define SEC(name)
#define __ksym
#define __uint(name, value) int(*name)[value]
#define __type(name, value) typeof(value) *name
#define __array(name, value) typeof(value) *name[1]
#define BPF_PROG(name, ...) name(__VA_ARGS__)
#define bpf_kptr_xchg(place, value)        \
    ({                                     \
        struct sk_buff *old_ = *(place);   \
        *(place) = (value);                \
        old_;                              \
    })

static void *bpf_map_lookup_elem(void *map, const void *key);
static void *bpf_ringbuf_reserve(void *ring, uint64_t size, uint64_t flags);
static void bpf_ringbuf_submit(void *message, uint64_t flags);
static uint64_t bpf_ktime_get_ns(void);
static uint32_t bpf_get_prandom_u32(void);

#include QDISC

static void fail(const char *what);
static struct qdisc_queue all_queues[QDISC_QUEUES];
static struct qdisc_place all_places[QDISC_QUEUES * QDISC_PACKETS];
static struct qdisc_packet all_packets[QDISC_QUEUES * QDISC_PACKETS];
static struct qdisc_fq all_fqs[QDISC_FQS];
static struct qdisc_flow all_flows[QDISC_FQS * QDISC_FLOWS];
static uint32_t all_free_places[QDISC_FQS * QDISC_PACKETS];
static uint64_t now;
static bool has_ring, is_ring_full;

static void *bpf_map_lookup_elem(void *map, const void *key) {
    uint32_t number = *(const uint32_t *)key;
    if (map == &queues)
        return number < QDISC_QUEUES ? &all_queues[number] : NULL;
    if (map == &rings)
        return has_ring ? &has_ring : NULL;
    if (map == &fqs)
        return number < QDISC_FQS ? &all_fqs[number] : NULL;
    if (map == &flows)
        return number < QDISC_FQS * QDISC_FLOWS ? &all_flows[number] : NULL;
    if (map == &free_places)
        return number < QDISC_FQS * QDISC_PACKETS ? &all_free_places[number] : NULL;
    if (number >= QDISC_QUEUES * QDISC_PACKETS)
        return NULL;
    return map == &places ? (void *)&all_places[number] : (void *)&all_packets[number];
}

static uint64_t bpf_ktime_get_ns(void) {
    return now;
}

static uint32_t bpf_get_prandom_u32(void) {
    return (uint32_t)draw();
}

int bpf_iter_num_new(struct bpf_iter_num *it, int start, int end) {
    it->opaque[0] = (uint64_t)end << 32 | (uint32_t)(start - 1);
    return 0;
}

int *bpf_iter_num_next(struct bpf_iter_num *it) {
    int *at = (int *)it->opaque;
    return ++at[0] < at[1] ? at : NULL;
}

void bpf_iter_num_destroy(struct bpf_iter_num *it) {
    (void)it;
}

/* A packet, of which the kernel or the queue discipline is the owner. */
struct owned {
    struct sk_buff skb;
    uint32_t hash, size;
    bool is_alive;
};

static struct owned made[2 * QDISC_PACKETS];
static const struct owned *arriving;
static uint64_t ended, dropped, sent_bytes, wake;

static struct owned *owned_of(const struct sk_buff *skb) {
    return (struct owned *)skb;
}

/* Counts the end of a packet. */
static void end_packet(struct sk_buff *skb) {
    if (!owned_of(skb)->is_alive)
        fail("a packet ends twice");
    owned_of(skb)->is_alive = false;
    ended++;
}

void bpf_qdisc_skb_drop(struct sk_buff *skb, struct bpf_sk_buff_ptr *to_free) {
    (void)to_free;
    dropped++;
    end_packet(skb);
}

void bpf_kfree_skb(struct sk_buff *skb) {
    end_packet(skb);
}

void bpf_qdisc_bstats_update(struct Qdisc *sch, const struct sk_buff *skb) {
    (void)sch;
    sent_bytes += owned_of(skb)->size;
}

void bpf_qdisc_watchdog_schedule(struct Qdisc *sch, uint64_t expire, uint64_t delta) {
    (void)sch, (void)delta;
    wake = expire;
}

uint32_t bpf_skb_get_hash(struct sk_buff *skb) {
    return owned_of(skb)->hash;
}

/* ---- The device and the queue */

static struct net net = {.ns = {.inum = 7}};
static struct net_device device = {.ifindex = 3, .nd_net = {.net = &net}};
static struct netdev_queue dev_queue = {.dev = &device};
static struct Qdisc sch;
static struct qdisc_queue *const queue = &all_queues[0];
static struct link link_out;

/* Returns random parameters. Seldom there are thousands of updates for each packet. */
static struct pie_params chosen_params(void) {
    struct pie_params it = random_params(&link_out);
    uint64_t least = link_out.pace * link_out.mean / 4000;
    if (draw() % 16 && it.t_update < least)
        it.t_update = least > 10000000000 ? 10000000000 : least;
    return it;
}

/* Sets the shaper to a packet's byte in `pace` ps. */
static void set_rate(uint64_t pace) {
    struct qdisc_shaper *shaper = &queue->config.shaper;
    shaper->rate = 8000000000000 / pace + 1;
    shaper->cost = (uint64_t)(((unsigned __int128)8000000000 << 20) / shaper->rate);
}

/* Prepares a queue with random parameters, as pie-qdisc does, and a reader. */
static void prepare_queue(void) {
    struct qdisc_config *config = &queue->config;
    memset(queue, 0, sizeof *queue);
    memset(&sch, 0, sizeof sch);
    sch.dev_queue = &dev_queue;
    sch.parent = draw();
    link_out = (struct link){.pace = between(80, 1000000000), .mean = 64 + draw() % 1437, .quarters = 2 + draw() % 15};
    config->opening.params = config->params = chosen_params();
    config->opening.profile = 1 + draw() % 2;
    config->opening.choices = draw() % 32;
    config->opening.mode = PIE_ROLLING;
    config->opening.packets = draw() % 4 ? QDISC_LIMIT : 1 + draw() % 100;
    config->opening.tail = 1024;
    config->opening.events = UINT64_C(1) << 47;
    if (draw() % 2) {
        /* a shaper is the bottleneck */
        set_rate(link_out.pace);
        config->shaper.overhead = draw() % 3 ? 0 : (int64_t)(draw() % 100) - 50;
    }
    config->use = QDISC_PREPARED;
    config->netns = 7, config->ifindex = 3, config->parent = sch.parent;
    config->snapshots = 1;
    now = between(1, UINT64_C(1) << 50);
    has_ring = true;
    is_ring_full = false;
}

/* ---- The shaper */

static uint64_t allowed_ps, begun_ps, paced; /* the next departure, the first one since the queue was empty, and the packets since then */

/* Returns the ps by which the shaper's moments may differ: a ns for each packet, and its cost of a byte is rounded down. */
static uint64_t tolerance(void) {
    return 2000 + paced * 1000 + (allowed_ps - begun_ps) / 50000;
}

/* Begins a period in which the queue has packets. */
static void begin_pacing(void) {
    if (allowed_ps < now * 1000) {
        allowed_ps = begun_ps = now * 1000;
        paced = 0;
    }
}

/* Checks that a packet departs when the shaper lets it, and computes the moment of the next one. */
static void check_pacing(const struct owned *packet) {
    const struct qdisc_shaper *shaper = &queue->config.shaper; /* which each call applies first */
    if (shaper->cost && now * 1000 + tolerance() < allowed_ps)
        fail("a packet departs before the shaper lets it");
    paced++;
    if (shaper->cost && (int64_t)packet->size + shaper->overhead > 0)
        allowed_ps += (uint64_t)((unsigned __int128)((int64_t)packet->size + shaper->overhead) * 8000000000000 / shaper->rate);
}

#endif
