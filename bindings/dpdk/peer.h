/* DPDK's rte_pie behind the lock, the ring and the calls of the stage, to compare the two in tests and measurements.
 *
 * It can also keep each event as the stage's flight recorder does, or add each to the sums of an interval, in C that is
 * written for this purpose alone (bench/peer/least.h): the least that a record costs a data plane. The events leave out
 * snapshots, stores that are ordered for another thread, frames other than IPv4 without VLAN tags and options, shared
 * headers, marks, refusals, flows, and the statistics of a history. The sums leave out updates, causes, counters that
 * saturate, and the record of a complete interval. */
#ifndef PEER_H
#define PEER_H

#include "../../bench/peer/least.h"
#include "stage_packet.h"

#include <rte_mbuf.h>
#include <rte_ring.h>
#include <rte_prefetch.h>
#include <rte_ring_elem.h>
#include <rte_spinlock.h>

/* (the functions of rte_pie.h are static, and not all are used) */
#pragma GCC diagnostic push
#pragma GCC diagnostic ignored "-Wunused-function"
#include <rte_pie.h>
#pragma GCC diagnostic pop

#define PEER_BURST 32u

/* The record of the peer: none, its events, or sums. */
enum peer_record { PEER_ALONE, PEER_KEPT, PEER_SUMMED };

struct peer_waiting {
    struct rte_mbuf *mbuf;
    uint64_t arrived, size, about; /* about: with events, the ECN field, and the packet's number above 2 bits */
};

struct peer {
    struct rte_ring *ring;
    struct rte_pie_config config;
    uint32_t room;
    rte_spinlock_t lock __rte_cache_aligned;
    struct rte_pie pie;
    uint32_t packets;
    uint64_t departed, waited, dropped, early; /* waited: in cycles; early: dropped packets that early drop picked */
    uint64_t start, factor;                    /* for moments in ns, as in struct pie_stage */
    uint64_t arrivals, kept;                   /* number of arrivals; number of complete events */
    struct least_events events;
    struct pie_state state; /* the parameters, for the sums */
    struct pie_period period;
};

/* Opens the records, over memory of `words` words for events. The moment is that of a stage with these numbers. */
static inline bool peer_open_records(struct peer *peer, uint64_t *memory, size_t words, uint64_t start, uint64_t factor, uint64_t every) {
    struct pie_opening opening;
    pie_default_opening(&opening, UINT64_C(10000000000));
    peer->start = start;
    peer->factor = factor;
    peer->events.event = peer->events.events = memory;
    peer->events.events_end = memory + words / PIE_FLIGHT_EVENT * PIE_FLIGHT_EVENT;
    return pie_open(&peer->state, &opening) == PIE_DONE && pie_open_period(&peer->period, every, 0) == PIE_DONE;
}

static inline uint64_t peer_moment(const struct peer *peer, uint64_t now) {
    return (uint64_t)((unsigned __int128)(now - peer->start) * peer->factor >> 50);
}

/* Reads the ECN fields of a burst. */
static inline void peer_look(struct rte_mbuf **mbufs, uint32_t count, uint32_t *ecn) {
    for (uint32_t i = 0; i < count; i++)
        rte_prefetch0(rte_pktmbuf_mtod(mbufs[i], const void *));
    for (uint32_t i = 0; i < count; i++)
        if (!stage_packet_is_usual(mbufs[i], &ecn[i]))
            ecn[i] = PIE_NOT_ECT;
}

/* Keeps the event of a packet, or adds it to the sums of its interval. */
static __rte_always_inline void peer_record_arrival(struct peer *peer, struct least_events *events, const struct peer_waiting *it,
                                                    uint32_t answer, const enum peer_record record) {
    if (record == PEER_KEPT) {
        rte_prefetch0_write(events->event + 12 * PIE_FLIGHT_EVENT);
        least_put(events, it->arrived, it->about >> 2, 0, it->size | (uint64_t)answer << 32,
                  pie_flight_about(PIE_EVENT_ARRIVE, it->about & 3, rte_lcore_id()));
    } else if (record == PEER_SUMMED)
        least_sum_arrival(&peer->period, it->arrived, &peer->state, (uint32_t)it->size, answer, 0);
}

static __rte_always_inline void peer_record_departure(struct peer *peer, struct least_events *events, const struct peer_waiting *it,
                                                      uint64_t moment, const enum peer_record record) {
    if (record == PEER_KEPT) {
        rte_prefetch0_write(events->event + 12 * PIE_FLIGHT_EVENT);
        least_put(events, moment, it->about >> 2, it->arrived, it->size,
                  pie_flight_about(PIE_EVENT_DEPART, it->about & 3, rte_lcore_id()));
    } else if (record == PEER_SUMMED)
        least_sum_departure(&peer->period, moment, &peer->state, (uint32_t)it->size, it->arrived);
}

/* Opens a queue of at most `room` packets with the parameters of RFC 8033 and of the stage: a target and an update
 * interval of 15 ms, and a burst allowance of 150 ms. */
static inline bool peer_open(struct peer *peer, uint32_t room) {
    memset(peer, 0, sizeof *peer);
    if (rte_pie_rt_data_init(&peer->pie) != 0 || rte_pie_config_init(&peer->config, 15, 15, 150, (uint16_t)room) != 0)
        return false;
    peer->room = room;
    rte_spinlock_init(&peer->lock);
    peer->ring = rte_ring_create_elem("peer", sizeof(struct peer_waiting), room, SOCKET_ID_ANY,
                                      RING_F_SP_ENQ | RING_F_SC_DEQ | RING_F_EXACT_SZ);
    return peer->ring != NULL;
}

static inline void peer_close(struct peer *peer) {
    struct peer_waiting oldest;
    while (rte_ring_dequeue_elem(peer->ring, &oldest, sizeof oldest) == 0)
        rte_pktmbuf_free(oldest.mbuf);
    rte_ring_free(peer->ring);
}

/* Enqueues packets. With records, `arrived` is in ns. */
static __rte_always_inline uint32_t peer_enqueue_as(struct peer *peer, struct rte_mbuf **mbufs, uint32_t count, uint64_t now,
                                                    const enum peer_record record) {
    struct peer_waiting burst[PEER_BURST];
    uint64_t moment = record == PEER_ALONE ? now : peer_moment(peer, now);
    uint32_t queued = 0, ecn[PEER_BURST];
    for (uint32_t from = 0; from < count; from += PEER_BURST) {
        uint32_t part = RTE_MIN(count - from, PEER_BURST), taken = 0;
        if (record == PEER_KEPT)
            peer_look(mbufs + from, part, ecn);
        rte_spinlock_lock(&peer->lock);
        struct least_events events = peer->events;
        for (uint32_t i = 0; i < part; i++) {
            struct rte_mbuf *mbuf = mbufs[from + i];
            struct peer_waiting packet = {.mbuf = mbuf, .arrived = moment, .size = rte_pktmbuf_pkt_len(mbuf)};
            int verdict = rte_pie_enqueue(&peer->config, &peer->pie, peer->packets, (uint32_t)packet.size, now);
            bool is_full = verdict == 0 && peer->packets == peer->room;
            if (record == PEER_KEPT)
                packet.about = ++peer->arrivals << 2 | ecn[i];
            peer_record_arrival(peer, &events, &packet, verdict == 2 ? PIE_EARLY : verdict != 0 || is_full ? PIE_PACKETS : PIE_ENQUEUE, record);
            peer->early += verdict == 2;
            if (verdict != 0)
                continue;
            if (is_full) { // (rte_pie counts each accepted packet as queued)
                peer->pie.qlen--;
                peer->pie.qlen_bytes -= packet.size;
                continue;
            }
            burst[taken] = packet;
            mbufs[from + i] = mbufs[queued + taken];
            mbufs[queued + taken++] = mbuf;
            peer->packets++;
        }
        rte_ring_enqueue_bulk_elem(peer->ring, burst, sizeof burst[0], taken, NULL);
        peer->events = events;
        __atomic_store_n(&peer->kept, events.count, __ATOMIC_RELEASE);
        peer->dropped += part - taken;
        queued += taken;
        rte_spinlock_unlock(&peer->lock);
    }
    if (queued < count)
        rte_pktmbuf_free_bulk(mbufs + queued, count - queued);
    return queued;
}

static inline uint32_t peer_enqueue(struct peer *peer, struct rte_mbuf **mbufs, uint32_t count, uint64_t now) {
    return peer_enqueue_as(peer, mbufs, count, now, PEER_ALONE);
}

static __rte_always_inline uint32_t peer_dequeue_as(struct peer *peer, struct rte_mbuf **mbufs, uint32_t count, uint64_t now,
                                                    const enum peer_record record) {
    struct peer_waiting oldest[PEER_BURST];
    uint64_t moment = record == PEER_ALONE ? now : peer_moment(peer, now);
    rte_spinlock_lock(&peer->lock);
    struct least_events events = peer->events;
    uint32_t taken = rte_ring_dequeue_burst_elem(peer->ring, oldest, sizeof oldest[0], RTE_MIN(count, PEER_BURST), NULL);
    for (uint32_t i = 0; i < taken; i++) {
        peer->packets--;
        peer->pie.qlen--;
        peer->pie.qlen_bytes -= oldest[i].size;
        rte_pie_dequeue(&peer->pie, (uint32_t)oldest[i].size, now);
        peer->departed++;
        peer->waited += moment > oldest[i].arrived ? moment - oldest[i].arrived : 0;
        peer_record_departure(peer, &events, &oldest[i], moment, record);
        mbufs[i] = oldest[i].mbuf;
    }
    peer->events = events;
    __atomic_store_n(&peer->kept, events.count, __ATOMIC_RELEASE);
    rte_spinlock_unlock(&peer->lock);
    return taken;
}

static inline uint32_t peer_dequeue(struct peer *peer, struct rte_mbuf **mbufs, uint32_t count, uint64_t now) {
    return peer_dequeue_as(peer, mbufs, count, now, PEER_ALONE);
}

#endif
