/* A minimal stage over a link (include/pie_link.h), to compare its speed with the stage's. A packet's tag is its mbuf.
 * The link's queue, lock and event log replace the stage's ring, lock and recorder; the log has as many events as the
 * recorder. */
#ifndef LINKED_H
#define LINKED_H

#include "pie_link.h"
#include "stage_packet.h"
#include "stage_words.h"

#include <rte_cycles.h>
#include <rte_lcore.h>
#include <rte_mbuf.h>
#include <rte_pause.h>

#define LINKED_LCORES 8
#define LINKED_BURST 32u
#define LINKED_EVENTS 16384 /* capacity of the event log */

struct linked {
    struct {
        struct pie_port port;
        struct stage_words words;
    } __rte_cache_aligned lcores[LINKED_LCORES];
    uint64_t start, t_update;
    double nanoseconds;                 /* of a cycle of the TSC */
    uint64_t due __rte_cache_aligned;   /* no update is due before this moment: a hint, read without a turn */
};

static inline bool linked_open(struct linked *linked, const struct pie_opening *as) {
    struct pie_opening opening = *as;
    uint32_t lcores = rte_lcore_count();
    memset(linked, 0, sizeof *linked);
    opening.mode = PIE_ROLLING;
    opening.tail = LINKED_EVENTS;
    linked->start = rte_rdtsc();
    linked->nanoseconds = 1e9 / (double)rte_get_tsc_hz();
    linked->t_update = opening.params.t_update;
    if (lcores > LINKED_LCORES || pie_link_open(&opening, (uint16_t)lcores, &linked->lcores[0].port) != PIE_DONE)
        return false;
    for (uint32_t i = 0; i < lcores; i++)
        if (!stage_words_seed(&linked->lcores[i].words) ||
            (i != 0 && pie_link_share(&linked->lcores[0].port, &linked->lcores[i].port) != PIE_DONE))
            return false;
    return true;
}

static inline uint64_t linked_moment(const struct linked *linked, uint64_t now) {
    return (uint64_t)((double)(now - linked->start) * linked->nanoseconds);
}

/* Adds an update before a burst if one may be due. Returns the index of the first packet's event. */
static inline uint32_t linked_begin(const struct linked *linked, struct pie_event *events, uint64_t moment) {
    bool is_due = moment >= __atomic_load_n(&linked->due, __ATOMIC_RELAXED);
    if (is_due)
        events[0] = (struct pie_event){.kind = PIE_EVENT_UPDATE, .moment = moment};
    return is_due;
}

/* Sets the hint after a burst that began with an update. */
static inline void linked_end(struct linked *linked, const struct pie_event *update) {
    if (update->answer == PIE_DONE)
        __atomic_store_n(&linked->due, update->moment + linked->t_update, __ATOMIC_RELAXED);
}

/* Enqueues up to LINKED_BURST packets and frees the dropped ones. Returns the number of queued packets. */
static inline uint32_t linked_enqueue(struct linked *linked, struct rte_mbuf **mbufs, uint32_t count, uint64_t now) {
    struct pie_event events[1 + LINKED_BURST];
    struct stage_packet packets[LINKED_BURST];
    struct rte_mbuf *dropped[LINKED_BURST];
    uint32_t lcore = (uint32_t)rte_lcore_index(-1), lost = 0;
    uint64_t moment = linked_moment(linked, now);
    uint32_t first = linked_begin(linked, events, moment);
    for (uint32_t i = 0; i < count; i++)
        rte_prefetch0(rte_pktmbuf_mtod(mbufs[i], const void *));
    for (uint32_t i = 0; i < count; i++) {
        packets[i] = stage_packet_look(mbufs[i]);
        events[first + i] = (struct pie_event){.moment = moment, .tag = (uintptr_t)mbufs[i], .word = stage_word(&linked->lcores[lcore].words),
                                               .size = rte_pktmbuf_pkt_len(mbufs[i]), .ecn = packets[i].ecn};
    }
    while (pie_link_try_arrive_all(&linked->lcores[lcore].port, events, first + count) == PIE_BUSY)
        rte_pause();
    if (first != 0)
        linked_end(linked, events);
    for (uint32_t i = 0; i < count; i++) {
        if (events[first + i].answer == PIE_MARK)
            stage_packet_mark(mbufs[i], &packets[i]);
        else if (events[first + i].answer != PIE_ENQUEUE)
            dropped[lost++] = mbufs[i];
    }
    if (lost != 0)
        rte_pktmbuf_free_bulk(dropped, lost);
    return count - lost;
}

/* Dequeues up to LINKED_BURST packets. Returns their number. */
static inline uint32_t linked_dequeue(struct linked *linked, struct rte_mbuf **mbufs, uint32_t count, uint64_t now) {
    struct pie_event events[1 + LINKED_BURST];
    uint32_t lcore = (uint32_t)rte_lcore_index(-1), taken = 0;
    uint64_t moment = linked_moment(linked, now);
    uint32_t first = linked_begin(linked, events, moment);
    size_t made;
    for (uint32_t i = 0; i < count; i++)
        events[first + i] = (struct pie_event){.moment = moment};
    while (pie_link_try_depart_all(&linked->lcores[lcore].port, UINT64_MAX, events, first + count, &made) == PIE_BUSY)
        rte_pause();
    if (first != 0)
        linked_end(linked, events);
    for (; first < made && events[first].answer == PIE_DONE; first++)
        mbufs[taken++] = (struct rte_mbuf *)(uintptr_t)events[first].tag;
    return taken;
}

/* Frees the queued packets and closes the ports, after the last call of any other lcore. */
static inline void linked_close(struct linked *linked) {
    struct rte_mbuf *mbufs[LINKED_BURST];
    uint32_t count;
    while ((count = linked_dequeue(linked, mbufs, LINKED_BURST, rte_rdtsc())) != 0)
        rte_pktmbuf_free_bulk(mbufs, count);
    for (uint32_t i = 0; i < LINKED_LCORES; i++)
        pie_link_close(&linked->lcores[i].port);
}

#endif
