#include "stage_state.h"

#include "stage_packet.h"
#include "stage_telemetry.h"

#include <rte_branch_prediction.h>
#include <rte_cycles.h>
#include <rte_errno.h>
#include <rte_lcore.h>
#include <rte_malloc.h>
#include <rte_mbuf.h>
#include <rte_prefetch.h>
#include <rte_ring_elem.h>
#include <rte_ring_peek_zc.h>

#define BURST 32u    /* packets whose headers are read before the lock is taken, and that are moved at once */
#define SMALLEST 64u /* bytes of the smallest Ethernet frame */
#define AHEAD 12u    /* memory is prefetched this number of events ahead */

/* The properties of an arriving packet. */
struct seen {
    uint32_t size;
    uint32_t ecn; /* its ECN field; PIE_NOT_ECT if the packet cannot be marked */
};

/* The packets of a burst that cannot be marked: without an IP header, and with a shared header. */
struct unmarkable {
    uint32_t no_ip, shared;
};

/* A turn: the time during which a call holds the lock. */
struct turn {
    uint64_t moment;  /* the caller's moment */
    uint64_t reached; /* the effective moment */
    uint16_t caller;  /* the lcore, if the stage records */
};

uint64_t pie_stage_nanoseconds(const struct pie_stage *stage, uint64_t cycles) {
    return nanoseconds_of(stage, cycles);
}

void pie_stage_default_params(struct pie_stage_params *params, uint64_t rate) {
    memset(params, 0, sizeof *params);
    pie_default_opening(&params->opening, rate);
    params->opening.packets = RTE_MIN(params->opening.params.limit_bytes / SMALLEST, UINT64_C(65536));
    params->ecn = true;
    params->flight = PIE_STAGE_FLIGHT;
}

/* Opens the controller and takes a key. Returns 0, or the value for rte_errno. */
static int open_stage(struct pie_stage *stage, const struct pie_stage_params *params) {
    if (pie_open(&stage->pie, &params->opening) != PIE_DONE)
        return EINVAL;
    if (!stage_words_seed(&stage->words))
        return EIO;
    stage->opening = params->opening;
    stage->room = (uint32_t)params->opening.packets;
    stage->ecn = params->ecn;
    stage->hands_back = params->hands_back;
    stage->record = params->every != 0 || params->flow != NULL ? MORE : params->events != 0 || params->flight != 0 ? FLIGHT : NOTHING;
    stage->is_followed = params->events != 0;
    stage->longest = params->flight_wait != 0 ? params->flight_wait : UINT64_MAX;
    stage->due = pie_due(&stage->pie);
    stage->factor = (uint64_t)(((unsigned __int128)1000000000u << SHIFT) / rte_get_tsc_hz());
    stage->start = rte_rdtsc();
    stage->clock = read_clock(stage);
    rte_spinlock_init(&stage->lock);
    return 0;
}

static void *memory_of(size_t bytes, int socket) {
    return rte_malloc_socket("pie_stage", bytes, RTE_CACHE_LINE_SIZE, socket);
}

/* Opens the first interval. Returns 0, or the value for rte_errno. */
static int open_periods(struct pie_stage *stage, const struct pie_stage_params *params, int socket) {
    if (params->every == 0)
        return 0;
    stage->periods = memory_of(sizeof *stage->periods, socket);
    if (stage->periods == NULL)
        return ENOMEM;
    memset(stage->periods, 0, sizeof *stage->periods);
    bool is_open = pie_open_period(&stage->periods->current, params->every, 1) == PIE_DONE &&
                   pie_period_clock(&stage->periods->current, stage->clock.moment, stage->clock.unix_time) == PIE_DONE;
    return is_open ? 0 : EINVAL;
}

/* Allocates the memory for flows, if the stage keeps events. Returns 0, or the value for rte_errno. */
static int open_flows(struct pie_stage *stage, const struct pie_stage_params *params, int socket) {
    if (params->flow == NULL || stage->memory == NULL)
        return 0;
    stage->flow = params->flow;
    stage->flow_user = params->flow_user;
    stage->flows = memory_of(stage->room * sizeof *stage->flows, socket);
    if (stage->is_followed)
        stage->cut.flows = memory_of(stage->room * sizeof *stage->cut.flows, socket);
    return stage->flows != NULL && (stage->cut.flows != NULL || !stage->is_followed) ? 0 : ENOMEM;
}

/* Opens the flight recorder. Returns 0, or the value for rte_errno. Allocates the memory for a copy too, so that a text
 * can be written when no memory is left. */
static int open_flight(struct pie_stage *stage, const struct pie_stage_params *params, int socket) {
    uint32_t events = RTE_MAX(params->flight, params->events);
    if (events == 0)
        return 0;
    if (events > PIE_STAGE_MAX_EVENTS)
        return EINVAL;
    stage->memory_bytes = pie_flight_bulk_bytes(events, stage->room, BURST);
    stage->memory = memory_of(stage->memory_bytes, socket);
    if (params->flight != 0)
        stage->scratch = memory_of(stage->memory_bytes, socket);
    if (stage->is_followed)
        stage->cut.queue = memory_of(stage->room * sizeof *stage->cut.queue, socket);
    if (stage->memory == NULL || (params->flight != 0 && stage->scratch == NULL) || (stage->is_followed && stage->cut.queue == NULL))
        return ENOMEM;
    if (!pie_flight_open_bulk(&stage->flight, stage->memory, stage->memory_bytes, events, BURST, &stage->opening, &stage->pie))
        return EINVAL;
    return pie_flight_follow_open(&stage->follower, stage->memory, stage->memory_bytes) ? 0 : EINVAL;
}

static void free_memory(struct pie_stage *stage) {
    rte_free(stage->scratch);
    rte_free(stage->memory);
    rte_free(stage->cut.queue);
    rte_free(stage->cut.flows);
    rte_free(stage->flows);
    rte_free(stage->periods);
    rte_free(stage);
}

struct pie_stage *pie_stage_create(const char *name, const struct pie_stage_params *params, int socket) {
    struct pie_stage *stage = rte_zmalloc_socket("pie_stage", sizeof *stage, RTE_CACHE_LINE_SIZE, socket);
    if (stage == NULL) {
        rte_errno = ENOMEM;
        return NULL;
    }
    int fault = open_stage(stage, params);
    if (fault == 0)
        fault = open_flight(stage, params, socket);
    if (fault == 0)
        fault = open_flows(stage, params, socket);
    if (fault == 0)
        fault = open_periods(stage, params, socket);
    if (fault == 0) {
        // (rte_ring_create_elem sets rte_errno)
        stage->ring = rte_ring_create_elem(name, sizeof(struct waiting), stage->room, socket,
                                           RING_F_SP_ENQ | RING_F_SC_DEQ | RING_F_EXACT_SZ);
        fault = stage->ring == NULL ? rte_errno : 0;
    }
    if (fault != 0) {
        free_memory(stage);
        rte_errno = fault;
        return NULL;
    }
    stage_telemetry_add(stage, name);
    return stage;
}

void pie_stage_free(struct pie_stage *stage) {
    struct waiting oldest;
    if (stage == NULL)
        return;
    stage_telemetry_remove(stage);
    while (rte_ring_dequeue_elem(stage->ring, &oldest, sizeof oldest) == 0)
        rte_pktmbuf_free(oldest.mbuf);
    rte_ring_free(stage->ring);
    free_memory(stage);
}

/* Takes the flight recorder's snapshot of the present state. The lock is held. */
static __rte_noinline void take_snapshot(struct pie_stage *stage) {
    stage->flight.stats = history_stats(stage);
    stage->flight.came_so_far = stage->stats.queued;
    stage->flight.packets = stage->packets;
    stage->flight.bytes = stage->bytes;
    pie_flight_snapshot(&stage->flight, &stage->pie);
}

/* Returns true if the stage keeps events. */
static __rte_always_inline bool keeps_events(const struct pie_stage *stage, const enum record record) {
    return record == FLIGHT || (record == MORE && stage->memory != NULL);
}

/* Returns true if the next event is added to the sums of its interval. If the event ends an interval, passes that
 * interval to the thread that writes the records. The lock is held. */
static __rte_always_inline bool is_summed(struct pie_stage *stage, const struct turn *turn, const enum record record) {
    if (record != MORE || stage->periods == NULL)
        return false;
    if (unlikely(stage_periods_is_over(stage->periods, turn->moment)))
        stage->stats.lost_periods += !stage_periods_end(stage->periods);
    return true;
}

/* Begins a burst of events for the flight recorder, or an empty one if there is no recorder. The lock is held. */
static __rte_always_inline struct pie_flight_burst begin_burst(const struct pie_stage *stage, const enum record record) {
    return keeps_events(stage, record) ? pie_flight_begin(&stage->flight) : (struct pie_flight_burst){0};
}

/* Keeps the events of a burst, after its packets were counted. The lock is held. */
static inline void keep(struct pie_stage *stage, const struct pie_flight_burst *burst) {
    pie_flight_end(&stage->flight, burst);
    if (unlikely(pie_flight_is_due(&stage->flight)))
        take_snapshot(stage);
}

/* Publishes the moment of the next update, and whether packets can be picked. The lock is held. */
static inline void show_controller(struct pie_stage *stage) {
    __atomic_store_n(&stage->due, pie_due(&stage->pie), __ATOMIC_RELAXED);
    __atomic_store_n(&stage->picks, stage->pie.prob != 0, __ATOMIC_RELAXED);
}

/* Counts an update. The lock is held. */
static void count_update(struct pie_stage *stage, const struct pie_event *event, bool is_late) {
    struct pie_stage_stats *stats = &stage->stats;
    stats->probs[pie_prob_sort(event->prob)]++;
    stats->probs_sum += event->prob;
    stats->probs_high += stats->probs_sum < event->prob;
    stats->updates++;
    stats->late += is_late;
    stage->greatest_delay = RTE_MAX(stage->greatest_delay, event->delay);
}

/* Makes an update. Returns false if it is too soon. The lock is held. */
static __rte_noinline bool update(struct pie_stage *stage, const struct turn *turn) {
    struct pie_event event = {.moment = turn->moment, .caller = turn->caller};
    struct pie_flight_burst burst = pie_flight_begin(&stage->flight);
    uint64_t due = stage->due;
    uint32_t code = is_summed(stage, turn, stage->record) ? pie_update_summed(&stage->pie, stage->bytes, &event, &stage->periods->current)
                                                          : pie_update_event(&stage->pie, stage->bytes, &event);
    show_controller(stage);
    if (code != PIE_DONE)
        return false;
    count_update(stage, &event, turn->moment - due > stage->pie.params.t_update);
    if (keeps_events(stage, stage->record)) {
        pie_flight_other(&burst, &stage->pie, &event);
        keep(stage, &burst);
    }
    return true;
}

/* Begins a turn with packets, and makes an update if one is due. The lock is held. */
static inline struct turn begin(struct pie_stage *stage, uint64_t moment) {
    struct turn turn = {.moment = moment, .reached = RTE_MAX(stage->pie.moment, moment)};
    if (stage->record != NOTHING)
        turn.caller = (uint16_t)rte_lcore_id();
    stage->stats.earlier += moment < turn.reached;
    if (unlikely(moment >= stage->due))
        update(stage, &turn);
    return turn;
}

bool pie_stage_update(struct pie_stage *stage, uint64_t now) {
    struct turn turn = {.moment = moment_of(stage, now), .caller = (uint16_t)rte_lcore_id()};
    if (turn.moment < __atomic_load_n(&stage->due, __ATOMIC_RELAXED))
        return false;
    rte_spinlock_lock(&stage->lock);
    bool is_made = turn.moment >= stage->due && update(stage, &turn);
    rte_spinlock_unlock(&stage->lock);
    return is_made;
}

uint32_t pie_stage_set_params(struct pie_stage *stage, const struct pie_params *params, uint64_t now) {
    if (pie_check_params(params) != 0)
        return PIE_BAD_PARAMS;
    rte_spinlock_lock(&stage->lock);
    struct turn turn = begin(stage, moment_of(stage, now));
    struct pie_flight_burst burst = pie_flight_begin(&stage->flight);
    struct pie_event event = {.moment = turn.moment, .caller = turn.caller};
    uint32_t code = is_summed(stage, &turn, stage->record) ? pie_set_params_summed(&stage->pie, params, &event, &stage->periods->current)
                                                           : pie_set_params_event(&stage->pie, params, &event);
    show_controller(stage);
    if (code == PIE_DONE) {
        stage->stats.changes++;
        if (keeps_events(stage, stage->record)) {
            pie_flight_other(&burst, &stage->pie, &event);
            keep(stage, &burst);
        }
    }
    rte_spinlock_unlock(&stage->lock);
    return code;
}

void pie_stage_read_params(struct pie_stage *stage, struct pie_params *params) {
    rte_spinlock_lock(&stage->lock);
    *params = stage->pie.params;
    rte_spinlock_unlock(&stage->lock);
}

/* Returns true if headers are read before the lock is taken. While the probability is 0, no packet is picked or marked,
 * so headers are read only for a recorder, which stores the ECN field of each packet. */
static inline bool looks_early(const struct pie_stage *stage) {
    return stage->ecn && (keeps_events(stage, stage->record) || __atomic_load_n(&stage->picks, __ATOMIC_RELAXED));
}

static inline void look_at_sizes(struct rte_mbuf **mbufs, uint32_t count, struct seen *seen) {
    for (uint32_t i = 0; i < count; i++)
        seen[i] = (struct seen){.size = rte_pktmbuf_pkt_len(mbufs[i]), .ecn = PIE_NOT_ECT};
}

/* Returns the ECN field of a frame of any form, PIE_NOT_ECT if it cannot be marked. Counts such a frame. */
static __rte_noinline uint32_t look_anywhere(const struct rte_mbuf *mbuf, struct unmarkable *unmarkable) {
    struct stage_packet packet = stage_packet_look(mbuf);
    unmarkable->no_ip += packet.version == 0;
    if (packet.ecn == PIE_NOT_ECT || !stage_packet_is_shared(mbuf, &packet))
        return packet.ecn;
    unmarkable->shared++;
    return PIE_NOT_ECT;
}

/* Reads the headers of arriving packets. Returns the number of those that cannot be marked. */
static __rte_noinline struct unmarkable look(struct rte_mbuf **mbufs, uint32_t count, struct seen *seen) {
    struct unmarkable unmarkable = {0, 0};
    for (uint32_t i = 0; i < count; i++)
        rte_prefetch0(rte_pktmbuf_mtod(mbufs[i], const void *));
    for (uint32_t i = 0; i < count; i++) {
        uint32_t ecn;
        if (unlikely(!stage_packet_is_usual(mbufs[i], &ecn) || (ecn != PIE_NOT_ECT && !stage_packet_is_alone(mbufs[i]))))
            ecn = look_anywhere(mbufs[i], &unmarkable);
        seen[i] = (struct seen){.size = rte_pktmbuf_pkt_len(mbufs[i]), .ecn = ecn};
    }
    return unmarkable;
}

/* Returns the verdict for a packet, and adds the event to the sums of its interval. The lock is held. */
static __rte_always_inline uint32_t decide_summed(struct pie_stage *stage, uint64_t bytes, const struct seen *seen, uint32_t room, uint64_t word,
                                                  uint64_t moment) {
    struct pie_event *event = &stage->periods->event;
    event->moment = moment;
    event->word = word;
    event->size = seen->size;
    event->ecn = (uint8_t)seen->ecn;
    return pie_arrive_summed(&stage->pie, bytes, room, event, &stage->periods->current);
}

/* Returns the verdict for a packet of this flow, and records it: `arrivals` is the number of the latest decided arrival.
 * At the probability 0 the random word has no effect. The lock is held. */
static __rte_always_inline uint32_t decide(struct pie_stage *stage, uint64_t bytes, const struct seen *seen, uint32_t flow, uint32_t room,
                                           const struct turn *turn, struct pie_flight_burst *burst, uint64_t *arrivals, const enum record record) {
    uint32_t verdict;
    if (unlikely(seen->size - 1 >= PIE_MAX_SIZE))
        return PIE_BAD_SIZE;
    uint64_t word = unlikely(stage->pie.prob != 0) ? stage_word(&stage->words) : 0;
    if (is_summed(stage, turn, record))
        verdict = decide_summed(stage, bytes, seen, room, word, turn->moment);
    else
        verdict = pie_arrive(&stage->pie, bytes, seen->size, room, seen->ecn, word, turn->moment);
    if (record == NOTHING || unlikely(verdict > PIE_PACKETS))
        return verdict;
    ++*arrivals;
    if (!keeps_events(stage, record))
        return verdict;
    uint64_t number = *arrivals & TAG_MASK, tag = record == MORE ? tag_of(stage, number, flow) : number;
    rte_prefetch0_write(burst->event + AHEAD * PIE_FLIGHT_EVENT);
    pie_flight_arrive(burst, turn->moment, tag, word, seen->size, seen->ecn, verdict, turn->caller);
    return verdict;
}

/* Marks a packet, and returns its new ECN field. The lock is held. */
static __rte_noinline uint32_t mark(struct pie_stage *stage, struct rte_mbuf *mbuf) {
    struct stage_packet packet = stage_packet_look(mbuf);
    stage_packet_mark(mbuf, &packet);
    stage->stats.marked++;
    return PIE_CE;
}

/* Counts a dropped packet. The lock is held. */
static __rte_noinline void count_drop(struct pie_stage_stats *stats, uint32_t verdict, uint32_t size) {
    stats->dropped_bytes += verdict <= PIE_PACKETS ? size : 0;
    stats->early += verdict == PIE_EARLY;
    stats->bytes += verdict == PIE_BYTES;
    stats->full += verdict == PIE_PACKETS;
    stats->oversized += verdict == PIE_BAD_SIZE;
    stats->refused += verdict > PIE_PACKETS && verdict != PIE_BAD_SIZE;
}

/* Decides `count` packets from index `from` on, at most BURST, and moves the queued ones to `mbufs + queued`. Returns
 * the number of queued packets. The lock is held. */
static __rte_always_inline uint32_t arrive_burst(struct pie_stage *stage, struct rte_mbuf **mbufs, uint32_t queued, uint32_t from, uint32_t count,
                                                 const struct seen *seen, const uint32_t *flows, const struct turn *turn,
                                                 const enum record record) {
    struct rte_ring_zc_data places = {0};
    struct rte_mbuf **kept = mbufs + queued, **next = mbufs + from;
    struct pie_flight_burst burst = begin_burst(stage, record);
    uint32_t room = stage->room - stage->packets;
    uint64_t bytes = stage->bytes, arrivals = stage->arrivals;
    bool has_flows = record == MORE && stage->flow != NULL;
    rte_ring_enqueue_zc_burst_elem_start(stage->ring, sizeof(struct waiting), count, &places, NULL);
    struct waiting *to = places.ptr1, *end = to + places.n1;
    for (const struct seen *it = seen, *last = seen + count; it != last; it++, next++) {
        struct rte_mbuf *mbuf = *next;
        uint32_t ecn = it->ecn;
        uint32_t verdict = decide(stage, bytes, it, has_flows ? flows[it - seen] : 0, room, turn, &burst, &arrivals, record);
        if (unlikely(verdict != PIE_ENQUEUE)) {
            if (verdict != PIE_MARK) {
                count_drop(&stage->stats, verdict, it->size);
                continue;
            }
            ecn = mark(stage, mbuf);
        }
        if (unlikely(to == end))
            to = places.ptr2; // (continues at the ring's first place)
        *to++ = (struct waiting){mbuf, turn->reached, it->size | ecn << WAITING_ECN | (record != NOTHING ? arrivals << WAITING_TAG : 0)};
        if (unlikely(kept != next)) {
            *next = *kept;
            *kept = mbuf;
        }
        if (has_flows)
            stage->flows[(stage->stats.queued + (uint64_t)(kept - mbufs) - queued) % stage->room] = flows[it - seen];
        kept++;
        room--;
        bytes += it->size;
    }
    uint32_t taken = (uint32_t)(kept - mbufs) - queued, packets = stage->packets + taken;
    rte_ring_enqueue_zc_elem_finish(stage->ring, taken);
    stage->bytes = bytes;
    stage->arrivals = arrivals;
    __atomic_store_n(&stage->packets, packets, __ATOMIC_RELAXED);
    stage->stats.queued += taken;
    stage->stats.most = RTE_MAX(stage->stats.most, (uint64_t)packets);
    if (keeps_events(stage, record)) {
        stage->most_bytes = RTE_MAX(stage->most_bytes, bytes);
        keep(stage, &burst);
    }
    return taken;
}

uint32_t pie_stage_enqueue(struct pie_stage *stage, struct rte_mbuf **mbufs, uint32_t count, uint64_t now) {
    uint64_t moment = moment_of(stage, now);
    struct seen seen[BURST];
    uint32_t flows[BURST], queued = 0;
    for (uint32_t from = 0; from < count; from += BURST) {
        uint32_t part = RTE_MIN(count - from, BURST);
        struct unmarkable unmarkable = {0, 0};
        bool is_looked = looks_early(stage);
        if (is_looked)
            unmarkable = look(mbufs + from, part, seen);
        else
            look_at_sizes(mbufs + from, part, seen);
        for (uint32_t i = 0; stage->flow != NULL && i < part; i++)
            flows[i] = stage->flow(stage->flow_user, mbufs[from + i]);
        rte_spinlock_lock(&stage->lock);
        struct turn turn = begin(stage, moment);
        // (rare: the update of this turn raised the probability above 0)
        if (unlikely(stage->ecn && !is_looked && stage->pie.prob != 0))
            unmarkable = look(mbufs + from, part, seen);
        stage->stats.no_ip += unmarkable.no_ip;
        stage->stats.shared += unmarkable.shared;
        if (stage->record == NOTHING)
            queued += arrive_burst(stage, mbufs, queued, from, part, seen, flows, &turn, NOTHING);
        else if (stage->record == FLIGHT)
            queued += arrive_burst(stage, mbufs, queued, from, part, seen, flows, &turn, FLIGHT);
        else
            queued += arrive_burst(stage, mbufs, queued, from, part, seen, flows, &turn, MORE);
        rte_spinlock_unlock(&stage->lock);
    }
    if (!stage->hands_back && queued < count)
        rte_pktmbuf_free_bulk(mbufs + queued, count - queued);
    return queued;
}

/* Makes the departure of a packet, and adds it to the sums of its interval. The lock is held. */
static __rte_always_inline void depart_summed(struct pie_stage *stage, const struct waiting *oldest, uint64_t left, uint64_t moment) {
    struct pie_event *event = &stage->periods->event;
    event->moment = moment;
    event->size = waiting_size(oldest);
    pie_depart_summed(&stage->pie, left, oldest->arrived, event, &stage->periods->current);
}

/* Makes the departure of the oldest packet, which has this number, and records it. The lock is held. */
static __rte_always_inline void depart(struct pie_stage *stage, const struct waiting *oldest, uint64_t number, uint64_t left,
                                       const struct turn *turn, struct pie_flight_burst *burst, const enum record record) {
    uint64_t tag = oldest->about >> WAITING_TAG;
    if (is_summed(stage, turn, record))
        depart_summed(stage, oldest, left, turn->moment);
    else
        pie_depart_waited(&stage->pie, waiting_size(oldest), left, oldest->arrived, turn->moment);
    if (!keeps_events(stage, record))
        return;
    if (record == MORE && stage->flow != NULL)
        tag = tag_of(stage, tag, stage->flows[number % stage->room]);
    rte_prefetch0_write(burst->event + AHEAD * PIE_FLIGHT_EVENT);
    pie_flight_depart(burst, turn->moment, tag, oldest->arrived, waiting_size(oldest), waiting_ecn(oldest), turn->caller);
}

/* Dequeues the `count` oldest packets, at most BURST, while the sum of their sizes is below `bytes`. Reduces `bytes` by
 * that sum. Returns the number of packets. The lock is held. */
static __rte_always_inline uint32_t depart_burst(struct pie_stage *stage, struct rte_mbuf **mbufs, uint32_t count, uint64_t *bytes,
                                                 const struct turn *turn, const enum record record) {
    struct rte_ring_zc_data places = {0};
    struct pie_flight_burst burst = begin_burst(stage, record);
    struct pie_stage_stats *stats = &stage->stats;
    uint64_t sent = 0, waited = 0, longest = 0, most = *bytes, before = stage->bytes;
    uint32_t found = rte_ring_dequeue_zc_burst_elem_start(stage->ring, sizeof(struct waiting), count, &places, NULL), taken = 0;
    const struct waiting *oldest = places.ptr1, *end = oldest + places.n1;
    while (taken < found && sent < most) {
        if (unlikely(oldest == end))
            oldest = places.ptr2; // (continues at the ring's first place)
        rte_prefetch0(oldest->mbuf);
        sent += waiting_size(oldest);
        depart(stage, oldest, stats->departed + taken, before - sent, turn, &burst, record);
        uint64_t wait = turn->reached - oldest->arrived;
        longest = RTE_MAX(longest, wait);
        waited += wait;
        stats->waits[pie_wait_sort(wait)]++;
        mbufs[taken++] = oldest->mbuf;
        oldest++;
    }
    rte_ring_dequeue_zc_elem_finish(stage->ring, taken);
    __atomic_store_n(&stage->packets, stage->packets - taken, __ATOMIC_RELAXED);
    stage->bytes = before - sent;
    *bytes -= RTE_MIN(sent, most);
    stats->longest = RTE_MAX(stats->longest, longest);
    stats->departed += taken;
    stats->departed_bytes += sent;
    stats->waited += waited;
    stats->waited_high += stats->waited < waited;
    if (keeps_events(stage, record)) {
        keep(stage, &burst);
        if (unlikely(longest > stage->longest))
            __atomic_store_n(&stage->is_asked, true, __ATOMIC_RELAXED);
    }
    return taken;
}

uint32_t pie_stage_dequeue_bytes(struct pie_stage *stage, struct rte_mbuf **mbufs, uint32_t count, uint64_t bytes, uint64_t now) {
    uint64_t moment = moment_of(stage, now);
    uint32_t taken = 0, part, most;
    if (__atomic_load_n(&stage->packets, __ATOMIC_RELAXED) == 0)
        return 0;
    rte_spinlock_lock(&stage->lock);
    struct turn turn = begin(stage, moment);
    do {
        most = RTE_MIN(count - taken, BURST);
        if (stage->record == NOTHING)
            part = depart_burst(stage, mbufs + taken, most, &bytes, &turn, NOTHING);
        else if (stage->record == FLIGHT)
            part = depart_burst(stage, mbufs + taken, most, &bytes, &turn, FLIGHT);
        else
            part = depart_burst(stage, mbufs + taken, most, &bytes, &turn, MORE);
        taken += part;
    } while (part == BURST && taken < count && bytes != 0);
    rte_spinlock_unlock(&stage->lock);
    return taken;
}

uint32_t pie_stage_dequeue(struct pie_stage *stage, struct rte_mbuf **mbufs, uint32_t count, uint64_t now) {
    return pie_stage_dequeue_bytes(stage, mbufs, count, UINT64_MAX, now);
}

/* Returns the number of events that the history lacks: missed events, and overwritten ones that the writer has not
 * reached yet. The lock is held. */
static uint64_t lost_so_far(const struct pie_stage *stage) {
    uint64_t room = stage->follower.layout.events, waiting;
    if (!stage->is_followed)
        return 0;
    waiting = stage->flight.count - __atomic_load_n(&stage->reached, __ATOMIC_RELAXED);
    return __atomic_load_n(&stage->missed, __ATOMIC_RELAXED) + (waiting > room ? waiting - room : 0);
}

void pie_stage_read(struct pie_stage *stage, struct pie_stage_stats *stats) {
    rte_spinlock_lock(&stage->lock);
    *stats = stage->stats;
    stats->lost = lost_so_far(stage);
    stats->waiting = stage->packets;
    stats->waiting_bytes = stage->bytes;
    stats->prob = stage->pie.prob;
    stats->delay = stage->pie.old_delay;
    stats->burst = stage->pie.burst;
    stats->target = stage->pie.params.target;
    rte_spinlock_unlock(&stage->lock);
}
