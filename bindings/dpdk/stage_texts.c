#include "stage_state.h"

#include <rte_ring_elem.h>
#include <rte_ring_peek_zc.h>

#define HANDED_OVER 256u /* queued packets that are copied while the lock is held once */

/* Writes a part of the preamble of a new text: the record `resume`, and a record `queued` for each packet. */
static size_t begin_text(struct pie_stage *stage, unsigned char *text, size_t room) {
    struct cut *cut = &stage->cut;
    size_t size = 0;
    if (cut->state == REACHED) {
        size = pie_write_resume(&stage->opening, &cut->pie, &cut->stats, cut->count, PIE_UNKNOWN, cut->packets, cut->bytes, text, room);
        if (size == 0)
            return 0;
        stage->text.records = 1;
        stage->clock = cut->clock;
        stage->is_timed = false;
        cut->state = BEGUN;
    }
    for (; cut->written < cut->packets && room - size >= PIE_RECORD_ROOM; cut->written++, stage->text.records++) {
        uint64_t place = (cut->first + cut->written) % stage->room;
        const struct waiting *it = &cut->queue[place];
        uint64_t tag = tag_of(stage, it->about >> WAITING_TAG, stage->flow != NULL ? cut->flows[place] : 0);
        size += pie_write_queued(tag, waiting_size(it), waiting_ecn(it), it->arrived, text + size, room - size);
    }
    if (cut->written == cut->packets)
        cut->state = NONE;
    return size;
}

/* Passes the queued packets with the numbers `next` to `end` - 1 to `take`, at most `most`. Returns the next number.
 * Packets are numbered from 0 in the order of the queue; packets that departed are skipped. The lock is held. */
static uint64_t visit_queued(struct pie_stage *stage, uint64_t next, uint64_t end, uint64_t most,
                             void take(void *to, uint64_t number, const struct waiting *packet), void *to) {
    struct rte_ring_zc_data data = {0};
    uint64_t first = stage->stats.departed;
    next = RTE_MAX(next, first);
    end = RTE_MIN(end, next + most);
    uint32_t found = rte_ring_dequeue_zc_burst_elem_start(stage->ring, sizeof(struct waiting), stage->packets, &data, NULL);
    for (; next < end && next - first < found; next++) {
        uint64_t place = next - first;
        const struct waiting *one = data.ptr1, *two = data.ptr2;
        take(to, next, place < data.n1 ? one + place : two + (place - data.n1));
    }
    rte_ring_dequeue_zc_elem_finish(stage->ring, 0);
    return next;
}

static void copy_packet(void *to, uint64_t number, const struct waiting *packet) {
    struct pie_stage *stage = to;
    stage->cut.queue[number % stage->room] = *packet;
    if (stage->flow != NULL)
        stage->cut.flows[number % stage->room] = stage->flows[number % stage->room];
}

/* Cuts the history after the last event, when all queued packets are copied. The lock is held. */
static void cut_here(struct pie_stage *stage) {
    struct cut *cut = &stage->cut;
    cut->at = stage->flight.count;
    cut->pie = stage->pie;
    cut->stats = history_stats(stage);
    cut->count = stage->arrivals + stage->stats.departed + stage->stats.updates + stage->stats.changes;
    cut->bytes = stage->bytes;
    cut->first = stage->stats.departed;
    cut->packets = stage->packets;
    cut->written = 0;
    cut->state = AHEAD_OF_US;
    if (stage->periods != NULL)
        pie_period_clock(&stage->periods->current, cut->clock.moment, cut->clock.unix_time);
}

/* Copies the queued packets, and cuts the history in the turn that copies the last of them. The lock is released
 * between turns. If at least as many packets arrived as were copied, the next turn copies twice as many. */
static void cut_history(struct pie_stage *stage) {
    uint64_t next = 0, most = HANDED_OVER, left = UINT64_MAX, before;
    do {
        before = left;
        stage->cut.clock = read_clock(stage);
        rte_spinlock_lock(&stage->lock);
        next = visit_queued(stage, next, UINT64_MAX, most, copy_packet, stage);
        left = stage->stats.queued - next;
        if (left == 0)
            cut_here(stage);
        rte_spinlock_unlock(&stage->lock);
        most *= left >= before ? 2 : 1;
    } while (left != 0);
}

bool pie_stage_history_cut(struct pie_stage *stage) {
    if (!stage->is_followed || stage->cut.state != NONE || stage->text.records == 0)
        return false;
    cut_history(stage);
    return true;
}

/* Cuts the text again, because events after the cut were missed. Counts the events up to the new cut as missed too. */
static void miss_the_cut(struct pie_stage *stage, struct pie_event *lost) {
    struct pie_flight_follower *follower = &stage->follower;
    cut_history(stage);
    lost->tag += stage->cut.at - follower->next;
    follower->missed += stage->cut.at - follower->next;
    follower->next = stage->cut.at;
}

size_t pie_stage_history(struct pie_stage *stage, unsigned char *text, size_t room) {
    struct cut *cut = &stage->cut;
    struct pie_event event;
    struct pie_params unused;
    size_t size = 0;
    if (!stage->is_followed || room < PIE_RECORD_ROOM)
        return 0;
    if (cut->state > AHEAD_OF_US)
        return begin_text(stage, text, room);
    if (stage->text.records == 0)
        size = pie_text_opening(&stage->text, &stage->opening, text, room);
    if (!stage->is_timed && room - size >= PIE_RECORD_ROOM) {
        size += pie_text_clock(&stage->text, stage->clock.moment, stage->clock.unix_time, text + size, room - size);
        stage->is_timed = true;
    }
    while (room - size >= PIE_RECORD_ROOM && !(cut->state == AHEAD_OF_US && stage->follower.next == cut->at) &&
           pie_flight_follow(&stage->follower, &event, &unused)) {
        if (event.kind == PIE_EVENT_LOST && cut->state == AHEAD_OF_US && stage->follower.next > cut->at)
            miss_the_cut(stage, &event);
        size += pie_text_event(&stage->text, &event, &unused, text + size, room - size);
    }
    __atomic_store_n(&stage->missed, stage->follower.missed, __ATOMIC_RELAXED);
    __atomic_store_n(&stage->reached, stage->follower.next, __ATOMIC_RELAXED);
    if (size == 0 && cut->state == AHEAD_OF_US)
        cut->state = REACHED;
    return size;
}

size_t pie_stage_record(struct pie_stage *stage, bool is_over, unsigned char *text, size_t room) {
    struct stage_periods *periods = stage->periods;
    size_t size;
    if (periods == NULL || room < PIE_RESUME_ROOM)
        return 0;
    if (!periods->is_begun) {
        periods->is_begun = true;
        rte_spinlock_lock(&stage->lock);
        size = pie_write_period_header(&periods->current, text, room);
        rte_spinlock_unlock(&stage->lock);
        return size;
    }
    size = stage_periods_write(periods, text, room);
    if (size == 0 && is_over && periods->current.begun != periods->handed && stage_periods_end(periods))
        size = stage_periods_write(periods, text, room);
    return size;
}

/* The arguments of record_packet: the stage, and the ring of packets that a flight recorder's owner fills. */
struct handed {
    const struct pie_stage *stage;
    PIE_WORD *queued;
    uint64_t places;
};

static void record_packet(void *to, uint64_t number, const struct waiting *packet) {
    const struct handed *handed = to;
    const struct pie_stage *stage = handed->stage;
    uint64_t tag = tag_of(stage, packet->about >> WAITING_TAG, stage->flow != NULL ? stage->flows[number % stage->room] : 0);
    pie_flight_waits(handed->queued, handed->places, number, tag, waiting_size(packet), waiting_ecn(packet), packet->arrived);
}

/* Passes the queued packets to the recorder. The lock is released after each HANDED_OVER packets. Packets that depart
 * meanwhile are in the events of their departures. */
static void hand_over(void *owner, PIE_WORD *queued, uint64_t places) {
    struct pie_stage *stage = owner;
    struct handed handed = {stage, queued, places};
    uint64_t next = 0, end = UINT64_MAX;
    while (next < end) {
        rte_spinlock_lock(&stage->lock);
        end = RTE_MIN(end, stage->stats.queued);
        next = visit_queued(stage, next, end, HANDED_OVER, record_packet, &handed);
        rte_spinlock_unlock(&stage->lock);
    }
}

int pie_stage_flight(struct pie_stage *stage, pie_flight_write write, void *user) {
    if (stage->scratch == NULL)
        return PIE_FLIGHT_NONE;
    struct clock now = read_clock(stage);
    pie_flight_clock(stage->memory, now.moment, now.unix_time);
    return pie_flight_dump_of(stage->memory, stage->memory_bytes, stage->scratch, hand_over, stage, write, user);
}

bool pie_stage_flight_is_asked(struct pie_stage *stage) {
    return __atomic_load_n(&stage->is_asked, __ATOMIC_RELAXED) && __atomic_exchange_n(&stage->is_asked, false, __ATOMIC_RELAXED);
}
