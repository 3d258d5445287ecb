/* Tests the calls at the ports of a link, as C11 and C++11: results and states by one thread;
 * bursts, by one thread and by five; excerpts; sixteen threads that count their calls, four of
 * which are cancelled between two calls; and each request for memory refused in turn.
 * bindings/c/threads.sh builds and runs it. */
#include "pie_link.h"

#include <pthread.h>
#include <stdio.h>
#include <stdlib.h>
#include <string.h>

#define CHECK(c) \
    do { \
        if (!(c)) { \
            fprintf(stderr, "bindings/c/ports.c:%d: %s\n", __LINE__, #c); \
            exit(1); \
        } \
    } while (0)

static struct pie_event event_at(uint64_t moment, uint64_t tag) {
    struct pie_event event;
    memset(&event, 0, sizeof event);
    event.moment = moment;
    event.tag = tag;
    event.size = 1000;
    event.ecn = PIE_ECT0;
    event.word = UINT64_C(0x9e3779b97f4a7c15) * (tag + 1);
    return event;
}

/* The oldest event alone. */
static uint32_t fold_one(struct pie_port *port, struct pie_event *event, struct pie_params *params) {
    size_t folded;
    uint64_t last;
    return pie_link_fold(port, event, 1, &folded, &last, params);
}

/* The log of calls(): an arrival, a departure, one that found none, an update, a reset, parameters, an arrival. */
static void folds(struct pie_port *port, uint64_t dq_threshold) {
    struct pie_event events[PIE_LINK_MOST + 1], before;
    struct pie_params params;
    size_t folded = 9;
    uint64_t last = 9;
    memset(events, 1, sizeof events);
    memset(&params, 0, sizeof params);
    before = events[0];
    /* no room, then room for two events: the other events stay in the log */
    CHECK(pie_link_fold(port, events, 0, &folded, &last, &params) == PIE_TOO_MANY && folded == 0 && last == 0);
    CHECK(pie_link_fold(port, events, 2, &folded, &last, &params) == PIE_DONE && folded == 2 && last == 2 && params.target == 0);
    CHECK(events[0].kind == PIE_EVENT_ARRIVE && events[0].caller == 2 && events[0].tag == 7 && events[0].reserved == 0);
    CHECK(events[0].word == UINT64_C(0x9e3779b97f4a7c15) * 8 && events[0].ecn == PIE_ECT0 && events[0].prob == 0);
    CHECK(events[1].kind == PIE_EVENT_DEPART && events[1].caller == 0 && events[1].tag == 7 && events[1].moment == 30);
    CHECK(memcmp(&events[2], &before, sizeof before) == 0);
    /* a fold ends at an event that sets parameters */
    CHECK(pie_link_fold(port, events, PIE_LINK_MOST + 1, &folded, &last, &params) == PIE_DONE && folded == 4 && last == 6);
    CHECK(events[0].kind == PIE_EVENT_DEPART && events[0].answer == PIE_NONE && events[0].moment == 30);
    CHECK(events[1].kind == PIE_EVENT_UPDATE && events[1].burst == 150000000 && events[2].kind == PIE_EVENT_RESET);
    CHECK(events[3].kind == PIE_EVENT_PARAMS && params.target == 5000000 && params.dq_threshold == dq_threshold);
    CHECK(memcmp(&events[4], &before, sizeof before) == 0);
    params.target = 7;
    CHECK(pie_link_fold(port, events, PIE_LINK_MOST, &folded, &last, &params) == PIE_DONE && folded == 1 && last == 7 && events[0].tag == 10);
    CHECK(params.target == 7);
    last = 0;
    CHECK(pie_link_fold(port, events, PIE_LINK_MOST, &folded, &last, &params) == PIE_TOO_MANY && folded == 0 && last == 7 && events[0].tag == 10);
}

/* The state after calls(): 7 events, and a queued packet that arrived at 15000002. */
static void readings(struct pie_port *port, const struct pie_params *params) {
    struct pie_registers held;
    struct pie_totals totals;
    memset(&held, 1, sizeof held);
    memset(&totals, 1, sizeof totals);
    CHECK(pie_link_registers(port, &held) == PIE_DONE && held.count == 7 && held.moment == 15000002 && held.packets == 1 && held.bytes == 1000);
    CHECK(held.prob == 0 && held.old_delay == 0 && held.accu == 0 && held.burst == 150000000 && held.average == 0 && held.measuring == 0);
    CHECK(held.last == 15000000 && held.due == held.last + params->t_update && held.active == 1);
    CHECK(memcmp(&held.params, params, sizeof *params) == 0);
    CHECK(pie_link_stats(port, &totals) == PIE_DONE && totals.count == 7 && totals.stats.arrivals == 2 && totals.stats.enqueued == 2);
    CHECK(totals.stats.left == 1 && totals.stats.left_bytes == 1000 && totals.stats.empty == 1 && totals.stats.updates == 1);
    CHECK(totals.stats.resets == 1 && totals.stats.changes == 1 && totals.stats.largest_queue == 1000 && totals.stats.waited == 20);
    CHECK(totals.stats.marked == 0 && totals.stats.early == 0 && totals.stats.over_bytes == 0 && totals.stats.over_packets == 0);
    CHECK(totals.stats.largest_delay == 0 && totals.stats.waited_high == 0);
}

static void calls(void) {
    struct pie_port port = PIE_PORT_CLOSED, other = PIE_PORT_CLOSED, third = PIE_PORT_CLOSED;
    struct pie_opening opening;
    struct pie_params params;
    struct pie_event event = event_at(10, 7), before = event;
    struct pie_registers registers;
    struct pie_totals totals;
    size_t folded = 9;
    uint64_t last = 9;
    registers.count = totals.count = 9;
    pie_default_opening(&opening, 100000000);
    opening.mode = PIE_BOUNDED;
    opening.tail = 7;
    /* closed */
    CHECK(pie_link_try_arrive(&port, &event) == PIE_CLOSED && memcmp(&event, &before, sizeof event) == 0);
    CHECK(pie_link_close(&port) == PIE_CLOSED && pie_link_share(&port, &other) == PIE_CLOSED && pie_link_gather(&port, &other) == PIE_CLOSED);
    CHECK(pie_link_registers(&port, &registers) == PIE_CLOSED && registers.count == 9);
    CHECK(pie_link_stats(&port, &totals) == PIE_CLOSED && totals.count == 9);
    CHECK(pie_link_fold(&port, &event, 1, &folded, &last, &params) == PIE_CLOSED && folded == 0 && last == 9);
    CHECK(memcmp(&event, &before, sizeof event) == 0);
    /* opening */
    CHECK(pie_link_open(&opening, 0, &port) == PIE_NO_CALLERS);
    opening.profile = 3;
    CHECK(pie_link_open(&opening, 0, &port) == PIE_BAD_PROFILE && port.at == NULL);
    opening.profile = 1;
    CHECK(pie_link_open(&opening, 3, &port) == PIE_DONE && port.at != NULL && pie_link_open(&opening, 3, &port) == PIE_OPEN);
    /* numbers */
    CHECK(pie_link_share(&port, &other) == PIE_DONE && pie_link_share(&port, &other) == PIE_OPEN);
    CHECK(pie_link_share(&port, &third) == PIE_DONE);
    CHECK(pie_link_gather(&port, &other) == PIE_APART && other.at != NULL);
    CHECK(pie_link_gather(&port, &third) == PIE_DONE && third.at == NULL && pie_link_gather(&port, &other) == PIE_DONE && other.at == NULL);
    CHECK(pie_link_share(&port, &other) == PIE_DONE);
    /* packets: the arguments stay, the results are filled in */
    event.prob = event.delay = event.burst = 5;
    event.reserved = 5;
    event.caller = 9;
    CHECK(pie_link_arrive(&other, &event) == PIE_ENQUEUE && event.kind == PIE_EVENT_ARRIVE && event.caller == 2 && event.tag == 7);
    CHECK(event.prob == 0 && event.delay == 0 && event.burst == 0 && event.reserved == 0 && event.size == 1000 && event.answer == PIE_ENQUEUE);
    event.ecn = 4;
    CHECK(pie_link_try_arrive(&other, &event) == PIE_BAD_ECN && event.answer == PIE_BAD_ECN && event.tag == 7);
    event = event_at(PIE_MAX_MOMENT + 1, 8);
    CHECK(pie_link_arrive(&port, &event) == PIE_BAD_MOMENT && event.caller == 0);
    event = event_at(20, 8);
    event.size = 0;
    CHECK(pie_link_arrive(&port, &event) == PIE_BAD_SIZE);
    event = event_at(30, 99);
    CHECK(pie_link_depart(&port, &event) == PIE_DONE && event.tag == 7 && event.size == 1000 && event.ecn == PIE_ECT0 && event.word == 0);
    CHECK(pie_link_depart(&port, &event) == PIE_NONE && event.tag == 0 && event.size == 0 && event.answer == PIE_NONE);
    event = event_at(40, 99);
    CHECK(pie_link_update(&port, &event) == PIE_TOO_SOON && event.tag == 0);
    event = event_at(15000000, 99);
    CHECK(pie_link_update(&port, &event) == PIE_DONE && event.kind == PIE_EVENT_UPDATE && event.burst == 150000000);
    event = event_at(15000001, 99);
    CHECK(pie_link_reset(&port, &event) == PIE_DONE && event.kind == PIE_EVENT_RESET);
    params = opening.params;
    params.target = 0;
    CHECK(pie_link_set_params(&port, &params, &event) == PIE_BAD_PARAMS && event.kind == PIE_EVENT_PARAMS);
    params.target = 5000000;
    CHECK(pie_link_set_params(&port, &params, &event) == PIE_DONE && event.answer == PIE_DONE);
    event = event_at(15000002, 10);
    CHECK(pie_link_arrive(&port, &event) == PIE_ENQUEUE);
    CHECK(pie_link_arrive(&port, &event) == PIE_FULL);
    readings(&port, &params);
    folds(&other, opening.params.dq_threshold);
    readings(&other, &params); /* a fold changes nothing but the log */
    CHECK(strcmp(pie_link_text(PIE_BUSY), "another port has the turn") == 0 && strcmp(pie_link_text(PIE_MARK), pie_text(PIE_MARK)) == 0);
    CHECK(pie_link_close(&port) == PIE_DONE && pie_link_close(&port) == PIE_CLOSED && pie_link_arrive(&other, &event) == PIE_ENQUEUE);
    CHECK(pie_link_close(&other) == PIE_DONE);
}

/* Makes events from this tag on, a nanosecond apart. */
static void events_from(uint64_t tag, struct pie_event *events, size_t count) {
    size_t i;
    for (i = 0; i < count; i++)
        events[i] = event_at(tag + i, tag + i);
}

/* Returns the events of a burst that have changed: a bit for each. */
static unsigned changed(const struct pie_event *events, const struct pie_event *before, size_t count) {
    unsigned bits = 0;
    size_t i;
    for (i = 0; i < count; i++)
        bits |= (unsigned)(memcmp(&events[i], &before[i], sizeof events[i]) != 0) << i;
    return bits;
}

static void bursts(void) {
    struct pie_port port = PIE_PORT_CLOSED, other = PIE_PORT_CLOSED;
    struct pie_opening opening;
    struct pie_event events[6], before[6], event;
    struct pie_params params;
    size_t made = 9;
    pie_default_opening(&opening, 100000000);
    opening.mode = PIE_BOUNDED;
    opening.tail = 11;
    events_from(10, events, 6);
    memcpy(before, events, sizeof events);
    /* closed */
    CHECK(pie_link_try_arrive_all(&port, events, 6) == PIE_CLOSED && changed(events, before, 6) == 0);
    CHECK(pie_link_try_depart_all(&port, UINT64_MAX, events, 6, &made) == PIE_CLOSED && changed(events, before, 6) == 0 && made == 0);
    CHECK(pie_link_open(&opening, 2, &port) == PIE_DONE && pie_link_share(&port, &other) == PIE_DONE);
    /* none */
    CHECK(pie_link_arrive_all(&port, events, 0) == PIE_DONE && changed(events, before, 6) == 0);
    made = 9;
    CHECK(pie_link_depart_all(&port, UINT64_MAX, events, 0, &made) == PIE_DONE && changed(events, before, 6) == 0 && made == 0);
    /* arrivals: one has a bad ECN field, one is an update, one has no bytes; the others are queued */
    events[1].ecn = 4;
    events[2].kind = PIE_EVENT_UPDATE;
    events[2].moment = 15000000;
    events[3].size = 0;
    CHECK(pie_link_arrive_all(&other, events, 5) == PIE_DONE);
    CHECK(events[0].kind == PIE_EVENT_ARRIVE && events[0].answer == PIE_ENQUEUE && events[0].caller == 1 && events[0].tag == 10);
    CHECK(events[1].answer == PIE_BAD_ECN && events[1].caller == 1 && events[1].tag == 11 && events[1].ecn == 4 && events[1].size == 1000);
    CHECK(events[2].kind == PIE_EVENT_UPDATE && events[2].answer == PIE_DONE && events[2].burst == 150000000 && events[2].tag == 0);
    CHECK(events[3].answer == PIE_BAD_SIZE && events[3].tag == 13 && events[4].answer == PIE_ENQUEUE && events[4].tag == 14);
    CHECK(memcmp(&events[5], &before[5], sizeof event) == 0);
    /* a budget for one and a half packets: the burst ends before the second packet, after the update before it */
    events_from(90, events, 6);
    events[0].kind = events[2].kind = PIE_EVENT_UPDATE;
    memcpy(before, events, sizeof events);
    CHECK(pie_link_depart_all(&port, 999, events, 6, &made) == PIE_DONE && made == 1 && events[0].answer == PIE_TOO_SOON);
    CHECK(changed(events, before, 6) == 1);
    CHECK(pie_link_depart_all(&port, 1999, events, 6, &made) == PIE_DONE && made == 3 && changed(events, before, 6) == 7);
    CHECK(events[1].kind == PIE_EVENT_DEPART && events[1].answer == PIE_DONE && events[1].caller == 0 && events[1].tag == 10);
    CHECK(events[1].size == 1000 && events[1].word == 0 && events[2].answer == PIE_TOO_SOON);
    /* a packet that takes the whole budget departs; the next departure finds the queue empty and is the last */
    CHECK(pie_link_depart_all(&port, 1000, events + 1, 5, &made) == PIE_DONE && made == 3 && changed(events, before, 6) == 15);
    CHECK(events[1].tag == 14 && events[2].answer == PIE_TOO_SOON && events[3].answer == PIE_NONE && events[3].tag == 0);
    /* without a budget */
    events_from(20, events, 6);
    CHECK(pie_link_arrive_all(&port, events, 2) == PIE_DONE && events[1].answer == PIE_ENQUEUE);
    CHECK(pie_link_depart_all(&port, UINT64_MAX, events, 2, &made) == PIE_DONE && made == 2 && events[0].tag == 20 && events[1].tag == 21);
    /* the log has room for one event: the next arrival is refused; a refused departure ends a burst */
    events_from(30, events, 6);
    memcpy(before, events, sizeof events);
    CHECK(pie_link_arrive_all(&port, events, 2) == PIE_DONE && events[0].answer == PIE_ENQUEUE && events[1].answer == PIE_FULL);
    CHECK(pie_link_depart_all(&port, UINT64_MAX, events + 2, 2, &made) == PIE_DONE && made == 1 && events[2].answer == PIE_FULL);
    CHECK(changed(events, before, 6) == 7);
    /* the events, in order */
    CHECK(fold_one(&port, &event, &params) == PIE_DONE && event.tag == 10 && event.caller == 1 && event.kind == PIE_EVENT_ARRIVE);
    CHECK(fold_one(&port, &event, &params) == PIE_DONE && event.kind == PIE_EVENT_UPDATE && event.burst == 150000000);
    CHECK(fold_one(&port, &event, &params) == PIE_DONE && event.tag == 14 && event.kind == PIE_EVENT_ARRIVE);
    CHECK(fold_one(&port, &event, &params) == PIE_DONE && event.tag == 10 && event.kind == PIE_EVENT_DEPART && event.moment == 91);
    CHECK(pie_link_close(&port) == PIE_DONE && pie_link_close(&other) == PIE_DONE);
}

enum { SENDERS = 4, BURST = 16, BURSTS = 500 };
static struct pie_link_hint hint;

/* Sends bursts one after another. A burst that finds the link busy must be unchanged. */
static void *send_bursts(void *of) {
    struct pie_port *port = (struct pie_port *)of;
    struct pie_event events[BURST], before[BURST];
    uint64_t count;
    for (count = 0; count < BURSTS; count++) {
        uint32_t code;
        int i;
        events_from(count * BURST, events, BURST);
        memcpy(before, events, sizeof events);
        while ((code = pie_link_try_arrive_all(port, events, BURST)) == PIE_BUSY)
            CHECK(memcmp(events, before, sizeof events) == 0);
        CHECK(code == PIE_DONE);
        pie_link_tell(&hint, events, BURST);
        for (i = 0; i < BURST; i++)
            CHECK(events[i].kind == PIE_EVENT_ARRIVE && events[i].answer < 100);
    }
    return NULL;
}

static void bursts_of_several(void) {
    static struct pie_port ports[SENDERS + 1];
    static uint64_t next[SENDERS + 1];
    pthread_t ids[SENDERS];
    struct pie_opening opening;
    struct pie_event events[BURST], before[BURST], event;
    struct pie_registers registers;
    struct pie_params params;
    size_t made;
    uint64_t left = 0;
    uint32_t code;
    int i, caller = 0;
    pie_default_opening(&opening, 100000000);
    opening.tail = 1 << 20;
    CHECK(pie_link_open(&opening, SENDERS + 1, &ports[0]) == PIE_DONE);
    for (i = 1; i <= SENDERS; i++)
        CHECK(pie_link_share(&ports[0], &ports[i]) == PIE_DONE);
    for (i = 0; i < SENDERS; i++)
        CHECK(pthread_create(&ids[i], NULL, send_bursts, &ports[1 + i]) == 0);
    events_from(0, before, BURST);
    while (left < SENDERS * BURSTS) { /* departures meanwhile, of a few packets each */
        memcpy(events, before, sizeof events);
        code = pie_link_try_depart_all(&ports[0], 2999, events, BURST, &made);
        CHECK(code == PIE_DONE ? made > 0 && made <= 2 + (events[made - 1].answer == PIE_NONE) : code == PIE_BUSY && made == 0);
        CHECK(memcmp(events + made, before + made, (BURST - made) * sizeof *events) == 0);
        left += code == PIE_DONE;
        pie_link_tell(&hint, events, made);
    }
    for (i = 0; i < SENDERS; i++)
        CHECK(pthread_join(ids[i], NULL) == 0);
    CHECK(pie_link_registers(&ports[0], &registers) == PIE_DONE && registers.packets == pie_link_waiting(&hint) && pie_link_due(&hint) == 0);
    event = event_at(20000000, 0);
    event.kind = PIE_EVENT_UPDATE;
    CHECK(pie_link_update(&ports[0], &event) == PIE_DONE);
    pie_link_tell(&hint, &event, 1);
    CHECK(pie_link_registers(&ports[0], &registers) == PIE_DONE && registers.due == 35000000);
    pie_link_tell_due(&hint, registers.due);
    CHECK(registers.packets == pie_link_waiting(&hint) && pie_link_due(&hint) >= 35000000 && pie_link_due(&hint) < 35000000 + (1 << 18));
    /* the history has each sender's events once and in its order, and no event of another sender within a burst */
    while ((code = fold_one(&ports[0], &event, &params)) == PIE_DONE) {
        CHECK(caller == 0 || event.caller == caller);
        if (event.caller != 0) {
            CHECK(event.kind == PIE_EVENT_ARRIVE && event.tag == next[event.caller]++);
            caller = event.tag % BURST == BURST - 1 ? 0 : event.caller;
        }
    }
    CHECK(code == PIE_TOO_MANY);
    for (i = 1; i <= SENDERS; i++)
        CHECK(next[i] == BURSTS * BURST && pie_link_close(&ports[i]) == PIE_DONE);
    CHECK(pie_link_close(&ports[0]) == PIE_DONE);
}

/* The hint alone: departures before their arrivals, and moments up to the greatest. */
static void hints(void) {
    static struct pie_link_hint told;
    struct pie_event event = event_at(0, 1);
    CHECK(pie_link_waiting(&told) == 0 && pie_link_due(&told) == 0);
    event.kind = PIE_EVENT_DEPART;
    event.answer = PIE_DONE;
    pie_link_tell(&told, &event, 1);
    CHECK(pie_link_waiting(&told) == 0 && pie_link_due(&told) == 0);
    pie_link_tell_due(&told, 15000000);
    CHECK(pie_link_waiting(&told) == 0 && pie_link_due(&told) >= 15000000 && pie_link_due(&told) < 15000000 + (1 << 18));
    pie_link_tell_due(&told, 14000000); /* a late call: an earlier moment does not replace a later one */
    CHECK(pie_link_due(&told) >= 15000000);
    event.kind = PIE_EVENT_ARRIVE;
    event.answer = PIE_MARK;
    pie_link_tell(&told, &event, 1);
    pie_link_tell(&told, &event, 1);
    CHECK(pie_link_waiting(&told) == 1 && pie_link_due(&told) >= 15000000 && pie_link_due(&told) < 15000000 + (1 << 18));
    pie_link_tell_due(&told, UINT64_C(1) << 59);
    CHECK(pie_link_waiting(&told) == 1 && pie_link_due(&told) == UINT64_C(1) << 59);
    pie_link_tell_due(&told, PIE_MAX_MOMENT + 15000000); /* no moment is so late */
    CHECK(pie_link_waiting(&told) == 1 && pie_link_due(&told) == UINT64_MAX);
    pie_link_tell_due(&told, UINT64_MAX);
    CHECK(pie_link_waiting(&told) == 1 && pie_link_due(&told) == UINT64_MAX);
}

/* A rolling link: the number of missing events follows from the numbers of its folds. */
static void gaps(void) {
    struct pie_port port = PIE_PORT_CLOSED;
    struct pie_opening opening;
    struct pie_event events[PIE_LINK_MOST], event;
    struct pie_params params;
    unsigned char line[PIE_RECORD_ROOM];
    uint64_t moment, written = 0, last = 0;
    size_t folded;
    uint32_t code;
    int folds = 0;
    pie_default_opening(&opening, 100000000);
    opening.tail = 100;
    CHECK(opening.mode == PIE_ROLLING && pie_link_open(&opening, 1, &port) == PIE_DONE);
    for (moment = 0; moment < 1076; moment++) {
        event = event_at(moment, moment);
        CHECK(pie_link_reset(&port, &event) == PIE_DONE);
        if (moment == 9) {
            CHECK(pie_link_fold(&port, events, PIE_LINK_MOST, &folded, &last, &params) == PIE_DONE && folded == 10 && last == 10);
            written = last;
        }
    }
    while ((code = pie_link_fold(&port, events, PIE_LINK_MOST, &folded, &last, &params)) == PIE_DONE) {
        uint64_t missing = last - folded - written;
        CHECK(missing == (folds++ == 0 ? 966 : 0) && events[0].moment == last - folded && events[folded - 1].moment == last - 1);
        CHECK(pie_write_lost(missing, line, sizeof line) == (missing == 0 ? 0 : sizeof "lost,966"));
        CHECK(missing == 0 || memcmp(line, "lost,966\n", 9) == 0);
        written = last;
    }
    CHECK(code == PIE_TOO_MANY && folds == 2 && last == 1076 && pie_link_close(&port) == PIE_DONE);
}

enum { CALLERS = 1000, LARGE = 700 };

/* Many callers, and large bursts of one that is not the first; then all numbers are gathered again. */
static void many_callers(void) {
    static struct pie_port ports[CALLERS];
    static struct pie_event events[LARGE];
    struct pie_opening opening;
    struct pie_event event;
    size_t made;
    int i;
    pie_default_opening(&opening, UINT64_C(10000000000));
    opening.packets = 1000;
    CHECK(pie_link_open(&opening, CALLERS, &ports[0]) == PIE_DONE);
    for (i = CALLERS - 1; i > 0; i--)
        CHECK(pie_link_share(&ports[0], &ports[i]) == PIE_DONE);
    CHECK(pie_link_share(&ports[0], &ports[0]) == PIE_OPEN);
    for (i = 0; i < CALLERS; i++) {
        event = event_at((uint64_t)i, 0);
        CHECK(pie_link_try_reset(&ports[i], &event) == PIE_DONE && event.caller == i);
    }
    for (i = 0; i < LARGE; i++)
        events[i] = event_at(CALLERS, (uint64_t)i);
    CHECK(pie_link_try_arrive_all(&ports[300], events, LARGE) == PIE_DONE);
    for (i = 0; i < LARGE; i++)
        CHECK(events[i].caller == 300 && events[i].answer == PIE_ENQUEUE);
    CHECK(pie_link_try_depart_all(&ports[999], UINT64_MAX, events, LARGE, &made) == PIE_DONE && made == LARGE);
    for (i = 0; i < LARGE; i++)
        CHECK(events[i].caller == 999 && events[i].answer == PIE_DONE && events[i].tag == (uint64_t)i);
    for (i = 1; i < CALLERS; i++)
        CHECK(pie_link_gather(&ports[0], &ports[i]) == PIE_DONE && ports[i].at == NULL && ports[i].shared == NULL);
    CHECK(pie_link_close(&ports[0]) == PIE_DONE && ports[0].shared == NULL);
}

/* Two links: their ports are not gathered, and calls at one wake no thread at the other. */
static void two_links(void) {
    struct pie_port a = PIE_PORT_CLOSED, b = PIE_PORT_CLOSED, second = PIE_PORT_CLOSED, other = PIE_PORT_CLOSED;
    struct pie_link_patience waited = {PIE_LINK_ROUNDS + 1, 1};
    struct pie_opening opening;
    struct pie_event event = event_at(1, 1);
    pie_link_default_opening(&opening, 100000000);
    CHECK(opening.packets == 9765);
    pie_link_default_opening(&opening, 0);
    CHECK(opening.packets == 1024);
    pie_link_default_opening(&opening, UINT64_C(1000000000000));
    CHECK(opening.packets == 1 << 20);
    opening.packets = 1000;
    CHECK(pie_link_open(&opening, 2, &a) == PIE_DONE && pie_link_open(&opening, 2, &b) == PIE_DONE && pie_link_share(&b, &other) == PIE_DONE);
    /* the numbers of `other` are adjacent to those of `a`, but the links differ */
    CHECK(pie_link_share(&a, &second) == PIE_DONE && pie_link_gather(&a, &other) == PIE_APART && other.at != NULL);
    CHECK(pie_link_gather(&b, &b) == PIE_APART && pie_link_gather(&a, &second) == PIE_DONE);
    CHECK(a.shared != b.shared && other.shared == b.shared);
    PIE_LINK_ADD(a.shared->sleepers, 1); /* as of a thread that sleeps at link a */
    CHECK(pie_link_arrive(&b, &event) == PIE_ENQUEUE && pie_link_depart(&other, &event) == PIE_DONE && PIE_LINK_LOAD(a.shared->turns) == 0);
    CHECK(PIE_LINK_LOAD(b.shared->turns) == 0);
    event = event_at(1, 1);
    CHECK(pie_link_try_arrive(&a, &event) == PIE_ENQUEUE && PIE_LINK_LOAD(a.shared->turns) == 0);
    pie_link_wake(&a);
    CHECK(PIE_LINK_LOAD(a.shared->turns) == 1);
    errno = 77;
    CHECK(pie_link_depart(&a, &event) == PIE_DONE && PIE_LINK_LOAD(a.shared->turns) == 2);
    pie_link_wait(&a, &waited); /* (returns at once: `turns` is not 1) */
    CHECK(waited.seen == 2 && errno == 77);
    PIE_LINK_ADD(a.shared->sleepers, UINT32_MAX);
    CHECK(pie_link_close(&a) == PIE_DONE && pie_link_close(&b) == PIE_DONE && pie_link_gather(&other, &b) == PIE_CLOSED);
    event = event_at(1, 2);
    CHECK(pie_link_arrive(&other, &event) == PIE_ENQUEUE && pie_link_close(&other) == PIE_DONE && pie_link_close(&other) == PIE_CLOSED);
}

/* Returns true if the next record of an excerpt is this text. */
static int is_next(struct pie_excerpt *excerpt, const unsigned char *text, size_t count) {
    unsigned char record[PIE_RESUME_ROOM];
    return pie_link_write_excerpt(excerpt, record, sizeof record) == count && memcmp(record, text, count) == 0;
}

/* Checks the text of an excerpt of a link with these events: they are in the order of their arrival, and none is
 * missing after some event. */
static void read_excerpt(struct pie_excerpt *excerpt, const struct pie_event *events, size_t count, size_t least) {
    unsigned char record[PIE_RESUME_ROOM + 1];
    char *at = (char *)record;
    size_t written = pie_link_write_excerpt(excerpt, record, PIE_RESUME_ROOM), before, left = 0, i;
    CHECK(written != 0 && record[written - 1] == '\n' && memcmp(record, "resume,", 7) == 0);
    record[written] = 0;
    for (i = 0; i < 29; i++) /* the place of the number of events */
        CHECK((at = strchr(at, ',')) != NULL && *++at != 0);
    before = strtoull(at, NULL, 10);
    CHECK(before + least <= count);
    for (i = 0; i < before; i++)
        left += events[i].kind == PIE_EVENT_DEPART && events[i].answer == PIE_DONE;
    for (i = 0; i < before; i++)
        if (events[i].kind == PIE_EVENT_ARRIVE && (left == 0 || left-- == 0)) {
            written = pie_write_queued(events[i].tag, events[i].size, events[i].ecn, events[i].moment, record, sizeof record);
            CHECK(written != 0 && is_next(excerpt, record, written));
        }
    for (; i < count; i++) {
        written = pie_write_event(&events[i], record, sizeof record);
        CHECK(written != 0 && is_next(excerpt, record, written));
    }
    CHECK(pie_link_write_excerpt(excerpt, record, PIE_RESUME_ROOM) == 0 && pie_link_write_excerpt(excerpt, record, PIE_RESUME_ROOM) == 0);
}

static void excerpts(void) {
    enum { EVENTS = 29 };
    struct pie_port port = PIE_PORT_CLOSED;
    struct pie_excerpt excerpt = PIE_EXCERPT_CLOSED, small = PIE_EXCERPT_CLOSED;
    struct pie_opening opening, larger;
    struct pie_state state;
    struct pie_stats stats;
    struct pie_event events[EVENTS];
    unsigned char text[PIE_RESUME_ROOM], record[PIE_RESUME_ROOM];
    size_t count, i;
    pie_default_opening(&opening, 100000000);
    opening.packets = 8;
    opening.tail = 4;
    memset(&stats, 0, sizeof stats);
    memset(record, 7, sizeof record);
    /* closed */
    CHECK(pie_link_try_excerpt(&port, &excerpt) == PIE_CLOSED && pie_link_write_excerpt(&excerpt, record, sizeof record) == 0 && record[0] == 7);
    CHECK(pie_link_close_excerpt(&excerpt) == PIE_CLOSED && excerpt.at == NULL);
    CHECK(pie_link_open(&opening, 2, &port) == PIE_DONE && pie_link_excerpt(&port, &excerpt) == PIE_CLOSED && excerpt.at == NULL);
    /* opening: without events the excerpt has the state of a new controller */
    larger = opening;
    larger.profile = 3;
    CHECK(pie_link_open_excerpt(&larger, &excerpt) == PIE_BAD_PROFILE && excerpt.at == NULL);
    CHECK(pie_link_open_excerpt(&opening, &excerpt) == PIE_DONE && excerpt.at != NULL && pie_link_open_excerpt(&larger, &excerpt) == PIE_OPEN);
    CHECK(pie_open(&state, &opening) == PIE_DONE);
    count = pie_write_resume(&opening, &state, &stats, 0, PIE_UNKNOWN, 0, 0, text, sizeof text);
    CHECK(count > 0 && pie_link_write_excerpt(&excerpt, record, count - 1) == 0 && record[0] == 7 && record[count - 1] == 7);
    CHECK(is_next(&excerpt, text, count) && pie_link_write_excerpt(&excerpt, record, sizeof record) == 0);
    /* the excerpt of an empty link is equal, and its text begins again each time */
    for (i = 0; i < 3; i++)
        CHECK(pie_link_excerpt(&port, &excerpt) == PIE_DONE && is_next(&excerpt, text, count));
    /* events: all from some event on, at least those of the log, even if the last text was not read to its end */
    for (i = 0; i < EVENTS; i++) {
        events[i] = event_at(10 * (i + 1), i);
        CHECK(i % 5 < 3 ? pie_link_arrive(&port, &events[i]) == PIE_ENQUEUE : pie_link_depart(&port, &events[i]) == PIE_DONE);
        CHECK(pie_link_excerpt(&port, &excerpt) == PIE_DONE);
        if (i % 3 == 0)
            read_excerpt(&excerpt, events, i + 1, i < 4 ? i + 1 : 4);
        else
            CHECK(pie_link_write_excerpt(&excerpt, record, sizeof record) > 0);
    }
    /* too little room: the excerpt and its next record are unchanged */
    larger = opening;
    larger.tail = larger.packets = 2;
    CHECK(pie_link_open_excerpt(&larger, &small) == PIE_DONE && pie_link_try_excerpt(&port, &small) == PIE_TOO_SMALL);
    CHECK(pie_link_write_excerpt(&small, record, sizeof record) > 0 && pie_link_excerpt(&port, &small) == PIE_TOO_SMALL);
    CHECK(pie_link_write_excerpt(&small, record, sizeof record) == 0 && pie_link_close_excerpt(&small) == PIE_DONE && small.at == NULL);
    CHECK(pie_link_close(&port) == PIE_DONE && pie_link_close_excerpt(&excerpt) == PIE_DONE && pie_link_close_excerpt(&excerpt) == PIE_CLOSED);
}

enum { THREADS = 16, TIMES = 2000 };
static uint64_t asked[THREADS];

static void *ask(void *of) {
    struct pie_port *port = (struct pie_port *)of;
    struct pie_event event = event_at(0, 1);
    uint64_t count;
    CHECK(pthread_setcancelstate(PTHREAD_CANCEL_DISABLE, NULL) == 0);
    CHECK(pie_link_reset(port, &event) == PIE_DONE);
    uint64_t *mine = &asked[event.caller];
    *mine = 1;
    for (count = 0; count < TIMES; count++) {
        event = event_at(count, count);
        CHECK(pie_link_arrive(port, &event) < 100);
        ++*mine;
        if (event.caller >= THREADS - 4) { /* cancelled at some time between two calls */
            pthread_setcancelstate(PTHREAD_CANCEL_ENABLE, NULL);
            pthread_testcancel();
            pthread_setcancelstate(PTHREAD_CANCEL_DISABLE, NULL);
        }
    }
    return NULL;
}

static void threads(void) {
    static struct pie_port ports[THREADS];
    pthread_t ids[THREADS];
    struct pie_opening opening;
    struct pie_event events[PIE_LINK_MOST];
    struct pie_params params;
    uint64_t found[THREADS] = {0}, next[THREADS] = {0}, written = 0, last;
    uint32_t code;
    size_t folded, place;
    int i;
    pie_default_opening(&opening, 100000000);
    opening.tail = 1 << 20;
    CHECK(pie_link_open(&opening, THREADS, &ports[0]) == PIE_DONE);
    for (i = 1; i < THREADS; i++)
        CHECK(pie_link_share(&ports[0], &ports[i]) == PIE_DONE);
    for (i = 0; i < THREADS; i++)
        CHECK(pthread_create(&ids[i], NULL, ask, &ports[i]) == 0);
    for (i = 0; i < 4; i++) /* (the first sharing received the highest numbers) */
        pthread_cancel(ids[1 + i]);
    for (i = 0; i < THREADS; i++)
        CHECK(pthread_join(ids[i], NULL) == 0);
    /* with room for 1 to the most events: the history equals the one read event by event */
    for (i = 1; (code = pie_link_fold(&ports[0], events, (size_t)i, &folded, &last, &params)) == PIE_DONE; i = i % PIE_LINK_MOST + 1) {
        CHECK(folded <= (size_t)i && last == written + folded); /* no event is missing: the log had room for all */
        written = last;
        for (place = 0; place < folded; place++) {
            const struct pie_event *event = &events[place];
            found[event->caller]++;
            if (event->kind == PIE_EVENT_ARRIVE)
                CHECK(event->tag == next[event->caller]++); /* each caller's calls, once and in its order */
        }
    }
    CHECK(code == PIE_TOO_MANY);
    for (i = 0; i < THREADS; i++) {
        CHECK(found[i] == asked[i]);
        CHECK(pie_link_close(&ports[i]) == PIE_DONE);
    }
}

/* Each request for memory fails in turn: the linker replaces malloc and realloc by these (-Wl,--wrap). */
#ifdef __cplusplus
extern "C" {
#endif
void *__real_malloc(size_t bytes);
void *__real_realloc(void *at, size_t bytes);
void *__wrap_malloc(size_t bytes);
void *__wrap_realloc(void *at, size_t bytes);
static long refused = -1; /* number of requests that succeed before one fails; -1: all */
static int is_granted(void) {
    return refused < 0 || refused-- != 0;
}
void *__wrap_malloc(size_t bytes) {
    return is_granted() ? __real_malloc(bytes) : NULL;
}
void *__wrap_realloc(void *at, size_t bytes) {
    return is_granted() ? __real_realloc(at, bytes) : NULL;
}
#ifdef __cplusplus
}
#endif

/* Returns the code of a call whose request number `number` is refused. `refused` is at least 0
 * afterwards if there was no such request. */
#define REFUSING(number, call) (refused = (number), code = (call), was_refused = refused < 0, refused = -1, code)

static void memory(void) {
    struct pie_port port = PIE_PORT_CLOSED, other = PIE_PORT_CLOSED;
    struct pie_excerpt excerpt = PIE_EXCERPT_CLOSED;
    struct pie_opening opening;
    struct pie_event event = event_at(0, 1);
    struct pie_params params;
    unsigned char record[PIE_RESUME_ROOM];
    uint32_t code;
    size_t folded;
    uint64_t last;
    long number, requests = 0;
    int was_refused;
    pie_default_opening(&opening, 100000000);
    opening.packets = opening.tail = 8;
    for (number = 0; REFUSING(number, pie_link_open(&opening, 2, &port)) != PIE_DONE; number++)
        CHECK(code == PIE_NO_MEMORY && was_refused && port.at == NULL);
    requests += number;
    for (number = 0; REFUSING(number, pie_link_share(&port, &other)) != PIE_DONE; number++)
        CHECK(code == PIE_NO_MEMORY && was_refused && other.at == NULL); /* the number stays with its port, and can be shared later */
    requests += number;
    for (number = 0; REFUSING(number, pie_link_open_excerpt(&opening, &excerpt)) != PIE_DONE; number++)
        CHECK(code == PIE_NO_MEMORY && was_refused && excerpt.at == NULL);
    CHECK(number > 2);
    CHECK(REFUSING(0, pie_link_arrive(&other, &event)) == PIE_ENQUEUE && !was_refused && event.caller == 1);
    CHECK(REFUSING(0, pie_link_excerpt(&port, &excerpt)) == PIE_DONE && !was_refused);
    CHECK(REFUSING(0, (uint32_t)pie_link_write_excerpt(&excerpt, record, sizeof record)) > 0 && !was_refused);
    CHECK(REFUSING(0, pie_link_close_excerpt(&excerpt)) == PIE_DONE && !was_refused);
    CHECK(REFUSING(0, pie_link_depart(&port, &event)) == PIE_DONE && !was_refused);
    CHECK(REFUSING(0, pie_link_fold(&port, &event, 1, &folded, &last, &params)) == PIE_DONE && !was_refused && folded == 1 && last == 1);
    CHECK(event.kind == PIE_EVENT_ARRIVE && requests > 4);
    CHECK(pie_link_close(&port) == PIE_DONE && pie_link_close(&other) == PIE_DONE);
}

int main(void) {
    calls();
    bursts();
    bursts_of_several();
    hints();
    gaps();
    many_callers();
    two_links();
    excerpts();
    threads();
    memory();
    return 0;
}
