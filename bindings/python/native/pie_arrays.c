#include "pie_arrays.h"

enum { LINK = 2, TIMER = 3 };

/* Decides on an arriving packet, and queues it if its verdict is to queue or mark it. */
static uint32_t arrive(struct pie_state *state, struct pie_array_queue *queue, struct pie_event *event) {
    uint32_t answer = pie_arrive_event(state, queue->bytes, queue->most_packets - queue->packets, event);
    if (answer == PIE_ENQUEUE || answer == PIE_MARK) {
        struct pie_array_packet *packet = &queue->ring[(queue->first + queue->packets++) & (queue->slots - 1)];
        packet->tag = event->tag;
        packet->since = state->moment;
        packet->size = event->size;
        packet->ecn = answer == PIE_MARK ? PIE_CE : event->ecn;
        queue->bytes += event->size;
    }
    return answer;
}

/* Removes the oldest packet, if there is one. If its departure is refused, it stays. */
static uint32_t depart(struct pie_state *state, struct pie_array_queue *queue, struct pie_event *event) {
    if (queue->packets == 0) {
        return pie_empty_event(state, event);
    }
    const struct pie_array_packet *packet = &queue->ring[queue->first];
    uint64_t left = queue->bytes - packet->size;
    event->tag = packet->tag;
    event->size = packet->size;
    event->ecn = (uint8_t)packet->ecn;
    uint32_t answer = pie_depart_event(state, left, packet->since, event);
    if (answer <= 100) {
        queue->first = (queue->first + 1) & (queue->slots - 1);
        queue->packets--;
        queue->bytes = left;
    }
    return answer;
}

static uint32_t decide(struct pie_state *state, struct pie_array_queue *queue, struct pie_event *event) {
    uint32_t answer;
    switch (event->kind) {
    case PIE_EVENT_ARRIVE:
        answer = arrive(state, queue, event);
        break;
    case PIE_EVENT_DEPART:
        answer = depart(state, queue, event);
        break;
    case PIE_EVENT_UPDATE:
        answer = pie_update_event(state, queue->bytes, event);
        break;
    default:
        answer = pie_reset_event(state, event);
    }
    queue->events += answer <= 100;
    return answer;
}

/* Returns true if the controller refuses the event. Only copies change. */
static int is_refused(const struct pie_state *state, const struct pie_array_queue *queue, const struct pie_event *event) {
    struct pie_state trial = *state;
    struct pie_array_queue other = *queue;
    struct pie_event asked = *event;
    if (asked.kind == PIE_EVENT_ARRIVE) { /* (decide would write the packet to the ring) */
        return pie_arrive_event(&trial, queue->bytes, queue->most_packets - queue->packets, &asked) > 100;
    }
    return decide(&trial, &other, &asked) > 100;
}

/* Returns the reason why the next event cannot be decided, or PIE_ARRAY_ALL. The limit of the number of events is the last of the reasons: an event
 * that the controller would refuse is passed to the controller. */
static uint64_t hindered(const struct pie_state *state, const struct pie_array_queue *queue, const struct pie_event *event) {
    if (event->kind < PIE_EVENT_ARRIVE || event->kind > PIE_EVENT_RESET) {
        return PIE_ARRAY_KIND;
    }
    if (queue->events >= queue->most_events) {
        return is_refused(state, queue, event) ? PIE_ARRAY_ALL : PIE_ARRAY_EVENTS;
    }
    if (event->kind == PIE_EVENT_ARRIVE && queue->packets == queue->slots && queue->slots < queue->most_packets) {
        return PIE_ARRAY_GROW;
    }
    return PIE_ARRAY_ALL;
}

size_t pie_array_decide(struct pie_state *state, struct pie_array_queue *queue, struct pie_event *events, size_t count, uint32_t keeps_refused) {
    for (size_t k = 0; k < count; k++) {
        queue->why = hindered(state, queue, &events[k]);
        if (queue->why != PIE_ARRAY_ALL) {
            return k;
        }
        if (decide(state, queue, &events[k]) > 100 && !keeps_refused) {
            queue->why = PIE_ARRAY_REFUSED;
            return k;
        }
    }
    queue->why = PIE_ARRAY_ALL;
    return count;
}

/* The link begins to send a packet at this moment. */
static void send(struct pie_array_queue *queue, uint64_t moment, uint32_t size) {
    uint64_t time = size * UINT64_C(8000000000) + (moment == queue->link_free ? queue->rest : 0);
    queue->link_free = moment + time / queue->rate;
    queue->rest = time % queue->rate;
}

/* Returns the next event: the arrival, or a departure or an update up to its moment; of kind 0 if there is none until then. An arrival at an
 * invalid moment is returned at once, and is refused. */
static struct pie_event next(const struct pie_state *state, const struct pie_array_queue *queue, const struct pie_event *arrival, uint64_t until) {
    if (arrival && arrival->moment > PIE_MAX_MOMENT) {
        return *arrival;
    }
    struct pie_event event = {.caller = LINK, .kind = PIE_EVENT_DEPART, .moment = UINT64_MAX};
    uint64_t due = pie_due(state), end = arrival ? arrival->moment : until;
    if (queue->packets != 0) {
        event.moment = queue->link_free > state->moment ? queue->link_free : state->moment;
    }
    if (due < event.moment) {
        event.caller = TIMER;
        event.kind = PIE_EVENT_UPDATE;
        event.moment = due;
    }
    if (event.moment <= end) {
        return event;
    }
    if (arrival) {
        return *arrival;
    }
    event.kind = 0;
    return event;
}

size_t pie_array_offer(struct pie_state *state, struct pie_array_queue *queue, const struct pie_event *arrivals, size_t count, uint64_t until,
                       struct pie_event *out, size_t room) {
    queue->taken = 0;
    for (size_t k = 0; k < room; k++) {
        out[k] = next(state, queue, queue->taken < count ? &arrivals[queue->taken] : NULL, until);
        queue->why = out[k].kind == 0 ? PIE_ARRAY_ALL : hindered(state, queue, &out[k]);
        if (out[k].kind == 0 || queue->why != PIE_ARRAY_ALL) {
            return k;
        }
        if (decide(state, queue, &out[k]) > 100) {
            queue->why = PIE_ARRAY_REFUSED;
            return k;
        }
        queue->taken += out[k].kind == PIE_EVENT_ARRIVE;
        if (out[k].kind == PIE_EVENT_DEPART) {
            send(queue, out[k].moment, out[k].size);
        }
    }
    queue->why = PIE_ARRAY_OUT;
    return room;
}

size_t pie_array_write(const struct pie_event *events, size_t count, uint64_t *records, uint64_t *untold, unsigned char *out, size_t room,
                       size_t *length) {
    size_t k = 0;
    for (*length = 0; k < count && room - *length >= PIE_RECORD_ROOM; k++) {
        int is_refused = events[k].answer > 100;
        size_t bytes = is_refused ? pie_write_refused(*records + 1, events[k].answer, out + *length, room - *length)
                                  : pie_write_event(&events[k], out + *length, room - *length);
        if (bytes == 0 && !is_refused) {
            break;
        }
        *untold += bytes == 0;
        *records += bytes != 0;
        *length += bytes;
    }
    return k;
}

const char *pie_array_text(uint64_t code) {
    return pie_text(code);
}

const char *pie_array_version(void) {
    return PIE_VERSION;
}
