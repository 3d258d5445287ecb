/* A queue with random events, and a text of its recorder that the same calls decide again: for the tests of
 * include/pie_flight.h. */
#ifndef FLIGHT_AGAIN_H
#define FLIGHT_AGAIN_H

#include "pie_flight.h"

#include <inttypes.h>
#include <stdio.h>
#include <stdlib.h>
#include <string.h>

#define MOST_WAITING 512
#define MOST_TEXT (1 << 26)

static void expect(int is_so, const char *what, uint64_t found) {
    if (!is_so) {
        fprintf(stderr, "flight: %s (%" PRIu64 ")\n", what, found);
        exit(1);
    }
}

static uint64_t word_of(uint64_t *seed) {
    uint64_t it = *seed += UINT64_C(0x9e3779b97f4a7c15);
    it = (it ^ (it >> 30)) * UINT64_C(0xbf58476d1ce4e5b9);
    it = (it ^ (it >> 27)) * UINT64_C(0x94d049bb133111eb);
    return it ^ (it >> 31);
}

static uint64_t below(uint64_t *seed, uint64_t most) {
    return word_of(seed) % most;
}

/* ---- a queue, and its controller */

struct packet {
    uint64_t tag, since;
    uint32_t size, ecn;
};

struct queue {
    struct pie_opening opening;
    struct pie_state pie;
    struct packet packets[MOST_WAITING];
    uint64_t first, count, bytes, moment, tag, seed, marked, dropped, refused, changed;
};

static void open_queue(struct queue *queue, uint64_t seed) {
    struct pie_opening *opening = &queue->opening;
    memset(queue, 0, sizeof *queue);
    queue->seed = seed;
    pie_default_params(&opening->params);
    opening->params.target = 1000000 + below(&queue->seed, 1000000);
    opening->params.t_update = 200000;
    opening->params.max_burst = below(&queue->seed, 2) * 1000000;
    opening->params.alpha = 2000;
    opening->params.beta = 20000;
    opening->params.limit_bytes = 100000 + below(&queue->seed, 200000);
    opening->params.dq_threshold = UINT64_C(1024) << below(&queue->seed, 4);
    opening->moment = below(&queue->seed, 1000);
    opening->profile = 1 + below(&queue->seed, 2);
    opening->choices = below(&queue->seed, 16);
    opening->mode = below(&queue->seed, 2);
    opening->packets = 1 + below(&queue->seed, MOST_WAITING);
    opening->tail = 1024;
    opening->events = UINT64_C(1) << 40;
    queue->moment = opening->moment;
    expect(pie_open(&queue->pie, opening) == PIE_DONE, "opened", 0);
}

static uint32_t arrive(struct queue *queue, struct pie_event *event) {
    uint64_t place = (queue->first + queue->count) % MOST_WAITING;
    uint32_t answer;
    event->tag = ++queue->tag;
    event->size = (uint32_t)(40 + below(&queue->seed, 1461));
    event->ecn = (uint8_t)below(&queue->seed, 4);
    event->word = word_of(&queue->seed);
    if (below(&queue->seed, 50) == 0)
        event->size = below(&queue->seed, 2) == 0 ? 0 : 70000;
    answer = pie_arrive_event(&queue->pie, queue->bytes, (uint32_t)(queue->opening.packets - queue->count), event);
    if (answer == PIE_ENQUEUE || answer == PIE_MARK) {
        struct packet *packet = &queue->packets[place];
        packet->tag = event->tag;
        packet->since = queue->pie.moment;
        packet->size = event->size;
        packet->ecn = answer == PIE_MARK ? 3 : event->ecn;
        queue->count++;
        queue->bytes += packet->size;
    }
    queue->marked += answer == PIE_MARK;
    queue->dropped += answer == PIE_EARLY;
    return answer;
}

static uint32_t depart(struct queue *queue, struct pie_event *event) {
    struct packet *packet = &queue->packets[queue->first];
    if (queue->count == 0)
        return pie_empty_event(&queue->pie, event);
    event->tag = packet->tag;
    event->size = packet->size;
    event->ecn = (uint8_t)packet->ecn;
    queue->first = (queue->first + 1) % MOST_WAITING;
    queue->count--;
    queue->bytes -= packet->size;
    return pie_depart_event(&queue->pie, queue->bytes, packet->since, event);
}

static uint32_t change(struct queue *queue, struct pie_event *event) {
    struct pie_params params = queue->pie.params;
    params.target = 1000000 + below(&queue->seed, 1000000);
    params.beta = below(&queue->seed, 1000001);
    params.dq_threshold = UINT64_C(1024) << below(&queue->seed, 7);
    params.mark_ecnth = below(&queue->seed, 2) * PIE_ONE;
    params.alpha = below(&queue->seed, 20) == 0 ? 1000001 : 2000;
    queue->changed++;
    return pie_set_params_event(&queue->pie, &params, event);
}

/* One call with its arguments and its result. */
static void step(struct queue *queue, struct pie_event *event) {
    uint64_t kind = below(&queue->seed, 1000), burst = queue->moment / 40000000 % 2;
    uint32_t answer;
    memset(event, 0xa5, sizeof *event);
    queue->moment += below(&queue->seed, 60000);
    event->moment = below(&queue->seed, 100) == 0 ? queue->moment - below(&queue->seed, queue->moment + 1) : queue->moment;
    if (below(&queue->seed, 200) == 0)
        event->moment = PIE_MAX_MOMENT + 1;
    event->caller = (uint16_t)word_of(&queue->seed);
    if (queue->moment >= pie_due(&queue->pie) || kind == 0)
        answer = pie_update_event(&queue->pie, queue->bytes, event);
    else if (kind == 1)
        answer = pie_reset_event(&queue->pie, event);
    else if (kind < 5)
        answer = change(queue, event);
    else if (kind < (burst ? 700u : 350u))
        answer = arrive(queue, event);
    else if (event->moment <= PIE_MAX_MOMENT)
        answer = depart(queue, event);
    else
        answer = pie_empty_event(&queue->pie, event);
    queue->refused += answer > 100;
}

/* ---- a text, decided again */

struct text {
    char *bytes;
    size_t count;
    int stop_at; /* writes until `write` stops it */
};

static int take(void *user, const unsigned char *bytes, size_t count) {
    struct text *text = (struct text *)user;
    if (text->stop_at != 0 && --text->stop_at == 0)
        return 1;
    expect(text->count + count <= MOST_TEXT, "a text too long for this test", count);
    memcpy(text->bytes + text->count, bytes, count);
    text->count += count;
    return 0;
}

#define FIELDS 64

struct row {
    const char *fields[FIELDS];
    uint64_t count;
};

/* Splits the next line in place: each field ends with a 0. Returns the beginning of the next line. */
static char *next_row(char *at, char *end, struct row *row) {
    row->count = 0;
    row->fields[row->count++] = at;
    for (; at < end && *at != '\n'; at++)
        if (*at == ',') {
            *at = 0;
            if (row->count < FIELDS)
                row->fields[row->count++] = at + 1;
        }
    if (at == end)
        return NULL;
    *at = 0;
    return at + 1;
}

static uint64_t number(const struct row *row, uint64_t field) {
    return field < row->count ? strtoull(row->fields[field], NULL, 10) : 0;
}

static int is_word(const struct row *row, uint64_t field, const char *word) {
    return field < row->count && strcmp(row->fields[field], word) == 0;
}

static uint32_t ecn_of(const struct row *row, uint64_t field) {
    return is_word(row, field, "ect1") ? 1 : is_word(row, field, "ect0") ? 2 : is_word(row, field, "ce") ? 3 : 0;
}

static void nine(const struct row *row, uint64_t field, struct pie_params *params) {
    params->target = number(row, field);
    params->t_update = number(row, field + 1);
    params->max_burst = number(row, field + 2);
    params->alpha = number(row, field + 3);
    params->beta = number(row, field + 4);
    params->mean_pkt = number(row, field + 5);
    params->limit_bytes = number(row, field + 6);
    params->mark_ecnth = number(row, field + 7);
    params->dq_threshold = number(row, field + 8);
}

struct again {
    struct pie_state pie;
    struct pie_stats stats;
    struct packet *packets;
    uint64_t first, count, bytes, limit, events;
};

/* The state of a record that resumes. */
static int resume(const struct row *row, struct again *again) {
    struct pie_state *pie = &again->pie;
    memset(again, 0, sizeof *again);
    uint64_t told = row->count == 61; /* the decay, in front of the mode */
    if (!is_word(row, 0, "resume") || row->count != 60 + told)
        return 0;
    nine(row, told + 20, &pie->params);
    pie->profile = number(row, 1);
    pie->choices = (is_word(row, 2, "stamp") ? 1u : 0u) + (is_word(row, 3, "random") ? 2u : 0u) + (is_word(row, 4, "uncapped") ? 4u : 0u) +
                   (is_word(row, 5, "scaled") ? 8u : 0u) + (told && is_word(row, 6, "half") ? 16u : 0u);
    again->limit = number(row, told + 8);
    again->events = number(row, told + 29);
    again->count = number(row, told + 31);
    again->bytes = number(row, told + 32);
    pie->moment = number(row, told + 33);
    pie->prob = number(row, told + 34);
    pie->old_delay = number(row, told + 35);
    pie->accu = number(row, told + 36);
    pie->burst = number(row, told + 37);
    pie->last = number(row, told + 38);
    pie->average = number(row, told + 39);
    pie->measuring = number(row, told + 40);
    pie->cycle_start = number(row, told + 41);
    pie->cycle_count = number(row, told + 42);
    pie->waited = number(row, told + 43);
    pie->active = number(row, told + 44);
    again->stats.arrivals = number(row, told + 45);
    again->stats.left = number(row, told + 51);
    return pie_check_state(pie) == PIE_DONE && is_word(row, told + 30, "");
}

/* Makes the call of a record, and compares the library's record of it with the line. */
static int is_next(struct again *again, const struct row *row, const char *line) {
    struct pie_event event;
    struct pie_params params;
    unsigned char bytes[PIE_RECORD_ROOM];
    size_t count;
    uint32_t answer;
    memset(&event, 0, sizeof event);
    event.caller = (uint16_t)number(row, 1);
    event.moment = number(row, 2);
    if (is_word(row, 0, "arrive")) {
        event.tag = number(row, 3);
        event.size = (uint32_t)number(row, 4);
        event.ecn = (uint8_t)ecn_of(row, 5);
        event.word = number(row, 6);
        answer = pie_arrive_event(&again->pie, again->bytes, (uint32_t)(again->limit - again->count), &event);
        if (answer == PIE_ENQUEUE || answer == PIE_MARK) {
            struct packet *packet = &again->packets[again->first + again->count++];
            packet->tag = event.tag;
            packet->since = again->pie.moment;
            packet->size = event.size;
            packet->ecn = answer == PIE_MARK ? 3 : event.ecn;
            again->bytes += event.size;
        }
    } else if (is_word(row, 0, "depart") && again->count == 0) {
        answer = pie_empty_event(&again->pie, &event);
    } else if (is_word(row, 0, "depart")) {
        struct packet *packet = &again->packets[again->first++];
        again->count--;
        again->bytes -= packet->size;
        event.tag = packet->tag;
        event.size = packet->size;
        event.ecn = (uint8_t)packet->ecn;
        answer = pie_depart_event(&again->pie, again->bytes, packet->since, &event);
    } else if (is_word(row, 0, "update")) {
        answer = pie_update_event(&again->pie, again->bytes, &event);
    } else if (is_word(row, 0, "reset")) {
        answer = pie_reset_event(&again->pie, &event);
    } else if (is_word(row, 0, "params")) {
        nine(row, 3, &params);
        answer = pie_set_params_event(&again->pie, &params, &event);
    } else {
        return 0;
    }
    count = event.kind == PIE_EVENT_PARAMS ? pie_write_params(&event, &params, bytes, sizeof bytes) : pie_write_event(&event, bytes, sizeof bytes);
    again->events++;
    return answer <= 100 && count != 0 && memcmp(bytes, line, count) == 0;
}

/* The queued packets at the end of the text that was decided last. */
static struct packet ended[MOST_WAITING];
static uint64_t ended_count;

/* The wall-clock time at moment 0 in the text after the queued packets; 0 if there is none. */
static uint64_t told_unix;

/* Decides a text again. Returns the number of the last event, or 0 if an event differs or the text is not valid; `first` is the number of
 * events before it. */
static uint64_t decide_again(const struct text *text, uint64_t *first) {
    char *copy = (char *)malloc(text->count + 1), *at, *end = copy + text->count;
    struct again again;
    struct row row;
    uint64_t i, bytes = 0, found = 0;
    memcpy(copy, text->bytes, text->count);
    at = next_row(copy, end, &row);
    again.packets = NULL;
    if (at == NULL || !resume(&row, &again))
        goto done;
    *first = again.events;
    again.packets = (struct packet *)calloc(text->count / 8 + again.count + 1, sizeof *again.packets);
    for (i = 0; i < again.count; i++) {
        at = next_row(at, end, &row);
        if (at == NULL || !is_word(&row, 0, "queued") || row.count != 5)
            goto done;
        again.packets[i].tag = number(&row, 1);
        again.packets[i].size = (uint32_t)number(&row, 2);
        again.packets[i].ecn = ecn_of(&row, 3);
        again.packets[i].since = number(&row, 4);
        bytes += again.packets[i].size;
    }
    if (bytes != again.bytes)
        goto done;
    told_unix = 0;
    if (at < end && strncmp(at, "clock,0,", 8) == 0) {
        at = next_row(at, end, &row);
        told_unix = number(&row, 2);
        if (at == NULL || row.count != 3 || told_unix == 0)
            goto done;
    }
    while (at < end) {
        const char *line = text->bytes + (at - copy);
        at = next_row(at, end, &row);
        if (at == NULL || !is_next(&again, &row, line))
            goto done;
    }
    found = again.events;
    ended_count = again.count;
    if (again.count <= MOST_WAITING && again.count != 0)
        memcpy(ended, again.packets + again.first, again.count * sizeof *ended);
done:
    free(again.packets);
    free(copy);
    return found;
}

#endif
