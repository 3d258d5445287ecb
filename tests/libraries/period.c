/* Makes the events of a history anew by the calls that sum up, and writes the records of their intervals by the loop of include/pie.h: what
 * `pie explain --every --csv` writes of the history. Each answer is the history's, no record is lost, and one that doesn't fit is not written.
 * Between the events calls are refused that would end the interval.
 *
 * usage: period EVERY WALL [WRONG] < HISTORY     EVERY: the length of an interval in ns; WALL: 1 with wall-clock times, else 0;
 *                                                WRONG: `late` makes an interval's record after the next one's first event; `early` writes it before
 *                                                the call that may end the interval, also if that is refused */
#include "pie.h"

#include <inttypes.h>
#include <stdio.h>
#include <stdlib.h>
#include <string.h>

#define CHECK(holds)                                                                                      \
    do {                                                                                                  \
        if (!(holds)) {                                                                                   \
            fprintf(stderr, "period.c:%d: record %" PRIu64 ": %s does not hold\n", __LINE__, records, #holds); \
            exit(1);                                                                                      \
        }                                                                                                 \
    } while (0)

#define FIELDS 80
#define RING (1u << 20)

struct packet {
    uint64_t tag, arrived;
    uint32_t size;
    uint8_t ecn;
};

static struct packet ring[RING];
static uint64_t first, packets, room, bytes, records, written, begun;
static unsigned char record[PIE_RESUME_ROOM];
static size_t size;
static struct pie_state state;
static struct pie_period period;
static char *fields[FIELDS];
static int count, is_late, is_early;

static int is(int place, const char *word) {
    return place < count && strcmp(fields[place], word) == 0;
}

static uint64_t number(int place) {
    CHECK(place < count);
    return strtoull(fields[place], NULL, 10);
}

static uint8_t ecn(int place) {
    return is(place, "not") ? PIE_NOT_ECT : is(place, "ect1") ? PIE_ECT1 : is(place, "ect0") ? PIE_ECT0 : PIE_CE;
}

static void split(char *line) {
    count = 0;
    for (char *field = strtok(line, ",\n"); field != NULL && count < FIELDS; field = strtok(NULL, ",\n"))
        fields[count++] = field;
}

static void read_params(struct pie_params *params, int place) {
    uint64_t *numbers[9] = {&params->target, &params->t_update, &params->max_burst, &params->alpha, &params->beta, &params->mean_pkt,
                            &params->limit_bytes, &params->mark_ecnth, &params->dq_threshold};
    for (int k = 0; k < 9; k++)
        *numbers[k] = number(place + k);
}

static void open_by_record(void) {
    struct pie_opening opening;
    pie_default_opening(&opening, 0);
    opening.choices = PIE_USUAL;
    int at = 0; /* the place of the mode */
    if (is(0, "open2") || is(0, "open3"))
        opening.profile = number(1), at = 2;
    if (is(0, "open3")) {
        opening.choices = (is(2, "stamp") ? PIE_DELAY_STAMP : 0) | (is(3, "random") ? PIE_PICK_RANDOM : 0) | (is(4, "uncapped") ? PIE_STEP_UNCAPPED : 0)
                          | (is(5, "scaled") ? PIE_SIZE_SCALED : 0) | (is(6, "half") ? PIE_DECAY_HALF : 0);
        at = is(6, "half") || is(6, "zero") ? 7 : 6;
    }
    opening.mode = is(at, "rolling");
    opening.moment = number(at + 1), opening.packets = room = number(at + 2);
    opening.tail = number(at + 3), opening.events = number(at + 4);
    if (count > at + 5)
        read_params(&opening.params, at + 5);
    CHECK(pie_open(&state, &opening) == PIE_DONE);
}

/* Formats the record of the current interval; there is none before the first event. With one byte of room too few
 * nothing is written, and the bytes after the record never change. */
static void make_record(void) {
    memset(record, '#', sizeof record);
    size = pie_write_period(&period, record, sizeof record);
    if (period.begun == 0) {
        CHECK(size == 0 && record[0] == '#');
        return;
    }
    CHECK(size > 90 && record[size - 1] == '\n' && record[size] == '#');
    unsigned char out[PIE_RESUME_ROOM];
    memset(out, '#', sizeof out);
    CHECK(pie_write_period(&period, out, size - 1) == 0 && out[0] == '#');
    CHECK(pie_write_period(&period, out, size) == size && memcmp(out, record, size) == 0 && out[size] == '#');
}

/* Writes the record of the interval with this number. */
static void write_record(uint64_t number) {
    CHECK(number == written + 1);
    fwrite(record, 1, size, stdout);
    written = number;
}

/* Before a call: makes the record of the interval that it may end. */
static void before(uint64_t moment) {
    begun = period.begun;
    if (moment >= period.end && !is_late)
        make_record();
    if (is_early && moment >= period.end && begun != written)
        write_record(begun);
}

/* After an event: writes the record if another interval has begun. */
static void after(void) {
    if (period.begun == begun || begun == 0 || is_early)
        return;
    if (is_late)
        make_record();
    write_record(begun);
}

static void arrive(struct pie_event *event) {
    static const char *words[] = {"enqueue", "mark", "early", "bytes", "packets"};
    event->tag = number(3), event->size = (uint32_t)number(4), event->ecn = ecn(5), event->word = number(6);
    uint32_t verdict = pie_arrive_summed(&state, bytes, (uint32_t)(room - packets), event, &period);
    CHECK(verdict <= 4 && is(7, words[verdict]));
    if (verdict > PIE_MARK)
        return;
    struct packet *in = &ring[(first + packets++) % RING];
    in->tag = event->tag, in->size = event->size, in->ecn = verdict == PIE_MARK ? PIE_CE : event->ecn, in->arrived = state.moment;
    bytes += in->size;
}

static void depart(struct pie_event *event) {
    if (packets == 0) {
        CHECK(pie_empty_summed(&state, event, &period) == PIE_NONE && is(3, "empty"));
        return;
    }
    const struct packet *out = &ring[first];
    event->tag = out->tag, event->size = out->size, event->ecn = out->ecn;
    first = (first + 1) % RING, packets--, bytes -= out->size;
    CHECK(pie_depart_summed(&state, bytes, out->arrived, event, &period) == PIE_DONE);
    CHECK(is(3, "left") && number(4) == event->tag && number(5) == event->size && ecn(6) == event->ecn);
}

static void update(struct pie_event *event) {
    CHECK(pie_update_summed(&state, bytes, event, &period) == PIE_DONE);
    CHECK(number(3) == event->delay && number(4) == event->prob && number(5) == event->burst);
}

static void set_params(struct pie_event *event) {
    struct pie_params params;
    read_params(&params, 3);
    CHECK(pie_set_params_summed(&state, &params, event, &period) == PIE_DONE);
}

/* A refused call changes neither the state nor the interval; its moment would end the interval. */
static void refuse(struct pie_event event) {
    before(PIE_MAX_MOMENT + 1);
    struct pie_state was = state;
    static struct pie_period kept;
    kept = period;
    struct pie_params params = state.params;
    event.moment = PIE_MAX_MOMENT + 1;
    event.size = 100, event.ecn = PIE_ECT0;
    CHECK(pie_arrive_summed(&state, bytes, 1, &event, &period) == PIE_BAD_MOMENT);
    CHECK(pie_depart_summed(&state, bytes, state.moment, &event, &period) == PIE_BAD_MOMENT);
    CHECK(pie_empty_summed(&state, &event, &period) == PIE_BAD_MOMENT);
    CHECK(pie_update_summed(&state, bytes, &event, &period) == PIE_BAD_MOMENT);
    CHECK(pie_reset_summed(&state, &event, &period) == PIE_BAD_MOMENT);
    CHECK(pie_set_params_summed(&state, &params, &event, &period) == PIE_BAD_MOMENT);
    CHECK(pie_period_clock(&period, PIE_MAX_MOMENT + 1, 7) == PIE_BAD_MOMENT);
    CHECK(memcmp(&was, &state, sizeof state) == 0 && memcmp(&kept, &period, sizeof period) == 0);
    after();
}

static void make(void) {
    struct pie_event event;
    memset(&event, 0xAA, sizeof event);
    event.caller = (uint16_t)number(1), event.moment = number(2), event.tag = 0, event.size = 0, event.ecn = 0, event.word = 0;
    before(event.moment);
    if (is(0, "arrive"))
        arrive(&event);
    else if (is(0, "depart"))
        depart(&event);
    else if (is(0, "update"))
        update(&event);
    else if (is(0, "reset"))
        CHECK(pie_reset_summed(&state, &event, &period) == PIE_DONE);
    else
        set_params(&event);
    CHECK(period.begun && period.start == state.moment / period.every * period.every && period.end == period.start + period.every);
    CHECK(period.number == state.moment / period.every);
    after();
}

int main(int words, char **word) {
    CHECK(words >= 3);
    uint64_t every = strtoull(word[1], NULL, 10);
    is_late = words > 3 && strcmp(word[3], "late") == 0;
    is_early = words > 3 && strcmp(word[3], "early") == 0;
    CHECK(pie_open_period(&period, 0, 0) == PIE_BAD_EVERY && pie_open_period(&period, PIE_MAX_MOMENT + 1, 0) == PIE_BAD_EVERY);
    CHECK(period.every == 0 && pie_open_period(&period, every, word[2][0] == '1') == PIE_DONE);
    size = pie_write_period_header(&period, record, sizeof record);
    CHECK(size > 0 && pie_write_period_header(&period, record, size - 1) == 0);
    fwrite(record, 1, size, stdout);
    char line[4096];
    while (fgets(line, sizeof line, stdin) != NULL) {
        split(line);
        records++;
        if (records == 1)
            open_by_record();
        else if (is(0, "clock"))
            CHECK(pie_period_clock(&period, number(1), number(2)) == PIE_DONE);
        else if (is(0, "arrive") || is(0, "depart") || is(0, "update") || is(0, "reset") || is(0, "params"))
            make();
        else if (is(0, "refused") || records % 64 == 0) {
            struct pie_event event;
            memset(&event, 0, sizeof event);
            refuse(event);
        }
    }
    make_record();
    if (period.begun != 0 && period.begun != written)
        write_record(period.begun);
    return 0;
}
