/* Random calls on a small queue, each recorded as an event and written by the library: prints the history. On the way each record is
 * written into every smaller room too, which must not change.
 *
 * usage: events SEED STEPS [CHANGED]   CHANGED: the number of an event whose answer is changed by one before it is written */
#include "pie.h"

#include <stddef.h>
#include <stdio.h>
#include <stdlib.h>
#include <string.h>

#ifdef __cplusplus
static_assert(sizeof(struct pie_event) == 64, "an event takes 64 bytes");
static_assert(offsetof(struct pie_event, reserved) == 60, "an event has no padding");
#else
_Static_assert(sizeof(struct pie_event) == 64, "an event takes 64 bytes");
_Static_assert(offsetof(struct pie_event, reserved) == 60, "an event has no padding");
#endif

#define RING 32

#define CHECK(holds)                                                          \
    do {                                                                      \
        if (!(holds)) {                                                       \
            fprintf(stderr, "events.c:%d: %s does not hold\n", __LINE__, #holds); \
            exit(1);                                                          \
        }                                                                     \
    } while (0)

struct packet {
    uint64_t tag, arrived;
    uint32_t size;
    uint8_t ecn;
};

static struct packet ring[RING];
static unsigned first, packets;
static uint64_t bytes, records, events, changed, random_state;

static uint64_t random_word(void) {
    uint64_t mixed = random_state += UINT64_C(0x9e3779b97f4a7c15);
    mixed = (mixed ^ mixed >> 30) * UINT64_C(0xbf58476d1ce4e5b9);
    mixed = (mixed ^ mixed >> 27) * UINT64_C(0x94d049bb133111eb);
    return mixed ^ mixed >> 31;
}

/* Writes an event, its parameters or a refusal into this much room. */
static size_t write_into(const struct pie_event *event, const struct pie_params *params, unsigned char *out, size_t room) {
    if (event->answer > 100)
        return pie_write_refused(records, event->answer, out, room);
    return event->kind == PIE_EVENT_PARAMS ? pie_write_params(event, params, out, room) : pie_write_event(event, out, room);
}

static void record(const struct pie_event *made, const struct pie_params *params) {
    struct pie_event event = *made;
    unsigned char text[PIE_RECORD_ROOM], before[PIE_RECORD_ROOM];
    size_t length, room;
    records++;
    if (event.answer <= 100 && ++events == changed)
        event.answer ^= 1;
    memset(text, '?', sizeof text);
    memset(before, '?', sizeof before);
    length = write_into(&event, params, text, sizeof text);
    if (length == 0) {
        CHECK(events == changed);
        CHECK(memcmp(text, before, sizeof text) == 0);
        fprintf(stderr, "events: event %d cannot be\n", (int)changed);
        exit(3);
    }
    CHECK(text[length - 1] == '\n');
    CHECK(memcmp(text + length, before, sizeof text - length) == 0);
    fwrite(text, 1, length, stdout);
    for (room = 0; room < length; room++) {
        memset(text, '?', sizeof text);
        CHECK(write_into(&event, params, text, room) == 0);
        CHECK(memcmp(text, before, sizeof text) == 0);
    }
    CHECK(write_into(&event, params, text, length) == length);
}

/* Tests events with the longest numbers, impossible events, and lost events. */
static void try_events(void) {
    static const char longest[] = "arrive,65535,1152921504606846975,18446744073709551615,65535,ect1,18446744073709551615,packets\n";
    struct pie_event event, other;
    unsigned char text[PIE_RECORD_ROOM];
    size_t place;
    memset(&event, 0, sizeof event);
    event.moment = PIE_MAX_MOMENT;
    event.tag = event.word = UINT64_MAX;
    event.size = PIE_MAX_SIZE;
    event.answer = PIE_PACKETS;
    event.caller = UINT16_MAX;
    event.kind = PIE_EVENT_ARRIVE;
    event.ecn = PIE_ECT1;
    CHECK(pie_write_event(&event, text, sizeof text) == strlen(longest));
    CHECK(memcmp(text, longest, strlen(longest)) == 0);
    for (place = offsetof(struct pie_event, delay); place < sizeof event; place++) {
        if (place == offsetof(struct pie_event, size))
            place = offsetof(struct pie_event, answer) + 1; /* the fields of an arrival, and those with any value */
        if (place == offsetof(struct pie_event, caller))
            place = offsetof(struct pie_event, kind);
        other = event;
        ((unsigned char *)&other)[place] ^= 128;
        CHECK(pie_write_event(&other, text, sizeof text) == 0);
    }
    CHECK(pie_write_lost(UINT64_MAX, text, sizeof text) == 26);
    CHECK(memcmp(text, "lost,18446744073709551615\n", 26) == 0);
    CHECK(pie_write_lost(0, text, sizeof text) == 0);
    memset(&event, 0, sizeof event);
    event.kind = PIE_EVENT_LOST;
    CHECK(pie_write_event(&event, text, sizeof text) == 0);
    event.tag = 7;
    CHECK(pie_write_event(&event, text, sizeof text) == 7);
    CHECK(memcmp(text, "lost,7\n", 7) == 0);
    CHECK(pie_write_refused(0, PIE_BAD_SIZE, text, sizeof text) == 0);
    CHECK(pie_write_refused(5, PIE_BAD_QUEUE, text, sizeof text) == 0);
    CHECK(pie_write_refused(5, PIE_TOO_SOON, text, sizeof text) == 12);
    CHECK(memcmp(text, "refused,5,3\n", 12) == 0);
}

/* The clock record, written into rooms of all sizes: no other byte may change; "" if the room is
 * too small. */
static void try_clock(uint64_t moment, uint64_t unix_time, const char *wanted) {
    unsigned char text[PIE_RECORD_ROOM], before[PIE_RECORD_ROOM];
    size_t length = strlen(wanted), room;
    memset(before, '?', sizeof before);
    for (room = 0; room <= sizeof text; room++) {
        size_t count = room < length ? 0 : length;
        memset(text, '?', sizeof text);
        CHECK(pie_write_clock(moment, unix_time, text, room) == count);
        CHECK(memcmp(text, wanted, count) == 0);
        CHECK(memcmp(text + count, before, sizeof text - count) == 0);
    }
}

/* Writes events with the least and greatest numbers, with fields of other kinds and with their own. */
static void try_clocks(void) {
    try_clock(0, 0, "clock,0,0\n");
    try_clock(0, UINT64_MAX, "clock,0,18446744073709551615\n");
    try_clock(PIE_MAX_MOMENT, 0, "clock,1152921504606846975,0\n");
    try_clock(PIE_MAX_MOMENT, UINT64_MAX, "clock,1152921504606846975,18446744073709551615\n");
    try_clock(1, UINT64_C(1795550400000000000), "clock,1,1795550400000000000\n");
    try_clock(PIE_MAX_MOMENT + 1, 0, "");
    try_clock(UINT64_MAX, UINT64_MAX, "");
}

static void step(struct pie_state *pie, uint64_t *now, uint64_t tag) {
    uint64_t word = random_word();
    struct pie_event event;
    memset(&event, 0xee, sizeof event); /* fields that a caller does not fill in have no effect */
    *now += word % 400000;
    event.moment = *now;
    event.caller = (uint16_t)(word >> 32);
    if (word >> 60 < 8) {
        event.tag = tag;
        event.size = 1 + (uint32_t)(word >> 20) % 1500;
        event.ecn = (uint8_t)(word >> 40) & 3;
        event.word = random_word();
        if (word >> 50 & 63 ? 0 : 1)
            event.size = 0;
        if (pie_arrive_event(pie, bytes, RING - packets, &event) <= PIE_MARK) {
            struct packet *new_one = &ring[(first + packets++) % RING];
            new_one->tag = tag;
            new_one->arrived = pie->moment;
            new_one->size = event.size;
            new_one->ecn = event.answer == PIE_MARK ? (uint8_t)PIE_CE : event.ecn;
            bytes += event.size;
        }
        record(&event, NULL);
    } else if (word >> 60 < 13 && packets > 0) {
        event.tag = ring[first].tag;
        event.size = ring[first].size;
        event.ecn = ring[first].ecn;
        bytes -= event.size;
        CHECK(pie_depart_event(pie, bytes, ring[first].arrived, &event) == PIE_DONE);
        first = (first + 1) % RING;
        packets--;
        record(&event, NULL);
    } else if (word >> 60 < 13) {
        CHECK(pie_empty_event(pie, &event) == PIE_NONE);
        record(&event, NULL);
    } else if (word >> 50 & 255 || tag < 20) {
        pie_update_event(pie, bytes, &event);
        record(&event, NULL);
    } else if (word >> 49 & 1) {
        CHECK(pie_reset_event(pie, &event) == PIE_DONE);
        record(&event, NULL);
    } else {
        struct pie_params params = pie->params;
        params.target = 2 + word % 20000000;
        CHECK(pie_set_params_event(pie, &params, &event) == PIE_DONE);
        record(&event, &params);
    }
}

int main(int count, char **words) {
    struct pie_opening opening, bad;
    struct pie_state pie;
    unsigned char text[PIE_RECORD_ROOM];
    uint64_t now, steps, i;
    size_t length;
    if (count < 3)
        return 2;
    random_state = strtoull(words[1], NULL, 10);
    steps = strtoull(words[2], NULL, 10);
    changed = count > 3 ? strtoull(words[3], NULL, 10) : 0;
    try_events();
    try_clocks();
    pie_default_opening(&opening, 0);
    if (random_word() % 2)
        opening.params.limit_bytes = 20000;
    opening.params.t_update = 1000000;
    opening.moment = now = random_word() % 1000000000;
    opening.profile = 1 + random_word() % 2;
    opening.choices = random_word() % 16;
    opening.mode = random_word() % 2;
    opening.packets = RING;
    opening.tail = 100;
    opening.events = steps + 1;
    CHECK(pie_open(&pie, &opening) == PIE_DONE);
    length = pie_write_opening(&opening, text, sizeof text);
    CHECK(length > 0 && pie_write_opening(&opening, text, length - 1) == 0);
    bad = opening, bad.packets = 0;
    CHECK(pie_write_opening(&bad, text, sizeof text) == 0);
    bad = opening, bad.tail = 1048577;
    CHECK(pie_write_opening(&bad, text, sizeof text) == 0);
    bad = opening, bad.mode = 2;
    CHECK(pie_write_opening(&bad, text, sizeof text) == 0);
    fwrite(text, 1, length, stdout);
    records = 1;
    if (opening.choices != PIE_USUAL) { /* (an opening of version three) */
        fwrite(text, 1, pie_write_clock(now, UINT64_C(1795550400000000000), text, sizeof text), stdout);
        records = 2;
    }
    for (i = 0; i < steps; i++)
        step(&pie, &now, i);
    return 0;
}
