/* Makes random calls of pie.h, and mixes each result, the structs and the text that the call may write into one checksum. The same
 * seed makes the same calls on every processor, so equal checksums mean equal results (tests/libraries/processors.py). A third of the
 * numbers are in the ranges of a running controller, a third are at the ends of ranges, and a third are random bits.
 *
 * usage: calls SEED COUNT [trace]      prints the checksum after each sixteenth of the calls, the number of calls of each function, and the
 *                                      codes that occurred; trace: prints the checksum after each call
 */
#include "pie.h"

#include <stdio.h>
#include <stdlib.h>
#include <string.h>

enum { STATES = 8, FUNCTIONS = 44 };

static uint64_t seed, sum = 14695981039346656037u, moment;
static uint64_t calls[FUNCTIONS], codes[256];
static struct pie_state states[STATES];
static struct pie_period periods[STATES];
static struct pie_event event;
static struct pie_params params;
static struct pie_opening opening;
static struct pie_stats stats;
static unsigned char out[2048];

/* (Each argument of a call is drawn before the call: compilers differ in the order in which they compute arguments.) */
static uint64_t any(void) {
    seed ^= seed << 13;
    seed ^= seed >> 7;
    seed ^= seed << 17;
    return seed * 2685821657736338717u;
}

static uint64_t below(uint64_t bound) {
    return any() % bound;
}

static void mix(const void *bytes, size_t length) {
    const unsigned char *at = bytes;
    size_t left;
    for (left = length; left != 0; left--)
        sum = (sum ^ *at++) * 1099511628211u;
}

static void mix_number(uint64_t number) {
    mix(&number, sizeof number);
}

/* A number that is usually at most `most`, and often one of the ends of that range. */
static uint64_t number(uint64_t most) {
    uint64_t near = below(3), bits = below(64);
    switch (below(6)) {
    case 0: return any();
    case 1: return most + near - 1;
    case 2: return any() >> bits;
    default: return most == UINT64_MAX ? any() : below(most + 1);
    }
}

static uint64_t next_moment(void) {
    if (below(8) == 0) return number(PIE_MAX_MOMENT);
    moment += below(4) ? below(3000000) : below(40000000);
    return moment;
}

static uint64_t queued(void) {
    return below(8) == 0 ? number(PIE_MAX_BYTES) : below(400000);
}

static uint32_t size(void) {
    return (uint32_t)(below(8) == 0 ? number(PIE_MAX_SIZE) : 40 + below(1461));
}

static uint32_t ecn(void) {
    return (uint32_t)(below(16) == 0 ? any() : below(4));
}

static uint32_t room(void) {
    return (uint32_t)(below(8) == 0 ? number(1) : 1 + below(1000));
}

static void draw_params(void) {
    uint64_t *fields = (uint64_t *)&params;
    static const uint64_t most[9] = {10000000000, 10000000000, 1000000000000, 1000000, 1000000, 65535, PIE_MAX_BYTES, PIE_ONE, 65536};
    uint64_t at;
    if (below(3) == 0) pie_default_params(&params);
    else pie_params_for(below(2) ? number(400000000000) : below(1000000000), &params);
    for (at = below(4) == 0 ? 1 + below(3) : 0; at != 0; at--) {
        uint64_t field = below(9), power = below(9);
        fields[field] = field == 8 && below(4) != 0 ? UINT64_C(1) << (9 + power) : number(most[field]);
    }
}

static void draw_opening(void) {
    static const uint64_t most[6] = {PIE_MAX_MOMENT, 2, 31, 1, 1048576, 1048576};
    uint64_t *fields = &opening.moment, field;
    pie_default_opening(&opening, below(2) ? number(400000000000) : below(1000000000));
    draw_params();
    if (below(2)) opening.params = params;
    opening.choices = below(32);
    opening.profile = 1 + below(2);
    if (below(2)) opening.moment = below(1000000000);
    if (below(4) == 0) {
        field = below(6);
        fields[field] = number(most[field]);
    }
    if (below(16) == 0) opening.events = number(UINT64_C(1) << 47);
}

/* Makes an event one of kind `kind` that a history may have. */
static void as_recorded(uint8_t kind) {
    event.kind = kind;
    if (kind != PIE_EVENT_UPDATE) event.delay = event.prob = event.burst = 0;
    if (kind != PIE_EVENT_ARRIVE) event.word = 0;
    if (kind != PIE_EVENT_ARRIVE && kind != PIE_EVENT_DEPART) {
        event.size = event.ecn = 0;
        event.tag = kind == PIE_EVENT_LOST ? 1 + below(9) : 0;
    }
    event.answer = kind == PIE_EVENT_ARRIVE ? (uint32_t)below(5) : 0;
    if (kind == PIE_EVENT_LOST) event.moment = event.caller = 0;
}

static void draw_event(void) {
    uint64_t bits;
    memset(&event, 0, sizeof event);
    event.moment = next_moment();
    bits = below(64);
    event.tag = any() >> bits;
    event.word = any();
    event.size = size();
    event.ecn = (uint8_t)ecn();
    event.caller = (uint16_t)any();
    if (below(4) == 0) {
        event.kind = (uint8_t)below(8);
        event.answer = (uint32_t)below(8);
        event.delay = number(UINT64_C(1) << 40);
        event.prob = number(PIE_ONE);
        event.burst = number(1000000000000);
    }
    if (below(32) == 0) {
        uint64_t at = below(sizeof event);
        ((unsigned char *)&event)[at] = (unsigned char)any();
    }
    if (below(2)) as_recorded((uint8_t)(1 + below(6)));
}

/* A text that is often a number with a unit. */
static size_t draw_text(char *text) {
    static const char *const units[] = {"ns", "us", "ms", "s", "nsec", "usecs", "msec", "SECS", "bit", "kbit", "Mbit", "gbit", "tbit", "kibit", "tibit", "bps", "kbps", "mibps",
                                        "tibps", "b", "k", "kb", "m", "MB", "g", "gb", "p", "", "x", "%"};
    static const char letters[] = "0123456789.eE+-kKmMgGtTbBisnupPcx \0\x80";
    size_t length = 0, most;
    uint64_t bits;
    if (below(8) == 0) {
        for (most = below(40); length < most; length++)
            text[length] = letters[below(sizeof letters)];
        return length;
    }
    bits = below(63);
    length = (size_t)sprintf(text, "%llu", (unsigned long long)(any() >> (1 + bits)));
    if (below(3) == 0) {
        text[length++] = '.';
        for (most = length + below(21); length < most; length++)
            text[length] = (char)('0' + below(10));
    }
    return length + (size_t)sprintf(text + length, "%s", units[below(sizeof units / sizeof *units)]);
}

static uint32_t read_text(uint64_t which) {
    char text[128];
    size_t length = draw_text(text);
    uint64_t value = 12345;
    uint32_t code = which == 0   ? pie_read_time(text, length, &value)
                    : which == 1 ? pie_read_rate(text, length, &value)
                    : which == 2 ? pie_read_size(text, length, &value)
                                 : pie_read_packets(text, length, &value);
    mix(text, length);
    mix_number(value);
    return code;
}

/* Makes call `which` on a state, and returns its code or its number of bytes. */
static uint64_t call(uint64_t which, struct pie_state *state, struct pie_period *period) {
    uint64_t bytes = queued(), word = any(), rate = number(400000000000), now = next_moment(), chance = below(8), small = below(1000);
    uint64_t arrived = below(8) ? moment - below(moment / 2 + 1) : any(), every = below(4) ? 1 + below(1000000000) : number(PIE_MAX_MOMENT);
    uint32_t length = size(), packets = room(), bits = ecn();
    size_t space = below(4) ? sizeof out : (size_t)below(below(2) ? 300 : sizeof out);
    struct pie_updated updated;
    draw_event();
    if (which == 41) {
        draw_opening();
        if (chance & 1) opening.params = state->params;
        if (chance) opening.profile = state->profile, opening.choices = state->choices;
        stats.arrivals = word;
    } else if (which == 4 || which == 38) {
        draw_opening();
    } else if (which == 1 || which == 17 || which == 24 || which == 33 || which == 37) {
        draw_params();
    }
    if (which == 37 && chance > 1) as_recorded(PIE_EVENT_PARAMS);
    switch (which) {
    case 0: pie_default_params(&params); return 0;
    case 1: return pie_check_params(&params);
    case 2: pie_params_for(rate, &params); return 0;
    case 3: pie_default_opening(&opening, rate); return 0;
    case 4: return pie_open(state, &opening);
    case 5: case 6: case 7: return pie_arrive(state, bytes, length, packets, bits, word, now);
    case 8: return pie_depart(state, length, bytes, now);
    case 9: case 10: return pie_depart_waited(state, length, bytes, arrived, now);
    case 11: return pie_empty(state, now);
    case 12: case 13: case 14:
        if (chance > 1) now = moment = pie_due(state);
        updated = pie_update(state, bytes, now);
        mix(&updated, sizeof updated);
        return updated.code;
    case 15: return pie_due(state);
    case 16: return chance > 1 ? 0 : pie_reset(state, now);
    case 17: return pie_set_params(state, chance > 1 ? &params : &state->params, now);
    case 18: case 19: return pie_arrive_event(state, bytes, packets, &event);
    case 20: return pie_depart_event(state, bytes, arrived, &event);
    case 21: return pie_empty_event(state, &event);
    case 22: return pie_update_event(state, bytes, &event);
    case 23: return chance > 1 ? 0 : pie_reset_event(state, &event);
    case 24: return pie_set_params_event(state, &params, &event);
    case 25: return pie_open_period(period, every, chance & 1);
    case 26: return pie_period_clock(period, now, word);
    case 27: case 28: return pie_arrive_summed(state, bytes, packets, &event, period);
    case 29: return pie_depart_summed(state, bytes, arrived, &event, period);
    case 30: return pie_empty_summed(state, &event, period);
    case 31: return pie_update_summed(state, bytes, &event, period);
    case 32: return chance > 1 ? 0 : pie_reset_summed(state, &event, period);
    case 33: return pie_set_params_summed(state, &params, &event, period);
    case 34: return chance & 1 ? pie_write_period(period, out, space) : pie_write_period_header(period, out, space);
    case 35: case 36: return pie_write_event(&event, out, space);
    case 37: return pie_write_params(&event, &params, out, space);
    case 38: return pie_write_opening(&opening, out, space);
    case 39: return pie_write_refused(rate, chance & 1 ? (uint32_t)(100 + small % 10) : (uint32_t)word, out, space);
    case 40: return chance & 1 ? pie_write_clock(now, word, out, space) : pie_write_lost(rate, out, space);
    case 41: return pie_write_resume(&opening, state, &stats, small, chance & 2 ? PIE_UNKNOWN : small, packets, bytes, out, space);
    case 42: return pie_write_queued(word, length, bits, now, out, space);
    default: return chance == 0 ? pie_check_state(state) : read_text(small % 4);
    }
}

int main(int argc, char **argv) {
    uint64_t count = argc > 2 ? strtoull(argv[2], NULL, 10) : 0, done, at;
    seed = argc > 1 ? strtoull(argv[1], NULL, 10) * 0x9e3779b97f4a7c15u + 1 : 1;
    for (at = 0; at < STATES; at++) {
        pie_default_opening(&opening, 1000000 + below(100000000));
        opening.choices = at;
        pie_open(&states[at], &opening);
        pie_open_period(&periods[at], 10000000, at & 1);
    }
    for (done = 1; done <= count; done++) {
        uint64_t place = below(STATES), which = below(FUNCTIONS), at_byte = below(sizeof(struct pie_state)), bit = below(8), result;
        struct pie_state *state = &states[place];
        if (below(512) == 0) ((unsigned char *)state)[at_byte] ^= (unsigned char)(1u << bit);
        if (below(4096) == 0) moment = 0;
        memset(out, 0, sizeof out);
        result = call(which, state, &periods[place]);
        calls[which]++;
        if (result < 256 && (which < 34 || which == 43)) codes[result]++;
        mix_number(result);
        mix(state, sizeof *state);
        mix(&event, sizeof event);
        mix(&params, sizeof params);
        mix(&opening, sizeof opening);
        mix(out, which >= 34 && result <= sizeof out ? (size_t)result : 16);
        if (done % 64 == 0) mix(&periods[place], sizeof periods[place]);
        else mix(&periods[place], 480);
        if (argc > 3 || done % (count / 16 + 1) == 0) printf("%llu %016llx\n", (unsigned long long)done, (unsigned long long)sum);
    }
    printf("calls %llu checksum %016llx\n", (unsigned long long)count, (unsigned long long)sum);
    for (at = 0; at < FUNCTIONS; at++)
        printf("%s%llu", at ? " " : "each ", (unsigned long long)calls[at]);
    printf("\ncodes");
    for (at = 0; at < 256; at++)
        if (codes[at]) printf(" %llu", (unsigned long long)at);
    puts("");
    return 0;
}
