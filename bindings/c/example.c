/* A drop-tail ring of a small link with PIE in front of it, under overload: for a tenth of a
 * second, 24 Mbit/s of packets arrive at a link of 16 Mbit/s, after a burst that overruns the ring.
 * Prints the history in the format of docs/FORMATS.md, which the library writes. Caller 1 is the
 * sender, 2 the link, 3 the timer.
 *
 * The example uses no clock and no random words, so each run prints the same. A scheduler passes
 * its own clock, its wall-clock time, and words of a good random generator. */
#include "pie.h"

#include <inttypes.h>
#include <stdio.h>
#include <string.h>

enum { SENDER = 1, LINK = 2, TIMER = 3 };

#define RING 64         /* packets */
#define BYTE_TIME 500   /* nanoseconds a byte on the link: 16 Mbit/s */
#define END 120000000u  /* nanoseconds */
#define QUIET 100000000u /* the sender stops here */
#define UNIX_TIME UINT64_C(1795550400000000000) /* nanoseconds since 1970 at the moment 0: it is 2026-11-24, 20:00:00 UTC */

struct packet {
    uint64_t tag, arrived; /* the controller's moment right after its arrival */
    uint32_t size, ecn;
};

/* The ring, the bytes in it, and the controller in front of it. */
struct link {
    struct packet ring[RING];
    uint32_t first, packets;
    uint64_t bytes;
    struct pie_state pie;
};

/* Number of records, and number of events among them: the first records are the opening and the clock. */
static uint64_t records = 2, events;

/* With the argument `trace` the records are printed as commands, without the answers. */
static int is_trace;

/* A linear congruential generator with mixed halves, in place of the caller's random words. */
static uint64_t random_word(void) {
    static uint64_t last = 1;
    last = last * 6364136223846793005u + 1442695040888963407u;
    return last ^ last >> 29;
}

/* Prints a record; of a trace, only the first `asked` fields. */
static void print_record(unsigned char *text, size_t count, int asked) {
    size_t length = 0;
    if (is_trace && count != 0) {
        while (length < count - 1 && (text[length] != ',' || --asked != 0))
            length++;
        text[length] = '\n';
        count = length + 1;
    }
    fwrite(text, 1, count, stdout);
}

/* Prints a command and its answer. */
static void print_event(const struct pie_event *event, int asked) {
    unsigned char text[PIE_RECORD_ROOM];
    struct pie_event it = *event;
    records++;
    if (it.answer > 100 && !is_trace) {
        print_record(text, pie_write_refused(records, it.answer, text, sizeof text), asked);
        return;
    }
    events += it.answer <= 100;
    if (it.answer > 100)
        it.answer = PIE_DONE; /* a trace has no answers */
    print_record(text, pie_write_event(&it, text, sizeof text), asked);
}

static void arrive(struct link *link, struct packet packet, uint64_t now) {
    struct pie_event event = {.caller = SENDER, .moment = now, .tag = packet.tag, .size = packet.size, .ecn = (uint8_t)packet.ecn};
    event.word = random_word();
    uint32_t verdict = pie_arrive_event(&link->pie, link->bytes, RING - link->packets, &event);
    print_event(&event, 7);
    packet.arrived = link->pie.moment;
    if (verdict == PIE_MARK)
        packet.ecn = PIE_CE;
    if (verdict == PIE_ENQUEUE || verdict == PIE_MARK) {
        link->ring[(link->first + link->packets++) % RING] = packet;
        link->bytes += packet.size;
    }
}

/* Sends the oldest packet. Returns its size, or 0 if the ring is empty. */
static uint32_t depart(struct link *link, uint64_t now) {
    struct pie_event event = {.caller = LINK, .moment = now};
    if (link->packets == 0) {
        pie_empty_event(&link->pie, &event);
        print_event(&event, 3);
        return 0;
    }
    struct packet packet = link->ring[link->first];
    link->first = (link->first + 1) % RING;
    link->packets--;
    link->bytes -= packet.size;
    event.tag = packet.tag;
    event.size = packet.size;
    event.ecn = (uint8_t)packet.ecn;
    pie_depart_event(&link->pie, link->bytes, packet.arrived, &event);
    print_event(&event, 3);
    return packet.size;
}

static void update(struct link *link, uint64_t now) {
    struct pie_event event = {.caller = TIMER, .moment = now};
    pie_update_event(&link->pie, link->bytes, &event);
    print_event(&event, 3);
}

static void show(const struct link *link) {
    const struct pie_state *pie = &link->pie;
    records++;
    if (is_trace) {
        printf("show\n");
        return;
    }
    printf("shown,%" PRIu64 ",%" PRIu64 ",%" PRIu32 ",%" PRIu64 ",%" PRIu64 ",%" PRIu64 ",%" PRIu64 ",%" PRIu64 ",%" PRIu64
           ",%" PRIu64 ",%" PRIu64 ",%" PRIu64 "\n",
           events, pie->moment, link->packets, link->bytes, pie->prob, pie->old_delay, pie->accu, pie->burst, pie->last,
           pie->average, pie->measuring, pie->active);
}

int main(int count, char **words) {
    static struct link link;
    is_trace = count == 2 && strcmp(words[1], "trace") == 0;
    struct pie_opening opening;
    pie_default_opening(&opening, 0);
    /* faster reactions than with the default parameters, so that a tenth of a second is enough */
    opening.params.target = 4000000;
    opening.params.t_update = 2000000;
    opening.params.max_burst = 20000000;
    opening.params.alpha = 5000;
    opening.params.beta = 50000;
    opening.params.limit_bytes = 48000;
    opening.params.mark_ecnth = 600000000000;
    opening.params.dq_threshold = 4096;
    opening.mode = PIE_BOUNDED;
    opening.packets = RING;
    opening.tail = 1048576;
    if (pie_open(&link.pie, &opening) != PIE_DONE)
        return 1;
    unsigned char text[PIE_RECORD_ROOM];
    fwrite(text, 1, pie_write_opening(&opening, text, sizeof text), stdout);
    fwrite(text, 1, pie_write_clock(0, UNIX_TIME, text, sizeof text), stdout);

    uint64_t sent = 0, next_packet = 1000, next_free = 2000, next_update = pie_due(&link.pie);
    while (next_update < END) {
        if (next_packet <= next_free && next_packet <= next_update) {
            /* three of four packets are ECN-capable */
            struct packet packet = {sent++, 0, 64, PIE_NOT_ECT};
            packet.size += (uint32_t)(random_word() % 1437);
            packet.ecn = (uint32_t)(random_word() % 4);
            /* the sender's clock is behind the others': the effective moment is the greatest so far */
            arrive(&link, packet, next_packet - 700);
            next_packet += sent < 80 ? 20 : packet.size * (BYTE_TIME * 2 / 3);
            if (next_packet > QUIET)
                next_packet = UINT64_MAX;
        } else if (next_free <= next_update) {
            uint32_t size = depart(&link, next_free);
            next_free += size == 0 ? 1000000 : (uint64_t)size * BYTE_TIME;
        } else {
            update(&link, next_update - 1); /* an update before it is due: refused, and nothing changes */
            update(&link, next_update);
            next_update = pie_due(&link.pie);
        }
    }
    show(&link);
    struct pie_params params = link.pie.params;
    params.mark_ecnth = 0;
    struct pie_event changed = {.caller = TIMER, .moment = END}, reset = changed;
    if (pie_set_params_event(&link.pie, &params, &changed) != PIE_DONE || pie_reset_event(&link.pie, &reset) != PIE_DONE)
        return 1;
    records++;
    events++;
    print_record(text, pie_write_params(&changed, &params, text, sizeof text), 12);
    print_event(&reset, 3);
    show(&link);
    return 0;
}
