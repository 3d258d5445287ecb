/* One event of PIE in plain C by the steps of pie_book's `Core::step`: the checks, the queue (a ring), the decision of an
 * arrival, the departure and its rate estimate, the update (pie_step.h has these three), and the fifteen statistics, over
 * the stream of `pie_library_tests book`. Its checksum is `book_decided_checksum` there. The same steps with a record
 * (peer/book.h) are the least that a book costs in C.
 *
 * usage: bench/pie_book.sh runs it
 */
#include "pie_step.h"

#include <stdio.h>
#include <stdlib.h>
#include <string.h>

#define EVENTS 4000000
#define PACKETS 1024
#define LAST_MOMENT ((1ull << 60) - 1)

enum kind { ARRIVE, DEPART, UPDATE };
/* The result of an event; the answers of an arrival are its choices and 1. */
enum answer { ENQUEUED = ENQUEUE + 1, MARKED, DROPPED_EARLY, DROPPED_BYTES, DROPPED_PACKETS, EMPTY, DONE, LEFT, UPDATED, REFUSED };

struct packet {
    uint64_t tag;
    uint32_t size;
    uint8_t ecn;
};

struct command {
    enum kind kind;
    uint64_t moment;
    struct packet packet;
    uint64_t word;
};

struct reply {
    enum answer answer;
    struct packet packet;
    uint64_t delay, prob, burst;
};

struct waiting {
    struct packet packet;
    uint64_t since;
};

struct core {
    struct params params;
    uint64_t events, count, moment;
    struct waiting *ring;
    uint32_t first, held;
    uint64_t bytes;
    struct rate rate;
    struct control control;
    uint64_t accu;
    uint64_t arrivals, enqueued, marked, early, over_bytes, over_packets, left, left_bytes, empty, updates, largest_queue,
        largest_delay;
    unsigned __int128 waited;
};

static int put(struct core *c, struct packet packet) {
    if (c->held == PACKETS)
        return 0;
    uint32_t at = c->first + c->held;
    if (at >= PACKETS)
        at -= PACKETS;
    c->ring[at].packet = packet;
    c->ring[at].since = c->moment;
    c->held++;
    c->bytes += packet.size;
    return 1;
}

static enum answer arrive(struct core *c, struct packet packet, uint64_t word) {
    enum choice choice =
        arrived_by(&c->accu, &c->params, &c->control, c->bytes, packet.size, c->held == PACKETS, packet.ecn, word);
    if (choice == MARK)
        packet.ecn = 3;
    if (choice == ENQUEUE || choice == MARK)
        put(c, packet);
    return (enum answer)(choice + 1);
}

static void update(struct core *c, struct reply *reply) {
    uint64_t delay = delay_by(c->bytes, c->rate.average, c->params.dq_threshold);
    c->control = control_after(&c->control, &c->params, delay, c->moment);
    c->updates++;
    if (delay > c->largest_delay)
        c->largest_delay = delay;
    reply->delay = delay;
    reply->prob = c->control.prob;
    reply->burst = c->control.burst;
}

__attribute__((noinline)) static struct reply step(struct core *c, const struct command *command) {
    struct reply reply = {REFUSED, {0, 0, 0}, 0, 0, 0};
    if (command->moment > LAST_MOMENT)
        return reply;
    uint64_t now = c->moment < command->moment ? command->moment : c->moment;
    if (command->kind == ARRIVE && (command->packet.size == 0 || command->packet.size > 65535))
        return reply;
    if (command->kind == UPDATE && now < c->control.last + c->params.t_update)
        return reply;
    if (c->count == c->events)
        return reply;
    c->moment = now;
    c->count++;
    switch (command->kind) {
    case ARRIVE:
        reply.answer = arrive(c, command->packet, command->word);
        c->arrivals++;
        switch (reply.answer) {
        case ENQUEUED: c->enqueued++; break;
        case MARKED: c->marked++; break;
        case DROPPED_EARLY: c->early++; break;
        case DROPPED_BYTES: c->over_bytes++; break;
        default: c->over_packets++; break;
        }
        break;
    case DEPART:
        if (c->held == 0) {
            reply.answer = EMPTY;
            c->empty++;
        } else {
            struct waiting oldest = c->ring[c->first];
            c->first = c->first + 1 == PACKETS ? 0 : c->first + 1;
            c->held--;
            c->bytes -= oldest.packet.size;
            departed_by(&c->rate, oldest.packet.size, c->bytes, now, c->params.dq_threshold);
            c->left++;
            c->left_bytes += oldest.packet.size;
            c->waited += now - oldest.since;
            reply.answer = LEFT;
            reply.packet = oldest.packet;
        }
        break;
    case UPDATE:
        reply.answer = UPDATED;
        update(c, &reply);
        break;
    }
    if (c->bytes > c->largest_queue)
        c->largest_queue = c->bytes;
    return reply;
}

struct stream {
    uint64_t arrival, departure, update, tag;
};

static struct command next(struct stream *s) {
    struct command command = {ARRIVE, 0, {0, 0, 0}, 0};
    if (s->arrival <= s->departure && s->arrival <= s->update) {
        command.moment = s->arrival;
        s->arrival += 111111;
        command.packet.tag = ++s->tag;
        command.packet.size = 1500;
        command.word = word();
    } else if (s->departure <= s->update) {
        command.kind = DEPART;
        command.moment = s->departure;
        s->departure += 120000;
    } else {
        command.kind = UPDATE;
        command.moment = s->update;
        s->update += 15000000;
    }
    return command;
}

static const struct stream opened_stream = {111111, 120000, 15000000, 0};

#include "peer/book.h"

static uint64_t digest(const struct reply *reply) {
    return reply->answer == LEFT      ? reply->packet.tag
           : reply->answer == UPDATED ? reply->delay + reply->prob
                                      : (uint64_t)reply->answer;
}

/* Decides the stream, and records it if there is a book. Prints the time of an event, and returns the sum of the results. */
static uint64_t time_events(const char *name, struct core *core, struct book *book) {
    struct stream stream = opened_stream;
    uint64_t sum = 0;
    last = 1;
    double begin = nanos();
    for (int i = 0; i < EVENTS; i++) {
        struct command command = next(&stream);
        struct reply reply = book != NULL ? record_step(book, &command) : step(core, &command);
        if (reply.answer != REFUSED)
            sum = sum * 31 + digest(&reply);
    }
    printf("c_book_%s %.1f ns\n", name, (nanos() - begin) / EVENTS);
    return sum;
}

int main(void) {
    static const char *const names[] = {"recorded_bounded", "recorded_rolling"};
    static struct book books[2];
    struct core core = {0};
    core.params = default_params;
    core.control.burst = core.params.max_burst;
    core.events = 1ull << 40;
    const struct core opened = core;
    core.ring = malloc(PACKETS * sizeof *core.ring);
    if (core.ring == NULL || !open_book(&books[0], &opened, 0) || !open_book(&books[1], &opened, 1))
        return 1;
    uint64_t sum = time_events("decided", &core, NULL);
    for (int i = 0; i < 2; i++)
        if (time_events(names[i], NULL, &books[i]) != sum || !has_last_events(&books[i], &opened) ||
            books[i].count - books[i].tail != (i == 0 ? books[i].folded : EVENTS - TAIL)) {
            fprintf(stderr, "pie_book: the %s book has other events\n", names[i]);
            return 1;
        }
    printf("c_book_checksum %llu sum\n", (unsigned long long)sum);
    return 0;
}
