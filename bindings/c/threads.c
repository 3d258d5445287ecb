/* Two senders, the link that sends queued packets, and a reader. Each 10 ms the reader writes the
 * new events to the file `history`, and each second it takes an excerpt of the last events,
 * excerpt.1 to excerpt.3, for `pie audit` and `pie explain`.
 *
 *     bindings/c/library.py
 *     cc -Iinclude -o threads bindings/c/threads.c crates/pie_link_c/out/libpie_link_c.a crates/pie_c/out/libpie_c.a -pthread
 *     ./threads && pie audit history excerpt.1 excerpt.2 excerpt.3 */
#define _POSIX_C_SOURCE 200809L
#include "pie_link.h"
#include <pthread.h>
#include <stdio.h>

static struct pie_port ports[4]; /* one for each thread: the reader, the link, each sender */
static atomic_int over;

/* All threads read one clock that never goes back. */
static uint64_t now(void) {
    struct timespec time;
    clock_gettime(CLOCK_MONOTONIC, &time);
    return (uint64_t)time.tv_sec * 1000000000 + (uint64_t)time.tv_nsec;
}

static void rest(long nanoseconds) {
    struct timespec time = {0, nanoseconds};
    nanosleep(&time, NULL);
}

static void *send(void *of) {
    for (uint64_t tag = 1, word = now(); !over; tag++, rest(200000)) {
        struct pie_event event = {.moment = now(), .tag = tag, .size = 1000, .ecn = tag % 2 ? PIE_ECT0 : PIE_NOT_ECT, .word = word};
        pie_link_arrive(of, &event);                               /* PIE_ENQUEUE and PIE_MARK: the packet is queued now */
        word ^= word << 13, word ^= word >> 7, word ^= word << 17; /* (use a better one) */
    }
    return NULL;
}

static void *transmit(void *of) {
    for (; !over; rest(100000)) {
        struct pie_event event = {.moment = now()};
        pie_link_update(of, &event); /* PIE_TOO_SOON, most of the time */
        pie_link_depart(of, &event); /* event.tag is the packet that leaves; or PIE_NONE */
    }
    return NULL;
}

/* Writes the events in the log. If the log dropped events since the last time, a line
 * `lost,<count>` has their number; an audit ends there. */
static void follow(struct pie_port *port, FILE *file) {
    static uint64_t written; /* the number of the last event in the file */
    struct pie_event events[PIE_LINK_MOST];
    struct pie_params params;
    unsigned char record[PIE_RECORD_ROOM];
    uint64_t last;
    for (size_t folded; pie_link_fold(port, events, PIE_LINK_MOST, &folded, &last, &params) == PIE_DONE; written = last) {
        fwrite(record, 1, pie_write_lost(last - folded - written, record, sizeof record), file);
        for (size_t i = 0; i < folded; i++) /* (no event sets parameters here: pie_write_params has those) */
            fwrite(record, 1, pie_write_event(&events[i], record, sizeof record), file);
    }
}

/* Takes an excerpt, and writes it to a file of this name. Returns 1 if it could, otherwise 0. */
static int take(struct pie_port *port, struct pie_excerpt *excerpt, const char *name) {
    unsigned char record[PIE_RESUME_ROOM];
    FILE *file = pie_link_excerpt(port, excerpt) == PIE_DONE ? fopen(name, "w") : NULL;
    for (size_t count; file && (count = pie_link_write_excerpt(excerpt, record, sizeof record)) != 0;)
        fwrite(record, 1, count, file);
    return file && fclose(file) == 0;
}

int main(void) {
    unsigned char record[PIE_RECORD_ROOM];
    struct pie_excerpt excerpt = PIE_EXCERPT_CLOSED;
    struct pie_opening opening;
    pthread_t threads[4];
    char name[] = "excerpt.0";
    FILE *history = fopen("history", "w");
    pie_link_default_opening(&opening, 10000000);
    opening.moment = now();
    int failed = !history || pie_link_open(&opening, 4, &ports[0]) != PIE_DONE || pie_link_open_excerpt(&opening, &excerpt) != PIE_DONE ||
                 fwrite(record, 1, pie_write_opening(&opening, record, sizeof record), history) == 0;
    for (int i = 3; i > 0 && !failed; i--) /* each shared port receives the highest remaining number */
        failed = pie_link_share(&ports[0], &ports[i]) != PIE_DONE || pthread_create(&threads[i], NULL, i == 1 ? transmit : send, &ports[i]);
    for (int round = 1; round <= 300 && !failed; round++) {
        rest(10000000);
        if (round % 100 == 0) {
            name[8]++;
            failed = !take(&ports[0], &excerpt, name);
        }
        follow(&ports[0], history);
    }
    over = 1;
    for (int i = 1; i < 4 && !failed; i++)
        failed = pthread_join(threads[i], NULL) != 0 || pie_link_close(&ports[i]) != PIE_DONE;
    return failed || fclose(history) != 0 || pie_link_close(&ports[0]) != PIE_DONE || pie_link_close_excerpt(&excerpt) != PIE_DONE;
}
