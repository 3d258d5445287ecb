/* `pie-watch serve`, `top` and `--drops` with queues that this file makes, in place of the kernel's (watch.py).
 *
 * Five queues have traffic at constant rates, and the others have none. MADE_QUEUES is the number of queues. MADE_BROKEN: no reading is possible after the
 * first.
 *
 * usage: watch_made serve ADDRESS LABELS MOST | top LABELS | drops FILE | labels FILE */
#define _GNU_SOURCE
#include "watch_drops.h"
#include "watch_load.h"
#include "watch_serve.h"
#include "watch_top.h"

#include <arpa/inet.h>
#include <errno.h>
#include <stdlib.h>
#include <string.h>
#include <time.h>

#define TRAFFIC 5
#define ONE (1ull << 56)
#define BEGUN 1000 /* s of traffic before the first reading */

struct totals {
    u64 begun;
    size_t count, readings, taken;
};

/* Of the queues with traffic: ms waited, packets, drops and marks in a second, and 1/10000 of the probability. */
static const struct {
    double wait;
    u64 arrived, early, over, marked, probability;
} rates[TRAFFIC] = {{12.5, 1000, 10, 0, 4, 150}, {3.25, 2000, 200, 50, 0, 25}, {40, 300, 0, 0, 30, 1200}, {0.5, 4000, 0, 40, 0, 0}, {7, 500, 5, 0, 1, 300}};

static volatile sig_atomic_t is_ended;

static void end(int number) {
    (void)number;
    is_ended = 1;
}

static u64 nanoseconds(void) {
    struct timespec time;
    clock_gettime(CLOCK_MONOTONIC, &time);
    return (u64)time.tv_sec * 1000000000u + (u64)time.tv_nsec;
}

bool watch_is_loaded(const char *module) {
    return module != NULL;
}

static u32 bucket(double ms) {
    u32 number = 0;
    while (number < SUMS_WAITS - 1 && ms * 1e6 > (double)((u64)SUMS_FIRST << number))
        number++;
    return number;
}

/* Fills a queue after `seconds` of traffic, of which the last reading was `since` seconds before. */
static void fill(struct sums_queue *queue, u32 number, u64 seconds) {
    *queue = (struct sums_queue){.sch = 4096 + number, .born = 1, .kind = number == 2 ? WATCH_FQ_PIE : WATCH_PIE, .handle = (0x8001 + number) << 16,
                                 .parent = number == 3 ? 0xffffffff : 1u << 16 | (0x10 + number), .number = number, .limit = 1000, .target = 15000000 / 64,
                                 .netns = number == 4 ? 4026539999u : 0};
    snprintf(queue->device, sizeof queue->device, "%s", number % 2 == 0 ? "eth0" : "eth1");
    if (number >= TRAFFIC)
        return;
    queue->counts.arrived = rates[number].arrived * seconds;
    queue->counts.early = rates[number].early * seconds;
    queue->counts.over = rates[number].over * seconds;
    queue->counts.marked = rates[number].marked * seconds;
    queue->packets = number + 1;
    queue->bytes = 1500 * queue->packets;
    queue->counts.departed = queue->counts.arrived - queue->counts.early - queue->counts.over - queue->packets;
    queue->counts.departed_bytes = 1000 * queue->counts.departed;
    queue->counts.waited = (u64)(rates[number].wait * 15625 * (double)queue->counts.departed);
    queue->waits[bucket(rates[number].wait)] = queue->counts.departed - 7;
    queue->waits[SUMS_WAITS - 1] = 7;
    queue->longest = (u64)(rates[number].wait * 2 * 15625);
    queue->probability = rates[number].probability * (ONE / 10000);
    queue->delay = (u64)(rates[number].wait * 15625);
}

struct totals *totals_open(const struct totals_options *options, const volatile sig_atomic_t *ended) {
    static struct totals totals;
    const char *count = getenv("MADE_QUEUES");
    (void)options;
    (void)ended;
    totals.begun = nanoseconds();
    totals.count = count != NULL ? (size_t)atol(count) : TRAFFIC;
    return &totals;
}

bool totals_read(struct totals *totals, struct snapshot *snapshot) {
    u64 seconds;
    if (getenv("MADE_BROKEN") != NULL && totals->readings > 0) {
        errno = EIO;
        return false;
    }
    totals->readings++;
    if (snapshot->room < totals->count) {
        snapshot->rows = realloc(snapshot->rows, totals->count * sizeof *snapshot->rows);
        snapshot->room = totals->count;
    }
    /* (whole seconds, so that rates are exact) */
    seconds = (nanoseconds() - totals->begun) / 1000000000;
    snapshot->ns = totals->begun + seconds * 1000000000;
    snapshot->took = 1500000;
    snapshot->count = totals->count;
    snapshot->removed = 2;
    snapshot->all = (struct sums_counts){.arrived = 11, .early = 5, .departed = 6, .departed_bytes = 600, .waited = 15625};
    memset(snapshot->waits, 0, sizeof snapshot->waits);
    snapshot->waits[0] = 6;
    for (u32 i = 0; i < totals->count; i++) {
        fill(&snapshot->rows[i], i, BEGUN + seconds);
        snapshot->all.arrived += snapshot->rows[i].counts.arrived;
        snapshot->all.early += snapshot->rows[i].counts.early;
        snapshot->all.over += snapshot->rows[i].counts.over;
        snapshot->all.marked += snapshot->rows[i].counts.marked;
        snapshot->all.departed += snapshot->rows[i].counts.departed;
        snapshot->all.departed_bytes += snapshot->rows[i].counts.departed_bytes;
        snapshot->all.waited += snapshot->rows[i].counts.waited;
        for (u32 j = 0; j < SUMS_WAITS; j++)
            snapshot->waits[j] += snapshot->rows[i].waits[j];
    }
    return true;
}

/* An event of queue 1 with a packet of IPv4 to a port, at a moment that the test can compare. */
static struct sums_event packet(u8 type, u8 cause, u8 tos) {
    struct sums_event event = {.ns = 5000000000u, .key = 1, .number = 1, .type = type, .cause = cause};
    event.packet.probability = ONE / 400;
    event.packet.delay = 15625 * 20;
    event.packet.target = 15625 * 15;
    event.packet.size = 1500;
    event.packet.packets = cause == SUMS_OVER ? 1000 : 77;
    event.packet.bytes = 1500 * event.packet.packets;
    event.packet.limit = 1000;
    event.packet.flow = WATCH_FLOW_NONE;
    event.packet.has_header = 4;
    event.packet.has_ecn = 1;
    event.packet.tos = tos;
    event.packet.transport = 6;
    event.packet.has_ports = 1;
    event.packet.ports[0] = htons(443);
    event.packet.ports[1] = htons(51234);
    event.packet.arrived = 100;
    event.packet.dropped = 30;
    event.packet.over = 10;
    event.packet.marked = 4;
    inet_pton(AF_INET, "192.0.2.7", event.packet.addresses);
    inet_pton(AF_INET, "198.51.100.9", event.packet.addresses + 4);
    return event;
}

int totals_events(struct totals *totals, void take(void *user, const struct sums_event *event), void *user) {
    struct sums_event events[7] = {{.ns = 4000000000u, .key = 1, .number = 1, .type = SUMS_CREATED}};
    if (totals->taken++ != 0)
        return 0;
    fill(&events[0].queue, 1, BEGUN);
    events[1] = packet(SUMS_DROPPED, SUMS_EARLY, 0);
    events[2] = packet(SUMS_DROPPED, SUMS_OVER, 2);
    events[3] = packet(SUMS_MARKED, SUMS_EARLY, 3);
    events[4] = packet(SUMS_DROPPED, SUMS_EARLY, 1);
    events[4].packet.probability = ONE / 5;
    events[4].packet.transport = 17;
    events[4].packet.has_header = 6;
    inet_pton(AF_INET6, "2001:db8::1", events[4].packet.addresses);
    inet_pton(AF_INET6, "2001:db8::2", events[4].packet.addresses + 16);
    events[5] = packet(SUMS_DROPPED, SUMS_EARLY, 2);
    events[5].packet.has_ecn = events[5].packet.has_ports = 0;
    memset(events[5].packet.addresses, 0, sizeof events[5].packet.addresses);
    events[6] = (struct sums_event){.ns = 6000000000u, .key = 1, .number = 1, .type = SUMS_REMOVED};
    fill(&events[6].queue, 1, BEGUN);
    for (size_t i = 0; i < sizeof events / sizeof *events; i++)
        take(user, &events[i]);
    return sizeof events / sizeof *events;
}

bool totals_later(struct totals *totals) {
    return totals != NULL;
}

void totals_stop(struct totals *totals) {
    (void)totals;
}

void totals_close(struct totals *totals) {
    (void)totals;
}

void snapshot_free(struct snapshot *snapshot) {
    free(snapshot->rows);
}

int main(int count, char **words) {
    static const struct totals_options options;
    const char *labels = count > 3 ? words[3] : NULL;
    signal(SIGINT, end);
    signal(SIGTERM, end);
    if (count == 5 && strcmp(words[1], "serve") == 0)
        return serve(&options, &(struct serve_options){.address = words[2], .labels = labels[0] != '\0' ? labels : NULL, .most = strtoull(words[4], NULL, 10)}, &is_ended);
    if (count == 3 && strcmp(words[1], "top") == 0)
        return top(&options, words[2], &is_ended);
    if (count == 3 && strcmp(words[1], "drops") == 0)
        return drops_record(&options, words[2], 1, false, &is_ended);
    if (count == 3 && strcmp(words[1], "labels") == 0)
        return !labels_read(words[2]);
    return 2;
}
