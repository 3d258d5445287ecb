#define _GNU_SOURCE
#include "watch_drops.h"

#include "watch_output.h"

#include <arpa/inet.h>
#include <errno.h>
#include <inttypes.h>
#include <signal.h>
#include <stdio_ext.h>
#include <stdlib.h>
#include <string.h>
#include <time.h>

#define PROGRAM "pie-watch"
#define BUFFER (1 << 20) /* bytes of the file in memory */
#define MOST_ROW 4096
#define SECOND 1000000000ll
#define FIELDS 33
#define ONE ((double)(1ull << 56)) /* the probability 1 */
#define MOST_MARKED 0.1 /* pie drops a packet that can be marked above this probability, fq_pie above ecn_prob */

static const char columns[] =
    "time,ns,device,class,handle,kind,event,cause,probability_percent,delay_ms,target_ms,burst_ms,packets,bytes,limit,size,ecn,protocol,source,source_port,"
    "destination,destination_port,flow,hash,priority,mark,arrived,early,over,marked,departed,departed_bytes,waited_ms\n";

double sums_percent(u64 probability) {
    return (double)probability / ONE * 100;
}

double sums_milliseconds(u64 ticks) {
    return (double)ticks * 64 / 1e6;
}

const char *drops_ecn(const struct sums_event *event) {
    static const char *const names[] = {"not", "ect1", "ect0", "ce"};
    return event->packet.has_header ? names[event->packet.tos & 3] : "-";
}

const char *drops_cause(const struct sums_event *event, char *text, size_t bytes) {
    double percent = sums_percent(event->packet.probability);
    if (event->type == SUMS_MARKED)
        snprintf(text, bytes, "marked at %.3f%%", percent);
    else if (event->cause == SUMS_OVER)
        snprintf(text, bytes, "limit: %u of %u packets", event->packet.packets, event->packet.limit);
    else if (!event->packet.has_ecn)
        snprintf(text, bytes, "early at %.3f%%; ecn is off", percent);
    else if (event->packet.has_header && (event->packet.tos & 3) == 0)
        snprintf(text, bytes, "early at %.3f%%; Not-ECT", percent);
    else if (percent > 100 * MOST_MARKED && event->packet.flow == WATCH_FLOW_NONE)
        snprintf(text, bytes, "early at %.3f%%, too high to mark", percent);
    else
        snprintf(text, bytes, "early at %.3f%%; not marked", percent);
    return text;
}

static const char *address(const struct sums_event *event, unsigned which, char text[INET6_ADDRSTRLEN]) {
    bool is_6 = event->packet.has_header == 6;
    text[0] = '\0';
    if (event->packet.has_header != 0)
        inet_ntop(is_6 ? AF_INET6 : AF_INET, event->packet.addresses + which * (is_6 ? 16 : 4), text, INET6_ADDRSTRLEN);
    return text;
}

/* Returns true if the event has addresses. `--no-addresses` leaves them zero. */
static bool has_addresses(const struct sums_event *event) {
    static const u8 none[32];
    return event->packet.has_header != 0 && memcmp(event->packet.addresses, none, sizeof none) != 0;
}

const char *drops_addresses(const struct sums_event *event, char *text, size_t bytes) {
    char from[INET6_ADDRSTRLEN], to[INET6_ADDRSTRLEN];
    if (!has_addresses(event))
        snprintf(text, bytes, "-");
    else if (event->packet.has_ports)
        snprintf(text, bytes, "%s %s:%u > %s:%u", event->packet.transport == 6 ? "tcp" : "udp", address(event, 0, from), ntohs(event->packet.ports[0]),
                 address(event, 1, to), ntohs(event->packet.ports[1]));
    else
        snprintf(text, bytes, "%u %s > %s", event->packet.transport, address(event, 0, from), address(event, 1, to));
    return text;
}

void drops_begin(FILE *out) {
    fputs(columns, out);
}

/* Writes the first columns. */
static void write_queue(FILE *out, const struct sums_queue *queue, u64 ns, long long offset, const char *event, const char *cause) {
    char device[NAME_DEVICE], class_name[NAME_CLASS], text[32];
    long long wall = (long long)ns + offset;
    time_t seconds = (time_t)(wall / 1000000000);
    struct tm time;
    gmtime_r(&seconds, &time);
    strftime(text, sizeof text, "%Y-%m-%dT%H:%M:%S", &time);
    name_device(queue, device);
    name_class(queue, class_name);
    fprintf(out, "%s.%06lldZ,%" PRIu64 ",%s,%s,%x:,%s,%s,%s", text, wall % 1000000000 / 1000, (uint64_t)ns, device, class_name, queue->handle >> 16,
            queue->kind == WATCH_PIE ? "pie" : "fq_pie", event, cause);
}

void drops_sums(FILE *out, const struct sums_queue *queue, u64 ns, long long offset) {
    const struct sums_counts *counts = &queue->counts;
    write_queue(out, queue, ns, offset, "sums", "");
    fprintf(out, ",%.6f,%.3f,%.3f,,%u,%u,%u,,,,,,,,,,,,%" PRIu64 ",%" PRIu64 ",%" PRIu64 ",%" PRIu64 ",%" PRIu64 ",%" PRIu64 ",%.3f\n",
            sums_percent(queue->probability), sums_milliseconds(queue->delay), sums_milliseconds(queue->target), queue->packets, queue->bytes, queue->limit,
            (uint64_t)counts->arrived, (uint64_t)counts->early, (uint64_t)counts->over, (uint64_t)counts->marked, (uint64_t)counts->departed,
            (uint64_t)counts->departed_bytes, sums_milliseconds(counts->waited));
}

void drops_write(FILE *out, const struct sums_event *event, const struct sums_queue *queue, long long offset) {
    char from[INET6_ADDRSTRLEN] = "", to[INET6_ADDRSTRLEN] = "", ports[2][8] = {"", ""}, flow[16] = "", transport[8] = "";
    if (event->type == SUMS_CREATED || event->type == SUMS_REMOVED) {
        write_queue(out, queue, event->ns, offset, event->type == SUMS_CREATED ? "created" : "removed", "");
        for (int i = 8; i < FIELDS; i++)
            putc(',', out);
        putc('\n', out);
        if (event->type == SUMS_REMOVED)
            drops_sums(out, &event->queue, event->ns, offset);
        return;
    }
    if (has_addresses(event)) {
        address(event, 0, from);
        address(event, 1, to);
    }
    for (int i = 0; i < 2 && event->packet.has_ports; i++)
        snprintf(ports[i], sizeof ports[i], "%u", ntohs(event->packet.ports[i]));
    if (event->packet.flow != WATCH_FLOW_NONE)
        snprintf(flow, sizeof flow, "%u", event->packet.flow);
    if (event->packet.has_header)
        snprintf(transport, sizeof transport, "%u", event->packet.transport);
    write_queue(out, queue, event->ns, offset, event->type == SUMS_DROPPED ? "drop" : "mark",
                event->type == SUMS_MARKED ? "random" : event->cause == SUMS_OVER ? "limit" : "early");
    fprintf(out, ",%.6f,%.3f,%.3f,%.3f,%u,%u,%u,%u,%s,%s,%s,%s,%s,%s,%s,%u,%u,%u,%u,%u,%u,%u,,,\n", sums_percent(event->packet.probability),
            sums_milliseconds(event->packet.delay), sums_milliseconds(event->packet.target), sums_milliseconds(event->packet.burst), event->packet.packets,
            event->packet.bytes, event->packet.limit, event->packet.size, drops_ecn(event), transport, from, ports[0], to, ports[1], flow, event->packet.hash,
            event->packet.priority, event->packet.mark, event->packet.arrived + event->packet.dropped, event->packet.dropped - event->packet.over,
            event->packet.over, event->packet.marked);
}

/* ---- recording */

struct drops {
    FILE *out;
    struct snapshot snapshot;
    struct totals *totals;
    struct sums_queue *queues; /* by their numbers; `born` 0: unknown */
    size_t count;
    long long offset;
    u64 dropped, marked, unknown;
    int fault;
};

static long long nanoseconds(clockid_t clock) {
    struct timespec time;
    clock_gettime(clock, &time);
    return time.tv_sec * SECOND + time.tv_nsec;
}

static void know(struct drops *drops, const struct sums_queue *queue) {
    if (queue->number >= drops->count) {
        size_t count = queue->number + queue->number / 2 + 16;
        struct sums_queue *queues = realloc(drops->queues, count * sizeof *queues);
        if (queues == NULL)
            abort();
        memset(queues + drops->count, 0, (count - drops->count) * sizeof *queues);
        drops->queues = queues;
        drops->count = count;
    }
    drops->queues[queue->number] = *queue;
}

/* Returns a queue by its number. If the event of its creation had no place in the ring, its name is read. */
static const struct sums_queue *queue_of(struct drops *drops, u32 number) {
    if (number < drops->count && drops->queues[number].born != 0)
        return &drops->queues[number];
    if (totals_read(drops->totals, &drops->snapshot)) {
        for (size_t i = 0; i < drops->snapshot.count; i++)
            know(drops, &drops->snapshot.rows[i]);
    }
    return number < drops->count && drops->queues[number].born != 0 ? &drops->queues[number] : NULL;
}

static void take(void *user, const struct sums_event *event) {
    struct drops *drops = user;
    const struct sums_queue *queue;
    char device[NAME_DEVICE], class_name[NAME_CLASS];
    if (event->type == SUMS_CREATED || event->type == SUMS_REMOVED) {
        know(drops, &event->queue);
        name_device(&event->queue, device);
        name_class(&event->queue, class_name);
        fprintf(stderr, PROGRAM ": %s %s: %s\n", device, class_name, event->type == SUMS_REMOVED ? "removed" : event->queue.kind == WATCH_PIE ? "pie" : "fq_pie");
    }
    queue = queue_of(drops, event->number);
    drops->dropped += event->type == SUMS_DROPPED;
    drops->marked += event->type == SUMS_MARKED;
    drops->unknown += queue == NULL;
    if (queue == NULL || drops->fault != 0)
        return;
    drops_write(drops->out, event, queue, drops->offset);
    if (__fpending(drops->out) + MOST_ROW > __fbufsize(drops->out))
        watch_flush(drops->out, &drops->fault);
}

/* Prints the numbers of the recording. Returns the status. */
static int report(const struct drops *drops) {
    const struct snapshot *last = &drops->snapshot;
    u64 lost = last->lost + drops->unknown;
    fprintf(stderr, PROGRAM ": %zu queue%s, %llu arrived, %llu dropped, %llu marked; %llu rows of drops, %llu of marks, %llu lost\n",
            last->count + (size_t)last->removed, last->count + last->removed == 1 ? "" : "s", (unsigned long long)last->all.arrived,
            (unsigned long long)(last->all.early + last->all.over), (unsigned long long)last->all.marked, (unsigned long long)drops->dropped,
            (unsigned long long)drops->marked, (unsigned long long)lost);
    if (last->missed != 0)
        fprintf(stderr, PROGRAM ": queues beyond %u were not recorded\n", SUMS_QUEUES);
    if (last->count + last->removed == 0)
        fprintf(stderr, PROGRAM ": no queue of pie or fq_pie was seen; `tc qdisc show` lists queues\n");
    return lost != 0 || last->missed != 0 ? 2 : 0;
}

int drops_record(const struct totals_options *options, const char *output, u64 duration, bool is_forced, const volatile sig_atomic_t *is_ended) {
    struct drops drops = {0};
    struct output file;
    long long begun;
    drops.totals = totals_open(options, is_ended);
    if (drops.totals == NULL)
        return 1;
    if (!open_output(&file, output != NULL ? output : "-", OUTPUT_WHOLE, is_forced)) {
        perror(PROGRAM ": the output");
        return 1;
    }
    drops.out = file.file;
    drops.offset = nanoseconds(CLOCK_REALTIME) - nanoseconds(CLOCK_MONOTONIC);
    setvbuf(drops.out, NULL, _IOFBF, BUFFER);
    drops_begin(drops.out);
    begun = nanoseconds(CLOCK_MONOTONIC);
    fprintf(stderr, PROGRAM ": recording drops and marks of %s\n", options->device != NULL ? options->device : "all devices");
    while (!*is_ended && drops.fault == 0 && (duration == 0 || nanoseconds(CLOCK_MONOTONIC) - begun < (long long)duration * SECOND)) {
        totals_later(drops.totals);
        if (totals_events(drops.totals, take, &drops) > 0)
            continue;
        watch_flush(drops.out, &drops.fault);
        nanosleep(&(struct timespec){.tv_nsec = 10000000}, NULL);
    }
    totals_stop(drops.totals);
    totals_events(drops.totals, take, &drops);
    if (!totals_read(drops.totals, &drops.snapshot)) {
        perror(PROGRAM ": the sums");
        return 1;
    }
    for (size_t i = 0; i < drops.snapshot.count && drops.fault == 0; i++) {
        drops_sums(drops.out, &drops.snapshot.rows[i], drops.snapshot.ns, drops.offset);
        if (__fpending(drops.out) + MOST_ROW > __fbufsize(drops.out))
            watch_flush(drops.out, &drops.fault);
    }
    watch_flush(drops.out, &drops.fault);
    totals_close(drops.totals);
    bool is_closed = close_output(&file);
    if (drops.fault != 0 || !is_closed) {
        fprintf(stderr, PROGRAM ": the output is not complete: %s\n", strerror(drops.fault != 0 ? drops.fault : errno));
        return 1;
    }
    return report(&drops);
}
