/* The answers of `pie-watch serve`, without HTTP. */
#define _GNU_SOURCE
#include "watch_drops.h"
#include "watch_serve.h"

#include <inttypes.h>
#include <stdlib.h>
#include <string.h>

/* ---- the order of queues */

struct ranked {
    const struct sums_queue *queue;
    double rank;
};

static int compare_ranks(const void *one, const void *other) {
    const struct ranked *a = one, *b = other;
    if (a->rank != b->rank)
        return a->rank < b->rank ? 1 : -1;
    return (a->queue->number > b->queue->number) - (a->queue->number < b->queue->number);
}

static double drops_and_marks(const struct sums_queue *queue) {
    return (double)(queue->counts.early + queue->counts.over + queue->counts.marked);
}

static double drops(const struct sums_queue *queue) {
    return (double)(queue->counts.early + queue->counts.over);
}

static double wait(const struct sums_queue *queue) {
    return queue->counts.departed == 0 ? 0 : (double)queue->counts.waited / (double)queue->counts.departed;
}

static double longest(const struct sums_queue *queue) {
    return (double)queue->longest;
}

static double probability(const struct sums_queue *queue) {
    return (double)queue->probability;
}

static double no_order(const struct sums_queue *queue) {
    (void)queue;
    return 0;
}

/* Returns the queues in the order of their ranks, the greatest first. */
static struct ranked *rank(const struct snapshot *snapshot, double of(const struct sums_queue *)) {
    struct ranked *ranks = calloc(snapshot->count + 1, sizeof *ranks);
    if (ranks == NULL)
        abort();
    for (size_t i = 0; i < snapshot->count; i++)
        ranks[i] = (struct ranked){.queue = &snapshot->rows[i], .rank = of(&snapshot->rows[i])};
    qsort(ranks, snapshot->count, sizeof *ranks, compare_ranks);
    return ranks;
}

/* ---- metrics */

/* Writes a value of a label. */
static void write_value(FILE *out, const char *value) {
    for (; *value != '\0'; value++) {
        if (*value == '\\' || *value == '"')
            fputc('\\', out);
        if (*value != '\n')
            fputc(*value, out);
    }
}

/* Returns the labels of a queue, between braces. The caller frees them. */
static char *labels(const struct sums_queue *queue) {
    char device[NAME_DEVICE], class_name[NAME_CLASS], *text = NULL;
    size_t bytes;
    FILE *out = open_memstream(&text, &bytes);
    const char *const *pairs;
    if (out == NULL)
        abort();
    name_device(queue, device);
    name_class(queue, class_name);
    fputs("{link=\"", out);
    write_value(out, device);
    fprintf(out, "\",queue=\"%s\"", class_name);
    for (pairs = labels_of(device, class_name); *pairs != NULL; pairs += 2) {
        fprintf(out, ",%s=\"", pairs[0]);
        write_value(out, pairs[1]);
        fputc('"', out);
    }
    fputc('}', out);
    if (fclose(out) != 0)
        abort();
    return text;
}

static double arrived(const struct sums_queue *queue) { return (double)queue->counts.arrived; }
static double marked(const struct sums_queue *queue) { return (double)queue->counts.marked; }
static double early(const struct sums_queue *queue) { return (double)queue->counts.early; }
static double over(const struct sums_queue *queue) { return (double)queue->counts.over; }
static double departed_bytes(const struct sums_queue *queue) { return (double)queue->counts.departed_bytes; }
static double departed(const struct sums_queue *queue) { return (double)queue->counts.departed; }
static double waited(const struct sums_queue *queue) { return sums_milliseconds(queue->counts.waited) / 1e3; }
static double ratio(const struct sums_queue *queue) { return sums_percent(queue->probability) / 100; }
static double delay(const struct sums_queue *queue) { return sums_milliseconds(queue->delay) / 1e3; }
static double target(const struct sums_queue *queue) { return sums_milliseconds(queue->target) / 1e3; }
static double none(const struct sums_queue *queue) { return 0 * queue->packets; }
static double bytes(const struct sums_queue *queue) { return queue->bytes; }

/* The series of a queue. Those of a summary have one name with two endings. Names and labels are those of pie-metrics. */
static const struct {
    const char *name, *type, *help, *ending;
    double (*of)(const struct sums_queue *queue);
} families[] = {
    {"pie_arrived_packets_total", "counter", "Arrived packets, also those that were dropped.", "", arrived},
    {"pie_marked_packets_total", "counter", "Packets queued with a mark (CE).", "", marked},
    {"pie_early_drops_total", "counter", "Packets dropped early.", "", early},
    {"pie_packet_limit_drops_total", "counter", "Packets dropped by the limit in packets.", "", over},
    {"pie_byte_limit_drops_total", "counter", "Packets dropped by a limit in bytes, which these queues do not have: 0.", "", none},
    {"pie_departed_bytes_total", "counter", "Departed bytes.", "", departed_bytes},
    {"pie_wait_seconds", "summary", "Waits of departed packets.", "_sum", waited},
    {"pie_wait_seconds", NULL, NULL, "_count", departed},
    {"pie_probability_ratio", "gauge", "Probability of a drop or a mark; of fq_pie the greatest of its flows.", "", ratio},
    {"pie_delay_seconds", "gauge", "Queueing delay that the kernel computed last; of fq_pie the greatest of its flows.", "", delay},
    {"pie_target_seconds", "gauge", "Target of the queueing delay.", "", target},
    {"pie_queue_bytes", "gauge", "Bytes in the queue.", "", bytes},
};

static void head(FILE *out, const char *name, const char *type, const char *help) {
    fprintf(out, "# HELP %s %s\n# TYPE %s %s\n", name, help, name, type);
}

static void total(FILE *out, const char *name, const char *type, const char *help, u64 number) {
    head(out, name, type, help);
    fprintf(out, "%s %" PRIu64 "\n", name, (uint64_t)number);
}

/* Writes the sums of all queues, also of those without series of their own and of removed ones. */
static void write_host(FILE *out, const struct snapshot *snapshot, size_t listed) {
    const struct sums_counts *all = &snapshot->all;
    u64 waiting = 0, waiting_bytes = 0, below = 0;
    for (size_t i = 0; i < snapshot->count; i++) {
        waiting += snapshot->rows[i].packets;
        waiting_bytes += snapshot->rows[i].bytes;
    }
    total(out, "pie_host_queues", "gauge", "Queues of pie and fq_pie.", snapshot->count);
    total(out, "pie_host_unlisted_queues", "gauge", "Queues without series of their own.", snapshot->count - listed);
    total(out, "pie_host_removed_queues_total", "counter", "Removed queues. Their counters stay in the sums of the host.", snapshot->removed);
    total(out, "pie_host_missed_queues_total", "counter", "Queues that could not be counted.", snapshot->missed);
    total(out, "pie_host_arrived_packets_total", "counter", "Arrived packets of all queues.", all->arrived);
    total(out, "pie_host_marked_packets_total", "counter", "Packets queued with a mark, of all queues.", all->marked);
    total(out, "pie_host_early_drops_total", "counter", "Packets dropped early, of all queues.", all->early);
    total(out, "pie_host_packet_limit_drops_total", "counter", "Packets dropped by the limit, of all queues.", all->over);
    total(out, "pie_host_departed_bytes_total", "counter", "Departed bytes of all queues.", all->departed_bytes);
    total(out, "pie_host_packets", "gauge", "Packets in all queues.", waiting);
    total(out, "pie_host_bytes", "gauge", "Bytes in all queues.", waiting_bytes);
    head(out, "pie_host_wait_seconds", "histogram", "Waits of departed packets of all queues.");
    for (int i = 0; i < SUMS_WAITS - 1; i++) {
        below += snapshot->waits[i];
        fprintf(out, "pie_host_wait_seconds_bucket{le=\"%g\"} %" PRIu64 "\n", SUMS_FIRST * (double)(1 << i) / 1e9, (uint64_t)below);
    }
    below += snapshot->waits[SUMS_WAITS - 1];
    fprintf(out, "pie_host_wait_seconds_bucket{le=\"+Inf\"} %" PRIu64 "\npie_host_wait_seconds_sum %.9g\npie_host_wait_seconds_count %" PRIu64 "\n",
            (uint64_t)below, sums_milliseconds(all->waited) / 1e3, (uint64_t)below);
}

char *serve_metrics(const struct snapshot *snapshot, u64 most) {
    size_t count = snapshot->count < most ? snapshot->count : (size_t)most, bytes_written;
    struct ranked *ranks = rank(snapshot, drops_and_marks);
    char **names = calloc(count + 1, sizeof *names), *text = NULL;
    FILE *out = open_memstream(&text, &bytes_written);
    if (names == NULL || out == NULL)
        abort();
    for (size_t i = 0; i < count; i++)
        names[i] = labels(ranks[i].queue);
    write_host(out, snapshot, count);
    for (size_t i = 0; i < sizeof families / sizeof *families; i++) {
        if (families[i].type != NULL && count != 0)
            head(out, families[i].name, families[i].type, families[i].help);
        bool has_second = i + 1 < sizeof families / sizeof *families && families[i + 1].type == NULL;
        if (families[i].type == NULL)
            continue;
        for (size_t j = 0; j < count; j++) {
            fprintf(out, "%s%s%s %.15g\n", families[i].name, families[i].ending, names[j], families[i].of(ranks[j].queue));
            if (has_second)
                fprintf(out, "%s%s%s %.15g\n", families[i + 1].name, families[i + 1].ending, names[j], families[i + 1].of(ranks[j].queue));
        }
    }
    for (size_t i = 0; i < count; i++)
        free(names[i]);
    free(names);
    free(ranks);
    return fclose(out) == 0 ? text : NULL;
}

/* ---- JSON */

static void write_string(FILE *out, const char *text) {
    fputc('"', out);
    for (; *text != '\0'; text++) {
        if (*text == '"' || *text == '\\')
            fprintf(out, "\\%c", *text);
        else if ((unsigned char)*text < 32)
            fprintf(out, "\\u%04x", *text);
        else
            fputc(*text, out);
    }
    fputc('"', out);
}

/* Returns the bound that this share of the waits does not exceed, in ms, or -1 if it is above each bound. */
static double quantile(const u64 *waits, double share) {
    u64 all = 0, below = 0;
    for (int i = 0; i < SUMS_WAITS; i++)
        all += waits[i];
    for (int i = 0; i < SUMS_WAITS - 1; i++) {
        below += waits[i];
        if (all == 0 || (double)below >= share * (double)all)
            return all == 0 ? 0 : SUMS_FIRST * (double)(1 << i) / 1e6;
    }
    return -1;
}

static void write_queue(FILE *out, const struct sums_queue *queue) {
    char device[NAME_DEVICE], class_name[NAME_CLASS];
    const struct sums_counts *counts = &queue->counts;
    const char *const *pairs;
    name_device(queue, device);
    name_class(queue, class_name);
    fputs("{\"link\":", out);
    write_string(out, device);
    fprintf(out, ",\"queue\":\"%s\",\"handle\":\"%x:\",\"kind\":\"%s\",\"labels\":{", class_name, queue->handle >> 16, queue->kind == WATCH_PIE ? "pie" : "fq_pie");
    for (pairs = labels_of(device, class_name); *pairs != NULL; pairs += 2) {
        write_string(out, pairs[0]);
        fputc(':', out);
        write_string(out, pairs[1]);
        if (pairs[2] != NULL)
            fputc(',', out);
    }
    fprintf(out,
            "},\"arrived\":%" PRIu64 ",\"early_drops\":%" PRIu64 ",\"limit_drops\":%" PRIu64 ",\"marked\":%" PRIu64 ",\"departed\":%" PRIu64
            ",\"departed_bytes\":%" PRIu64 ",\"mean_wait_ms\":%.6g,\"wait_99_ms\":%.6g,\"longest_wait_ms\":%.6g,\"probability\":%.9g,\"delay_ms\":%.6g,"
            "\"target_ms\":%.6g,\"packets\":%u,\"bytes\":%u,\"limit\":%u}",
            (uint64_t)counts->arrived, (uint64_t)counts->early, (uint64_t)counts->over, (uint64_t)counts->marked, (uint64_t)counts->departed,
            (uint64_t)counts->departed_bytes, wait(queue) * 64 / 1e6, quantile(queue->waits, 0.99), sums_milliseconds(queue->longest),
            sums_percent(queue->probability) / 100, sums_milliseconds(queue->delay), sums_milliseconds(queue->target), queue->packets, queue->bytes,
            queue->limit);
}

bool queue_matches(const struct sums_queue *queue, const char *match) {
    char device[NAME_DEVICE], class_name[NAME_CLASS], name[NAME_DEVICE + NAME_CLASS];
    bool is_found;
    if (match == NULL || *match == '\0')
        return true;
    name_device(queue, device);
    name_class(queue, class_name);
    snprintf(name, sizeof name, "%s %s", device, class_name);
    is_found = strcasestr(name, match) != NULL;
    for (const char *const *pairs = labels_of(device, class_name); *pairs != NULL; pairs += 2)
        is_found |= strcasestr(pairs[1], match) != NULL;
    return is_found;
}

char *serve_queues(const struct snapshot *snapshot, const char *sort, const char *match, u64 most) {
    static const struct {
        const char *name;
        double (*of)(const struct sums_queue *queue);
    } orders[] = {{"drops", drops}, {"wait", wait}, {"longest", longest}, {"probability", probability}, {"name", no_order}};
    double (*of)(const struct sums_queue *queue) = NULL;
    char *text = NULL;
    size_t written, listed = 0, found = 0;
    for (size_t i = 0; i < sizeof orders / sizeof *orders; i++) {
        if (strcmp(sort, orders[i].name) == 0)
            of = orders[i].of;
    }
    if (of == NULL)
        return NULL;
    struct ranked *ranks = rank(snapshot, of);
    FILE *out = open_memstream(&text, &written);
    if (out == NULL)
        abort();
    fputs("{\"queues\":[", out);
    for (size_t i = 0; i < snapshot->count; i++) {
        if (!queue_matches(ranks[i].queue, match))
            continue;
        found++;
        if (listed == most)
            continue;
        fputs(listed++ != 0 ? ",\n" : "\n", out);
        write_queue(out, ranks[i].queue);
    }
    fprintf(out, "\n],\"found\":%zu,\"all\":%zu}\n", found, snapshot->count);
    free(ranks);
    return fclose(out) == 0 ? text : NULL;
}

char *serve_health(const struct snapshot *snapshot, u64 lost_readings) {
    char *text = NULL;
    bool is_well = lost_readings == 0 && snapshot->missed == 0;
    if (asprintf(&text, "{\"status\":\"%s\",\"queues\":%zu,\"removed_queues\":%" PRIu64 ",\"missed_queues\":%" PRIu64 ",\"reading_ms\":%.3f}\n",
                 is_well ? "ok" : lost_readings != 0 ? "no reading" : "queues are missing", snapshot->count, (uint64_t)snapshot->removed,
                 (uint64_t)snapshot->missed, (double)snapshot->took / 1e6) < 0)
        return NULL;
    return text;
}
