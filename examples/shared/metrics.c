#define _POSIX_C_SOURCE 200809L
#include "metrics.h"

#include <errno.h>
#include <inttypes.h>
#include <limits.h>
#include <pthread.h>
#include <stdio.h>
#include <stdlib.h>
#include <string.h>

/* A counter or a gauge: its name without `pie_`, its help text, its field, and the field's parts of a unit. */
struct family {
    const char *name, *what;
    size_t at;
    uint64_t parts;
};

#define AT(field) offsetof(struct metrics, field)

static const struct family counters[] = {
    {"arrived_packets_total", "Arrived packets.", AT(arrived), 1},
    {"arrived_bytes_total", "Arrived bytes.", AT(arrived_bytes), 1},
    {"enqueued_packets_total", "Packets queued without a mark.", AT(enqueued), 1},
    {"marked_packets_total", "Packets queued with a mark (CE).", AT(marked), 1},
    {"early_drops_total", "Packets dropped early.", AT(early), 1},
    {"byte_limit_drops_total", "Packets dropped by the limit in bytes.", AT(over_bytes), 1},
    {"packet_limit_drops_total", "Packets dropped by the limit in packets.", AT(over_packets), 1},
    {"oversized_drops_total", "Packets dropped for a size outside 1 to 65535 bytes.", AT(oversized), 1},
    {"refused_drops_total", "Packets dropped because the controller refused them.", AT(refused), 1},
    {"departed_packets_total", "Departed packets.", AT(departed), 1},
    {"departed_bytes_total", "Departed bytes.", AT(departed_bytes), 1},
    {"updates_total", "Updates of the probability.", AT(updates), 1},
    {"late_updates_total", "Updates late by more than one update interval.", AT(late), 1},
    {"lost_events_total", "Events missing in the history.", AT(lost), 1},
};

static const struct family gauges[] = {
    {"probability_ratio", "Probability of a drop or a mark.", AT(prob), PIE_ONE},
    {"delay_seconds", "Queueing delay of the last update.", AT(delay), 1000000000},
    {"target_seconds", "Target of the queueing delay.", AT(target), 1000000000},
    {"burst_allowance_seconds", "Remaining burst allowance.", AT(burst), 1000000000},
    {"queue_packets", "Packets in the queue.", AT(packets), 1},
    {"queue_bytes", "Bytes in the queue.", AT(bytes), 1},
};

void count_event(struct metrics *metrics, const struct pie_event *event, uint64_t waited) {
    if (event->answer > 100)
        return;
    if (event->kind == PIE_EVENT_ARRIVE) {
        metrics->arrived++;
        metrics->arrived_bytes += event->size;
        metrics->enqueued += event->answer == PIE_ENQUEUE;
        metrics->marked += event->answer == PIE_MARK;
        metrics->early += event->answer == PIE_EARLY;
        metrics->over_bytes += event->answer == PIE_BYTES;
        metrics->over_packets += event->answer == PIE_PACKETS;
    } else if (event->kind == PIE_EVENT_DEPART && event->answer != PIE_NONE) {
        metrics->departed++;
        metrics->departed_bytes += event->size;
        metrics->waited += waited;
        metrics->waits[pie_wait_sort(waited)]++;
    } else if (event->kind == PIE_EVENT_UPDATE) {
        metrics->updates++;
        metrics->probs_sum += event->prob;
        metrics->probs[pie_prob_sort(event->prob)]++;
    }
}

/* Writes a number of parts of a unit in full: 10^9 or 10^12 parts, or 1. */
static void write_number(FILE *file, unsigned __int128 number, uint64_t parts) {
    int digits = parts == PIE_ONE ? 12 : 9;
    fprintf(file, "%" PRIu64, (uint64_t)(number / parts));
    if (parts == 1 || number % parts == 0)
        return;
    uint64_t rest = (uint64_t)(number % parts);
    for (; rest % 10 == 0; rest /= 10)
        digits--;
    fprintf(file, ".%0*" PRIu64, digits, rest);
}

/* Writes a text in quotes, in the notation of the format. */
static void write_quoted(FILE *file, const char *text) {
    for (; *text != '\0'; text++) {
        if (*text == '\\' || *text == '"')
            fputc('\\', file);
        if (*text == '\n')
            fputs("\\n", file);
        else
            fputc(*text, file);
    }
}

/* A sample's name and labels; `ending` is that of its name. The caller closes the brace. */
static void begin_sample(FILE *file, const char *name, const char *ending, const struct metrics_queue *queue) {
    fprintf(file, "pie_%s%s{link=\"", name, ending);
    write_quoted(file, queue->link);
    fprintf(file, "\",queue=\"%u\"", queue->queue);
}

static void write_head(FILE *file, const char *name, const char *kind, const char *what) {
    fprintf(file, "# HELP pie_%s %s\n# TYPE pie_%s %s\n", name, what, name, kind);
}

static void write_families(FILE *file, const char *kind, const struct family *families, size_t many, const struct metrics_queue *queues, size_t count) {
    for (const struct family *family = families; family < families + many; family++) {
        write_head(file, family->name, kind, family->what);
        for (size_t i = 0; i < count; i++) {
            uint64_t number;
            memcpy(&number, (const unsigned char *)queues[i].metrics + family->at, sizeof number);
            begin_sample(file, family->name, "", &queues[i]);
            fputs("} ", file);
            write_number(file, number, family->parts);
            fputc('\n', file);
        }
    }
}

/* Writes a histogram: for each bound the number of values at or below it, then their sum and their number. */
static void write_histogram(FILE *file, const char *name, const struct metrics_queue *queue, const uint64_t *sorts, uint32_t many,
                            uint64_t bound_of(uint32_t sort), unsigned __int128 sum, uint64_t parts) {
    uint64_t count = 0;
    for (uint32_t sort = 0; sort < many; sort++) {
        count += sorts[sort];
        begin_sample(file, name, "_bucket", queue);
        fputs(",le=\"", file);
        if (sort + 1 < many)
            write_number(file, bound_of(sort), parts);
        else
            fputs("+Inf", file);
        fprintf(file, "\"} %" PRIu64 "\n", count);
    }
    begin_sample(file, name, "_sum", queue);
    fputs("} ", file);
    write_number(file, sum, parts);
    fputc('\n', file);
    begin_sample(file, name, "_count", queue);
    fprintf(file, "} %" PRIu64 "\n", count);
}

static void write_text(FILE *file, const struct metrics_queue *queues, size_t count) {
    write_families(file, "counter", counters, sizeof counters / sizeof counters[0], queues, count);
    write_head(file, "wait_seconds", "histogram", "Time that packets waited which left.");
    for (size_t i = 0; i < count; i++)
        write_histogram(file, "wait_seconds", &queues[i], queues[i].metrics->waits, PIE_WAIT_SORTS, pie_wait_bound, queues[i].metrics->waited,
                        1000000000);
    write_head(file, "updated_probability_ratio", "histogram", "Probability after each update.");
    for (size_t i = 0; i < count; i++)
        write_histogram(file, "updated_probability_ratio", &queues[i], queues[i].metrics->probs, PIE_PROB_SORTS, pie_prob_bound,
                        queues[i].metrics->probs_sum, PIE_ONE);
    write_families(file, "gauge", gauges, sizeof gauges / sizeof gauges[0], queues, count);
}

/* The file, and the temporary file that replaces it. After the file was removed, it is not written again. */
static struct {
    pthread_mutex_t lock;
    char path[PATH_MAX], beside[PATH_MAX];
    bool is_over;
} place = {.lock = PTHREAD_MUTEX_INITIALIZER};

bool remove_metrics(void) {
    pthread_mutex_lock(&place.lock);
    bool is_gone = place.is_over || place.path[0] == '\0' || remove(place.path) == 0 || errno == ENOENT;
    if (!place.is_over && place.path[0] != '\0')
        remove(place.beside);
    place.is_over = true;
    pthread_mutex_unlock(&place.lock);
    return is_gone;
}

static void remove_at_exit(void) {
    remove_metrics();
}

/* Under the lock: stores the name of the file, which is removed at the end from now on. */
static bool name_place(const char *path) {
    errno = ENAMETOOLONG;
    if (strlen(path) >= sizeof place.path || (size_t)snprintf(place.beside, sizeof place.beside, "%s.new", path) >= sizeof place.beside)
        return false;
    if (atexit(remove_at_exit) != 0)
        return false;
    strcpy(place.path, path);
    return true;
}

/* Under the lock. */
static bool replace_text(const char *path, const struct metrics_queue *queues, size_t count) {
    if (place.path[0] == '\0' && !name_place(path))
        return false;
    FILE *file = fopen(place.beside, "w");
    if (file == NULL)
        return false;
    write_text(file, queues, count);
    bool is_written = ferror(file) == 0;
    is_written &= fclose(file) == 0;
    return is_written && rename(place.beside, place.path) == 0;
}

bool write_metrics(const char *path, const struct metrics_queue *queues, size_t count) {
    pthread_mutex_lock(&place.lock);
    bool is_written = place.is_over || replace_text(path, queues, count);
    int fault = errno;
    pthread_mutex_unlock(&place.lock);
    errno = fault;
    return is_written;
}

void open_metrics(struct metrics_file *file, const char *path, const char *link) {
    memset(file, 0, sizeof *file);
    file->path = path;
    file->queue = (struct metrics_queue){.link = link, .metrics = &file->copy};
}

void pass_metrics(struct metrics_file *file, const struct metrics *metrics, uint64_t moment) {
    if (!is_metrics_due(file, moment))
        return;
    file->copy = *metrics;
    file->due = moment + METRICS_PERIOD;
    atomic_store_explicit(&file->is_pending, true, memory_order_release);
}

void write_pending_metrics(struct metrics_file *file, const char *program) {
    if (file->path == NULL || !atomic_load_explicit(&file->is_pending, memory_order_acquire))
        return;
    if (!write_metrics(file->path, &file->queue, 1) && !file->is_refused) {
        fprintf(stderr, "%s: --metrics %s: %s\n", program, file->path, strerror(errno));
        file->is_refused = true;
    }
    atomic_store_explicit(&file->is_pending, false, memory_order_release);
}
