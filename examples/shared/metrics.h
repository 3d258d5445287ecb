/* Metrics of queues in the text format of Prometheus, for node_exporter's textfile collector. metrics.c and
 * docs/FORMATS.md define their names and labels; report/pie-metrics writes the same metrics from records. */
#ifndef SHARED_METRICS_H
#define SHARED_METRICS_H

#include "../../bindings/dpdk/pie_sorts.h"
#include "pie.h"

#include <stdatomic.h>
#include <stdbool.h>
#include <stddef.h>
#include <stdint.h>

/* The metrics of a queue: counters since its opening, and its present state. */
struct metrics {
    uint64_t arrived, arrived_bytes; /* decided arrivals; the next five fields count them by verdict */
    uint64_t enqueued;               /* queued without a mark */
    uint64_t marked;
    uint64_t early;                  /* dropped by early drop */
    uint64_t over_bytes;             /* dropped by the byte limit */
    uint64_t over_packets;           /* dropped by the packet limit */
    uint64_t oversized, refused;     /* dropped undecided: for a size outside 1 to 65535 bytes; after a refusal */
    uint64_t departed, departed_bytes;
    uint64_t updates, late;          /* updates; updates more than t_update after they were due */
    uint64_t lost;                   /* events missing in the history */
    uint64_t waits[PIE_WAIT_SORTS];  /* departed packets in each bucket of waits */
    unsigned __int128 waited;        /* sum of the waits in ns; 64 bits would overflow within days */
    uint64_t probs[PIE_PROB_SORTS];  /* updates in each bucket of probabilities */
    unsigned __int128 probs_sum;     /* sum of these probabilities in 10^-12 */
    uint64_t prob, delay, target, burst; /* prob in 10^-12, the others in ns */
    uint64_t packets, bytes;         /* queued packets and bytes */
};

/* Counts an event of pie.h, unless it was refused. For a departure `waited` is the waiting time of the packet in ns. */
void count_event(struct metrics *metrics, const struct pie_event *event, uint64_t waited);

/* The labels of a queue: its link, and the queue of that link. */
struct metrics_queue {
    const char *link;
    unsigned int queue;
    const struct metrics *metrics;
};

/* Writes the metrics of `count` queues to a temporary file and renames it, so that a reader finds the old text or
 * the new one. Returns false with errno if that fails. When the program exits, the file is removed, because the
 * queues no longer exist. One file for each program. */
bool write_metrics(const char *path, const struct metrics_queue *queues, size_t count);

/* Removes the file before the exit of the program. Returns false with errno if that fails. */
bool remove_metrics(void);

/* The metrics of one queue, passed from the thread that decides to the thread that writes. Neither
 * waits for the other. */
struct metrics_file {
    const char *path; /* NULL if none are written */
    struct metrics_queue queue;
    struct metrics copy;
    uint64_t due;            /* the moment at which the metrics are written again */
    atomic_bool is_pending;  /* true while `copy` belongs to the writing thread, false while to the deciding one */
    bool is_refused;         /* true after the error of a failed write was printed */
};

#define METRICS_PERIOD UINT64_C(1000000000) /* ns between two writes */

/* Names the file (NULL: none), and the link of the one queue. */
void open_metrics(struct metrics_file *file, const char *path, const char *link);

/* Returns true if a second has passed and the last metrics were written. The deciding thread calls it. */
static inline bool is_metrics_due(const struct metrics_file *file, uint64_t moment) {
    return file->path != NULL && moment >= file->due && !atomic_load_explicit(&file->is_pending, memory_order_acquire);
}

/* Passes the metrics to the writer, if they are due. */
void pass_metrics(struct metrics_file *file, const struct metrics *metrics, uint64_t moment);

/* Writes the metrics, and reports an error once for `program`. The writing thread calls it. */
void write_pending_metrics(struct metrics_file *file, const char *program);

#endif
