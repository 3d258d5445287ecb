/* `pie-watch serve`: an HTTP server with the metrics of all queues. */
#ifndef WATCH_SERVE_H
#define WATCH_SERVE_H

#include "watch_totals.h"

#define SERVE_MOST 1000 /* queues with series of their own, by default */

struct serve_options {
    const char *address; /* [ADDRESS]:PORT */
    const char *labels;  /* a file, or NULL */
    u64 most;            /* queues with series of their own */
};

/* Serves until `is_ended`. Returns the status of the process. */
int serve(const struct totals_options *options, const struct serve_options *serving, const volatile sig_atomic_t *is_ended);

/* Returns the metrics of a reading, in the text format of Prometheus; of the `most` queues with the most drops and marks, and the sums of all queues. The
 * caller frees it. */
char *serve_metrics(const struct snapshot *snapshot, u64 most);

/* Returns a reading as JSON: of the `most` queues whose device, class or labels contain `match` (NULL: each), in the order that `sort` names: wait, longest,
 * drops, probability or name. Returns NULL if there is no such order. The caller frees it. */
char *serve_queues(const struct snapshot *snapshot, const char *sort, const char *match, u64 most);

/* Returns true if the device, the class or a label of a queue contains the text, in upper or lower case. */
bool queue_matches(const struct sums_queue *queue, const char *match);

/* Returns the state of the server as JSON. */
char *serve_health(const struct snapshot *snapshot, u64 lost_readings);

#endif
