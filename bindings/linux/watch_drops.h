/* `pie-watch --drops`: lost and marked packets, with the state of their queue, as CSV; at its end the sums of each queue. */
#ifndef WATCH_DROPS_H
#define WATCH_DROPS_H

#include "watch_totals.h"

/* Writes the columns. */
void drops_begin(FILE *out);

/* Writes an event of a queue, whose last sums are `queue`. `offset` added to nanoseconds since boot gives wall-clock time. */
void drops_write(FILE *out, const struct sums_event *event, const struct sums_queue *queue, long long offset);

/* Writes the sums of a queue at this moment. */
void drops_sums(FILE *out, const struct sums_queue *queue, u64 ns, long long offset);

/* Writes the cause of a drop or mark in words to `text`. Returns `text`. */
const char *drops_cause(const struct sums_event *event, char *text, size_t bytes);

/* Writes the addresses and ports of a packet, or `-`. Returns `text`. */
const char *drops_addresses(const struct sums_event *event, char *text, size_t bytes);

/* Returns the packet's ECN field: not, ect1, ect0 or ce; `-` if its header could not be read. */
const char *drops_ecn(const struct sums_event *event);

/* Records until `is_ended`, or for `duration` seconds unless it is 0. `output`: NULL for standard output. Returns the status of the process. */
int drops_record(const struct totals_options *options, const char *output, u64 duration, bool is_forced, const volatile sig_atomic_t *is_ended);

double sums_percent(u64 probability);
double sums_milliseconds(u64 ticks);

#endif
