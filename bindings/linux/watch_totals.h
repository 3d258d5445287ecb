/* The sums of all queues, read from the maps of watch_sums.bpf.c, and the events of its ring. tests/libraries/watch_made.c has other queues in their place. */
#ifndef WATCH_TOTALS_H
#define WATCH_TOTALS_H

#include "watch_sums.h"

#include <signal.h>
#include <stddef.h>
#include <stdio.h>

struct totals_options {
    const char *device; /* NULL: each */
    unsigned handle;    /* 0: each */
    unsigned ring;      /* MiB */
    bool has_events, has_addresses, is_every_namespace, is_anyway, is_verbose;
};

/* A reading. `rows` are ordered by their numbers. */
struct snapshot {
    u64 ns;   /* since boot */
    u64 took; /* ns of the reading */
    struct sums_queue *rows;
    size_t count, room;
    struct sums_counts all; /* of these and of removed queues */
    u64 waits[SUMS_WAITS];
    u64 removed, missed, lost; /* removed queues; queues without a place; events without a place */
};

struct totals;

/* Loads the programs and finds the queues that exist. Waits for the module sch_pie; returns NULL if a signal comes before. An error ends the process with a
 * message. */
struct totals *totals_open(const struct totals_options *options, const volatile sig_atomic_t *is_ended);

/* Reads all queues. Returns false with errno if that fails. `snapshot` is all zeros before the first reading. */
bool totals_read(struct totals *totals, struct snapshot *snapshot);

void snapshot_free(struct snapshot *snapshot);

/* Calls `take` for each event since the last call. Returns their number, or a negative number after an error. */
int totals_events(struct totals *totals, void take(void *user, const struct sums_event *event), void *user);

/* Loads the programs for fq_pie if its module was loaded since. Returns true if they are there now. */
bool totals_later(struct totals *totals);

/* Lets the programs of the kernel find no further queues and events. What they have is still there. */
void totals_stop(struct totals *totals);

/* Ends the programs of the kernel. */
void totals_close(struct totals *totals);

/* ---- names */

#define NAME_DEVICE 96
#define NAME_CLASS 16

/* Writes the name of a queue's device: behind its network namespace and a slash, unless that is the one of this process. */
void name_device(const struct sums_queue *queue, char name[NAME_DEVICE]);

/* Writes the class of a queue's parent as tc does, or `root`. */
void name_class(const struct sums_queue *queue, char name[NAME_CLASS]);

/* Reads the labels of a file, one line for each device (DEVICE * NAME=VALUE ..) or class (DEVICE CLASS NAME=VALUE ..). Returns false after a message. */
bool labels_read(const char *file);

/* Returns the labels of a queue, as pairs of a name and a value that end with NULL. The next call replaces them. */
const char *const *labels_of(const char *device, const char *class_name);

#endif
