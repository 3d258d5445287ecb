/* The steps of queues as text: CSV, a row for each step. README.md names the columns. */
#ifndef WATCH_TEXT_H
#define WATCH_TEXT_H

#include "watch_record.h"

#include <stdbool.h>
#include <stddef.h>
#include <stdio.h>

struct watch_text {
    FILE *out; /* of the next rows */
    u64 bytes; /* of rows */
    struct text_queue *queues; /* by their numbers */
    size_t count;
    u64 steps, lost;
    u64 dropped; /* packets that the kernel dropped in the lost steps, by its counters before and after them */
    u64 missing; /* steps whose numbers are neither written nor counted as lost: an error of the recorder */
};

/* Returns the size of a record by its head, or 0 if there is no such record. */
size_t watch_bytes(const struct watch_head *head);

/* Begins a text in `out`: writes the names of the columns. A struct watch_text of zeros has no queues and steps. */
void watch_text_head(struct watch_text *text, FILE *out);

/* Counts the step of a record, without rows. A struct watch_text without a file has only counted records. Returns false if the record contradicts the records
 * before it, or memory is exhausted. */
bool watch_text_count(struct watch_text *text, const void *record);

/* Counts the step of a record, and writes its rows. Returns false if the record contradicts the records before it, or memory is exhausted. */
bool watch_text_add(struct watch_text *text, const void *record);

/* Returns the name of a queue in the text, or NULL. */
const char *watch_text_name(const struct watch_text *text, unsigned number);

void watch_text_end(struct watch_text *text);

#endif
