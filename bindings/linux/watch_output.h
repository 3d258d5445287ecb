/* The output of a recording: text or compact records, in one file or in segments. A segment begins with the resumed state of each queue, so that it can be
 * read alone.
 *
 * Queues are resumed one after another. Until a queue is resumed, its records belong to the segment before. */
#ifndef WATCH_OUTPUT_H
#define WATCH_OUTPUT_H

#include "../../examples/shared/segments.h"
#include "watch_text.h"

#include <time.h>

#define WATCH_MAGIC "pie-watch steps2" /* the first 16 bytes of compact records */

struct watch_output {
    struct watch_text text; /* its rows, or only its counters if `is_compact` */
    bool is_compact;
    u64 rotate; /* a segment ends after this number of bytes; 0: one file */
    struct segments segments;
    struct output output;
    struct output before; /* the segment before, while `pending` queues are not yet resumed */
    size_t pending;
    time_t begun; /* of the present segment, in seconds */
    u64 bytes;    /* of the present segment, in compact records */
    struct output_queue *queues; /* by their numbers */
    size_t count;
    bool buffer; /* of two, the one of the present segment */
    int fault; /* the error of the first failed write, after which nothing is written; 0: none */
};

/* Opens FILE, or FILE.1 if `rotate` is not 0. `kept` is the number of last segments that are kept, 0: all. Returns false with errno if that fails. */
bool watch_output_open(struct watch_output *output, const char *file, u64 rotate, u64 kept, bool is_compact, bool is_forced);

/* Writes a record. Returns false if it contradicts the records before it, or memory is exhausted. */
bool watch_output_add(struct watch_output *output, const void *record);

/* Begins the next segment if the present one is long enough. Returns 1 if one begins: each queue must be resumed then. Otherwise returns 0, or -1 with errno
 * if the segment cannot be opened. */
int watch_output_turn(struct watch_output *output);

/* Writes what is in memory to the files, whole records or rows alone. */
void watch_output_flush(struct watch_output *output);

/* Writes what is in memory to a file (NULL: none). If that fails, `fault` becomes the error, and the file ends with the last record or row that is complete, so
 * that it can be read. Does nothing if `fault` is not 0. */
void watch_flush(FILE *file, int *fault);

/* Closes the files. Returns false with errno if something was not written. */
bool watch_output_close(struct watch_output *output);

#endif
