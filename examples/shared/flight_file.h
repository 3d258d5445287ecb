/* A flight recorder (include/pie_flight.h) in allocated memory, or in a mapped file that outlives the process; and its
 * text. */
#ifndef SHARED_FLIGHT_FILE_H
#define SHARED_FLIGHT_FILE_H

#include "pie_flight.h"

#include <stdbool.h>
#include <stdio.h>

#define FLIGHT_EVENTS 100000 /* the least number of kept events */

struct flight_file {
    const char *name; /* name of the file, or NULL */
    struct pie_flight flight;
    void *memory;     /* the recorder's memory; NULL without a recorder */
    void *scratch;    /* memory for a copy, so that the recorder continues during a dump */
    size_t bytes;
};

/* Opens a recorder in a file of this name (NULL: in memory), right after the state was opened with
 * this opening. An existing file is left from an earlier run and is renamed to NAME.before. Returns
 * false if that fails. */
bool open_flight(struct flight_file *file, const char *name, const struct pie_opening *opening, const struct pie_state *state);

/* Keeps an event, after its call. */
static inline void keep_event(struct flight_file *file, const struct pie_state *state, const struct pie_event *event) {
    if (file->memory != NULL)
        pie_flight_keep(&file->flight, state, event);
}

/* Stores that the wall-clock time at this moment is `unix_time` (nanoseconds since 1970); the
 * recorder's texts begin with it. One thread at a time. */
static inline void tell_flight(const struct flight_file *file, uint64_t moment, uint64_t unix_time) {
    if (file->memory != NULL)
        pie_flight_clock(file->memory, moment, unix_time);
}

/* Writes the recorder's text to NAME.history, which has its name when it is complete, also while other threads keep events. Call it from one thread at a time.
 * Returns the result of pie_flight_dump. */
int write_flight(const struct flight_file *file);

/* Writes the text of a file that an earlier run left to this stream. Returns the status of
 * pie_flight_dump, or PIE_FLIGHT_NONE if the file cannot be read. */
int write_flight_of(const char *name, FILE *to);

/* Returns a description of a result of pie_flight_dump, for a log. */
const char *flight_text(int answer);

#endif
