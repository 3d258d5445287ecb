/* Writes a history record by record: wraps the pie_write_* calls of pie.h, counts records for the numbers in `refused` records, and computes
 * the statistics. Requires C11, or C++11 and later; link with libpie_c.a.
 *
 *     struct pie_history history = {0};
 *     count = pie_text_opening(&history, &opening, bytes, sizeof bytes);
 *     fwrite(bytes, 1, count, file);
 *     verdict = pie_arrive_event(&pie, .., &event);
 *     count = pie_text_event(&history, &event, NULL, bytes, sizeof bytes);
 *
 * If a thread must not write files, it keeps its events in a flight recorder (pie_flight.h), which another thread follows. Or it uses a
 * link (pie_link.h), whose log another thread folds. */
#ifndef PIE_TEXT_H
#define PIE_TEXT_H

#include "pie.h"

#include <stddef.h>
#include <stdint.h>

#ifdef __cplusplus
extern "C" {
#endif

/* The progress of a history that is being written. Initialize it with {0}, then call pie_text_opening. */
struct pie_history {
    uint64_t records; /* records written so far */
    uint64_t untold;  /* refused calls whose code pie_write_refused does not write */
    uint64_t lost;    /* events that are missing */
};

/* Writes the opening with pie_write_opening. `room` is at least PIE_RECORD_ROOM.
 * Returns the number of bytes; 0 if pie_open rejects the opening. */
static inline size_t pie_text_opening(struct pie_history *text, const struct pie_opening *opening, unsigned char *out, size_t room) {
    size_t count = pie_write_opening(opening, out, room);
    text->records = count != 0 ? 1 : 0;
    return count;
}

/* Writes the wall-clock time with pie_write_clock. Call it after an opening of version three. `room` is at least PIE_RECORD_ROOM.
 * Returns the number of bytes; 0 if `moment` is above 2^60 - 1. */
static inline size_t pie_text_clock(struct pie_history *text, uint64_t moment, uint64_t unix_time, unsigned char *out, size_t room) {
    size_t count = pie_write_clock(moment, unix_time, out, room);
    text->records += count != 0 ? 1 : 0;
    return count;
}

/* Writes the record of an event; `params` are the parameters of an event of kind PIE_EVENT_PARAMS. `room` is at least PIE_RECORD_ROOM.
 * Returns the number of bytes; 0 for a refusal whose code pie_write_refused does not write.
 * Notes: an event that cannot be written is reported as a missing one, by a line `lost,1`. */
static inline size_t pie_text_event(struct pie_history *text, const struct pie_event *event, const struct pie_params *params,
                                    unsigned char *out, size_t room) {
    size_t count;
    if (event->kind != PIE_EVENT_LOST && event->answer > 100) {
        count = pie_write_refused(text->records + 1, event->answer, out, room);
        text->records += count != 0 ? 1 : 0;
        text->untold += count != 0 ? 0 : 1;
        return count;
    }
    text->records++;
    if (event->kind == PIE_EVENT_LOST)
        text->lost += event->tag;
    if (event->kind == PIE_EVENT_PARAMS)
        count = pie_write_params(event, params, out, room);
    else
        count = pie_write_event(event, out, room);
    if (count == 0) {
        text->lost++;
        count = pie_write_lost(1, out, room);
    }
    return count;
}

/* Adds an event without error to the statistics. Initialize `stats` with {0}. `bytes` are the bytes in the queue after the event, `waited` is
 * the waiting time of a departing packet, in ns. */
static inline void pie_count_event(struct pie_stats *stats, const struct pie_event *event, uint64_t bytes, uint64_t waited) {
    if (event->kind == PIE_EVENT_ARRIVE) {
        stats->arrivals++;
        stats->enqueued += event->answer == PIE_ENQUEUE;
        stats->marked += event->answer == PIE_MARK;
        stats->early += event->answer == PIE_EARLY;
        stats->over_bytes += event->answer == PIE_BYTES;
        stats->over_packets += event->answer == PIE_PACKETS;
        if (bytes > stats->largest_queue)
            stats->largest_queue = bytes;
    } else if (event->kind == PIE_EVENT_DEPART && event->answer != PIE_NONE) {
        stats->left++;
        stats->left_bytes += event->size;
        stats->waited += waited;
        stats->waited_high += stats->waited < waited;
    } else if (event->kind == PIE_EVENT_UPDATE) {
        stats->updates++;
        if (event->delay > stats->largest_delay)
            stats->largest_delay = event->delay;
    } else {
        stats->empty += event->kind == PIE_EVENT_DEPART;
        stats->resets += event->kind == PIE_EVENT_RESET;
        stats->changes += event->kind == PIE_EVENT_PARAMS;
    }
}

#ifdef __cplusplus
}
#endif

#endif
