/* The intervals of a stage: the deciding thread adds events to the present interval, and passes complete intervals to
 * the thread that writes their records. Neither thread waits for the other. */
#ifndef STAGE_PERIODS_H
#define STAGE_PERIODS_H

#include "pie.h"

#include <rte_memory.h>
#include <stdbool.h>

#define STAGE_PERIODS 8 /* the most complete intervals that may be pending */

struct stage_periods {
    struct pie_event event; /* the event that is added; its line is not that of `over`, which the writer reads all the time */
    struct pie_period current;
    uint64_t handed; /* number of the last complete interval, received by the writer or lost */
    uint64_t over;   /* count of the intervals that the writer received */
    uint64_t written __rte_cache_aligned; /* count of the intervals that the writer wrote */
    uint64_t number;                      /* number of the last of these; lost intervals are counted too */
    bool is_begun;                        /* the header row was written */
    struct pie_period ended[STAGE_PERIODS];
};

/* Ends the current interval. Returns false if the interval is lost because too many are pending. */
__attribute__((noinline, unused)) static bool stage_periods_end(struct stage_periods *periods) {
    periods->handed = periods->current.begun;
    if (periods->over - __atomic_load_n(&periods->written, __ATOMIC_ACQUIRE) == STAGE_PERIODS)
        return false;
    periods->ended[periods->over % STAGE_PERIODS] = periods->current;
    __atomic_store_n(&periods->over, periods->over + 1, __ATOMIC_RELEASE);
    return true;
}

/* Returns true if an event at `moment` ends the current interval. Call it before the event. */
static inline bool stage_periods_is_over(const struct stage_periods *periods, uint64_t moment) {
    return moment >= periods->current.end && periods->current.begun != periods->handed;
}

/* Writes the next record, or first a line with the number of records missing before it. Returns the number of bytes; 0
 * if there is no record. The writer calls it. */
static inline size_t stage_periods_write(struct stage_periods *periods, unsigned char *text, size_t room) {
    const struct pie_period *next = &periods->ended[periods->written % STAGE_PERIODS];
    if (periods->written == __atomic_load_n(&periods->over, __ATOMIC_ACQUIRE))
        return 0;
    uint64_t missing = next->begun - periods->number - 1;
    periods->number += missing;
    if (missing != 0)
        return pie_write_lost(missing, text, room);
    periods->number++;
    size_t size = pie_write_period(next, text, room);
    __atomic_store_n(&periods->written, periods->written + 1, __ATOMIC_RELEASE);
    return size;
}

#endif
