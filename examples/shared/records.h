/* Interval records, written while the program runs: what `pie explain --every TIME --csv` would print for its history,
 * with or without --wall. */
#ifndef SHARED_RECORDS_H
#define SHARED_RECORDS_H

#include "pie.h"

#include <stdbool.h>
#include <stdio.h>

#ifdef __cplusplus
extern "C" {
#endif

struct records {
    FILE *file; /* the caller's; NULL if none are written */
    struct pie_period period;
    uint64_t begun;                      /* period.begun before the present event */
    size_t size;                         /* bytes of `line` */
    unsigned char line[PIE_RESUME_ROOM]; /* record of the interval that the present event may end */
};

/* Begins records of intervals of `every` ns in this file (NULL: none), and writes the header row.
 * `unix_time` is the wall-clock time (nanoseconds since 1970) at this moment, or NULL without wall-clock times.
 * Returns false if that fails. */
bool open_records(struct records *records, FILE *file, uint64_t every, uint64_t moment, const uint64_t *unix_time);

/* Makes the record of the current interval. */
void make_record(struct records *records);

/* Writes the completed record, and makes it visible to readers. */
void write_record(struct records *records);

/* Writes the last record; the caller closes the file. Returns false if a write failed. */
bool close_records(struct records *records);

/* Returns true if records are written. If the next event may end an interval, formats that interval's record. */
static inline bool are_summed(struct records *records, const struct pie_event *event) {
    if (records->file == NULL)
        return false;
    if (event->moment >= records->period.end)
        make_record(records);
    return true;
}

/* Writes the record of the interval that the last event ended, if it ended one. Returns the event's answer. */
static inline uint32_t summed(struct records *records, uint32_t answer) {
    if (records->period.begun != records->begun)
        write_record(records);
    return answer;
}

/* Make the recording calls of pie.h, or the summing calls if records are written. */
static inline uint32_t decide_arrival(struct records *records, struct pie_state *pie, uint64_t queued, uint32_t room, struct pie_event *event) {
    return are_summed(records, event) ? summed(records, pie_arrive_summed(pie, queued, room, event, &records->period))
                                      : pie_arrive_event(pie, queued, room, event);
}

static inline uint32_t take_departure(struct records *records, struct pie_state *pie, uint64_t left, uint64_t arrived, struct pie_event *event) {
    return are_summed(records, event) ? summed(records, pie_depart_summed(pie, left, arrived, event, &records->period))
                                      : pie_depart_event(pie, left, arrived, event);
}

static inline uint32_t make_update(struct records *records, struct pie_state *pie, uint64_t queued, struct pie_event *event) {
    return are_summed(records, event) ? summed(records, pie_update_summed(pie, queued, event, &records->period))
                                      : pie_update_event(pie, queued, event);
}

#ifdef __cplusplus
}
#endif

#endif
