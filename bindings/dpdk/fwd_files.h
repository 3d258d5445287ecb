/* The files that pie-fwd writes while it runs: the history of a stage, in one file or in segments that can be audited
 * alone; the records of its intervals; the text of its flight recorder; and the flows of all queues. */
#ifndef FWD_FILES_H
#define FWD_FILES_H

#include "flow.h"
#include "output.h"
#include "pie_stage.h"
#include "segments.h"

#include <rte_mbuf.h>
#include <rte_spinlock.h>

/* ---- the history */

struct fwd_history {
    struct output output;  /* FILE, or its present segment; no file is open if no history is written any more */
    struct segments segments;
    uint64_t rotate;       /* a segment ends after this number of bytes; 0: one text */
    uint64_t bytes, lost;  /* bytes of the present segment; events that were lost when it began */
    bool is_broken;        /* a write failed */
    unsigned char *text;
};

/* Finds a segment that exists before the history of a queue is opened: PATH with a number. Returns true and its name, or false
 * if there is none. */
bool fwd_history_segment_there(const char *path, uint32_t queue, char name[PATH_MAX]);

/* Opens the file of a queue (fwd_queue_name); NULL: no file. A segment has its name when it is complete; a history in one file
 * can be followed. Returns false with errno if that fails. */
bool fwd_history_open(struct fwd_history *history, const char *path, uint32_t queue, uint64_t rotate, uint64_t segments, bool is_forced);

/* Writes a part of the pending text. Returns true if there was any. Ends the segment and its file if the segment is
 * long enough or reports a gap. If a write fails, prints an error once and writes nothing more: the stage then counts
 * the remaining events as lost. */
bool fwd_history_write(struct fwd_history *history, struct pie_stage *stage);

/* Writes the rest and closes the file, after the last call of any lcore. Returns false if a write failed. */
bool fwd_history_close(struct fwd_history *history, struct pie_stage *stage);

/* ---- the records of intervals */

struct fwd_records {
    struct output output; /* no file is open if no records are written any more */
    bool is_broken; /* a write failed */
};

/* Opens the file of a queue (fwd_queue_name); NULL: no file. Returns false with errno if that
 * fails. */
bool fwd_records_open(struct fwd_records *records, const char *path, uint32_t queue, bool is_forced);

/* Writes the records of complete intervals (pie_stage_record). If the file cannot be written,
 * reports it once on stderr and writes no more. */
void fwd_records_write(struct fwd_records *records, struct pie_stage *stage, bool is_over);

/* Writes the last record and closes the file, after the last call of any lcore. Returns false if a write failed. */
bool fwd_records_close(struct fwd_records *records, struct pie_stage *stage);

/* ---- the flight recorder */

/* Writes the flight recorder of a queue to its file (fwd_queue_name), and reports it or the error
 * on stderr. The previous content is renamed to FILE.before. */
void fwd_flight_write(const char *name, uint32_t queue, struct pie_stage *stage);

/* ---- the flows of arriving packets (examples/shared/flow.h) */

struct fwd_flows {
    rte_spinlock_t lock; /* serializes the receiving lcores */
    struct flows flows;
    struct output output;
};

/* Opens the file; NULL: no file. Returns false with errno if that fails. */
bool fwd_flows_open(struct fwd_flows *flows, const char *path, bool is_forced);

/* Returns the number of a packet's flow, 0 without an IP header, and lists the flow in the file. `user` is the
 * struct fwd_flows. */
uint32_t fwd_flow_of(void *user, const struct rte_mbuf *mbuf);

/* Writes the rest, and closes the file. Returns false if a write failed. */
bool fwd_flows_close(struct fwd_flows *flows);

#endif
