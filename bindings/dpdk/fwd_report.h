/* The reports of pie-fwd: a line, metrics (examples/shared/metrics.h), and JSON in the form of tc -s -j. */
#ifndef FWD_REPORT_H
#define FWD_REPORT_H

#include "fwd_options.h"

/* Prints the lines of an interval of `seconds`, one for each queue, from the statistics at its beginning and its
 * end. */
void fwd_print_lines(uint32_t queues, const struct pie_stage_stats *before, const struct pie_stage_stats *after, double seconds);

/* Replaces each file that the options name by the statistics of each queue, as a whole. Returns
 * false with errno if that fails. */
bool fwd_write_files(const struct fwd_options *options, const char *port, const struct pie_stage_stats *stats);

/* Prints the sums over all queues for the last line. */
struct pie_stage_stats fwd_sum(uint32_t queues, const struct pie_stage_stats *stats);

#endif
