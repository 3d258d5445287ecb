#include "fwd_report.h"

#include "metrics.h"

#include <inttypes.h>
#include <limits.h>
#include <stdio.h>
#include <string.h>

static uint64_t drops_of(const struct pie_stage_stats *stats) {
    return stats->early + stats->bytes + stats->full + stats->oversized + stats->refused;
}

static void print_line(const struct pie_stage_stats *before, const struct pie_stage_stats *after, double seconds) {
    uint64_t packets = after->departed - before->departed;
    double wait = packets != 0 ? (double)(after->waited - before->waited) / (double)packets / 1e6 : 0;
    printf("%.3f Mbit/s, %.0f packets/s, wait %.3f ms, probability %.4f, %" PRIu64 " dropped, %" PRIu64 " marked, %" PRIu64 " waiting",
           (double)(after->departed_bytes - before->departed_bytes) * 8 / seconds / 1e6, (double)packets / seconds, wait,
           (double)after->prob / 1e12, drops_of(after) - drops_of(before), after->marked - before->marked, after->waiting);
    if (after->lost != before->lost)
        printf(", %" PRIu64 " events lost to the history", after->lost - before->lost);
    printf("\n");
}

void fwd_print_lines(uint32_t queues, const struct pie_stage_stats *before, const struct pie_stage_stats *after, double seconds) {
    for (uint32_t i = 0; i < queues; i++) {
        if (queues > 1)
            printf("queue %" PRIu32 ": ", i);
        print_line(&before[i], &after[i], seconds);
    }
}

struct pie_stage_stats fwd_sum(uint32_t queues, const struct pie_stage_stats *stats) {
    struct pie_stage_stats sum = {0};
    for (const struct pie_stage_stats *one = stats; one < stats + queues; one++) {
        sum.queued += one->queued;
        sum.marked += one->marked;
        sum.early += one->early;
        sum.bytes += one->bytes;
        sum.full += one->full;
        sum.departed += one->departed;
        sum.updates += one->updates;
        sum.changes += one->changes;
        sum.lost += one->lost;
        sum.lost_periods += one->lost_periods;
    }
    return sum;
}

static unsigned __int128 wide(uint64_t high, uint64_t low) {
    return (unsigned __int128)high << 64 | low;
}

/* Returns the statistics of a stage as metrics. */
static struct metrics metrics_of(const struct pie_stage_stats *stats) {
    struct metrics metrics = {
        .arrived = stats->queued + stats->early + stats->bytes + stats->full,
        .arrived_bytes = stats->departed_bytes + stats->waiting_bytes + stats->dropped_bytes,
        .enqueued = stats->queued - stats->marked,
        .marked = stats->marked,
        .early = stats->early,
        .over_bytes = stats->bytes,
        .over_packets = stats->full,
        .oversized = stats->oversized,
        .refused = stats->refused,
        .departed = stats->departed,
        .departed_bytes = stats->departed_bytes,
        .updates = stats->updates,
        .late = stats->late,
        .lost = stats->lost,
        .waited = wide(stats->waited_high, stats->waited),
        .probs_sum = wide(stats->probs_high, stats->probs_sum),
        .prob = stats->prob,
        .delay = stats->delay,
        .target = stats->target,
        .burst = stats->burst,
        .packets = stats->waiting,
        .bytes = stats->waiting_bytes,
    };
    memcpy(metrics.waits, stats->waits, sizeof metrics.waits);
    memcpy(metrics.probs, stats->probs, sizeof metrics.probs);
    return metrics;
}

static bool write_stage_metrics(const struct fwd_options *options, const char *port, const struct pie_stage_stats *stats) {
    struct metrics metrics[FWD_QUEUES];
    struct metrics_queue queues[FWD_QUEUES];
    for (uint32_t i = 0; i < options->queues; i++) {
        metrics[i] = metrics_of(&stats[i]);
        queues[i] = (struct metrics_queue){.link = port, .queue = i, .metrics = &metrics[i]};
    }
    return options->metrics == NULL || write_metrics(options->metrics, queues, options->queues);
}

/* Prints a queue in the units of tc: alpha and beta in sixteenths, times in microseconds, the limit in packets.
 * `dropped` includes `overlimit`, as in Linux. */
static void write_json(FILE *file, const struct fwd_options *options, const char *port, const struct pie_stage_stats *stats) {
    const struct pie_opening *pie = &options->stage.opening;
    uint64_t overlimit = stats->bytes + stats->full;
    fprintf(file, "{\"kind\":\"pie\",\"dev\":\"%s\",\"root\":true,\"options\":{\"limit\":%" PRIu64, port, pie->packets);
    fprintf(file, ",\"target\":%" PRIu64 ",\"tupdate\":%" PRIu64, stats->target / 1000, pie->params.t_update / 1000);
    fprintf(file, ",\"alpha\":%g,\"beta\":%g", (double)pie->params.alpha * 0.016, (double)pie->params.beta * 0.016);
    fprintf(file, "%s%s%s}", options->stage.ecn ? ",\"ecn\":true" : "", (pie->choices & PIE_SIZE_SCALED) != 0 ? ",\"bytemode\":true" : "",
            (pie->choices & PIE_DELAY_STAMP) == 0 ? ",\"dq_rate_estimator\":true" : "");
    fprintf(file, ",\"bytes\":%" PRIu64 ",\"packets\":%" PRIu64 ",\"drops\":%" PRIu64 ",\"overlimits\":0,\"requeues\":0", stats->departed_bytes,
            stats->departed, drops_of(stats));
    fprintf(file, ",\"backlog\":%" PRIu64 ",\"qlen\":%" PRIu64 ",\"prob\":%.12g,\"delay\":%" PRIu64, stats->waiting_bytes, stats->waiting,
            (double)stats->prob / 1e12, stats->delay / 1000);
    fprintf(file, ",\"pkts_in\":%" PRIu64 ",\"overlimit\":%" PRIu64 ",\"dropped\":%" PRIu64 ",\"maxq\":%" PRIu64 ",\"ecn_mark\":%" PRIu64 "}",
            stats->queued, overlimit, stats->early + overlimit, stats->most, stats->marked);
}

/* Writes a temporary file and renames it, so that a reader finds the old text or the new one. */
static bool replace_json(const struct fwd_options *options, const char *port, const struct pie_stage_stats *stats) {
    char beside[PATH_MAX];
    if (options->json == NULL)
        return true;
    if ((size_t)snprintf(beside, sizeof beside, "%s.new", options->json) >= sizeof beside)
        return false;
    FILE *file = fopen(beside, "w");
    if (file == NULL)
        return false;
    for (uint32_t i = 0; i < options->queues; i++) {
        fputs(i == 0 ? "[" : ",", file);
        write_json(file, options, port, &stats[i]);
    }
    fputs("]\n", file);
    bool is_written = ferror(file) == 0;
    is_written &= fclose(file) == 0;
    return is_written && rename(beside, options->json) == 0;
}

bool fwd_write_files(const struct fwd_options *options, const char *port, const struct pie_stage_stats *stats) {
    return write_stage_metrics(options, port, stats) && replace_json(options, port, stats);
}
