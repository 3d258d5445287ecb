#include "fwd_files.h"

#include "fwd_queues.h"
#include "stage_packet.h"

#include <errno.h>
#include <inttypes.h>
#include <limits.h>
#include <stdio.h>
#include <stdlib.h>
#include <string.h>

/* ---- the history */

#define ROOM 65536 /* bytes written at once */

/* Opens the next file. */
static bool open_next(struct fwd_history *history) {
    history->bytes = 0;
    if (history->rotate == 0 ? !open_output(&history->output, history->segments.path, OUTPUT_FOLLOWED, history->segments.is_forced)
                             : !segments_open(&history->segments, &history->output))
        return false;
    setvbuf(history->output.file, NULL, _IONBF, 0); // unbuffered: the text is written in large pieces
    return true;
}

bool fwd_history_segment_there(const char *path, uint32_t queue, char name[PATH_MAX]) {
    char start[PATH_MAX];
    return fwd_queue_name(start, path, queue) && segments_there(start, name);
}

bool fwd_history_open(struct fwd_history *history, const char *path, uint32_t queue, uint64_t rotate, uint64_t segments, bool is_forced) {
    *history = (struct fwd_history){.rotate = rotate, .segments = {.kept = segments, .is_forced = is_forced}};
    if (path == NULL)
        return true;
    history->text = malloc(ROOM);
    return history->text != NULL && fwd_queue_name(history->segments.path, path, queue) && open_next(history);
}

static void say_history_broken(struct fwd_history *history) {
    if (!history->is_broken)
        fprintf(stderr, "pie-fwd: --history %s: %s; no more of it is written\n", history->output.name, strerror(errno));
    history->is_broken = true;
}

/* Writes up to ROOM bytes of the pending text. Returns true if there was any. */
static bool write_some(struct fwd_history *history, struct pie_stage *stage) {
    size_t size = history->output.file != NULL && !history->is_broken ? pie_stage_history(stage, history->text, ROOM) : 0;
    if (size != 0 && fwrite(history->text, 1, size, history->output.file) != size)
        say_history_broken(history);
    history->bytes += size;
    return size != 0;
}

/* Ends the segment here, and begins the next. */
static void rotate(struct fwd_history *history, struct pie_stage *stage, uint64_t lost) {
    if (!pie_stage_history_cut(stage))
        return;
    while (write_some(history, stage))
        continue;
    if (history->is_broken)
        return;
    history->lost = lost;
    if (!close_output(&history->output) || !open_next(history))
        say_history_broken(history);
}

bool fwd_history_write(struct fwd_history *history, struct pie_stage *stage) {
    struct pie_stage_stats stats;
    bool is_any = write_some(history, stage);
    if (!is_any || history->rotate == 0 || history->is_broken)
        return is_any;
    pie_stage_read(stage, &stats);
    if (history->bytes >= history->rotate || stats.lost != history->lost)
        rotate(history, stage, stats.lost);
    return true;
}

bool fwd_history_close(struct fwd_history *history, struct pie_stage *stage) {
    if (stage != NULL)
        while (write_some(history, stage))
            continue;
    if (!close_output(&history->output))
        say_history_broken(history);
    free(history->text);
    history->text = NULL;
    return !history->is_broken;
}

/* ---- the records of intervals */

bool fwd_records_open(struct fwd_records *records, const char *path, uint32_t queue, bool is_forced) {
    char name[PATH_MAX];
    *records = (struct fwd_records){0};
    if (path == NULL)
        return true;
    if (!fwd_queue_name(name, path, queue) || !open_output(&records->output, name, OUTPUT_FOLLOWED, is_forced))
        return false;
    setvbuf(records->output.file, NULL, _IONBF, 0); // (readers see each record at once)
    return true;
}

static void say_records_broken(struct fwd_records *records) {
    fprintf(stderr, "pie-fwd: --records %s: %s; no more of them are written\n", records->output.name, strerror(errno));
    records->is_broken = true;
}

void fwd_records_write(struct fwd_records *records, struct pie_stage *stage, bool is_over) {
    unsigned char text[PIE_RESUME_ROOM];
    size_t size;
    while (records->output.file != NULL && !records->is_broken && (size = pie_stage_record(stage, is_over, text, sizeof text)) != 0)
        if (fwrite(text, 1, size, records->output.file) != size)
            say_records_broken(records);
}

bool fwd_records_close(struct fwd_records *records, struct pie_stage *stage) {
    if (stage != NULL)
        fwd_records_write(records, stage, true);
    if (!close_output(&records->output) && !records->is_broken)
        say_records_broken(records);
    return !records->is_broken;
}

/* ---- the flight recorder */

static int write_to(void *user, const unsigned char *bytes, size_t count) {
    return fwrite(bytes, 1, count, user) == count ? 0 : 1;
}

static const char *fault_of(int answer) {
    switch (answer) {
    case PIE_FLIGHT_NONE:
        return "no events are kept";
    case PIE_FLIGHT_GONE:
        return "all events were overwritten while they were copied; keep more";
    case PIE_FLIGHT_BROKEN:
        return "a record cannot be; the text says where";
    default:
        return strerror(errno);
    }
}

/* Writes the text to a temporary file in the same folder. */
static int write_beside(const char *beside, struct pie_stage *stage) {
    FILE *file = fopen(beside, "w");
    if (file == NULL)
        return PIE_FLIGHT_STOPPED;
    int answer = pie_stage_flight(stage, write_to, file);
    return fclose(file) == 0 ? answer : PIE_FLIGHT_STOPPED;
}

void fwd_flight_write(const char *name, uint32_t queue, struct pie_stage *stage) {
    char path[PATH_MAX], beside[PATH_MAX], before[PATH_MAX];
    int answer = PIE_FLIGHT_STOPPED;
    if (fwd_queue_name(path, name, queue) && (size_t)snprintf(beside, sizeof beside, "%s.new", path) < sizeof beside &&
        (size_t)snprintf(before, sizeof before, "%s.before", path) < sizeof before)
        answer = write_beside(beside, stage);
    if (answer == PIE_FLIGHT_DONE && ((rename(path, before) != 0 && errno != ENOENT) || rename(beside, path) != 0))
        answer = PIE_FLIGHT_STOPPED;
    fprintf(stderr, "pie-fwd: --flight %s: %s\n", path, answer == PIE_FLIGHT_DONE ? "written" : fault_of(answer));
}

/* ---- the flows of arriving packets */

bool fwd_flows_open(struct fwd_flows *flows, const char *path, bool is_forced) {
    rte_spinlock_init(&flows->lock);
    return open_output(&flows->output, path, OUTPUT_FOLLOWED, is_forced) && open_flows(&flows->flows, flows->output.file);
}

uint32_t fwd_flow_of(void *user, const struct rte_mbuf *mbuf) {
    struct fwd_flows *flows = user;
    struct flow_top ended;
    uint8_t copy[FLOW_BYTES];
    struct stage_packet packet = stage_packet_look(mbuf);
    if (packet.version == 0)
        return 0;
    uint32_t size = rte_pktmbuf_pkt_len(mbuf) - packet.header, caught = RTE_MIN(size, (uint32_t)FLOW_BYTES);
    const uint8_t *bytes = rte_pktmbuf_read(mbuf, packet.header, caught, copy);
    rte_spinlock_lock(&flows->lock);
    uint64_t tag = note_flow(&flows->flows, bytes, caught, size, 0, 0, &ended);
    rte_spinlock_unlock(&flows->lock);
    return (uint32_t)(tag >> 32);
}

bool fwd_flows_close(struct fwd_flows *flows) {
    if (flows->flows.missing != 0)
        fprintf(stderr, "pie-fwd: --flows: those of %" PRIu64 " packets are missing: there were too many\n", flows->flows.missing);
    close_flows(&flows->flows);
    if (close_output(&flows->output))
        return true;
    fprintf(stderr, "pie-fwd: --flows: %s; it is not whole\n", strerror(errno));
    return false;
}
