#include "pie_qdisc.h"

#include <bpf/bpf.h>
#include <bpf/libbpf.h>
#include <errno.h>
#include <limits.h>
#include <signal.h>
#include <stdio.h>
#include <string.h>
#include <sys/resource.h>
#include <sys/stat.h>
#include <time.h>
#include <unistd.h>

#define PAUSE_NS 5000000 /* between two readings of the ring buffer */

/* The text of a queue or a flow. */
struct stream {
    const struct qdisc_queue *queue;
    unsigned int segment;
    FILE *out;
    bool is_begun; /* the snapshot was read, and each event since */
    uint64_t lost, first_lost;
};

struct reader {
    const struct qdisc_maps *maps;
    unsigned int number, count;
    int flow; /* the only one that is read, or ALL_FLOWS */
    struct stream streams[QDISC_FLOWS];
    const char *file;
    uint64_t wanted; /* the snapshot that was requested last */
    bool has_flows, has_ended;
    int status;
};

static volatile sig_atomic_t is_stopped;

static void stop(int number) {
    (void)number;
    is_stopped = 1;
}

static void fail(struct reader *reader, const char *what) {
    fprintf(stderr, "pie-qdisc: %s: %s\n", what, strerror(errno));
    reader->status = 1;
    reader->has_ended = true;
}

static void written(struct reader *reader, const struct stream *stream, const unsigned char *text, size_t size) {
    if (!size) {
        errno = EPROTO;
        fail(reader, "an event cannot be written as text");
    } else if (fwrite(text, 1, size, stream->out) != size) {
        fail(reader, reader->file ? reader->file : "standard output");
    }
}

/* Opens the file of the next excerpt. */
static bool open_segment(struct reader *reader, struct stream *stream) {
    char name[PATH_MAX], flow[32] = "", segment[16] = "";
    stream->segment++;
    if (!reader->file) {
        stream->out = stdout;
        return true;
    }
    if (stream->out && fclose(stream->out)) {
        fail(reader, reader->file);
        return false;
    }
    if (reader->has_flows && reader->flow == ALL_FLOWS)
        snprintf(flow, sizeof flow, "/flow%u", stream->queue->flow);
    if (stream->segment > 1)
        snprintf(segment, sizeof segment, ".%u", stream->segment);
    snprintf(name, sizeof name, "%s%s%s", reader->file, flow, segment);
    stream->out = fopen(name, "wx");
    if (!stream->out)
        fail(reader, name);
    return stream->out;
}

static void request_snapshot(struct reader *reader) {
    reader->wanted = __atomic_add_fetch(&reader->maps->queues[reader->number].config.snapshots, 1, __ATOMIC_SEQ_CST);
}

/* Copies the packets of a snapshot. Returns false if their places may have been used again since then. */
static bool copy_packets(const struct reader *reader, const struct qdisc_snapshot *snapshot, struct qdisc_place *to) {
    const struct qdisc_place *from = reader->maps->places + (size_t)reader->number * QDISC_PACKETS;
    uint64_t count = snapshot->tail - snapshot->head, at = reader->has_flows ? snapshot->first : snapshot->head;
    for (uint64_t done = 0; done < count; done++) {
        *to = from[at % QDISC_PACKETS];
        at = reader->has_flows ? to->next : at + 1;
        to++;
    }
    __atomic_thread_fence(__ATOMIC_SEQ_CST);
    if (reader->has_flows)
        return *(const volatile uint64_t *)&reader->maps->fqs[reader->number].taken - snapshot->taken < QDISC_PACKETS - QDISC_LIMIT;
    return *(const volatile uint64_t *)&reader->maps->queues[reader->number].tail - snapshot->head <= QDISC_PACKETS;
}

/* Writes the preamble of an excerpt. */
static void begin_excerpt(struct reader *reader, struct stream *stream, const struct qdisc_snapshot *snapshot) {
    static struct qdisc_place places[QDISC_PACKETS];
    unsigned char text[PIE_RESUME_ROOM];
    uint64_t count = snapshot->tail - snapshot->head, monotonic;
    struct timespec now, wall;
    stream->is_begun = false;
    if (!copy_packets(reader, snapshot, places)) {
        request_snapshot(reader);
        return;
    }
    if (!open_segment(reader, stream))
        return;
    written(reader, stream, text,
            pie_write_resume(&snapshot->opening, &snapshot->pie, &snapshot->stats, snapshot->count, PIE_UNKNOWN, count, snapshot->bytes, text, sizeof text));
    for (uint64_t at = 0; at < count && !reader->has_ended; at++)
        written(reader, stream, text, pie_write_queued(places[at].tag, places[at].size, PIE_NOT_ECT, places[at].since, text, sizeof text));
    clock_gettime(CLOCK_MONOTONIC, &now);
    clock_gettime(CLOCK_REALTIME, &wall);
    monotonic = now.tv_sec * 1000000000ULL + now.tv_nsec;
    written(reader, stream, text, pie_write_clock(monotonic, wall.tv_sec * 1000000000ULL + wall.tv_nsec, text, sizeof text));
    stream->is_begun = true;
}

static void take_snapshot(struct reader *reader, struct stream *stream, const struct qdisc_snapshot *snapshot) {
    unsigned char text[PIE_RECORD_ROOM];
    /* (another flow may have requested a snapshot again) */
    if (snapshot->snapshot != reader->wanted || (stream->is_begun && snapshot->lost == stream->lost))
        return;
    if (!stream->segment)
        stream->first_lost = snapshot->lost;
    if (stream->segment && snapshot->lost > stream->lost && !reader->file) {
        written(reader, stream, text, pie_write_lost(snapshot->lost - stream->lost, text, sizeof text));
        reader->has_ended = true;
    }
    stream->lost = snapshot->lost;
    if (!reader->has_ended)
        begin_excerpt(reader, stream, snapshot);
}

static int take(void *context, void *data, size_t size) {
    struct reader *reader = context;
    const struct qdisc_message *message = data;
    struct stream *stream = &reader->streams[reader->flow == ALL_FLOWS && message->flow < reader->count ? message->flow : 0];
    unsigned char text[PIE_RECORD_ROOM];
    (void)size;
    if (reader->has_ended)
        return 0;
    if (message->kind == QDISC_END) {
        reader->has_ended = true;
    } else if (reader->flow != ALL_FLOWS && message->flow != (uint32_t)reader->flow) {
        return 0;
    } else if (message->kind == QDISC_SNAPSHOT) {
        take_snapshot(reader, stream, data);
    } else if (stream->is_begun) {
        if (message->kind == QDISC_PARAMS)
            written(reader, stream, text, pie_write_params(&message->event, &((const struct qdisc_new_params *)data)->params, text, sizeof text));
        else
            written(reader, stream, text, pie_write_event(&message->event, text, sizeof text));
    }
    return 0;
}

static void read_until_end(struct reader *reader, struct ring_buffer *ring, unsigned int seconds) {
    time_t end = time(NULL) + seconds;
    while (!reader->has_ended && !is_stopped && !(seconds && time(NULL) >= end)) {
        if (ring_buffer__consume(ring) < 0) {
            fail(reader, "the ring buffer");
        } else if (!reader->file && fflush(stdout)) {
            fail(reader, "standard output");
        }
        nanosleep(&(struct timespec){.tv_nsec = PAUSE_NS}, NULL);
    }
}

/* Returns true if the queue's ring buffer is this one. */
static bool is_there(int rings_file, unsigned int number, int ring_file) {
    struct bpf_map_info about = {0};
    uint32_t size = sizeof about, found = 0;
    return !bpf_map_lookup_elem(rings_file, &number, &found) && !bpf_obj_get_info_by_fd(ring_file, &about, &size) && about.id == found;
}

/* Prepares the streams of the queue or of its flows. Returns false with a message on standard error. */
static bool open_streams(struct reader *reader) {
    struct rlimit files;
    reader->count = reader->has_flows && reader->flow == ALL_FLOWS ? QDISC_FLOWS : 1;
    for (unsigned int at = 0; at < reader->count; at++)
        reader->streams[at].queue = reader->has_flows ? &reader->maps->flows[reader->number * QDISC_FLOWS + at + (reader->flow > 0 ? reader->flow : 0)].queue
                                                      : &reader->maps->queues[reader->number];
    if (reader->count == 1)
        return true;
    if (mkdir(reader->file, 0777)) {
        fprintf(stderr, "pie-qdisc: %s: %s\n", reader->file, strerror(errno));
        return false;
    }
    getrlimit(RLIMIT_NOFILE, &files);
    files.rlim_cur = files.rlim_max;
    (void)setrlimit(RLIMIT_NOFILE, &files);
    return true;
}

/* Ends the texts. */
static void end_streams(struct reader *reader) {
    uint64_t lost = 0;
    bool is_any = false;
    for (unsigned int at = 0; at < reader->count; at++) {
        struct stream *stream = &reader->streams[at];
        if (!stream->segment)
            continue;
        is_any = true;
        if (stream->out && (reader->file ? fclose(stream->out) : fflush(stdout)) && !reader->status)
            fail(reader, reader->file ? reader->file : "standard output");
        lost += *(const volatile uint64_t *)&stream->queue->lost - stream->first_lost;
    }
    if (!reader->status && lost) {
        fprintf(stderr, "pie-qdisc: %llu events were lost, because the ring buffer was full (--ring)\n", (unsigned long long)lost);
        reader->status = 2;
    }
    if (!is_any)
        fprintf(stderr, "pie-qdisc: no packet came, so nothing was recorded\n");
}

int record_queue(const struct qdisc_maps *maps, unsigned int number, int flow, const char *file, unsigned int seconds, unsigned int ring_bytes) {
    static struct reader reader;
    struct ring_buffer *ring;
    int ring_file;
    reader.maps = maps, reader.number = number, reader.flow = flow, reader.file = file;
    reader.has_flows = maps->queues[number].config.flows;
    if (!open_streams(&reader))
        return 1;
    ring_file = bpf_map_create(BPF_MAP_TYPE_RINGBUF, "pie_reader", 0, 0, ring_bytes, NULL);
    if (ring_file < 0) {
        fprintf(stderr, "pie-qdisc: no ring buffer of %u bytes: %s\n", ring_bytes, strerror(errno));
        return 1;
    }
    ring = ring_buffer__new(ring_file, take, &reader, NULL);
    signal(SIGINT, stop);
    signal(SIGTERM, stop);
    /* (first the request, so that no event before the snapshot counts as lost) */
    request_snapshot(&reader);
    if (!ring || bpf_map_update_elem(maps->rings_file, &number, &ring_file, BPF_ANY)) {
        fprintf(stderr, "pie-qdisc: the ring buffer cannot be read: %s\n", strerror(errno));
        return 1;
    }
    read_until_end(&reader, ring, seconds);
    /* no event comes after this, and those before are read; unless another reader has replaced the ring buffer */
    if (is_there(maps->rings_file, number, ring_file))
        (void)bpf_map_delete_elem(maps->rings_file, &number);
    if (!reader.has_ended)
        (void)ring_buffer__consume(ring);
    end_streams(&reader);
    return reader.status;
}
