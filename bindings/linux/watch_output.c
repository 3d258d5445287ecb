#define _GNU_SOURCE
#include "watch_output.h"

#include <errno.h>
#include <stdio_ext.h>
#include <stdlib.h>
#include <string.h>
#include <unistd.h>

#define BUFFER (1 << 20) /* bytes of a file in memory */
#define MOST_ROW 4096    /* bytes of a record or row */
#define PATIENCE 10 /* s until a queue that is not resumed no longer keeps the segment before open */

/* A queue. `is_pending`: its records belong to the segment before. `is_late`: that segment is closed, so that `late` steps are lost. */
struct output_queue {
    bool is_there, is_pending, is_late;
    u32 late;
    struct watch_queue name;
};

static char buffers[2][BUFFER]; /* of the present segment and the segment before */

static time_t now(void) {
    struct timespec time;
    clock_gettime(CLOCK_MONOTONIC, &time);
    return time.tv_sec;
}

static bool open_file(struct watch_output *output, const char *file, bool is_forced) {
    bool is_open = output->rotate != 0 ? segments_open(&output->segments, &output->output) : open_output(&output->output, file, OUTPUT_WHOLE, is_forced);
    if (!is_open)
        return false;
    output->bytes = output->text.bytes = 0;
    output->begun = now();
    output->buffer = !output->buffer;
    setvbuf(output->output.file, buffers[output->buffer], _IOFBF, BUFFER);
    if (output->is_compact)
        fputs(WATCH_MAGIC, output->output.file);
    else
        watch_text_head(&output->text, output->output.file);
    return true;
}

bool watch_output_open(struct watch_output *output, const char *file, u64 rotate, u64 kept, bool is_compact, bool is_forced) {
    *output = (struct watch_output){.is_compact = is_compact, .rotate = rotate, .segments = {.kept = kept, .is_forced = is_forced}};
    snprintf(output->segments.path, sizeof output->segments.path, "%s", file);
    return open_file(output, file, is_forced);
}

static struct output_queue *queue_of(struct watch_output *output, unsigned number) {
    return number < output->count ? &output->queues[number] : NULL;
}

/* Adds a queue by its record. Returns false if memory is exhausted. */
static bool add_queue(struct watch_output *output, const struct watch_queue *record) {
    size_t number = record->head.queue;
    struct output_queue *queues = output->queues, *queue;
    if (number >= output->count) {
        queues = realloc(queues, (number + 1) * sizeof *queues);
        if (queues == NULL)
            return false;
        memset(queues + output->count, 0, (number + 1 - output->count) * sizeof *queues);
        output->queues = queues;
        output->count = number + 1;
    }
    queue = &queues[number];
    output->pending -= queue->is_pending; /* (of a queue with the same number, 65,536 queues ago) */
    *queue = (struct output_queue){.is_there = true, .name = *record};
    return true;
}

void watch_flush(FILE *file, int *fault) {
    off_t written = file != NULL && __fpending(file) != 0 ? ftello(file) - (off_t)__fpending(file) : 0;
    if (file == NULL || *fault != 0 || fflush(file) == 0)
        return;
    *fault = errno;
    __fpurge(file);
    if (written > 0 && (ftruncate(fileno(file), written) != 0 || lseek(fileno(file), written, SEEK_SET) < 0))
        *fault = errno;
}

void watch_output_flush(struct watch_output *output) {
    watch_flush(output->before.file, &output->fault);
    watch_flush(output->output.file, &output->fault);
}

/* Writes a record to a file. Returns false if it contradicts the records before it. */
static bool write_to(struct watch_output *output, FILE *file, const void *record) {
    size_t bytes = watch_bytes(record);
    if (output->is_compact || output->fault != 0) {
        if (bytes == 0 || !watch_text_count(&output->text, record))
            return false;
        if (output->fault == 0)
            fwrite_unlocked(record, 1, bytes, file);
    } else {
        output->text.out = file;
        if (!watch_text_add(&output->text, record))
            return false;
    }
    output->bytes += bytes;
    if (__fpending(file) + MOST_ROW > __fbufsize(file))
        watch_flush(file, &output->fault);
    return true;
}

/* Begins a queue in the present segment, before its step `seq`. Steps are lost if the segment before was closed earlier. Returns false if the queue is not
 * known. */
static bool begin_queue(struct watch_output *output, struct output_queue *queue, unsigned number, u32 seq) {
    struct watch_base lost = {.head = {.type = WATCH_LOST, .queue = (u16)number}, .lost = queue->late};
    queue->name.head.seq = seq - queue->late;
    if (output->is_compact) {
        fwrite(&queue->name, 1, sizeof queue->name, output->output.file);
        output->bytes += sizeof queue->name;
    }
    output->pending -= queue->is_pending;
    queue->is_pending = queue->is_late = false;
    queue->late = 0;
    return lost.lost == 0 || write_to(output, output->output.file, &lost);
}

bool watch_output_add(struct watch_output *output, const void *record) {
    const struct watch_head *head = record;
    struct output_queue *queue;
    if (head->type == WATCH_QUEUE && !add_queue(output, record))
        return false;
    queue = queue_of(output, head->queue);
    if (queue == NULL)
        return false;
    if (head->type == WATCH_RESUME && (queue->is_pending || queue->is_late) && !begin_queue(output, queue, head->queue, head->seq))
        return false;
    if (queue->is_late) {
        queue->late += head->type == WATCH_LOST ? ((const struct watch_base *)record)->lost : head->type != WATCH_BASE;
        return true;
    }
    bool is_written = write_to(output, queue->is_pending ? output->before.file : output->output.file, record);
    if (head->type == WATCH_DESTROY) {
        output->pending -= queue->is_pending;
        queue->is_there = queue->is_pending = false;
    }
    return is_written;
}

/* Ends the segment before, although queues were not resumed. */
static void give_up(struct watch_output *output) {
    for (size_t i = 0; i < output->count; i++) {
        struct output_queue *queue = &output->queues[i];
        if (queue->is_pending)
            *queue = (struct output_queue){.is_there = true, .is_late = true, .name = queue->name};
    }
    output->pending = 0;
}

int watch_output_turn(struct watch_output *output) {
    if (output->before.file != NULL) {
        if (output->pending != 0 && now() - output->begun > PATIENCE)
            give_up(output);
        return output->pending != 0 || close_output(&output->before) ? 0 : -1;
    }
    if (output->rotate == 0 || (output->is_compact ? output->bytes : output->text.bytes) < output->rotate)
        return 0;
    output->before = output->output;
    if (!open_file(output, NULL, false))
        return -1;
    for (size_t i = 0; i < output->count; i++) {
        struct output_queue *queue = &output->queues[i];
        queue->is_pending = queue->is_there && !queue->is_late;
        output->pending += queue->is_pending;
    }
    return 1;
}

bool watch_output_close(struct watch_output *output) {
    for (size_t i = 0; i < output->count; i++) {
        if (output->queues[i].is_late && output->queues[i].late != 0)
            begin_queue(output, &output->queues[i], (unsigned)i, output->queues[i].late);
    }
    watch_output_flush(output);
    bool is_closed = close_output(&output->before);
    is_closed = close_output(&output->output) && is_closed;
    if (output->fault != 0)
        errno = output->fault;
    free(output->queues);
    output->queues = NULL;
    output->count = 0;
    return is_closed;
}
