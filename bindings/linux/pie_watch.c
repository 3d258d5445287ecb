/* pie-watch: records each step of the kernel's own queue disciplines pie and fq_pie, by BPF programs (pie_watch.bpf.c). README.md describes it, and
 * `pie-watch --help` has the options. */
#define _GNU_SOURCE
#include "watch_check.h"
#include "watch_drops.h"
#include "watch_load.h"
#include "watch_output.h"
#include "watch_queue.h"
#include "watch_serve.h"
#include "watch_top.h"

#include "pie_watch.skel.h"
#include "pie.h"

#include <bpf/bpf.h>
#include <errno.h>
#include <getopt.h>
#include <inttypes.h>
#include <net/if.h>
#include <signal.h>
#include <stdlib.h>
#include <string.h>
#include <sys/stat.h>
#include <time.h>
#include <unistd.h>

#define PROGRAM "pie-watch"
#define MOST_RING 2048 /* MiB */
#define LEAST_RING 32  /* MiB, by default */
#define MOST_DEFAULT_RING 512
#define MBIT_OF_MIB 80 /* the Mbit/s of a device for each MiB of the ring */
#define MOST_SPEED 10000000 /* Mbit/s; some devices report another number if they have none */
#define LEAST_SEGMENT 65536 /* bytes */
#define MOST_SEGMENT (1ull << 50)
#define SECOND 1000000000ull /* in nanoseconds */

static const char usage[] =
    "Records each step of the kernel's queue disciplines pie and fq_pie\n"
    "\n"
    "Usage: pie-watch [OPTIONS] DEVICE\n"
    "       pie-watch [OPTIONS] --all\n"
    "       pie-watch serve [OPTIONS] [ADDRESS]:PORT [DEVICE]\n"
    "       pie-watch top [OPTIONS] [DEVICE]\n"
    "       pie-watch text [--force] [-o FILE] STEPS\n"
    "\n"
    "Nothing is loaded or changed but BPF programs, which end with pie-watch. A queue is recorded from its creation on, or from its next enqueue; also if its\n"
    "device or the kernel's module comes later. A signal ends the recording (INT, TERM or HUP). `pie-watch text` writes a compact file of steps as text.\n"
    "\n"
    "`pie-watch serve :9464` serves the sums of all queues by HTTP, on 127.0.0.1 unless there is an ADDRESS: /metrics for Prometheus, /health and /queues (JSON).\n"
    "`pie-watch top` shows them in the terminal. The kernel sums; no step leaves it.\n"
    "\n"
    "  -q, --queue HANDLE  Record only the queue with this handle, such as 8001:\n"
    "  -a, --all           Record the queues of all devices of this network namespace\n"
    "  -n, --every N       Record about one of N queues, with all its steps. Device and handle select it. Default: 1\n"
    "  -o, --output FILE   Write to FILE, which has its name when it is complete. Default: standard output\n"
    "  -e, --rate-estimator\n"
    "                      Read the clock from the beginning, as queues with dq_rate_estimator need it. Otherwise their first steps are lost\n"
    "  -c, --compact       Write compact steps, of which `pie-watch text` makes text\n"
    "      --drops         Record only dropped and marked packets with the state of their queue, and the sums of each queue at the end, as CSV\n"
    "      --no-addresses  With --drops, or top: without addresses and ports of packets\n"
    "      --namespaces    With --drops, serve or top: the queues of all network namespaces\n"
    "      --labels FILE   With serve or top: labels of queues. A line of FILE is DEVICE CLASS NAME=VALUE .., such as eth0 1:10 subscriber=4711. CLASS * is each\n"
    "                      class of the device\n"
    "      --most N        With serve: at most this many queues have metrics of their own, those with the most drops and marks. Default: 1000\n"
    "      --rotate SIZE   Write in segments of this size (64mb), FILE.1, FILE.2 and so on; each can be read alone\n"
    "      --segments N    Keep N segments, and remove older ones. Default: all\n"
    "      --resume-every SECONDS\n"
    "                      Write the state of each queue again after this time, from which an audit continues after a difference. Default: 60\n"
    "  -d, --duration SECONDS\n"
    "                      End after this time. Default: at a signal\n"
    "  -t, --trigger EVENT End soon after the first packet that waited longer ('wait > 50ms', also us and s) or was dropped (drop). With --rotate and\n"
    "                      --segments, the steps before it remain\n"
    "      --after SECONDS Time from this packet to the end. Default: 1\n"
    "  -r, --ring MIB      Size of the ring buffer, a power of two. A larger one loses no steps when this program has to wait. Default: 32, and up to 512\n"
    "                      for network cards above 2.5 Gbit/s: 0.1 s of packets of 300 bytes\n"
    "      --anyway        Record on a kernel that is not known\n"
    "      --force         Replace an existing file\n"
    "  -v, --verbose       Print what libbpf says\n"
    "  -h, --help          Print help\n"
    "  -V, --version       Print version\n"
    "\n"
    "The status is 0 if each step was recorded, 1 after an error, and 2 if steps were lost. The output has a row `lost,N,QUEUE` where N steps of a queue\n"
    "are missing.\n";

#define MOST_PROGRAMS 64
#define SUMS_RING 4 /* MiB, by default */
#define RESUME_EVERY 60 /* s, by default */

enum mode { RECORD, TEXT, DROPS, SERVE, TOP };

struct options {
    enum mode mode;
    const char *device, *output, *steps, *address, *labels;
    u64 most;
    bool has_no_addresses, is_every_namespace;
    unsigned handle, ring, part;
    u64 rotate, segments; /* bytes of a segment, and the number of last ones that are kept; 0: one file, and all */
    u64 resume_every; /* in seconds */
    u64 duration; /* in seconds; 0: until a signal */
    u64 after;    /* in seconds, from the trigger to the end */
    u64 most_wait; /* the trigger: a packet that waited more nanoseconds than this, or else a dropped one */
    bool has_trigger, is_drop, is_all, is_compact, is_anyway, is_forced, is_verbose, has_clock;
};

/* A recording. */
struct recording {
    const struct options *options;
    struct pie_watch_bpf *bpf;
    struct pie_watch_bpf *later; /* the programs for fq_pie, if its module was loaded after the others; it shares all maps with `bpf` */
    struct bpf_link *links[MOST_PROGRAMS];
    size_t links_count;
    struct watch_output output;
    bool has_fq_pie, has_ring_message;
    u64 begun; /* the moment of its beginning, in nanoseconds */
    u64 end; /* the moment at which it ends; 0: at a signal */
    u64 resumed; /* the places of queues that were resumed regularly, those of earlier rounds too */
    bool is_triggered;
    const char *fault;
};

static volatile sig_atomic_t is_ended;

static void end(int number) {
    (void)number;
    is_ended = 1;
}

static void fail(const char *what, const char *about) {
    fprintf(stderr, PROGRAM ": %s%s\n", what, about);
    exit(1);
}

/* Reports an error of a file (NULL: standard output). */
static void fail_file(const char *name) {
    fprintf(stderr, PROGRAM ": %s: %s\n", name != NULL ? name : "standard output", strerror(errno));
    exit(1);
}

static u64 nanoseconds(void) {
    struct timespec time;
    clock_gettime(CLOCK_MONOTONIC, &time);
    return (u64)time.tv_sec * SECOND + (u64)time.tv_nsec;
}

/* ---- records */

/* Returns the nanoseconds that the packet of a dequeue waited; with the rate estimator, which keeps no time of the enqueue, the estimated delay. */
static u64 wait_of(const struct watch_dequeue *record) {
    return (record->head.bits & WATCH_HAS_CLOCK ? record->vars.qdelay : record->vars.dq_tstamp - record->enqueued) << 6;
}

/* Returns true if the record has the packet that `options` describe. */
static bool is_trigger(const struct options *options, const struct watch_head *head) {
    if (options->is_drop)
        return head->type == WATCH_ENQUEUE && head->ret != 0;
    return head->type == WATCH_DEQUEUE && wait_of((const struct watch_dequeue *)head) > options->most_wait;
}

/* Lets the recording end some time after its trigger. */
static void end_later(struct recording *recording, const struct watch_head *head) {
    const struct options *options = recording->options;
    u64 end = nanoseconds() + options->after * SECOND;
    recording->is_triggered = true;
    if (recording->end == 0 || end < recording->end)
        recording->end = end;
    fprintf(stderr, PROGRAM ": %s: step %u ", watch_text_name(&recording->output.text, head->queue), head->seq);
    if (options->is_drop)
        fprintf(stderr, "dropped a packet");
    else
        fprintf(stderr, "has a packet that waited %.3f ms", (double)wait_of((const struct watch_dequeue *)head) / 1e6);
    fprintf(stderr, "; the recording ends in %llu s\n", (unsigned long long)options->after);
}

/* Writes a record to the output. */
static void take_record(struct recording *recording, const struct watch_head *head, size_t bytes) {
    size_t size = bytes >= sizeof *head ? watch_bytes(head) : 0;
    if (size == 0 || size > bytes || !watch_output_add(&recording->output, head)) {
        recording->fault = "the recorder wrote a record that is not possible; please report this";
        return;
    }
    if (head->type == WATCH_QUEUE)
        fprintf(stderr, PROGRAM ": %s: %s\n", watch_text_name(&recording->output.text, head->queue),
                ((const struct watch_queue *)head)->kind == WATCH_PIE ? "pie" : "fq_pie");
    if (recording->options->has_trigger && !recording->is_triggered && is_trigger(recording->options, head))
        end_later(recording, head);
    if (head->type == WATCH_DESTROY)
        fprintf(stderr, PROGRAM ": %s: removed\n", watch_text_name(&recording->output.text, head->queue));
}

/* Writes the records of an item of the ring. Each queue is resumed if a segment of the output begins then. */
static int take(void *user, void *records, size_t bytes) {
    struct recording *recording = user;
    int turned;
    for (size_t at = 0; at < bytes && recording->fault == NULL; at += WATCH_MOST)
        take_record(recording, (const struct watch_head *)((const char *)records + at), bytes - at < WATCH_MOST ? bytes - at : WATCH_MOST);
    turned = watch_output_turn(&recording->output);
    if (turned < 0)
        fail_file(recording->options->output);
    recording->bpf->bss->segment += turned;
    return 0;
}

#define UNKNOWN (WATCH_MOST + 1)

/* Reads a record of a compact file. Returns WATCH_MOST; 0 at the end; UNKNOWN if there is no such record; another number if the file ends within it. */
static size_t read_record(FILE *steps, unsigned char *bytes) {
    struct watch_head head;
    size_t count = fread(&head, 1, sizeof head, steps), rest;
    if (count != sizeof head)
        return count;
    if (watch_bytes(&head) == 0)
        return UNKNOWN;
    memcpy(bytes, &head, sizeof head);
    rest = watch_bytes(&head) - sizeof head;
    count = fread(bytes + sizeof head, 1, rest, steps);
    return count == rest ? WATCH_MOST : 1;
}

/* Reads a compact file, and writes its text. */
static int write_text(const struct options *options) {
    struct output output;
    struct watch_text text = {0};
    union {
        struct watch_head head;
        unsigned char bytes[WATCH_MOST];
    } record;
    char magic[sizeof WATCH_MAGIC - 1];
    const char *fault = NULL;
    size_t read = 0;
    FILE *steps = strcmp(options->steps, "-") == 0 ? stdin : fopen(options->steps, "rb");
    if (steps == NULL)
        fail_file(options->steps);
    if (fread(magic, 1, sizeof magic, steps) != sizeof magic || memcmp(magic, WATCH_MAGIC, sizeof magic - 1) != 0)
        fail("this is no file of `pie-watch --compact`: ", options->steps);
    if (memcmp(magic, WATCH_MAGIC, sizeof magic) != 0)
        fail("another version of pie-watch wrote this file: ", options->steps);
    if (!open_output(&output, options->output != NULL ? options->output : "-", OUTPUT_WHOLE, options->is_forced))
        fail_file(options->output);
    watch_text_head(&text, output.file);
    while (fault == NULL && (read = read_record(steps, record.bytes)) == WATCH_MOST) {
        if (!watch_text_add(&text, &record))
            fault = "a record contradicts those before it: ";
    }
    if (fault == NULL && read == UNKNOWN)
        fault = "a record has an unknown type: ";
    if (fault != NULL)
        fail(fault, options->steps);
    if (read != 0)
        fprintf(stderr, PROGRAM ": %s: the last record is not complete, and left out; the recording ended before its end\n", options->steps);
    if (!close_output(&output))
        fail("the output is not complete: ", strerror(errno));
    u64 lost = text.lost + text.missing;
    if (lost != 0)
        fprintf(stderr, PROGRAM ": %s: %llu steps were lost, in which the kernel dropped %llu packets\n", options->steps, (unsigned long long)lost,
                (unsigned long long)text.dropped);
    watch_text_end(&text);
    return lost != 0 || read != 0 ? 2 : 0;
}

/* ---- BPF */

/* The programs that only fq_pie needs, those that only the rate estimator needs, and those that serve pie and fq_pie. */
static bool is_of_fq_pie(const struct bpf_program *program) {
    const char *name = bpf_program__name(program);
    return strncmp(name, "fq_pie", 6) == 0 || strcmp(name, "drop_early_ends") == 0;
}

static bool is_of_clock(const struct bpf_program *program) {
    const char *name = bpf_program__name(program);
    return strncmp(name, "clock", 5) == 0 || strcmp(name, "dequeue_begins") == 0;
}

static bool is_of_both(const struct bpf_program *program) {
    const char *name = bpf_program__name(program);
    return strncmp(name, "dequeue", 7) == 0 || strncmp(name, "calculation", 11) == 0;
}

static bool attach(struct recording *recording, const struct bpf_program *program) {
    struct bpf_link *link = bpf_program__attach(program);
    if (link == NULL || recording->links_count == MOST_PROGRAMS) {
        fprintf(stderr, PROGRAM ": %s cannot be traced: %s\n", strchr(bpf_program__section_name(program), '/') + 1, strerror(errno));
        return false;
    }
    recording->links[recording->links_count++] = link;
    return true;
}

/* Attaches the programs of an object that `is_chosen` chooses. */
static void attach_all(struct recording *recording, struct pie_watch_bpf *bpf, bool is_chosen(const struct bpf_program *)) {
    struct bpf_program *program;
    bpf_object__for_each_program(program, bpf->obj) {
        if (bpf_program__autoload(program) && is_chosen(program) && !attach(recording, program))
            exit(1);
    }
}

static bool is_always_attached(const struct bpf_program *program) {
    return !is_of_clock(program);
}

/* Attaches the programs that read the clock for the rate estimator. They run at each reading of the clock in the kernel. */
static void attach_clock(struct recording *recording) {
    if (recording->bpf->bss->has_clock)
        return;
    attach_all(recording, recording->bpf, is_of_clock);
    if (recording->later != NULL)
        attach_all(recording, recording->later, is_of_clock);
    recording->bpf->bss->has_clock = true;
}

static struct pie_watch_bpf *open_programs(const struct options *options, bool has_fq_pie) {
    LIBBPF_OPTS(bpf_object_open_opts, opened, .kernel_log_level = options->is_verbose ? VERIFIER_COUNTS : 0);
    struct pie_watch_bpf *bpf = pie_watch_bpf__open_opts(&opened);
    struct stat namespace;
    int processors = libbpf_num_possible_cpus();
    if (bpf == NULL || processors < 1)
        fail("the BPF programs cannot be read: ", strerror(errno));
    if (stat("/proc/self/ns/net", &namespace) != 0)
        fail("/proc/self/ns/net: ", strerror(errno));
    if (options->device != NULL)
        snprintf((char *)bpf->rodata->wanted_device, sizeof bpf->rodata->wanted_device, "%s", options->device);
    bpf->rodata->wanted_handle = options->handle;
    bpf->rodata->wanted_netns = (u32)namespace.st_ino;
    bpf->rodata->wanted_part = options->part;
    bpf->rodata->has_fq_pie = has_fq_pie;
    bpf_map__set_max_entries(bpf->maps.words, (u32)processors);
    bpf_map__set_max_entries(bpf->maps.readings, (u32)processors);
    bpf_map__set_max_entries(bpf->maps.ring, options->ring << 20);
    return bpf;
}

static void load_programs(struct pie_watch_bpf *bpf) {
    if (pie_watch_bpf__load(bpf) != 0) {
        fprintf(stderr, PROGRAM ": the kernel refuses the BPF programs: %s (%s)\n", strerror(errno), watch_last_warning);
        exit(1);
    }
}

static void load(struct recording *recording, const struct watch_checked *checked) {
    struct pie_watch_bpf *bpf = open_programs(recording->options, checked->has_fq_pie);
    struct bpf_program *program;
    bpf_object__for_each_program(program, bpf->obj)
        bpf_program__set_autoload(program, checked->has_fq_pie || !is_of_fq_pie(program));
    if (!checked->has_fq_pie)
        bpf->rodata->handled = 1 << WATCH_PIE;
    load_programs(bpf);
    recording->bpf = bpf;
    recording->has_fq_pie = checked->has_fq_pie;
    attach_all(recording, bpf, is_always_attached);
    if (recording->options->has_clock)
        attach_clock(recording);
}

/* Loads the programs for fq_pie, whose module was loaded after the others. */
static void load_later(struct recording *recording) {
    struct watch_checked checked;
    struct pie_watch_bpf *bpf, *first = recording->bpf;
    struct bpf_program *program;
    if (recording->has_fq_pie || !watch_is_loaded("sch_fq_pie"))
        return;
    recording->has_fq_pie = true;
    if (!watch_check(&checked, recording->options->is_anyway)) {
        fprintf(stderr, PROGRAM ": sch_fq_pie was loaded; its queues are not recorded\n");
        return;
    }
    bpf = open_programs(recording->options, true);
    bpf->rodata->handled = 1 << WATCH_FQ_PIE;
    bpf_object__for_each_program(program, bpf->obj)
        bpf_program__set_autoload(program, is_of_fq_pie(program) || is_of_both(program));
    bpf_map__reuse_fd(bpf->maps.ring, bpf_map__fd(first->maps.ring));
    bpf_map__reuse_fd(bpf->maps.words, bpf_map__fd(first->maps.words));
    bpf_map__reuse_fd(bpf->maps.readings, bpf_map__fd(first->maps.readings));
    bpf_map__reuse_fd(bpf->maps.bss, bpf_map__fd(first->maps.bss));
    load_programs(bpf);
    recording->later = bpf;
    if (first->bss->has_clock)
        attach_all(recording, bpf, is_of_clock);
    attach_all(recording, bpf, is_always_attached);
    fprintf(stderr, PROGRAM ": sch_fq_pie was loaded; its queues are recorded\n");
}

static void detach(struct recording *recording) {
    while (recording->links_count > 0)
        bpf_link__destroy(recording->links[--recording->links_count]);
}

/* Writes the name of a queue that was never recorded. */
static void write_late_name(struct recording *recording, const struct queue *queue) {
    struct watch_queue name = {.head = {.type = WATCH_QUEUE, .queue = queue->number, .seq = queue->seq - queue->lost},
                               .address = queue->key,
                               .kind = queue->kind,
                               .ifindex = queue->ifindex,
                               .handle = queue->handle,
                               .parent = queue->parent,
                               .netns = queue->netns};
    memcpy(name.device, queue->device, sizeof name.device);
    take_record(recording, &name.head, sizeof name);
}

/* Writes the records that the queues hold, and the number of steps that were lost at the end. */
static void write_last_records(struct recording *recording) {
    struct watch_base lost;
    for (size_t i = 0; i < WATCH_PLACES; i++) {
        struct queue *queue = &recording->bpf->bss->queues[i];
        if (queue->key <= TAKEN)
            continue;
        if (queue->held <= WATCH_HELD)
            take(recording, queue->records, queue->held * WATCH_MOST);
        if (queue->lost == 0)
            continue;
        if (!queue->is_named)
            write_late_name(recording, queue);
        lost = (struct watch_base){.head = {.type = WATCH_LOST, .queue = queue->number, .seq = queue->seq}, .lost = queue->lost};
        take_record(recording, &lost.head, sizeof lost);
    }
}

/* Prints the numbers of the recording. Returns the status. */
static int report(const struct recording *recording) {
    const struct watch_text *text = &recording->output.text;
    u64 missing = text->missing + recording->bpf->bss->steps_missed, lost = text->lost + recording->bpf->bss->lost_elsewhere + missing;
    unsigned queues = recording->bpf->bss->queues_seen, queues_missed = recording->bpf->bss->queues_missed;
    fprintf(stderr, PROGRAM ": %u queue%s, %llu steps, %llu lost\n", queues, queues == 1 ? "" : "s", (unsigned long long)text->steps,
            (unsigned long long)lost);
    if (text->dropped != 0)
        fprintf(stderr, PROGRAM ": the kernel dropped %llu packets in lost steps, before others of the same queue\n", (unsigned long long)text->dropped);
    if (missing != 0)
        fprintf(stderr, PROGRAM ": %llu steps are missing without a row; please report this\n", (unsigned long long)missing);
    if (queues_missed != 0)
        fprintf(stderr, PROGRAM ": queues beyond the first 1024 were not recorded\n");
    if (queues == 0)
        fprintf(stderr, PROGRAM ": no queue of pie or fq_pie was seen: none was created, and none enqueued a packet; `tc qdisc show` lists queues\n");
    return lost != 0 || queues_missed != 0 ? 2 : 0;
}

/* Returns the size of a ring that holds this number of bytes, in MiB. */
static unsigned ring_of(unsigned bytes) {
    unsigned mib = 1;
    while (mib < MOST_RING && (u64)mib << 20 < bytes)
        mib *= 2;
    return mib;
}

/* Lets each queue be resumed once in the time of `resume_every`, one place of the table after another. */
static void resume_regularly(struct recording *recording) {
    u64 round = recording->options->resume_every * 1000, passed = (nanoseconds() - recording->begun) / 1000000; /* ms */
    u64 places = passed / round * WATCH_PLACES + passed % round * WATCH_PLACES / round;
    for (; recording->resumed < places; recording->resumed++) {
        struct queue *queue = &recording->bpf->bss->queues[recording->resumed % WATCH_PLACES];
        if (queue->key > TAKEN)
            queue->is_due = true;
    }
}

/* Does what the programs ask for, and what changed around them. */
static void follow(struct recording *recording) {
    unsigned needed = recording->bpf->bss->ring_needed;
    if (recording->bpf->bss->needs_clock)
        attach_clock(recording);
    if (needed != 0 && !recording->has_ring_message)
        fprintf(stderr, PROGRAM ": a queue is too long for the ring, so that its steps are lost; --ring %u or more\n", ring_of(needed));
    recording->has_ring_message |= needed != 0;
    resume_regularly(recording);
}

/* Reads records from the ring until a signal comes, the time is over or an error occurs. */
static void read_ring_buffer(struct recording *recording, struct ring_buffer *ring) {
    u64 last = recording->begun = nanoseconds();
    if (recording->options->duration != 0)
        recording->end = last + recording->options->duration * SECOND;
    while (!is_ended && recording->fault == NULL && recording->output.fault == 0 && (recording->end == 0 || nanoseconds() < recording->end)) {
        int count = ring_buffer__consume(ring);
        follow(recording);
        if (count > 0)
            continue;
        watch_output_flush(&recording->output);
        if (nanoseconds() - last >= SECOND) {
            load_later(recording);
            last = nanoseconds();
        }
        nanosleep(&(struct timespec){.tv_nsec = 2000000}, NULL);
    }
}

static int record(const struct options *options, const struct watch_checked *checked) {
    struct recording recording = {.options = options};
    struct ring_buffer *ring;
    load(&recording, checked);
    if (!watch_output_open(&recording.output, options->output != NULL ? options->output : "-", options->rotate, options->segments, options->is_compact,
                           options->is_forced))
        fail_file(options->output);
    ring = ring_buffer__new(bpf_map__fd(recording.bpf->maps.ring), take, &recording, NULL);
    if (ring == NULL)
        fail("the ring buffer cannot be mapped: ", strerror(errno));
    recording.bpf->bss->is_on = true;
    fprintf(stderr, PROGRAM ": recording %s\n", options->is_all ? "all devices" : options->device);
    read_ring_buffer(&recording, ring);
    recording.bpf->bss->is_on = false;
    detach(&recording);
    ring_buffer__consume(ring);
    write_last_records(&recording);
    if (recording.fault != NULL)
        fail(recording.fault, "");
    if (!watch_output_close(&recording.output))
        fail("the output is not complete: ", strerror(errno));
    return report(&recording);
}

/* ---- options */

/* Reads a handle as tc writes it: the major number in hexadecimal digits, and a colon. */
static unsigned read_handle(const char *text) {
    char *rest;
    unsigned long major = strtoul(text, &rest, 16);
    if (rest == text || strcmp(rest, ":") != 0 || major == 0 || major > 0xffff)
        fail("this is no handle of a queue, such as 8001: : ", text);
    return (unsigned)major << 16;
}

/* Reads a number from 1 to `most`. `fault` begins the error of any other text. */
static u64 read_number(const char *text, u64 most, const char *fault) {
    char *rest;
    unsigned long number = strtoul(text, &rest, 10);
    if (rest == text || *rest != '\0' || *text == '-' || number == 0 || number > most)
        fail(fault, text);
    return number;
}

static unsigned read_ring(const char *text) {
    static const char fault[] = "--ring is a power of two from 1 to 2048 MiB: ";
    u64 mib = read_number(text, MOST_RING, fault);
    if ((mib & (mib - 1)) != 0)
        fail(fault, text);
    return (unsigned)mib;
}

/* Reads a size as tc writes it, such as 64mb. */
static u64 read_size(const char *text) {
    static const char units[] = "kmg";
    char *rest;
    unsigned long long size = strtoull(text, &rest, 10);
    const char *unit = *rest != '\0' ? strchr(units, *rest) : NULL;
    int shift = unit != NULL ? 10 * (int)(unit - units + 1) : 0;
    bool is_size = strcmp(rest + (unit != NULL), "b") == 0 && *text >= '0' && *text <= '9' && size <= MOST_SEGMENT >> shift;
    if (!is_size || size << shift < LEAST_SEGMENT)
        fail("--rotate is a size of at least 64kb, such as 64mb: ", text);
    return size << shift;
}

/* Reads the event that ends a recording: `drop`, or `wait > ` and a time as tc writes it. */
static void read_trigger(struct options *options, const char *text) {
    static const struct {
        const char *name;
        u64 nanoseconds;
    } units[] = {{"us", 1000}, {"ms", 1000000}, {"s", SECOND}};
    u64 number = 0;
    char unit[3] = "";
    int end = 0;
    options->has_trigger = true;
    options->is_drop = strcmp(text, "drop") == 0;
    if (options->is_drop || (sscanf(text, "wait > %9" SCNu64 "%2[mus]%n", &number, unit, &end) == 2 && text[end] == '\0' && strchr(text, '-') == NULL)) {
        for (size_t i = 0; i < sizeof units / sizeof *units; i++) {
            if (strcmp(unit, units[i].name) == 0)
                options->most_wait = number * units[i].nanoseconds;
        }
    }
    if (!options->is_drop && options->most_wait == 0)
        fail("--trigger is drop, or a time such as 'wait > 50ms': ", text);
}

/* Returns the ring's default size for a device of this namespace (NULL: all), by the greatest speed that they report, in MiB. The speed of a virtual device
 * says nothing. */
static unsigned ring_for(const char *device) {
    struct if_nameindex *names = if_nameindex();
    unsigned fastest = 0, ring = LEAST_RING;
    for (const struct if_nameindex *it = names; it != NULL && it->if_index != 0; it++) {
        char path[64];
        unsigned speed; /* in Mbit/s */
        snprintf(path, sizeof path, "/sys/class/net/%s/device", it->if_name);
        bool is_asked = (device == NULL || strcmp(device, it->if_name) == 0) && access(path, F_OK) == 0;
        snprintf(path, sizeof path, "/sys/class/net/%s/speed", it->if_name);
        FILE *file = is_asked ? fopen(path, "r") : NULL;
        if (file != NULL && fscanf(file, "%u", &speed) == 1 && speed <= MOST_SPEED && speed > fastest)
            fastest = speed;
        if (file != NULL)
            fclose(file);
    }
    if (names != NULL)
        if_freenameindex(names);
    while (ring < MOST_DEFAULT_RING && ring * MBIT_OF_MIB < fastest)
        ring *= 2;
    return ring;
}

static void read_options(struct options *options, int count, char **words) {
    static const struct option names[] = {{"queue", required_argument, NULL, 'q'},
                                          {"all", no_argument, NULL, 'a'},
                                          {"every", required_argument, NULL, 'n'},
                                          {"output", required_argument, NULL, 'o'},
                                          {"compact", no_argument, NULL, 'c'},
                                          {"rate-estimator", no_argument, NULL, 'e'},
                                          {"rotate", required_argument, NULL, 'R'},
                                          {"segments", required_argument, NULL, 's'},
                                          {"resume-every", required_argument, NULL, 'E'},
                                          {"ring", required_argument, NULL, 'r'},
                                          {"duration", required_argument, NULL, 'd'},
                                          {"trigger", required_argument, NULL, 't'},
                                          {"after", required_argument, NULL, 'A'},
                                          {"drops", no_argument, NULL, 'D'},
                                          {"no-addresses", no_argument, NULL, 'N'},
                                          {"namespaces", no_argument, NULL, 'S'},
                                          {"labels", required_argument, NULL, 'L'},
                                          {"most", required_argument, NULL, 'M'},
                                          {"anyway", no_argument, NULL, 'w'},
                                          {"force", no_argument, NULL, 'f'},
                                          {"verbose", no_argument, NULL, 'v'},
                                          {"help", no_argument, NULL, 'h'},
                                          {"version", no_argument, NULL, 'V'},
                                          {NULL, 0, NULL, 0}};
    static const struct {
        const char *name;
        enum mode mode;
    } modes[] = {{"text", TEXT}, {"serve", SERVE}, {"top", TOP}};
    int letter, most;
    *options = (struct options){.part = 1, .after = 1, .resume_every = RESUME_EVERY, .most = SERVE_MOST};
    for (size_t i = 0; i < sizeof modes / sizeof *modes && count > 1; i++) {
        if (strcmp(words[1], modes[i].name) == 0)
            options->mode = modes[i].mode;
    }
    if (options->mode != RECORD) {
        words++;
        count--;
    }
    while ((letter = getopt_long(count, words, "q:an:o:cer:d:t:vhV", names, NULL)) != -1) {
        switch (letter) {
        case 'q':
            options->handle = read_handle(optarg);
            break;
        case 'a':
            options->is_all = true;
            break;
        case 'n':
            options->part = (unsigned)read_number(optarg, 1000000, "--every is a number from 1 to 1000000: ");
            break;
        case 'o':
            options->output = optarg;
            break;
        case 'c':
            options->is_compact = true;
            break;
        case 'e':
            options->has_clock = true;
            break;
        case 'R':
            options->rotate = read_size(optarg);
            break;
        case 's':
            options->segments = read_number(optarg, UINT64_MAX, "--segments is a number from 1 on: ");
            break;
        case 'E':
            options->resume_every = read_number(optarg, UINT32_MAX, "--resume-every is a number of seconds from 1 on: ");
            break;
        case 'r':
            options->ring = read_ring(optarg);
            break;
        case 'd':
            options->duration = read_number(optarg, UINT32_MAX, "--duration is a number of seconds from 1 on: ");
            break;
        case 't':
            read_trigger(options, optarg);
            break;
        case 'A':
            options->after = read_number(optarg, UINT32_MAX, "--after is a number of seconds from 1 on: ");
            break;
        case 'D':
            if (options->mode != RECORD && options->mode != DROPS)
                fail("--drops is for a recording", "");
            options->mode = DROPS;
            break;
        case 'N':
            options->has_no_addresses = true;
            break;
        case 'S':
            options->is_every_namespace = true;
            break;
        case 'L':
            options->labels = optarg;
            break;
        case 'M':
            options->most = read_number(optarg, UINT32_MAX, "--most is a number from 1 on: ");
            break;
        case 'w':
            options->is_anyway = true;
            break;
        case 'f':
            options->is_forced = true;
            break;
        case 'v':
            options->is_verbose = true;
            break;
        case 'h':
            fputs(usage, stdout);
            exit(0);
        case 'V':
            printf(PROGRAM " %s\n", PIE_VERSION);
            exit(0);
        default:
            exit(1);
        }
    }
    most = options->mode == SERVE ? 2 : 1;
    if (count - optind > most)
        fail("one device is recorded, or --all: ", words[optind + most]);
    if (options->mode == SERVE) {
        options->address = words[optind];
        options->device = options->address != NULL ? words[optind + 1] : NULL;
    } else if (options->mode == TEXT) {
        options->steps = words[optind];
    } else {
        options->device = words[optind];
    }
}

/* Refuses options that other modes have. */
static void check_mode(const struct options *options) {
    bool is_summed = options->mode == DROPS || options->mode == SERVE || options->mode == TOP;
    if (options->mode == SERVE && options->address == NULL)
        fail("an address is missing, such as :9464; --help", "");
    if (options->mode == TEXT && options->steps == NULL)
        fail("a file of steps is missing; --help", "");
    if ((options->mode == RECORD || options->mode == DROPS) && (options->device != NULL) == options->is_all)
        fail("a device, or --all, is missing; --help", "");
    if (is_summed && (options->is_compact || options->rotate != 0 || options->has_trigger || options->has_clock || options->part != 1 ||
                      options->resume_every != RESUME_EVERY))
        fail("--compact, --rotate, --trigger, --rate-estimator, --every and --resume-every are for a recording of all steps", "");
    if ((options->mode == SERVE || options->mode == TOP) && (options->output != NULL || options->duration != 0))
        fail("--output and --duration are for a recording", "");
    if (!is_summed && (options->is_every_namespace || options->has_no_addresses))
        fail("--namespaces and --no-addresses need --drops, serve or top", "");
    if (options->labels != NULL && options->mode != SERVE && options->mode != TOP)
        fail("--labels needs serve or top", "");
    if (options->most != SERVE_MOST && options->mode != SERVE)
        fail("--most needs serve", "");
}

/* Sums the queues in the kernel: --drops, serve and top. Returns the status. */
static int sum(const struct options *options) {
    struct totals_options totals = {.device = options->device,
                                    .handle = options->handle,
                                    .ring = options->ring != 0 ? options->ring : SUMS_RING,
                                    .has_events = options->mode != SERVE,
                                    .has_addresses = !options->has_no_addresses,
                                    .is_every_namespace = options->is_every_namespace,
                                    .is_anyway = options->is_anyway,
                                    .is_verbose = options->is_verbose};
    if (options->mode == SERVE)
        return serve(&totals, &(struct serve_options){.address = options->address, .labels = options->labels, .most = options->most}, &is_ended);
    if (options->mode == TOP)
        return top(&totals, options->labels, &is_ended);
    return drops_record(&totals, options->output, options->duration, options->is_forced, &is_ended);
}

/* Checks the names of all files before any is opened. */
static bool are_files_usable(const struct options *options) {
    char name[PATH_MAX];
    if (options->segments != 0 && options->rotate == 0)
        fail("--segments needs --rotate", "");
    if (options->rotate == 0)
        return check_files(PROGRAM, (struct file_name[]){{options->steps, FILE_READ}, {options->output, FILE_WRITTEN}}, 2, options->is_forced);
    if (options->output == NULL || strcmp(options->output, "-") == 0 || options->mode == TEXT)
        fail("--rotate needs -o FILE, for a recording", "");
    if (strlen(options->output) + 32 > sizeof name)
        fail("the name is too long: ", options->output);
    if (!options->is_forced && segments_there(options->output, name))
        fail(name, ": the file exists; --force replaces it");
    snprintf(name, sizeof name, "%s.1", options->output);
    return check_files(PROGRAM, &(struct file_name){name, FILE_WRITTEN}, 1, options->is_forced);
}

int main(int count, char **words) {
    struct options options;
    struct watch_checked checked;
    read_options(&options, count, words);
    check_mode(&options);
    if (!are_files_usable(&options))
        return 1;
    if (options.mode == TEXT)
        return write_text(&options);
    if (options.device != NULL && !options.is_every_namespace && if_nametoindex(options.device) == 0)
        fail("there is no such device in this network namespace: ", options.device);
    signal(SIGINT, end);
    signal(SIGTERM, end);
    signal(SIGHUP, end);
    signal(SIGPIPE, SIG_IGN);
    if (options.mode != RECORD)
        return sum(&options);
    watch_is_verbose = options.is_verbose;
    libbpf_set_print(watch_note);
    if (options.ring == 0)
        options.ring = ring_for(options.device);
    if (!watch_can_record() || !watch_wait_for_module(&is_ended))
        return 1;
    if (!watch_check(&checked, options.is_anyway))
        return 1;
    return record(&options, &checked);
}
