#define _GNU_SOURCE
#include "watch_totals.h"

#include "watch_check.h"
#include "watch_load.h"
#include "watch_sums.skel.h"

#include <bpf/bpf.h>
#include <dirent.h>
#include <errno.h>
#include <fcntl.h>
#include <linux/netlink.h>
#include <linux/rtnetlink.h>
#include <sched.h>
#include <stdlib.h>
#include <string.h>
#include <sys/socket.h>
#include <sys/stat.h>
#include <time.h>
#include <unistd.h>

#define PROGRAM "pie-watch"
#define MOST_NAMESPACES 4096
#define AGAIN 3 /* readings, if queues are removed meanwhile */

struct totals {
    const struct totals_options *options;
    struct watch_sums_bpf *bpf;
    struct bpf_link *reader;
    struct ring_buffer *ring;
    bool has_fq_pie;
    void (*take)(void *user, const struct sums_event *event);
    void *user;
};

static u64 nanoseconds(void) {
    struct timespec time;
    clock_gettime(CLOCK_MONOTONIC, &time);
    return (u64)time.tv_sec * 1000000000u + (u64)time.tv_nsec;
}

static void fail(const char *what) {
    fprintf(stderr, PROGRAM ": %s: %s\n", what, strerror(errno));
    exit(1);
}

/* ---- queues that exist */

/* Lets the kernel dump the queues of this network namespace: a program at the function that dumps a queue finds it. */
static void dump_queues(void) {
    struct {
        struct nlmsghdr head;
        struct tcmsg body;
        struct rtattr invisible;
    } request = {.head = {.nlmsg_len = sizeof request, .nlmsg_type = RTM_GETQDISC, .nlmsg_flags = NLM_F_REQUEST | NLM_F_DUMP},
                 .invisible = {.rta_len = RTA_LENGTH(0), .rta_type = TCA_DUMP_INVISIBLE}};
    static char answer[1 << 16];
    int channel = socket(AF_NETLINK, SOCK_RAW | SOCK_CLOEXEC, NETLINK_ROUTE);
    bool is_done = channel < 0 || send(channel, &request, sizeof request, 0) < 0;
    while (!is_done) {
        ssize_t length = recv(channel, answer, sizeof answer, 0);
        const struct nlmsghdr *head = (const struct nlmsghdr *)answer;
        is_done = length <= 0;
        for (size_t rest = length > 0 ? (size_t)length : 0; NLMSG_OK(head, rest); head = NLMSG_NEXT(head, rest))
            is_done |= head->nlmsg_type == NLMSG_DONE || head->nlmsg_type == NLMSG_ERROR;
    }
    if (channel >= 0)
        close(channel);
}

/* Dumps the queues of the namespace of a file, unless that was done. */
static void dump_namespace(const char *path, ino_t *seen, size_t *count) {
    struct stat found;
    int space = open(path, O_RDONLY | O_CLOEXEC);
    bool is_seen = space < 0 || fstat(space, &found) != 0 || *count == MOST_NAMESPACES;
    for (size_t i = 0; i < *count && !is_seen; i++)
        is_seen = seen[i] == found.st_ino;
    if (!is_seen) {
        seen[(*count)++] = found.st_ino;
        if (setns(space, CLONE_NEWNET) == 0)
            dump_queues();
    }
    if (space >= 0)
        close(space);
}

/* Finds the queues of each namespace that a process or `ip netns` keeps. */
static void find_everywhere(void) {
    static const struct {
        const char *folder, *file;
    } places[] = {{"/run/netns", ""}, {"/proc", "/ns/net"}};
    static ino_t seen[MOST_NAMESPACES];
    size_t count = 0;
    int own = open("/proc/self/ns/net", O_RDONLY | O_CLOEXEC);
    for (size_t i = 0; i < sizeof places / sizeof *places && own >= 0; i++) {
        struct dirent *entry;
        DIR *folder = opendir(places[i].folder);
        while (folder != NULL && (entry = readdir(folder)) != NULL) {
            char path[512];
            snprintf(path, sizeof path, "%s/%s%s", places[i].folder, entry->d_name, places[i].file);
            if (entry->d_name[0] != '.')
                dump_namespace(path, seen, &count);
        }
        if (folder != NULL)
            closedir(folder);
    }
    if (own < 0 || setns(own, CLONE_NEWNET) != 0)
        fail("/proc/self/ns/net");
    close(own);
}

static void find_queues(const struct totals_options *options) {
    if (options->is_every_namespace)
        find_everywhere();
    else
        dump_queues();
}

/* ---- programs */

static bool is_of_fq_pie(const struct bpf_program *program) {
    return strncmp(bpf_program__name(program), "fq_pie", 6) == 0;
}

static bool is_of_events(const struct bpf_program *program) {
    return strstr(bpf_program__name(program), "_arrival") != NULL;
}

/* Opens the programs, of which those are loaded that `is_first` and `has_fq_pie` ask for. */
static struct watch_sums_bpf *open_programs(const struct totals_options *options, bool is_first, bool has_fq_pie) {
    LIBBPF_OPTS(bpf_object_open_opts, opened, .kernel_log_level = options->is_verbose ? VERIFIER_COUNTS : 0);
    struct watch_sums_bpf *bpf = watch_sums_bpf__open_opts(&opened);
    struct bpf_program *program;
    struct stat namespace;
    if (bpf == NULL)
        fail("the BPF programs cannot be read");
    if (stat("/proc/self/ns/net", &namespace) != 0)
        fail("/proc/self/ns/net");
    if (options->device != NULL)
        snprintf((char *)bpf->rodata->wanted_device, sizeof bpf->rodata->wanted_device, "%s", options->device);
    bpf->rodata->wanted_handle = options->handle;
    bpf->rodata->wanted_netns = options->is_every_namespace ? 0 : (u32)namespace.st_ino;
    bpf->rodata->has_addresses = options->has_addresses;
    bpf_map__set_max_entries(bpf->maps.events, options->ring << 20);
    bpf_object__for_each_program(program, bpf->obj)
        bpf_program__set_autoload(program, (is_of_fq_pie(program) ? has_fq_pie : is_first) && (options->has_events || !is_of_events(program)));
    return bpf;
}

static void attach_programs(struct watch_sums_bpf *bpf) {
    struct bpf_program *program;
    bpf_object__for_each_program(program, bpf->obj) {
        if (bpf_program__autoload(program) && program != bpf->progs.sums_read && bpf_program__attach(program) == NULL)
            fail(bpf_program__section_name(program));
    }
}

static void load_programs(struct watch_sums_bpf *bpf) {
    if (watch_sums_bpf__load(bpf) != 0) {
        fprintf(stderr, PROGRAM ": the kernel refuses the BPF programs: %s (%s)\n", strerror(errno), watch_last_warning);
        exit(1);
    }
}

static int take_item(void *user, void *item, size_t bytes) {
    struct totals *totals = user;
    if (bytes >= SUMS_PACKET)
        totals->take(totals->user, item);
    return 0;
}

struct totals *totals_open(const struct totals_options *options, const volatile sig_atomic_t *is_ended) {
    struct totals *totals = calloc(1, sizeof *totals);
    struct watch_checked checked;
    union bpf_iter_link_info map = {0};
    LIBBPF_OPTS(bpf_iter_attach_opts, attached, .link_info = &map, .link_info_len = sizeof map);
    watch_is_verbose = options->is_verbose;
    libbpf_set_print(watch_note);
    if (totals == NULL)
        fail("memory");
    if (!watch_can_record())
        exit(1);
    if (!watch_wait_for_module(is_ended))
        return NULL;
    if (!watch_check(&checked, options->is_anyway))
        exit(1);
    totals->options = options;
    totals->has_fq_pie = checked.has_fq_pie;
    totals->bpf = open_programs(options, true, checked.has_fq_pie);
    load_programs(totals->bpf);
    map.map.map_fd = (u32)bpf_map__fd(totals->bpf->maps.sums);
    totals->reader = bpf_program__attach_iter(totals->bpf->progs.sums_read, &attached);
    if (totals->reader == NULL)
        fail("the sums cannot be read");
    attach_programs(totals->bpf);
    totals->ring = ring_buffer__new(bpf_map__fd(totals->bpf->maps.events), take_item, totals, NULL);
    if (totals->ring == NULL)
        fail("the ring buffer cannot be mapped");
    totals->bpf->bss->is_on = true;
    find_queues(options);
    return totals;
}

bool totals_later(struct totals *totals) {
    struct watch_sums_bpf *first = totals->bpf, *later;
    struct watch_checked checked;
    if (totals->has_fq_pie || !watch_is_loaded("sch_fq_pie"))
        return totals->has_fq_pie;
    totals->has_fq_pie = true;
    if (!watch_check(&checked, totals->options->is_anyway)) {
        fprintf(stderr, PROGRAM ": the module sch_fq_pie was loaded, but its queues are not read\n");
        return true;
    }
    later = open_programs(totals->options, false, true);
    bpf_map__reuse_fd(later->maps.sums, bpf_map__fd(first->maps.sums));
    bpf_map__reuse_fd(later->maps.events, bpf_map__fd(first->maps.events));
    bpf_map__reuse_fd(later->maps.bss, bpf_map__fd(first->maps.bss));
    load_programs(later);
    attach_programs(later);
    find_queues(totals->options);
    fprintf(stderr, PROGRAM ": the module sch_fq_pie was loaded; its queues are read\n");
    return true;
}

void totals_stop(struct totals *totals) {
    totals->bpf->bss->is_on = false;
}

void totals_close(struct totals *totals) {
    totals_stop(totals);
    ring_buffer__free(totals->ring);
    bpf_link__destroy(totals->reader);
    watch_sums_bpf__destroy(totals->bpf);
    free(totals);
}

/* ---- readings */

static int compare_numbers(const void *one, const void *other) {
    u32 a = ((const struct sums_queue *)one)->number, b = ((const struct sums_queue *)other)->number;
    return (a > b) - (a < b);
}

static void add_counts(struct sums_counts *to, const struct sums_counts *from) {
    to->arrived += from->arrived;
    to->early += from->early;
    to->over += from->over;
    to->marked += from->marked;
    to->departed += from->departed;
    to->departed_bytes += from->departed_bytes;
    to->waited += from->waited;
}

/* Reads the rows. */
static bool read_rows(struct totals *totals, struct snapshot *snapshot) {
    int file = bpf_iter_create(bpf_link__fd(totals->reader));
    size_t bytes = 0, room = snapshot->room * sizeof *snapshot->rows;
    ssize_t got;
    if (file < 0)
        return false;
    for (;;) {
        if (room - bytes < 1 << 16) {
            struct sums_queue *rows = realloc(snapshot->rows, room + (1 << 16) + room / 2);
            if (rows == NULL) {
                close(file);
                return false;
            }
            snapshot->rows = rows;
            room += (1 << 16) + room / 2;
        }
        got = read(file, (char *)snapshot->rows + bytes, room - bytes);
        if (got < 0 && errno == EAGAIN)
            continue;
        if (got <= 0)
            break;
        bytes += (size_t)got;
    }
    close(file);
    snapshot->room = room / sizeof *snapshot->rows;
    snapshot->count = bytes / sizeof *snapshot->rows;
    return got == 0;
}

bool totals_read(struct totals *totals, struct snapshot *snapshot) {
    const struct watch_sums_bpf__bss *bss = totals->bpf->bss;
    u32 gone = 0;
    for (int i = 0; i < AGAIN; i++) {
        gone = *(volatile const u32 *)&bss->gone_number;
        snapshot->ns = nanoseconds();
        snapshot->all = bss->gone;
        memcpy(snapshot->waits, bss->gone_waits, sizeof snapshot->waits);
        snapshot->lost = bss->lost_elsewhere;
        if (!read_rows(totals, snapshot))
            return false;
        if (gone == *(volatile const u32 *)&bss->gone_number)
            break;
    }
    totals->bpf->bss->slice++;
    qsort(snapshot->rows, snapshot->count, sizeof *snapshot->rows, compare_numbers);
    size_t count = 0; /* (the kernel repeats a queue if others are removed meanwhile) */
    for (size_t i = 0; i < snapshot->count; i++) {
        if (count == 0 || snapshot->rows[i].number != snapshot->rows[count - 1].number)
            snapshot->rows[count++] = snapshot->rows[i];
    }
    snapshot->count = count;
    snapshot->removed = gone;
    snapshot->missed = bss->queues_missed;
    for (size_t i = 0; i < count; i++) {
        add_counts(&snapshot->all, &snapshot->rows[i].counts);
        snapshot->lost += snapshot->rows[i].lost;
        for (size_t j = 0; j < SUMS_WAITS; j++)
            snapshot->waits[j] += snapshot->rows[i].waits[j];
    }
    snapshot->took = nanoseconds() - snapshot->ns;
    return true;
}

void snapshot_free(struct snapshot *snapshot) {
    free(snapshot->rows);
    *snapshot = (struct snapshot){0};
}

int totals_events(struct totals *totals, void take(void *user, const struct sums_event *event), void *user) {
    totals->take = take;
    totals->user = user;
    return ring_buffer__consume(totals->ring);
}
