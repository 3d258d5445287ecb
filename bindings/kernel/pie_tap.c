/* pie-tap: reads the records of the queue discipline pie_recorded (bindings/kernel/README.md). Each record is the memory of a flight recorder
 * (pie_flight.h), a file below /proc/net/pie_recorded that this program maps read-only. `pie-tap --help` has the commands. */
#include "pie_follow.h"

#include "pie_recorded.h"

#include <arpa/inet.h>
#include <dirent.h>
#include <errno.h>
#include <fcntl.h>
#include <net/if.h>
#include <signal.h>
#include <stdio.h>
#include <stdlib.h>
#include <sys/mman.h>
#include <sys/stat.h>
#include <time.h>
#include <unistd.h>

#ifndef FOLDER /* a test has one of its own */
#define FOLDER "/proc/net/pie_recorded"
#endif
#define CLOCK_STEP UINT64_C(1000000) /* ns; a smaller change of the wall-clock time is not written */

static const char usage[] =
    "Reads the records of queues of pie_recorded\n"
    "\n"
    "Usage: pie-tap list\n"
    "       pie-tap dump [--flows FILE] QUEUE\n"
    "       pie-tap follow [--flows FILE] QUEUE\n"
    "       pie-tap record QUEUE [EVERY]\n"
    "\n"
    "  list     Print the records of this network namespace: number, device, handle, parent, events so far, file\n"
    "  dump     Write the last events as an excerpt that `pie audit` and `pie explain` read\n"
    "  follow   Write a history from the last snapshot on, of a new queue from its opening on, until the queue is removed or a signal\n"
    "           ends it. If events were overwritten before they were read, a line `lost,N` has their number, and an excerpt follows\n"
    "  record   Decide each event again, and write a CSV record for each period of EVERY (1s), as `pie explain --every EVERY --csv\n"
    "           --wall` does. Standard error names an event that was decided differently, and the status is 2\n"
    "\n"
    "  --flows  Write to FILE, as CSV, the addresses of each flow when its first packet was seen: the upper half of a tag is the flow. A flow\n"
    "           may be missing if there are many. pie-report --flows reads FILE\n"
    "\n"
    "QUEUE is the number of a record (tc -s qdisc show prints it), a device that has one record, or a file.\n";

/* A mapped record. */
struct tap {
    const char *path;
    int file;
    void *memory;
    size_t bytes;
    void *scratch; /* memory for a copy */
};

/* A file name in the folder of records. */
struct entry {
    unsigned index, handle[2], parent[2], serial;
    char path[sizeof FOLDER + 256];
};

static volatile sig_atomic_t is_ended;

static void end(int number) {
    (void)number;
    is_ended = 1;
}

static void fail(const char *what, const char *about) {
    fprintf(stderr, "pie-tap: %s%s\n", what, about);
    exit(1);
}

/* Reads the next entry of the folder; returns 0 at its end. */
static int next_entry(DIR *folder, struct entry *entry) {
    struct dirent *it;
    while ((it = readdir(folder)) != NULL) {
        if (sscanf(it->d_name, "%u-%x:%x-%x:%x-%u", &entry->index, &entry->handle[0], &entry->handle[1], &entry->parent[0], &entry->parent[1],
                   &entry->serial) == 6) {
            snprintf(entry->path, sizeof entry->path, FOLDER "/%.200s", it->d_name);
            return 1;
        }
    }
    return 0;
}

static DIR *open_folder(void) {
    DIR *folder = opendir(FOLDER);
    if (folder == NULL)
        fail("the module sch_pie_recorded is not loaded: no folder ", FOLDER);
    return folder;
}

/* Returns the file of a queue, by its number or its device. */
static const char *find(const char *queue) {
    static struct entry found;
    struct entry entry;
    unsigned count = 0, index = if_nametoindex(queue);
    char *rest;
    unsigned long serial = strtoul(queue, &rest, 10);
    DIR *folder;
    if (strchr(queue, '/') != NULL)
        return queue;
    folder = open_folder();
    while (next_entry(folder, &entry)) {
        if (index != 0 ? entry.index == index : *rest == 0 && entry.serial == serial) {
            found = entry;
            count++;
        }
    }
    closedir(folder);
    if (count == 0)
        fail("no queue of pie_recorded has a record here: ", queue);
    if (count > 1)
        fail("there are several records; choose a number of `pie-tap list` for ", queue);
    return found.path;
}

/* Maps a record. Returns 0 if its queue is gone: the file was removed, or a removed file is open. */
static int map_if_there(struct tap *tap, const char *path) {
    struct stat about;
    tap->file = open(path, O_RDONLY | O_CLOEXEC);
    if (tap->file < 0 && errno == ENOENT)
        return 0;
    if (tap->file < 0 || fstat(tap->file, &about) != 0)
        fail(errno == EACCES ? "only root reads a record: " : "the record cannot be opened: ", path);
    tap->path = path;
    tap->bytes = (size_t)about.st_size;
    tap->memory = mmap(NULL, tap->bytes, PROT_READ, MAP_SHARED, tap->file, 0);
    if (tap->memory == MAP_FAILED && lseek(tap->file, 0, SEEK_CUR) != 0) {
        close(tap->file);
        return 0;
    }
    if (tap->memory == MAP_FAILED)
        fail("the record cannot be mapped: ", path);
    return 1;
}

static void map(struct tap *tap, const char *path) {
    if (!map_if_there(tap, path))
        fail("the record cannot be opened: ", path);
    if ((tap->scratch = aligned_alloc(64, (tap->bytes + 63) / 64 * 64)) == NULL)
        fail("out of memory for a copy of ", path);
}

static void list(void) {
    struct entry entry;
    char name[IF_NAMESIZE];
    DIR *folder = open_folder();
    printf("%-7s %-15s %-9s %-9s %12s  %s\n", "record", "device", "handle", "parent", "events", "file");
    while (next_entry(folder, &entry)) {
        struct tap tap;
        char handle[16] = "-", parent[16] = "root";
        if (!map_if_there(&tap, entry.path))
            continue; /* the queue was removed after its entry was read */
        if (entry.handle[0] != 0)
            snprintf(handle, sizeof handle, "%x:", entry.handle[0]);
        if (entry.parent[0] != 0xffff || entry.parent[1] != 0xffff)
            snprintf(parent, sizeof parent, "%x:%x", entry.parent[0], entry.parent[1]);
        printf("%-7u %-15s %-9s %-9s %12llu  %s\n", entry.serial, if_indextoname(entry.index, name) != NULL ? name : "-", handle, parent,
               (unsigned long long)PIE_LOAD(((PIE_WORD *)tap.memory)[PIE_FLIGHT_KEPT]), entry.path);
        munmap(tap.memory, tap.bytes);
        close(tap.file);
    }
    closedir(folder);
}

/* ---- flows */

/* The flows of a record. */
struct flows {
    FILE *out; /* NULL if no flows are requested */
    const struct pie_recorded_flow *places;
    uint64_t seen[PIE_RECORDED_FLOWS]; /* for each place, the moment of the flow that was read last */
};

static void open_flows(struct flows *flows, const struct tap *tap, const char *file) {
    struct pie_flight_layout layout;
    size_t page = (size_t)sysconf(_SC_PAGESIZE), at;
    if (file == NULL)
        return;
    if (!pie_flight_layout_in(&layout, tap->memory, tap->bytes))
        fail("this is no record: ", tap->path);
    at = (layout.words * 8 + page - 1) / page * page;
    if (tap->bytes < at + PIE_RECORDED_FLOWS * sizeof *flows->places)
        fail("the module that wrote this record keeps no flows: ", tap->path);
    flows->places = (const struct pie_recorded_flow *)((const char *)tap->memory + at);
    if ((flows->out = fopen(file, "wx")) == NULL)
        fail("a new file cannot be written: ", file);
    fprintf(flows->out, "flow,protocol,source,source_port,destination,destination_port\n");
}

static void write_flow(FILE *out, const struct pie_recorded_flow *flow) {
    static const struct {
        int number;
        const char *name;
        int has_ports;
    } protocols[] = {{1, "icmp", 0}, {6, "tcp", 1},        {17, "udp", 1},   {33, "33", 1},
                     {50, "esp", 0}, {58, "ipv6-icmp", 0}, {132, "sctp", 1}, {136, "136", 1}};
    int family = flow->family == 4 ? AF_INET : AF_INET6, has_ports = 0;
    char source[INET6_ADDRSTRLEN], destination[INET6_ADDRSTRLEN], protocol[16];
    size_t i;
    snprintf(protocol, sizeof protocol, "%d", flow->protocol);
    for (i = 0; i < sizeof protocols / sizeof *protocols; i++) {
        if (protocols[i].number == flow->protocol) {
            snprintf(protocol, sizeof protocol, "%s", protocols[i].name);
            has_ports = protocols[i].has_ports && (flow->ports[0] != 0 || flow->ports[1] != 0);
        }
    }
    inet_ntop(family, flow->source, source, sizeof source);
    inet_ntop(family, flow->destination, destination, sizeof destination);
    if (has_ports)
        fprintf(out, "0x%08x,%s,%s,%d,%s,%d\n", flow->flow, protocol, source, ntohs(flow->ports[0]), destination, ntohs(flow->ports[1]));
    else
        fprintf(out, "0x%08x,%s,%s,,%s,\n", flow->flow, protocol, source, destination);
}

/* Writes the flows that were written to the record since the last call. */
static void write_flows(struct flows *flows) {
    size_t i;
    if (flows->out == NULL)
        return;
    for (i = 0; i < PIE_RECORDED_FLOWS; i++) {
        const struct pie_recorded_flow *from = &flows->places[i];
        struct pie_recorded_flow flow;
        uint32_t number = __atomic_load_n(&from->flow, __ATOMIC_ACQUIRE);
        if (number == 0 || from->moment == flows->seen[i])
            continue;
        memcpy(&flow, from, sizeof flow);
        __atomic_thread_fence(__ATOMIC_ACQUIRE);
        if (flow.flow != number || __atomic_load_n(&from->flow, __ATOMIC_RELAXED) != number)
            continue; /* the place is being written: the next call reads it */
        flows->seen[i] = flow.moment;
        if (flow.family != 0)
            write_flow(flows->out, &flow);
    }
    if (fflush(flows->out) != 0)
        fail("the file of flows cannot be written", "");
}

static int write_out(void *user, const unsigned char *bytes, size_t count) {
    (void)user;
    return fwrite(bytes, 1, count, stdout) != count;
}

static void flush(void) {
    if (fflush(stdout) != 0 || ferror(stdout))
        fail("the output cannot be written", "");
}

/* Returns true if a copy without a snapshot is tried again: events were kept during the copy. In a file that does not change, no snapshot is
 * complete. */
static int is_tried_again(const struct tap *tap, uint64_t *kept) {
    uint64_t before = *kept;
    *kept = PIE_LOAD(((PIE_WORD *)tap->memory)[PIE_FLIGHT_KEPT]);
    return !is_ended && *kept != before;
}

static int dump(struct tap *tap, struct flows *flows) {
    uint64_t kept = PIE_UNKNOWN;
    int answer;
    do
        answer = pie_flight_dump(tap->memory, tap->bytes, tap->scratch, write_out, NULL);
    while (answer == PIE_FLIGHT_GONE && is_tried_again(tap, &kept));
    if (answer == PIE_FLIGHT_GONE)
        fail("no snapshot could be copied: ", tap->path);
    if (answer == PIE_FLIGHT_NONE)
        fail("this is no record: ", tap->path);
    if (answer == PIE_FLIGHT_BROKEN)
        fail("a record contains an event that cannot be: ", tap->path);
    flush();
    write_flows(flows);
    return 0;
}

/* Waits for events; returns 0 when the queue is gone or a signal came. After a file of /proc was removed, lseek fails, although a later file may have
 * its name. */
static int pause_for(const struct tap *tap, unsigned *turns) {
    struct timespec five = {0, 5000000};
    nanosleep(&five, NULL);
    return !is_ended && (++*turns % 50 != 0 || lseek(tap->file, 0, SEEK_CUR) == 0);
}

/* Copies the memory. Returns the latest snapshot in the copy. */
static PIE_WORD *latest(struct tap *tap, const struct pie_flight_layout *layout) {
    PIE_WORD *snapshot, *later;
    uint64_t begun, kept = PIE_UNKNOWN;
    do {
        begun = pie_flight_copy((PIE_WORD *)tap->scratch, (PIE_WORD *)tap->memory, layout, NULL, NULL);
        snapshot = pie_flight_oldest((PIE_WORD *)tap->scratch, layout, begun, 0);
    } while (snapshot == NULL && is_tried_again(tap, &kept));
    if (snapshot == NULL)
        fail("no snapshot could be copied: ", tap->path);
    while ((later = pie_flight_oldest((PIE_WORD *)tap->scratch, layout, begun, PIE_LOAD(snapshot[PIE_FLIGHT_COUNT]) + 1)) != NULL)
        snapshot = later;
    return snapshot;
}

/* Writes the wall-clock time again if the clock was set. */
static void follow_clock(const struct tap *tap, uint64_t *last_written) {
    uint64_t now = PIE_LOAD(((PIE_WORD *)tap->memory)[PIE_FLIGHT_CLOCK]);
    unsigned char out[PIE_RECORD_ROOM];
    if (now - *last_written + CLOCK_STEP > 2 * CLOCK_STEP) {
        fwrite(out, 1, pie_write_clock(0, now, out, sizeof out), stdout);
        *last_written = now;
    }
}

static int follow(struct tap *tap, struct flows *flows) {
    static struct pie_flight_follower follower;
    struct pie_flight_text text;
    PIE_WORD *snapshot;
    uint64_t last_written;
    unsigned turns = 0;
    int goes_on = 1, answer;
    if (!pie_flight_follow_open(&follower, tap->memory, tap->bytes))
        fail("this is no record: ", tap->path);
    snapshot = latest(tap, &follower.layout);
    last_written = PIE_LOAD(((PIE_WORD *)tap->scratch)[PIE_FLIGHT_CLOCK]);
    follower.next = PIE_LOAD(snapshot[PIE_FLIGHT_COUNT]);
    if (follower.next != 0) { /* otherwise the text begins with the opening */
        pie_flight_text_to(&text, write_out, NULL);
        pie_flight_text_begin(&text, (PIE_WORD *)tap->scratch, &follower.layout, snapshot);
        pie_flight_flush(&text);
        follower.is_begun = 1;
    }
    for (;;) {
        answer = pie_flight_follow_text(&follower, tap->scratch, write_out, NULL);
        if (answer == PIE_FLIGHT_BROKEN)
            fail("a record contains an event that cannot be: ", tap->path);
        flush();
        write_flows(flows);
        if (!goes_on)
            return 0;
        follow_clock(tap, &last_written);
        goes_on = pause_for(tap, &turns);
    }
}

/* ---- interval records: each event is decided again */

/* A queued packet. */
struct waiting {
    uint64_t tag, since;
    uint32_t size;
};

/* A controller that decides the events of a record again. */
struct again {
    struct pie_state state;
    struct pie_period period;
    struct waiting *queue; /* a ring of `room` places */
    uint64_t room, head, packets, bytes;
    int differs;
};

static int push(void *user, const struct pie_event *packet, uint64_t since) {
    struct again *it = user;
    struct waiting *to = &it->queue[(it->head + it->packets++) % it->room];
    to->tag = packet->tag;
    to->since = since;
    to->size = packet->size;
    return 0;
}

/* Begins at a snapshot of the copy, with its state and its queued packets. */
static void again_begin(struct again *it, struct tap *tap, const struct pie_flight_layout *layout, PIE_WORD *snapshot, uint64_t every) {
    PIE_WORD *words = (PIE_WORD *)tap->scratch;
    pie_flight_load(&it->state, snapshot + PIE_FLIGHT_STATE, sizeof it->state / 8);
    it->room = layout->packets;
    if (it->queue == NULL && (it->queue = malloc(it->room * sizeof *it->queue)) == NULL)
        fail("out of memory for the packets of ", tap->path);
    it->head = it->packets = 0;
    it->bytes = PIE_LOAD(snapshot[PIE_FLIGHT_BYTES]);
    pie_flight_visit_queue(words, layout, snapshot, push, it);
    pie_open_period(&it->period, every, 1);
    pie_period_clock(&it->period, 0, PIE_LOAD(words[PIE_FLIGHT_CLOCK]));
}

/* Decides an event again. */
static void again_step(struct again *it, struct pie_event *event, const struct pie_params *params) {
    struct waiting *oldest = &it->queue[it->head % it->room];
    switch (event->kind) {
    case PIE_EVENT_ARRIVE:
        if (pie_arrive_summed(&it->state, it->bytes, (uint32_t)(it->room - it->packets), event, &it->period) <= PIE_MARK) {
            push(it, event, it->state.moment);
            it->bytes += event->size;
        }
        break;
    case PIE_EVENT_DEPART:
        if (it->packets == 0 || oldest->tag != event->tag || oldest->size != event->size) {
            it->differs = 1;
            break;
        }
        it->head++;
        it->packets--;
        it->bytes -= event->size;
        pie_depart_summed(&it->state, it->bytes, oldest->since, event, &it->period);
        break;
    case PIE_EVENT_UPDATE:
        pie_update_summed(&it->state, it->bytes, event, &it->period);
        break;
    case PIE_EVENT_RESET:
        pie_reset_summed(&it->state, event, &it->period);
        break;
    default:
        pie_set_params_summed(&it->state, params, event, &it->period);
    }
}

/* Writes the record of the interval that a step ended, and compares the decision with the recorded one. */
static void record_event(struct again *it, const struct pie_event *event, const struct pie_params *params, uint64_t number) {
    unsigned char out[PIE_RESUME_ROOM];
    struct pie_event decided = *event;
    uint64_t begun = it->period.begun;
    size_t size = event->moment >= it->period.end ? pie_write_period(&it->period, out, sizeof out) : 0;
    again_step(it, &decided, params);
    if (it->period.begun != begun)
        fwrite(out, 1, size, stdout);
    if (it->differs || memcmp(&decided, event, sizeof decided) != 0) {
        fprintf(stderr, "pie-tap: event %llu was decided differently\n", (unsigned long long)number);
        it->differs = 1;
    }
}

static int record(struct tap *tap, const char *words) {
    static struct pie_flight_follower follower;
    static struct again it;
    struct pie_event event;
    struct pie_params params;
    PIE_WORD *snapshot;
    unsigned char out[PIE_RESUME_ROOM];
    uint64_t every;
    unsigned turns = 0;
    int goes_on = 1, is_begun = 0;
    if (pie_read_time(words, strlen(words), &every) != PIE_DONE || pie_open_period(&it.period, every, 1) != PIE_DONE)
        fail("EVERY is no time, such as 100ms: ", words);
    if (!pie_flight_follow_open(&follower, tap->memory, tap->bytes))
        fail("this is no record: ", tap->path);
    fwrite(out, 1, pie_write_period_header(&it.period, out, sizeof out), stdout);
    for (;;) {
        if (!is_begun) {
            snapshot = latest(tap, &follower.layout);
            again_begin(&it, tap, &follower.layout, snapshot, every);
            follower.next = PIE_LOAD(snapshot[PIE_FLIGHT_COUNT]);
            follower.at = follower.count = 0;
            is_begun = 1;
        }
        while (!it.differs && pie_flight_follow(&follower, &event, &params)) {
            if (event.kind == PIE_EVENT_LOST) {
                fprintf(stderr, "pie-tap: at least %llu events were overwritten before they were read\n", (unsigned long long)event.tag);
                fwrite(out, 1, pie_write_period(&it.period, out, sizeof out), stdout);
                is_begun = 0;
                break;
            }
            record_event(&it, &event, &params, follower.next);
        }
        if (!goes_on || it.differs)
            break;
        flush();
        goes_on = pause_for(tap, &turns);
    }
    fwrite(out, 1, pie_write_period(&it.period, out, sizeof out), stdout);
    flush();
    return it.differs ? 2 : 0;
}

int main(int count, char **words) {
    static struct flows flows;
    struct tap tap;
    int is_dump, has_flows;
    signal(SIGINT, end);
    signal(SIGTERM, end);
    if (count == 2 && strcmp(words[1], "--help") == 0) {
        fputs(usage, stdout);
        flush();
        return 0;
    }
    if (count == 2 && strcmp(words[1], "list") == 0) {
        list();
        flush();
        return 0;
    }
    if (count > 1 && strcmp(words[1], "record") == 0 && (count == 3 || count == 4)) {
        map(&tap, find(words[2]));
        return record(&tap, count == 4 ? words[3] : "1s");
    }
    is_dump = count > 1 && strcmp(words[1], "dump") == 0;
    has_flows = count == 5 && strcmp(words[2], "--flows") == 0;
    if ((!is_dump && (count < 2 || strcmp(words[1], "follow") != 0)) || (count != 3 && !has_flows)) {
        fputs(usage, stderr);
        return 2;
    }
    map(&tap, find(words[count - 1]));
    open_flows(&flows, &tap, has_flows ? words[3] : NULL);
    return is_dump ? dump(&tap, &flows) : follow(&tap, &flows);
}
