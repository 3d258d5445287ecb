/* Requests by rtnetlink to queues of pie_recorded, for sanitized.sh, which runs this program in a booted kernel:
 *
 *     requests fail DEVICE               adds, changes, prints and deletes a queue; each time one later allocation of the
 *                                        request fails, until none is left
 *     requests fuzz DEVICE COUNT SEED    sends COUNT requests with random attributes: types, lengths, values and flags
 *     requests remove DEVICE COUNT       adds and deletes a queue COUNT times, whose timer runs every 100 us; the record of each
 *                                        must have its events in the order of time, and as many resets as the others
 *     requests map FILE                  maps a record to write, which must be refused
 *
 * It prints how many requests were accepted and refused. The kernel must survive; a record must not be there afterwards. */
#include "pie_flight.h"

#include <dirent.h>
#include <errno.h>
#include <fcntl.h>
#include <linux/pkt_sched.h>
#include <linux/rtnetlink.h>
#include <net/if.h>
#include <stdint.h>
#include <stdio.h>
#include <stdlib.h>
#include <string.h>
#include <sys/mman.h>
#include <sys/socket.h>
#include <unistd.h>

#define KIND "pie_recorded"
#define OPTIONS_MAX 20

struct request {
    struct nlmsghdr head;
    struct tcmsg queue;
    unsigned char attributes[2048];
};

static int device, kernel;
static uint64_t state;

static uint32_t chance(uint32_t below) {
    state = state * 6364136223846793005u + 1442695040888963407u;
    return (uint32_t)(state >> 33) % below;
}

/* Begins a request for the root queue of the device. */
static void begin(struct request *it, int type, int flags) {
    memset(it, 0, sizeof *it);
    it->head.nlmsg_len = NLMSG_LENGTH(sizeof it->queue);
    it->head.nlmsg_type = type;
    it->head.nlmsg_flags = NLM_F_REQUEST | NLM_F_ACK | flags;
    it->queue.tcm_family = AF_UNSPEC;
    it->queue.tcm_ifindex = device;
    it->queue.tcm_parent = TC_H_ROOT;
    it->queue.tcm_handle = 0x20000;
}

/* Adds an attribute whose header may have another length than its data. */
static struct rtattr *add(struct request *it, unsigned type, const void *data, unsigned bytes, int length) {
    struct rtattr *at = (struct rtattr *)((char *)it + NLMSG_ALIGN(it->head.nlmsg_len));
    at->rta_type = type;
    at->rta_len = (unsigned short)(length < 0 ? (int)RTA_LENGTH(bytes) : length);
    if (bytes != 0)
        memcpy(RTA_DATA(at), data, bytes);
    it->head.nlmsg_len = NLMSG_ALIGN(it->head.nlmsg_len) + RTA_ALIGN(RTA_LENGTH(bytes));
    return at;
}

/* Sends a request and reads its answers. Returns the error of the last, or 0. */
static int ask(struct request *it) {
    static char answer[65536];
    struct nlmsghdr *at = (struct nlmsghdr *)answer;
    for (;;) {
        ssize_t bytes;
        if (send(kernel, it, it->head.nlmsg_len, 0) < 0)
            return errno;
        for (;;) {
            bytes = recv(kernel, answer, sizeof answer, 0);
            if (bytes < 0)
                return errno;
            for (at = (struct nlmsghdr *)answer; NLMSG_OK(at, bytes); at = NLMSG_NEXT(at, bytes))
                if (at->nlmsg_type == NLMSG_ERROR)
                    return -((struct nlmsgerr *)NLMSG_DATA(at))->error;
        }
    }
}

/* Sends a request whose N-th allocation fails. Returns its error. `is_hit` is true if it made that many allocations. */
static int ask_failing(struct request *it, int n, int *is_hit) {
    char text[16] = "";
    int file = open("/proc/thread-self/fail-nth", O_RDWR), error;
    struct timeval second = {1, 0};
    if (file < 0) {
        perror("/proc/thread-self/fail-nth");
        exit(1);
    }
    snprintf(text, sizeof text, "%d", n);
    setsockopt(kernel, SOL_SOCKET, SO_RCVTIMEO, &second, sizeof second);
    if (write(file, text, strlen(text)) < 0) {
        perror("fail-nth");
        exit(1);
    }
    error = ask(it);
    memset(text, 0, sizeof text);
    if (pread(file, text, sizeof text - 1, 0) < 0)
        perror("fail-nth");
    if (write(file, "0", 1) < 0)
        perror("fail-nth");
    close(file);
    *is_hit = atoi(text) == 0;
    return error;
}

static void options(struct request *it, uint32_t target, uint32_t events) {
    struct rtattr *nest;
    uint32_t one = 1;
    add(it, TCA_KIND, KIND, sizeof KIND, -1);
    nest = add(it, TCA_OPTIONS, NULL, 0, -1);
    add(it, TCA_PIE_TARGET, &target, 4, -1);
    add(it, TCA_PIE_ECN, &one, 4, -1);
    if (events != 0)
        add(it, 19, &events, 4, -1);
    nest->rta_len = (unsigned short)((char *)it + it->head.nlmsg_len - (char *)nest);
}

static void remove_queue(void) {
    struct request it;
    begin(&it, RTM_DELQDISC, 0);
    ask(&it);
}

/* Lets each allocation of each request fail once. */
static void fail_each(void) {
    static const char *const names[] = {"add", "change", "print", "delete"};
    static const int types[] = {RTM_NEWQDISC, RTM_NEWQDISC, RTM_GETQDISC, RTM_DELQDISC};
    int what, n, is_hit, error;
    for (what = 0; what < 4; what++) {
        int failed = 0, passed = 0;
        for (n = 1; n < 2000; n++) {
            struct request it;
            remove_queue();
            if (what != 0) {
                begin(&it, RTM_NEWQDISC, NLM_F_CREATE | NLM_F_REPLACE);
                options(&it, 15000, 1000);
                ask(&it);
            }
            begin(&it, types[what], what == 0 ? NLM_F_CREATE | NLM_F_EXCL : 0);
            if (what < 2)
                options(&it, 5000, 1000);
            error = ask_failing(&it, n, &is_hit);
            if (!is_hit)
                break;
            error != 0 ? failed++ : passed++;
        }
        printf("TOLD fail %s: %d allocations failed one at a time, %d requests refused, %d done without it\n", names[what], n - 1, failed, passed);
    }
    remove_queue();
}

/* Adds random options. */
static void random_options(struct request *it) {
    static const uint32_t numbers[] = {0,       1,        100,      1000,       15000,      65535,     65536,
                                       1 << 20, 1048577,  10000000, 10000001,   1000000000, 0x7fffffff, 0xffffffff};
    struct rtattr *nest = add(it, chance(20) != 0 ? TCA_OPTIONS : chance(12), NULL, 0, -1);
    unsigned count = chance(8);
    while (count-- != 0) {
        unsigned char data[64];
        unsigned type = chance(10) != 0 ? 1 + chance(OPTIONS_MAX) : chance(65536);
        unsigned bytes = chance(8) != 0 ? 4 : chance(sizeof data), i;
        uint32_t number = numbers[chance(sizeof numbers / sizeof *numbers)];
        if (chance(3) == 0)
            number = chance(2) != 0 ? chance(100000) : (uint32_t)(state >> 32);
        if (type == 19 && chance(4) != 0)
            number = chance(3000);
        for (i = 0; i < sizeof data; i++)
            data[i] = (unsigned char)chance(256);
        memcpy(data, &number, 4);
        add(it, type | (chance(20) == 0 ? NLA_F_NESTED : 0), data, bytes, chance(20) != 0 ? -1 : (int)chance(80));
    }
    nest->rta_len = chance(30) != 0 ? (unsigned short)((char *)it + it->head.nlmsg_len - (char *)nest) : (unsigned short)chance(200);
}

static void fuzz(unsigned count) {
    unsigned accepted = 0, refused = 0, number;
    struct timeval second = {1, 0};
    setsockopt(kernel, SOL_SOCKET, SO_RCVTIMEO, &second, sizeof second);
    for (number = 0; number < count; number++) {
        struct request it;
        int is_change = chance(2) == 0;
        int type = chance(30) != 0 ? RTM_NEWQDISC : chance(2) != 0 ? RTM_DELQDISC : RTM_GETQDISC;
        begin(&it, type, is_change ? 0 : NLM_F_CREATE | NLM_F_REPLACE);
        if (chance(40) == 0)
            it.queue.tcm_handle = chance(65536) << 16;
        add(&it, TCA_KIND, KIND, sizeof KIND, -1);
        if (chance(20) != 0)
            random_options(&it);
        ask(&it) == 0 ? accepted++ : refused++;
    }
    remove_queue();
    printf("TOLD fuzz: %u requests accepted, %u refused\n", accepted, refused);
}

/* Maps the only record, which stays in memory when its queue is gone. */
static PIE_WORD *map_only_record(size_t bytes) {
    static const char folder[] = "/proc/net/pie_recorded";
    DIR *records = opendir(folder);
    struct dirent *it;
    char path[512] = "";
    void *at;
    int file;
    while (records != NULL && (it = readdir(records)) != NULL)
        if (it->d_name[0] != '.')
            snprintf(path, sizeof path, "%s/%.250s", folder, it->d_name);
    if (records != NULL)
        closedir(records);
    file = open(path, O_RDONLY);
    at = mmap(NULL, bytes, PROT_READ, MAP_SHARED, file, 0);
    close(file);
    return at != MAP_FAILED ? (PIE_WORD *)at : NULL;
}

/* Returns the number of resets in a record. Returns 0 if an event has an earlier moment than the one before it or a
 * wrong caller, and -1 if the first events were overwritten, because the guest paused for long. */
static int resets_in_order(PIE_WORD *words, size_t bytes, unsigned long *updates) {
    static const uint64_t callers[] = {[PIE_EVENT_ARRIVE] = 1, [PIE_EVENT_DEPART] = 2, [PIE_EVENT_UPDATE] = 3, [PIE_EVENT_RESET] = 4};
    struct pie_flight_layout layout;
    struct pie_event event;
    struct pie_params params;
    uint64_t kept = PIE_LOAD(words[PIE_FLIGHT_KEPT]), number, latest = 0;
    int resets = 0;
    if (!pie_flight_layout_in(&layout, words, bytes))
        return 0;
    if (kept > layout.events)
        return -1;
    for (number = 0; number < kept; number++) {
        uint64_t it[PIE_FLIGHT_EVENT], kind;
        pie_flight_load_event(it, words, &layout, number);
        pie_flight_read(&event, &params, it);
        kind = event.kind;
        if (event.moment < latest || kind >= sizeof callers / sizeof *callers ||
            (event.caller != callers[kind] && !(kind == PIE_EVENT_DEPART && event.caller == 4)))
            return 0;
        latest = event.moment;
        resets += kind == PIE_EVENT_RESET;
        *updates += kind == PIE_EVENT_UPDATE;
    }
    return resets;
}

/* Deletes queues whose timer may run at the same time. */
static void remove_each(unsigned count) {
    enum { EVENTS = 5000 };
    const size_t bytes = (pie_flight_bytes(EVENTS, 1000) + 4095) / 4096 * 4096;
    unsigned number, wrong = 0;
    unsigned long updates = 0;
    int wanted = 0, found; /* two resets: when the device stops, and before the queue is destroyed */
    for (number = 0; number < count; number++) {
        uint32_t period = 100, events = EVENTS;
        struct rtattr *nest;
        struct request it;
        PIE_WORD *words;
        begin(&it, RTM_NEWQDISC, NLM_F_CREATE | NLM_F_EXCL);
        add(&it, TCA_KIND, KIND, sizeof KIND, -1);
        nest = add(&it, TCA_OPTIONS, NULL, 0, -1);
        add(&it, TCA_PIE_TUPDATE, &period, 4, -1);
        add(&it, 19, &events, 4, -1);
        nest->rta_len = (unsigned short)((char *)&it + it.head.nlmsg_len - (char *)nest);
        if (ask(&it) != 0 || (words = map_only_record(bytes)) == NULL) {
            wrong++;
            remove_queue();
            continue;
        }
        remove_queue();
        found = resets_in_order(words, bytes, &updates);
        if (wanted <= 0)
            wanted = found;
        wrong += found == 0 || (found > 0 && found != wanted);
        munmap((void *)words, bytes);
    }
    printf("%s remove: %u queues with %lu updates and %d resets each, %u records out of order\n", wrong != 0 ? "FAILED" : "TOLD", count, updates, wanted, wrong);
}

/* Returns 0 if a record can be mapped for reading only: a mapping for writing or execution, also a later change to it,
 * fails. */
static int map_record(const char *path) {
    int file = open(path, O_RDWR), is_refused;
    void *at;
    if (file < 0)
        return 1;
    is_refused = mmap(NULL, 4096, PROT_READ | PROT_WRITE, MAP_SHARED, file, 0) == MAP_FAILED;
    is_refused &= mmap(NULL, 4096, PROT_READ | PROT_EXEC, MAP_SHARED, file, 0) == MAP_FAILED;
    is_refused &= mmap(NULL, 1u << 30, PROT_READ, MAP_SHARED, file, 0) == MAP_FAILED;
    at = mmap(NULL, 4096, PROT_READ, MAP_SHARED, file, 0);
    is_refused &= at != MAP_FAILED && mprotect(at, 4096, PROT_READ | PROT_WRITE) != 0 && mprotect(at, 4096, PROT_READ | PROT_EXEC) != 0;
    printf("TOLD map: %s\n", is_refused ? "read-only" : "FAILED");
    return !is_refused;
}

int main(int words, char **word) {
    struct sockaddr_nl to = {.nl_family = AF_NETLINK};
    if (words == 3 && strcmp(word[1], "map") == 0)
        return map_record(word[2]);
    if (words < 3 || (device = (int)if_nametoindex(word[2])) == 0)
        return 2;
    kernel = socket(AF_NETLINK, SOCK_RAW | SOCK_CLOEXEC, NETLINK_ROUTE);
    if (kernel < 0 || bind(kernel, (struct sockaddr *)&to, sizeof to) != 0)
        return 1;
    state = words > 4 ? strtoull(word[4], NULL, 10) : 1;
    if (strcmp(word[1], "fail") == 0)
        fail_each();
    else if (strcmp(word[1], "remove") == 0)
        remove_each(words > 3 ? (unsigned)strtoul(word[3], NULL, 10) : 100);
    else
        fuzz(words > 3 ? (unsigned)strtoul(word[3], NULL, 10) : 1000);
    fflush(stdout);
    return 0;
}
