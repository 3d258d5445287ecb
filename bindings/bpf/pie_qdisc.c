/* pie-qdisc: attaches the queue discipline of pie_qdisc.bpf.c to devices, changes, shows and records its queues. */
#include "pie_qdisc.h"

#include <bpf/bpf.h>
#include <errno.h>
#include <net/if.h>
#include <stdio.h>
#include <stdlib.h>
#include <string.h>

#define KIND "bpf_pie"
#define FQ_KIND "bpf_fq_pie"
#define ROOT 0xffffffffu
#define MQ_HANDLE 0x10000u
#define PINS "/sys/fs/bpf/pie_qdisc"
#define RING_BYTES (1u << 22)

static const char usage[] =
    "usage: pie-qdisc attach DEV [mq | parent MAJOR:MINOR] [fq] [option..]\n"
    "       pie-qdisc change DEV [parent MAJOR:MINOR] [option..]\n"
    "       pie-qdisc show [DEV] [--json]\n"
    "       pie-qdisc record DEV [parent MAJOR:MINOR] [-o FILE] [--flow N] [--seconds N] [--ring BYTES]\n"
    "       pie-qdisc detach DEV [parent MAJOR:MINOR]\n"
    "       pie-qdisc verify\n"
    "--pins FOLDER before the command: the folder of the pinned maps, " PINS " by default\n";

/* A command line. */
struct call {
    const char *pins, *device;
    int ifindex;
    uint32_t parent; /* 0: none is named */
    bool is_mq;
    char **words;
    int count;
};

static int wrong(void) {
    fprintf(stderr, "%soptions:%s", usage, options_usage + 8);
    return 2;
}

/* Reads DEV [mq | parent MAJOR:MINOR]. */
static bool read_place(struct call *call) {
    unsigned int major, minor;
    char rest;
    if (!call->count)
        return false;
    call->device = *call->words++;
    call->count--;
    call->ifindex = if_nametoindex(call->device);
    if (!call->ifindex) {
        fprintf(stderr, "pie-qdisc: %s: %s\n", call->device, strerror(errno));
        exit(1);
    }
    if (call->count && !strcmp(*call->words, "mq")) {
        call->is_mq = true;
        call->words++;
        call->count--;
    } else if (call->count > 1 && !strcmp(*call->words, "parent")) {
        if (sscanf(call->words[1], "%x:%x%c", &major, &minor, &rest) != 2 || major > 0xffff || minor > 0xffff)
            return false;
        call->parent = major << 16 | minor;
        call->words += 2;
        call->count -= 2;
    }
    return true;
}

/* Prepares a place, and adds the queue that takes it. Returns 0 or a negative errno. */
static int attach_one(const struct qdisc_maps *maps, const struct call *call, const struct qdisc_config *wanted, uint32_t parent, char *text, unsigned int room) {
    unsigned int number = wanted->flows ? QDISC_FQS : QDISC_QUEUES;
    struct qdisc_config *config;
    uint64_t snapshots;
    int error;
    while (number && maps->queues[number - 1].config.use != QDISC_FREE)
        number--;
    if (!number--)
        return -ENOSPC;
    config = &maps->queues[number].config;
    snapshots = config->snapshots;
    *config = *wanted;
    config->snapshots = snapshots;
    config->netns = this_netns();
    config->ifindex = call->ifindex;
    config->parent = parent;
    /* (of a reader of an earlier queue in this place, which was killed) */
    (void)bpf_map_delete_elem(maps->rings_file, &number);
    __atomic_store_n(&config->use, QDISC_PREPARED, __ATOMIC_SEQ_CST);
    error = link_add(call->ifindex, parent, 0, wanted->flows ? FQ_KIND : KIND, call->is_mq, text, room);
    if (error)
        config->use = QDISC_FREE;
    return error;
}

static int attach(struct call *call) {
    struct qdisc_maps maps;
    struct qdisc_config config;
    char text[256] = "";
    int error = 0;
    uint32_t child = 1;
    bool has_flows = call->count && !strcmp(*call->words, "fq");
    call->words += has_flows;
    call->count -= has_flows;
    options_default(&config, has_flows);
    if (!options_read(&config, call->words, call->count, false) || !maps_open(&maps, call->pins, true))
        return 1;
    if (!call->is_mq) {
        error = attach_one(&maps, call, &config, call->parent ? call->parent : ROOT, text, sizeof text);
    } else {
        error = link_add(call->ifindex, ROOT, MQ_HANDLE, "mq", false, text, sizeof text);
        while (!error && child <= QDISC_QUEUES)
            error = attach_one(&maps, call, &config, MQ_HANDLE | child++, text, sizeof text);
        /* (the device has no further transmit queue) */
        if ((error == -ENOENT || error == -EINVAL) && child > 2)
            error = 0;
    }
    if (error) {
        fprintf(stderr, "pie-qdisc: %s: %s%s%s\n", call->device, strerror(-error), *text ? ": " : "", text);
        maps_unload_unused(&maps);
    }
    return error != 0;
}

static int change(struct call *call) {
    struct qdisc_maps maps;
    unsigned int number;
    if (!maps_open(&maps, call->pins, false))
        return 1;
    number = maps_next(&maps, 0, call->ifindex, call->parent);
    if (number == QDISC_QUEUES) {
        fprintf(stderr, "pie-qdisc: %s has no such queue\n", call->device);
        return 1;
    }
    for (; number < QDISC_QUEUES; number = maps_next(&maps, number + 1, call->ifindex, call->parent)) {
        struct qdisc_config *config = &maps.queues[number].config, wanted = *config;
        if (!options_read(&wanted, call->words, call->count, true))
            return 1;
        config->params = wanted.params;
        config->shaper = wanted.shaper;
        config->quantum = wanted.quantum;
        __atomic_add_fetch(&config->changes, 1, __ATOMIC_SEQ_CST);
    }
    return 0;
}

static void parent_text(uint32_t parent, char *text, size_t room) {
    if (parent == ROOT)
        snprintf(text, room, "root");
    else
        snprintf(text, room, "parent %x:%x", parent >> 16, parent & 0xffff);
}

/* The numbers of the flows of a queue. */
struct flow_counts {
    unsigned int seen, listed; /* flows that received packets, and those with packets, or a moment ago */
    uint64_t over_limit;
};

/* Adds the sums of its flows to a copy of a queue. */
static struct flow_counts sum_flows(const struct qdisc_maps *maps, unsigned int number, struct qdisc_queue *sum) {
    struct flow_counts counts = {0};
    memset(&sum->stats, 0, sizeof sum->stats);
    sum->pie.prob = sum->pie.old_delay = 0;
    counts.over_limit = maps->fqs[number].over_limit;
    for (unsigned int at = 0; at < QDISC_FLOWS; at++) {
        const struct qdisc_flow *flow = &maps->flows[number * QDISC_FLOWS + at];
        if (flow->opened != maps->fqs[number].opened)
            continue;
        counts.seen++;
        counts.listed += flow->is_listed;
        for (unsigned int word = 0; word < sizeof sum->stats / sizeof(uint64_t); word++)
            ((uint64_t *)&sum->stats)[word] += ((const uint64_t *)&flow->queue.stats)[word];
        sum->count += flow->queue.count;
        sum->unread += flow->queue.unread;
        sum->lost += flow->queue.lost;
        sum->refused += flow->queue.refused;
        if (flow->queue.pie.prob > sum->pie.prob)
            sum->pie.prob = flow->queue.pie.prob;
        if (flow->queue.pie.old_delay > sum->pie.old_delay)
            sum->pie.old_delay = flow->queue.pie.old_delay;
    }
    return counts;
}

static void show_text(const struct qdisc_queue *it, const char *device, const struct flow_counts *flows) {
    const struct pie_params *params = flows ? &it->config.params : &it->pie.params;
    const struct pie_stats *stats = &it->stats;
    char parent[32];
    parent_text(it->config.parent, parent, sizeof parent);
    printf("qdisc %s %x: dev %s %s limit %llup", flows ? FQ_KIND : KIND, (unsigned)(it->handle >> 16), device, parent,
           (unsigned long long)it->config.opening.packets);
    if (flows)
        printf(" flows %u quantum %ub", it->config.flows, it->config.quantum);
    printf(" target %lluus tupdate %lluus alpha %llu beta %llu", (unsigned long long)params->target / 1000, (unsigned long long)params->t_update / 1000,
           (unsigned long long)(params->alpha * 16 + 999) / 1000, (unsigned long long)(params->beta * 16 + 999) / 1000);
    if (it->shaper.rate)
        printf(" rate %llubit overhead %lld", (unsigned long long)it->shaper.rate, (long long)it->shaper.overhead);
    printf("\n Sent %llu bytes %llu pkt (dropped %llu, early %llu, over_bytes %llu, over_packets %llu)\n", (unsigned long long)stats->left_bytes,
           (unsigned long long)stats->left,
           (unsigned long long)(stats->early + stats->over_bytes + stats->over_packets + (flows ? flows->over_limit : 0)), (unsigned long long)stats->early,
           (unsigned long long)stats->over_bytes, (unsigned long long)(stats->over_packets + (flows ? flows->over_limit : 0)));
    printf(" backlog %llub %llup\n", (unsigned long long)it->bytes, (unsigned long long)(it->tail - it->head));
    if (flows)
        printf("  flows %u seen %u active; of the greatest flow:\n", flows->seen, flows->listed);
    printf("  prob %.9f delay %lluus events %llu unread %llu lost %llu refused %llu\n", it->pie.prob / 1e12, (unsigned long long)it->pie.old_delay / 1000,
           (unsigned long long)it->count, (unsigned long long)it->unread, (unsigned long long)it->lost, (unsigned long long)it->refused);
}

static void show_json(const struct qdisc_queue *it, const char *device, const struct flow_counts *flows, bool is_first) {
    const struct pie_params *params = flows ? &it->config.params : &it->pie.params;
    const struct pie_stats *stats = &it->stats;
    char parent[32];
    parent_text(it->config.parent, parent, sizeof parent);
    printf("%s{\"kind\":\"%s\",\"handle\":\"%x:\",\"dev\":\"%s\",", is_first ? "" : ",", flows ? FQ_KIND : KIND, (unsigned)(it->handle >> 16), device);
    printf(it->config.parent == ROOT ? "\"root\":true," : "\"parent\":\"%s\",", parent + strlen("parent "));
    printf("\"options\":{\"limit\":%llu,\"limit_bytes\":%llu,\"target\":%llu,\"tupdate\":%llu,\"max_burst\":%llu,\"rate\":%llu,\"overhead\":%lld",
           (unsigned long long)it->config.opening.packets, (unsigned long long)params->limit_bytes, (unsigned long long)params->target,
           (unsigned long long)params->t_update, (unsigned long long)params->max_burst, (unsigned long long)it->shaper.rate, (long long)it->shaper.overhead);
    if (flows)
        printf(",\"flows\":%u,\"quantum\":%u},\"flows\":%u,\"active\":%u,\"over_limit\":%llu,", it->config.flows, it->config.quantum, flows->seen, flows->listed,
               (unsigned long long)flows->over_limit);
    else
        printf("},");
    printf("\"bytes\":%llu,\"packets\":%llu,\"drops\":%llu,\"early\":%llu,\"over_bytes\":%llu,\"over_packets\":%llu,", (unsigned long long)stats->left_bytes,
           (unsigned long long)stats->left, (unsigned long long)(stats->early + stats->over_bytes + stats->over_packets + (flows ? flows->over_limit : 0)),
           (unsigned long long)stats->early, (unsigned long long)stats->over_bytes, (unsigned long long)stats->over_packets);
    printf("\"backlog\":%llu,\"qlen\":%llu,\"prob\":%.12f,\"delay\":%llu,\"events\":%llu,\"unread\":%llu,\"lost\":%llu,\"refused\":%llu}", (unsigned long long)it->bytes,
           (unsigned long long)(it->tail - it->head), it->pie.prob / 1e12, (unsigned long long)it->pie.old_delay, (unsigned long long)it->count,
           (unsigned long long)it->unread, (unsigned long long)it->lost, (unsigned long long)it->refused);
}

static int show(const struct call *call, bool is_json) {
    struct qdisc_maps maps;
    char device[IF_NAMESIZE];
    bool is_first = true;
    if (!maps_open(&maps, call->pins, false))
        return 1;
    if (is_json)
        printf("[");
    for (unsigned int number = maps_next(&maps, 0, call->ifindex, call->parent); number < QDISC_QUEUES;
         number = maps_next(&maps, number + 1, call->ifindex, call->parent)) {
        struct qdisc_queue it = maps.queues[number];
        struct flow_counts counts, *flows = NULL;
        if (it.config.flows) {
            counts = sum_flows(&maps, number, &it);
            flows = &counts;
        }
        if (!if_indextoname(it.config.ifindex, device))
            snprintf(device, sizeof device, "if%u", it.config.ifindex);
        if (is_json)
            show_json(&it, device, flows, is_first);
        else
            show_text(&it, device, flows);
        is_first = false;
    }
    if (is_json)
        printf("]\n");
    return 0;
}

static int record(const struct call *call) {
    struct qdisc_maps maps;
    const char *file = NULL, *flow = NULL;
    unsigned int number, seconds = 0, ring = RING_BYTES;
    unsigned long only = 0;
    char *end = "";
    const struct qdisc_config *config;
    for (int at = 0; at < call->count; at += 2) {
        if (at + 1 == call->count)
            return wrong();
        if (!strcmp(call->words[at], "-o"))
            file = call->words[at + 1];
        else if (!strcmp(call->words[at], "--flow"))
            flow = call->words[at + 1];
        else if (!strcmp(call->words[at], "--seconds"))
            seconds = atoi(call->words[at + 1]);
        else if (!strcmp(call->words[at], "--ring"))
            ring = strtoul(call->words[at + 1], NULL, 10);
        else
            return wrong();
    }
    if (!maps_open(&maps, call->pins, false))
        return 1;
    number = maps_next(&maps, 0, call->ifindex, call->parent);
    if (number == QDISC_QUEUES || maps_next(&maps, number + 1, call->ifindex, call->parent) != QDISC_QUEUES) {
        fprintf(stderr, "pie-qdisc: %s has %s\n", call->device, number == QDISC_QUEUES ? "no such queue" : "several queues: name one by `parent MAJOR:MINOR`");
        return 1;
    }
    config = &maps.queues[number].config;
    if (flow)
        only = strtoul(flow, &end, 10);
    if (flow && (*end || only >= config->flows)) {
        fprintf(stderr, "pie-qdisc: %s has no flow %s\n", call->device, flow);
        return 1;
    }
    if (config->flows && !flow && !file) {
        fprintf(stderr, "pie-qdisc: %s has flows: name a folder for their records by `-o FOLDER`, or one flow by `--flow N`\n", call->device);
        return 1;
    }
    return record_queue(&maps, number, flow ? (int)only : ALL_FLOWS, file, seconds, ring);
}

static int detach(const struct call *call) {
    struct qdisc_maps maps;
    char text[256];
    unsigned int number;
    uint32_t parent;
    int error;
    if (!maps_open(&maps, call->pins, false))
        return 1;
    number = maps_next(&maps, 0, call->ifindex, call->parent);
    if (number == QDISC_QUEUES) {
        fprintf(stderr, "pie-qdisc: %s has no such queue\n", call->device);
        return 1;
    }
    parent = call->parent ? call->parent : ROOT;
    error = link_remove(call->ifindex, parent, text, sizeof text);
    if (error) {
        fprintf(stderr, "pie-qdisc: %s: %s%s%s\n", call->device, strerror(-error), *text ? ": " : "", text);
        return 1;
    }
    maps_unload_unused(&maps);
    return 0;
}

int main(int count, char **words) {
    struct call call = {.pins = PINS, .words = words + 1, .count = count - 1};
    const char *command;
    bool is_json = false;
    if (call.count > 1 && !strcmp(*call.words, "--pins")) {
        call.pins = call.words[1];
        call.words += 2;
        call.count -= 2;
    }
    if (!call.count)
        return wrong();
    command = *call.words++;
    call.count--;
    if (!strcmp(command, "--version"))
        return printf("pie-qdisc " PIE_VERSION "\n") < 0;
    if (!strcmp(command, "verify"))
        return !maps_print_verified();
    if (!strcmp(command, "show")) {
        is_json = call.count && !strcmp(call.words[call.count - 1], "--json");
        call.count -= is_json;
        return call.count && !read_place(&call) ? wrong() : call.count ? wrong() : show(&call, is_json);
    }
    if (!read_place(&call))
        return wrong();
    if (!strcmp(command, "attach"))
        return attach(&call);
    if (!strcmp(command, "change"))
        return change(&call);
    if (!strcmp(command, "record"))
        return record(&call);
    if (!strcmp(command, "detach") && !call.count)
        return detach(&call);
    return wrong();
}
