/* Compares the stage with DPDK's rte_pie, behind the same lock and ring.
 *
 * usage: stage_measure [EAL options] -- slow FOLDER
 *   A link of 20 Mbit/s at 1.2 times its load, for 80 simulated seconds: the mean wait of the last 60
 *   seconds in ms, and the dropped packets. The stage writes its whole history to FOLDER, in a segment
 *   slow-N.history for each 10 seconds. The status is 1 if the stage's mean wait is not within 10 per
 *   cent of the target, 15 ms, if the history is not complete, or if an mbuf is lost.
 * usage: stage_measure [EAL options] --vdev=net_null0 --vdev=net_null1 -- rate [SECONDS [RUNS [FILE]]]
 *   Packets per second from one null port to another in bursts of 32, in turn: forwarding alone, by
 *   rte_pie, by rte_pie with events and with sums in C (peer.h), by the stage without marks, by the stage, by the stage with the flight recorder, by a link
 *   in place of that stage (linked.h), by the stage with records of intervals of 10 ms, and by the stage
 *   with its whole history. FILE receives the events of the flight recorder after its last run. The last
 *   lcore writes the history, or the records, to /dev/null. If one other lcore is available, it receives,
 *   enqueues, dequeues and sends, and 512 packets are always queued. If there are several, the main lcore
 *   dequeues and sends, and the others receive and enqueue. Prints lines `name value unit` for
 *   bench/pie_dpdk.sh; `lost` is the share of the recorded stage's events that its history lacks.
 * usage: stage_measure [EAL options] -- count rte_pie|kept|added|dropping|stage|flight|summed [PERCENT]
 *   Enqueues 1000 bursts of 32 packets, and dequeues each, in a function `counted`, for
 *   bench/pie_dpdk_count.sh. With PERCENT, the probability is this one, no burst allowance is left, and 256 packets are
 *   always queued. Prints the number of packets that arrived, and of those that were dropped.
 * usage: stage_measure [EAL options] -- check
 *   Compares the events and sums of rte_pie (peer.h) with those of the stage, after the same bursts.
 *   The status is 1 if they differ. */
#include "linked.h"
#include "peer.h"
#include "stage_state.h"

#include <inttypes.h>
#include <rte_cycles.h>
#include <rte_eal.h>
#include <rte_errno.h>
#include <rte_ethdev.h>
#include <rte_launch.h>
#include <rte_lcore.h>
#include <rte_pause.h>
#include <stdbool.h>
#include <stdio.h>
#include <stdlib.h>
#include <string.h>

#define MBUFS 16383u
#define BURST 32
#define EVENTS (1u << 17) /* the most events that may be pending for the history */
#define EVERY 10000000    /* length of an interval in ns */
#define STANDING 512
#define ROOM 1024u

#define LEAST_EVENTS (PIE_STAGE_FLIGHT + 2 * (PIE_STAGE_FLIGHT / 8 + 1) + 2 * (BURST - 1)) /* as in the stage's flight recorder */

static struct rte_mempool *pool;
static uint64_t least_memory[LEAST_EVENTS * PIE_FLIGHT_EVENT] __rte_cache_aligned;

static void die(const char *what) {
    fprintf(stderr, "stage_measure: %s: %s\n", what, rte_strerror(rte_errno));
    exit(1);
}

enum which { ALONE, PEER, KEPT, ADDED, LINK, DROPPING, STAGE, LAST, SUMMED, RECORDED };
static const char *const names[] = {"alone", "rte_pie", "kept", "added", "link", "dropping", "stage", "flight", "summed", "recorded"};

static struct peer peer;
static struct linked linked;
static struct pie_stage *stage;

static bool is_peer(enum which which) {
    return which == PEER || which == KEPT || which == ADDED;
}

static uint32_t enqueue(enum which which, struct rte_mbuf **mbufs, uint32_t count, uint64_t now) {
    switch (which) {
    case PEER: return peer_enqueue(&peer, mbufs, count, now);
    case KEPT: return peer_enqueue_as(&peer, mbufs, count, now, PEER_KEPT);
    case ADDED: return peer_enqueue_as(&peer, mbufs, count, now, PEER_SUMMED);
    case LINK: return linked_enqueue(&linked, mbufs, count, now);
    default: return pie_stage_enqueue(stage, mbufs, count, now);
    }
}

static uint32_t dequeue(enum which which, struct rte_mbuf **mbufs, uint32_t count, uint64_t now) {
    switch (which) {
    case PEER: return peer_dequeue(&peer, mbufs, count, now);
    case KEPT: return peer_dequeue_as(&peer, mbufs, count, now, PEER_KEPT);
    case ADDED: return peer_dequeue_as(&peer, mbufs, count, now, PEER_SUMMED);
    case LINK: return linked_dequeue(&linked, mbufs, count, now);
    default: return pie_stage_dequeue(stage, mbufs, count, now);
    }
}

static void expect_all_back(void) {
    if (rte_mempool_avail_count(pool) != MBUFS) {
        fprintf(stderr, "stage_measure: %u mbufs are missing\n", MBUFS - rte_mempool_avail_count(pool));
        exit(1);
    }
}

static unsigned char text[65536];

/* Writes the pending part of the history. Returns true if there was any. */
static bool write_history(FILE *file) {
    size_t size = pie_stage_history(stage, text, sizeof text);
    if (fwrite(text, 1, size, file) != size)
        die("the history");
    return size != 0;
}

/* Writes the record of the next complete interval. Returns true if there was one. */
static bool write_record(FILE *file) {
    size_t size = pie_stage_record(stage, false, text, sizeof text);
    if (fwrite(text, 1, size, file) != size)
        die("the records");
    return size != 0;
}

/* Generates sizes and gaps from a seed, so that all queues receive the same load. */
static uint64_t next_random(uint64_t *state) {
    *state ^= *state << 13;
    *state ^= *state >> 7;
    *state ^= *state << 17;
    return *state;
}

static FILE *open_segment(const char *folder, int segment) {
    char path[4096];
    snprintf(path, sizeof path, "%s/slow-%d.history", folder, segment);
    FILE *file = fopen(path, "w");
    if (file == NULL)
        die("the history");
    return file;
}

/* Ends the segment of the history and begins the next. */
static FILE *next_segment(FILE *history, const char *folder, int segment) {
    if (!pie_stage_history_cut(stage))
        die("a segment");
    while (write_history(history))
        continue;
    if (fclose(history) != 0)
        die("the history");
    return open_segment(folder, segment);
}

/* Returns the mean wait in milliseconds. `folder` receives the stage's history. */
static double run_slow(enum which which, const char *folder) {
    uint64_t hz = rte_get_tsc_hz(), start = rte_rdtsc(), seed = 88172645463325252u, dropped = 0, departed = 0, waited = 0;
    double arrival = 0, is_free = 0;
    const double byte = (double)hz * 8 / 20e6, warm = 20.0 * (double)hz;
    bool is_warm = false;
    struct pie_stage_stats stats = {0};
    FILE *history = which == STAGE ? open_segment(folder, 0) : NULL;
    int segment = 0;
    while (arrival < 80.0 * (double)hz) {
        struct rte_mbuf *mbuf = rte_pktmbuf_alloc(pool), *left;
        if (mbuf == NULL)
            die("memory");
        uint16_t size = (uint16_t)(64 + next_random(&seed) % 1437);
        memset(rte_pktmbuf_append(mbuf, size), 0, 34);
        arrival += 782.0 * byte / 1.2 * 2 * (double)(next_random(&seed) % 4096) / 4096;
        // the link takes a packet whenever it is free
        while (is_free <= arrival) {
            uint64_t now = start + (uint64_t)is_free;
            if ((which == PEER ? peer_dequeue(&peer, &left, 1, now) : pie_stage_dequeue(stage, &left, 1, now)) == 0) {
                is_free = arrival + 1;
                break;
            }
            is_free += byte * rte_pktmbuf_pkt_len(left);
            rte_pktmbuf_free(left);
        }
        if (!is_warm && arrival > warm) {
            is_warm = true;
            if (which == STAGE)
                pie_stage_read(stage, &stats);
            departed = which == PEER ? peer.departed : stats.departed;
            waited = which == PEER ? peer.waited : stats.waited;
            dropped = which == PEER ? peer.dropped : stats.early + stats.bytes + stats.full;
        }
        uint64_t now = start + (uint64_t)arrival;
        which == PEER ? peer_enqueue(&peer, &mbuf, 1, now) : pie_stage_enqueue(stage, &mbuf, 1, now);
        if (which == STAGE)
            write_history(history);
        if (which == STAGE && arrival > 10.0 * (segment + 1) * (double)hz)
            history = next_segment(history, folder, ++segment);
    }
    if (which == STAGE) {
        pie_stage_read(stage, &stats);
        while (write_history(history))
            continue;
        if (fclose(history) != 0)
            die("the history");
    }
    departed = (which == PEER ? peer.departed : stats.departed) - departed;
    waited = (which == PEER ? peer.waited : stats.waited) - waited;
    dropped = (which == PEER ? peer.dropped : stats.early + stats.bytes + stats.full) - dropped;
    double nanoseconds = (double)waited / (double)departed * (which == PEER ? 1e9 / (double)hz : 1);
    printf("%s: mean wait %.2f ms, %" PRIu64 " departed, %" PRIu64 " dropped; %" PRIu64 " dropped early in all\n", names[which],
           nanoseconds / 1e6, departed, dropped, which == PEER ? peer.early : stats.early);
    return nanoseconds / 1e6;
}

static int measure_slow(const char *folder) {
    struct pie_stage_params params;
    struct pie_stage_stats stats;
    pie_stage_default_params(&params, 20000000);
    params.opening.choices = PIE_USUAL; /* by the departure rate, as rte_pie */
    params.opening.packets = ROOM;
    params.events = EVENTS;
    if (!peer_open(&peer, (uint32_t)(params.opening.params.limit_bytes / 782)))
        die("rte_pie");
    run_slow(PEER, NULL);
    peer_close(&peer);
    expect_all_back();
    stage = pie_stage_create("stage", &params, SOCKET_ID_ANY);
    if (stage == NULL)
        die("stage");
    double wait = run_slow(STAGE, folder);
    pie_stage_read(stage, &stats);
    pie_stage_free(stage);
    expect_all_back();
    if (stats.lost != 0) {
        fprintf(stderr, "stage_measure: the history is not whole\n");
        return 1;
    }
    if (wait < 13.5 || wait > 16.5) {
        fprintf(stderr, "stage_measure: the mean wait of the stage is not within 10 per cent of 15 ms\n");
        return 1;
    }
    return 0;
}

/* Writes a frame of IPv4 to each mbuf: the null port sends its mbufs unchanged. */
static void fill(struct rte_mempool *from, void *opaque, void *object, unsigned int index) {
    static const uint8_t frame[34] = {[12] = 8, [14] = 0x45, [15] = PIE_ECT0, [17] = 50, [22] = 64, [23] = 17};
    struct rte_mbuf *mbuf = object;
    (void)from, (void)opaque, (void)index;
    memcpy((uint8_t *)mbuf->buf_addr + RTE_PKTMBUF_HEADROOM, frame, sizeof frame);
}

static void open_port(uint16_t port, uint16_t queues) {
    struct rte_eth_conf conf = {0};
    if (rte_eth_dev_configure(port, queues, queues, &conf) != 0)
        die("port");
    for (uint16_t i = 0; i < queues; i++)
        if (rte_eth_rx_queue_setup(port, i, 512, SOCKET_ID_ANY, NULL, pool) != 0 || rte_eth_tx_queue_setup(port, i, 512, SOCKET_ID_ANY, NULL) != 0)
            die("queue of the port");
    if (rte_eth_dev_start(port) != 0)
        die("start of the port");
}

static int is_over;
static enum which measured;

static void send_all(struct rte_mbuf **mbufs, uint32_t count) {
    uint32_t sent = rte_eth_tx_burst(1, 0, mbufs, (uint16_t)count);
    rte_pktmbuf_free_bulk(mbufs + sent, count - sent);
}

/* Returns the number of lcores that forward: all except the one that writes the history. */
static uint32_t forwarders(void) {
    return rte_lcore_count() - 1;
}

static int work(void *argument) {
    uint32_t number = (uint32_t)rte_lcore_index((int)rte_lcore_id());
    struct rte_mbuf *mbufs[BURST];
    FILE *nowhere = argument;
    while (!__atomic_load_n(&is_over, __ATOMIC_RELAXED)) {
        if (number == forwarders()) {
            if ((measured != RECORDED || !write_history(nowhere)) && (measured != SUMMED || !write_record(nowhere)))
                rte_pause();
            continue;
        }
        uint32_t count = rte_eth_rx_burst(0, (uint16_t)number, mbufs, BURST);
        if (measured == ALONE) {
            count -= rte_eth_tx_burst(1, (uint16_t)number, mbufs, (uint16_t)count);
            rte_pktmbuf_free_bulk(mbufs, count);
        } else {
            enqueue(measured, mbufs, count, rte_rdtsc());
        }
    }
    return 0;
}

/* Receives, enqueues, dequeues and sends on one lcore. */
static uint64_t forward_alone(uint64_t end) {
    struct rte_mbuf *mbufs[BURST];
    uint64_t packets = 0;
    for (int i = 0; measured != ALONE && i < STANDING / BURST; i++)
        enqueue(measured, mbufs, rte_eth_rx_burst(0, 0, mbufs, BURST), rte_rdtsc());
    while (rte_rdtsc() < end)
        for (int i = 0; i < 64; i++) {
            uint32_t count = rte_eth_rx_burst(0, 0, mbufs, BURST);
            if (measured != ALONE) {
                enqueue(measured, mbufs, count, rte_rdtsc());
                count = dequeue(measured, mbufs, BURST, rte_rdtsc());
            }
            packets += count;
            send_all(mbufs, count);
        }
    return packets;
}

/* Dequeues and sends on the main lcore; the others receive and enqueue. */
static uint64_t forward_by_all(uint64_t end) {
    struct rte_mbuf *mbufs[BURST];
    struct rte_eth_stats before, after;
    rte_eth_stats_get(1, &before);
    while (rte_rdtsc() < end)
        if (measured != ALONE)
            send_all(mbufs, dequeue(measured, mbufs, BURST, rte_rdtsc()));
    rte_eth_stats_get(1, &after);
    return after.opackets - before.opackets;
}

/* Prints the lost share of the history in per cent. */
static void tell_lost(void) {
    struct pie_stage_stats stats;
    pie_stage_read(stage, &stats);
    uint64_t events = stats.queued + stats.early + stats.bytes + stats.full + stats.departed + stats.updates;
    printf("lost %.2f per_cent\n", 100 * (double)stats.lost / (double)events);
}

static int write_to(void *user, const unsigned char *bytes, size_t count) {
    return fwrite(bytes, 1, count, user) == count ? 0 : 1;
}

/* Writes the contents of the flight recorder. */
static void write_flight(const char *path) {
    FILE *file = fopen(path, "w");
    if (file == NULL || pie_stage_flight(stage, write_to, file) != PIE_FLIGHT_DONE || fclose(file) != 0)
        die("the text of the flight recorder");
}

static void open_queue(enum which which) {
    struct pie_stage_params params;
    pie_stage_default_params(&params, UINT64_C(10000000000));
    params.opening.choices = PIE_USUAL; /* by the departure rate, as rte_pie */
    params.opening.packets = ROOM;
    params.ecn = which != DROPPING;
    params.flight = which == LAST ? PIE_STAGE_FLIGHT : 0;
    params.events = which == RECORDED ? EVENTS : 0;
    params.every = which == SUMMED ? EVERY : 0;
    uint64_t factor = (uint64_t)(((unsigned __int128)1000000000u << SHIFT) / rte_get_tsc_hz());
    if (is_peer(which) && !(peer_open(&peer, ROOM) && peer_open_records(&peer, least_memory, RTE_DIM(least_memory), rte_rdtsc(), factor, EVERY)))
        die("rte_pie");
    if (which == LINK && !linked_open(&linked, &params.opening))
        die("the link");
    if (which > LINK && (stage = pie_stage_create("stage", &params, SOCKET_ID_ANY)) == NULL)
        die("stage");
}

static void close_queue(enum which which) {
    if (is_peer(which))
        peer_close(&peer);
    if (which == LINK)
        linked_close(&linked);
    if (which > LINK)
        pie_stage_free(stage);
    expect_all_back();
}

static double run_rate(enum which which, double seconds, FILE *nowhere, const char *flight) {
    uint64_t hz = rte_get_tsc_hz();
    open_queue(which);
    measured = which;
    __atomic_store_n(&is_over, 0, __ATOMIC_SEQ_CST);
    rte_eal_mp_remote_launch(work, nowhere, SKIP_MAIN);
    uint64_t start = rte_rdtsc(), end = start + (uint64_t)(seconds * (double)hz);
    uint64_t packets = forwarders() == 1 ? forward_alone(end) : forward_by_all(end);
    double took = (double)(rte_rdtsc() - start) / (double)hz;
    __atomic_store_n(&is_over, 1, __ATOMIC_SEQ_CST);
    rte_eal_mp_wait_lcore();
    if (which == RECORDED)
        tell_lost();
    if (which == LAST && flight != NULL)
        write_flight(flight);
    close_queue(which);
    return (double)packets / took;
}

static int measure_rate(double seconds, int runs, const char *flight) {
    uint16_t queues = (uint16_t)rte_lcore_count();
    FILE *nowhere = fopen("/dev/null", "w");
    if (rte_eth_dev_count_avail() < 2 || queues < 2 || nowhere == NULL)
        die("two ports and two lcores are needed: --vdev=net_null0 --vdev=net_null1 --lcores (0-1)@(0-3)");
    rte_mempool_obj_iter(pool, fill, NULL);
    open_port(0, queues);
    open_port(1, queues);
    for (int run = 0; run < runs; run++)
        for (enum which which = ALONE; which <= RECORDED; which++)
            printf("%s %.0f packets/s\n", names[which], run_rate(which, seconds, nowhere, flight));
    fclose(nowhere);
    for (uint16_t port = 0; port < 2; port++) {
        rte_eth_dev_stop(port);
        rte_eth_dev_close(port);
    }
    expect_all_back();
    return 0;
}

/* Enqueues a burst at a given TSC, and dequeues as many packets as were queued. */
__attribute__((noinline)) static uint32_t counted(enum which which, struct rte_mbuf **mbufs, uint64_t now) {
    return dequeue(which, mbufs, enqueue(which, mbufs, BURST, now), now);
}

/* Sets the probability of a queue whose delay is at the target, and which has no burst allowance left. */
static void set_probability(enum which which, double share) {
    if (is_peer(which)) {
        peer.pie.drop_prob = share;
        peer.pie.burst_allowance = 0;
        peer.pie.qdelay_old = (uint64_t)peer.config.qdelay_ref;
    } else {
        stage->pie.prob = (uint64_t)(share * 1e12);
        stage->pie.burst = 0;
        stage->pie.old_delay = stage->pie.params.target;
    }
}

/* Makes 1000 bursts of one kind, one each 10 us from a TSC on, while `standing` bursts are queued, at a probability if it is not 0. Returns the number
 * of packets that departed. No update is due meanwhile. */
static uint64_t make_bursts(enum which which, uint64_t now, int standing, double share) {
    struct rte_mbuf *mbufs[BURST];
    uint64_t packets = 0;
    rte_mempool_obj_iter(pool, fill, NULL);
    for (int i = -standing; i < 1000; i++, now += rte_get_tsc_hz() / 100000) {
        if (rte_pktmbuf_alloc_bulk(pool, mbufs, BURST) != 0)
            die("mbufs");
        for (int k = 0; k < BURST; k++)
            mbufs[k]->pkt_len = mbufs[k]->data_len = 64;
        if (i < 0) {
            enqueue(which, mbufs, BURST, now);
            continue;
        }
        if (share > 0)
            set_probability(which, share);
        uint32_t count = counted(which, mbufs, now);
        rte_pktmbuf_free_bulk(mbufs, count);
        packets += count;
    }
    for (; standing > 0; standing--)
        rte_pktmbuf_free_bulk(mbufs, dequeue(which, mbufs, BURST, now));
    return packets;
}

/* Counts the packets of one kind at a probability. The status is 1 if one was dropped at 0. */
static int count_calls(const char *name, double share) {
    enum which which = PEER;
    while (which < SUMMED && strcmp(names[which], name) != 0)
        which++;
    open_queue(which);
    uint64_t dropped = 1000 * BURST - make_bursts(which, rte_rdtsc(), share > 0 ? 8 : 0, share);
    printf("%d packets, %" PRIu64 " dropped\n", 1000 * BURST, dropped);
    close_queue(which);
    return share == 0 && dropped != 0;
}

/* Returns true if the peer's events are the last ones of the stage's flight recorder, and its sums those of the stage's interval. */
static bool same_records(enum which which) {
    unsigned char records[2][PIE_RESUME_ROOM];
    const struct pie_flight *flight = &stage->flight;
    if (which == LAST)
        return flight->count == peer.events.count && flight->event - flight->events == peer.events.event - peer.events.events &&
               flight->events_end - flight->events == peer.events.events_end - peer.events.events &&
               memcmp((const void *)flight->events, peer.events.events, sizeof least_memory) == 0;
    least_finish(&peer.period);
    for (int i = 1; i < 15; i++) // (the library's cause)
        if (stage->periods->current.meter.causes[i] != 0)
            peer.period.meter.causes[i] = peer.period.meter.causes[0], peer.period.meter.causes[0] = 0;
    size_t size = pie_write_period(&stage->periods->current, records[0], sizeof records[0]);
    return size != 0 && size == pie_write_period(&peer.period, records[1], sizeof records[1]) && memcmp(records[0], records[1], size) == 0;
}

/* Compares the records of the peer with those of the stage. The status is 1 if they differ. */
static int check_least(void) {
    static const enum which kinds[2][2] = {{LAST, KEPT}, {SUMMED, ADDED}};
    int status = 0;
    for (int i = 0; i < 2; i++) {
        open_queue(kinds[i][0]);
        open_queue(kinds[i][1]);
        peer_open_records(&peer, least_memory, RTE_DIM(least_memory), stage->start, stage->factor, 1000000000);
        if (i == 1)
            pie_open_period(&stage->periods->current, 1000000000, 0);
        uint64_t now = rte_rdtsc();
        bool is_same = make_bursts(kinds[i][0], now, 2, 0) == make_bursts(kinds[i][1], now, 2, 0) && same_records(kinds[i][0]);
        printf("%s: the records are %s\n", names[kinds[i][1]], is_same ? "the stage's" : "others");
        status |= !is_same;
        close_queue(kinds[i][0]);
        close_queue(kinds[i][1]);
    }
    return status;
}

int main(int count, char **words) {
    int read = rte_eal_init(count, words);
    if (read < 0)
        die("EAL");
    setvbuf(stdout, NULL, _IOLBF, 0);
    count -= read, words += read;
    pool = rte_pktmbuf_pool_create("pool", MBUFS, 256, 0, RTE_MBUF_DEFAULT_BUF_SIZE, SOCKET_ID_ANY);
    if (pool == NULL)
        die("pool");
    int status = 2;
    if (count == 3 && strcmp(words[1], "slow") == 0)
        status = measure_slow(words[2]);
    else if (count >= 2 && count <= 5 && strcmp(words[1], "rate") == 0)
        status = measure_rate(count > 2 ? atof(words[2]) : 1, count > 3 ? atoi(words[3]) : 5, count > 4 ? words[4] : NULL);
    else if ((count == 3 || count == 4) && strcmp(words[1], "count") == 0)
        status = count_calls(words[2], count == 4 ? atof(words[3]) / 100 : 0);
    else if (count == 2 && strcmp(words[1], "check") == 0)
        status = check_least();
    else
        fprintf(stderr, "usage: stage_measure [EAL options] -- slow FOLDER | rate [SECONDS [RUNS [FILE]]] | count KIND [PERCENT] | check\n");
    rte_eal_cleanup();
    return status;
}
