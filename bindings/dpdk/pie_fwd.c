/* pie-fwd: forwards packets between two ports. Those to port 1 pass a PIE stage and are shaped to a rate.
 * `pie-fwd -- --help` describes the options. */
#include "fwd_files.h"
#include "fwd_options.h"
#include "fwd_queues.h"
#include "fwd_report.h"
#include "metrics.h"
#include "output.h"
#include "pie_stage.h"

#include <errno.h>
#include <inttypes.h>
#include <rte_cycles.h>
#include <rte_eal.h>
#include <rte_errno.h>
#include <rte_ethdev.h>
#include <rte_launch.h>
#include <rte_lcore.h>
#include <rte_mbuf.h>
#include <rte_pause.h>
#include <signal.h>
#include <stdio.h>
#include <string.h>
#include <time.h>

#define BURST 32
#define DESCRIPTORS 512
#define DRAIN 1000 /* polls of a port that is being emptied */

enum { IN, OUT }; /* the numbers of the ports */

static struct {
    struct fwd_options options;
    struct rte_mempool *pool;
    struct fwd_queues queues;
    struct fwd_history histories[FWD_QUEUES];
    struct fwd_records records[FWD_QUEUES];
    struct fwd_flows flows;
    uint16_t receivers; /* number of receiving lcores, and of queues of port 0 */
    uint64_t unsent;    /* packets that a port did not accept */
    int is_stopped;
    int is_asked; /* 1 if a signal requested the flight recorder's text */
} forward;

static void stop(int number) {
    (void)number;
    __atomic_store_n(&forward.is_stopped, 1, __ATOMIC_RELAXED);
}

static void ask(int number) {
    (void)number;
    __atomic_store_n(&forward.is_asked, 1, __ATOMIC_RELAXED);
}

static bool is_stopped(void) {
    return __atomic_load_n(&forward.is_stopped, __ATOMIC_RELAXED) != 0;
}

static bool fail(const char *what, int code) {
    fprintf(stderr, "pie-fwd: %s: %s\n", what, rte_strerror(code));
    return false;
}

static uint64_t bytes_of(struct rte_mbuf **mbufs, uint32_t count) {
    uint64_t bytes = 0;
    for (uint32_t i = 0; i < count; i++)
        bytes += rte_pktmbuf_pkt_len(mbufs[i]);
    return bytes;
}

/* Receives packets from a queue of port 0. With --receive, receives an equal share of that rate, one packet at a
 * time. */
static int receive(void *argument) {
    uint16_t queue = (uint16_t)(uintptr_t)argument;
    struct rte_mbuf *mbufs[BURST];
    bool is_bounded = forward.options.received != 0;
    double rate = (double)(is_bounded ? forward.options.received : 1) / forward.receivers;
    struct fwd_pace pace = fwd_pace_of(rate, (double)rte_get_tsc_hz(), rte_rdtsc());
    while (!is_stopped()) {
        if (is_bounded && fwd_pace_bytes(&pace, rte_rdtsc()) == 0) {
            rte_pause();
            continue;
        }
        uint16_t count = rte_eth_rx_burst(IN, queue, mbufs, is_bounded ? 1 : BURST);
        if (count == 0)
            continue;
        if (is_bounded)
            fwd_pace_move(&pace, bytes_of(mbufs, count));
        fwd_queues_enqueue(&forward.queues, mbufs, count, rte_rdtsc());
    }
    return 0;
}

static void send_burst(uint16_t port, struct rte_mbuf **mbufs, uint16_t count) {
    uint16_t sent = rte_eth_tx_burst(port, 0, mbufs, count);
    if (sent < count) {
        rte_pktmbuf_free_bulk(mbufs + sent, count - sent);
        __atomic_fetch_add(&forward.unsent, count - sent, __ATOMIC_RELAXED);
    }
}

/* Sends the packets that the rate allows. Time without packets gives no credit. */
static void serve(struct fwd_pace *pace) {
    struct rte_mbuf *mbufs[BURST];
    uint64_t now = rte_rdtsc(), bytes = fwd_pace_bytes(pace, now);
    if (bytes == 0)
        return;
    uint32_t count = fwd_queues_dequeue(&forward.queues, mbufs, BURST, bytes, now);
    if (count == 0) {
        fwd_pace_rest(pace, now);
        return;
    }
    fwd_pace_move(pace, bytes_of(mbufs, count));
    send_burst(OUT, mbufs, (uint16_t)count);
}

/* Sends packets on port 1, and forwards those that arrive there to port 0. */
static int send_packets(void *argument) {
    struct rte_mbuf *mbufs[BURST];
    struct fwd_pace pace = fwd_pace_of((double)forward.options.rate, (double)rte_get_tsc_hz(), rte_rdtsc());
    (void)argument;
    while (!is_stopped()) {
        serve(&pace);
        fwd_queues_update(&forward.queues, rte_rdtsc());
        if (forward.options.is_one_way)
            continue;
        uint16_t count = rte_eth_rx_burst(OUT, 0, mbufs, BURST);
        if (count != 0)
            send_burst(IN, mbufs, count);
    }
    return 0;
}

static bool open_port(uint16_t port, uint16_t queues) {
    struct rte_eth_conf conf = {.rxmode = {.mq_mode = queues > 1 ? RTE_ETH_MQ_RX_RSS : RTE_ETH_MQ_RX_NONE}};
    struct rte_eth_dev_info info;
    int code = rte_eth_dev_info_get(port, &info);
    if (code != 0)
        return fail("a port's description", -code);
    if (queues > info.max_rx_queues) {
        fprintf(stderr, "pie-fwd: port %u has %u queues to receive from, and there are %u lcores to receive\n", port, info.max_rx_queues, queues);
        return false;
    }
    if (queues > 1)
        conf.rx_adv_conf.rss_conf.rss_hf = (RTE_ETH_RSS_IP | RTE_ETH_RSS_TCP | RTE_ETH_RSS_UDP) & info.flow_type_rss_offloads;
    uint16_t received = DESCRIPTORS, sent = DESCRIPTORS;
    if ((code = rte_eth_dev_configure(port, queues, 1, &conf)) != 0 || (code = rte_eth_dev_adjust_nb_rx_tx_desc(port, &received, &sent)) != 0)
        return fail("a port", -code);
    for (uint16_t i = 0; i < queues; i++)
        if ((code = rte_eth_rx_queue_setup(port, i, received, rte_eth_dev_socket_id(port), NULL, forward.pool)) != 0)
            return fail("a port's queue to receive from", -code);
    if ((code = rte_eth_tx_queue_setup(port, 0, sent, rte_eth_dev_socket_id(port), NULL)) != 0)
        return fail("a port's queue to send by", -code);
    if ((code = rte_eth_dev_start(port)) != 0)
        return fail("the start of a port", -code);
    rte_eth_promiscuous_enable(port); // to receive packets for other addresses; not all ports support this
    return true;
}

#define QUEUE_FILES 4 /* the most files of a queue */

/* Adds a file of a queue to the list, with a suffix. Returns false with errno if its name is too long. */
static bool add_file(struct file_name *files, size_t *count, const char *path, uint32_t queue, const char *suffix, enum file_use use) {
    static char names[FWD_QUEUES * QUEUE_FILES][PATH_MAX];
    static size_t used;
    char own[PATH_MAX];
    if (path == NULL)
        return true;
    char *name = names[used++];
    errno = ENAMETOOLONG;
    if (!fwd_queue_name(own, path, queue) || snprintf(name, PATH_MAX, "%s%s", own, suffix) >= PATH_MAX)
        return false;
    files[(*count)++] = (struct file_name){name, use};
    return true;
}

/* Checks the names of all files of all queues before any is opened. */
static bool are_files_usable(const struct fwd_options *options) {
    static char segment[FWD_QUEUES][PATH_MAX];
    struct file_name files[3 + FWD_QUEUES * QUEUE_FILES] = {
        {options->flows, FILE_WRITTEN}, {options->metrics, FILE_WRITTEN}, {options->json, FILE_WRITTEN}};
    size_t count = 3;
    for (uint32_t i = 0; i < options->queues; i++) {
        bool is_rotated = options->history != NULL && options->rotate != 0;
        if (!add_file(files, &count, options->history, i, is_rotated ? ".1" : "", FILE_WRITTEN) ||
            !add_file(files, &count, options->records, i, "", FILE_WRITTEN) || !add_file(files, &count, options->flight, i, "", FILE_KEPT) ||
            !add_file(files, &count, options->flight, i, ".before", FILE_KEPT))
            return fail("the name of a file", errno);
        if (is_rotated && !options->is_forced && fwd_history_segment_there(options->history, i, segment[i])) {
            fprintf(stderr, "pie-fwd: %s: the file exists; --force replaces it\n", segment[i]);
            return false;
        }
    }
    return check_files("pie-fwd", files, count, options->is_forced);
}

static bool open_all(void) {
    const bool is_forced = forward.options.is_forced;
    if (!are_files_usable(&forward.options))
        return false;
    if (rte_eth_dev_count_avail() != 2) {
        fprintf(stderr, "pie-fwd: there are %u ports, and it forwards between two; --vdev, or -a of the EAL names them\n", rte_eth_dev_count_avail());
        return false;
    }
    if (rte_lcore_count() < 3) {
        fprintf(stderr, "pie-fwd: there are %u lcores, and it takes three; --lcores of the EAL names them, as --lcores '(0-2)@(0-3)'\n",
                rte_lcore_count());
        return false;
    }
    forward.receivers = (uint16_t)(rte_lcore_count() - 2);
    forward.pool = rte_pktmbuf_pool_create("pie-fwd", (unsigned int)forward.options.mbufs, 128, 0, RTE_MBUF_DEFAULT_BUF_SIZE, SOCKET_ID_ANY);
    if (forward.pool == NULL)
        return fail("the pool of mbufs", rte_errno);
    if (!fwd_flows_open(&forward.flows, forward.options.flows, is_forced))
        return fail("the file of --flows", errno);
    if (forward.options.flows != NULL) {
        forward.options.stage.flow = fwd_flow_of;
        forward.options.stage.flow_user = &forward.flows;
    }
    if (!fwd_queues_create(&forward.queues, (uint32_t)forward.options.queues, "pie-fwd", &forward.options.stage))
        return fail("the stage", rte_errno);
    for (uint32_t i = 0; i < forward.queues.count; i++) {
        if (!fwd_history_open(&forward.histories[i], forward.options.history, i, forward.options.rotate, forward.options.segments, is_forced))
            return fail("the file of --history", errno);
        if (!fwd_records_open(&forward.records[i], forward.options.records, i, is_forced))
            return fail("the file of --records", errno);
    }
    return open_port(IN, forward.receivers) && open_port(OUT, 1);
}

static void launch(void) {
    unsigned int lcore;
    uint16_t number = 0;
    RTE_LCORE_FOREACH_WORKER(lcore) {
        if (number == forward.receivers)
            rte_eal_remote_launch(send_packets, NULL, lcore);
        else
            rte_eal_remote_launch(receive, (void *)(uintptr_t)number, lcore);
        number++;
    }
}

/* Writes the texts of all flight recorders if a signal requested them. Otherwise writes the text of each queue in which
 * a packet waited too long, at most once a second. */
static void write_flights(uint64_t *written) {
    bool is_asked = __atomic_exchange_n(&forward.is_asked, 0, __ATOMIC_RELAXED) != 0;
    for (uint32_t i = 0; i < forward.queues.count; i++) {
        struct pie_stage *stage = forward.queues.stages[i];
        if (!is_asked && (rte_rdtsc() - written[i] < rte_get_tsc_hz() || !pie_stage_flight_is_asked(stage)))
            continue;
        fwd_flight_write(forward.options.flight, i, stage);
        written[i] = rte_rdtsc();
    }
}

static void read_all(struct pie_stage_stats *stats) {
    for (uint32_t i = 0; i < forward.queues.count; i++)
        pie_stage_read(forward.queues.stages[i], &stats[i]);
}

/* Writes records of complete intervals, new flows, and a part of each history. Returns true if a history had new
 * text. */
static bool write_texts(void) {
    bool is_any = false;
    for (uint32_t i = 0; i < forward.queues.count; i++) {
        fwd_records_write(&forward.records[i], forward.queues.stages[i], false);
        is_any |= fwd_history_write(&forward.histories[i], forward.queues.stages[i]);
    }
    write_flows(&forward.flows.flows);
    return is_any;
}

/* Prints a line each second, and writes histories, interval records, flows and flight recorders' texts, until the
 * end. */
static void report(void) {
    char port[RTE_ETH_NAME_MAX_LEN];
    struct pie_stage_stats before[FWD_QUEUES] = {0}, after[FWD_QUEUES];
    uint64_t hz = rte_get_tsc_hz(), start = rte_rdtsc(), printed = start, written[FWD_QUEUES];
    const struct fwd_options *options = &forward.options;
    bool is_reported = false, is_quick = options->history != NULL || options->records != NULL || options->stage.flight_wait != 0;
    rte_eth_dev_get_name_by_port(OUT, port);
    for (uint32_t i = 0; i < FWD_QUEUES; i++)
        written[i] = start - hz;
    for (;;) {
        uint64_t now = rte_rdtsc();
        bool is_over = is_stopped() || (options->lasts != 0 && (double)(now - start) / (double)hz * 1e9 >= (double)options->lasts);
        if (now - printed >= hz || is_over) {
            read_all(after);
            fwd_print_lines(forward.queues.count, before, after, (double)(now - printed) / (double)hz);
            if (!fwd_write_files(options, port, after) && !is_reported) {
                fprintf(stderr, "pie-fwd: the file of --metrics or --json: %s\n", strerror(errno));
                is_reported = true;
            }
            memcpy(before, after, sizeof before);
            printed = now;
        }
        write_flights(written);
        // the program ends if the reader of its lines is gone
        if (is_over || ferror(stdout) != 0)
            return;
        if (!write_texts())
            nanosleep(&(struct timespec){.tv_nsec = is_quick ? 1000000 : 10000000}, NULL);
    }
}

/* Frees the packets that a port still has: a net_ring contains the packets sent into it. A net_null never becomes
 * empty, so the number of polls is limited. */
static void drain(uint16_t port, uint16_t queues) {
    struct rte_mbuf *mbufs[BURST];
    for (uint16_t queue = 0; queue < queues; queue++)
        for (int poll = 0; poll < DRAIN; poll++)
            rte_pktmbuf_free_bulk(mbufs, rte_eth_rx_burst(port, queue, mbufs, BURST));
}

/* Frees all memory and closes all files. Returns false if an mbuf is missing or a file is not complete. */
static bool close_all(void) {
    uint16_t port;
    struct pie_stage_stats all[FWD_QUEUES];
    bool is_written = true;
    for (uint32_t i = 0; i < FWD_QUEUES; i++) {
        struct pie_stage *stage = i < forward.queues.count ? forward.queues.stages[i] : NULL;
        is_written &= fwd_history_close(&forward.histories[i], stage);
        is_written &= fwd_records_close(&forward.records[i], stage);
    }
    is_written &= fwd_flows_close(&forward.flows);
    if (!remove_metrics()) {
        fprintf(stderr, "pie-fwd: --metrics %s: %s\n", forward.options.metrics, strerror(errno));
        is_written = false;
    }
    read_all(all);
    struct pie_stage_stats stats = fwd_sum(forward.queues.count, all);
    RTE_ETH_FOREACH_DEV(port) {
        struct rte_eth_dev_info info;
        if (forward.pool != NULL && rte_eth_dev_info_get(port, &info) == 0 && info.nb_rx_queues != 0)
            drain(port, info.nb_rx_queues);
        rte_eth_dev_stop(port);
        rte_eth_dev_close(port);
    }
    fwd_queues_free(&forward.queues);
    if (forward.pool == NULL)
        return is_written;
    unsigned int there = rte_mempool_avail_count(forward.pool), missing = (unsigned int)forward.options.mbufs - there;
    rte_mempool_free(forward.pool);
    printf("pie-fwd: %" PRIu64 " packets queued, %" PRIu64 " marked, %" PRIu64 " dropped early, %" PRIu64 " for want of bytes, %" PRIu64
           " of room; %" PRIu64 " left, %" PRIu64 " not taken by a port; %" PRIu64 " updates; %" PRIu64
           " changes of parameters; %" PRIu64 " events lost to the history, %" PRIu64 " periods to the records; %u mbufs missing\n",
           stats.queued, stats.marked, stats.early, stats.bytes, stats.full, stats.departed, forward.unsent, stats.updates,
           stats.changes, stats.lost, stats.lost_periods, missing);
    return is_written && missing == 0;
}

int main(int count, char **words) {
    int read = rte_eal_init(count, words);
    if (read < 0) {
        fail("EAL", rte_errno);
        return 1;
    }
    setvbuf(stdout, NULL, _IOLBF, 0);
    int answer = fwd_read_options(count - read, words + read, &forward.options);
    if (answer != FWD_READ) {
        rte_eal_cleanup();
        return answer == FWD_HELP ? 0 : 1;
    }
    signal(SIGINT, stop);
    signal(SIGTERM, stop);
    signal(SIGHUP, stop);
    signal(SIGUSR1, ask);
    signal(SIGPIPE, SIG_IGN); // a write to a closed pipe then fails, and everything is freed
    bool is_open = open_all();
    if (is_open) {
        launch();
        report();
        stop(0);
        rte_eal_mp_wait_lcore();
    }
    bool is_whole = close_all();
    rte_eal_cleanup();
    return is_open && is_whole ? 0 : 1;
}
