#include "fwd_options.h"

#include "control.h"

#include <stdio.h>
#include <string.h>

#define EVENTS (1u << 17) /* the most events that may be pending for the history: 8 megabytes */
#define LEAST_SEGMENT 65536 /* the fewest bytes of a segment */
#define MOST_RATE UINT64_C(1000000000000)
#define MOST_QUEUED (1u << 20) /* the greatest capacity of a queue in packets */
#define MOST_MBUFS (1u << 24)

static const char help[] =
    "pie-fwd [EAL OPTIONS] -- [OPTIONS]\n"
    "\n"
    "Forwards Ethernet frames from port 0 to port 1 through a queue that PIE (RFC 8033) manages, at a rate below the card's, so that the\n"
    "queue is in the program and not in the card. Frames from port 1 to port 0 pass unchanged. Prints a line every second. Ends by SIGINT\n"
    "or SIGTERM. Needs at least three lcores: one prints, one sends, and each other one receives from a queue of port 0.\n"
    "\n";

static const char more_help[] =
    "\n"
    "  --one-way             forward nothing from port 1 to port 0\n"
    "  --queues 4            number of queues, 1 to 8, each with its own controller and limits. The three highest bits of the DS field choose\n"
    "                        the queue, and the sender serves the queues in turn. Files of all but the first end in -1, -2 and so on\n"
    "  --metrics FILE        metrics for node_exporter (*.prom), replaced every second, removed at the end\n"
    "  --json FILE           the statistics in the format of tc -s -j, replaced every second\n"
    "  --flight FILE         the last decisions, for pie audit and pie explain, written on SIGUSR1 (pie-fwd.flight)\n"
    "  --flight-wait 100ms   write them also after a packet waited longer than this, at most once a second\n"
    "  --flight-events 16384 least number of decisions that are kept, up to 2^24; 0: none\n"
    "  --history FILE        every decision: some 120 bytes a packet\n"
    "  --rotate 64mb         write the history in segments of this size, FILE.1, FILE.2 and so on; each can be read alone\n"
    "  --segments 8          number of segments that are kept; older ones are removed (all are kept by default)\n"
    "  --flows FILE          put the flow's number into the upper 32 bits of each tag, and write the addresses and ports of each number, of\n"
    "                        all queues, to FILE\n"
    "  --records FILE        write the sums of each interval when it ends, as pie explain --every --csv --wall does\n"
    "  --every 1s            length of these intervals\n"
    "  --force               replace existing files. No FILE is another FILE; a segment has its name when it is complete\n"
    "  --receive 120mbit     receive at most this rate from port 0; for a port that always has packets, such as a null port\n"
    "  --total-num-mbufs 8192\n"
    "                        mbufs in the pool, 1024 to 2^24; at most half of them are queued, also with the default of --limit\n"
    "  --for 10s             end after this time\n"
    "\n"
    "Times, rates and sizes have the units of tc and are never rounded. The rate is that of port 1, of frames without their check\n"
    "sequence. Without cards:\n"
    "\n"
    "  pie-fwd --no-huge -m 512 --no-pci --no-shconf --vdev=net_null0,size=1000 --vdev=net_ring0 --lcores '(0-2)@(0-3)' -- \\\n"
    "      --rate 100mbit --receive 120mbit --for 5s\n";

/* Returns true if a rate in bits per second can be shaped. */
static bool is_rate(uint64_t rate) {
    return rate >= 1000 && rate <= MOST_RATE;
}

/* Returns the first option that is out of its range, or NULL. */
static const char *fault_of(const struct fwd_options *options, uint64_t flight) {
    if (!is_rate(options->rate))
        return "--rate";
    if (options->received != 0 && !is_rate(options->received))
        return "--receive";
    if (options->queues < 1 || options->queues > FWD_QUEUES)
        return "--queues";
    if (options->mbufs < 1024 || options->mbufs > MOST_MBUFS)
        return "--total-num-mbufs";
    if (flight > PIE_STAGE_MAX_EVENTS)
        return "--flight-events";
    if (options->rotate != 0 && options->rotate < LEAST_SEGMENT)
        return "--rotate";
    if (options->records != NULL && options->stage.every == 0)
        return "--every";
    // if the queues could hold all mbufs, the card would have none to receive with, and would drop packets
    return options->stage.opening.packets * options->queues > options->mbufs / 2 ? "--limit" : NULL;
}

int fwd_read_options(int count, char **words, struct fwd_options *options) {
    uint64_t flight = PIE_STAGE_FLIGHT, every = 1000000000;
    const struct option own[] = {
        {"--for", option_time, &options->lasts},         {"--receive", option_rate, &options->received},
        {"--rotate", option_size, &options->rotate},     {"--segments", option_number, &options->segments},
        {"--flight", option_text, &options->flight},     {"--flight-wait", option_time, &options->stage.flight_wait},
        {"--flight-events", option_number, &flight},     {"--total-num-mbufs", option_packets, &options->mbufs},
        {"--history", option_text, &options->history},   {"--metrics", option_text, &options->metrics},
        {"--json", option_text, &options->json},         {"--one-way", NULL, &options->is_one_way},
        {"--queues", option_number, &options->queues},   {"--flows", option_text, &options->flows},
        {"--records", option_text, &options->records},   {"--every", option_time, &every},
        {"--force", NULL, &options->is_forced},
    };
    const struct command command = {"pie-fwd", {help, more_help}, own, sizeof own / sizeof own[0], MOST_QUEUED};
    struct control control;
    *options = (struct fwd_options){.mbufs = 8192, .queues = 1, .flight = "pie-fwd.flight"};
    int place = read_words(&command, count, words, &control);
    if (place < 0)
        return place == WORDS_HELP ? FWD_HELP : FWD_WRONG;
    if (place < count) {
        refuse_word(&command, words[place], "", "unknown");
        return FWD_WRONG;
    }
    uint64_t wait = options->stage.flight_wait, most = options->queues != 0 ? options->mbufs / 2 / options->queues : 0;
    if (control.has_default_packets && most != 0 && control.opening.packets > most) {
        control.opening.packets = most;
        warn_of_limits(&command, &control);
    }
    options->rate = control.rate;
    options->stage = (struct pie_stage_params){
        .opening = control.opening,
        .ecn = control.use_ecn,
        .flight = (uint32_t)flight,
        .flight_wait = wait,
        .events = options->history != NULL ? EVENTS : 0,
        .every = options->records != NULL ? every : 0,
    };
    const char *fault = fault_of(options, flight);
    if (fault != NULL)
        refuse_word(&command, fault, "", "out of its range");
    return fault == NULL ? FWD_READ : FWD_WRONG;
}
