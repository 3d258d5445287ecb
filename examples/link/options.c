#include "options.h"

#include <stdio.h>
#include <string.h>

#define LEAST_GRANT 100000 /* ns */

static const char help_of_use[] =
    "link --from DEVICE --to DEVICE [OPTIONS]\n"
    "\n"
    "Creates two TUN devices and joins them by a link. Packets in one direction pass at a given rate, through a queue that PIE\n"
    "(RFC 8033) manages; packets in the other direction are only delayed. Ends by SIGINT or SIGTERM, or after the time of --for.\n"
    "\n";

static const char help_of_link[] =
    "\n"
    "  --rate 10mbit,20s:2mbit,40s:10mbit\n"
    "                       a rate that changes: from 20 s on 2 Mbit/s, from 40 s on 10 Mbit/s. Default limits use the greatest rate\n"
    "  --rtt 20ms           delay of the other direction: the round-trip time with an empty queue\n"
    "  --grant 5ms          send only every 5 ms, then at once all bytes that the rate allows in 5 ms, as a cable modem or Wi-Fi does\n"
    "  --delivery end       deliver a packet at the end of its transmission, as a cable does (end, the default), or at its start, as\n"
    "                       htb does (start)\n"
    "  --overhead 40, --mpu 64, --linklayer atm\n"
    "                       size of a packet on the link, as in tc stab: bytes added to each packet, smallest size in bytes, cells of\n"
    "                       ATM (atm, adsl; default ethernet). Delays, limits and the history use these sizes\n"
    "  --history FILE       write every decision, for pie audit and pie explain\n"
    "  --flight FILE        keep at least the last 100000 events in this file, even if the program is killed. flight_text FILE writes\n"
    "                       them as a history; on SIGUSR1 the link writes them to FILE.history while it runs\n"
    "  --metrics FILE       the queue's metrics for node_exporter (*.prom), replaced every second, removed at the end\n"
    "  --flows FILE         put the flow's number into the upper 32 bits of each tag, write the addresses and ports of each number to\n"
    "                       FILE, and print twice a second the flow with the most bytes\n"
    "  --records FILE       write the sums of each interval when it ends, as pie explain --every --csv --wall does\n"
    "  --every 1s           length of these intervals\n"
    "  --force              replace existing files\n"
    "  --for 60s            end after this time\n"
    "\n"
    "No FILE is another FILE. The history has its name when it is complete, at the end, and is FILE.partial until then. Metrics, flows,\n"
    "records and the flight recorder can be read while the link runs.\n"
    "\n"
    "Times, rates and sizes have the units of tc and are never rounded. The program needs root or CAP_NET_ADMIN. Example:\n"
    "\n"
    "  link --from senders --to receivers --rate 10mbit --rtt 20ms --ecn --history /tmp/history\n"
    "\n"
    "run.sh in the same folder creates network namespaces, moves the devices into them, and sends TCP through the link.\n";

/* Reads one step of the rate from `length` bytes: first a rate such as 10mbit, then steps such as 20s:2mbit. */
static const char *read_step(const char *text, size_t length, struct options *options) {
    struct rate_step *step = &options->rates[options->steps];
    const char *colon = memchr(text, ':', length);
    size_t moment = colon != NULL ? (size_t)(colon - text) : 0, rate = colon != NULL ? length - moment - 1 : length;
    uint32_t code = PIE_DONE;
    step->moment = 0;
    if ((colon != NULL) != (options->steps != 0))
        return "not a rate, and then moments and rates, as 10mbit,20s:2mbit";
    if (colon != NULL)
        code = pie_read_time(text, moment, &step->moment);
    if (code == PIE_DONE)
        code = pie_read_rate(text + length - rate, rate, &step->rate);
    if (code != PIE_DONE)
        return pie_text(code);
    if (step->rate < 1000 || (colon != NULL && step->moment <= step[-1].moment))
        return "a rate below 1kbit, or moments that don't rise";
    if (options->control.rate < step->rate || options->steps == 0)
        options->control.rate = step->rate;
    options->steps++;
    return NULL;
}

/* Reads the rate and its changes. */
static const char *read_rates(const char *text, void *to) {
    struct options *options = to;
    options->steps = 0;
    for (;;) {
        size_t length = strcspn(text, ",");
        const char *fault = options->steps < MOST_STEPS ? read_step(text, length, options) : "too many rates";
        if (fault != NULL || text[length] == '\0')
            return fault;
        text += length + 1;
    }
}

static const char *read_delivery(const char *text, void *to) {
    *(bool *)to = strcmp(text, "start") == 0;
    return *(bool *)to || strcmp(text, "end") == 0 ? NULL : "not a value of this option";
}

int read_options(int count, char **words, struct options *options) {
    const struct option own[] = {
        {"--from", option_text, &options->from},       {"--to", option_text, &options->to},
        {"--history", option_text, &options->history}, {"--flight", option_text, &options->flight},
        {"--rate", read_rates, options},               {"--rtt", option_time, &options->rtt},
        {"--grant", option_time, &options->grant},     {"--for", option_time, &options->lasts},
        {"--metrics", option_text, &options->metrics},
        {"--flows", option_text, &options->flows},
        {"--records", option_text, &options->records}, {"--every", option_time, &options->every},
        {"--force", NULL, &options->is_forced},
        {"--delivery", read_delivery, &options->at_start},
        {"--overhead", layer_overhead, &options->layer},
        {"--mpu", layer_mpu, &options->layer},
        {"--linklayer", layer_kind, &options->layer},
    };
    const struct command command = {"link", {help_of_use, help_of_link}, own, sizeof own / sizeof own[0], MOST_PACKETS};
    *options = (struct options){.rtt = 20000000, .lasts = 60000000000, .every = 1000000000};
    int place = read_words(&command, count, words, &options->control);
    if (place == WORDS_HELP)
        return OPTIONS_HELP;
    if (options->steps == 0)
        options->rates[options->steps++].rate = options->control.rate;
    struct pie_params *params = &options->control.opening.params;
    params->mean_pkt = size_on_link(&options->layer, (uint32_t)params->mean_pkt);
    if (place >= 0 && place < count)
        place = refuse_word(&command, words[place], "", "unknown");
    else if (place >= 0 && options->grant != 0 && options->grant < LEAST_GRANT)
        place = refuse_word(&command, "--grant", "", "out of its range");
    else if (place >= 0 && options->every == 0)
        place = refuse_word(&command, "--every", "", "out of its range");
    else if (place >= 0 && (options->from == NULL || options->to == NULL))
        place = refuse_word(&command, "--from and --to", "", "missing");
    return place == WORDS_WRONG ? OPTIONS_WRONG : OPTIONS_READ;
}
