#include "options.h"

#include <stdio.h>
#include <stdlib.h>
#include <string.h>

static const char help_of_use[] =
    "replay [OPTIONS] CAPTURE [FILTER]\n"
    "\n"
    "Sends the packets of a capture (pcap or pcapng; - is standard input) through a simulated link with PIE (RFC 8033), at the times of\n"
    "the capture, and writes a history of all decisions for pie audit and pie explain. FILTER is a filter of tcpdump: a capture contains\n"
    "both directions, a queue only one.\n"
    "\n"
    "The history shows which packets of this traffic PIE would have dropped. It cannot show how the senders would have reacted: a TCP that\n"
    "would slow down after a drop continues here as in the capture. So delays and drops in an overload are greater than on a real link,\n"
    "and after an overload the traffic itself would have been different.\n"
    "\n"
    "Each FILE has its name when it is complete, and is FILE.partial until then. No FILE is the capture or another FILE.\n"
    "\n"
    "  -o FILE              the history; standard output by default\n"
    "  -w FILE              the capture as pcapng, with a comment at each packet that was dropped or marked\n"
    "  --flows FILE         put the flow's number into the upper 32 bits of each tag, and write the addresses and ports of each number\n"
    "                       to FILE\n"
    "  --force              replace existing files\n"
    "  --seed 1             seed of the random words; equal seeds give equal histories\n"
    "  --split 1500b        split packets above this size, which segmentation offload joined before the capture\n";

static const char help_of_units[] =
    "\n"
    "Times, rates and sizes have the units of tc and are never rounded. The size of a packet is the length in its IP header. Its tag in\n"
    "the history, or with --flows the lower 32 bits of the tag, is the number of its frame in the capture, counted from 1 as in\n"
    "Wireshark. Caller 1 is the sender, 2 the link, 3 the timer. Example:\n"
    "\n"
    "  replay --rate 50mbit --ecn -o history -w commented.pcapng yesterday.pcap 'dst net 192.0.2.0/24'\n";

/* Joins the words from here on with spaces, as tcpdump does. Returns NULL if there is no memory. */
static char *joined(int count, char **words) {
    size_t size = 1;
    for (int i = 0; i < count; i++)
        size += strlen(words[i]) + 1;
    char *text = calloc(size, 1);
    for (int i = 0; text != NULL && i < count; i++) {
        strcat(text, words[i]);
        strcat(text, i + 1 < count ? " " : "");
    }
    return text;
}

int read_options(int count, char **words, struct options *options) {
    const struct option own[] = {
        {"-o", option_text, &options->history},
        {"-w", option_text, &options->commented},
        {"--flows", option_text, &options->flows},
        {"--force", NULL, &options->is_forced},
        {"--seed", option_number, &options->seed},
        {"--split", option_size, &options->split},
    };
    const struct command command = {"replay", {help_of_use, help_of_units}, own, sizeof own / sizeof own[0], MOST_PACKETS};
    *options = (struct options){.seed = 1, .history = "-"};
    int place = read_words(&command, count, words, &options->control);
    if (place < 0)
        return place == WORDS_HELP ? OPTIONS_HELP : OPTIONS_WRONG;
    const char *fault = NULL;
    if (options->split != 0 && (options->split < 68 || options->split > PIE_MAX_SIZE))
        fault = "--split is out of its range";
    else if (place == count)
        fault = "no capture is named";
    if (fault != NULL) {
        fprintf(stderr, "replay: %s; see replay --help\n", fault);
        return OPTIONS_WRONG;
    }
    options->capture = words[place];
    options->filter = joined(count - place - 1, words + place + 1);
    return options->filter != NULL ? OPTIONS_READ : OPTIONS_WRONG;
}
