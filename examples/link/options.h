/* The command line. */
#ifndef LINK_OPTIONS_H
#define LINK_OPTIONS_H

#include "control.h"
#include "layer.h"

#include <stdint.h>

#define MOST_STEPS 64 /* the most changes of the rate */

/* A rate, and the moment from which the link has it. */
struct rate_step {
    uint64_t moment, rate;
};

struct options {
    const char *from, *to;  /* the names of the two devices */
    const char *history;    /* file of the history, or NULL */
    const char *flight;     /* file of the flight recorder, or NULL */
    const char *metrics;    /* file of the metrics, or NULL */
    const char *flows;      /* file that lists flows, or NULL */
    const char *records;    /* file of the interval records, or NULL */
    bool is_forced;         /* existing files are replaced */
    uint64_t every;         /* the length of an interval in ns */
    uint64_t rtt;           /* delay on the way back in ns */
    uint64_t grant;         /* ns from one grant to the next; 0: the link sends whenever it is free */
    bool at_start;          /* a packet leaves when its transmission begins, not when it ends */
    struct layer layer;     /* the overhead of a packet on the link */
    struct rate_step rates[MOST_STEPS]; /* in the order of their moments; the first moment is 0 */
    size_t steps;
    uint64_t lasts;         /* duration of the run in ns */
    struct control control; /* the link and its queue */
};

/* The results of read_options. */
enum { OPTIONS_READ, OPTIONS_HELP, OPTIONS_WRONG };

/* Reads the options. Prints errors, and the help if it is requested. */
int read_options(int count, char **words, struct options *options);

#endif
