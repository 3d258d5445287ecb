/* The options of pie-fwd. */
#ifndef FWD_OPTIONS_H
#define FWD_OPTIONS_H

#include "fwd_queues.h"
#include "pie_stage.h"

struct fwd_options {
    struct pie_stage_params stage;
    uint64_t rate;         /* of the link, in bits per second */
    uint64_t received;     /* limit of received bits per second; 0: none */
    uint64_t lasts;        /* duration of the run in ns; 0: until a signal */
    uint64_t mbufs;        /* number of mbufs in the pool */
    uint64_t queues;       /* number of queues of the link, 1 to FWD_QUEUES */
    bool is_one_way;       /* true: packets from port 1 are not forwarded */
    bool is_forced;        /* existing files are replaced */
    const char *metrics;   /* file of the metrics, or NULL */
    const char *json;      /* file of the statistics as JSON, or NULL */
    const char *history;   /* file of the history, or NULL */
    uint64_t rotate;       /* bytes of a segment of the history; 0: one text */
    uint64_t segments;     /* number of segments to keep; 0: all */
    const char *flight;    /* file of the flight recorder's text, never NULL */
    const char *flows;     /* file that lists flows, or NULL */
    const char *records;   /* file of the interval records, or NULL */
};

enum { FWD_READ, FWD_HELP, FWD_WRONG };

/* Parses the words after the EAL's options. Reports an error on stderr. */
int fwd_read_options(int count, char **words, struct fwd_options *options);

#endif
