/* The command line. */
#ifndef REPLAY_OPTIONS_H
#define REPLAY_OPTIONS_H

#include "control.h"

struct options {
    const char *capture;    /* the capture; "-": standard input */
    char *filter;           /* in libpcap's language; empty: every packet */
    const char *history;    /* the file for the history; "-": standard output */
    const char *commented;  /* file of the capture with comments, or NULL */
    const char *flows;      /* file that lists flows, or NULL */
    bool is_forced;         /* existing files are replaced */
    uint64_t seed;          /* seed of the random words */
    uint64_t split;         /* super-packets are split into packets of at most this many bytes; 0: never */
    struct control control; /* the link and its queue */
};

/* The results of read_options. */
enum { OPTIONS_READ, OPTIONS_HELP, OPTIONS_WRONG };

/* Reads the options. Prints errors, and the help if it is requested. */
int read_options(int count, char **words, struct options *options);

#endif
