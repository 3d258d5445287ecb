/* The options of the programs in C that have a link with a PIE queue. An option has the name and meaning of that of
 * `pie params`, which has the keywords of tc, or otherwise its name in pie.h. The library parses the values, as for
 * `pie params`. */
#ifndef SHARED_CONTROL_H
#define SHARED_CONTROL_H

#include "pie.h"

#include <stdbool.h>
#include <stddef.h>
#include <stdint.h>

#define MOST_PACKETS 65536 /* the greatest capacity of a queue of the examples */

enum { SENDER = 1, LINK = 2, TIMER = 3 }; /* the callers in a history */

struct control {
    uint64_t rate;              /* rate of the link in bits per second */
    bool use_ecn;               /* true if ECN-capable packets are marked */
    bool has_default_packets;   /* true if --limit names no number of packets */
    struct pie_opening opening; /* the controller's opening, at moment 0 */
};

/* Reads an option's text, which is not empty, into the value at `to`. Returns the error, or NULL. */
typedef const char *option_reader(const char *text, void *to);

/* Read into a uint64_t: nanoseconds, bits per second, bytes, packets, a whole number. */
option_reader option_time, option_rate, option_size, option_packets, option_number;

/* Stores the text itself in a const char *. */
option_reader option_text;

/* An option. Without a reader it has no text, and sets the bool at `to`. */
struct option {
    const char *name;
    option_reader *read;
    void *to;
};

/* A program: its name in messages, its help before and after control_help, and its own options. An own option takes
 * precedence over an option of the link with the same name. */
struct command {
    const char *program;
    const char *help[2];
    const struct option *options;
    size_t count;
    uint64_t most_packets; /* the greatest limit in packets */
};

/* The help of the link's options, one line each. */
extern const char control_help[];

/* The results of read_words other than the position of a word. */
enum { WORDS_HELP = -1, WORDS_WRONG = -2 };

/* Reads the words from 1 on, as `--name text` and `--name=text`, up to the first that is no option. Returns its
 * position. Prints the help if it is requested, and errors. */
int read_words(const struct command *command, int count, char **words, struct control *control);

/* Warns if the queue is full before a packet can wait for the target delay. read_words calls it, and so does a program that lowers a default limit. */
void warn_of_limits(const struct command *command, const struct control *control);

/* Prints the error, and returns WORDS_WRONG. */
int refuse_word(const struct command *command, const char *name, const char *text, const char *fault);

#endif
