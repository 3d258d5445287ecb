/* `pie-watch top`: a live page of all queues in the terminal. */
#ifndef WATCH_TOP_H
#define WATCH_TOP_H

#include "watch_totals.h"

/* Shows the page until `q` or `is_ended`. `labels`: a file, or NULL. Returns the status of the process. */
int top(const struct totals_options *options, const char *labels, const volatile sig_atomic_t *is_ended);

#endif
