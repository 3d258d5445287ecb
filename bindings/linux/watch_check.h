/* Checks before anything is loaded: this process may load BPF programs, and the kernel's pie and fq_pie are the ones that are known. */
#ifndef WATCH_CHECK_H
#define WATCH_CHECK_H

#include <stdbool.h>

struct watch_checked {
    bool has_fq_pie; /* the module sch_fq_pie is loaded */
};

/* Returns true if a module of this name is loaded, or part of the kernel. */
bool watch_is_loaded(const char *module);

/* Prints a line on standard error for each privilege that is missing. Returns false if nothing can be recorded, whatever the kernel has. */
bool watch_can_record(void);

/* Prints a line on standard error for each thing that is missing or unknown. Returns false if nothing can be recorded, or something is unknown and not
 * `is_anyway`. */
bool watch_check(struct watch_checked *checked, bool is_anyway);

#endif
