/* An output in segments, FILE.1, FILE.2 and so on, of which a program may keep the last ones only. */
#ifndef SHARED_SEGMENTS_H
#define SHARED_SEGMENTS_H

#include "output.h"

#include <stdint.h>

struct segments {
    char path[PATH_MAX]; /* FILE */
    uint64_t kept;       /* number of last segments to keep; 0: all */
    uint64_t number;     /* of the last opened segment, counted from 1; 0: none */
    bool is_forced;      /* existing files are replaced */
};

/* Finds an existing segment of `path`: its name with a number. Returns true and the segment's name, or false if there is none. */
bool segments_there(const char *path, char name[PATH_MAX]);

/* Opens the next segment, and removes the oldest one if there are more than `kept`. A segment has its name when it is complete. Returns false with errno
 * if that fails. */
bool segments_open(struct segments *segments, struct output *output);

#endif
