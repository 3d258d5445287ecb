#include "segments.h"

#include <dirent.h>
#include <errno.h>
#include <inttypes.h>
#include <string.h>

/* Writes the name of a segment. Returns false if it is too long. */
static bool name_segment(const struct segments *segments, uint64_t number, char name[PATH_MAX]) {
    int length = snprintf(name, PATH_MAX, "%s.%" PRIu64, segments->path, number);
    errno = ENAMETOOLONG;
    return length < PATH_MAX;
}

bool segments_there(const char *path, char name[PATH_MAX]) {
    char folder[PATH_MAX];
    const struct dirent *entry;
    const char *slash = strrchr(path, '/');
    const char *base = slash != NULL ? slash + 1 : path;
    size_t length = strlen(base);
    snprintf(folder, sizeof folder, "%.*s", slash != NULL ? (int)(slash - path) + 1 : 1, slash != NULL ? path : ".");
    DIR *names = opendir(folder);
    bool is_there = false;
    while (names != NULL && !is_there && (entry = readdir(names)) != NULL) {
        const char *digits = entry->d_name + length + 1;
        is_there = strncmp(entry->d_name, base, length) == 0 && entry->d_name[length] == '.' && *digits != '\0' &&
                   strspn(digits, "0123456789") == strlen(digits);
        if (is_there && snprintf(name, PATH_MAX, "%s.%s", path, digits) >= PATH_MAX)
            is_there = false;
    }
    if (names != NULL)
        closedir(names);
    return is_there;
}

bool segments_open(struct segments *segments, struct output *output) {
    char name[PATH_MAX], oldest[PATH_MAX];
    segments->number++;
    if (!name_segment(segments, segments->number, name) || !open_output(output, name, OUTPUT_WHOLE, segments->is_forced))
        return false;
    if (segments->kept != 0 && segments->number > segments->kept && name_segment(segments, segments->number - segments->kept, oldest))
        remove(oldest);
    return true;
}
