#define _POSIX_C_SOURCE 200809L
#include "flight_file.h"
#include "output.h"

#include <errno.h>
#include <fcntl.h>
#include <stdlib.h>
#include <string.h>
#include <sys/mman.h>
#include <sys/stat.h>
#include <unistd.h>

#define LONGEST_NAME 4096

/* Maps a file of this many bytes. Returns NULL if that fails. */
static void *new_file(const char *name, size_t bytes) {
    char before[LONGEST_NAME];
    if (snprintf(before, sizeof before, "%s.before", name) >= (int)sizeof before || (rename(name, before) != 0 && errno != ENOENT))
        return NULL;
    int file = open(name, O_RDWR | O_CREAT | O_EXCL | O_CLOEXEC, 0600);
    if (file < 0)
        return NULL;
    /* Allocate the blocks now: on a full disk this fails here, and no signal ends the program later. */
    void *memory = MAP_FAILED;
    if (posix_fallocate(file, 0, (off_t)bytes) == 0)
        memory = mmap(NULL, bytes, PROT_READ | PROT_WRITE, MAP_SHARED, file, 0);
    close(file);
    return memory != MAP_FAILED ? memory : NULL;
}

bool open_flight(struct flight_file *file, const char *name, const struct pie_opening *opening, const struct pie_state *state) {
    size_t bytes = (pie_flight_bytes(FLIGHT_EVENTS, opening->packets) + 63) / 64 * 64;
    file->name = name;
    file->bytes = bytes;
    file->memory = name != NULL ? new_file(name, bytes) : aligned_alloc(64, bytes);
    file->scratch = aligned_alloc(64, bytes);
    return file->memory != NULL && file->scratch != NULL &&
           pie_flight_open(&file->flight, file->memory, bytes, FLIGHT_EVENTS, opening, state);
}

static int write_to(void *user, const unsigned char *bytes, size_t count) {
    return fwrite(bytes, 1, count, (FILE *)user) == count ? 0 : 1;
}

int write_flight(const struct flight_file *file) {
    char name[LONGEST_NAME];
    struct output output;
    if (snprintf(name, sizeof name, "%s.history", file->name) >= (int)sizeof name || !open_output(&output, name, OUTPUT_WHOLE, true))
        return PIE_FLIGHT_STOPPED;
    int answer = pie_flight_dump(file->memory, file->bytes, file->scratch, write_to, output.file);
    return close_output(&output) ? answer : PIE_FLIGHT_STOPPED;
}

int write_flight_of(const char *name, FILE *to) {
    struct stat status;
    int file = open(name, O_RDONLY | O_CLOEXEC), answer = PIE_FLIGHT_NONE;
    if (file < 0)
        return answer;
    if (fstat(file, &status) == 0 && status.st_size > 0) {
        void *memory = mmap(NULL, (size_t)status.st_size, PROT_READ, MAP_SHARED, file, 0);
        if (memory != MAP_FAILED) {
            answer = pie_flight_dump(memory, (size_t)status.st_size, NULL, write_to, to);
            munmap(memory, (size_t)status.st_size);
        }
    }
    close(file);
    return answer;
}

const char *flight_text(int answer) {
    switch (answer) {
    case PIE_FLIGHT_DONE:
        return "written";
    case PIE_FLIGHT_NONE:
        return "this is no flight recorder's memory, or not all of it";
    case PIE_FLIGHT_GONE:
        return "all of it was overwritten while it was copied";
    case PIE_FLIGHT_BROKEN:
        return "a record cannot be; the text says where";
    default:
        return "the text cannot be written";
    }
}
