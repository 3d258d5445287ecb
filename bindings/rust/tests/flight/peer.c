/* Compares the C recorder (include/pie_flight.h) with the Rust recorder: its memory after the same
 * events, and its text of a memory.
 *
 * usage: peer keep EVENTS UNIX_TIME    reads a struct pie_opening and a struct pie_state, and then, for each event,
 *                                      the state after it and the event; writes the memory of a recorder that keeps
 *                                      at least EVENTS events, with the wall-clock time UNIX_TIME at moment 0
 *        peer text                     reads memory, and writes its text; the status is that of pie_flight_dump */
#include "pie_flight.h"

#include <stdio.h>
#include <stdlib.h>

static int keep(uint64_t events, uint64_t unix_time) {
    struct pie_opening opening;
    struct pie_state state;
    struct pie_event event;
    struct pie_flight flight;
    if (fread(&opening, sizeof opening, 1, stdin) != 1 || fread(&state, sizeof state, 1, stdin) != 1)
        return 100;
    size_t bytes = pie_flight_bytes(events, opening.packets);
    void *memory = calloc(1, bytes + 1);
    if (memory == NULL || !pie_flight_open(&flight, memory, bytes, events, &opening, &state) || !pie_flight_clock(memory, 0, unix_time))
        return 101;
    while (fread(&state, sizeof state, 1, stdin) == 1 && fread(&event, sizeof event, 1, stdin) == 1)
        pie_flight_keep(&flight, &state, &event);
    return fwrite(memory, 1, bytes, stdout) == bytes ? 0 : 102;
}

static int write_out(void *unused, const unsigned char *bytes, size_t count) {
    (void)unused;
    return fwrite(bytes, 1, count, stdout) == count ? 0 : 1;
}

static int text(void) {
    size_t most = (size_t)1 << 30, count;
    void *memory = aligned_alloc(64, most); /* (touched as far as it is used) */
    if (memory == NULL)
        return 103;
    count = fread(memory, 1, most, stdin);
    return pie_flight_dump(memory, count, NULL, write_out, NULL);
}

int main(int count, char **words) {
    int answer = 104;
    if (count == 4 && strcmp(words[1], "keep") == 0)
        answer = keep(strtoull(words[2], NULL, 10), strtoull(words[3], NULL, 10));
    else if (count == 2 && strcmp(words[1], "text") == 0)
        answer = text();
    return fflush(stdout) == 0 ? answer : 105;
}
