/* Runs the arrivals of bench/pie_python.py from a file through the same loop: processor time for an event, in ns,
 * and a checksum of the answers. */
#include "pie_arrays.h"

#include <inttypes.h>
#include <stdio.h>
#include <stdlib.h>
#include <time.h>

enum { COUNT = 1000000, ROOM = 2 * COUNT + 65536, SLOTS = 1 << 20 };

static double now(void) {
    struct timespec time;
    clock_gettime(CLOCK_THREAD_CPUTIME_ID, &time);
    return (double)time.tv_sec * 1e9 + (double)time.tv_nsec;
}

int main(int count, char **words) {
    struct pie_event *arrivals = malloc(COUNT * sizeof *arrivals);
    FILE *file = count == 2 ? fopen(words[1], "rb") : NULL;
    if (!arrivals || !file || fread(arrivals, sizeof *arrivals, COUNT, file) != COUNT)
        return 1;
    struct pie_opening opening;
    struct pie_state state;
    pie_default_opening(&opening, 100000000);
    opening.choices = PIE_USUAL; /* as the figures of docs/PERFORMANCE.md were measured */
    if (pie_open(&state, &opening) != PIE_DONE)
        return 1;
    double begun = now();
    struct pie_event *out = malloc(ROOM * sizeof *out);
    struct pie_array_packet *ring = malloc(SLOTS * sizeof *ring);
    if (!out || !ring)
        return 1;
    struct pie_array_queue queue = {
        .ring = ring, .slots = 1 << 12, .most_packets = 1 << 20, .most_events = UINT64_MAX, .rate = 100000000};
    size_t made = pie_array_offer(&state, &queue, arrivals, COUNT, 0, out, ROOM);
    printf("offer_c %f ns\n", (now() - begun) / (double)made);
    if (queue.why != PIE_ARRAY_ALL)
        return 1;
    uint64_t sum = 0;
    for (size_t k = 0; k < made; k++)
        sum += out[k].answer * (uint64_t)(k + 1);
    printf("answers_c %" PRIu64 " sum\n", sum);
    return 0;
}
