/* Makes CALLS calls of one kind on a state of the library, or at a link, for bench/pie_c_count.sh to count their instructions. Ends with the status 2
 * if a call returned another value than its kind has.
 *
 * usage: pie_c_count KIND CALLS
 */
#include "pie_link.h"

#include <stdio.h>
#include <stdlib.h>
#include <string.h>

static struct pie_params params;
static struct pie_state state;
static struct pie_event event;
static unsigned char text[PIE_RECORD_ROOM];
static struct pie_port port = PIE_PORT_CLOSED;
static struct pie_event burst[32];

/* This number of packets arrives at the link, each as one event or all in one burst, and departs in
 * the same way. */
static uint64_t pass(uint64_t i, size_t count, int together) {
    size_t k, left;
    for (k = 0; k < count; k++) {
        burst[k].kind = PIE_EVENT_ARRIVE;
        burst[k].moment = i;
        burst[k].tag = i;
        burst[k].size = 1000;
        burst[k].ecn = PIE_ECT0;
    }
    if (together) {
        if (pie_link_try_arrive_all(&port, burst, count) != PIE_DONE || burst[count - 1].answer != PIE_ENQUEUE)
            return PIE_BYTES;
        for (k = 0; k < count; k++)
            burst[k].kind = PIE_EVENT_DEPART;
        if (pie_link_try_depart_all(&port, UINT64_MAX, burst, count, &left) != PIE_DONE || left != count)
            return PIE_BYTES;
        return burst[count - 1].answer;
    }
    return pie_link_try_arrive(&port, burst) == PIE_ENQUEUE ? pie_link_try_depart(&port, burst) : PIE_BYTES;
}

/* Makes one call of a kind, with a number that differs from call to call, and returns its return value. */
static uint64_t call(const char *kind, uint64_t i) {
    uint64_t word = i * 6364136223846793005u;
    if (strcmp(kind, "arrive_considered") == 0)
        return pie_arrive(&state, 100000, 1000, 1, PIE_ECT0, word, i) <= PIE_EARLY ? PIE_DONE : PIE_BYTES;
    if (strcmp(kind, "arrive_passed") == 0) /* too few bytes are queued for early drop */
        return pie_arrive(&state, 2048, 1000, 1, PIE_ECT0, word, i);
    if (strcmp(kind, "arrive_dropped") == 0) /* the queue is full */
        return pie_arrive(&state, 262144, 1000, 1, PIE_ECT0, word, i) == PIE_BYTES ? PIE_DONE : PIE_BYTES;
    if (strcmp(kind, "arrive_event") == 0) { /* the first kind, recorded */
        event.moment = i;
        event.tag = i;
        event.word = word;
        event.size = 1000;
        event.ecn = PIE_ECT0;
        return pie_arrive_event(&state, 100000, 1, &event) <= PIE_EARLY ? PIE_DONE : PIE_BYTES;
    }
    if (strcmp(kind, "write_event") == 0) { /* an arrival's record of some 70 bytes */
        event.kind = PIE_EVENT_ARRIVE;
        event.moment = UINT64_C(123456789012345) + i;
        event.tag = 123456 + i;
        event.word = word | UINT64_C(1) << 63;
        event.size = 1000;
        return pie_write_event(&event, text, sizeof text) > 0 ? PIE_DONE : PIE_BYTES;
    }
    if (strcmp(kind, "depart_measured") == 0) /* cycles of the departure rate are open all the time */
        return pie_depart(&state, 1000, 100000, i);
    if (strcmp(kind, "depart_unmeasured") == 0) /* too few bytes are queued for one */
        return pie_depart(&state, 1000, 1000, i);
    if (strcmp(kind, "update") == 0)
        return pie_update(&state, 100000, i * 15000000).code;
    if (strcmp(kind, "update_too_soon") == 0)
        return pie_update(&state, 100000, 1).code == PIE_TOO_SOON ? PIE_DONE : PIE_BYTES;
    if (strcmp(kind, "empty") == 0)
        return pie_empty(&state, i);
    if (strcmp(kind, "reset") == 0)
        return pie_reset(&state, i);
    if (strcmp(kind, "set_params") == 0)
        return pie_set_params(&state, &params, i);
    if (strncmp(kind, "link_", 5) == 0)
        return strstr(kind, "_all") ? pass(i, 32, 1) : pass(i, 1, 0);
    return PIE_BYTES;
}

int main(int count, char **words) {
    if (count != 3)
        return 1;
    struct pie_opening opening;
    pie_default_opening(&opening, 0);
    opening.choices = PIE_USUAL; /* as the figures of docs/PERFORMANCE.md were measured */
    params = opening.params;
    pie_open(&state, &opening);
    state.prob = 50000000000;
    state.old_delay = 15000000;
    state.burst = 0;
    if (pie_link_open(&opening, 2, &port) != PIE_DONE)
        return 2;
    uint64_t calls = strtoull(words[2], NULL, 10);
    for (uint64_t i = 1; i <= calls; i++)
        if (call(words[1], i) != PIE_DONE)
            return 2;
    return 0;
}
