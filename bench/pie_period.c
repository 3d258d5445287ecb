/* Measures the cost of adding an event to the sums of an interval (pie_*_summed) beside the call
 * that only records the event: considered arrivals, departures with a wait, and a stream of both
 * with an update each 256 events. Prints lines `name value unit`, one for each run, for
 * bench/ratios.py. With `count KIND` it makes 1024 calls of a kind in a separate function, whose
 * instructions bench/pie_period.sh counts.
 *
 * usage: pie_period [count arrive|arrive_summed|depart|depart_summed|stream|stream_summed] */
#define _GNU_SOURCE
#include "pie.h"

#include <stdio.h>
#include <stdlib.h>
#include <string.h>
#include <time.h>

#define RUNS 15
#define CALLS 200000 /* in a run */
#define TURN 2000    /* calls in a turn: the kinds alternate, so that other work on the machine affects all */

static struct pie_state state;
static struct pie_period period;
static struct pie_event event;
static volatile uint64_t sink;

static double now(void) {
    struct timespec it;
    clock_gettime(CLOCK_MONOTONIC, &it);
    return (double)it.tv_sec * 1e9 + (double)it.tv_nsec;
}

/* The next event: one each 1000 ns, with waits of 14 to 18 ms. */
static inline void next(uint64_t i) {
    event.moment = i * 1000;
    event.tag = i;
    event.word = i * UINT64_C(6364136223846793005);
    event.size = 1000;
    event.caller = 1;
    event.ecn = PIE_ECT0;
}

static inline uint64_t arrived(uint64_t i) {
    return state.moment - 14000000 - i % 4096 * 1000;
}

__attribute__((noinline)) static uint32_t arrive(uint64_t i) {
    next(i);
    return pie_arrive_event(&state, 100000, 1, &event);
}

__attribute__((noinline)) static uint32_t arrive_summed(uint64_t i) {
    next(i);
    return pie_arrive_summed(&state, 100000, 1, &event, &period);
}

__attribute__((noinline)) static uint32_t depart(uint64_t i) {
    next(i);
    return pie_depart_event(&state, 100000, arrived(i), &event);
}

__attribute__((noinline)) static uint32_t depart_summed(uint64_t i) {
    next(i);
    return pie_depart_summed(&state, 100000, arrived(i), &event, &period);
}

__attribute__((noinline)) static uint32_t stream(uint64_t i) {
    next(i);
    if (i % 256 == 255)
        return pie_update_event(&state, 18000, &event);
    return i % 2 ? pie_arrive_event(&state, 100000, 1, &event) : pie_depart_event(&state, 100000, arrived(i), &event);
}

__attribute__((noinline)) static uint32_t stream_summed(uint64_t i) {
    next(i);
    if (i % 256 == 255)
        return pie_update_summed(&state, 18000, &event, &period);
    return i % 2 ? pie_arrive_summed(&state, 100000, 1, &event, &period)
                 : pie_depart_summed(&state, 100000, arrived(i), &event, &period);
}

static const struct kind {
    const char *name;
    uint32_t (*call)(uint64_t);
} kinds[] = {{"arrive", arrive}, {"arrive_summed", arrive_summed}, {"depart", depart},
             {"depart_summed", depart_summed}, {"stream", stream}, {"stream_summed", stream_summed}};

#define KINDS (sizeof kinds / sizeof kinds[0])

static void open_all(void) {
    struct pie_opening opening;
    pie_default_opening(&opening, 0);
    opening.choices = PIE_USUAL; /* as the figures of docs/PERFORMANCE.md were measured */
    opening.moment = 100000000;
    opening.params.t_update = 100000;
    opening.params.max_burst = 0;
    if (pie_open(&state, &opening) != PIE_DONE || pie_open_period(&period, 1000000000, 0) != PIE_DONE)
        exit(1);
    state.prob = UINT64_C(50000000000);
    state.old_delay = 15000000;
    state.average = 14000000;
}

int main(int count, char **words) {
    uint64_t i = 200000;
    open_all();
    if (count > 2) {
        for (size_t kind = 0; kind < KINDS; kind++)
            if (strcmp(kinds[kind].name, words[2]) == 0)
                for (int k = 0; k < 1024; k++)
                    sink += kinds[kind].call(++i);
        return 0;
    }
    for (int run = 0; run < RUNS; run++) {
        double times[KINDS] = {0};
        for (int turn = 0; turn < CALLS / TURN; turn++)
            for (size_t kind = 0; kind < KINDS; kind++) {
                double start = now();
                for (int k = 0; k < TURN; k++)
                    sink += kinds[kind].call(++i);
                times[kind] += now() - start;
            }
        for (size_t kind = 0; kind < KINDS; kind++)
            printf("%s %.3f ns\n", kinds[kind].name, times[kind] / CALLS);
        for (size_t kind = 0; kind < KINDS; kind += 2)
            printf("more_%s %.3f ns\n", kinds[kind].name, (times[kind + 1] - times[kind]) / CALLS);
    }
    return 0;
}
