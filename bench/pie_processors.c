/* Makes CALLS calls of the library, or of the same steps in plain C (pie_step.h), for bench/pie_processors.sh to count the instructions outside of main.
 *
 * usage: pie_processors library|plain arrive|depart|update CALLS
 *        pie_processors library check CALLS
 */
#include "pie.h"

#include <stdio.h>
#include <stdlib.h>
#include <string.h>

static struct pie_state state;
static struct pie_opening opening;

#ifdef __SIZEOF_INT128__
#include "pie_step.h"

static struct control control;
static struct rate rate;
static uint64_t accu, greatest;

static void come_by(uint64_t moment) {
    if (moment > greatest)
        greatest = moment;
}

STEP uint32_t plain_arrive(uint64_t queued, uint32_t size, int is_full, int ecn, uint64_t word, uint64_t moment) {
    come_by(moment);
    return arrived_by(&accu, &default_params, &control, queued, size, is_full, ecn, word);
}

STEP void plain_depart(uint32_t size, uint64_t left, uint64_t moment) {
    come_by(moment);
    departed_by(&rate, size, left, greatest, default_params.dq_threshold);
}

STEP void plain_update(uint64_t queued, uint64_t moment) {
    come_by(moment);
    control = control_after(&control, &default_params, delay_by(queued, rate.average, default_params.dq_threshold), moment);
}

static int plain(const char *kind, uint64_t calls) {
    uint64_t i, sum = 0;
    control.prob = state.prob;
    control.old_delay = state.old_delay;
    rate.average = state.average;
    for (i = 1; i <= calls; i++) {
        if (kind[0] == 'a')
            sum += plain_arrive(100000, 1000, 0, 0, i * 6364136223846793005u, i);
        else if (kind[0] == 'd')
            plain_depart(1000, 100000, i * 1000);
        else
            plain_update(100000, i * 15000000);
    }
    return sum == 1;
}
#else
static int plain(const char *kind, uint64_t calls) {
    (void)kind;
    return calls > 0 ? 3 : 0; /* (plain C has 128-bit numbers, which compilers for 32-bit words lack) */
}
#endif

int main(int argc, char **argv) {
    uint64_t i, sum = 0, calls = argc > 3 ? strtoull(argv[3], NULL, 10) : 0;
    if (argc < 4)
        return 2;
    pie_default_opening(&opening, 0);
    opening.choices = PIE_USUAL; /* by the departure rate, as the plain steps */
    if (pie_open(&state, &opening) != PIE_DONE)
        return 2;
    state.prob = 50000000000;
    state.old_delay = 20000000;
    state.average = 1000000;
    state.burst = 0;
    if (strcmp(argv[1], "plain") == 0)
        return plain(argv[2], calls);
    for (i = 1; i <= calls; i++) {
        if (argv[2][0] == 'a')
            sum += pie_arrive(&state, 100000, 1000, 1, PIE_NOT_ECT, i * 6364136223846793005u, i);
        else if (argv[2][0] == 'd')
            sum += pie_depart(&state, 1000, 100000, i * 1000);
        else if (argv[2][0] == 'c')
            sum += pie_check_state(&state);
        else
            sum += pie_update(&state, 100000, i * 15000000).code;
    }
    return sum > 100 * calls;
}
