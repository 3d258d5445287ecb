/* Passes each step of histories by the departure rate to DPDK's own code, rte_pie.h of Debian's libdpdk-dev. Before
 * each step DPDK's registers are set to those of the history, except the burst allowance, which DPDK keeps itself.
 * A cycle of its clock is a nanosecond here. */
#include "steps.h"

#include <rte_random.h>

static double word_below_one;
#define rte_drand() word_below_one
#include <rte_pie.h>

enum { STAYS, TENTH, WRAPS, GROWS, LIMIT, ARRIVAL_DIFFERENCES, UNSIGNED = ARRIVAL_DIFFERENCES, CYCLES, PACKETS, HALF, DIFFERENCES };

static struct difference differences[] = {
    [STAYS] = {"accumulated probability stays at its upper bound", 0},
    [TENTH] = {"at most a tenth of `tailq_th` packets are queued, no packet is picked", 0},
    [WRAPS] = {"burst allowance wraps around below 0", 0},
    [GROWS] = {"also accumulates during a burst allowance", 0},
    [LIMIT] = {"`limit_bytes` | bytes | none", 0},
    [UNSIGNED] = {"Delays are unsigned", 0},
    [CYCLES] = {"gains are per cycle of the clock", 0},
    [PACKETS] = {"packets times the transmission time of a byte", 0},
    [HALF] = {"decays if two delays are below half the target", 0},
};

static struct rte_pie_config config;
static struct rte_pie pie;

static bool near(double one, double other, double most) {
    return fabs(one - other) <= most;
}

static void open_queue(const struct registers *now) {
    if (now->by_stamps || now->params.mark_ecnth != 0 || now->params.dq_threshold != RTE_DQ_THRESHOLD)
        stop("dpdk", 1, "not by the departure rate, or parameters that DPDK hasn't");
    config = (struct rte_pie_config){now->params.target, now->params.t_update, now->params.max_burst, (uint16_t)now->most_packets};
    pie = (struct rte_pie){.burst_allowance = (uint32_t)config.max_burst};
}

/* The registers of the history, and the queue as it is. */
static void set(const struct registers *now) {
    pie.active = 1;
    pie.qlen = now->packets;
    pie.qlen_bytes = now->bytes;
    pie.drop_prob = (double)now->control.prob / 1e12;
    pie.accu_prob = (double)now->accu / 1e12;
    pie.qdelay_old = now->control.old_delay;
    pie.avg_dq_time = now->rate.average;
    pie.in_measurement = (uint16_t)now->rate.begun;
    pie.start_measurement = now->rate.start;
    pie.departed_bytes_count = (uint32_t)now->rate.count;
    pie.last_measurement = now->moment;
}

struct arrival {
    const struct registers *before, *after;
    const struct step *step;
    uint32_t burst; /* DPDK's own */
};

static bool decides_alike(unsigned set_of, const void *of) {
    const struct arrival *it = of;
    const struct registers *before = it->before;
    set(before);
    pie.burst_allowance = set_of >> WRAPS & 1 ? (uint32_t)before->control.burst : it->burst;
    config.tailq_th = (uint16_t)before->most_packets;
    if (set_of >> TENTH & 1 && before->packets < before->most_packets) {
        /* a queue with a number of packets below the tenth if this rule does not pick, and above it if it does */
        pie.qlen = before->bytes <= 2 * before->params.mean_pkt ? 0 : config.tailq_th - 1;
    }
    bool is_full = set_of >> LIMIT & 1 && before->bytes + it->step->size > before->params.limit_bytes;
    if (is_full)
        config.tailq_th = 0;
    bool is_empty = before->packets == 0 && !is_full;
    int answer = rte_pie_enqueue(&config, &pie, is_empty ? 0 : (unsigned)pie.qlen, it->step->size, before->moment);
    config.tailq_th = (uint16_t)before->most_packets;
    if (set_of >> STAYS & 1 && answer == 2)
        pie.accu_prob = 0;
    if (set_of >> GROWS & 1 && pie.burst_allowance != 0)
        pie.accu_prob = (double)before->accu / 1e12;
    static const int answers[] = {[ENQUEUE] = 0, [DROP_EARLY] = 2, [DROP_BYTES] = 1, [DROP_PACKETS] = 1};
    return answer == answers[it->step->verdict] && near(pie.accu_prob, (double)it->after->accu / 1e12, 1e-9);
}

static const char *see_arrival(const struct registers *before, const struct step *step, const struct registers *after) {
    struct arrival it = {before, after, step, pie.burst_allowance};
    word_below_one = (double)(step->word >> 11) * 0x1p-53;
    int found = fewest(ARRIVAL_DIFFERENCES, decides_alike, &it);
    pie.burst_allowance = it.burst;
    return count_differences(differences, found) ? NULL : "DPDK decides otherwise, by no difference that is named";
}

static const char *see_departure(const struct registers *before, const struct packet *packet, const struct registers *after) {
    set(before);
    pie.qlen = after->packets;
    pie.qlen_bytes = after->bytes;
    rte_pie_dequeue(&pie, packet->size, before->moment);
    bool is_same = near((double)pie.avg_dq_time, (double)after->rate.average, 2) && pie.in_measurement == after->rate.begun;
    if (after->rate.begun)
        is_same = is_same && pie.start_measurement == after->rate.start && pie.departed_bytes_count == after->rate.count;
    alike++;
    return is_same ? NULL : "DPDK has another departure rate";
}

struct change {
    const struct registers *before;
    uint64_t delay;
};

static uint64_t delay_with(unsigned set_of, const struct change *it) {
    return set_of >> (PACKETS - UNSIGNED) & 1 ? it->before->packets * (it->before->rate.average >> 14) : it->delay;
}

static bool decays_with(unsigned set_of, const struct change *it) {
    struct registers chosen = *it->before;
    chosen.decays_below_half = chosen.decays_below_half || (set_of >> (HALF - UNSIGNED) & 1);
    return decays_after(&chosen, delay_with(set_of, it), chosen.control.old_delay);
}

/* The probability by this rule with a set of DPDK's differences. */
static bool comes_to(unsigned set_of, const void *of) {
    const struct change *it = of;
    const struct registers *before = it->before;
    bool is_unsigned = set_of >> (UNSIGNED - UNSIGNED) & 1, is_cycles = set_of >> (CYCLES - UNSIGNED) & 1;
    uint64_t delay = delay_with(set_of, it);
    uint64_t old = before->control.old_delay, target = before->params.target;
    double over = is_unsigned ? (double)(delay - target) : (double)delay - (double)target;
    double rise = is_unsigned ? (double)(delay - old) : (double)delay - (double)old;
    double prob = (double)before->control.prob / 1e12, step = (RTE_ALPHA * over + RTE_BETA * rise) * (is_cycles ? 1 : 1e-9);
    step /= prob < 1e-6 ? 2048 : prob < 1e-5 ? 512 : prob < 1e-4 ? 128 : prob < 1e-3 ? 32 : prob < 1e-2 ? 8 : prob < 0.1 ? 2 : 1;
    if (prob >= 0.1 && step > 0.02)
        step = 0.02;
    prob += step;
    prob = fmin(fmax(prob * (decays_with(set_of, it) ? 0.98 : 1), 0), 1);
    return near(prob, pie.drop_prob, 1e-11);
}

static const char *see_update(const struct registers *before, const struct step *step, const struct registers *after) {
    uint32_t burst = pie.burst_allowance;
    set(before);
    (void)after;
    _calc_drop_probability(&config, &pie, before->moment);
    if (pie.burst_allowance != (burst > config.dp_update_interval ? burst - config.dp_update_interval : 0) &&
        (int64_t)burst - (int64_t)config.dp_update_interval >= 0)
        return "DPDK has another burst allowance";
    struct change it = {before, step->delay};
    int found = fewest(DIFFERENCES - UNSIGNED, comes_to, &it);
    if (found < 0)
        return "DPDK has another probability, and no named difference explains it";
    other_decays += decays_after(before, step->delay, before->control.old_delay) && before->control.prob != 0 && decays_with((unsigned)found, &it);
    return count_differences(differences, found << UNSIGNED) ? NULL : "unnamed";
}

int main(int count, char **names) {
    const struct other dpdk_code = {open_queue, see_arrival, see_departure, see_update};
    for (int i = 1; i < count; i++)
        read_history(names[i], &dpdk_code);
    tell("DPDK 22.11, rte_pie.h", differences, DIFFERENCES);
    return 0;
}
