/* Passes each step of histories by time stamps to Linux's own code: pie_drop_early, pie_qdisc_enqueue,
 * pie_process_dequeue and pie_calculate_probability, which run.sh cuts out of Debian's linux-source-6.1, with
 * stand-ins for the kernel functions that they call. Before each step Linux's registers are set to those of the
 * history, except two that Linux computes differently: the delay and the burst allowance.
 *
 * TEXT receives the steps in the format of pie-watch, so that the proved rules decide each of them again. A row `flow`
 * has the registers that were set. If Linux queues a packet that the history drops, or drops one that it queues, the
 * rows `resume` and `wait` have the history's queue.
 *
 * linux_here.c is a copy of the functions in which linux_here.sed exchanged each rule that differs. The smallest set of
 * exchanged rules with the history's result names the differences of a step.
 *
 * The packets of a history by the departure rate pass through a queue of Linux's own, with `dq_rate_estimator` and
 * `bytemode`. Its steps are only written. */
#include "../../bindings/linux/watch_text.h"
#include "steps.h"

#include <arpa/inet.h>
#include <signal.h>

/* Kernel functions that the cut functions call. */
typedef int64_t s64;
typedef u64 psched_time_t;
#define BITS_PER_BYTE 8
#define U64_MAX UINT64_MAX
#define NSEC_PER_MSEC 1000000ull
#define USEC_PER_MSEC 1000ull
#define PSCHED_NS2TICKS(x) ((x) >> 6)
#define PSCHED_TICKS_PER_SEC PSCHED_NS2TICKS(1000000000ull)
#define usecs_to_jiffies(x) (x)
#define clamp_t(type, x, low, high) ((type)(x) < (low) ? (low) : (type)(x) > (high) ? (high) : (type)(x))
#define div_u64(x, y) ((x) / (y))
#define unlikely(x) (x)
#define WRITE_ONCE(x, y) ((x) = (y))
#define READ_ONCE(x) (x)
#define MTU 1514 /* psched_mtu of an Ethernet device */

struct sk_buff {
    u32 len;
    bool ecn;
    u8 cb[64];
};
struct timer_list {
    int unused;
};
static u64 ticks, random_word;
static u32 draws, readings;
#define psched_get_time() (readings++, ticks)
#define psched_mtu(device) MTU
#define get_random_bytes(to, size) (draws++, memcpy(to, &random_word, size))
#define qdisc_cb_private_validate(skb, size) ((void)(skb))
#define qdisc_dev(sch) 0
#define qdisc_skb_cb(skb) ((struct qdisc_skb_cb *)(skb)->cb)
#define INET_ECN_set_ce(skb) ((skb)->ecn)
struct qdisc_skb_cb {
    u8 data[48];
};
struct Qdisc {
    u32 limit, qlen;
    struct {
        u32 backlog;
    } qstats;
    void *data;
};
enum { QUEUED, DROPPED };

#include "linux_pie.h"

#define qdisc_priv(sch) ((struct pie_sched_data *)(sch)->data)
#define qdisc_qlen(sch) ((sch)->qlen)
#define qdisc_enqueue_tail(skb, sch) QUEUED
#define qdisc_drop(skb, sch, to_free) DROPPED

#include "linux_pie.c"

enum { BURST, LAST_DELAY, SMALL, AT_TEN, LIMIT, STAYS, ARRIVAL_DIFFERENCES, FAR = ARRIVAL_DIFFERENCES, DECAY, HOLDS, BOUND, ZERO, CALM, DIFFERENCES };

static struct difference differences[] = {
    [BURST] = {"The burst allowance falls by the time between two departures", 0},
    [LAST_DELAY] = {"The wait of the packet that departed last is compared with half the target", 0},
    [SMALL] = {"While fewer bytes than two MTUs are queued, no packet is picked", 0},
    [AT_TEN] = {"At a probability of exactly 10 per cent it still marks", 0},
    [LIMIT] = {"The only limit is in packets", 0},
    [STAYS] = {"A mark at the upper bound of the accumulated probability leaves it there", 0},
    [FAR] = {"Above 250 ms, the probability grows by 2 percentage points more", 0},
    [DECAY] = {"The probability decays by a 64th", 0},
    [HOLDS] = {"It does not decay while packets are queued", 0},
    [BOUND] = {"Only 64 bits bound the probability, at 256", 0},
    [ZERO] = {"It decays only after two delays of 0", 0},
    [CALM] = {"The accumulated probability is set to 0 when the queue is calm", 0},
};

/* The copy. In it, RULE(NAME, rule, other) is the other rule, which is this project's, if the difference NAME is removed. */
static unsigned removed;
static const struct registers *here; /* of the history, before the step */
static bool decays_here;
#define RULE(name, rule, other) (removed >> (name) & 1 ? (other) : (rule))
#define pie_drop_early here_drop_early
#define pie_qdisc_enqueue here_enqueue
#define pie_calculate_probability here_calculate

static bool forget(struct pie_vars *vars) {
    vars->accu_prob = 0;
    return true;
}

#include "linux_here.c"
#undef pie_drop_early
#undef pie_qdisc_enqueue
#undef pie_calculate_probability

static struct pie_sched_data queue;
static struct Qdisc discipline = {.data = &queue};

/* A probability in Linux's representation. */
static u64 share(uint64_t probability) {
    return (u64)((unsigned __int128)probability * MAX_PROB / ONE);
}

static bool near(double one, double other, double most) {
    return fabs(one - other) <= most;
}

/* ---- the text */

static struct watch_text text;
static struct pie_vars written; /* the registers after the last row */
static u32 sequence;

static struct watch_head head_of(enum watch_type type, u64 moment) {
    return (struct watch_head){.type = (u8)type, .ns = moment, .seq = sequence, .flow = WATCH_FLOW_NONE, .queue = (u16)text.count - 1};
}

static struct watch_vars copied(const struct pie_vars *vars) {
    return (struct watch_vars){vars->qdelay, vars->qdelay_old, vars->burst_time,  vars->dq_tstamp,  vars->prob,
                               vars->accu_prob, vars->dq_count, vars->avg_dq_rate, vars->backlog_old};
}

/* A queue of Linux's own, for a history by the departure rate. Its length and bytes are those of the discipline. */
static struct packet own[MOST_WAITING];
static u32 first_own;

/* Writes a step, or a row that belongs to the last step. */
static void write_record(const void *record, bool is_step) {
    sequence += is_step;
    if (!watch_text_add(&text, record))
        stop("linux", sequence, "a record without its queue");
}

/* Writes a row that has the queue with its parameters. */
static void write_whole(enum watch_type type, const struct registers *now) {
    struct watch_whole whole = {.head = head_of(type, now->moment), .vars = copied(&queue.vars), .target = queue.params.target};
    whole.head.bits = (queue.params.ecn ? WATCH_ECN : 0) | (queue.params.bytemode ? WATCH_BYTEMODE : 0) |
                      (queue.params.dq_rate_estimator ? WATCH_DQ_RATE : 0);
    whole.tupdate = queue.params.tupdate;
    whole.alpha = queue.params.alpha;
    whole.beta = queue.params.beta;
    whole.limit = discipline.limit;
    whole.mtu = MTU;
    whole.qlen = now->packets;
    whole.backlog = (u32)now->bytes;
    memcpy(&whole.stats, &queue.stats, sizeof whole.stats);
    write_record(&whole, true);
    written = queue.vars;
}

/* Writes the queue of the history. */
static void write_queue(const struct registers *now) {
    write_whole(WATCH_RESUME, now);
    struct watch_wait wait = {.head = head_of(WATCH_WAIT, now->moment)};
    wait.head.seq--;
    for (u32 i = 0; i < now->packets; i++) {
        const struct packet *packet = &waiting[(first_waiting + i) % MOST_WAITING];
        wait.enqueued = PSCHED_NS2TICKS(packet->since);
        wait.size = wait.pkt_len = packet->size;
        write_record(&wait, false);
    }
}

/* Writes the registers if they are not those of the rows so far. */
static void write_registers(u64 moment) {
    if (memcmp(&written, &queue.vars, sizeof written) == 0)
        return;
    struct watch_flow flow = {.head = head_of(WATCH_FLOW, moment), .vars = copied(&queue.vars)};
    flow.head.seq--;
    write_record(&flow, false);
}

/* Performs and writes an arrival by Linux's code. Returns its verdict. */
static enum choice enqueue_by_linux(const struct registers *before, const struct step *step) {
    const struct pie_stats stats = queue.stats;
    struct sk_buff packet = {.len = step->size, .ecn = step->ecn};
    write_registers(before->moment);
    draws = 0;
    bool drops = pie_qdisc_enqueue(&packet, &discipline, NULL) == DROPPED;
    bool is_over = queue.stats.overlimit != stats.overlimit, is_marked = queue.stats.ecn_mark != stats.ecn_mark;
    /* (as pie-watch: a moment in ticks if the packet is queued without the rate estimator) */
    u64 moment = drops || queue.params.dq_rate_estimator ? before->moment : PSCHED_NS2TICKS(before->moment) * 64;
    struct watch_enqueue row = {.head = head_of(WATCH_ENQUEUE, moment), .vars = copied(&queue.vars)};
    row.size = row.pkt_len = step->size;
    row.qlen_before = discipline.qlen;
    row.qlen = discipline.qlen + !drops;
    row.backlog_before = discipline.qstats.backlog;
    row.decided_backlog = is_over ? 0 : discipline.qstats.backlog;
    row.backlog = discipline.qstats.backlog + (drops ? 0 : step->size);
    row.protocol = htons(0x0800);
    row.network = htons(step->ecn ? 0x4502 : 0x4500);
    row.enqueued = drops ? 0 : pie_get_enqueue_time(&packet);
    row.random = draws ? step->word : 0;
    /* pie_drop_early returned true if the packet was dropped or marked, and was not called at the limit */
    u8 early = is_over ? WATCH_EARLY_NONE : drops || is_marked;
    row.head.bits = (u8)(WATCH_ROOM | early << 1 | draws << 3);
    row.head.ret = drops;
    row.head.counts = (queue.stats.packets_in != stats.packets_in ? WATCH_COUNT_IN : 0) |
                      (queue.stats.dropped != stats.dropped ? WATCH_COUNT_DROPPED : 0) | (is_over ? WATCH_COUNT_OVERLIMIT : 0) |
                      (is_marked ? WATCH_COUNT_MARK : 0) | (queue.stats.maxq != stats.maxq ? WATCH_COUNT_MAXQ : 0);
    write_record(&row, true);
    written = queue.vars;
    return is_over ? DROP_PACKETS : drops ? DROP_EARLY : is_marked ? MARK : ENQUEUE;
}

/* Performs and writes the departure of a packet by Linux's code, which leaves this many packets and bytes. */
static void dequeue_by_linux(u64 moment, const struct packet *packet, u32 left, u32 bytes) {
    struct sk_buff skb = {.len = packet->size};
    ticks = PSCHED_NS2TICKS(packet->since);
    if (!queue.params.dq_rate_estimator)
        pie_set_enqueue_time(&skb);
    ticks = PSCHED_NS2TICKS(moment);
    write_registers(moment);
    readings = 0;
    pie_process_dequeue(&skb, &queue.params, &queue.vars, bytes);
    u64 recorded = queue.params.dq_rate_estimator ? moment : PSCHED_NS2TICKS(moment) * 64;
    struct watch_dequeue row = {.head = head_of(WATCH_DEQUEUE, recorded), .vars = copied(&queue.vars)};
    row.size = row.pkt_len = packet->size;
    if (queue.params.dq_rate_estimator) {
        row.head.bits = (u8)(WATCH_HAS_CLOCK | readings);
        for (u32 i = 0; i < readings; i++)
            row.at[i] = moment;
    }
    row.decided_backlog = row.backlog = bytes;
    row.qlen = left;
    row.enqueued = pie_get_enqueue_time(&skb);
    write_record(&row, true);
    written = queue.vars;
}

/* Performs and writes an update by Linux's code. */
static void calculate_by_linux(u64 moment, u32 packets, u32 bytes) {
    write_registers(moment);
    pie_calculate_probability(&queue.params, &queue.vars, bytes);
    struct watch_calc row = {.head = head_of(WATCH_CALC, moment), .vars = copied(&queue.vars), .qlen = packets};
    row.decided_backlog = row.backlog = bytes;
    write_record(&row, true);
    written = queue.vars;
}

/* ---- the steps */

static void open_queue(const struct registers *now) {
    static u32 queues;
    struct watch_queue record = {.head = {.type = WATCH_QUEUE, .queue = (u16)queues++}, .handle = 1 << 16, .device = "history"};
    queue = (struct pie_sched_data){0};
    pie_params_init(&queue.params);
    pie_vars_init(&queue.vars);
    queue.params.target = PSCHED_NS2TICKS(now->params.target);
    queue.params.alpha = (u32)(now->params.alpha * 16 / 1000);
    queue.params.beta = (u32)(now->params.beta * 16 / 1000);
    queue.params.ecn = now->params.mark_ecnth != 0;
    queue.params.dq_rate_estimator = queue.params.bytemode = !now->by_stamps;
    discipline = (struct Qdisc){.limit = now->most_packets, .data = &queue};
    if (queue.params.alpha * 1000 / 16 != now->params.alpha || queue.params.beta * 1000 / 16 != now->params.beta ||
        now->params.max_burst != 150000000 || (now->params.mark_ecnth != 0 && now->params.mark_ecnth != ONE / 10))
        stop("linux", 1, "parameters that Linux hasn't");
    sequence = 0;
    write_record(&record, false);
    write_whole(WATCH_INIT, now);
}

struct arrival {
    const struct registers *before, *after;
    const struct step *step;
    struct pie_sched_data queue; /* before the step */
};

/* Returns true if Linux's enqueue decides as the history does once the differences in `set` are removed. */
static bool decides_alike(unsigned set, const void *of) {
    const struct arrival *it = of;
    struct sk_buff packet = {.len = it->step->size, .ecn = it->step->ecn};
    queue = it->queue;
    queue.stats = (struct pie_stats){0};
    removed = set;
    bool drops = here_enqueue(&packet, &discipline, NULL) == DROPPED;
    enum choice verdict = queue.stats.overlimit != 0 ? DROP_PACKETS : drops ? DROP_EARLY : queue.stats.ecn_mark != 0 ? MARK : ENQUEUE;
    enum choice wanted = it->step->verdict == DROP_BYTES && drops ? verdict : it->step->verdict;
    return verdict == wanted && near((double)queue.vars.accu_prob, (double)share(it->after->accu), 1e-9 * MAX_PROB);
}

static const char *see_arrival(const struct registers *before, const struct step *step, const struct registers *after) {
    ticks = PSCHED_NS2TICKS(before->moment);
    random_word = step->word;
    if (!before->by_stamps) {
        if (enqueue_by_linux(before, step) <= MARK) {
            own[(first_own + discipline.qlen++) % MOST_WAITING] = (struct packet){before->moment, step->size};
            discipline.qstats.backlog += step->size;
        }
        return NULL;
    }
    here = before;
    queue.vars.prob = share(before->control.prob);
    queue.vars.accu_prob = share(before->accu);
    discipline.qstats.backlog = (u32)before->bytes;
    discipline.qlen = before->packets;
    struct arrival it = {before, after, step, queue};
    enum choice verdict = enqueue_by_linux(before, step);
    const struct pie_sched_data decided = queue;
    queue = it.queue;
    removed = 0;
    here_enqueue(&(struct sk_buff){.len = step->size, .ecn = step->ecn}, &discipline, NULL);
    if (memcmp(&queue, &decided, sizeof queue) != 0)
        return "linux_here.c with no rule exchanged decides otherwise";
    int set = fewest(ARRIVAL_DIFFERENCES, decides_alike, &it);
    queue = it.queue;
    queue.stats = decided.stats;
    if ((verdict <= MARK) != (step->verdict <= MARK))
        write_queue(after);
    return count_differences(differences, set) ? NULL : "Linux decides otherwise, by no difference that is named";
}

static const char *see_departure(const struct registers *before, const struct packet *packet, const struct registers *after) {
    if (!before->by_stamps) {
        if (discipline.qlen != 0) {
            const struct packet *first = &own[first_own++ % MOST_WAITING];
            discipline.qstats.backlog -= first->size;
            dequeue_by_linux(before->moment, first, --discipline.qlen, discipline.qstats.backlog);
        }
        return NULL;
    }
    dequeue_by_linux(before->moment, packet, after->packets, (u32)after->bytes);
    alike++;
    return near((double)queue.vars.qdelay * 64, (double)after->waited, 64) ? NULL : "Linux has another delay of the packet that departed last";
}

struct change {
    const struct registers *before, *after;
    struct pie_vars vars; /* before the step */
    double least, most;
};

/* Returns true if Linux's update gives the history's numbers once the differences in `set` are removed. */
static bool comes_to(unsigned set, const void *of) {
    const struct change *it = of;
    struct pie_vars vars = it->vars;
    removed = set << FAR;
    here_calculate(&queue.params, &vars, (u32)it->before->bytes);
    double prob = (double)vars.prob / MAX_PROB;
    return it->least <= prob && prob <= it->most && near((double)vars.accu_prob, (double)share(it->after->accu), 1e-9 * MAX_PROB);
}

/* Returns a change with the probabilities that equal this project's after rounding: those at delays that are a tick of 64 ns longer or shorter, and a
 * unit of MAX_PROB for each tick more or less, twice, since Linux rounds each gain down in two steps. */
static struct change change_of(const struct registers *before, const struct registers *after, uint64_t delay) {
    const struct params *params = &before->params;
    const uint64_t prob = before->control.prob, old = before->control.old_delay;
    uint64_t least = probability_by(params, prob, delay > 64 ? delay - 64 : 0, old + 64, decays_here);
    uint64_t most = probability_by(params, prob, delay + 64, old > 64 ? old - 64 : 0, decays_here);
    double grain = 2 * (fabs((double)delay - (double)params->target) + fabs((double)delay - (double)old)) / 64 / MAX_PROB + 4e-12;
    return (struct change){before, after, queue.vars, (double)least / 1e12 - grain, (double)most / 1e12 + grain};
}

static const char *see_update(const struct registers *before, const struct step *step, const struct registers *after) {
    struct pie_vars *vars = &queue.vars;
    if (!before->by_stamps) {
        calculate_by_linux(before->moment, discipline.qlen, discipline.qstats.backlog);
        return NULL;
    }
    here = before;
    decays_here = decays_after(before, step->delay, before->control.old_delay);
    vars->prob = share(before->control.prob);
    vars->accu_prob = share(before->accu);
    vars->qdelay_old = PSCHED_NS2TICKS(before->control.old_delay);
    const struct change it = change_of(before, after, step->delay);
    calculate_by_linux(before->moment, before->packets, (u32)before->bytes);
    struct pie_vars copy = it.vars;
    removed = 0;
    here_calculate(&queue.params, &copy, (u32)before->bytes);
    if (memcmp(&copy, vars, sizeof copy) != 0)
        return "linux_here.c with no rule exchanged gives another probability";
    int set = fewest(DIFFERENCES - FAR, comes_to, &it);
    if (set < 0)
        return "Linux has another probability, and no named difference explains it";
    other_decays += decays_here && before->control.prob != 0 && !(set >> (HOLDS - FAR) & 1) && !(set >> (ZERO - FAR) & 1);
    if (set >> (CALM - FAR) & 1 && after->control.burst != before->params.max_burst)
        return "Linux forgets the accumulated probability where not all is calm";
    return count_differences(differences, set << FAR) ? NULL : "unnamed";
}

int main(int count, char **names) {
    const struct other linux_code = {open_queue, see_arrival, see_departure, see_update};
    FILE *out = count > 1 ? fopen(names[1], "w") : NULL;
    if (out == NULL)
        stop("linux", 1, "usage: linux TEXT HISTORY..");
    signal(SIGPIPE, SIG_IGN); /* the audit reads up to the first wrong step */
    watch_text_head(&text, out);
    for (int i = 2; i < count; i++)
        read_history(names[i], &linux_code);
    tell("Linux 6.1, sch_pie.c", differences, DIFFERENCES);
    return 0;
}
