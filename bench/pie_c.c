/* The static library beside the same steps in plain C (pie_step.h) and, if its header exists, beside DPDK's rte_pie.h:
 * the time of a call, and over one stream under 8 per cent overload the time a packet and the mean wait. Each line is
 * `name value unit`, once a run; bench/pie_c.sh prints the least, the median and the ratios of them. It ends with a status
 * above 1 if the library and plain C differ in a decision.
 *
 * usage: bench/pie_c.sh
 */
#include "pie_step.h"

#include "pie.h"

#include <stdio.h>
#include <stdlib.h>
#include <string.h>

#ifdef WITH_DPDK
#include <rte_pie.h>
#endif

#define RUNS 7
#define ROUNDS 3                  /* over the inputs of a call, each run */
#define INPUTS 65536
#define TURN 2048                 /* calls in a turn: library and plain C alternate, so that other work on the machine
                                     affects both */
#define LINK 80                   /* nanoseconds a byte: 100 Mbit/s */
#define PACKETS 1500000           /* packets of the stream: about two minutes */
#define WARM 20000000000ull       /* waits are counted after 20 seconds */
#define RING 4096
#define LIMIT (1u << 20)

/* The controllers: each decides an arrival and processes a departure. */
enum which { NONE, LIBRARY, PLAIN, DPDK };
static const char *const names[] = {"none", "library", "c", "dpdk"};

static struct params plain_params;

struct plain {
    uint64_t accu, moment;
    struct control control;
    struct rate rate;
};

/* An update of the library's scope in plain C: the delay, and then the controller. */
STEP void updated_by(struct plain *plain, const struct params *p, uint64_t queued, uint64_t moment) {
    plain->control = control_after(&plain->control, p, delay_by(queued, plain->rate.average, p->dq_threshold), moment);
}

/* The effective moment: the greatest so far. */
static inline void come_by(struct plain *plain, uint64_t moment) {
    if (moment > plain->moment)
        plain->moment = moment;
}

/* An arrival of the library's scope in plain C. */
STEP uint32_t arrived(struct plain *plain, const struct params *p, uint64_t queued, uint32_t size, uint32_t room,
                      uint32_t ecn, uint64_t random, uint64_t moment) {
    come_by(plain, moment);
    enum choice drop = tail_drop_by(&plain->accu, p, queued, size, room == 0);
    return drop != ENQUEUE ? drop : consider(&plain->accu, p, &plain->control, queued, (int)ecn, random);
}

/* A departure of the library's scope in plain C: it keeps the greatest moment, as an arrival does. */
STEP void left_at(struct plain *plain, const struct params *p, uint32_t size, uint64_t left, uint64_t moment) {
    come_by(plain, moment);
    departed_by(&plain->rate, size, left, plain->moment, p->dq_threshold);
}

/* PIE in plain C with parameters and activity in the state, as in the library's state; its calls have the library's
 * refusals. */
struct checked {
    struct params params;
    struct plain plain;
    uint64_t active;
};

STEP uint32_t checked_arrival(struct checked *s, uint64_t queued, uint32_t size, uint32_t room, uint32_t ecn, uint64_t random,
                              uint64_t moment) {
    if (moment > PIE_MAX_MOMENT)
        return PIE_BAD_MOMENT;
    if (size == 0 || size > PIE_MAX_SIZE)
        return PIE_BAD_SIZE;
    if (ecn > PIE_CE)
        return PIE_BAD_ECN;
    if (queued > PIE_MAX_BYTES)
        return PIE_BAD_QUEUE;
    come_by(&s->plain, moment);
    enum choice drop = tail_drop_by(&s->plain.accu, &s->params, queued, size, room == 0);
    if (drop != ENQUEUE || !s->active)
        return drop;
    return consider_by(&s->plain.accu, &s->params, &s->plain.control, queued, (int)ecn, random);
}

STEP uint32_t checked_departure(struct checked *s, uint32_t size, uint64_t left, uint64_t moment) {
    if (moment > PIE_MAX_MOMENT)
        return PIE_BAD_MOMENT;
    if (size == 0 || size > PIE_MAX_SIZE)
        return PIE_BAD_SIZE;
    if (left > PIE_MAX_BYTES)
        return PIE_BAD_QUEUE;
    come_by(&s->plain, moment);
    if (s->active)
        departed_by(&s->plain.rate, size, left, s->plain.moment, s->params.dq_threshold);
    return PIE_DONE;
}

struct waiting {
    uint32_t size;
    uint64_t since;
};

static struct {
    uint64_t moment, random;
    uint32_t size;
} *stream;

static struct waiting ring[RING];

struct outcome {
    double nanos, wait;
    uint64_t dropped;
};

/* The stream through one controller in front of the link. */
static struct outcome run(enum which which) {
    struct pie_state state;
    struct pie_opening opening;
    struct plain plain = {0, 0, {0, 0, plain_params.max_burst, 0}, {0, 0, 0, 0}};
    pie_default_opening(&opening, 0);
    opening.choices = PIE_USUAL; /* by the departure rate, as rte_pie and the plain steps */
    opening.params.limit_bytes = LIMIT;
    pie_open(&state, &opening);
#ifdef WITH_DPDK
    struct rte_pie_config config = {15000000, 15000000, 150000000, LIMIT / 782};
    struct rte_pie dpdk;
    memset(&dpdk, 0, sizeof dpdk);
#endif
    uint64_t queued = 0, next_free = 0, due = 15000000, waited = 0, left = 0, dropped = 0;
    uint32_t first = 0, packets = 0;
    double begin = nanos();
    for (int i = 0; i < PACKETS; i++) {
        uint64_t now = stream[i].moment;
        uint32_t size = stream[i].size, verdict = 0;
        while (packets != 0 && next_free <= now) {
            struct waiting oldest = ring[first];
            first = (first + 1) % RING;
            packets--;
            queued -= oldest.size;
            if (which == LIBRARY)
                pie_depart(&state, oldest.size, queued, next_free);
            else if (which == PLAIN)
                departed(&plain.rate, oldest.size, queued, next_free, plain_params.dq_threshold);
#ifdef WITH_DPDK
            else if (which == DPDK) {
                dpdk.qlen--;
                dpdk.qlen_bytes -= oldest.size;
                rte_pie_dequeue(&dpdk, oldest.size, next_free);
            }
#endif
            if (next_free > WARM) {
                waited += next_free - oldest.since;
                left++;
            }
            next_free += (uint64_t)oldest.size * LINK;
        }
        if (packets == 0 && next_free < now)
            next_free = now;
        if (now >= due && (which == LIBRARY || which == PLAIN)) {
            if (which == LIBRARY)
                due = pie_update(&state, queued, now).due;
            else {
                updated_by(&plain, &plain_params, queued, now);
                due = now + plain_params.t_update;
            }
        }
        if (which == LIBRARY)
            verdict = pie_arrive(&state, queued, size, RING - packets, PIE_NOT_ECT, stream[i].random, now);
        else if (which == PLAIN)
            verdict = arrived(&plain, &plain_params, queued, size, RING - packets, 0, stream[i].random, now);
#ifdef WITH_DPDK
        else if (which == DPDK)
            verdict = (uint32_t)rte_pie_enqueue(&config, &dpdk, packets, size, now);
#endif
        if (verdict == 0 && queued + size <= LIMIT && packets < RING) {
            ring[(first + packets++) % RING] = (struct waiting){size, now};
            queued += size;
        } else {
            dropped++;
#ifdef WITH_DPDK
            if (which == DPDK && verdict == 0) {
                dpdk.qlen--;
                dpdk.qlen_bytes -= size;
            }
#endif
        }
    }
    return (struct outcome){(nanos() - begin) / PACKETS, left == 0 ? 0 : (double)waited / (double)left, dropped};
}

struct arrival {
    uint64_t bytes, word;
    uint32_t ecn;
};

struct departure {
    uint32_t size;
    uint64_t moment;
};

static struct arrival arrivals[INPUTS];
static struct departure departures[INPUTS];

static void make_inputs(void) {
    last = 1;
    for (int i = 0; i < INPUTS; i++) {
        arrivals[i].bytes = 4096 + word() % 200000;
        arrivals[i].ecn = (uint32_t)(word() % 4);
        arrivals[i].word = word();
        departures[i].size = 64 + (uint32_t)(word() % 1437);
        departures[i].moment = i * 2000ull + word() % 2000;
    }
}

/* The times of the calls, printed after all calls: printing between them would change the caches of the next call. */
#define TIMES (16 * INPUTS / TURN)
static struct timed {
    const char *name;
    double nanos;
} timed[TIMES];
static int times;

/* Stores the time of this many calls of this name that began at `then`. Returns the present time. */
static double keep_nanos(const char *name, double begin, int calls) {
    double now = nanos();
    timed[times++] = (struct timed){name, (now - begin) / calls};
    return now;
}

/* The time of a considered arrival; the sum of the results is the decisions. */
static void arrive(struct pie_state *state, struct plain *plain, struct checked *copy) {
    uint64_t library = 0, c = 0, checked = 0;
    for (int from = 0; from < INPUTS; from += TURN) {
        double begin = nanos();
        for (int i = from; i < from + TURN; i++)
            library = library * 31 + pie_arrive(state, arrivals[i].bytes, 1000, 1, arrivals[i].ecn, arrivals[i].word, (uint64_t)i);
        begin = keep_nanos("arrive_library", begin, TURN);
        for (int i = from; i < from + TURN; i++)
            c = c * 31 + arrived(plain, &plain_params, arrivals[i].bytes, 1000, 1, arrivals[i].ecn, arrivals[i].word, (uint64_t)i);
        begin = keep_nanos("arrive_c", begin, TURN);
        for (int i = from; i < from + TURN; i++)
            checked = checked * 31 +
                      checked_arrival(copy, arrivals[i].bytes, 1000, 1, arrivals[i].ecn, arrivals[i].word, (uint64_t)i);
        keep_nanos("arrive_c_checked", begin, TURN);
    }
    if (library != c || library != checked || state->accu != plain->accu || state->accu != copy->plain.accu)
        exit(2);
}

static int is_other(const struct rate *one, const struct rate *other) {
    return one->average != other->average || one->begun != other->begun || one->start != other->start || one->count != other->count;
}

static void depart(struct pie_state *state, struct plain *plain, struct checked *copy) {
    struct plain kept = *plain;
    for (int from = 0; from < INPUTS; from += TURN) {
        double begin = nanos();
        for (int i = from; i < from + TURN; i++)
            pie_depart(state, departures[i].size, 100000, departures[i].moment);
        begin = keep_nanos("depart_library", begin, TURN);
        for (int i = from; i < from + TURN; i++)
            departed(&plain->rate, departures[i].size, 100000, departures[i].moment, plain_params.dq_threshold);
        begin = keep_nanos("depart_c", begin, TURN);
        for (int i = from; i < from + TURN; i++)
            left_at(&kept, &plain_params, departures[i].size, 100000, departures[i].moment);
        begin = keep_nanos("depart_c_moment", begin, TURN);
        for (int i = from; i < from + TURN; i++)
            checked_departure(copy, departures[i].size, 100000, departures[i].moment);
        keep_nanos("depart_c_checked", begin, TURN);
    }
    if (state->average != plain->rate.average || state->measuring != (uint64_t)plain->rate.begun ||
        state->cycle_start != plain->rate.start || state->cycle_count != plain->rate.count)
        exit(3);
    if (is_other(&plain->rate, &kept.rate) || is_other(&plain->rate, &copy->plain.rate) || state->moment != kept.moment ||
        state->moment != copy->plain.moment)
        exit(6);
}

static void update(struct pie_state *state, struct plain *plain) {
    double begin = nanos();
    for (uint64_t i = 1; i <= INPUTS; i++)
        pie_update(state, arrivals[i % INPUTS].bytes, (i + 10) * 15000000);
    begin = keep_nanos("update_library", begin, INPUTS);
    for (uint64_t i = 1; i <= INPUTS; i++)
        updated_by(plain, &plain_params, arrivals[i % INPUTS].bytes, (i + 10) * 15000000);
    keep_nanos("update_c", begin, INPUTS);
    if (state->prob != plain->control.prob || state->burst != plain->control.burst ||
        state->old_delay != plain->control.old_delay || state->last != plain->control.last)
        exit(4);
}

/* The time of each call, over the same inputs. */
static void calls(void) {
    struct pie_opening opening;
    struct pie_state state;
    pie_default_opening(&opening, 0);
    opening.choices = PIE_USUAL; /* by the departure rate, as rte_pie and the plain steps */
    opening.params.limit_bytes = LIMIT;
    pie_open(&state, &opening);
    state.prob = 50000000000;
    state.old_delay = 15000000;
    state.burst = 0;
    struct plain plain = {0, 0, {state.prob, state.old_delay, 0, 0}, {0, 0, 0, 0}};
    struct checked copy = {plain_params, plain, 1};
    arrive(&state, &plain, &copy);
    depart(&state, &plain, &copy);
    update(&state, &plain);
    for (int i = 0; i < times; i++)
        printf("%s %.3f ns\n", timed[i].name, timed[i].nanos);
    times = 0;
}

/* 8 per cent more than the link takes, in gaps of half to one and a half of the mean. */
static void make_stream(void) {
    uint64_t now = 0;
    last = 7;
    for (int i = 0; i < PACKETS; i++) {
        stream[i].size = 64 + (uint32_t)(word() % 1437);
        stream[i].random = word();
        stream[i].moment = now;
        now += stream[i].size * (uint64_t)LINK * (50 + word() % 101) / 108;
    }
}

int main(void) {
    stream = malloc(PACKETS * sizeof *stream);
    if (!stream)
        return 1;
    plain_params = default_params;
    plain_params.limit_bytes = LIMIT;
    make_inputs();
    make_stream();
#ifdef WITH_DPDK
    int count = 4;
#else
    int count = 3;
#endif
    struct outcome one[4];
    for (int k = 0; k < RUNS; k++) {
        for (int round = 0; round < ROUNDS; round++)
            calls();
        for (int which = 0; which < count; which++) {
            one[which] = run((enum which)which);
            printf("stream_%s %.1f ns\nwait_%s %.2f ms\ndropped_%s %.2f percent\n", names[which], one[which].nanos,
                   names[which], one[which].wait / 1e6, names[which], 100.0 * (double)one[which].dropped / PACKETS);
        }
        if (one[LIBRARY].dropped != one[PLAIN].dropped || one[LIBRARY].wait != one[PLAIN].wait)
            return 5;
    }
    return 0;
}
