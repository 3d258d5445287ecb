/* The state of a stage. pie_stage.c decides, and stage_texts.c writes the decisions as text. */
#ifndef STAGE_STATE_H
#define STAGE_STATE_H

#include "pie_follow.h"
#include "pie_stage.h"
#include "pie_text.h"
#include "stage_periods.h"
#include "stage_words.h"

#include <rte_cycles.h>
#include <rte_spinlock.h>
#include <time.h>

#define SHIFT 50 /* struct pie_stage's `factor` is shifted by this number of bits */

/* A queued packet, in 24 bytes of the ring. */
struct waiting {
    struct rte_mbuf *mbuf;
    uint64_t arrived; /* the controller's moment right after the packet's arrival */
    /* From the lowest bit: size on arrival in 16 bits, since another holder of the mbuf may change its length; for the history, ECN field on
     * departure in 2 bits, and number of the packet in the order of arrivals. */
    uint64_t about;
};

#define WAITING_ECN 16 /* position of the ECN field */
#define WAITING_TAG 18 /* position of the number */
#define TAG_MASK (UINT64_MAX >> WAITING_TAG)

static inline uint32_t waiting_size(const struct waiting *packet) {
    return (uint16_t)packet->about;
}

static inline uint32_t waiting_ecn(const struct waiting *packet) {
    return packet->about >> WAITING_ECN & 3;
}

/* A wall-clock time at a moment of the stage's clock. */
struct clock {
    uint64_t moment, unix_time; /* nanoseconds since 1970 */
};

/* The place of a cut in the text of a history, and the preamble of the next text. */
struct cut {
    /* the writer's phase: no cut; the old text is written; 0 was returned at its end; the new preamble is written */
    enum { NONE, AHEAD_OF_US, REACHED, BEGUN } state;
    uint64_t at; /* number of the first event of the new text */
    struct pie_state pie;
    struct pie_stats stats;
    uint64_t count, bytes;     /* number of events, bytes in the queue */
    uint64_t first;            /* number of the oldest queued packet */
    uint32_t packets, written; /* number of queued packets, and of those written */
    struct waiting *queue;     /* the queued packets: packet n has the index n modulo the queue's room */
    uint32_t *flows;           /* their flows with the same indexes; NULL without flows */
    struct clock clock;        /* wall-clock time of the new text */
};

/* The records that a stage keeps. */
enum record {
    NOTHING,
    FLIGHT, /* the flight recorder, which a history follows */
    MORE    /* also interval sums or flows: each packet is checked for them */
};

struct pie_stage {
    struct rte_ring *ring;
    uint64_t start;  /* cycles of the TSC at moment 0 */
    uint64_t factor; /* nanoseconds in a cycle, times 2^SHIFT */
    void *memory;            /* memory of the flight recorder; NULL without one */
    void *scratch;           /* memory for a copy of it; NULL if its text is never requested */
    bool is_followed;        /* true if the history is written */
    size_t memory_bytes;
    uint64_t longest; /* a wait above this many nanoseconds requests the flight recorder's text */
    enum record record;
    struct stage_periods *periods; /* NULL if no interval records are requested */
    pie_stage_flow flow;           /* NULL if flows are not requested */
    void *flow_user;
    uint32_t *flows;               /* flows of the queued packets: packet n has the index n modulo `room` */
    uint32_t room;
    bool ecn, hands_back;

    struct pie_flight_follower follower __rte_cache_aligned; /* for the history's writer, as the fields up to `cut` */
    uint64_t reached, missed; /* number of its next event, count of missed events; other threads read both */
    struct pie_history text;
    struct clock clock;
    bool is_timed; /* true if the text contains `clock` */
    struct pie_opening opening;
    struct cut cut;

    rte_spinlock_t lock __rte_cache_aligned; /* for the fields below; some are read without it too */
    bool picks;                              /* true if the probability is above 0; read without the lock */
    uint64_t due;                            /* first moment at which an update is not too soon; read without it */
    uint32_t packets;                        /* packets in the ring; read without it */
    uint64_t bytes;                          /* their bytes */
    struct pie_state pie;
    uint64_t arrivals; /* number of decided arrivals, the tag of the latest */
    struct pie_flight flight;
    struct pie_stage_stats stats;
    uint64_t most_bytes, greatest_delay; /* statistics of the history that `stats` does not contain */
    bool is_asked;                       /* a packet waited longer than `longest` */
    struct stage_words words;
};

static inline uint64_t nanoseconds_of(const struct pie_stage *stage, uint64_t cycles) {
    unsigned __int128 nanoseconds = (unsigned __int128)cycles * stage->factor >> SHIFT;
    return nanoseconds < PIE_MAX_MOMENT ? (uint64_t)nanoseconds : PIE_MAX_MOMENT;
}

/* Returns the nanoseconds since the stage was created, 0 for an earlier TSC. */
static inline uint64_t moment_of(const struct pie_stage *stage, uint64_t now) {
    return now > stage->start ? nanoseconds_of(stage, now - stage->start) : 0;
}

static inline struct clock read_clock(const struct pie_stage *stage) {
    struct timespec now = {0};
    uint64_t moment = moment_of(stage, rte_rdtsc());
    clock_gettime(CLOCK_REALTIME, &now);
    return (struct clock){moment, (uint64_t)now.tv_sec * 1000000000u + (uint64_t)now.tv_nsec};
}

/* Returns the statistics of the history. The lock is held. */
static inline struct pie_stats history_stats(const struct pie_stage *stage) {
    const struct pie_stage_stats *stats = &stage->stats;
    return (struct pie_stats){
        .arrivals = stage->arrivals,
        .enqueued = stats->queued - stats->marked,
        .marked = stats->marked,
        .early = stats->early,
        .over_bytes = stats->bytes,
        .over_packets = stats->full,
        .left = stats->departed,
        .left_bytes = stats->departed_bytes,
        .updates = stats->updates,
        .changes = stats->changes,
        .largest_queue = stage->most_bytes,
        .largest_delay = stage->greatest_delay,
        .waited = stats->waited,
        .waited_high = stats->waited_high,
    };
}

/* Returns a packet's tag: its number in the order of arrivals. With flows, the upper 32 bits are the flow's number and
 * the lower 32 bits those of the packet's number. */
static __rte_always_inline uint64_t tag_of(const struct pie_stage *stage, uint64_t number, uint32_t flow) {
    return stage->flow == NULL ? number : (uint64_t)flow << 32 | (uint32_t)number;
}

#endif
