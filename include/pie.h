/* PIE (RFC 8033), an active queue management algorithm, for a packet queue that the caller owns.
 *
 * The library decides whether an arriving packet is queued, marked or dropped. The caller owns the packets, the clock and
 * the source of random words. The controller's state is a struct of numbers, also owned by the caller; each call takes a
 * pointer to it. No call allocates memory, blocks, reads a clock or keeps a pointer, so calls may be made under a spin lock.
 * Link with libpie_c.a (`pkg-config pie_c`).
 *
 * Units: moments and times are whole nanoseconds, counted from a start that the caller chooses; a moment is at most
 * 2^60 - 1. Probabilities are whole numbers of 10^-12, from 0 to 10^12. Sizes are bytes.
 *
 * Errors: each call checks its arguments. If an argument is out of range, the call returns a code above 100 and the state is
 * unchanged.
 *
 * State: pie_update, pie_reset and pie_set_params also check the whole state. The calls for each packet (pie_arrive,
 * pie_depart, pie_depart_waited, pie_empty) do not. A state that pie_open initialized and only these calls changed is always
 * valid. Call pie_check_state on a state from any other source. The calls for each packet are safe on any bits: they
 * terminate, do not overflow and touch no other memory. They treat a dq_threshold above 65536 as 65536, and a `measuring`
 * or `active` other than 1 as 0.
 *
 * Requirements that no call can check:
 * - Each pointer points to an aligned struct of its type, which no other thread reads or writes during the call.
 * - The structs of one call do not overlap. Exception: `params` may be &state->params.
 * - `queued` and `left` are the bytes that are in the queue.
 * - Each queued packet leaves by one call of pie_depart or pie_depart_waited.
 *
 * Cost: about 30 to 80 instructions for a packet, 230 for an update. A call uses at most 512 bytes of stack, pie_*_summed
 * at most 1024, pie_write_* at most 2560, pie_link_* at most 4096, pie_link_open_port at most 12288. On mipsel,
 * pie_write_period and pie_write_resume use at most 9216 bytes. This includes all functions that a call calls except those of
 * the C library and of the compiler (memcpy, memmove, memset, division; calls that open or close a link also call malloc and
 * free).
 *
 * docs/LIBRARY.md (installed as share/doc/pie/LIBRARY.md) explains the choice of the clock, the timer, the random
 * word and the limits, segmentation offload, and how to handle errors. Read it before the first use.
 */
#ifndef PIE_H
#define PIE_H

#include <stddef.h>
#include <stdint.h>

#if defined(__BYTE_ORDER__) && __BYTE_ORDER__ != __ORDER_LITTLE_ENDIAN__
#error "the library is for little-endian processors"
#endif

#ifdef __cplusplus
extern "C" {
#endif

/* The version of this header and of the library. A program linked with libpie.so.0 runs with each later libpie.so.0: the
 * functions, structs, fields, offsets and constants of this header and of pie_link.h stay, and others may be added.
 * dist/abi.txt lists all of them. */
#define PIE_VERSION "0.1.0"

#define PIE_MAX_MOMENT UINT64_C(1152921504606846975) /* the greatest moment, 2^60 - 1 ns */
#define PIE_ONE UINT64_C(1000000000000)              /* the probability 1: 10^12 */
#define PIE_MAX_BYTES UINT64_C(1073741824)           /* the greatest limit_bytes, and the most bytes in a queue: 2^30 */
#define PIE_MAX_SIZE UINT32_C(65535)                 /* the greatest size of a packet, in bytes */

/* Return codes. An error that also exists in histories has its number there plus 100. */
enum {
    PIE_DONE = 0,    /* success */
    PIE_ENQUEUE = 0, /* arrival: queue the packet unchanged */
    PIE_MARK = 1,    /* arrival: queue the packet with its ECN field set to CE (RFC 8033, section 5.1) */
    PIE_EARLY = 2,   /* arrival: drop the packet, early drop (sections 4.1 and 5.4) */
    PIE_BYTES = 3,   /* arrival: drop the packet, the queue would exceed limit_bytes (appendix A) */
    PIE_PACKETS = 4, /* arrival: drop the packet, the caller's ring is full */
    PIE_NONE = 5,    /* departure: the queue was empty */

    PIE_BAD_MOMENT = 101, /* a moment above 2^60 - 1 */
    PIE_BAD_SIZE = 102,   /* a size outside 1 to 65535 */
    PIE_TOO_SOON = 103,   /* an update before it is due */
    PIE_BAD_PARAMS = 107, /* a parameter out of its range; pie_check_params returns which one */
    PIE_BAD_STATE = 110,  /* a field of the state out of its range, or fields that contradict each other */
    PIE_BAD_ECN = 111,    /* an ECN field above 3 */
    PIE_BAD_QUEUE = 112,  /* more than 2^30 bytes in the queue */
    PIE_BAD_PROFILE = 113, /* a profile that is neither 1 nor 2 */

    PIE_NOT_A_NUMBER = 114, /* a text that is not a number with a unit of the expected kind */
    PIE_TOO_PRECISE = 115,  /* a text whose value is not a whole number, or has more than 18 decimals */
    PIE_TOO_GREAT = 116,    /* a text whose value is more than 2^60 - 1 */

    PIE_BAD_CHOICES = 117, /* an unknown flag in `choices` */
    PIE_BAD_ARRIVED = 118, /* an arrival moment later than the state's moment */
    PIE_NOT_WAITED = 119,  /* pie_depart with PIE_DELAY_STAMP set, which needs pie_depart_waited */
    PIE_BAD_LIMITS = 120,  /* the mode, or the packets, tail or events of an opening out of their ranges */
    PIE_BAD_EVERY = 128    /* an interval length outside 1 to 2^60 - 1 ns */
};

/* The ECN field of an IP header (RFC 3168, section 5). */
enum { PIE_NOT_ECT = 0, PIE_ECT1 = 1, PIE_ECT0 = 2, PIE_CE = 3 };

/* Profiles. In profile 1 the controller is always active. In profile 2 it turns itself on and off (section 5.3; the
 * conditions are this project's own, see pie_open). */
enum { PIE_ALWAYS_ON = 1, PIE_ON_AND_OFF = 2 };

/* Flags for `choices` of an opening, combined by OR: each selects an optional element of RFC 8033. pie_default_opening sets
 * PIE_DELAY_STAMP alone, as Linux does. Without it the delay is estimated from the departure rate: pie_depart then needs no
 * arrival moment, but the estimate is one burst old and is measured only while dq_threshold bytes are queued
 * (docs/RESULTS.md compares both). */
enum {
    PIE_USUAL = 0,         /* no flag: delay from the departure rate, derandomized drops, capped steps, no size scaling, decay at delay 0 */
    PIE_DELAY_STAMP = 1,   /* the delay is the waiting time of the packet that departed last (section 4.3) */
    PIE_PICK_RANDOM = 2,   /* the random word alone picks packets, without derandomization (section 5.4) */
    PIE_STEP_UNCAPPED = 4, /* the step of the probability at an update is not capped (section 5.5) */
    PIE_SIZE_SCALED = 8,   /* a packet below mean_pkt is picked with a probability in proportion to its size (Linux: bytemode) */
    PIE_DECAY_HALF = 16    /* the probability decays if this delay and the last one are below half the target, not only if both are 0 */
};

/* Parameters, in the order in which they are checked. The defaults are in parentheses. */
struct pie_params {
    uint64_t target;       /* reference delay, 2 to 10^10 ns (15 ms; section 4.2) */
    uint64_t t_update;     /* time between updates, 1 to 10^10 ns (15 ms; section 4.2) */
    uint64_t max_burst;    /* burst allowance, 0 to 10^12 ns (150 ms; section 4.4) */
    uint64_t alpha;        /* gain, 0 to 10^6 thousandths per second (125; section 4.2) */
    uint64_t beta;         /* gain, 0 to 10^6 thousandths per second (1250; section 4.2) */
    uint64_t mean_pkt;     /* mean packet size, 1 to 65535 bytes (1024; section 4.1) */
    uint64_t limit_bytes;  /* the queue's limit, 1 to 2^30 bytes (262144) */
    uint64_t mark_ecnth;   /* ECN-capable packets are marked below this probability and dropped above, 0 to 10^12 (10^11; section 5.1) */
    uint64_t dq_threshold; /* bytes of a departure rate cycle, a power of two, 1024 to 65536 (16384; section 5.2) */
};

/* The effect of a full event log. */
enum {
    PIE_BOUNDED = 0, /* refuses further events */
    PIE_ROLLING = 1  /* discards its oldest event */
};

/* The configuration of a new controller. The last four fields do not affect the decisions of this header's calls. They are written to the first
 * record of the history, bound the memory of a replay, and limit a link (pie_link.h). The defaults of pie_default_opening are in parentheses. */
struct pie_opening {
    struct pie_params params; /* the parameters */
    uint64_t moment;          /* moment of the opening, at most 2^60 - 1 ns (0) */
    uint64_t profile;         /* PIE_ALWAYS_ON or PIE_ON_AND_OFF (1) */
    uint64_t choices;         /* the flags of the optional elements, at most 31 (1) */
    uint64_t mode;            /* PIE_BOUNDED or PIE_ROLLING (1) */
    uint64_t packets;         /* capacity of the queue in packets, 1 to 2^20 (2^20) */
    uint64_t tail;            /* capacity of the event log in events, 1 to 2^20 (1024) */
    uint64_t events;          /* the most events of the history, 1 to 2^47 (2^47) */
};

/* The state of a controller. Read any field between calls; write none. */
struct pie_state {
    struct pie_params params; /* the parameters in force */
    uint64_t moment;          /* effective moment: the greatest moment so far */
    uint64_t prob;            /* probability of drop or mark, 0 to 10^12 (section 4.2) */
    uint64_t old_delay;       /* delay at the last update, at most 2^40 ns (section 4.2) */
    uint64_t burst;           /* burst allowance, at most 10^12 ns (section 4.4) */
    uint64_t last;            /* moment of the last update, or of the opening */
    uint64_t accu;            /* accumulated probability, below 8.5 * 10^12 (section 5.4) */
    uint64_t average;         /* average time in which dq_threshold bytes depart, below 2^60 ns; 0: no sample (section 5.2) */
    uint64_t measuring;       /* 1 while a departure rate cycle is open, otherwise 0 */
    uint64_t cycle_start;     /* moment at which the cycle began; 0 if none is open */
    uint64_t cycle_count;     /* bytes that departed in the cycle, below dq_threshold; 0 if none is open */
    uint64_t profile;         /* 1 or 2 */
    uint64_t active;          /* 1 while the controller is active, otherwise 0; always 1 in profile 1 (section 5.3) */
    uint64_t choices;         /* the flags of the optional elements, at most 31 */
    uint64_t waited;          /* waiting time of the packet that departed last, at most 2^40 ns; 0 if it left the queue empty, and
                                 after an opening, a reset and an activation. With PIE_DELAY_STAMP it is the delay of the next
                                 update. Without PIE_DELAY_STAMP it is unused and stays 0 */
};

/* The result of an update. If the update is too soon, due, prob and burst are the values in force and delay is the old delay.
 * After any other error they are 0. */
struct pie_updated {
    uint64_t code;  /* PIE_DONE or an error */
    uint64_t due;   /* the moment from which the next update is not too soon */
    uint64_t delay; /* the queueing delay that the update used (section 5.2); 0 while the controller is inactive */
    uint64_t prob;  /* the probability after the update */
    uint64_t burst; /* the burst allowance after the update */
};

/* Kinds of events. */
enum {
    PIE_EVENT_ARRIVE = 1, /* a packet arrived */
    PIE_EVENT_DEPART = 2, /* a packet departed, or with PIE_NONE the queue was empty */
    PIE_EVENT_UPDATE = 3, /* an update */
    PIE_EVENT_RESET = 4,  /* a reset */
    PIE_EVENT_PARAMS = 5, /* new parameters, which are stored in a separate struct */
    PIE_EVENT_LOST = 6    /* events that were not kept: `tag` is their number, at least 1 */
};

/* An event: the arguments of a call and its result, 64 bytes without padding. A call whose name ends in _event reads its
 * arguments from the event: moment and caller, and for a packet tag, size, ecn and word. It fills in the other fields, and
 * sets a field that the kind does not use to 0. The record then has exactly the arguments of the decision. */
struct pie_event {
    uint64_t moment;   /* the moment that the caller passed */
    uint64_t tag;      /* arrival or departure: the caller's name for the packet; PIE_EVENT_LOST: the number of events */
    uint64_t word;     /* arrival: its random word */
    uint64_t delay;    /* update: the delay that it used, in ns */
    uint64_t prob;     /* update: the probability after it */
    uint64_t burst;    /* update: the burst allowance after it, in ns */
    uint32_t size;     /* arrival or departure: the packet's bytes */
    uint32_t answer;   /* the call's result; above 100 it is an error */
    uint16_t caller;   /* a number that identifies the caller, chosen by the program */
    uint8_t kind;      /* PIE_EVENT_ARRIVE or another kind */
    uint8_t ecn;       /* arrival: the ECN field on arrival; departure: the ECN field on departure, PIE_CE if the packet was marked */
    uint32_t reserved; /* 0 */
};

/* Statistics of an interval (see struct pie_period), each 0 if it has no value. Counts and 64-bit sums saturate at 2^64 - 1. */
struct pie_bounds {
    uint64_t count; /* the number of values */
    uint64_t first; /* the first value */
    uint64_t last;  /* the last value */
};

struct pie_peak {
    uint64_t greatest; /* the greatest value */
    uint64_t last;     /* the last value */
};

struct pie_total {
    uint64_t high; /* the upper 64 bits of a sum, which saturates at 2^128 - 1 */
    uint64_t low;  /* the lower 64 bits */
};

/* The fields of an interval's record, over all its events. Times are in ns. */
struct pie_meter {
    uint64_t answers[9];          /* events by result: PIE_ENQUEUE, PIE_MARK, PIE_EARLY, PIE_BYTES, PIE_PACKETS, departure of a packet,
                                     departure from an empty queue, update, reset or new parameters */
    uint64_t causes[15];          /* arrivals by cause, in the order of the record's fields */
    uint64_t first;               /* effective moment of the first event */
    uint64_t last;                /* effective moment of the last event */
    uint64_t since;               /* effective moment of the last departure of a packet, or of the first event if no packet departed */
    uint64_t arrivals;            /* packets that arrived */
    struct pie_total arrived;     /* sum of their sizes, in bytes */
    struct pie_total waits;       /* sum of the waiting times of packets that departed */
    uint64_t greatest_wait;       /* the greatest waiting time */
    struct pie_peak delays;       /* delays of updates while the controller was active */
    struct pie_peak probs;        /* probabilities after the events */
    struct pie_bounds turned_on;  /* moments of events that activated the controller */
    struct pie_bounds turned_off; /* moments of events that deactivated the controller */
    uint64_t timed;               /* 1 if the wall-clock time of an event is known, otherwise 0 */
    uint64_t time;                /* wall-clock time of the first such event, in ns since 1970 */
    uint64_t carried;             /* bytes of the packets that departed */
    uint64_t above;               /* time during which the delay of updates was above the target */
    uint64_t longer;              /* packets that waited longer than the target */
    uint64_t late;                /* time during which the packet at the head of the queue had waited longer than the target */
    uint64_t target;              /* the target after the last event */
    uint64_t burst;               /* the burst allowance after the last event */
};

#define PIE_RANGES 1720 /* ranges: waiting times with equal first two decimal digits and equal numbers of digits */

/* Statistics of the current interval, computed while the controller decides, about 14 KB. Read any field between calls; write
 * none. */
struct pie_period {
    uint64_t every;             /* length of an interval */
    uint64_t wall;              /* 1 if records end with a wall-clock time, otherwise 0 */
    uint64_t begun;             /* number of the current record, counted from 1: the number of intervals with events */
    uint64_t number;            /* number of the current interval; the interval that begins at moment 0 has number 0 */
    uint64_t start;             /* moment at which it begins, `number` times `every`; 0 before the first event */
    uint64_t end;               /* moment at which it ends, `every` ns later; 0 before the first event */
    uint64_t told;              /* 1 if a wall-clock time was set, otherwise 0 */
    uint64_t clock_moment;      /* the moment for which it was set */
    uint64_t clock_unix;        /* the wall-clock time at that moment, in ns since 1970 */
    struct pie_meter meter;     /* the statistics of its events */
    uint64_t waits[PIE_RANGES]; /* number of waiting times in each range */
};

#define PIE_RECORD_ROOM 256  /* bytes: enough for each record of a history except `resume` */
#define PIE_RESUME_ROOM 1280 /* bytes: enough for the record `resume`, and for an interval's record or header */

/* Statistics of a history, in the order of its record `tallied`. */
struct pie_stats {
    uint64_t arrivals;      /* packets that arrived */
    uint64_t enqueued;      /* of these, PIE_ENQUEUE */
    uint64_t marked;        /* of these, PIE_MARK */
    uint64_t early;         /* of these, PIE_EARLY */
    uint64_t over_bytes;    /* of these, PIE_BYTES */
    uint64_t over_packets;  /* of these, PIE_PACKETS */
    uint64_t left;          /* packets that departed */
    uint64_t left_bytes;    /* their bytes */
    uint64_t empty;         /* departures that found the queue empty */
    uint64_t updates;       /* updates */
    uint64_t resets;        /* resets */
    uint64_t changes;       /* changes of the parameters */
    uint64_t largest_queue; /* the most bytes in the queue after an event */
    uint64_t largest_delay; /* the greatest delay of an update, in ns */
    uint64_t waited;        /* sum of the waiting times of packets that departed, in ns: the lower 64 bits */
    uint64_t waited_high;   /* the upper 64 bits of that sum */
};

#define PIE_UNKNOWN UINT64_MAX /* for `set_by`: the event that set the probability is not known */

/* ---- Parameters and openings ---- */

/* Fills `params` with the defaults: those of RFC 8033 if it has one. */
void pie_default_params(struct pie_params *params);

/* Checks parameters.
 * Returns 0 if all are in range, otherwise the number of the first parameter out of its range: 1 target, 2 t_update, 3
 * max_burst, 4 alpha, 5 beta, 6 mean_pkt, 7 limit_bytes, 8 mark_ecnth, 9 dq_threshold. */
uint32_t pie_check_params(const struct pie_params *params);

/* Fills `params` with the defaults for a link of `rate` bits per second. limit_bytes is 200 ms at that rate, at least 25000 and
 * at most 2^30: so it is 400 ms at 500 kbit/s, and 86 ms at 100 Gbit/s. If `rate` is 0, it is unknown, and limit_bytes has its
 * default.
 * Notes: for links below 17.5 Mbit/s without PIE_DELAY_STAMP see dq_threshold in docs/LIBRARY.md. */
void pie_params_for(uint64_t rate, struct pie_params *params);

/* Fills `opening` with the default opening for a link of `rate` bits per second: the parameters of pie_params_for and the
 * defaults in struct pie_opening. pie_open accepts it. */
void pie_default_opening(struct pie_opening *opening, uint64_t rate);

/* Initializes `state`; its previous content does not matter.
 * Returns PIE_DONE.
 * Errors, in this order: PIE_BAD_PARAMS, PIE_BAD_MOMENT, PIE_BAD_PROFILE, PIE_BAD_CHOICES, PIE_BAD_LIMITS.
 * Notes: in profile 2 the controller starts inactive. After the verdict of an arrival it becomes active if three times the
 * queued bytes reach limit_bytes; it then starts as after pie_reset. An update with probability 0 whose delay and last delay
 * are below half the target deactivates it. An inactive controller makes tail drops as usual and queues every other packet;
 * a departure or an update only advances the moment, and the delay of an update is 0. Profile and choices never change. */
uint32_t pie_open(struct pie_state *state, const struct pie_opening *opening);

/* ---- Decisions ---- */

/* Decides an arriving packet (sections 4.1, 5.1 and 5.4).
 *   queued  bytes in the queue without this packet, at most 2^30
 *   size    the packet's bytes, 1 to 65535
 *   room    number of packets that the caller's ring can still take; 0 means that it is full
 *   ecn     the packet's ECN field
 *   word    64 uniformly distributed random bits that no sender can predict
 *   moment  the arrival moment
 * Returns PIE_ENQUEUE, PIE_MARK, PIE_EARLY, PIE_BYTES or PIE_PACKETS.
 * Errors, in this order: PIE_BAD_MOMENT, PIE_BAD_SIZE, PIE_BAD_ECN, PIE_BAD_QUEUE. */
uint32_t pie_arrive(struct pie_state *state, uint64_t queued, uint32_t size, uint32_t room, uint32_t ecn, uint64_t word,
                    uint64_t moment);

/* Records that a packet of `size` bytes left the queue, which then has `left` bytes (section 5.2).
 * Returns PIE_DONE.
 * Errors, in this order: PIE_BAD_MOMENT, PIE_BAD_SIZE, PIE_BAD_QUEUE, PIE_NOT_WAITED.
 * Notes: with PIE_DELAY_STAMP, the default, call pie_depart_waited. For a poll of an empty queue call pie_empty. */
uint32_t pie_depart(struct pie_state *state, uint32_t size, uint64_t left, uint64_t moment);

/* Records that a packet left the queue, with its arrival moment.
 *   size     the packet's bytes, 1 to 65535
 *   left     bytes in the queue after the departure, at most 2^30
 *   arrived  state->moment right after the packet's pie_arrive, which the caller stores with the packet; at most state->moment
 *            before this call
 * Returns PIE_DONE.
 * Errors, in this order: PIE_BAD_MOMENT, PIE_BAD_SIZE, PIE_BAD_QUEUE, PIE_BAD_ARRIVED.
 * Notes: with PIE_DELAY_STAMP the next update uses the packet's waiting time as the delay, at most 2^40 ns, and 0 if `left` is
 * 0 (section 4.3). Without it the call is pie_depart. An inactive controller only advances the moment. */
uint32_t pie_depart_waited(struct pie_state *state, uint32_t size, uint64_t left, uint64_t arrived, uint64_t moment);

/* Records that a departure found the queue empty: advances the moment and changes nothing else.
 * Returns PIE_DONE.
 * Errors: PIE_BAD_MOMENT.
 * Notes: a caller whose moments never decrease may omit the call; no decision changes. */
uint32_t pie_empty(struct pie_state *state, uint64_t moment);

/* Returns the moment from which the next update is not too soon. If the state is not valid and the sum exceeds 64 bits, returns
 * UINT64_MAX. */
uint64_t pie_due(const struct pie_state *state);

/* Updates probability and burst allowance, with `queued` bytes in the queue (sections 4.2, 4.4 and 5.5). Call it when the
 * moment of pie_due has come, or soon after.
 * Returns the result in struct pie_updated.
 * Errors (its `code`), in this order: PIE_BAD_STATE, PIE_BAD_MOMENT, PIE_BAD_QUEUE, PIE_TOO_SOON. */
struct pie_updated pie_update(struct pie_state *state, uint64_t queued, uint64_t moment);

/* Sets probability, old delay, accumulated probability, the rate estimate and `waited` to 0, and the burst allowance to
 * max_burst. Parameters, last update, profile and `active` are unchanged.
 * Returns PIE_DONE.
 * Errors, in this order: PIE_BAD_STATE, PIE_BAD_MOMENT. */
uint32_t pie_reset(struct pie_state *state, uint64_t moment);

/* Sets new parameters and clears the rate estimate. The other registers are unchanged, so pie_due moves with t_update.
 * Returns PIE_DONE.
 * Errors, in this order: PIE_BAD_STATE, PIE_BAD_PARAMS, PIE_BAD_MOMENT.
 * Notes: to change one parameter, copy state->params, change the copy and pass it. With &state->params as `params` the call
 * clears the rate estimate and changes no parameter. */
uint32_t pie_set_params(struct pie_state *state, const struct pie_params *params, uint64_t moment);

/* ---- Decisions that are recorded as events ---- */

/* Each call makes the same decision, returns the same codes and changes the state in the same way as its plain call, and fills
 * in `event`. The event overlaps neither the state nor the parameters.
 *
 *   call                  plain call         fields that the caller sets
 *   pie_arrive_event      pie_arrive         moment, tag, size, ecn, word, caller
 *   pie_depart_event      pie_depart_waited  moment, tag, size, ecn, caller
 *   pie_empty_event       pie_empty          moment, caller
 *   pie_update_event      pie_update         moment, caller
 *   pie_reset_event       pie_reset          moment, caller
 *   pie_set_params_event  pie_set_params     moment, caller
 *
 * Notes: without PIE_DELAY_STAMP pie_depart_event ignores `arrived`. It does not check the ECN field; an event with one above 3
 * cannot be written. pie_empty_event returns PIE_NONE on success. pie_update_event stores delay, probability and burst
 * allowance of struct pie_updated in the event. */
uint32_t pie_arrive_event(struct pie_state *state, uint64_t queued, uint32_t room, struct pie_event *event);
uint32_t pie_depart_event(struct pie_state *state, uint64_t left, uint64_t arrived, struct pie_event *event);
uint32_t pie_empty_event(struct pie_state *state, struct pie_event *event);
uint32_t pie_update_event(struct pie_state *state, uint64_t queued, struct pie_event *event);
uint32_t pie_reset_event(struct pie_state *state, struct pie_event *event);
uint32_t pie_set_params_event(struct pie_state *state, const struct pie_params *params, struct pie_event *event);

/* ---- Decisions that are summed over intervals ---- */

/* Initializes `period` for intervals of `every` ns, 1 to 2^60 - 1; the first begins at moment 0. If `wall` is not 0, the records
 * are those of `pie explain --wall`: each ends with the wall-clock time of the first event for which one is known.
 * Returns PIE_DONE.
 * Errors: PIE_BAD_EVERY. */
uint32_t pie_open_period(struct pie_period *period, uint64_t every, uint32_t wall);

/* Sets the wall-clock time for the calls that follow: it was `unix_time`, in ns since 1970, at `moment`.
 * Returns PIE_DONE.
 * Errors: PIE_BAD_MOMENT. */
uint32_t pie_period_clock(struct pie_period *period, uint64_t moment, uint64_t unix_time);

/* Each call does what the call with the suffix _event does and adds its event to `period`. An event of a failed call is not
 * added. pie_depart_summed computes the waiting time from `arrived`, also without PIE_DELAY_STAMP.
 *
 * An interval ends at the first event whose moment is period.end or later. The call for that event begins the next interval and
 * overwrites the statistics of the last one. A failed call changes nothing. Therefore format the record before each call that
 * may end the interval, and write it only if the call began an interval:
 *
 *     uint64_t begun = period.begun;
 *     size_t size = event.moment >= period.end ? pie_write_period(&period, out, sizeof out) : 0;
 *     uint32_t verdict = pie_arrive_summed(&pie, queued, room, &event, &period);
 *     if (period.begun != begun)
 *         fwrite(out, 1, size, file);
 *
 * After the last event write the last record:
 *
 *     fwrite(out, 1, pie_write_period(&period, out, sizeof out), file);
 *
 * The records are byte for byte those of `pie explain --every 1s --csv` over the history of these calls, but no history is
 * needed. An interval without events has no record. period.begun is the number of the record; if it grows by more than one
 * between two records, a record was lost. */
uint32_t pie_arrive_summed(struct pie_state *state, uint64_t queued, uint32_t room, struct pie_event *event, struct pie_period *period);
uint32_t pie_depart_summed(struct pie_state *state, uint64_t left, uint64_t arrived, struct pie_event *event, struct pie_period *period);
uint32_t pie_empty_summed(struct pie_state *state, struct pie_event *event, struct pie_period *period);
uint32_t pie_update_summed(struct pie_state *state, uint64_t queued, struct pie_event *event, struct pie_period *period);
uint32_t pie_reset_summed(struct pie_state *state, struct pie_event *event, struct pie_period *period);
uint32_t pie_set_params_summed(struct pie_state *state, const struct pie_params *params, struct pie_event *event, struct pie_period *period);

/* ---- Records as text ---- */

/* Each call writes one record of docs/FORMATS.md, with its line feed and without a terminating 0, to the first `room` bytes of
 * `out`, which is never NULL.
 * Returns the number of bytes of the record. Returns 0 and leaves `out` unchanged if the record has more than `room` bytes, or if
 * it cannot be written: a kind, a result or a number out of its range, a field that the kind does not use and that is not 0,
 * or an error as the event's answer. PIE_RECORD_ROOM bytes are enough unless the call says otherwise. */

/* Writes the record of the current interval, or the header row. PIE_RESUME_ROOM bytes are enough. Before the first event
 * pie_write_period returns 0. */
size_t pie_write_period(const struct pie_period *period, unsigned char *out, size_t room);
size_t pie_write_period_header(const struct pie_period *period, unsigned char *out, size_t room);

/* Writes an event of any kind except PIE_EVENT_PARAMS. */
size_t pie_write_event(const struct pie_event *event, unsigned char *out, size_t room);

/* Writes an event of kind PIE_EVENT_PARAMS with its parameters. */
size_t pie_write_params(const struct pie_event *event, const struct pie_params *params, unsigned char *out, size_t room);

/* Writes the first record of a history, for the opening that was passed to pie_open. Returns 0 if pie_open rejects it. */
size_t pie_write_opening(const struct pie_opening *opening, unsigned char *out, size_t room);

/* Writes that the command with the number `record` (the opening has 1) was refused. `code` is PIE_BAD_MOMENT, PIE_BAD_SIZE, PIE_TOO_SOON or
 * PIE_BAD_PARAMS; the call writes no other error. */
size_t pie_write_refused(uint64_t record, uint32_t code, unsigned char *out, size_t room);

/* Writes that the wall-clock time was `unix_time` (ns since 1970-01-01T00:00:00Z, as CLOCK_REALTIME) at `moment`, at most
 * 2^60 - 1. The record affects no decision. `pie explain --wall` computes the wall-clock time of an event from the last such
 * record before it. The record is allowed after an `open3` record, which pie_write_opening always writes if `events` is above
 * 2^40, and in an excerpt after the queued packets. After `open` and `open2` it is a fault. */
size_t pie_write_clock(uint64_t moment, uint64_t unix_time, unsigned char *out, size_t room);

/* Writes that `count` events, at least 1, were not kept. An audit ends at this line with a fault, because it is not a record of
 * a history. */
size_t pie_write_lost(uint64_t count, unsigned char *out, size_t room);

/* Writes the first record of an excerpt: a snapshot of the controller after `count` events.
 *   set_by   number of the event that last set the probability; 0 for the opening, PIE_UNKNOWN if it is not known
 *   packets  number of queued packets
 *   bytes    their bytes
 * PIE_RESUME_ROOM bytes are enough. Returns 0 also if pie_open rejects the opening, if the state is not valid or differs from the
 * opening in profile or choices, or if there are more events, packets or bytes than the opening and a queue allow. The
 * numbers are not compared otherwise, and every reader refuses the record in these cases:
 *   - `set_by` is above `count` and is not PIE_UNKNOWN.
 *   - The moment of the state is before the moment of the opening.
 *   - A statistic is above what `count` events permit, or contradicts another number. docs/FORMATS.md lists the relations
 *     (Checks of a preamble). The statistics of pie_count_event, one call for each of the `count` events, contradict none. */
size_t pie_write_resume(const struct pie_opening *opening, const struct pie_state *state, const struct pie_stats *stats, uint64_t count,
                        uint64_t set_by, uint64_t packets, uint64_t bytes, unsigned char *out, size_t room);

/* Writes a queued packet of an excerpt, the oldest first.
 *   size   the packet's bytes, 1 to 65535
 *   ecn    its ECN field on departure, PIE_CE if the packet was marked
 *   since  state->moment right after its arrival, at most 2^60 - 1 */
size_t pie_write_queued(uint64_t tag, uint32_t size, uint32_t ecn, uint64_t since, unsigned char *out, size_t room);

/* ---- Checks and numbers as text ---- */

/* Checks a state that was not produced by the calls above, such as one read from a file.
 * Returns PIE_DONE if each field is in its range and the fields agree with each other, otherwise PIE_BAD_STATE. */
uint32_t pie_check_state(const struct pie_state *state);

/* Each call parses the first `length` bytes of `text` as a number with a unit in the syntax of tc. The text needs no terminating 0
 * and is never NULL, not even with a length of 0. Units may be in upper or lower case. A number has digits, optionally a decimal
 * point before or between them, and at most 18 decimals; signs, exponents and spaces are not accepted.
 *
 *   pie_read_time     nanoseconds; the unit is required: ns us ms s, nsec usec msec sec, nsecs usecs msecs secs
 *   pie_read_rate     bits per second; the unit is required: bit kbit mbit gbit tbit, powers of 1024 kibit mibit gibit tibit;
 *                     bytes per second bps kbps .. tbps, kibps .. tibps
 *   pie_read_size     bytes; units b, k kb, m mb, g gb in powers of 1024; kbit mbit gbit are eighths of these; no unit: bytes
 *   pie_read_packets  packets; unit p or none
 *
 * So 1.5ms is 1500000, 100mbit 100000000, 1kbps 8000, 256kb 262144. No value is rounded: 1.5ns and 0.5bit are errors.
 * Returns PIE_DONE.
 * Errors: PIE_NOT_A_NUMBER, PIE_TOO_PRECISE or PIE_TOO_GREAT; the number is then unchanged. */
uint32_t pie_read_time(const char *text, size_t length, uint64_t *nanoseconds);
uint32_t pie_read_rate(const char *text, size_t length, uint64_t *bits);
uint32_t pie_read_size(const char *text, size_t length, uint64_t *bytes);
uint32_t pie_read_packets(const char *text, size_t length, uint64_t *packets);

/* Returns a description of a code, for a log. */
static inline const char *pie_text(uint64_t code) {
    switch (code) {
    case PIE_DONE: return "done (arrival: queue the packet)";
    case PIE_MARK: return "queue the packet and mark it";
    case PIE_EARLY: return "drop the packet: early drop";
    case PIE_BYTES: return "drop the packet: the queue would exceed limit_bytes";
    case PIE_PACKETS: return "drop the packet: the ring is full";
    case PIE_NONE: return "the queue was empty";
    case PIE_BAD_MOMENT: return "refused: a moment above 2^60 - 1 ns";
    case PIE_BAD_SIZE: return "refused: a size outside 1 to 65535 bytes";
    case PIE_TOO_SOON: return "refused: an update before it is due";
    case PIE_BAD_PARAMS: return "refused: a parameter out of its range";
    case PIE_BAD_STATE: return "refused: a state that is not valid";
    case PIE_BAD_ECN: return "refused: an ECN field above 3";
    case PIE_BAD_QUEUE: return "refused: more than 2^30 bytes in the queue";
    case PIE_BAD_PROFILE: return "refused: a profile that is neither 1 nor 2";
    case PIE_NOT_A_NUMBER: return "refused: not a number with a unit of the expected kind";
    case PIE_TOO_PRECISE: return "refused: not a whole number, or more than 18 decimals";
    case PIE_TOO_GREAT: return "refused: a number above 2^60 - 1";
    case PIE_BAD_CHOICES: return "refused: an unknown flag in choices";
    case PIE_BAD_ARRIVED: return "refused: an arrival moment later than the state's moment";
    case PIE_NOT_WAITED: return "refused: pie_depart, but delays are measured by time stamps";
    case PIE_BAD_LIMITS: return "refused: the mode or a limit of an opening out of its range";
    case PIE_BAD_EVERY: return "refused: an interval length outside 1 to 2^60 - 1 ns";
    default: return "unknown code";
    }
}

#ifdef __cplusplus
}
#endif

/* The library has these sizes and offsets on every processor. */
#if defined(__cplusplus) && __cplusplus >= 201103L
#define PIE_ASSERT(holds) static_assert(holds, #holds)
#define PIE_ALIGNMENT(type) alignof(type)
#elif defined(__STDC_VERSION__) && __STDC_VERSION__ >= 201112L
#define PIE_ASSERT(holds) _Static_assert(holds, #holds)
#define PIE_ALIGNMENT(type) _Alignof(type)
#elif defined(__GNUC__) && !defined(__cplusplus)
#define PIE_ASSERT(holds) __extension__ _Static_assert(holds, #holds)
#define PIE_ALIGNMENT(type) __extension__ _Alignof(type)
#endif
#ifdef PIE_ASSERT
PIE_ASSERT(PIE_ALIGNMENT(uint64_t) == 8);
PIE_ASSERT(sizeof(struct pie_params) == 72 && offsetof(struct pie_params, dq_threshold) == 64);
PIE_ASSERT(sizeof(struct pie_opening) == 128 && offsetof(struct pie_opening, events) == 120);
PIE_ASSERT(sizeof(struct pie_state) == 184 && offsetof(struct pie_state, waited) == 176);
PIE_ASSERT(sizeof(struct pie_updated) == 40 && offsetof(struct pie_updated, burst) == 32);
PIE_ASSERT(sizeof(struct pie_event) == 64 && offsetof(struct pie_event, size) == 48 && offsetof(struct pie_event, kind) == 58);
PIE_ASSERT(sizeof(struct pie_period) == 14240 && offsetof(struct pie_period, waits) == 480);
PIE_ASSERT(sizeof(struct pie_stats) == 128 && offsetof(struct pie_stats, waited_high) == 120);
#undef PIE_ASSERT
#undef PIE_ALIGNMENT
#endif

#endif
