/* Loops over the calls of pie.h for arrays of events, such as numpy's in bindings/python. They decide nothing
 * themselves: each event is one call of the library. They are tested, not proved, and allocate no memory. The
 * library checks the arguments of events; other requirements in the comments below are not checked. */
#ifndef PIE_ARRAYS_H
#define PIE_ARRAYS_H

#include "pie.h"

#ifdef __cplusplus
extern "C" {
#endif

/* The reasons why a loop ends. */
enum {
    PIE_ARRAY_ALL = 0,     /* all was done */
    PIE_ARRAY_REFUSED = 1, /* a call was refused: the next event has the reason; nothing was changed by it */
    PIE_ARRAY_GROW = 2,    /* the memory of the ring is full, and more packets may be queued: call again with more
                              memory */
    PIE_ARRAY_EVENTS = 3,  /* the number of events is at its limit, and the next one is refused for no other reason */
    PIE_ARRAY_KIND = 4,    /* the next event is of a kind that the loop does not decide, or does not write */
    PIE_ARRAY_OUT = 5      /* there is no room for one more event */
};

/* A queued packet: its ECN field on departure, and the state's moment right after its arrival. */
struct pie_array_packet {
    uint64_t tag;
    uint64_t since;
    uint32_t size;
    uint32_t ecn;
};

/* A queue of packets in order, in front of a link. */
struct pie_array_queue {
    struct pie_array_packet *ring; /* memory for `slots` packets */
    uint32_t slots;                /* a power of two */
    uint32_t first;                /* the slot of the oldest */
    uint32_t packets;              /* the number of queued packets, at most `slots` */
    uint32_t most_packets;         /* the most packets that may be queued */
    uint64_t bytes;                /* the number of queued bytes */
    uint64_t events;               /* the number of decided events */
    uint64_t most_events;          /* the greatest number of decided events */
    uint64_t rate;                 /* rate of the link of pie_array_offer in bits per second, 1 to 2^60 */
    uint64_t link_free;            /* moment at which the link becomes free */
    uint64_t rest;                 /* fraction of a nanosecond after `link_free`, in units of 1 / rate */
    uint64_t taken;                /* number of arrivals that pie_array_offer took */
    uint64_t why;                  /* the reason why the last loop ended, from the enumeration above */
};

/* Decides each event in its turn and fills it in: arrivals, departures (of the oldest packet, or of none), updates
 * and resets. Ends at the first refused event, or passes refused events if `keeps_refused` is not 0. Returns the
 * number of events that it decided or passed. */
size_t pie_array_decide(struct pie_state *state, struct pie_array_queue *queue, struct pie_event *events, size_t count, uint32_t keeps_refused);

/* Passes arrivals to the queue at their moments, in the order of the array. The link takes the oldest packet as
 * soon as it is free, and sends it at `rate`; updates are made at pie_due. At one moment a departure is first, then
 * an update, then an arrival. After the last arrival the link continues to the moment `until`. Departures have the
 * caller 2, updates 3. Returns the number of events written to `out`; an event with an error follows them. */
size_t pie_array_offer(struct pie_state *state, struct pie_array_queue *queue, const struct pie_event *arrivals, size_t count, uint64_t until,
                       struct pie_event *out, size_t room);

/* Writes the records of events, one after another, while PIE_RECORD_ROOM bytes are left of `room`; for a refused
 * event a `refused` record, if histories contain its error. `records` is the number of records, and is advanced;
 * `untold` is the number of omitted refusals. Stops at new parameters and at an invalid event. Returns the number
 * of events written; `length` receives the number of bytes. */
size_t pie_array_write(const struct pie_event *events, size_t count, uint64_t *records, uint64_t *untold, unsigned char *out, size_t room,
                       size_t *length);

/* pie_text and PIE_VERSION, for programs without a C compiler. */
const char *pie_array_text(uint64_t code);
const char *pie_array_version(void);

#ifdef __cplusplus
}
#endif

#endif
