/* A link: one PIE controller (RFC 8033) with its queue and its event log, shared by several threads. Link with libpie_link.a and
 * libpie_c.a (`pkg-config pie_link`). Requires C11, or C++11 and later, and 64-bit words.
 *
 *     struct pie_port port = PIE_PORT_CLOSED, other = PIE_PORT_CLOSED;
 *     struct pie_opening opening;
 *     pie_link_default_opening(&opening, rate);
 *     pie_link_open(&opening, 2, &port);          a link for two callers; `port` has both caller numbers
 *     pie_link_share(&port, &other);              `other` receives one of them; pass it to another thread
 *
 *     struct pie_event event = {0};               (in each thread, with its own port)
 *     event.moment = now; event.tag = number; event.size = bytes; event.ecn = PIE_ECT0; event.word = random;
 *     verdict = pie_link_arrive(&port, &event);
 *
 * Terms: a port is the handle of one thread; it has one or more caller numbers. A call has exclusive access to the link while it
 * runs: its turn.
 *
 * Proved, for all interleavings of any number of threads: while no port has the turn, all events of the link form one history. It
 * contains the calls of each port exactly once and in the port's order, and every result is RFC 8033's at its place. A bounded link
 * (PIE_BOUNDED) loses no event. A rolling link (PIE_ROLLING, the default) discards its oldest event when its log is full; `last` of pie_link_fold
 * shows the gap. The proof covers the calls with `try` in their name, the calls for excerpts, and the calls
 * whose name ends in `port` or `ports`, with the fields of events and the text of excerpts. The inline functions of this header are
 * tested, not proved. It is not proved that a waiting call returns.
 *
 * Requirements that no call can check:
 * - One thread at a time uses a port or an excerpt. To pass it to another thread, use an operation that orders memory between the
 *   threads: a mutex, the start or join of a thread, a sequentially consistent atomic. Move a port or an excerpt; never use two
 *   copies. It is all zeros before it is opened. (It is proved that the memory behind the pointer may move between threads. That
 *   concurrent calls through these structs are safe is trusted.)
 * - Pointers point to structs that do not overlap and that no other thread reads or writes during the call.
 * - The caller stores the packets. The link stores their names, `tag`, in the order of the queue.
 *
 * A call with `try` in its name never waits: it returns PIE_BUSY and leaves its event unchanged if another port has the turn. Only
 * pie_link_open, pie_link_share and pie_link_open_excerpt allocate memory; if they fail, nothing has changed.
 *
 * Hazards:
 * - Signal handlers: if the handler interrupted a call at the same link, a waiting call in it never returns. A `try` call returns
 *   PIE_BUSY.
 * - fork: if another thread has the turn during fork, the link stays busy in the child for ever. Close the ports in the child, or
 *   call exec.
 * - Asynchronous cancellation (PTHREAD_CANCEL_ASYNCHRONOUS), and longjmp out of a handler that interrupted a call: the link may stay
 *   busy for ever. No call is a cancellation point, so deferred cancellation is safe.
 * - Real-time priorities: for about 500 rounds before it sleeps, a waiting thread yields to no thread of lower priority, and the thread that has the
 *   turn inherits no priority. Give all threads of a link the same priority, or use `try` calls in those with a higher one.
 * - Moments: a moment below an earlier one counts as the greatest so far. If the clock of one caller is ahead, the updates of the
 *   others are too soon for that time. Use one clock that never goes back, such as CLOCK_MONOTONIC, for all callers.
 * - Bursts read the kind of each event. Before you reuse the event of an update, set its kind to 0; otherwise it is an update again.
 * - `try` calls wake no thread that sleeps in a waiting call; that thread looks again after one millisecond. pie_link_wake wakes it.
 * - ThreadSanitizer reports false races in the library, which is compiled without it. Set
 *   TSAN_OPTIONS=suppressions=FILE with bindings/c/thread_sanitizer.txt (installed as share/pie/thread_sanitizer.txt). */
#ifndef PIE_LINK_H
#define PIE_LINK_H

#include "pie.h"

#include <stddef.h>
#include <stdint.h>
#include <stdlib.h>

#if UINTPTR_MAX != UINT64_MAX
#error "links are for processors with 64-bit words; pie.h is for others too"
#endif

#include <errno.h>
#include <sched.h>
#include <time.h>
#ifdef __linux__
#include <linux/futex.h>
#include <sys/syscall.h>
#include <unistd.h>
#if !defined(__cplusplus) && !defined(__USE_MISC)
long syscall(long number, ...); /* (with -std=c11 no header declares it) */
#endif
#endif

#ifdef __cplusplus
#include <atomic>
#include <new>
extern "C" {
#define PIE_LINK_WORD(bits) std::atomic<uint##bits##_t>
#define PIE_LINK_LOAD(word) (word).load()
#define PIE_LINK_STORE(word, number) (word).store(number)
#define PIE_LINK_ADD(word, number) (word).fetch_add(number)
#define PIE_LINK_SWAP(word, seen, next) (word).compare_exchange_weak(seen, next)
#else
#include <stdatomic.h>
#define PIE_LINK_WORD(bits) _Atomic uint##bits##_t
#define PIE_LINK_LOAD(word) atomic_load(&(word))
#define PIE_LINK_STORE(word, number) atomic_store(&(word), number)
#define PIE_LINK_ADD(word, number) atomic_fetch_add(&(word), number)
#define PIE_LINK_SWAP(word, seen, next) atomic_compare_exchange_weak(&(word), &(seen), next)
#endif

/* The greatest cache line of the processor family, in bytes. */
#ifdef __aarch64__
#define PIE_LINK_LINE (128)
#else
#define PIE_LINK_LINE (64)
#endif
#define PIE_LINK_REST (PIE_LINK_LINE - 12)

/* Memory shared by the ports of one link, so that a waiting call wakes only threads at its own link. pie_link_open allocates it,
 * pie_link_close of the last port frees it. The padding keeps other data out of the cache line of these words. */
struct pie_link_shared {
    unsigned char before[PIE_LINK_LINE];
    PIE_LINK_WORD(32) ports;    /* open ports */
    PIE_LINK_WORD(32) sleepers; /* threads that sleep in a waiting call */
    PIE_LINK_WORD(32) turns;    /* incremented to wake a thread */
    unsigned char after[PIE_LINK_REST];
};

/* A handle of a link for one thread at a time. All zeros is a closed port. The fields are private. */
struct pie_port {
    void *at;
    struct pie_link_shared *shared;
};

#define PIE_PORT_CLOSED {NULL, NULL}

/* Return codes of calls at a port, in addition to those of pie.h. After PIE_BUSY, PIE_CLOSED and PIE_NO_MEMORY nothing has changed. */
enum {
    PIE_EXHAUSTED = 104,  /* the history has as many events as the opening allows */
    PIE_FULL = 105,       /* the event log of a bounded link is full: fold some events */
    PIE_TOO_MANY = 106,   /* fold: the log contains no event */
    PIE_BUSY = 121,       /* another port has the turn */
    PIE_CLOSED = 122,     /* the port or the excerpt is closed */
    PIE_NO_MEMORY = 123,  /* out of memory */
    PIE_NO_CALLERS = 124, /* open: the number of callers is 0 */
    PIE_ONE_NUMBER = 125, /* share: the port has only one caller number */
    PIE_APART = 126,      /* gather: the ports belong to two links, or their ranges of caller numbers are not adjacent */
    PIE_OPEN = 127,       /* the port or the excerpt is already open */
    PIE_TOO_SMALL = 129   /* the excerpt has less room than an excerpt of this link may need */
};

/* ---- Opening and closing. The four functions whose name ends in `port` or `ports` belong to the library. Call the inline functions
 * below, which use them and manage the memory shared by the ports. */

uint32_t pie_link_open_port(const struct pie_opening *opening, uint16_t callers, struct pie_port *port);
uint32_t pie_link_share_port(struct pie_port *port, struct pie_port *added);
uint32_t pie_link_gather_ports(struct pie_port *port, struct pie_port *other);
uint32_t pie_link_close_port(struct pie_port *port);

/* Allocates the memory shared by the ports of a new link. Returns NULL if there is none. */
static inline struct pie_link_shared *pie_link_new_shared(void) {
#ifdef __cplusplus
    void *memory = malloc(sizeof(pie_link_shared));
    pie_link_shared *shared = memory != nullptr ? ::new (memory) pie_link_shared : nullptr;
#else
    struct pie_link_shared *shared = (struct pie_link_shared *)malloc(sizeof *shared);
#endif
    if (shared != NULL) {
        PIE_LINK_STORE(shared->ports, 1);
        PIE_LINK_STORE(shared->sleepers, 0);
        PIE_LINK_STORE(shared->turns, 0);
    }
    return shared;
}

/* Releases the share of a closed port in that memory. The last port frees it. */
static inline void pie_link_leave(struct pie_port *port) {
    struct pie_link_shared *shared = port->shared;
    port->shared = NULL;
    if (PIE_LINK_ADD(shared->ports, UINT32_MAX) == 1)
        free(shared);
}

/* Fills `opening` for a link of `rate` bits per second as pie_default_opening does, except `packets`. It determines the memory and the
 * longest turn, and is four times limit_bytes / mean_pkt, at least 189 and at most 2^20. At 100 Mbit/s that is 9765 packets: 2.0 MB
 * for a link and 1.5 MB for an excerpt. */
static inline void pie_link_default_opening(struct pie_opening *opening, uint64_t rate) {
    uint64_t packets;
    pie_default_opening(opening, rate);
    packets = 4 * opening->params.limit_bytes / opening->params.mean_pkt;
    opening->packets = packets < opening->packets ? packets : opening->packets;
}

/* Opens a link for `callers` callers with an empty queue. `port` receives all caller numbers, 0 to callers - 1.
 * Returns PIE_DONE.
 * Errors, in this order: PIE_OPEN, those of pie_open, PIE_NO_CALLERS, PIE_NO_MEMORY. The port is then unchanged.
 * Notes: the link takes about 72 bytes for each of `packets` and 128 bytes for each of `packets` or `tail`, whichever is more: 209.7 MB
 * with the 2^20 packets of pie_default_opening. One event in each such number of events copies the queued packets, 24 bytes each. */
static inline uint32_t pie_link_open(const struct pie_opening *opening, uint16_t callers, struct pie_port *port) {
    uint32_t code = pie_link_open_port(opening, callers, port);
    if (code != PIE_DONE)
        return code;
    port->shared = pie_link_new_shared();
    if (port->shared != NULL)
        return PIE_DONE;
    pie_link_close_port(port);
    return PIE_NO_MEMORY;
}

/* Opens `added`, a closed port, with the highest caller number of `port`.
 * Returns PIE_DONE.
 * Errors, in this order: PIE_CLOSED, PIE_OPEN (`added`), PIE_ONE_NUMBER, PIE_NO_MEMORY. Both ports are then unchanged. */
static inline uint32_t pie_link_share(struct pie_port *port, struct pie_port *added) {
    uint32_t code = PIE_OPEN;
    if (port->at == NULL)
        code = PIE_CLOSED;
    else if (port != added)
        code = pie_link_share_port(port, added);
    if (code == PIE_DONE) {
        added->shared = port->shared;
        PIE_LINK_ADD(added->shared->ports, 1);
    }
    return code;
}

/* Moves the caller numbers of `other` to `port` and closes `other`.
 * Returns PIE_DONE.
 * Errors, in this order: PIE_CLOSED (either), PIE_APART (ports of two links, the same port twice, or ranges that are not adjacent). Both ports
 * are then unchanged. */
static inline uint32_t pie_link_gather(struct pie_port *port, struct pie_port *other) {
    uint32_t code = PIE_APART;
    if (port->at == NULL || other->at == NULL)
        code = PIE_CLOSED;
    else if (port != other && port->shared == other->shared)
        code = pie_link_gather_ports(port, other);
    if (code == PIE_DONE)
        pie_link_leave(other);
    return code;
}

/* Closes a port. The last port of a link frees the link. The calls of the port stay in the history; its caller numbers are not used again.
 * Returns PIE_DONE.
 * Errors: PIE_CLOSED. */
static inline uint32_t pie_link_close(struct pie_port *port) {
    uint32_t code = pie_link_close_port(port);
    if (code == PIE_DONE)
        pie_link_leave(port);
    return code;
}

/* Decides an arriving packet. Reads moment, tag, size, ECN field and random word of the event.
 * Returns PIE_ENQUEUE, PIE_MARK, PIE_EARLY, PIE_BYTES or PIE_PACKETS. The first two queue the packet.
 * Errors, in this order: PIE_CLOSED, PIE_BAD_ECN, PIE_BUSY, PIE_BAD_MOMENT, PIE_BAD_SIZE, PIE_EXHAUSTED, PIE_FULL.
 * Notes: the event's answer is the return value, also after an error; after PIE_CLOSED and PIE_BUSY the event is unchanged. An event
 * without error is recorded in the history, with the least caller number of the port. */
uint32_t pie_link_try_arrive(struct pie_port *port, struct pie_event *event);

/* Removes the oldest packet from the queue at the event's moment. The event receives its tag, its size and its ECN field, which is PIE_CE
 * if the packet was marked.
 * Returns PIE_DONE, or PIE_NONE if the queue is empty.
 * Errors, in this order: PIE_CLOSED, PIE_BUSY, PIE_BAD_MOMENT, PIE_EXHAUSTED, PIE_FULL. */
uint32_t pie_link_try_depart(struct pie_port *port, struct pie_event *event);

/* Updates probability and burst allowance at the event's moment.
 * Returns PIE_DONE.
 * Errors, in this order: PIE_CLOSED, PIE_BUSY, PIE_BAD_MOMENT, PIE_TOO_SOON, PIE_EXHAUSTED, PIE_FULL. */
uint32_t pie_link_try_update(struct pie_port *port, struct pie_event *event);

/* Resets probability, delays and rate estimate at the event's moment, as pie_reset.
 * Returns PIE_DONE.
 * Errors: those of pie_link_try_depart. */
uint32_t pie_link_try_reset(struct pie_port *port, struct pie_event *event);

/* Sets parameters for the events that follow.
 * Returns PIE_DONE.
 * Errors, in this order: PIE_CLOSED, PIE_BAD_PARAMS, PIE_BUSY, PIE_BAD_MOMENT, PIE_EXHAUSTED, PIE_FULL. */
uint32_t pie_link_try_set_params(struct pie_port *port, const struct pie_params *params, struct pie_event *event);

/* ---- Folds: reading the history in parts. */

#define PIE_LINK_MOST 64 /* the most events of one fold */

/* Removes the oldest events from the log and copies them to `events`, oldest first: at most `count`, at most PIE_LINK_MOST, and none after
 * an event that sets parameters (PIE_EVENT_PARAMS), whose parameters are copied to `params`.
 *   folded  receives the number of events; 0 unless PIE_DONE is returned
 *   last    receives the number of the last event that has left the log. The events have the numbers last - folded + 1 to last; the first
 *           event of the history has the number 1
 * Returns PIE_DONE.
 * Errors, in this order: PIE_CLOSED, PIE_BUSY, PIE_TOO_MANY (the log contains no event, or `count` is 0). No event is then written, and
 * after PIE_CLOSED and PIE_BUSY `last` is unchanged.
 * Notes: pie_write_event and pie_write_params write the records, pie_write_lost the line of a gap:
 *
 *     while (pie_link_fold(&port, events, PIE_LINK_MOST, &folded, &last, &params) == PIE_DONE) {
 *         uint64_t missing = last - folded - written;     (no fold of this thread returned these events)
 *         fwrite(out, 1, pie_write_lost(missing, out, sizeof out), file);     (writes nothing if none is missing)
 *         written = last;
 *         ..                                              (write the records of the events)
 *     }
 *
 * A rolling link discards events if more than `tail` occur between two folds; a fold by another thread also removes events. An audit of the
 * text ends at a gap; an excerpt starts a new text. If one thread folds a bounded link, no event is missing. `events` is never NULL, not even
 * with a count of 0. */
uint32_t pie_link_try_fold(struct pie_port *port, struct pie_event *events, size_t count, size_t *folded, uint64_t *last, struct pie_params *params);

/* ---- Registers and statistics. Reading them records no event. */

/* Times are in nanoseconds, probabilities in units of 10^-12. */
struct pie_registers {
    uint64_t count;           /* the number of events */
    uint64_t moment;          /* the effective moment, the greatest so far */
    uint64_t packets;         /* the number of queued packets */
    uint64_t bytes;           /* their bytes */
    uint64_t prob;            /* the probability of drop or mark */
    uint64_t old_delay;       /* the delay at the last update */
    uint64_t accu;            /* the accumulated probability */
    uint64_t burst;           /* the burst allowance */
    uint64_t last;            /* the moment of the last update, or of the opening */
    uint64_t due;             /* the moment from which the next update is not too soon */
    uint64_t average;         /* the average time in which dq_threshold bytes depart; 0: no sample */
    uint64_t measuring;       /* 1 if a departure rate cycle is open, otherwise 0 */
    uint64_t active;          /* 1 if the controller is active, otherwise 0; always 1 with PIE_ALWAYS_ON */
    struct pie_params params; /* the parameters in force */
};

/* The statistics of all events. */
struct pie_totals {
    uint64_t count;         /* the number of events */
    struct pie_stats stats; /* their statistics */
};

/* Read the registers or the statistics after `count` events of the history.
 * Return PIE_DONE.
 * Errors, in this order: PIE_CLOSED, PIE_BUSY. The struct is then unchanged. */
uint32_t pie_link_try_registers(struct pie_port *port, struct pie_registers *registers);
uint32_t pie_link_try_stats(struct pie_port *port, struct pie_totals *totals);

/* ---- Excerpts: a snapshot and the last events as a text for `pie audit`, `pie explain` and `pie cut`, while the link continues. */

/* An excerpt with its own memory, for one thread at a time. Move it, never use two copies. All zeros is a closed excerpt. */
struct pie_excerpt {
    void *at; /* private */
};

#define PIE_EXCERPT_CLOSED {0}

/* Allocates memory for excerpts of every link with this opening. The excerpt then contains no event.
 * Returns PIE_DONE.
 * Errors, in this order: PIE_OPEN, those of pie_open, PIE_NO_MEMORY. The excerpt is then unchanged.
 * Notes: it takes 24 bytes for each of `packets` and 128 bytes for each of `packets` or `tail`, whichever is more: 159.4 MB with the 2^20
 * packets of pie_default_opening. The call requests 184.5 MB, because the 24 bytes per packet are allocated, freed and allocated again. */
uint32_t pie_link_open_excerpt(const struct pie_opening *opening, struct pie_excerpt *excerpt);

/* Copies all events that the link still stores, at least those of the log, and the state before them to the excerpt. The text of the
 * excerpt starts again at its first record. The history is unchanged.
 * Returns PIE_DONE.
 * Errors, in this order: PIE_CLOSED (either), PIE_BUSY, PIE_TOO_SMALL. The excerpt is then unchanged.
 * Notes: other callers wait during the copy. Its time grows with the number of queued packets and of events, which is at most twice
 * `packets` or `tail`: 58 ms for 1.9 million events. */
uint32_t pie_link_try_excerpt(struct pie_port *port, struct pie_excerpt *excerpt);

/* Writes the next record of the excerpt's text to the first `room` bytes of `out`, without a terminating 0. PIE_RESUME_ROOM bytes are enough
 * for each record. `out` is never NULL.
 * Returns the number of bytes; 0 after the last record and if the excerpt is closed. If the record has more than `room` bytes, returns 0 and
 * the record stays the next one.
 * Notes: the call takes no turn at the link. */
size_t pie_link_write_excerpt(struct pie_excerpt *excerpt, unsigned char *out, size_t room);

/* Frees the memory of an excerpt.
 * Returns PIE_DONE.
 * Errors: PIE_CLOSED. */
uint32_t pie_link_close_excerpt(struct pie_excerpt *excerpt);

/* ---- Bursts: several events of one port in one turn, with no event of another port between them. The calls read and write the events in
 * place, and allocate no memory. Each event receives its own result or error. Events after the end of the burst are unchanged. An event of
 * kind PIE_EVENT_UPDATE is an update, in both calls. `events` is never NULL, not even with a count of 0.
 * Both calls return PIE_DONE, also for 0 events while another port has the turn.
 * Errors, in this order: PIE_CLOSED, PIE_BUSY. Each event is then unchanged. */

/* Decides `count` arrivals, each as pie_link_try_arrive. An error of one event, PIE_BAD_ECN too, does not end the burst. */
uint32_t pie_link_try_arrive_all(struct pie_port *port, struct pie_event *events, size_t count);

/* Removes packets from the queue, each at the moment of its event, as pie_link_try_depart.
 *   bytes  the most bytes of the departing packets together; UINT64_MAX for no limit
 *   count  the most events
 *   made   receives the number of events with a result
 * The burst also ends after PIE_NONE, which is recorded, after an error of a departure, after an update with an error other than
 * PIE_TOO_SOON, and before a packet that would exceed `bytes`. */
uint32_t pie_link_try_depart_all(struct pie_port *port, uint64_t bytes, struct pie_event *events, size_t count, size_t *made);

/* ---- Waiting calls. Each repeats its `try` call until it returns a code other than PIE_BUSY, and returns that code. Between two tries it
 * pauses, for up to 64 instructions at first; then it yields its processor about 500 times; then it sleeps until another waiting call ends
 * its turn, but at most one millisecond. errno is unchanged. These calls are tested, not proved. No call is guaranteed to get its turn. */

#define PIE_LINK_ROUNDS 512 /* rounds before a waiting call sleeps: most turns end sooner, and a sleep costs more than a turn */

/* The progress of a waiting call: its rounds, and the value of `turns` before its last try. */
struct pie_link_patience {
    uint32_t rounds;
    uint32_t seen;
};

/* Pauses for 2^round instructions. */
static inline void pie_link_pause(uint32_t round) {
    uint32_t left;
    for (left = UINT32_C(1) << round; left != 0; left--)
#if defined(__x86_64__) || defined(__i386__)
        __asm__ __volatile__("pause");
#elif defined(__aarch64__)
        __asm__ __volatile__("isb"); /* (yield ends at once on most processors) */
#elif defined(__riscv)
        __asm__ __volatile__(".4byte 0x0100000f"); /* pause, which older assemblers do not know */
#else
        __asm__ __volatile__("");
#endif
}

/* Waits a short time, longer in each round, for a turn at the link of `port`. */
static inline void pie_link_wait(const struct pie_port *port, struct pie_link_patience *waited) {
    struct pie_link_shared *shared = port->shared;
    if (waited->rounds < 7) {
        pie_link_pause(waited->rounds++);
        return;
    }
#ifdef __linux__
    if (waited->rounds > PIE_LINK_ROUNDS) {
        const struct timespec most = {0, 1000000};
        int before = errno;
        syscall(SYS_futex, &shared->turns, FUTEX_WAIT_PRIVATE, waited->seen, &most, NULL, 0);
        errno = before;
        waited->seen = PIE_LINK_LOAD(shared->turns);
        return;
    }
    if (waited->rounds == PIE_LINK_ROUNDS) {
        /* Count the thread as a sleeper, and try once more before it sleeps: a turn that ends after that try wakes it. */
        PIE_LINK_ADD(shared->sleepers, 1);
        waited->seen = PIE_LINK_LOAD(shared->turns);
    }
    waited->rounds++;
#else
    (void)shared;
#endif
    sched_yield();
}

/* Wakes one thread that sleeps in a waiting call at the link of `port`, an open port, if there is one. Waiting calls do so after their
 * turns. Call it after the turn of a `try` call if other threads use waiting calls. */
static inline void pie_link_wake(const struct pie_port *port) {
#ifdef __linux__
    struct pie_link_shared *shared = port->shared;
    if (PIE_LINK_LOAD(shared->sleepers) != 0) {
        int before = errno;
        PIE_LINK_ADD(shared->turns, 1);
        syscall(SYS_futex, &shared->turns, FUTEX_WAKE_PRIVATE, 1, NULL, NULL, 0);
        errno = before;
    }
#else
    (void)port;
#endif
}

/* Ends a waiting call after its turn. */
static inline void pie_link_had_turn(const struct pie_port *port, const struct pie_link_patience *waited) {
    if (port->shared == NULL)
        return; /* (the port is closed) */
    if (waited->rounds > PIE_LINK_ROUNDS)
        PIE_LINK_ADD(port->shared->sleepers, UINT32_MAX);
    pie_link_wake(port);
}

#define PIE_LINK_WAITING(call)                    \
    struct pie_link_patience waited = {0, 0};     \
    uint32_t code;                                \
    while ((code = (call)) == PIE_BUSY)           \
        pie_link_wait(port, &waited);             \
    pie_link_had_turn(port, &waited);             \
    return code

static inline uint32_t pie_link_arrive(struct pie_port *port, struct pie_event *event) {
    PIE_LINK_WAITING(pie_link_try_arrive(port, event));
}

static inline uint32_t pie_link_depart(struct pie_port *port, struct pie_event *event) {
    PIE_LINK_WAITING(pie_link_try_depart(port, event));
}

static inline uint32_t pie_link_update(struct pie_port *port, struct pie_event *event) {
    PIE_LINK_WAITING(pie_link_try_update(port, event));
}

static inline uint32_t pie_link_reset(struct pie_port *port, struct pie_event *event) {
    PIE_LINK_WAITING(pie_link_try_reset(port, event));
}

static inline uint32_t pie_link_set_params(struct pie_port *port, const struct pie_params *params, struct pie_event *event) {
    PIE_LINK_WAITING(pie_link_try_set_params(port, params, event));
}

static inline uint32_t pie_link_fold(struct pie_port *port, struct pie_event *events, size_t count, size_t *folded, uint64_t *last,
                                     struct pie_params *params) {
    PIE_LINK_WAITING(pie_link_try_fold(port, events, count, folded, last, params));
}

static inline uint32_t pie_link_registers(struct pie_port *port, struct pie_registers *registers) {
    PIE_LINK_WAITING(pie_link_try_registers(port, registers));
}

static inline uint32_t pie_link_stats(struct pie_port *port, struct pie_totals *totals) {
    PIE_LINK_WAITING(pie_link_try_stats(port, totals));
}

static inline uint32_t pie_link_excerpt(struct pie_port *port, struct pie_excerpt *excerpt) {
    PIE_LINK_WAITING(pie_link_try_excerpt(port, excerpt));
}

static inline uint32_t pie_link_arrive_all(struct pie_port *port, struct pie_event *events, size_t count) {
    PIE_LINK_WAITING(pie_link_try_arrive_all(port, events, count));
}

static inline uint32_t pie_link_depart_all(struct pie_port *port, uint64_t bytes, struct pie_event *events, size_t count, size_t *made) {
    PIE_LINK_WAITING(pie_link_try_depart_all(port, bytes, events, count, made));
}

/* ---- Hint: the approximate number of queued packets, and the moment of the next update, for readers without a turn. It is as old as the
 * last pie_link_tell, so use it only to decide whether to make a call. */

/* A hint in one word that the threads of a link share. Initialize it with zeros. */
struct pie_link_hint {
    PIE_LINK_WORD(64) word; /* number of packets, signed, in the lower 22 bits; moment in units of 2^18 ns above them */
};

#define PIE_LINK_HINT_PACKETS UINT64_C(0x3fffff)
#define PIE_LINK_HINT_SIGN UINT64_C(0x200000)

/* Adds the results of `count` events of any port to the hint's number of packets. */
static inline void pie_link_tell(struct pie_link_hint *hint, const struct pie_event *events, size_t count) {
    uint64_t packets = 0;
    for (; count != 0; count--, events++) {
        if (events->kind == PIE_EVENT_ARRIVE)
            packets += events->answer == PIE_ENQUEUE || events->answer == PIE_MARK;
        if (events->answer == PIE_DONE && events->kind == PIE_EVENT_DEPART)
            packets--;
    }
    if (packets != 0)
        PIE_LINK_ADD(hint->word, packets);
}

/* Sets the hint's moment of the next update to `due`, the field of registers read after an update, a reset or new parameters, unless the
 * hint has a greater moment. So threads may call it in any order; a shorter t_update becomes visible one update later. Do not compute `due`
 * from the moment of an update's event: the effective moment may be greater. */
static inline void pie_link_tell_due(struct pie_link_hint *hint, uint64_t due) {
    const uint64_t most = (UINT64_C(1) << 42) - 1;
    uint64_t units = (due >> 18) + ((due & ((UINT64_C(1) << 18) - 1)) != 0), seen = PIE_LINK_LOAD(hint->word), packets;
    units = units < most ? units : most;
    do {
        packets = ((seen & PIE_LINK_HINT_PACKETS) ^ PIE_LINK_HINT_SIGN) - PIE_LINK_HINT_SIGN;
        if ((seen - packets) >> 22 >= units)
            return;
    } while (!PIE_LINK_SWAP(hint->word, seen, (units << 22) + packets));
}

/* Returns the number of queued packets according to the hint. */
static inline uint64_t pie_link_waiting(const struct pie_link_hint *hint) {
    uint64_t packets = ((PIE_LINK_LOAD(hint->word) & PIE_LINK_HINT_PACKETS) ^ PIE_LINK_HINT_SIGN) - PIE_LINK_HINT_SIGN;
    return packets >> 63 ? 0 : packets; /* (a departure may be added before its arrival) */
}

/* Returns the moment of the next update according to the hint, at most 2^18 ns late. Returns UINT64_MAX if no update can be due. */
static inline uint64_t pie_link_due(const struct pie_link_hint *hint) {
    uint64_t word = PIE_LINK_LOAD(hint->word);
    uint64_t units = (word - (((word & PIE_LINK_HINT_PACKETS) ^ PIE_LINK_HINT_SIGN) - PIE_LINK_HINT_SIGN)) >> 22;
    return units == (UINT64_C(1) << 42) - 1 ? UINT64_MAX : units << 18;
}

/* Returns a description of a return code, for a log. */
static inline const char *pie_link_text(uint32_t code) {
    switch (code) {
    case PIE_EXHAUSTED: return "as many events as the opening allows";
    case PIE_FULL: return "the event log is full";
    case PIE_TOO_MANY: return "the log holds no event";
    case PIE_BUSY: return "another port has the turn";
    case PIE_CLOSED: return "the port or the excerpt is closed";
    case PIE_NO_MEMORY: return "out of memory";
    case PIE_NO_CALLERS: return "a link for no callers";
    case PIE_ONE_NUMBER: return "the port has one number alone";
    case PIE_APART: return "the ports are of two links, or their ranges of numbers are not adjacent";
    case PIE_OPEN: return "the port or the excerpt is open";
    case PIE_TOO_SMALL: return "the excerpt has too little room for the link";
    default: return pie_text(code);
    }
}

#ifdef __cplusplus
}

inline uint32_t pie_link_close_any(pie_port *port) noexcept { return pie_link_close(port); }
inline uint32_t pie_link_close_any(pie_excerpt *excerpt) noexcept { return pie_link_close_excerpt(excerpt); }

/* Base of a port or an excerpt that closes itself; it can be moved, not copied. */
template <typename Raw> class pie_link_owned {
public:
    pie_link_owned() noexcept : raw() {}
    pie_link_owned(pie_link_owned &&other) noexcept : raw(other.raw) { other.raw = Raw(); }
    pie_link_owned &operator=(pie_link_owned &&other) noexcept {
        Raw taken = other.raw;
        other.raw = Raw();
        pie_link_close_any(&raw);
        raw = taken;
        return *this;
    }
    ~pie_link_owned() { pie_link_close_any(&raw); }

    bool is_open() const noexcept { return raw.at != nullptr; }
    uint32_t close() noexcept { return pie_link_close_any(&raw); }

protected:
    Raw raw;
};

/* An excerpt and a port. Each member function does what the C function of that name does. */
class pie_owned_excerpt : public pie_link_owned<pie_excerpt> {
public:
    uint32_t open(const pie_opening &opening) noexcept { return pie_link_open_excerpt(&opening, &raw); }
    size_t write(unsigned char *out, size_t room) noexcept { return pie_link_write_excerpt(&raw, out, room); }

private:
    friend class pie_link_port;
};

class pie_link_port : public pie_link_owned<pie_port> {
public:
    uint32_t open(const pie_opening &opening, uint16_t callers) noexcept { return pie_link_open(&opening, callers, &raw); }
    uint32_t share(pie_link_port &added) noexcept { return pie_link_share(&raw, &added.raw); }
    uint32_t gather(pie_link_port &other) noexcept { return pie_link_gather(&raw, &other.raw); }
    void wake() const noexcept { pie_link_wake(&raw); }

    /* the `try` call and the waiting call: `try_arrive` and `arrive` */
#define PIE_LINK_BOTH(name, taken, handed)                                    \
    uint32_t try_##name taken noexcept { return pie_link_try_##name handed; } \
    uint32_t name taken noexcept { return pie_link_##name handed; }

    PIE_LINK_BOTH(arrive, (pie_event &event), (&raw, &event))
    PIE_LINK_BOTH(depart, (pie_event &event), (&raw, &event))
    PIE_LINK_BOTH(update, (pie_event &event), (&raw, &event))
    PIE_LINK_BOTH(reset, (pie_event &event), (&raw, &event))
    PIE_LINK_BOTH(set_params, (const pie_params &params, pie_event &event), (&raw, &params, &event))
    PIE_LINK_BOTH(arrive_all, (pie_event *events, size_t count), (&raw, events, count))
    PIE_LINK_BOTH(depart_all, (uint64_t bytes, pie_event *events, size_t count, size_t &made), (&raw, bytes, events, count, &made))
    PIE_LINK_BOTH(fold, (pie_event *events, size_t room, size_t &folded, uint64_t &last, pie_params &params),
                  (&raw, events, room, &folded, &last, &params))
    PIE_LINK_BOTH(registers, (pie_registers &registers), (&raw, &registers))
    PIE_LINK_BOTH(stats, (pie_totals &totals), (&raw, &totals))
    PIE_LINK_BOTH(excerpt, (pie_owned_excerpt &excerpt), (&raw, &excerpt.raw))
#undef PIE_LINK_BOTH
};
#endif

#endif
