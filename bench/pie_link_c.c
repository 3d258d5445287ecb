/* Measures events per second of one to four threads at one controller, in bursts:
 *
 *   - at a link (include/pie_link.h);
 *   - at a spin lock around recording calls of pie.h, with a flight recorder;
 *   - at the same lock around plain calls, whose events go to the recorder in bulk, as in a data plane;
 *   - at that lock, and at a mutex, around recording calls whose events of 64 bytes go into a ring with
 *     statistics, as a builder would write it without this repository's recorders; at the lock also
 *     with events of 40 bytes, the words of the flight recorder.
 *
 * Each thread enqueues a burst of packets, dequeues as many, and between two bursts spends on each
 * packet the time of making one. No thread is more than a burst ahead of another, so that they
 * meet. A burst of one uses the call for one event. An event is an arrival or a departure. Prints
 * lines `kind threads burst events/s changes`, one for each run, for bench/pie_link_c.sh. `changes`
 * is the share of bursts that follow a burst of another thread; at the link only bursts in the
 * event log count.
 *
 * usage: pie_link_c RUNS MILLISECONDS */
#define _GNU_SOURCE
#include "pie_flight.h"
#include "pie_link.h"

#include <inttypes.h>
#include <pthread.h>
#include <stddef.h>
#include <stdio.h>
#include <stdlib.h>
#include <string.h>
#include <time.h>

#define MOST_THREADS 4
#define MOST_BURST 32
#define STANDING 256    /* packets that are always queued, so that each departure finds one */
#define EVENTS 16384    /* capacity of the recorder and of the link's log */
#define PACKETS 4096    /* capacity of the queue */
#define SIZE 1000       /* bytes of a packet */
#define MAKING 4        /* pauses between two turns, for each packet */

enum kind { LINK, RECORDED, BULK, RING, SHORT, MUTEX, KINDS };
static const char *const names[KINDS] = {"link", "recorded", "bulk", "ring", "short", "mutex"};

struct packet {
    uint64_t tag, since;
    uint32_t size, ecn;
};

/* The controller behind a spin lock or a mutex, with its queue and its recorder, or a ring of events and statistics. */
static struct {
    _Alignas(64) atomic_int lock;
    _Alignas(64) pthread_mutex_t mutex;
    _Alignas(64) struct pie_state pie;
    struct pie_flight flight;
    struct pie_event ring[EVENTS];
    uint64_t words[EVENTS][PIE_FLIGHT_EVENT]; /* events of 40 bytes */
    uint64_t kept;
    struct pie_stats stats;
    struct packet queue[PACKETS];
    uint64_t came, left, bytes;
    int last; /* the thread that had the turn before */
} shared = {.mutex = PTHREAD_MUTEX_INITIALIZER};

static struct pie_opening opening;
static void *memory; /* memory of the recorder */
static size_t memory_bytes;
static atomic_int is_begun, are_ready, is_over;
static uint64_t ends_at;
static int at_work; /* threads */

static struct worker {
    _Alignas(64) struct pie_port port;
    int number;
    enum kind kind;
    uint32_t burst;
    uint64_t events, turns, changes, word, due;
    atomic_ulong bursts; /* so far, for other threads to read */
    struct pie_event burst_of[MOST_BURST];
    pthread_t id;
} workers[MOST_THREADS];

static void die(const char *what, uint64_t code) {
    fprintf(stderr, "pie_link_c: %s: %s\n", what, pie_link_text((uint32_t)code));
    exit(1);
}

static uint64_t now(void) {
    struct timespec it;
    clock_gettime(CLOCK_MONOTONIC, &it);
    return (uint64_t)it.tv_sec * 1000000000u + (uint64_t)it.tv_nsec;
}

static inline void pause_a_little(void) {
#if defined(__x86_64__)
    __asm__ __volatile__("pause");
#elif defined(__aarch64__)
    __asm__ __volatile__("yield");
#endif
}

/* Takes the lock. A thread at a spin lock spins until it is free, and after a while yields, as a
 * thread that waits for a turn at a link. */
static inline void take(struct worker *worker) {
    uint32_t rounds = 0;
    for (;;) {
        if (worker->kind == MUTEX) {
            pthread_mutex_lock(&shared.mutex);
            break;
        }
        if (atomic_load_explicit(&shared.lock, memory_order_relaxed) == 0 && !atomic_exchange_explicit(&shared.lock, 1, memory_order_acquire))
            break;
        if (rounds < 7)
            pie_link_pause(rounds++);
        else
            sched_yield();
    }
    worker->turns++;
    worker->changes += shared.last != worker->number;
    shared.last = worker->number;
}

static inline void give_back(const struct worker *worker) {
    if (worker->kind == MUTEX)
        pthread_mutex_unlock(&shared.mutex);
    else
        atomic_store_explicit(&shared.lock, 0, memory_order_release);
}

/* Counts an event in the statistics that the recorder and the link keep too. */
static inline void count(const struct pie_event *event, uint64_t waited) {
    struct pie_stats *stats = &shared.stats;
    if (event->kind == PIE_EVENT_ARRIVE) {
        stats->arrivals++;
        stats->enqueued += event->answer == PIE_ENQUEUE;
        stats->marked += event->answer == PIE_MARK;
        stats->early += event->answer == PIE_EARLY;
        stats->over_bytes += event->answer == PIE_BYTES;
        stats->over_packets += event->answer == PIE_PACKETS;
    } else if (event->kind == PIE_EVENT_DEPART) {
        stats->left++;
        stats->left_bytes += event->size;
        stats->waited += waited;
    } else {
        stats->updates++;
        stats->largest_delay = event->delay > stats->largest_delay ? event->delay : stats->largest_delay;
    }
    stats->largest_queue = shared.bytes > stats->largest_queue ? shared.bytes : stats->largest_queue;
}

/* Keeps an event: in the flight recorder, or in the ring. */
static inline void keep(enum kind kind, const struct pie_event *event, uint64_t waited) {
    if (kind == RECORDED || kind == BULK) {
        pie_flight_keep(&shared.flight, &shared.pie, event);
        return;
    }
    if (kind == SHORT) {
        uint64_t *to = shared.words[shared.kept++ % EVENTS];
        memcpy(to, event, 24); /* moment, tag and random word */
        memcpy(to + 3, (const char *)event + offsetof(struct pie_event, size), 16); /* size, answer, caller, kind and ECN field */
    } else {
        shared.ring[shared.kept++ % EVENTS] = *event;
    }
    count(event, waited);
}

/* Waits until no other thread is more than a burst behind. */
static void wait_for_others(const struct worker *worker, int threads) {
    unsigned long mine = atomic_load_explicit(&worker->bursts, memory_order_relaxed);
    for (int i = 0, looks = 0; i < threads; looks++) {
        if (mine <= atomic_load_explicit(&workers[i].bursts, memory_order_relaxed) + 1 || atomic_load_explicit(&is_over, memory_order_relaxed) != 0)
            i++;
        else if (looks < 1000)
            pause_a_little();
        else
            sched_yield();
    }
}

/* Makes the arriving packets of a burst. */
static void make(struct worker *worker, uint64_t moment) {
    for (uint32_t i = 0; i < worker->burst; i++) {
        worker->word = worker->word * UINT64_C(6364136223846793005) + 1442695040888963407;
        worker->burst_of[i] = (struct pie_event){.moment = moment, .tag = worker->events + i, .word = worker->word, .size = SIZE,
                                                 .caller = (uint16_t)worker->number, .ecn = PIE_ECT0};
        for (int k = 0; k < MAKING; k++)
            pause_a_little();
    }
}

static inline void queue_packet(uint64_t tag, uint32_t size, uint32_t ecn) {
    shared.queue[shared.came++ % PACKETS] = (struct packet){tag, shared.pie.moment, size, ecn};
    shared.bytes += size;
}

static void arrive_recorded(struct worker *worker) {
    for (uint32_t i = 0; i < worker->burst; i++) {
        struct pie_event *event = &worker->burst_of[i];
        uint32_t verdict = pie_arrive_event(&shared.pie, shared.bytes, (uint32_t)(PACKETS - (shared.came - shared.left)), event);
        if (verdict <= PIE_MARK)
            queue_packet(event->tag, event->size, verdict == PIE_MARK ? PIE_CE : event->ecn);
        keep(worker->kind, event, 0);
    }
}

static uint32_t depart_recorded(struct worker *worker, uint64_t moment) {
    uint32_t made = 0;
    for (; made < worker->burst && shared.left != shared.came; made++) {
        const struct packet *packet = &shared.queue[shared.left++ % PACKETS];
        struct pie_event *event = &worker->burst_of[made];
        *event = (struct pie_event){.moment = moment, .tag = packet->tag, .size = packet->size, .caller = (uint16_t)worker->number,
                                    .ecn = (uint8_t)packet->ecn};
        shared.bytes -= packet->size;
        pie_depart_event(&shared.pie, shared.bytes, packet->since, event);
        keep(worker->kind, event, shared.pie.moment - packet->since);
    }
    return made;
}

/* Updates the statistics of the packets, and takes a snapshot if one is due. */
static void end_bulk(struct pie_flight_burst *burst) {
    pie_flight_end(&shared.flight, burst);
    if (!pie_flight_is_due(&shared.flight))
        return;
    shared.flight.came_so_far = shared.came;
    shared.flight.packets = shared.came - shared.left;
    shared.flight.bytes = shared.bytes;
    pie_flight_snapshot(&shared.flight, &shared.pie);
}

static void arrive_bulk(struct worker *worker) {
    struct pie_flight_burst burst = pie_flight_begin(&shared.flight);
    struct pie_stats *stats = &shared.flight.stats;
    for (uint32_t i = 0; i < worker->burst; i++) {
        const struct pie_event *it = &worker->burst_of[i];
        uint32_t verdict = pie_arrive(&shared.pie, shared.bytes, it->size, (uint32_t)(PACKETS - (shared.came - shared.left)), it->ecn, it->word,
                                      it->moment);
        pie_flight_arrive(&burst, it->moment, it->tag, it->word, it->size, it->ecn, verdict, it->caller);
        stats->arrivals++;
        stats->enqueued += verdict == PIE_ENQUEUE;
        stats->marked += verdict == PIE_MARK;
        stats->early += verdict == PIE_EARLY;
        if (verdict <= PIE_MARK)
            queue_packet(it->tag, it->size, verdict == PIE_MARK ? PIE_CE : it->ecn);
    }
    end_bulk(&burst);
}

static uint32_t depart_bulk(struct worker *worker, uint64_t moment) {
    struct pie_flight_burst burst = pie_flight_begin(&shared.flight);
    struct pie_stats *stats = &shared.flight.stats;
    uint32_t made = 0;
    for (; made < worker->burst && shared.left != shared.came; made++) {
        const struct packet *packet = &shared.queue[shared.left++ % PACKETS];
        shared.bytes -= packet->size;
        pie_depart_waited(&shared.pie, packet->size, shared.bytes, packet->since, moment);
        pie_flight_depart(&burst, moment, packet->tag, packet->since, packet->size, packet->ecn, (uint32_t)worker->number);
        stats->left++;
        stats->left_bytes += packet->size;
        stats->waited += shared.pie.moment - packet->since;
    }
    end_bulk(&burst);
    return made;
}

/* An update, by the first thread, when it is due. */
static void update(struct worker *worker, uint64_t moment) {
    struct pie_event event = {.moment = moment, .caller = (uint16_t)worker->number};
    if (worker->number != 0 || moment < worker->due)
        return;
    worker->due = moment + opening.params.t_update;
    if (worker->kind == LINK) {
        pie_link_update(&worker->port, &event);
        return;
    }
    take(worker);
    pie_update_event(&shared.pie, shared.bytes, &event);
    keep(worker->kind, &event, 0);
    give_back(worker);
}

/* Makes a burst of arrivals and one of as many departures: two turns. */
static void two_turns(struct worker *worker, int threads) {
    uint64_t moment;
    size_t made;
    wait_for_others(worker, threads);
    moment = now();
    update(worker, moment);
    make(worker, moment);
    if (worker->kind == LINK) {
        uint32_t code = worker->burst == 1 ? pie_link_arrive(&worker->port, worker->burst_of)
                                           : pie_link_arrive_all(&worker->port, worker->burst_of, worker->burst);
        if (code > 100)
            die("a burst of arrivals", code);
    } else {
        take(worker);
        worker->kind == BULK ? arrive_bulk(worker) : arrive_recorded(worker);
        give_back(worker);
    }
    moment = now();
    if (worker->kind == LINK) {
        for (uint32_t i = 0; i < worker->burst; i++)
            worker->burst_of[i].moment = moment; /* (for a departure the library reads nothing else, except that its
                                                    kind is not an update) */
        if (worker->burst == 1)
            made = pie_link_depart(&worker->port, worker->burst_of) == PIE_DONE;
        else
            pie_link_depart_all(&worker->port, UINT64_MAX, worker->burst_of, worker->burst, &made);
    } else {
        take(worker);
        made = worker->kind == BULK ? depart_bulk(worker, moment) : depart_recorded(worker, moment);
        give_back(worker);
    }
    worker->events += worker->burst + made;
    atomic_fetch_add_explicit(&worker->bursts, 1, memory_order_relaxed);
    for (uint32_t i = 0; i < MAKING * worker->burst; i++) /* (they are sent) */
        pause_a_little();
}

static void *work(void *of) {
    struct worker *worker = of;
    atomic_fetch_add(&are_ready, 1);
    while (!atomic_load(&is_begun))
        sched_yield();
    while (now() < ends_at)
        two_turns(worker, at_work);
    atomic_store(&is_over, 1); /* (threads that wait for this one continue) */
    return NULL;
}

static void open_lock(void) {
    if (pie_open(&shared.pie, &opening) != PIE_DONE ||
        !pie_flight_open_bulk(&shared.flight, memory, memory_bytes, EVENTS, MOST_BURST, &opening, &shared.pie))
        die("a controller", PIE_BAD_LIMITS);
    shared.came = shared.left = shared.bytes = shared.kept = 0;
    shared.stats = (struct pie_stats){0};
    shared.last = 0;
}

static void open_link(int threads) {
    uint32_t code = pie_link_open(&opening, (uint16_t)threads, &workers[0].port);
    for (int i = threads - 1; i > 0 && code == PIE_DONE; i--)
        code = pie_link_share(&workers[0].port, &workers[i].port);
    if (code != PIE_DONE)
        die("a link", code);
}

/* Counts the turns that follow one of another caller, among the turns with events in the log. Closes the link. */
static double changes_of_log(int threads, uint32_t burst) {
    struct pie_event events[PIE_LINK_MOST];
    struct pie_params params;
    uint64_t count = 0, changes = 0, last;
    size_t folded;
    int before = 0;
    while (pie_link_fold(&workers[0].port, events, PIE_LINK_MOST, &folded, &last, &params) == PIE_DONE)
        for (size_t i = 0; i < folded; i++, count++) {
            changes += events[i].caller != before;
            before = events[i].caller;
        }
    for (int i = 0; i < threads; i++)
        pie_link_close(&workers[i].port);
    return (double)changes * burst / (double)(count + (count == 0));
}

static void run(enum kind kind, int threads, uint32_t burst, uint64_t milliseconds) {
    uint64_t events = 0, turns = 0, changes = 0;
    opening.moment = now();
    at_work = threads;
    kind == LINK ? open_link(threads) : open_lock();
    atomic_store(&is_begun, 0);
    atomic_store(&is_over, 0);
    atomic_store(&are_ready, 0);
    for (int i = 0; i < threads; i++) {
        struct worker *worker = &workers[i];
        worker->number = i, worker->kind = kind, worker->burst = burst;
        worker->events = worker->turns = worker->changes = 0;
        atomic_store(&worker->bursts, 0);
        worker->word = (uint64_t)i + 1, worker->due = opening.moment + opening.params.t_update;
        for (uint32_t k = 0; i == 0 && k < STANDING; k += burst) {
            make(worker, opening.moment);
            if (kind == LINK)
                pie_link_arrive_all(&worker->port, worker->burst_of, burst);
            else
                kind == BULK ? arrive_bulk(worker) : arrive_recorded(worker);
        }
        if (pthread_create(&worker->id, NULL, work, worker) != 0)
            die("a thread", PIE_NO_MEMORY);
    }
    while (atomic_load(&are_ready) != threads)
        sched_yield();
    ends_at = now() + milliseconds * 1000000;
    atomic_store(&is_begun, 1);
    for (int i = 0; i < threads; i++) {
        pthread_join(workers[i].id, NULL);
        events += workers[i].events, turns += workers[i].turns, changes += workers[i].changes;
    }
    if ((kind == RING || kind == SHORT || kind == MUTEX) &&
        (shared.kept != shared.stats.arrivals + shared.stats.left + shared.stats.updates || shared.stats.arrivals + shared.stats.left < events ||
         shared.stats.enqueued + shared.stats.marked - shared.stats.left != shared.came - shared.left))
        die("a ring has other events", PIE_BYTES);
    printf("%s %d %" PRIu32 " %.0f %.3f\n", names[kind], threads, burst, (double)events * 1e3 / (double)milliseconds,
           kind == LINK ? changes_of_log(threads, burst) : (double)changes / (double)(turns + (turns == 0)));
}

int main(int count, char **words) {
    int runs = count == 3 ? atoi(words[1]) : 1;
    uint64_t milliseconds = count == 3 ? strtoull(words[2], NULL, 10) : 100;
    pie_default_opening(&opening, UINT64_C(10000000000));
    opening.choices = PIE_USUAL; /* as the figures of docs/PERFORMANCE.md were measured */
    opening.packets = PACKETS;
    opening.tail = EVENTS;
    memory_bytes = pie_flight_bulk_bytes(EVENTS, PACKETS, MOST_BURST);
    memory = aligned_alloc(64, (memory_bytes + 63) / 64 * 64);
    if (memory == NULL)
        die("memory", PIE_NO_MEMORY);
    for (; runs > 0; runs--)
        for (int threads = 1; threads <= MOST_THREADS; threads++)
            for (uint32_t burst = 1; burst <= MOST_BURST; burst = burst == 1 ? 8 : burst * 4)
                for (int kind = 0; kind < KINDS; kind++)
                    run((enum kind)kind, threads, burst, milliseconds);
    free(memory);
    return 0;
}
