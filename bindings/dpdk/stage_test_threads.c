#include "stage_test.h"

#include <inttypes.h>
#include <pthread.h>
#include <rte_cycles.h>
#include <rte_spinlock.h>
#include <sched.h>
#include <string.h>

static int are_done;

/* Keeps some 3000 packets queued. */
static void *churn(void *argument) {
    struct rte_mbuf *mbufs[8], *out[16];
    struct pie_stage_stats stats;
    for (uint32_t round = 0; !__atomic_load_n(&are_done, __ATOMIC_SEQ_CST); round++) {
        for (int i = 0; i < 8; i++)
            mbufs[i] = plain((uint16_t)(100 + round % 900), i % 2 == 0 ? PIE_ECT0 : PIE_NOT_ECT);
        pie_stage_enqueue(argument, mbufs, 8, rte_rdtsc());
        pie_stage_read(argument, &stats);
        rte_pktmbuf_free_bulk(out, pie_stage_dequeue(argument, out, stats.waiting > 3000 ? 16 : 4, rte_rdtsc()));
        if (round % 64 == 0)
            sched_yield();
    }
    return NULL;
}

void test_cut_beside(int cuts) {
    struct pie_stage_params params;
    struct content content = {0};
    pthread_t other;
    char name[64] = "turns-0";
    uint64_t last = 0;
    unrecorded(&params);
    params.opening.packets = 4000;
    params.events = 1 << 16;
    params.opening.params.limit_bytes = 1 << 24;
    params.opening.params.target = UINT64_C(10000000000); // (so that no packet is dropped early)
    struct pie_stage *stage = stage_of(&params);
    are_done = 0;
    EXPECT(pthread_create(&other, NULL, churn, stage) == 0);
    for (int cut = 0; cut < cuts; cut++) {
        FILE *file = open_history(name);
        while (content.lines < 5000) // (so that the queue is long, and packets queued at one cut are gone at the next)
            take_history(stage, file, &content);
        EXPECT(pie_stage_history_cut(stage) && !pie_stage_history_cut(stage));
        take_history(stage, file, &content);
        EXPECT(fclose(file) == 0);
        struct resumed resumed = {.before = 0, .events = content.lines - 1};
        if (cut > 0)
            resumed = read_resumed(name);
        EXPECT(last == 0 || resumed.before == last);
        last = content.gaps != 0 ? 0 : resumed.before + resumed.events;
        content = (struct content){0};
        snprintf(name, sizeof name, "turns-%d", cut + 1);
    }
    __atomic_store_n(&are_done, 1, __ATOMIC_SEQ_CST);
    EXPECT(pthread_join(other, NULL) == 0);
    FILE *file = open_history(name);
    take_history(stage, file, &content);
    EXPECT(fclose(file) == 0);
    pie_stage_free(stage);
    expect_all_back();
    printf("stage_test: a history that is cut while packets come and go\n");
}

/* Runs three threads that enqueue packets, one that dequeues and returns each packet to its owner, and one that
 * updates, reads, and sets parameters. */
#define SENDERS 3
#define OWNED 64

struct sender {
    pthread_t thread;
    struct pie_stage *stage;
    uint32_t number, rounds;
    uint64_t handed_back;
    rte_spinlock_t lock; /* for the returned packets */
    struct rte_mbuf *back[OWNED];
    uint32_t count;
};

static struct sender senders[SENDERS];

static void *send_bursts(void *argument) {
    struct sender *sender = argument;
    struct rte_mbuf *mbufs[OWNED];
    for (uint32_t round = 0; round < sender->rounds; round++) {
        rte_spinlock_lock(&sender->lock);
        uint32_t count = RTE_MIN(sender->count, 1 + round % 40);
        sender->count -= count;
        memcpy(mbufs, sender->back + sender->count, count * sizeof *mbufs);
        rte_spinlock_unlock(&sender->lock);
        uint32_t queued = pie_stage_enqueue(sender->stage, mbufs, count, rte_rdtsc());
        rte_spinlock_lock(&sender->lock);
        memcpy(sender->back + sender->count, mbufs + queued, (count - queued) * sizeof *mbufs);
        sender->count += count - queued;
        sender->handed_back += count - queued;
        rte_spinlock_unlock(&sender->lock);
        if (round % 16 == 0)
            sched_yield(); // (so that the others get their turns if there are few processors)
    }
    return NULL;
}

static void *take_bursts(void *argument) {
    struct pie_stage *stage = argument;
    struct rte_mbuf *mbufs[16];
    bool is_last = false;
    for (;;) {
        uint32_t count = pie_stage_dequeue(stage, mbufs, 16, rte_rdtsc());
        for (uint32_t i = 0; i < count; i++) {
            struct sender *sender = &senders[mbufs[i]->port];
            rte_spinlock_lock(&sender->lock);
            sender->back[sender->count++] = mbufs[i];
            rte_spinlock_unlock(&sender->lock);
        }
        if (count == 0 && is_last)
            return NULL;
        is_last = __atomic_load_n(&are_done, __ATOMIC_SEQ_CST);
    }
}

static void *update_and_read(void *argument) {
    struct pie_stage_stats stats;
    struct pie_params params;
    for (uint32_t round = 0; !__atomic_load_n(&are_done, __ATOMIC_SEQ_CST); round++) {
        pie_stage_update(argument, rte_rdtsc());
        pie_stage_read(argument, &stats);
        EXPECT(stats.queued == stats.departed + stats.waiting);
        if (round % 64 != 0)
            continue;
        pie_stage_read_params(argument, &params);
        params.target = 2000 + round % 100;
        EXPECT(pie_stage_set_params(argument, &params, rte_rdtsc()) == PIE_DONE);
    }
    return NULL;
}

struct writer {
    struct pie_stage *stage;
    FILE *file;
    struct content content;
};

struct record_writer {
    struct pie_stage *stage;
    FILE *file;
    struct summed summed;
};

/* Writes the flight recorder's text repeatedly, while the others continue; each text has later
 * events. */
static void *write_flights(void *argument) {
    char name[64];
    uint64_t last = 0;
    for (int i = 0; i < 8 || !__atomic_load_n(&are_done, __ATOMIC_SEQ_CST); i++) {
        snprintf(name, sizeof name, "flight-threads-%d", i % 8);
        int answer;
        do { // (until a copy was not overwritten; at the latest when the other threads have ended)
            FILE *file = open_history(name);
            answer = pie_stage_flight(argument, write_to, file);
            EXPECT(fclose(file) == 0);
        } while (answer == PIE_FLIGHT_GONE);
        EXPECT(answer == PIE_FLIGHT_DONE);
        struct resumed resumed = read_resumed(name);
        EXPECT(resumed.before + resumed.events >= last);
        last = resumed.before + resumed.events;
    }
    return NULL;
}

static void *write_history(void *argument) {
    struct writer *writer = argument;
    while (!__atomic_load_n(&are_done, __ATOMIC_SEQ_CST))
        take_history(writer->stage, writer->file, &writer->content);
    return NULL;
}

static void *write_records(void *argument) {
    struct record_writer *writer = argument;
    while (!__atomic_load_n(&are_done, __ATOMIC_SEQ_CST))
        take_records(writer->stage, false, writer->file, &writer->summed);
    return NULL;
}

/* Returns the sender of a packet as its flow. */
static uint32_t sender_of(void *user, const struct rte_mbuf *mbuf) {
    (void)user;
    return mbuf->port;
}

void test_threads(uint32_t rounds, uint32_t events, uint32_t flight, uint64_t every) {
    struct pie_stage_params params;
    struct pie_stage_stats stats;
    pthread_t taker, updater, recorder, flights, summer;
    char name[64];
    unrecorded(&params);
    params.opening.packets = 60;
    params.hands_back = true;
    params.opening.params.target = 2000;
    params.opening.params.t_update = 10000;
    params.opening.params.max_burst = 0;
    params.opening.params.dq_threshold = 1024;
    params.events = events;
    params.flight = flight;
    params.every = every;
    params.flow = every != 0 ? sender_of : NULL;
    snprintf(name, sizeof name, "threads-%" PRIu64, every);
    struct pie_stage *stage = stage_of(&params);
    struct writer writer = {.stage = stage, .file = events != 0 ? open_history(name) : NULL};
    struct record_writer records = {.stage = stage, .file = every != 0 ? open_text(name, "records") : NULL};
    are_done = 0;
    EXPECT(events == 0 || pthread_create(&recorder, NULL, write_history, &writer) == 0);
    EXPECT(flight == 0 || pthread_create(&flights, NULL, write_flights, stage) == 0);
    EXPECT(every == 0 || pthread_create(&summer, NULL, write_records, &records) == 0);
    for (uint32_t i = 0; i < SENDERS; i++) {
        senders[i] = (struct sender){.stage = stage, .number = i, .rounds = rounds, .count = OWNED};
        for (uint32_t k = 0; k < OWNED; k++) {
            senders[i].back[k] = plain(200, k % 2 ? PIE_ECT0 : PIE_NOT_ECT);
            senders[i].back[k]->port = (uint16_t)i;
        }
        EXPECT(pthread_create(&senders[i].thread, NULL, send_bursts, &senders[i]) == 0);
    }
    EXPECT(pthread_create(&taker, NULL, take_bursts, stage) == 0 && pthread_create(&updater, NULL, update_and_read, stage) == 0);
    uint64_t handed_back = 0;
    for (uint32_t i = 0; i < SENDERS; i++)
        EXPECT(pthread_join(senders[i].thread, NULL) == 0);
    __atomic_store_n(&are_done, 1, __ATOMIC_SEQ_CST);
    EXPECT(pthread_join(taker, NULL) == 0 && pthread_join(updater, NULL) == 0);
    if (events != 0) {
        EXPECT(pthread_join(recorder, NULL) == 0);
        take_history(stage, writer.file, &writer.content);
        EXPECT(fclose(writer.file) == 0);
        expect_history(stage, &writer.content);
    }
    if (every != 0) {
        EXPECT(pthread_join(summer, NULL) == 0);
        take_records(stage, true, records.file, &records.summed);
        EXPECT(fclose(records.file) == 0);
        expect_summed(stage, &records.summed);
    }
    if (flight != 0) {
        EXPECT(pthread_join(flights, NULL) == 0);
        expect_flight(stage, "flight-threads", RTE_MAX(flight, events));
    }
    pie_stage_read(stage, &stats);
    for (uint32_t i = 0; i < SENDERS; i++) {
        EXPECT(senders[i].count == OWNED);
        handed_back += senders[i].handed_back;
        rte_pktmbuf_free_bulk(senders[i].back, OWNED);
    }
    EXPECT(stats.queued > 0 && stats.queued == stats.departed && stats.waiting == 0 && stats.waiting_bytes == 0);
    EXPECT(stats.early + stats.full + stats.bytes == handed_back && stats.refused == 0);
    pie_stage_free(stage);
    expect_all_back();
    printf("stage_test: threads%s%s%s (%" PRIu64 " queued, %" PRIu64 " dropped)\n", events != 0 ? ", recorded" : "",
           flight != 0 ? ", with a flight recorder" : "", every != 0 ? ", with records of periods" : "", stats.queued, handed_back);
}
