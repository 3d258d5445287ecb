/* Tests include/pie_follow.h and include/pie_text.h: random events that are followed at random times, in the same
 * thread and in another. Each event must be read as it was kept, or be reported as missed; the text after a loss is
 * decided again. Then a writer at full speed, whose events contain their numbers. Built as C and as C++, and with
 * sanitizers.
 * usage: follow SEED EVENTS */
#define _DEFAULT_SOURCE
#include "flight_again.h"
#include "pie_follow.h"
#include "pie_text.h"

#include <pthread.h>
#include <sched.h>
#include <time.h>

#define UNIX_TIME UINT64_C(1795550400000000000)

static struct text followed, kept; /* the followed events; the whole history, written beside them */
static size_t *ends;               /* the end of the record of event n in the latter, from event 0 on, which is the
                                      opening */
static uint64_t most, looks, anew; /* events; the number of looks; texts that began again */

static struct queue queue;
static struct pie_flight flight;
static struct pie_history history;

static void *aligned(size_t bytes) {
    void *memory = NULL;
    expect(posix_memalign(&memory, 64, bytes) == 0, "no memory", bytes);
    memset(memory, 0x5a, bytes);
    return memory;
}

/* Opens a queue, its recorder of this many events, and both texts. */
static void *open_all(uint64_t seed, uint64_t wanted, size_t *bytes) {
    void *memory;
    memset(&history, 0, sizeof history);
    open_queue(&queue, seed);
    queue.opening.events = UINT64_C(1) << 47; /* (so that the opening is of version three) */
    *bytes = pie_flight_bytes(wanted, queue.opening.packets);
    memory = aligned(*bytes);
    expect(pie_flight_open(&flight, memory, *bytes, wanted, &queue.opening, &queue.pie), "a recorder opens", *bytes);
    expect(pie_flight_clock(memory, 0, UNIX_TIME) == 1, "the time of day", 0);
    followed.count = 0;
    kept.count = pie_text_opening(&history, &queue.opening, (unsigned char *)kept.bytes, PIE_RECORD_ROOM);
    kept.count += pie_text_clock(&history, 0, UNIX_TIME, (unsigned char *)kept.bytes + kept.count, PIE_RECORD_ROOM);
    ends[0] = kept.count;
    return memory;
}

/* One event, or a call that is refused; both keep it. */
static void keep_one(void) {
    struct pie_event event;
    struct pie_params params;
    step(&queue, &event);
    pie_flight_keep(&flight, &queue.pie, &event);
    if (event.answer > 100)
        return;
    params = queue.pie.params;
    expect(flight.count < most && kept.count + PIE_RECORD_ROOM <= MOST_TEXT, "too many events for this test", flight.count);
    kept.count += pie_text_event(&history, &event, &params, (unsigned char *)kept.bytes + kept.count, PIE_RECORD_ROOM);
    ends[flight.count] = kept.count;
}

/* Returns the first line from here on that reports a loss, or the end. */
static const char *next_loss(const char *at, const char *end) {
    while (at < end && (end - at < 5 || memcmp(at, "lost,", 5) != 0)) {
        at = (const char *)memchr(at, '\n', (size_t)(end - at));
        expect(at != NULL, "a text that ends within a line", 0);
        at++;
    }
    return at;
}

/* Checks a text that began after this many events: it is decided again, and its events are those that were kept.
 * Returns the number of the last event. */
static uint64_t part_anew(const char *from, const char *to, uint64_t number) {
    struct text part;
    uint64_t first = 0, last;
    size_t count;
    part.bytes = (char *)(uintptr_t)from;
    part.count = (size_t)(to - from);
    last = decide_again(&part, &first);
    expect(last != 0 && first == number, "a new text differs, or begins at another event", first);
    expect(told_unix == UNIX_TIME, "another time of day", told_unix);
    count = ends[last] - ends[number];
    expect(count < part.count && memcmp(to - count, kept.bytes + ends[number], count) == 0, "other events than were kept", number);
    anew++;
    return last;
}

/* Checks that the followed events are the kept ones, or that the number of missing events is reported. Returns that
 * number. */
static uint64_t compare(void) {
    const char *at = followed.bytes, *end = followed.bytes + followed.count, *to = next_loss(at, end);
    uint64_t number = 0, lost = 0, missing;
    while (number < flight.count && ends[number] < (size_t)(to - at))
        number++;
    expect(ends[number] == (size_t)(to - at) && memcmp(at, kept.bytes, ends[number]) == 0, "a text that differs before its first gap", number);
    while (to != end) {
        missing = strtoull(to + 5, NULL, 10);
        expect(missing != 0, "a gap of none", 0);
        lost += missing;
        number += missing;
        at = (const char *)memchr(to, '\n', (size_t)(end - to)) + 1;
        to = next_loss(at, end);
        number = part_anew(at, to, number);
    }
    expect(number == flight.count, "not the last event", number);
    return lost;
}

/* Follows the events kept since the last call. Returns true if it could. */
static int look(struct pie_flight_follower *follower, void *scratch) {
    int answer = pie_flight_follow_text(follower, scratch, take, &followed);
    looks++;
    expect(answer == PIE_FLIGHT_DONE || answer == PIE_FLIGHT_GONE, "a look answers", (uint64_t)answer);
    return answer == PIE_FLIGHT_DONE;
}

/* Tests random events and readings at random times: a reader in time misses none, and a late one receives the
 * number of missing events. */
static void random_looks(uint64_t seed, uint64_t events) {
    uint64_t wanted = 1 + below(&seed, 300), every = 1 + below(&seed, below(&seed, 2) == 0 ? 20 : 2000), i, lost;
    size_t bytes;
    void *memory = open_all(word_of(&seed), wanted, &bytes), *scratch = aligned(bytes);
    struct pie_flight_follower follower;
    expect(pie_flight_follow_open(&follower, memory, bytes) == 1, "a recorder is followed", bytes);
    for (i = 0; i < events; i++) {
        keep_one();
        if (below(&seed, every) == 0)
            expect(look(&follower, scratch), "a new text cannot begin, although no thread writes", i);
    }
    look(&follower, scratch);
    lost = compare();
    expect(lost == follower.missed, "other numbers are missing than are told", follower.missed);
    expect(lost == 0 || every > wanted / 20, "events are missing of who came in time", lost);
    free(memory);
    free(scratch);
}

/* ---- two threads */

static PIE_WORD is_over;

static void *keep_all(void *events) {
    uint64_t i;
    for (i = 0; i < *(uint64_t *)events; i++)
        keep_one();
    PIE_STORE(is_over, 1);
    return NULL;
}

static void threads(uint64_t seed, uint64_t events, uint64_t wanted) {
    size_t bytes;
    void *memory = open_all(word_of(&seed), wanted, &bytes), *scratch = aligned(bytes);
    struct pie_flight_follower follower;
    pthread_t writer;
    uint64_t is_last, before = anew;
    PIE_STORE(is_over, 0);
    expect(pie_flight_follow_open(&follower, memory, bytes) == 1, "a recorder is followed", bytes);
    expect(pthread_create(&writer, NULL, keep_all, &events) == 0, "no thread", 0);
    do {
        struct timespec pause = {0, (long)below(&seed, 3000000)};
        nanosleep(&pause, NULL);
        is_last = PIE_LOAD(is_over);
        if (!look(&follower, scratch))
            is_last = 0;
    } while (!is_last);
    pthread_join(writer, NULL);
    expect(compare() == follower.missed, "other numbers are missing than are told, beside a writer", follower.missed);
    printf("follow: %" PRIu64 " events during writes, %" PRIu64 " of them missed and reported, %" PRIu64 " new texts\n", flight.count,
           follower.missed, anew - before);
    free(memory);
    free(scratch);
}

static void *put_all(void *events) {
    uint64_t number = 0, i;
    while (number < *(uint64_t *)events) {
        struct pie_flight_burst burst = pie_flight_begin(&flight);
        for (i = 0; i < 16; i++, number++)
            pie_flight_arrive(&burst, number, number, ~number, (uint32_t)(number % 60000), (uint32_t)(number % 4), PIE_EARLY, (uint16_t)number);
        pie_flight_end(&flight, &burst);
    }
    PIE_STORE(is_over, 1);
    return NULL;
}

/* Tests events that contain their numbers, at full speed: none is torn, and the missing numbers are reported. */
static void at_full_speed(uint64_t events, uint64_t wanted) {
    struct pie_flight_follower follower;
    struct pie_event event;
    struct pie_params params;
    pthread_t writer;
    size_t bytes = pie_flight_bulk_bytes(wanted, 1, 16);
    void *memory = aligned(bytes);
    uint64_t number = 0, is_last = 0, missed = 0;
    open_queue(&queue, 1);
    queue.opening.packets = 1;
    expect(pie_flight_open_bulk(&flight, memory, bytes, wanted, 16, &queue.opening, &queue.pie), "a recorder of bursts opens", bytes);
    expect(pie_flight_follow_open(&follower, memory, bytes) == 1 && !pie_flight_follow(&follower, &event, &params), "nothing to follow yet", 0);
    PIE_STORE(is_over, 0);
    expect(pthread_create(&writer, NULL, put_all, &events) == 0, "no thread", 0);
    for (;;) {
        if (pie_flight_follow(&follower, &event, &params)) {
            if (event.kind == PIE_EVENT_LOST) {
                number += event.tag;
                missed += event.tag;
                continue;
            }
            expect(event.kind == PIE_EVENT_ARRIVE && event.moment == number && event.tag == number && event.word == ~number, "a torn event", number);
            expect(event.size == number % 60000 && event.ecn == number % 4 && event.caller == (uint16_t)number, "a torn event", number);
            number++;
        } else if (is_last != 0) {
            break;
        } else {
            is_last = PIE_LOAD(is_over);
            sched_yield();
        }
    }
    pthread_join(writer, NULL);
    expect(number == flight.count && missed == follower.missed, "not the last event", number);
    printf("follow: %" PRIu64 " events at full speed, %" PRIu64 " of them missed and told\n", number, missed);
    free(memory);
}

/* Tests a follower of a damaged recorder: a number of kept events that no recorder reaches ends no event, and sizes that contradict each other are
 * no recorder's. */
static void damaged(void) {
    struct pie_flight_follower follower;
    struct pie_event event;
    struct pie_params params;
    size_t bytes;
    uint64_t *memory = (uint64_t *)open_all(1, 1000, &bytes), kept_events, i;
    for (i = 0; i < 100; i++)
        keep_one();
    kept_events = flight.count;
    memory[PIE_FLIGHT_KEPT] = UINT64_MAX;
    expect(!pie_flight_follow_open(&follower, memory, bytes), "a recorder of too many events is followed", 0);
    memory[PIE_FLIGHT_KEPT] = kept_events;
    expect(pie_flight_follow_open(&follower, memory, bytes) == 1, "a recorder is followed", bytes);
    for (i = 0; i < kept_events; i++)
        expect(pie_flight_follow(&follower, &event, &params) == 1 && event.kind != PIE_EVENT_LOST, "a kept event", i);
    memory[PIE_FLIGHT_KEPT] = UINT64_MAX;
    for (i = 0; i < 5000; i++)
        expect(pie_flight_follow(&follower, &event, &params) == 0, "an event of a damaged recorder", i);
    expect(follower.missed == 0, "missed events of a damaged recorder", follower.missed);
    memory[PIE_FLIGHT_KEPT] = kept_events;
    memory[PIE_FLIGHT_BURST] = memory[PIE_FLIGHT_EVENTS] / 2 + 1;
    expect(!pie_flight_follow_open(&follower, memory, bytes), "a recorder with a burst above half of its events is followed", 0);
    free(memory);
}

int main(int count, char **words) {
    uint64_t seed = count == 3 ? strtoull(words[1], NULL, 10) : 1, events = count == 3 ? strtoull(words[2], NULL, 10) : 50000, i;
    struct pie_flight_follower follower;
    unsigned char nothing[4096] = {0};
    most = 4 * events + 1000;
    ends = (size_t *)calloc(most + 1, sizeof *ends);
    followed.bytes = (char *)malloc(MOST_TEXT);
    kept.bytes = (char *)malloc(MOST_TEXT);
    expect(ends != NULL && followed.bytes != NULL && kept.bytes != NULL, "no memory", 0);
    expect(pie_flight_follow_open(&follower, nothing, sizeof nothing) == 0, "what is no recorder is followed", 0);
    damaged();
    for (i = 0; i < 40; i++)
        random_looks(seed * 1000 + i, events / 10);
    expect(anew > 40, "too few new texts", anew);
    threads(seed, 4 * events, 200000);
    threads(seed, 4 * events, 1000);
    at_full_speed(50 * events, 2000);
    at_full_speed(20 * events, 100000);
    printf("follow: %" PRIu64 " calls, %" PRIu64 " new texts\n", looks, anew);
    free(ends);
    free(followed.bytes);
    free(kept.bytes);
    return 0;
}
