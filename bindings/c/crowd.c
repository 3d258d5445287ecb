/* Many threads at one link. Several threads make calls of all kinds for some seconds; one of them
 * is cancelled between two calls after half of the time. Another thread folds, writes the text of
 * all folded events, and takes excerpts meanwhile (SUMS.1 and so on). Each thread computes a sum
 * over its answers in order. `read` computes these sums from the text. They are equal only if each
 * caller's calls occur once and in order, and the events of each excerpt at their place.
 * bindings/c/threads.sh builds and runs it, and audits the texts.
 *
 *     crowd run THREADS SECONDS SUMS > text
 *     crowd read THREADS SUMS < text */
#include "pie_link.h"

#include <pthread.h>
#include <stdio.h>
#include <stdlib.h>
#include <string.h>

#define CHECK(c) \
    do { \
        if (!(c)) { \
            fprintf(stderr, "bindings/c/crowd.c:%d: %s\n", __LINE__, #c); \
            exit(1); \
        } \
    } while (0)

enum { MOST = 64, EXCERPTS = 20 };

/* The results of a caller: the number of calls, and a sum that depends on their order. */
struct sum {
    uint64_t count, order;
};

static void add(struct sum *sum, uint64_t kind, uint64_t moment) {
    sum->count++;
    sum->order = (sum->order ^ (moment << 4 | kind)) * UINT64_C(0x100000001b3);
}

static struct worker {
    struct pie_port port; /* its caller number is its index; number 0 folds */
    struct sum sum;
    uint64_t busy; /* times that another had the turn */
    pthread_t id;
} workers[MOST];
static atomic_ullong answered[MOST]; /* number of calls, for other threads to read */
static atomic_int is_over, at_work;
static struct pie_opening opening;
static uint64_t start; /* the clock at the moment 0 */

static uint64_t now(void) {
    struct timespec time;
    timespec_get(&time, TIME_UTC);
    return (uint64_t)time.tv_sec * 1000000000 + (uint64_t)time.tv_nsec - start;
}

static uint64_t next_word(uint64_t *word) {
    *word ^= *word << 13, *word ^= *word >> 7, *word ^= *word << 17;
    return *word;
}

/* A burst of arrivals, or of departures, each later than the one before by a nanosecond; those that were answered are summed up. */
static void ask_many(struct worker *worker, size_t number, const struct pie_event *first, uint64_t word, uint64_t *last) {
    struct pie_event events[8];
    size_t count = 1 + word % 8, made = count, i;
    uint32_t code;
    for (i = 0; i < count; i++) {
        events[i] = *first;
        events[i].moment = *last += i != 0;
    }
    if (word >> 32 & 1)
        code = pie_link_arrive_all(&worker->port, events, count);
    else
        code = pie_link_depart_all(&worker->port, 1 + (word >> 40 & 8191), events, count, &made);
    CHECK(code == PIE_DONE && made <= count);
    for (i = 0; i < made; i++) {
        CHECK(events[i].caller == number);
        if (events[i].answer < 100)
            add(&worker->sum, events[i].kind, events[i].moment);
    }
    answered[number] = worker->sum.count;
}

/* A call of some kind: one in five without waiting. */
static uint32_t ask(struct worker *worker, struct pie_event *event, uint64_t word) {
    struct pie_port *port = &worker->port;
    struct pie_params params = opening.params;
    uint32_t code, choice = word >> 40 & 1023;
    params.target = UINT64_C(2000000) + (word >> 8 & 0xfffff);
    if (choice < 200)
        code = pie_link_try_arrive(port, event);
    else if (choice < 600)
        code = pie_link_arrive(port, event);
    else if (choice < 980)
        code = pie_link_depart(port, event);
    else if (choice < 1020)
        code = pie_link_update(port, event);
    else if (choice < 1022)
        code = pie_link_set_params(port, &params, event);
    else
        code = pie_link_reset(port, event);
    worker->busy += code == PIE_BUSY;
    return code;
}

static void *work(void *of) {
    struct worker *worker = of;
    size_t number = (size_t)(worker - workers);
    uint64_t word = UINT64_C(0x9e3779b97f4a7c15) * (number + 1), tag = 0, last = 0;
    while (!is_over) {
        uint64_t time = now(), random = next_word(&word);
        struct pie_event event = {.tag = ++tag, .size = 1 + (uint32_t)(random >> 54), .ecn = random >> 52 & 3, .word = next_word(&word)};
        uint32_t code;
        event.moment = last = time > last ? time : last + 1;
        if (next_word(&word) >> 62 == 0) {
            ask_many(worker, number, &event, next_word(&word), &last);
            pthread_testcancel();
            continue;
        }
        code = ask(worker, &event, next_word(&word));
        if (code < 100) {
            CHECK(event.caller == number && event.moment == last);
            add(&worker->sum, event.kind, event.moment);
            answered[number] = worker->sum.count;
        } else {
            CHECK(code == PIE_BUSY || code == PIE_FULL || code == PIE_TOO_SOON);
        }
        if (code == PIE_FULL)
            sched_yield();
        pthread_testcancel(); /* (no call contains a cancellation point: this is the only one) */
    }
    at_work--;
    return NULL;
}

/* Returns true if each of these threads has made a call since. */
static int have_gone_on(const unsigned long long *before, int threads) {
    int i;
    for (i = 1; i < threads; i++)
        if (answered[i] == before[i])
            return 0;
    return 1;
}

/* Writes the events of the log, at most the number that fits at once. Returns true if it reached the end of the log. */
static int fold(void) {
    struct pie_event events[PIE_LINK_MOST];
    struct pie_params params;
    unsigned char bytes[PIE_LINK_MOST * PIE_RECORD_ROOM];
    static uint64_t numbered;
    size_t folded = 0, count;
    uint64_t last;
    uint32_t code = PIE_DONE;
    for (; folded < opening.tail && (code = pie_link_fold(&workers[0].port, events, PIE_LINK_MOST, &count, &last, &params)) == PIE_DONE; folded += count) {
        size_t written = 0, i;
        CHECK(last == numbered + count); /* none is missing */
        numbered = last;
        for (i = 0; i < count; i++)
            written += events[i].kind == PIE_EVENT_PARAMS ? pie_write_params(&events[i], &params, bytes + written, sizeof bytes - written)
                                                          : pie_write_event(&events[i], bytes + written, sizeof bytes - written);
        CHECK(fwrite(bytes, 1, written, stdout) == written);
    }
    CHECK(code == PIE_DONE || code == PIE_TOO_MANY);
    return code == PIE_TOO_MANY;
}

/* Takes an excerpt, and writes its text into SUMS.NUMBER. */
static void take(struct pie_excerpt *excerpt, const char *sums, int number) {
    unsigned char record[PIE_RESUME_ROOM];
    char name[4096];
    size_t count;
    FILE *file;
    CHECK(pie_link_excerpt(&workers[0].port, excerpt) == PIE_DONE);
    CHECK(snprintf(name, sizeof name, "%s.%d", sums, number) < (int)sizeof name && (file = fopen(name, "w")) != NULL);
    while ((count = pie_link_write_excerpt(excerpt, record, sizeof record)) != 0)
        CHECK(fwrite(record, 1, count, file) == count);
    CHECK(fclose(file) == 0);
}

static void run(int threads, double seconds, const char *sums) {
    unsigned char record[PIE_RECORD_ROOM];
    unsigned long long before[MOST];
    uint64_t half = (uint64_t)(seconds * 5e8), busy = 0;
    int is_cancelled = 0, taken = 0, i;
    struct pie_excerpt excerpt = PIE_EXCERPT_CLOSED;
    FILE *file = fopen(sums, "w");
    pie_default_opening(&opening, 1000000000);
    opening.mode = PIE_BOUNDED; /* only a fold removes events */
    opening.tail = 1 << 14;
    opening.packets = 1000;
    opening.params.max_burst = 0;
    CHECK(file != NULL && pie_link_open(&opening, (uint16_t)(threads + 1), &workers[0].port) == PIE_DONE);
    CHECK(pie_link_open_excerpt(&opening, &excerpt) == PIE_DONE);
    CHECK(fwrite(record, 1, pie_write_opening(&opening, record, sizeof record), stdout) > 0);
    start = now();
    for (i = threads; i > 0; i--)
        CHECK(pie_link_share(&workers[0].port, &workers[i].port) == PIE_DONE);
    at_work = threads;
    for (i = 1; i <= threads; i++)
        CHECK(pthread_create(&workers[i].id, NULL, work, &workers[i]) == 0);
    while (at_work != 0) {
        int is_empty = fold();
        if (taken < EXCERPTS && now() > half / EXCERPTS * 2 * (uint64_t)taken)
            take(&excerpt, sums, ++taken);
        if (!is_cancelled && now() > half) {
            void *answer;
            is_cancelled = 1;
            CHECK(pthread_cancel(workers[threads].id) == 0 && pthread_join(workers[threads].id, &answer) == 0 && answer == PTHREAD_CANCELED);
            at_work--;
            for (i = 1; i < threads; i++)
                before[i] = answered[i];
        }
        /* (the other threads continue after the cancelled one, however long they wait for a processor) */
        is_over = is_cancelled && now() > 2 * half && taken == EXCERPTS && have_gone_on(before, threads);
        CHECK(now() < 2 * half + UINT64_C(1200000000000));
        if (is_empty)
            sched_yield();
    }
    for (i = 1; i < threads; i++)
        CHECK(pthread_join(workers[i].id, NULL) == 0);
    while (!fold())
        ;
    for (i = 1; i <= threads; i++) {
        busy += workers[i].busy;
        fprintf(file, "%llu %llu\n", (unsigned long long)workers[i].sum.count, (unsigned long long)workers[i].sum.order);
        CHECK(pie_link_close(&workers[i].port) == PIE_DONE);
    }
    CHECK(pie_link_close_excerpt(&excerpt) == PIE_DONE);
    CHECK(pie_link_close(&workers[0].port) == PIE_DONE && fclose(file) == 0 && fflush(stdout) == 0);
    fprintf(stderr, "%llu calls without waiting found it busy\n", (unsigned long long)busy);
}

/* Returns the sum of an event's record, at its number in the history. */
static uint64_t sum_record(uint64_t number, const char *line) {
    for (; *line != 0; line++)
        number = (number ^ (unsigned char)*line) * UINT64_C(0x100000001b3);
    return number;
}

/* Sums of the records of all events up to each. */
static uint64_t *sums_so_far, room_so_far = 1 << 20;

static void add_record(uint64_t number, const char *line) {
    if (sums_so_far == NULL || number == room_so_far)
        CHECK((sums_so_far = (uint64_t *)realloc(sums_so_far, (room_so_far *= 2) * sizeof *sums_so_far)) != NULL);
    sums_so_far[number] = number == 0 ? 0 : sums_so_far[number - 1] + sum_record(number, line);
}

/* Returns the number of events of an excerpt: they must be those of the text from the number in its first record on. */
static uint64_t read_excerpt(const char *sums, int number, uint64_t events) {
    enum { COUNT = 29 }; /* the place of the number of events in a record that resumes */
    char line[2 * PIE_RESUME_ROOM], name[4096], *at = line;
    uint64_t before, last, sum = 0;
    FILE *file;
    int i;
    CHECK(snprintf(name, sizeof name, "%s.%d", sums, number) < (int)sizeof name && (file = fopen(name, "r")) != NULL);
    CHECK(fgets(line, sizeof line, file) != NULL && strncmp(line, "resume,", 7) == 0);
    for (i = 0; i < COUNT; i++)
        CHECK((at = strchr(at, ',')) != NULL && *++at != 0);
    before = last = strtoull(at, NULL, 10);
    while (fgets(line, sizeof line, file) != NULL)
        if (strncmp(line, "queued,", 7) != 0) {
            last++;
            sum += sum_record(last, line);
        }
    CHECK(last <= events && sum == sums_so_far[last] - sums_so_far[before] && fclose(file) == 0);
    return last - before;
}

/* The kind, the caller and the moment with which each record begins. */
static void read_text(int threads, const char *sums) {
    static const char *const kinds[] = {"arrive", "depart", "update", "reset", "params"};
    static struct sum found[MOST];
    char line[4 * PIE_RECORD_ROOM];
    uint64_t events = 0, changes = 0;
    unsigned long long count, order;
    int before = 0, i;
    FILE *file;
    CHECK(fgets(line, sizeof line, stdin) != NULL && strncmp(line, "open3,", 6) == 0);
    add_record(0, line);
    while (fgets(line, sizeof line, stdin) != NULL) {
        char *at = strchr(line, ',');
        CHECK(at != NULL);
        add_record(events + 1, line);
        *at = 0;
        for (i = 0; i < 5 && strcmp(line, kinds[i]) != 0; i++)
            ;
        long caller = strtol(at + 1, &at, 10);
        CHECK(i < 5 && caller >= 1 && caller <= threads && *at == ',');
        add(&found[caller], (uint64_t)i + 1, strtoull(at + 1, NULL, 10));
        events++;
        changes += caller != before;
        before = (int)caller;
    }
    file = fopen(sums, "r");
    CHECK(file != NULL);
    for (i = 1; i <= threads; i++) {
        CHECK(fscanf(file, "%llu %llu", &count, &order) == 2);
        CHECK(count > 0 && found[i].count == count && found[i].order == order);
    }
    fclose(file);
    for (i = 1; i <= EXCERPTS; i++)
        CHECK(read_excerpt(sums, i, events) != 0 || i == 1);
    printf("%llu events of %d callers, each one's once and in its order; %llu times the next event was another's\n", (unsigned long long)events,
           threads, (unsigned long long)changes);
}

int main(int argc, char **argv) {
    int threads = argc > 2 ? atoi(argv[2]) : 0;
    CHECK(argc > 3 && threads >= 2 && threads < MOST);
    if (strcmp(argv[1], "run") == 0 && argc == 5)
        run(threads, atof(argv[3]), argv[4]);
    else if (strcmp(argv[1], "read") == 0 && argc == 4)
        read_text(threads, argv[3]);
    else
        return 2;
    return 0;
}
