/* Tests include/pie_flight.h: random events through the library's calls, one at a time and in bursts, with dumps at
 * random places, each of which the same calls decide again; a dumping thread beside a writer; a killed process;
 * damaged memory; memory of version 2. Built as C and as C++, and with sanitizers.
 * usage: flight SEED EVENTS STORED   all of these, with EVENTS events each; STORED has memory of version 2, and its text
 *        flight texts SEED FOLDER    writes twenty texts to FOLDER for an audit: N.history, and N.changed with a changed answer
 *        flight decide FILE          decides a text again; prints `clean,` and the number of its last event, or `differs` */
#define _DEFAULT_SOURCE
#include "flight_again.h"
#include "pie_follow.h"

#include <pthread.h>
#include <sched.h>
#include <signal.h>
#include <sys/mman.h>
#include <sys/wait.h>
#include <time.h>
#include <unistd.h>

/* ---- random events, and dumps at random places */

static struct text text;
static uint64_t dumps, changes; /* dumps that were tried; changes of a text that were tried */
static uint64_t unix_time;      /* the recorder's last wall-clock time at moment 0; 0: none */

/* Sets the wall-clock time of a recorder, or tries one that it rejects. */
static void tell_time(void *memory, uint64_t *seed) {
    uint64_t moment = below(seed, PIE_MAX_MOMENT + 1), wanted = 1 + below(seed, UINT64_MAX - PIE_MAX_MOMENT);
    expect(!pie_flight_clock(memory, moment, moment), "a time that is its moment", moment);
    expect(!pie_flight_clock(memory, moment, below(seed, moment + 1)), "a time before its moment", moment);
    expect(!pie_flight_clock(memory, PIE_MAX_MOMENT + 1, UINT64_MAX), "a moment out of its range", 0);
    if (below(seed, 2) == 0)
        return;
    moment = below(seed, 2) == 0 ? 0 : moment;
    expect(pie_flight_clock(memory, moment, moment + wanted) == 1, "the time of day", wanted);
    unix_time = wanted;
}

/* The owner of the queued packets, for a recorder of bursts, with the number of departed packets. */
struct owner {
    const struct queue *queue;
    uint64_t left;
};

static void hand_over(void *user, PIE_WORD *queued, uint64_t places) {
    const struct owner *owner = (const struct owner *)user;
    uint64_t i;
    for (i = 0; i < owner->queue->count; i++) {
        const struct packet *it = &owner->queue->packets[(owner->queue->first + i) % MOST_WAITING];
        pie_flight_waits(queued, places, owner->left + i, it->tag, it->size, it->ecn, it->since);
    }
}

/* Returns true if the text has no event: the record `resume`, and a clock record or nothing. */
static int has_no_event(void) {
    const char *end = text.bytes + text.count, *at = (const char *)memchr(text.bytes, '\n', text.count);
    if (at != NULL && end - at > 7 && strncmp(at + 1, "clock,", 6) == 0)
        at = (const char *)memchr(at + 1, '\n', (size_t)(end - at) - 1);
    return at != NULL && at + 1 == end;
}

/* Dumps, decides again, and returns the number of the last event. */
static uint64_t dump(const void *memory, size_t bytes, void *scratch, struct owner *owner, uint64_t *first) {
    uint64_t last;
    int answer;
    text.count = 0;
    text.stop_at = 0;
    if (owner != NULL)
        answer = pie_flight_dump_of(memory, bytes, scratch, hand_over, owner, take, &text);
    else
        answer = pie_flight_dump(memory, bytes, scratch, take, &text);
    expect(answer == PIE_FLIGHT_DONE, "a dump answers", (uint64_t)answer);
    last = decide_again(&text, first);
    if (last == 0 && text.count > 0 && *first == 0 && has_no_event())
        return 0;
    if (last == 0) {
        FILE *file = fopen("flight.text", "w");
        fwrite(text.bytes, 1, text.count, file);
        fclose(file);
    }
    expect(last != 0, "a text differs; it is in flight.text", dumps);
    expect(told_unix == unix_time, "another time of day", told_unix);
    dumps++;
    return last;
}

/* Checks that the packets queued at the end of the text are those of the queue. */
static void expect_ended(const struct queue *queue) {
    uint64_t i;
    expect(ended_count == queue->count, "as many packets that wait", ended_count);
    for (i = 0; i < ended_count; i++) {
        const struct packet *it = &queue->packets[(queue->first + i) % MOST_WAITING];
        expect(ended[i].tag == it->tag && ended[i].since == it->since && ended[i].size == it->size && ended[i].ecn == it->ecn,
               "another queued packet", i);
    }
}

static void *aligned(size_t bytes) {
    void *memory = NULL;
    expect(posix_memalign(&memory, 64, bytes) == 0, "no memory", bytes);
    memset(memory, 0x5a, bytes);
    return memory;
}

/* Checks that a text differs after a change of the last byte of an event's record, which belongs to the answer. */
static void change_a_byte(uint64_t *seed) {
    uint64_t at = below(seed, text.count), start, first;
    char was;
    while (at + 1 < text.count && text.bytes[at + 1] != '\n')
        at++;
    for (start = at; start > 0 && text.bytes[start - 1] != '\n'; start--)
        ;
    was = text.bytes[at];
    if (at + 1 >= text.count || was == '\n' || start == 0 || text.bytes[start] == 'q' || text.bytes[start] == 'c')
        return;
    text.bytes[at] = (char)(was == '9' || was == 'z' ? was - 1 : was + 1);
    expect(decide_again(&text, &first) == 0, "a changed answer isn't found", at);
    text.bytes[at] = was;
    changes++;
}

static void random_events(uint64_t seed, uint64_t events) {
    struct queue queue;
    struct pie_flight flight;
    struct pie_event event;
    struct pie_stats stats;
    uint64_t wanted = 1 + below(&seed, below(&seed, 2) == 0 ? 40 : 3000), number_of_events = 0, first = 0, last, i;
    size_t bytes;
    void *memory, *scratch;
    open_queue(&queue, word_of(&seed));
    bytes = pie_flight_bytes(wanted, queue.opening.packets);
    memory = aligned(bytes);
    scratch = aligned(bytes);
    expect(pie_flight_open(&flight, memory, bytes, wanted, &queue.opening, &queue.pie), "a recorder opens", bytes);
    unix_time = 0;
    memset(&stats, 0, sizeof stats);
    for (i = 0; i < events; i++) {
        uint64_t since = queue.packets[queue.first].since;
        step(&queue, &event);
        pie_flight_keep(&flight, &queue.pie, &event);
        if (event.answer <= 100)
            pie_count_event(&stats, &event, queue.bytes, queue.pie.moment - since);
        if (below(&seed, 1000) == 0)
            tell_time(memory, &seed);
        number_of_events += event.answer <= 100;
        pie_flight_sum(&flight);
        expect(flight.count == number_of_events && flight.packets == queue.count && flight.bytes == queue.bytes, "counted otherwise", i);
        expect(memcmp(&flight.stats, &stats, sizeof stats) == 0, "other statistics", i);
        if (below(&seed, 400) == 0) {
            last = dump(memory, bytes, below(&seed, 2) == 0 ? scratch : NULL, NULL, &first);
            expect(last == number_of_events || (last == 0 && number_of_events == 0), "not the last event", last);
            expect(first == 0 || last - first >= wanted, "fewer events than wanted", last - first);
            expect(last - first <= wanted + 2 * (wanted / 8 + 1), "more events than there is room for", last - first);
            if (last != 0) {
                expect_ended(&queue);
                change_a_byte(&seed);
            }
        }
    }
    expect(events < 20000 || (queue.refused > 0 && queue.changed > 0), "no refusals, and no parameters", queue.refused);
    free(memory);
    free(scratch);
}

/* Stores an event that was not refused, as a program that decides bursts does. */
static void put(struct pie_flight_burst *burst, const struct queue *queue, const struct pie_event *event, struct owner *owner, uint64_t since) {
    if (event->kind == PIE_EVENT_ARRIVE) {
        pie_flight_arrive(burst, event->moment, event->tag, event->word, event->size, event->ecn, event->answer, event->caller);
    } else if (event->kind == PIE_EVENT_DEPART && event->answer != PIE_NONE) {
        pie_flight_depart(burst, event->moment, event->tag, since, event->size, event->ecn, event->caller);
        owner->left++;
    } else {
        pie_flight_other(burst, &queue->pie, event);
    }
}

/* Tests bursts of up to this many events, with a queue of the owner's. */
static void random_bursts(uint64_t seed, uint64_t events) {
    struct queue queue;
    struct owner owner;
    struct pie_flight flight;
    struct pie_event event;
    uint64_t wanted = 1 + below(&seed, below(&seed, 2) == 0 ? 40 : 3000), longest = 1 + below(&seed, 50), first = 0, last, i, rest;
    size_t bytes;
    void *memory, *scratch;
    open_queue(&queue, word_of(&seed));
    owner.queue = &queue;
    owner.left = 0;
    bytes = pie_flight_bulk_bytes(wanted, queue.opening.packets, longest);
    memory = aligned(bytes);
    scratch = aligned(bytes);
    expect(pie_flight_open_bulk(&flight, memory, bytes, wanted, longest, &queue.opening, &queue.pie), "a recorder of bursts opens", bytes);
    unix_time = 0;
    for (i = 0; i < events;) {
        struct pie_flight_burst burst = pie_flight_begin(&flight);
        for (rest = 1 + below(&seed, longest); rest != 0; rest--, i++) {
            uint64_t since = queue.packets[queue.first].since;
            step(&queue, &event);
            if (event.answer <= 100)
                put(&burst, &queue, &event, &owner, since);
        }
        pie_flight_end(&flight, &burst);
        if (pie_flight_is_due(&flight)) {
            flight.came_so_far = owner.left + queue.count;
            flight.packets = queue.count;
            flight.bytes = queue.bytes;
            pie_flight_snapshot(&flight, &queue.pie);
        }
        if (below(&seed, 300) == 0)
            tell_time(memory, &seed);
        if (below(&seed, 100) == 0) {
            last = dump(memory, bytes, below(&seed, 2) == 0 ? scratch : NULL, &owner, &first);
            expect(last == flight.count || (last == 0 && flight.count == 0), "not the last event of a burst", last);
            expect(first == 0 || last - first >= wanted, "fewer events than wanted of bursts", last - first);
            expect(last - first <= wanted + 2 * (wanted / 8 + longest), "more events than there is room for in bursts", last - first);
            if (last != 0) {
                expect_ended(&queue);
                change_a_byte(&seed);
            }
        }
    }
    free(memory);
    free(scratch);
}

/* Tests rejected arguments, and a writer that stops. */
static void refusals(void) {
    struct queue queue;
    struct pie_flight flight;
    struct pie_opening other;
    size_t bytes = pie_flight_bytes(100, 50);
    unsigned char *memory = (unsigned char *)aligned(bytes + 8);
    uint64_t i;
    open_queue(&queue, 1);
    queue.opening.packets = 50;
    expect(pie_flight_bulk_bytes(100, 50, 0) == 0 && pie_flight_bulk_bytes(100, 50, 65537) == 0, "bursts out of range", 0);
    expect(pie_flight_bytes(0, 50) == 0 && pie_flight_bytes(100, 0) == 0 && pie_flight_bytes(100, (1 << 20) + 1) == 0, "sizes out of range", 0);
    expect(!pie_flight_open(&flight, memory, bytes - 8, 100, &queue.opening, &queue.pie), "opened with too little memory", 0);
    expect(!pie_flight_open(&flight, memory + 4, bytes, 100, &queue.opening, &queue.pie), "opened where it isn't aligned", 0);
    other = queue.opening;
    other.events = 0;
    expect(!pie_flight_open(&flight, memory, bytes, 100, &other, &queue.pie), "opened with limits out of range", 0);
    other = queue.opening;
    other.profile = 3 - other.profile;
    expect(!pie_flight_open(&flight, memory, bytes, 100, &other, &queue.pie), "opened with another profile than the state's", 0);
    expect(memory[0] == 0x5a && memory[bytes - 1] == 0x5a, "a refused opening writes", memory[0]);
    expect(pie_flight_dump(memory, bytes, NULL, take, &text) == PIE_FLIGHT_NONE, "dumped what is no recorder's", 0);
    expect(pie_flight_open(&flight, memory, bytes, 100, &queue.opening, &queue.pie), "a recorder opens", bytes);
    for (i = 0; i < 1000; i++) {
        struct pie_event event;
        step(&queue, &event);
        pie_flight_keep(&flight, &queue.pie, &event);
    }
    expect(pie_flight_dump(memory, bytes - 8, NULL, take, &text) == PIE_FLIGHT_NONE, "dumped what is cut short", 0);
    text.count = 0;
    text.stop_at = 2;
    expect(pie_flight_dump(memory, bytes, NULL, take, &text) == PIE_FLIGHT_STOPPED, "a writer that stops", text.count);
    free(memory);
}

/* The greatest number of writes that a small recorder's text can take; a dump of damaged memory must not need more. */
#define MOST_WRITES 2000

/* Tests each word of the head with other values: a size that the others contradict is no recorder's, and no text is endless. */
static void damaged_heads(const uint64_t *memory, uint64_t *copy, size_t bytes) {
    size_t at, i;
    for (at = 0; at < PIE_FLIGHT_HEAD; at++) {
        const uint64_t others[] = {UINT64_MAX, UINT64_MAX - 1, UINT64_C(1) << 63, UINT64_C(1) << 61, UINT64_C(1) << 32,
                                   memory[at] + 1, memory[at] - 1, memory[at] * 2, memory[at] / 2, 1, 0};
        for (i = 0; i < sizeof others / sizeof others[0]; i++) {
            /* (a size near the true one may be that of a smaller recorder) */
            int answer, is_far = i < 5 || others[i] == 0, is_size = at <= PIE_FLIGHT_BURST || at == PIE_FLIGHT_OPENING + offsetof(struct pie_opening, packets) / 8;
            if (others[i] == memory[at])
                continue;
            memcpy(copy, memory, bytes);
            copy[at] = others[i];
            text.count = 0;
            text.stop_at = MOST_WRITES;
            answer = pie_flight_dump(copy, bytes, NULL, take, &text);
            expect(answer != PIE_FLIGHT_STOPPED, "a text without end, of the damaged word", at);
            expect(!is_size || !is_far || answer == PIE_FLIGHT_NONE, "a recorder of impossible sizes, of the damaged word", at);
            expect(at != PIE_FLIGHT_KEPT || others[i] < PIE_FLIGHT_MOST_KEPT || answer == PIE_FLIGHT_NONE, "too many kept events", others[i]);
        }
    }
}

/* Tests damaged memory: a dump ends with any content, and changes nothing else. */
static void damaged(uint64_t seed, uint64_t rounds) {
    struct queue queue;
    struct pie_flight flight;
    struct pie_event event;
    size_t bytes = pie_flight_bytes(60, 40);
    uint64_t *memory = (uint64_t *)aligned(bytes), *copy = (uint64_t *)aligned(bytes), i, counts[5] = {0, 0, 0, 0, 0};
    open_queue(&queue, seed);
    queue.opening.packets = 40;
    expect(pie_flight_open(&flight, memory, bytes, 60, &queue.opening, &queue.pie), "a recorder opens", bytes);
    damaged_heads(memory, copy, bytes);
    for (i = 0; i < 500; i++) {
        step(&queue, &event);
        pie_flight_keep(&flight, &queue.pie, &event);
    }
    for (i = 0; i < rounds; i++) {
        uint64_t words = 1 + below(&seed, 4), at;
        memcpy(copy, memory, bytes);
        for (; words != 0; words--) {
            at = below(&seed, below(&seed, 2) == 0 ? (uint64_t)PIE_FLIGHT_HEAD : bytes / 8);
            copy[at] = below(&seed, 2) == 0 ? word_of(&seed) >> below(&seed, 64) : copy[at] ^ (UINT64_C(1) << below(&seed, 64));
        }
        text.count = 0;
        text.stop_at = MOST_WRITES;
        counts[pie_flight_dump(copy, bytes, NULL, take, &text)]++;
    }
    expect(counts[PIE_FLIGHT_DONE] > 0 && counts[PIE_FLIGHT_NONE] > 0 && counts[PIE_FLIGHT_BROKEN] > 0, "damage of each kind", counts[0]);
    expect(counts[PIE_FLIGHT_STOPPED] == 0, "texts without end", counts[PIE_FLIGHT_STOPPED]);
    damaged_heads(memory, copy, bytes);
    free(memory);
    free(copy);
}

/* Tests memory of version 2. The file has the number of its words, the words in hexadecimal, and the text that the header of that version wrote. A
 * follower must read the events of the text. */
static void stored(const char *name) {
    static uint64_t memory[2000], scratch[2000];
    static char wanted[1 << 16];
    struct pie_flight_follower follower;
    struct pie_event event;
    struct pie_params params;
    struct text read = {wanted, 0, 0};
    FILE *file = fopen(name, "r");
    size_t bytes = 0, i;
    uint64_t first = 0, last;
    expect(file != NULL && fscanf(file, "%zu", &bytes) == 1 && bytes <= 2000, "no memory of version 2", bytes);
    for (i = 0; i < bytes; i++)
        expect(fscanf(file, "%" SCNx64, &memory[i]) == 1, "too few words", i);
    expect(fgetc(file) == '\n', "no line of words", 0);
    bytes *= 8;
    expect(memory[PIE_FLIGHT_VERSION] == 2, "memory of another version", memory[PIE_FLIGHT_VERSION]);
    read.count = fread(wanted, 1, sizeof wanted, file);
    fclose(file);
    unix_time = memory[PIE_FLIGHT_CLOCK];
    last = dump(memory, bytes, NULL, NULL, &first);
    expect(text.count == read.count && memcmp(text.bytes, wanted, text.count) == 0, "another text of version 2", text.count);
    expect(dump(memory, bytes, scratch, NULL, &first) == last && text.count == read.count, "another text of a copy of version 2", text.count);
    expect(pie_flight_follow_open(&follower, memory, bytes) == 1, "version 2 is followed", bytes);
    follower.next = first;
    text.count = 0;
    while (pie_flight_follow(&follower, &event, &params))
        text.count += event.kind != PIE_EVENT_PARAMS ? pie_write_event(&event, (unsigned char *)text.bytes + text.count, PIE_RECORD_ROOM)
                                                     : pie_write_params(&event, &params, (unsigned char *)text.bytes + text.count, PIE_RECORD_ROOM);
    expect(follower.next == last && text.count != 0 && memcmp(text.bytes, wanted + read.count - text.count, text.count) == 0, "other events", last);
    memory[PIE_FLIGHT_VERSION] = 1;
    expect(pie_flight_dump(memory, bytes, NULL, take, &text) == PIE_FLIGHT_NONE, "memory of version 1 is read", 0);
    memory[PIE_FLIGHT_VERSION] = 4;
    expect(pie_flight_dump(memory, bytes, NULL, take, &text) == PIE_FLIGHT_NONE, "memory of version 4 is read", 0);
}

/* ---- a writer and a thread that dumps */

static struct queue shared_queue;
static struct pie_flight shared_flight;
static PIE_WORD is_over, is_enough; /* the writer has ended; it may end */
static uint64_t shared_events;

static void *write_all(void *unused) {
    struct pie_event event;
    uint64_t i;
    (void)unused;
    for (i = 0; i < shared_events || PIE_LOAD(is_enough) == 0; i++) {
        step(&shared_queue, &event);
        pie_flight_keep(&shared_flight, &shared_queue.pie, &event);
    }
    PIE_STORE(is_over, 1);
    return NULL;
}

static void threads(uint64_t seed, uint64_t events) {
    pthread_t writer;
    uint64_t first = 0, last, before = 0, tries = 0, gone = 0, wanted = 20000;
    size_t bytes;
    void *memory, *scratch;
    open_queue(&shared_queue, seed);
    bytes = pie_flight_bytes(wanted, shared_queue.opening.packets);
    memory = aligned(bytes);
    scratch = aligned(bytes);
    expect(pie_flight_open(&shared_flight, memory, bytes, wanted, &shared_queue.opening, &shared_queue.pie), "a recorder opens", bytes);
    shared_events = events;
    PIE_STORE(is_over, 0);
    PIE_STORE(is_enough, 0);
    expect(pthread_create(&writer, NULL, write_all, NULL) == 0, "no thread", 0);
    while (!PIE_LOAD(is_over)) {
        int answer;
        text.count = 0;
        text.stop_at = 0;
        answer = pie_flight_dump(memory, bytes, scratch, take, &text);
        tries++;
        if (answer == PIE_FLIGHT_GONE) {
            gone++;
            continue;
        }
        PIE_STORE(is_enough, tries - gone >= 5);
        expect(answer == PIE_FLIGHT_DONE, "a dump beside the writer answers", (uint64_t)answer);
        last = decide_again(&text, &first);
        expect(last >= before || last == 0, "a dump is older than the one before", last);
        expect(last != 0 || before == 0, "a text beside the writer differs", tries);
        before = last;
    }
    pthread_join(writer, NULL);
    unix_time = 0;
    last = dump(memory, bytes, NULL, NULL, &first);
    expect(tries - gone > 3, "too few dumps beside the writer", tries - gone);
    events = shared_flight.count;
    printf("flight: %" PRIu64 " dumps beside a writer of %" PRIu64 " events, %" PRIu64 " of them too late\n", tries, events, gone);
    free(memory);
    free(scratch);
}

/* ---- a process that is killed */

static void killed(uint64_t seed, uint64_t rounds) {
    uint64_t first = 0, last, sum = 0, round;
    unix_time = 1795550400;
    for (round = 0; round < rounds; round++) {
        struct timespec pause = {0, (long)below(&seed, 20000000)};
        uint64_t wanted = 1 + below(&seed, 2000);
        size_t bytes = pie_flight_bytes(wanted, MOST_WAITING);
        void *memory = mmap(NULL, bytes, PROT_READ | PROT_WRITE, MAP_SHARED | MAP_ANONYMOUS, -1, 0);
        pid_t child;
        int status;
        open_queue(&shared_queue, word_of(&seed));
        expect(pie_flight_open(&shared_flight, memory, bytes, wanted, &shared_queue.opening, &shared_queue.pie), "a recorder opens", bytes);
        expect(pie_flight_clock(memory, 7, 7 + unix_time) == 1, "the time of day", unix_time);
        child = fork();
        if (child == 0) {
            shared_events = UINT64_MAX;
            write_all(NULL);
            _exit(0);
        }
        while (PIE_LOAD(((PIE_WORD *)memory)[PIE_FLIGHT_KEPT]) == 0)
            sched_yield(); /* (until it has a processor) */
        nanosleep(&pause, NULL);
        kill(child, SIGKILL);
        waitpid(child, &status, 0);
        last = dump(memory, bytes, NULL, NULL, &first);
        expect(first == 0 || last - first >= wanted, "fewer events than wanted of a killed process", last - first);
        sum += last;
        munmap(memory, bytes);
    }
    expect(sum >= rounds, "the killed processes kept nothing", sum);
    printf("flight: %" PRIu64 " processes killed after %" PRIu64 " events in all, each text is whole\n", rounds, sum);
}

/* ---- texts for an audit */

static void write_file(const char *folder, uint64_t round, const char *ending) {
    char name[4096];
    FILE *file;
    snprintf(name, sizeof name, "%s/%" PRIu64 ".%s", folder, round, ending);
    file = fopen(name, "w");
    expect(file != NULL && fwrite(text.bytes, 1, text.count, file) == text.count && fclose(file) == 0, "not written", round);
}

/* Changes the verdict of the last arrival. */
static int change_a_verdict(void) {
    size_t at = text.count - 1;
    while (at > 0 && (text.bytes[at] != '\n' || strncmp(text.bytes + at + 1, "arrive,", 7) != 0 || at + 8 >= text.count))
        at--;
    if (at == 0)
        return 0;
    for (at++; text.bytes[at] != '\n'; at++)
        ;
    if (text.bytes[at - 1] == 'e') /* enqueue */
        memcpy(text.bytes + at - 5, "ckets", 5), memcpy(text.bytes + at - 7, "pa", 2);
    else
        return 0;
    return 1;
}

static void texts(uint64_t seed, const char *folder) {
    uint64_t round, first, last, events;
    for (round = 0; round < 20; round++) {
        struct queue queue;
        struct pie_flight flight;
        struct pie_event event;
        uint64_t wanted = 1 + below(&seed, 500);
        size_t bytes;
        void *memory;
        open_queue(&queue, word_of(&seed));
        bytes = pie_flight_bytes(wanted, queue.opening.packets);
        memory = aligned(bytes);
        expect(pie_flight_open(&flight, memory, bytes, wanted, &queue.opening, &queue.pie), "a recorder opens", bytes);
        unix_time = 0;
        for (events = 200 + below(&seed, 5000); events != 0; events--) {
            step(&queue, &event);
            pie_flight_keep(&flight, &queue.pie, &event);
        }
        tell_time(memory, &seed);
        last = dump(memory, bytes, NULL, NULL, &first);
        write_file(folder, round, "history");
        if (change_a_verdict())
            write_file(folder, round, "changed");
        printf("%" PRIu64 " %" PRIu64 "\n", round, last);
        free(memory);
    }
}

/* Decides the text of a file again. */
static int decide(const char *name) {
    FILE *file = fopen(name, "r");
    uint64_t first, last;
    expect(file != NULL, "no such file", 0);
    text.count = fread(text.bytes, 1, MOST_TEXT, file);
    fclose(file);
    last = decide_again(&text, &first);
    if (last == 0)
        printf("differs\n");
    else
        printf("clean,%" PRIu64 "\n", last);
    return last == 0;
}

int main(int count, char **words) {
    int is_texts = count == 4 && strcmp(words[1], "texts") == 0;
    uint64_t seed = count == 4 ? strtoull(words[is_texts ? 2 : 1], NULL, 10) : 1, events = count == 4 ? strtoull(words[2], NULL, 10) : 100000, i;
    text.bytes = (char *)malloc(MOST_TEXT);
    if (count == 3 && strcmp(words[1], "decide") == 0)
        return decide(words[2]);
    if (is_texts) {
        texts(seed, words[3]);
        return 0;
    }
    expect(count == 4, "usage: flight SEED EVENTS STORED", 0);
    stored(words[3]);
    refusals();
    for (i = 0; i < 20; i++)
        random_events(seed * 1000 + i, events / 10);
    for (i = 0; i < 20; i++)
        random_bursts(seed * 1000 + i, events / 20);
    damaged(seed, events / 100);
    killed(seed, 20);
    threads(seed, events * 10);
    printf("flight: %" PRIu64 " dumps, each decided again, and %" PRIu64 " with an answer changed\n", dumps, changes);
    expect(changes > dumps / 4, "too few changes", changes);
    free(text.bytes);
    return 0;
}
