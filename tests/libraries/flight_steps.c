/* Tests include/pie_flight.h with a copy and a writer, each of which stops between two words while the other
 * continues: the copy must be decided again, or must report that it was too late. One thread does both, so that a
 * seed makes the same steps again.
 * usage: flight_steps SEED ROUNDS */
#define _DEFAULT_SOURCE
#include <stdint.h>
#ifdef __cplusplus
#include <atomic>
using namespace std;
#define PIE_WORD atomic<uint64_t>
#else
#include <stdatomic.h>
#define PIE_WORD _Atomic uint64_t
#endif

/* A word of the recorder's memory was loaded, or stored. */
static void after_word(const PIE_WORD *word, int is_stored);

static inline uint64_t load_word(const PIE_WORD *word) {
    uint64_t value = atomic_load_explicit(word, memory_order_acquire);
    after_word(word, 0);
    return value;
}

static inline void store_word(PIE_WORD *word, uint64_t value) {
    atomic_store_explicit(word, value, memory_order_release);
    after_word(word, 1);
}

#define PIE_LOAD(word) load_word(&(word))
#define PIE_STORE(word, value) store_word(&(word), (value))
#define PIE_FLIGHT_STORE(word, value) store_word(&(word), (value))

#include "flight_again.h"

#include <setjmp.h>

#define MOST_WORDS 4096 /* the most words of a recorder's memory */
#define STOPS 3         /* the most words of a copy */

/* The writer, between two events. */
struct writer {
    struct queue queue;
    struct pie_flight flight;
};

enum who { NOBODY, COPY, WRITER };

static struct {
    enum who goes;                      /* and may be stopped */
    const PIE_WORD *begin, *end;        /* the recorder's memory */
    const PIE_WORD *at;                 /* the place at which the copy stops next, or NULL */
    uint64_t loads;                     /* the copy stops after this number of loads */
    uint64_t stores;                    /* the writer stops after this number of stores */
    uint64_t stops, seed;
    jmp_buf stopped;
} steps;

static struct writer writer, before; /* `before`: its state before the event in which it was stopped */
static int is_within;                /* true if the writer was stopped in an event */
static uint64_t meanwhile;           /* events that it kept since the copy began */
static struct text text;
static uint64_t most_words;

static void keep_one(void) {
    struct pie_event event;
    step(&writer.queue, &event);
    pie_flight_keep(&writer.flight, &writer.queue.pie, &event);
}

/* Ends the event in which the writer was stopped, and keeps this many more events or refused calls. (Words that it
 * had stored are stored again, unchanged.) */
static void keep_events(uint64_t events) {
    uint64_t kept;
    if (is_within) {
        writer = before;
        events++;
    }
    is_within = 0;
    kept = writer.flight.count;
    for (; events != 0; events--)
        keep_one();
    meanwhile += writer.flight.count - kept;
}

/* Begins one more event, and stops after this many stores if it has more. */
static void keep_part(uint64_t stores) {
    before = writer;
    steps.stores = stores;
    steps.goes = WRITER;
    is_within = 1;
    if (setjmp(steps.stopped) == 0) {
        keep_one();
        is_within = 0;
    }
    steps.goes = NOBODY;
    meanwhile++;
}

/* The number of the next snapshot, which is taken after the next kept event. */
static const PIE_WORD *up_to_a_snapshot(void) {
    while (writer.flight.count + 1 < writer.flight.next)
        keep_events(1);
    return writer.flight.words + PIE_FLIGHT_HEAD + writer.flight.taken % writer.flight.snapshots * PIE_FLIGHT_SNAPSHOT;
}

/* The copy is stopped: the writer continues for a while. */
static void change_over(void) {
    int is_directed = steps.at != NULL;
    steps.goes = NOBODY;
    steps.at = NULL;
    if (!is_directed)
        keep_events(below(&steps.seed, below(&steps.seed, 2) == 0 ? 4 : 40));
    if (is_directed || below(&steps.seed, 2) == 0)
        keep_part(below(&steps.seed, is_directed ? 60 : 12));
    steps.loads = 1 + below(&steps.seed, most_words);
    steps.goes = COPY;
}

static void after_word(const PIE_WORD *word, int is_stored) {
    if (steps.goes == WRITER && is_stored && steps.stores-- == 0)
        longjmp(steps.stopped, 1);
    if (steps.goes != COPY || is_stored || word < steps.begin || word >= steps.end || steps.stops == 0)
        return;
    if (steps.at != NULL ? word == steps.at : --steps.loads == 0) {
        steps.stops--;
        change_over();
    }
}

/* Dumps while the writer continues. Returns true if the dump was in time. */
static int one_dump(void *memory, size_t bytes, void *scratch, uint64_t wanted, int is_directed) {
    uint64_t first = 0, last, started;
    int answer;
    text.count = 0;
    steps.at = is_directed ? up_to_a_snapshot() : NULL;
    started = writer.flight.count;
    steps.begin = (const PIE_WORD *)memory;
    steps.end = steps.begin + bytes / 8;
    steps.loads = 1 + below(&steps.seed, most_words);
    steps.stops = 1 + below(&steps.seed, STOPS);
    meanwhile = 0;
    steps.goes = COPY;
    answer = pie_flight_dump(memory, bytes, scratch, take, &text);
    steps.goes = NOBODY;
    if (answer == PIE_FLIGHT_GONE) {
        expect(meanwhile > wanted / 8 + 1, "too late, though few events came meanwhile", meanwhile);
        return 0;
    }
    expect(answer == PIE_FLIGHT_DONE, "a dump answers", (uint64_t)answer);
    last = decide_again(&text, &first);
    expect(last != 0 || (first == 0 && started == 0), "a text of a copy that was stopped differs", started);
    expect(last >= started && last <= started + meanwhile, "another last event than one of those meanwhile", last);
    expect(meanwhile > wanted / 8 + 1 || first == 0 || last - first >= wanted, "fewer events than wanted", last - first);
    return 1;
}

static uint64_t one_round(uint64_t seed) {
    uint64_t wanted = 1 + below(&seed, 20), dumps = 0, i;
    size_t bytes;
    static uint64_t memory[MOST_WORDS], scratch[MOST_WORDS];
    open_queue(&writer.queue, word_of(&seed));
    writer.queue.opening.packets = 1 + below(&seed, 12);
    bytes = pie_flight_bytes(wanted, writer.queue.opening.packets);
    expect(bytes <= sizeof memory, "too small for this test", bytes);
    memset(memory, 0x5a, sizeof memory);
    expect(pie_flight_open(&writer.flight, memory, bytes, wanted, &writer.queue.opening, &writer.queue.pie), "a recorder opens", bytes);
    most_words = bytes / 8 + 20;
    is_within = 0;
    for (i = 0; i < 40; i++) {
        keep_events(below(&seed, 60));
        dumps += (uint64_t)one_dump(memory, bytes, scratch, wanted, below(&seed, 2) == 0);
    }
    return dumps;
}

int main(int count, char **words) {
    uint64_t seed = count == 3 ? strtoull(words[1], NULL, 10) : 1, rounds = count == 3 ? strtoull(words[2], NULL, 10) : 200, dumps = 0, i;
    text.bytes = (char *)malloc(MOST_TEXT);
    steps.seed = seed;
    for (i = 0; i < rounds; i++)
        dumps += one_round(seed * 1000 + i);
    printf("flight: %" PRIu64 " dumps of %" PRIu64 " whose copy and writer were stopped between two words, each decided again; the others too late\n",
           dumps, 40 * rounds);
    expect(dumps > 10 * rounds, "too few dumps in time", dumps);
    free(text.bytes);
    return 0;
}
