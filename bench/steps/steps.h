/* The steps of a history by this project's rule (bench/pie_step.h), for linux.c and dpdk.c, which pass each step to
 * other code: the registers before and after it, the decision, and the named differences that explain a different
 * result of the other code.
 *
 * A history has the default optional elements except the delay and the decay, and no reset and no change of
 * parameters. */
#ifndef STEPS_H
#define STEPS_H

#include "../pie_step.h"

#include <inttypes.h>
#include <math.h>
#include <stdbool.h>
#include <stdio.h>
#include <stdlib.h>
#include <string.h>

#define MOST_WAITING (1u << 20)
#define MOST_DIFFERENCES 16

struct packet {
    uint64_t since;
    uint32_t size;
};

/* The registers of this rule. */
struct registers {
    struct params params;
    struct control control;
    struct rate rate;
    uint64_t accu, moment, bytes, waited;
    uint32_t packets, most_packets;
    bool by_stamps, decays_below_half;
};

/* One step, as recorded in the history. */
struct step {
    uint64_t moment, word, delay, prob;
    uint32_t size;
    enum choice verdict;
    bool ecn;
};

/* A difference that docs/PARAMETERS.md names, by words on that page. */
struct difference {
    const char *words;
    unsigned long steps;
};

static struct packet waiting[MOST_WAITING];
static uint32_t first_waiting;
static unsigned long arrivals, departures, updates, alike;
static unsigned long decays, other_decays; /* updates with a decay by this rule, and by the other code */

__attribute__((noreturn)) static void stop(const char *name, unsigned long line, const char *why) {
    fprintf(stderr, "%s:%lu: %s\n", name, line, why);
    exit(2);
}

/* Splits a line into words, and returns their number. */
static int split(char *line, char **words, int most) {
    int count = 0;
    line[strcspn(line, "\n")] = '\0';
    for (char *word = strtok(line, ","); word != NULL && count < most; word = strtok(NULL, ","))
        words[count++] = word;
    return count;
}

static uint64_t number(const char *word) {
    return strtoull(word, NULL, 10);
}

/* An opening has 11 fields, 20 with parameters, and one more with the decay. */
static bool open_registers(struct registers *registers, char **words, int count) {
    static const char *const usual[] = {"derandomized", "capped", "unscaled"};
    const bool tells_decay = count == 12 || count == 21;
    if ((count != 11 && count != 20 && !tells_decay) || strcmp(words[0], "open3") != 0 || strcmp(words[1], "1") != 0)
        return false;
    for (int i = 0; i < 3; i++)
        if (strcmp(words[3 + i], usual[i]) != 0)
            return false;
    const bool is_half = tells_decay && strcmp(words[6], "half") == 0;
    if (tells_decay && !is_half && strcmp(words[6], "zero") != 0)
        return false;
    char **behind = words + 6 + tells_decay; /* the mode, the moment, packets, .. */
    *registers = (struct registers){.params = default_params, .most_packets = (uint32_t)number(behind[2])};
    registers->by_stamps = strcmp(words[2], "stamp") == 0;
    registers->decays_below_half = is_half;
    registers->moment = number(behind[1]);
    if (count >= 20) {
        uint64_t nine[9];
        for (int i = 0; i < 9; i++)
            nine[i] = number(behind[5 + i]);
        memcpy(&registers->params, nine, sizeof nine);
    }
    registers->control.burst = registers->params.max_burst;
    return true;
}

static enum choice verdict_of(const char *word) {
    static const char *const names[] = {"enqueue", "mark", "early", "bytes", "packets"};
    for (int i = 0; i < 5; i++)
        if (strcmp(word, names[i]) == 0)
            return (enum choice)i;
    return ENQUEUE;
}

/* Makes this rule's own step. Returns false if the history has another result, so that it is no
 * history of this rule. */
static bool take_arrival(struct registers *registers, const struct step *step) {
    enum choice verdict = arrived_by(&registers->accu, &registers->params, &registers->control, registers->bytes, step->size,
                                     registers->packets >= registers->most_packets, step->ecn, step->word);
    if (verdict == ENQUEUE || verdict == MARK) {
        waiting[(first_waiting + registers->packets++) % MOST_WAITING] = (struct packet){registers->moment, step->size};
        registers->bytes += step->size;
    }
    return verdict == step->verdict;
}

static struct packet take_departure(struct registers *registers) {
    struct packet packet = waiting[first_waiting];
    first_waiting = (first_waiting + 1) % MOST_WAITING;
    registers->packets--;
    registers->bytes -= packet.size;
    registers->waited = registers->bytes != 0 ? registers->moment - packet.since : 0;
    if (!registers->by_stamps)
        departed_by(&registers->rate, packet.size, registers->bytes, registers->moment, registers->params.dq_threshold);
    return packet;
}

/* Returns true if the probability decays after these delays: if both are 0, or with the other decay below half the
 * target. */
static bool decays_after(const struct registers *registers, uint64_t delay, uint64_t old) {
    const uint64_t target = registers->params.target;
    return registers->decays_below_half ? 2 * delay < target && 2 * old < target : delay == 0 && old == 0;
}

static bool take_update(struct registers *registers, const struct step *step) {
    const struct params *params = &registers->params;
    const struct control before = registers->control;
    uint64_t delay = registers->by_stamps ? registers->waited : delay_by(registers->bytes, registers->rate.average, params->dq_threshold);
    const bool is_decayed = decays_after(registers, delay, before.old_delay);
    registers->control = control_by(&before, params, delay, registers->moment, is_decayed);
    decays += is_decayed && before.prob != 0;
    return delay == step->delay && registers->control.prob == step->prob;
}

/* Returns the smallest set of these differences for which `same` returns true; -1 if there is none. */
static int fewest(int count, bool (*same)(unsigned set, const void *of), const void *of) {
    int found = -1;
    for (unsigned set = 0; set < 1u << count; set++)
        if ((found < 0 || __builtin_popcount(set) < __builtin_popcount((unsigned)found)) && same(set, of))
            found = (int)set;
    return found;
}

/* Counts a set of differences. Returns false if none of them explains the step. */
static bool count_differences(struct difference *differences, int set) {
    if (set < 0)
        return false;
    alike += set == 0;
    for (int i = 0; i < MOST_DIFFERENCES; i++)
        if ((unsigned)set >> i & 1)
            differences[i].steps++;
    return true;
}

/* Reads one history, and calls `arrival`, `departure` and `update` with the registers before each step, which is
 * then performed. They return the reason why the named differences do not explain the other code's step, or NULL. */
struct other {
    void (*open)(const struct registers *registers);
    const char *(*arrival)(const struct registers *before, const struct step *step, const struct registers *after);
    const char *(*departure)(const struct registers *before, const struct packet *packet, const struct registers *after);
    const char *(*update)(const struct registers *before, const struct step *step, const struct registers *after);
};

static void read_history(const char *name, const struct other *other) {
    static char line[1024];
    char *words[24];
    struct registers now, before;
    FILE *file = fopen(name, "r");
    if (file == NULL || fgets(line, sizeof line, file) == NULL || !open_registers(&now, words, split(line, words, 24)))
        stop(name, 1, "no history that this program reads");
    first_waiting = 0;
    other->open(&now);
    for (unsigned long row = 2; fgets(line, sizeof line, file) != NULL; row++) {
        int count = split(line, words, 24);
        const char *why = NULL;
        if (count < 3 || strcmp(words[0], "refused") == 0 || strcmp(words[0], "clock") == 0)
            continue;
        struct step step = {.moment = number(words[2])};
        if (step.moment > now.moment)
            now.moment = step.moment;
        before = now;
        if (strcmp(words[0], "arrive") == 0 && count == 8) {
            step.size = (uint32_t)number(words[4]);
            step.ecn = strcmp(words[5], "not") != 0;
            step.word = number(words[6]);
            step.verdict = verdict_of(words[7]);
            if (!take_arrival(&now, &step))
                stop(name, row, "this rule decides otherwise: no history of it");
            why = other->arrival(&before, &step, &now);
            arrivals++;
        } else if (strcmp(words[0], "depart") == 0 && count == 7) {
            struct packet packet = take_departure(&now);
            why = other->departure(&before, &packet, &now);
            departures++;
        } else if (strcmp(words[0], "update") == 0 && count == 6) {
            step.delay = number(words[3]);
            step.prob = number(words[4]);
            if (!take_update(&now, &step))
                stop(name, row, "this rule decides otherwise: no history of it");
            why = other->update(&before, &step, &now);
            updates++;
        } else if (strcmp(words[0], "depart") != 0) {
            stop(name, row, "no record that this program reads");
        }
        if (why != NULL)
            stop(name, row, why);
    }
    fclose(file);
}

/* Prints the results for all histories, and the differences that never occurred. */
static void tell(const char *whose, const struct difference *differences, int count) {
    printf("%s: %lu arrivals, %lu departures and %lu updates; %lu of these steps came out alike\n", whose, arrivals, departures, updates, alike);
    printf("the probability decays on %lu updates of the histories; there on %lu\n", decays, other_decays);
    for (int i = 0; i < count; i++)
        printf("%8lu  %s\n", differences[i].steps, differences[i].words);
}

#endif
