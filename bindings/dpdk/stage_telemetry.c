#include "stage_telemetry.h"

#include "pie_stage.h"

#include <errno.h>
#include <rte_common.h>
#include <rte_cycles.h>
#include <rte_spinlock.h>
#include <rte_telemetry.h>
#include <stdlib.h>
#include <string.h>

#define NAME 64
#define WORD 64 /* bytes of a name or a number */

static struct {
    rte_spinlock_t lock; /* protects the fields below, and is held while a stage is read */
    struct {
        struct pie_stage *stage; /* NULL if the number is free */
        char name[NAME];
    } stages[STAGE_TELEMETRY_MOST];
} shown = {.lock = RTE_SPINLOCK_INITIALIZER};

/* A statistic or a parameter: its name and offset. For a parameter, `read` parses a text with a unit. */
struct number {
    const char *name;
    size_t at;
    uint32_t (*read)(const char *text, size_t length, uint64_t *number);
};

#define STATS(field) {#field, offsetof(struct pie_stage_stats, field), NULL}
#define PARAMS(field, read) {#field, offsetof(struct pie_params, field), read}

static const struct number numbers[] = {
    STATS(queued),   STATS(marked),         STATS(early),  STATS(bytes),   STATS(full),   STATS(dropped_bytes), STATS(oversized), STATS(refused),
    STATS(no_ip),    STATS(shared),         STATS(departed), STATS(departed_bytes), STATS(waited), STATS(waited_high), STATS(longest),
    STATS(updates),  STATS(late),           STATS(changes), STATS(earlier), STATS(most),  STATS(lost),          STATS(lost_periods), STATS(waiting),
    STATS(waiting_bytes), STATS(prob),      STATS(delay),  STATS(burst),   STATS(target),
};

static const struct number parameters[] = {
    PARAMS(target, pie_read_time),  PARAMS(t_update, pie_read_time), PARAMS(max_burst, pie_read_time),
    PARAMS(alpha, NULL),            PARAMS(beta, NULL),              PARAMS(mean_pkt, pie_read_size),
    PARAMS(limit_bytes, pie_read_size), PARAMS(mark_ecnth, NULL),    PARAMS(dq_threshold, pie_read_size),
};

void stage_telemetry_add(struct pie_stage *stage, const char *name) {
    rte_spinlock_lock(&shown.lock);
    for (int i = 0; i < STAGE_TELEMETRY_MOST; i++) {
        if (shown.stages[i].stage != NULL)
            continue;
        shown.stages[i].stage = stage;
        strncpy(shown.stages[i].name, name, NAME - 1);
        break;
    }
    rte_spinlock_unlock(&shown.lock);
}

void stage_telemetry_remove(const struct pie_stage *stage) {
    rte_spinlock_lock(&shown.lock);
    for (int i = 0; i < STAGE_TELEMETRY_MOST; i++)
        if (shown.stages[i].stage == stage)
            memset(&shown.stages[i], 0, sizeof shown.stages[i]);
    rte_spinlock_unlock(&shown.lock);
}

/* Reads a number in decimal digits. Returns false if the text is none. */
static bool read_number(const char *text, size_t length, uint64_t *number) {
    char word[WORD] = "";
    if (length == 0 || length >= WORD || strspn(text, "0123456789") < length)
        return false;
    memcpy(word, text, length);
    errno = 0;
    *number = strtoull(word, NULL, 10);
    return errno == 0;
}

/* Returns the number of a stage at the beginning of `words`, or -1 if no stage has it. `rest` receives the words after
 * the number and its comma. The lock is held. */
static int place_of(const char *words, const char **rest) {
    uint64_t place;
    size_t length = words != NULL ? strcspn(words, ",") : 0;
    if (!read_number(words, length, &place) || place >= STAGE_TELEMETRY_MOST || shown.stages[place].stage == NULL)
        return -1;
    *rest = words[length] == ',' ? words + length + 1 : "";
    return (int)place;
}

static void tell(struct rte_tel_data *data, const struct number *all, size_t count, const void *from) {
    for (size_t i = 0; i < count; i++) {
        uint64_t value;
        memcpy(&value, (const char *)from + all[i].at, sizeof value);
        rte_tel_data_add_dict_u64(data, all[i].name, value);
    }
}

static void tell_sorts(struct rte_tel_data *data, const char *name, const uint64_t *sorts, uint32_t count) {
    struct rte_tel_data *list = rte_tel_data_alloc();
    if (list == NULL)
        return;
    rte_tel_data_start_array(list, RTE_TEL_U64_VAL);
    for (uint32_t i = 0; i < count; i++)
        rte_tel_data_add_array_u64(list, sorts[i]);
    rte_tel_data_add_dict_container(data, name, list, 0);
}

/* Makes one assignment `name=number` of `length` bytes. The lock is held. */
static bool set_one(struct pie_params *params, const char *text, size_t length) {
    for (size_t i = 0; i < RTE_DIM(parameters); i++) {
        size_t name = strlen(parameters[i].name);
        if (length <= name || strncmp(text, parameters[i].name, name) != 0 || text[name] != '=')
            continue;
        const char *number = text + name + 1;
        uint64_t value;
        if (!read_number(number, length - name - 1, &value) &&
            (parameters[i].read == NULL || parameters[i].read(number, length - name - 1, &value) != PIE_DONE))
            return false;
        memcpy((char *)params + parameters[i].at, &value, sizeof value);
        return true;
    }
    return false;
}

/* Makes all assignments. The lock is held. */
static bool set_all(struct pie_stage *stage, const char *words) {
    struct pie_params params;
    pie_stage_read_params(stage, &params);
    do {
        size_t length = strcspn(words, ",");
        if (!set_one(&params, words, length))
            return false;
        words += length + (words[length] == ',');
    } while (*words != '\0');
    return pie_stage_set_params(stage, &params, rte_rdtsc()) == PIE_DONE;
}

static int show_list(const char *command, const char *words, struct rte_tel_data *data) {
    (void)command;
    (void)words;
    rte_tel_data_start_array(data, RTE_TEL_STRING_VAL);
    rte_spinlock_lock(&shown.lock);
    int last = STAGE_TELEMETRY_MOST - 1;
    while (last >= 0 && shown.stages[last].stage == NULL)
        last--;
    for (int i = 0; i <= last; i++)
        rte_tel_data_add_array_string(data, shown.stages[i].name);
    rte_spinlock_unlock(&shown.lock);
    return 0;
}

static int show_stats(const char *command, const char *words, struct rte_tel_data *data) {
    struct pie_stage_stats stats;
    const char *rest = "";
    (void)command;
    rte_spinlock_lock(&shown.lock);
    int place = place_of(words, &rest);
    if (place >= 0 && *rest == '\0') {
        pie_stage_read(shown.stages[place].stage, &stats);
        rte_tel_data_start_dict(data);
        rte_tel_data_add_dict_string(data, "name", shown.stages[place].name);
        tell(data, numbers, RTE_DIM(numbers), &stats);
        tell_sorts(data, "waits", stats.waits, PIE_WAIT_SORTS);
        tell_sorts(data, "probs", stats.probs, PIE_PROB_SORTS);
    }
    rte_spinlock_unlock(&shown.lock);
    return place >= 0 && *rest == '\0' ? 0 : -EINVAL;
}

/* Answers /pie/params and /pie/set: sets parameters, if the command does so, and reports those in force. */
static int show_params(const char *command, const char *words, struct rte_tel_data *data) {
    struct pie_params params;
    const char *rest = "";
    bool sets = strcmp(command, "/pie/set") == 0;
    rte_spinlock_lock(&shown.lock);
    int place = place_of(words, &rest);
    bool is_fine = place >= 0 && sets == (*rest != '\0') && (!sets || set_all(shown.stages[place].stage, rest));
    if (is_fine) {
        pie_stage_read_params(shown.stages[place].stage, &params);
        rte_tel_data_start_dict(data);
        tell(data, parameters, RTE_DIM(parameters), &params);
    }
    rte_spinlock_unlock(&shown.lock);
    return is_fine ? 0 : -EINVAL;
}

RTE_INIT(stage_telemetry_register) {
    rte_telemetry_register_cmd("/pie/list", show_list, "The stages with PIE, in the order of their numbers. No parameters");
    rte_telemetry_register_cmd("/pie/stats", show_stats, "What a stage counted and holds. Parameters: its number");
    rte_telemetry_register_cmd("/pie/params", show_params, "The parameters of a stage in force. Parameters: its number");
    rte_telemetry_register_cmd("/pie/set", show_params, "Sets parameters of a stage. Parameters: its number,NAME=NUMBER,..");
}
