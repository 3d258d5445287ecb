#include "pie_qdisc.h"

#include <errno.h>
#include <stdio.h>
#include <stdlib.h>
#include <string.h>

#define LEAST_RATE 8000ull /* bit/s */
#define MOST_OVERHEAD 256
#define LEAST_QUANTUM 256
#define MOST_QUANTUM (1 << 20)

const char options_usage[] =
    "         [ limit PACKETS ] [ limit_bytes SIZE ] [ target TIME ] [ tupdate TIME ] [ max_burst TIME ]\n"
    "         [ alpha N ] [ beta N ]             sixteenths per second, as tc's pie has them\n"
    "         [ mean_pkt SIZE ] [ dq_threshold SIZE ]\n"
    "         [ rate RATE ] [ overhead BYTES ]   a shaper; rate 0bit removes it\n"
    "         [ flows N ] [ quantum SIZE ]       of a queue with flows (fq): their number, and their bytes in a round\n"
    "         [ on_off ]                         PIE turns itself on and off (RFC 8033, section 5.3)\n"
    "         [ dq_rate_estimator ] [ bytemode ] [ random ] [ uncapped ] [ decay_half ]\n";

enum unit { UNIT_TIME, UNIT_SIZE, UNIT_PACKETS, UNIT_GAIN, UNIT_RATE, UNIT_OVERHEAD, UNIT_FLOWS, UNIT_QUANTUM };

/* An option with a value: its place in struct pie_params, if it is there. */
static const struct valued {
    const char *name;
    enum unit unit;
    size_t offset;
} valued[] = {
    {"limit_bytes", UNIT_SIZE, offsetof(struct pie_params, limit_bytes)}, {"target", UNIT_TIME, offsetof(struct pie_params, target)},
    {"tupdate", UNIT_TIME, offsetof(struct pie_params, t_update)},        {"max_burst", UNIT_TIME, offsetof(struct pie_params, max_burst)},
    {"alpha", UNIT_GAIN, offsetof(struct pie_params, alpha)},             {"beta", UNIT_GAIN, offsetof(struct pie_params, beta)},
    {"mean_pkt", UNIT_SIZE, offsetof(struct pie_params, mean_pkt)},       {"dq_threshold", UNIT_SIZE, offsetof(struct pie_params, dq_threshold)},
    {"limit", UNIT_PACKETS, 0},                                           {"rate", UNIT_RATE, 0},
    {"overhead", UNIT_OVERHEAD, 0},                                       {"flows", UNIT_FLOWS, 0},
    {"quantum", UNIT_QUANTUM, 0},
};

/* An option without a value: a flag of the opening. */
static const struct {
    const char *name;
    uint64_t set, cleared;
} flags[] = {
    {"dq_rate_estimator", 0, PIE_DELAY_STAMP}, {"bytemode", PIE_SIZE_SCALED, 0}, {"random", PIE_PICK_RANDOM, 0},
    {"uncapped", PIE_STEP_UNCAPPED, 0},        {"decay_half", PIE_DECAY_HALF, 0},
};

void options_default(struct qdisc_config *config, bool has_flows) {
    memset(config, 0, sizeof *config);
    pie_default_opening(&config->opening, 0);
    config->opening.packets = 1000;
    config->flows = has_flows ? QDISC_FLOWS : 0;
    config->quantum = 1514;
    config->params = config->opening.params;
}

static bool refuse(const char *option, const char *text, const char *why) {
    fprintf(stderr, "pie-qdisc: %s%s%s: %s\n", option, *text ? " " : "", text, why);
    return false;
}

/* Reads an option of a queue with flows. */
static bool read_of_flows(struct qdisc_config *config, const struct valued *option, const char *text, bool is_change) {
    uint64_t value = 0;
    char *end = NULL;
    if (!config->flows)
        return refuse(option->name, text, "the queue has no flows");
    if (option->unit == UNIT_QUANTUM) {
        uint32_t code = pie_read_size(text, strlen(text), &value);
        if (code != PIE_DONE || value < LEAST_QUANTUM || value > MOST_QUANTUM)
            return refuse(option->name, text, code != PIE_DONE ? pie_text(code) : "not a size from 256b to 1048576b");
        config->quantum = value;
        return true;
    }
    value = strtoul(text, &end, 10);
    if (is_change || *end || value < 1 || value > QDISC_FLOWS)
        return refuse(option->name, text, is_change ? "cannot change" : "not a number of flows from 1 to 1024");
    config->flows = value;
    return true;
}

static bool read_value(struct qdisc_config *config, const struct valued *option, const char *text, bool is_change) {
    uint64_t value = 0;
    char *end = NULL;
    uint32_t code = PIE_DONE;
    if (option->unit == UNIT_FLOWS || option->unit == UNIT_QUANTUM)
        return read_of_flows(config, option, text, is_change);
    switch (option->unit) {
    case UNIT_TIME:
        code = pie_read_time(text, strlen(text), &value);
        break;
    case UNIT_SIZE:
        code = pie_read_size(text, strlen(text), &value);
        break;
    case UNIT_PACKETS:
        code = pie_read_packets(text, strlen(text), &value);
        break;
    case UNIT_RATE:
        code = pie_read_rate(text, strlen(text), &value);
        break;
    default:
        errno = 0;
        config->shaper.overhead = option->unit == UNIT_OVERHEAD ? strtol(text, &end, 10) : config->shaper.overhead;
        value = option->unit == UNIT_GAIN ? strtoul(text, &end, 10) : 0;
        if (errno || *end || end == text || value > 16000 || llabs(config->shaper.overhead) > MOST_OVERHEAD)
            code = PIE_NOT_A_NUMBER;
    }
    if (code != PIE_DONE)
        return refuse(option->name, text, option->unit == UNIT_GAIN || option->unit == UNIT_OVERHEAD ? "not a number in range" : pie_text(code));
    if (option->unit == UNIT_PACKETS) {
        if (is_change)
            return refuse(option->name, text, "cannot change");
        if (value < 1 || value > QDISC_LIMIT)
            return refuse(option->name, text, "not a number of packets from 1 to 4096");
        config->opening.packets = value;
    } else if (option->unit == UNIT_RATE) {
        if (value && value < LEAST_RATE)
            return refuse(option->name, text, "below 8kbit");
        config->shaper.rate = value;
        config->shaper.cost = value ? (uint64_t)(((unsigned __int128)8000000000ull << 20) / value) : 0;
    } else if (option->unit != UNIT_OVERHEAD) {
        *(uint64_t *)((char *)&config->params + option->offset) = option->unit == UNIT_GAIN ? value * 1000 / 16 : value;
    }
    return true;
}

/* Reads an option without a value. Returns false if there is none of this name. */
static bool read_flag(struct qdisc_config *config, const char *name) {
    for (size_t at = 0; at < sizeof flags / sizeof *flags; at++)
        if (!strcmp(name, flags[at].name)) {
            config->opening.choices = (config->opening.choices | flags[at].set) & ~flags[at].cleared;
            return true;
        }
    if (strcmp(name, "on_off"))
        return false;
    config->opening.profile = PIE_ON_AND_OFF;
    return true;
}

bool options_read(struct qdisc_config *config, char **words, int count, bool is_change) {
    static const char *const names[] = {"target", "tupdate", "max_burst", "alpha", "beta", "mean_pkt", "limit_bytes", "mark_ecnth", "dq_threshold"};
    uint32_t bad;
    for (int at = 0; at < count; at++) {
        size_t option = 0;
        while (option < sizeof valued / sizeof *valued && strcmp(words[at], valued[option].name))
            option++;
        if (option < sizeof valued / sizeof *valued) {
            if (at + 1 == count)
                return refuse(words[at], "", "its value is missing");
            if (!read_value(config, &valued[option], words[++at], is_change))
                return false;
        } else if (!read_flag(config, words[at])) {
            return refuse("option", words[at], "there is no such option");
        } else if (is_change) {
            return refuse("option", words[at], "cannot change");
        }
    }
    /* no mark can be made, so each pick is a drop */
    config->params.mark_ecnth = 0;
    bad = pie_check_params(&config->params);
    if (bad)
        return refuse("option", names[bad - 1], "its value is out of range");
    config->opening.params = is_change ? config->opening.params : config->params;
    return true;
}
