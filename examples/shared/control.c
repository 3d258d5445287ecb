#include "control.h"

#include <math.h>
#include <stdio.h>
#include <stdlib.h>
#include <string.h>

const char control_help[] =
    "  --rate 10mbit        rate of the link in bit, kbit, mbit, gbit, tbit, or in bytes: bps, kbps and so on\n"
    "  --target 15ms        target delay in s, ms, us, ns\n"
    "  --tupdate 15ms       time between updates\n"
    "  --limit 4000p        limit of the queue in packets; also --limit 256kb in bytes (b, kb of 1024 bytes, mb, gb). The default in\n"
    "                       bytes is 200 ms at the rate, at least 25000b; in packets it is the limit in bytes over 64, at most 65536p\n"
    "  --alpha 2, --beta 20 gains in the unit of tc, sixteenths per second\n"
    "  --ecn                mark packets that are ECN-capable\n"
    "  --delay stamp        delay from time stamps (stamp), or from the departure rate (rate, as --dq_rate_estimator)\n"
    "  --bytemode           pick a packet below the MTU less often, in proportion to its size; --mtu 1514b\n"
    "  --no_derandomization, --no_cap_drop_adjustment\n"
    "                       pick packets by the random word alone; change the probability without a cap\n"
    "  --decay zero         the probability decays at delays of 0 (zero), or below half the target (half)\n"
    "  --profile 1          1: always active; 2: activated and deactivated by the load\n"
    "  --queue pie          pie, or tail: only the limit drops (PIE with gains of 0, so that pie audit can check its history too)\n"
    "  --max_burst 150ms, --mean_pkt 1024b, --mark_ecnth 10%, --dq_threshold 16kb\n"
    "                       parameters of pie.h that tc does not have\n";

/* The given options that struct control does not contain. */
struct said {
    uint64_t alpha, beta, mtu, mean_pkt, packets, bytes, mark_ecnth;
    bool is_rate, bytemode, no_derandomization, no_cap, is_half, is_tail;
};

static const char *fault_of(uint32_t code) {
    return code == PIE_DONE ? NULL : pie_text(code);
}

const char *option_time(const char *text, void *to) {
    return fault_of(pie_read_time(text, strlen(text), to));
}

const char *option_rate(const char *text, void *to) {
    return fault_of(pie_read_rate(text, strlen(text), to));
}

const char *option_size(const char *text, void *to) {
    return fault_of(pie_read_size(text, strlen(text), to));
}

const char *option_packets(const char *text, void *to) {
    return fault_of(pie_read_packets(text, strlen(text), to));
}

const char *option_number(const char *text, void *to) {
    return strspn(text, "0123456789") == strlen(text) ? option_packets(text, to) : "not a whole number";
}

const char *option_text(const char *text, void *to) {
    *(const char **)to = text;
    return NULL;
}

/* A gain of tc. */
static const char *read_gain(const char *text, void *to) {
    uint64_t gain;
    const char *fault = option_number(text, &gain);
    if (fault != NULL || gain > 32)
        return fault != NULL ? fault : "not in 0 to 32, as tc has it";
    *(uint64_t *)to = gain;
    return NULL;
}

/* Reads a limit, in bytes or packets by its unit. */
static const char *read_limit(const char *text, void *to) {
    struct said *said = to;
    char last = text[strlen(text) - 1];
    if (last == 'p' || last == 'P')
        return option_packets(text, &said->packets);
    if (last >= '0' && last <= '9')
        return "a unit has to say of what it is, as 1000p or 256kb";
    return option_size(text, &said->bytes);
}

/* Reads a probability such as 0.1 or 10% into units of 10^-12. */
static const char *read_probability(const char *text, void *to) {
    char *end;
    double number = strtod(text, &end), unit = strcmp(end, "%") == 0 ? 1e10 : 1e12;
    if (end == text || !isfinite(number) || number < 0 || (*end != '\0' && unit == 1e12) || number * unit > 0x1p60)
        return pie_text(PIE_NOT_A_NUMBER);
    *(uint64_t *)to = (uint64_t)llround(number * unit);
    return NULL;
}

/* Reads one of two keywords; `to` is 1 for the second. */
static const char *one_of(const char *text, bool *to, const char *first, const char *second) {
    *to = strcmp(text, second) == 0;
    return *to || strcmp(text, first) == 0 ? NULL : "not a value of this option";
}

static const char *read_delay(const char *text, void *to) {
    return one_of(text, to, "stamp", "rate");
}

static const char *read_decay(const char *text, void *to) {
    return one_of(text, to, "zero", "half");
}

static const char *read_queue(const char *text, void *to) {
    return one_of(text, to, "pie", "tail");
}

int refuse_word(const struct command *command, const char *name, const char *text, const char *fault) {
    fprintf(stderr, "%s: %s%s%s: %s; see %s --help\n", command->program, name, *text != '\0' ? " " : "", text, fault, command->program);
    return WORDS_WRONG;
}

/* Returns the default limit in packets: as many packets of 64 bytes as `bytes` contains, from 1 to `most`. */
static uint64_t packets_for(uint64_t bytes, uint64_t most) {
    return bytes / 64 == 0 ? 1 : bytes / 64 < most ? bytes / 64 : most;
}

/* Computes the choices and the parameters from the options. Returns the first option that is out of its range, or
 * NULL. */
static const char *finish(const struct command *command, struct control *control, const struct said *said) {
    static const char *const names[] = {"--target", "--tupdate", "--max_burst", "--alpha", "--beta", "--mean_pkt or --mtu", "--limit",
                                        "--mark_ecnth", "--dq_threshold"};
    struct pie_opening *opening = &control->opening;
    struct pie_params usual, *params = &opening->params;
    if (control->rate < 1000)
        return "--rate";
    if (opening->profile != PIE_ALWAYS_ON && opening->profile != PIE_ON_AND_OFF)
        return "--profile";
    pie_params_for(control->rate, &usual);
    opening->choices = (said->is_rate ? 0u : PIE_DELAY_STAMP) | (said->no_derandomization ? PIE_PICK_RANDOM : 0u) |
                       (said->no_cap ? PIE_STEP_UNCAPPED : 0u) | (said->bytemode ? PIE_SIZE_SCALED : 0u) |
                       (said->is_half ? PIE_DECAY_HALF : 0u);
    params->limit_bytes = said->bytes != 0 ? said->bytes : usual.limit_bytes;
    opening->packets = said->packets != 0 ? said->packets : packets_for(params->limit_bytes, command->most_packets);
    control->has_default_packets = said->packets == 0;
    params->alpha = said->is_tail ? 0 : said->alpha * 1000 / 16;
    params->beta = said->is_tail ? 0 : said->beta * 1000 / 16;
    params->mean_pkt = said->mean_pkt != 0 ? said->mean_pkt : said->bytemode ? said->mtu : usual.mean_pkt;
    params->mark_ecnth = control->use_ecn ? said->mark_ecnth : 0;
    uint32_t bad = pie_check_params(params);
    if (bad != 0)
        return names[bad - 1];
    return opening->packets > command->most_packets ? "--limit" : NULL;
}

void warn_of_limits(const struct command *command, const struct control *control) {
    const struct pie_opening *opening = &control->opening;
    double wanted = (double)control->rate / 8e9 * (double)opening->params.target;
    if ((double)opening->params.limit_bytes < wanted)
        fprintf(stderr, "%s: limit_bytes, %llu, is under rate x target: the queue is full before it waits so long, and all losses are tail drops\n",
                command->program, (unsigned long long)opening->params.limit_bytes);
    else if ((double)opening->packets * 1500 < wanted)
        fprintf(stderr, "%s: %llu packets are under rate x target: the queue is full before it waits so long, and all losses are tail drops\n",
                command->program, (unsigned long long)opening->packets);
}

static const struct option *named(const char *word, size_t length, const struct option *options, size_t count) {
    for (size_t i = 0; i < count; i++)
        if (strlen(options[i].name) == length && strncmp(word, options[i].name, length) == 0)
            return &options[i];
    return NULL;
}

/* Reads the option at this place with its text, and moves the place to its last word. Prints errors. */
static bool read_option(const struct command *command, const struct option *option, int count, char **words, int *place) {
    const char *word = words[*place], *equals = strchr(word, '='), *fault = NULL;
    if (option->read == NULL && equals == NULL) {
        *(bool *)option->to = true;
        return true;
    }
    const char *text = equals != NULL ? equals + 1 : *place + 1 < count ? words[++*place] : "";
    if (option->read == NULL)
        fault = "it has no value";
    else
        fault = *text == '\0' ? "a value is missing" : option->read(text, option->to);
    return fault == NULL || refuse_word(command, option->name, text, fault) == 0;
}

int read_words(const struct command *command, int count, char **words, struct control *control) {
    struct said said = {.alpha = 2, .beta = 20, .mtu = 1514, .mark_ecnth = PIE_ONE / 10};
    struct pie_params *params = &control->opening.params;
    const struct option shared[] = {
        {"--rate", option_rate, &control->rate},
        {"--target", option_time, &params->target},
        {"--tupdate", option_time, &params->t_update},
        {"--limit", read_limit, &said},
        {"--alpha", read_gain, &said.alpha},
        {"--beta", read_gain, &said.beta},
        {"--ecn", NULL, &control->use_ecn},
        {"--delay", read_delay, &said.is_rate},
        {"--dq_rate_estimator", NULL, &said.is_rate},
        {"--bytemode", NULL, &said.bytemode},
        {"--mtu", option_size, &said.mtu},
        {"--no_derandomization", NULL, &said.no_derandomization},
        {"--no_cap_drop_adjustment", NULL, &said.no_cap},
        {"--decay", read_decay, &said.is_half},
        {"--profile", option_number, &control->opening.profile},
        {"--queue", read_queue, &said.is_tail},
        {"--max_burst", option_time, &params->max_burst},
        {"--mean_pkt", option_size, &said.mean_pkt},
        {"--mark_ecnth", read_probability, &said.mark_ecnth},
        {"--dq_threshold", option_size, &params->dq_threshold},
    };
    *control = (struct control){.rate = 10000000};
    pie_default_opening(&control->opening, control->rate);
    int place = 1;
    for (; place < count && words[place][0] == '-' && words[place][1] != '\0'; place++) {
        size_t length = strcspn(words[place], "=");
        if (strcmp(words[place], "--help") == 0) {
            printf("%s%s%s", command->help[0], control_help, command->help[1]);
            return WORDS_HELP;
        }
        const struct option *option = named(words[place], length, command->options, command->count);
        if (option == NULL)
            option = named(words[place], length, shared, sizeof shared / sizeof shared[0]);
        if (option == NULL)
            return refuse_word(command, words[place], "", "unknown");
        if (!read_option(command, option, count, words, &place))
            return WORDS_WRONG;
    }
    const char *fault = finish(command, control, &said);
    if (fault != NULL)
        return refuse_word(command, fault, "", "out of its range");
    warn_of_limits(command, control);
    return place;
}
