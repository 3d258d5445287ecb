// SPDX-License-Identifier: GPL-2.0 OR MIT
/*
 * The plugin of tc for pie_recorded: tc loads q_pie_recorded.so from its folder of plugins, or from
 * $TC_LIB_DIR, and looks for pie_recorded_qdisc_util. Options and statistics of pie have the names,
 * units and order of tc's own q_pie.c; those of pie_recorded follow. No package of Debian has tc's headers, so the
 * declarations of iproute2 6.1 are here.
 */
#include <linux/rtnetlink.h>
#include <stdbool.h>
#include <stdint.h>
#include <stdio.h>
#include <stdlib.h>
#include <string.h>

#include "pie_recorded.h"

/* ---- of tc */

struct qdisc_util {
	struct qdisc_util *next;
	const char *id;
	int (*parse_qopt)(struct qdisc_util *util, int argc, char **argv, struct nlmsghdr *n,
			  const char *dev);
	int (*print_qopt)(struct qdisc_util *util, FILE *f, struct rtattr *opt);
	int (*print_xstats)(struct qdisc_util *util, FILE *f, struct rtattr *xstats);
	int (*parse_copt)(struct qdisc_util *util, int argc, char **argv, struct nlmsghdr *n,
			  const char *dev);
	int (*print_copt)(struct qdisc_util *util, FILE *f, struct rtattr *opt);
	int (*has_block)(struct qdisc_util *util, struct rtattr *opt, bool *has);
};

enum output_type { PRINT_FP = 1, PRINT_JSON = 2, PRINT_ANY = 4 };
enum color_attr { COLOR_NONE = 6 };

int get_unsigned(unsigned int *value, const char *text, int base);
int get_time(unsigned int *us, const char *text);
int get_rate64(uint64_t *bytes_per_second, const char *text);
int addattr_l(struct nlmsghdr *n, int maxlen, int type, const void *data, int alen);
struct rtattr *addattr_nest(struct nlmsghdr *n, int maxlen, int type);
int addattr_nest_end(struct nlmsghdr *n, struct rtattr *nest);
int parse_rtattr(struct rtattr *tb[], int max, struct rtattr *rta, int len);
int print_color_uint(enum output_type type, enum color_attr color, const char *key,
		     const char *format, unsigned int value);
int print_color_u64(enum output_type type, enum color_attr color, const char *key,
		    const char *format, uint64_t value);
int print_color_float(enum output_type type, enum color_attr color, const char *key,
		      const char *format, double value);
int print_color_string(enum output_type type, enum color_attr color, const char *key,
		       const char *format, const char *value);
int print_color_bool(enum output_type type, enum color_attr color, const char *key,
		     const char *format, bool value);
int print_color_rate(bool use_iec, enum output_type type, enum color_attr color, const char *key,
		     const char *format, unsigned long long bytes_per_second);

/* ---- the options */

enum unit { PACKETS, TIME, PLAIN, PROBABILITY };

static const struct number {
	const char *name;
	int type;
	enum unit unit;
} numbers[] = {
	{ "limit", TCA_PIE_LIMIT, PACKETS },
	{ "target", TCA_PIE_TARGET, TIME },
	{ "tupdate", TCA_PIE_TUPDATE, TIME },
	{ "alpha", TCA_PIE_ALPHA, PLAIN },
	{ "beta", TCA_PIE_BETA, PLAIN },
	{ "max_burst", TCA_PIE_RECORDED_MAX_BURST, TIME },
	{ "mark_ecnth", TCA_PIE_RECORDED_MARK_ECNTH, PROBABILITY },
	{ "events", TCA_PIE_RECORDED_EVENTS, PLAIN },
};

static const struct flag {
	const char *on, *off;
	int type;
} flags[] = {
	{ "ecn", "noecn", TCA_PIE_ECN },
	{ "bytemode", "nobytemode", TCA_PIE_BYTEMODE },
	{ "dq_rate_estimator", "no_dq_rate_estimator", TCA_PIE_DQ_RATE_ESTIMATOR },
	{ "decay_half", "decay_zero", TCA_PIE_RECORDED_DECAY },
	{ "flows", "noflows", TCA_PIE_RECORDED_FLOWS },
};

#define COUNT(array) (sizeof(array) / sizeof((array)[0]))

static void explain(void)
{
	fprintf(stderr,
		"Usage: ... pie_recorded [ rate RATE ] [ limit PACKETS ] [ target TIME ]\n"
		"                        [ tupdate TIME ] [ alpha ALPHA ] [ beta BETA ]\n"
		"                        [ bytemode | nobytemode ] [ ecn | noecn ]\n"
		"                        [ dq_rate_estimator | no_dq_rate_estimator ]\n"
		"                        [ max_burst TIME ] [ mark_ecnth PERCENT ]\n"
		"                        [ decay_half | decay_zero ]\n"
		"                        [ events EVENTS ] [ flows | noflows ]\n"
		"The limits are 200 ms at RATE, in bytes and in packets of 64 bytes. Without rate,\n"
		"limit PACKETS is the only limit. Without both, RATE is the speed of a network card\n"
		"if no shaper is above the queue; otherwise limit is 1000.\n");
}

/* Reads a probability, as a number with `%`, in 10^-9. */
static int get_probability(unsigned int *value, const char *text)
{
	char *end;
	double percent = strtod(text, &end);

	if (end == text || strcmp(end, "%") != 0 || !(percent >= 0 && percent <= 100))
		return -1;
	*value = (unsigned int)(percent * 1e7 + 0.5);
	return 0;
}

static int get_number(unsigned int *value, const char *text, enum unit unit)
{
	if (unit == TIME)
		return get_time(value, text);
	if (unit == PROBABILITY)
		return get_probability(value, text);
	return get_unsigned(value, text, 0);
}

/*
 * Reads one option into the message. Returns the number of its words, 0 if the option is unknown,
 * and -1 for a wrong value.
 */
static int parse_option(int argc, char **argv, struct nlmsghdr *n)
{
	unsigned int value;
	uint64_t rate;
	size_t i;

	if (strcmp(*argv, "rate") == 0) {
		if (argc < 2 || get_rate64(&rate, argv[1])) {
			fprintf(stderr, "Illegal \"rate\"\n");
			return -1;
		}
		addattr_l(n, 1024, TCA_PIE_RECORDED_RATE, &rate, sizeof(rate));
		return 2;
	}
	for (i = 0; i < COUNT(numbers); i++) {
		if (strcmp(*argv, numbers[i].name) != 0)
			continue;
		if (argc < 2 || get_number(&value, argv[1], numbers[i].unit)) {
			fprintf(stderr, "Illegal \"%s\"\n", numbers[i].name);
			return -1;
		}
		addattr_l(n, 1024, numbers[i].type, &value, sizeof(value));
		return 2;
	}
	for (i = 0; i < COUNT(flags); i++) {
		value = strcmp(*argv, flags[i].on) == 0;
		if (!value && strcmp(*argv, flags[i].off) != 0)
			continue;
		addattr_l(n, 1024, flags[i].type, &value, sizeof(value));
		return 1;
	}
	return 0;
}

static int parse_options(struct qdisc_util *util, int argc, char **argv, struct nlmsghdr *n,
			 const char *dev)
{
	struct rtattr *nest = addattr_nest(n, 1024, TCA_OPTIONS);
	int words;

	(void)util;
	(void)dev;
	for (; argc > 0; argc -= words, argv += words) {
		words = parse_option(argc, argv, n);
		if (words == 0 && strcmp(*argv, "help") != 0)
			fprintf(stderr, "What is \"%s\"?\n", *argv);
		if (words <= 0) {
			explain();
			return -1;
		}
	}
	addattr_nest_end(n, nest);
	return 0;
}

static unsigned int number_of(const struct rtattr *attr)
{
	unsigned int value;

	memcpy(&value, RTA_DATA(attr), sizeof(value));
	return value;
}

/* Prints a time of whole microseconds as tc does. */
static void print_time(const char *key, const char *format, unsigned int us)
{
	char text[32];

	if (us >= 1000000)
		snprintf(text, sizeof(text), "%.3gs", us / 1e6);
	else if (us >= 1000)
		snprintf(text, sizeof(text), "%.3gms", us / 1e3);
	else
		snprintf(text, sizeof(text), "%uus", us);
	print_color_uint(PRINT_JSON, COLOR_NONE, key, NULL, us);
	print_color_string(PRINT_FP, COLOR_NONE, NULL, format, text);
}

static int print_options(struct qdisc_util *util, FILE *f, struct rtattr *opt)
{
	struct rtattr *tb[TCA_PIE_RECORDED_MAX + 1];
	char format[64];
	uint64_t rate;
	size_t i;

	(void)util;
	(void)f;
	if (!opt)
		return 0;
	parse_rtattr(tb, TCA_PIE_RECORDED_MAX, RTA_DATA(opt), RTA_PAYLOAD(opt));
	if (tb[TCA_PIE_RECORDED_RATE] && RTA_PAYLOAD(tb[TCA_PIE_RECORDED_RATE]) >= sizeof(rate)) {
		memcpy(&rate, RTA_DATA(tb[TCA_PIE_RECORDED_RATE]), sizeof(rate));
		if (rate)
			print_color_rate(false, PRINT_ANY, COLOR_NONE, "rate", "rate %s ", rate);
	}
	for (i = 0; i < COUNT(numbers); i++) {
		const struct rtattr *attr = tb[numbers[i].type];

		if (!attr || RTA_PAYLOAD(attr) < sizeof(unsigned int))
			continue;
		if (numbers[i].unit == TIME) {
			snprintf(format, sizeof(format), "%s %%s ", numbers[i].name);
			print_time(numbers[i].name, format, number_of(attr));
		} else if (numbers[i].unit == PROBABILITY) {
			snprintf(format, sizeof(format), "%s %%lg%%%% ", numbers[i].name);
			print_color_float(PRINT_ANY, COLOR_NONE, numbers[i].name, format,
					  number_of(attr) / 1e7);
		} else {
			snprintf(format, sizeof(format), "%s %%u%s ", numbers[i].name,
				 numbers[i].unit == PACKETS ? "p" : "");
			print_color_uint(PRINT_ANY, COLOR_NONE, numbers[i].name, format,
					 number_of(attr));
		}
	}
	for (i = 0; i < COUNT(flags); i++) {
		const struct rtattr *attr = tb[flags[i].type];

		if (!attr || RTA_PAYLOAD(attr) < sizeof(unsigned int) || !number_of(attr))
			continue;
		snprintf(format, sizeof(format), "%s ", flags[i].on);
		print_color_bool(PRINT_ANY, COLOR_NONE, flags[i].on, format, true);
	}
	return 0;
}

static void print_u32(const char *key, const char *format, unsigned int value)
{
	print_color_uint(PRINT_ANY, COLOR_NONE, key, format, value);
}

static void print_u64(const char *key, const char *format, uint64_t value)
{
	print_color_u64(PRINT_ANY, COLOR_NONE, key, format, value);
}

static int print_statistics(struct qdisc_util *util, FILE *f, struct rtattr *xstats)
{
	struct tc_pie_recorded_xstats stats;

	(void)util;
	(void)f;
	if (!xstats || RTA_PAYLOAD(xstats) < sizeof(stats))
		return -1;
	memcpy(&stats, RTA_DATA(xstats), sizeof(stats));
	print_color_float(PRINT_ANY, COLOR_NONE, "prob", "  prob %lg",
			  (double)stats.pie.prob / (double)UINT64_MAX);
	print_time("delay", " delay %s", stats.pie.delay);
	if (stats.pie.dq_rate_estimating)
		print_u32("avg_dq_rate", " avg_dq_rate %u", stats.pie.avg_dq_rate);
	print_color_u64(PRINT_JSON, COLOR_NONE, "burst", NULL, stats.burst);
	print_color_float(PRINT_FP, COLOR_NONE, NULL, " burst %lgms\n", stats.burst / 1e6);
	print_u32("pkts_in", "  pkts_in %u", stats.pie.packets_in);
	print_u32("overlimit", " overlimit %u", stats.pie.overlimit);
	print_u32("dropped", " dropped %u", stats.pie.dropped);
	print_u32("maxq", " maxq %u", stats.pie.maxq);
	print_u32("ecn_mark", " ecn_mark %u\n", stats.pie.ecn_mark);
	print_u64("early", "  early %llu", stats.early);
	print_u64("over_bytes", " over_bytes %llu", stats.over_bytes);
	print_u64("over_packets", " over_packets %llu", stats.over_packets);
	print_u64("refused", " refused %llu", stats.refused);
	print_u64("purged", " purged %llu\n", stats.purged);
	print_u64("updates", "  updates %llu", stats.updates);
	print_u64("resets", " resets %llu", stats.resets);
	print_u64("changes", " changes %llu", stats.changes);
	print_u64("recorded", " recorded %llu", stats.recorded);
	print_u32("record", " record %u", stats.serial);
	return 0;
}

struct qdisc_util pie_recorded_qdisc_util = {
	.id = "pie_recorded",
	.parse_qopt = parse_options,
	.print_qopt = print_options,
	.print_xstats = print_statistics,
};
