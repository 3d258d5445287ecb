/* SPDX-License-Identifier: GPL-2.0 OR MIT */
/*
 * The options and statistics of the queue discipline pie_recorded in netlink messages.
 * Options 1 to 8 are those of pie (TCA_PIE_TARGET to TCA_PIE_DQ_RATE_ESTIMATOR). Each option is a
 * u32, and TCA_PIE_RECORDED_RATE a u64.
 */
#ifndef PIE_RECORDED_H
#define PIE_RECORDED_H

#include <linux/pkt_sched.h>
#include <linux/types.h>

enum {
	TCA_PIE_RECORDED_MAX_BURST = 16, /* burst allowance, in us */
	TCA_PIE_RECORDED_MARK_ECNTH, /* packets are marked below this probability, in 10^-9 */
	TCA_PIE_RECORDED_DECAY, /* 1: decay at delays below target / 2; 0: at delays of 0 */
	TCA_PIE_RECORDED_EVENTS, /* least number of events in the record; 0: no record */
	TCA_PIE_RECORDED_FLOWS, /* 1: tags contain the packet's flow */
	TCA_PIE_RECORDED_RATE, /* rate of the link, in bytes per second, which chooses the limits */
	TCA_PIE_RECORDED_PAD,
	TCA_PIE_RECORDED_END
};

#define TCA_PIE_RECORDED_MAX (TCA_PIE_RECORDED_END - 1)

/* The statistics: those of pie, and more. */
struct tc_pie_recorded_xstats {
	struct tc_pie_xstats pie;
	__aligned_u64 burst;		/* burst allowance, in ns */
	__aligned_u64 early;		/* drops by probability */
	__aligned_u64 over_bytes;	/* drops by the limit in bytes */
	__aligned_u64 over_packets;	/* drops by the limit in packets */
	__aligned_u64 refused;		/* packets that were dropped without a decision */
	__aligned_u64 purged;		/* packets that a purge of the queue dropped */
	__aligned_u64 updates;
	__aligned_u64 resets;
	__aligned_u64 changes;
	__aligned_u64 recorded;		/* events that were written to the record */
	__u32 serial;		/* number of the record; 0: none */
	__u32 reserved;
};

/*
 * A flow in a record. The flows begin at the first multiple of the page size after the recorder,
 * and end with the file. The page size is that of the kernel (sysconf(_SC_PAGESIZE)), and the recorder
 * has `words` words of 8 bytes (pie_flight_layout_in). Flow F has the place F % PIE_RECORDED_FLOWS.
 * Read `flow`, then the other fields, then `flow` again: if it changed, ignore the fields.
 */
struct pie_recorded_flow {
	__u32 flow;		/* the upper half of the tags of its packets; 0: no flow */
	__u8 family;		/* 4 or 6: IP; 0: other packets */
	__u8 protocol;
	__be16 ports[2];	/* source and destination; 0 if they are not known */
	__u16 reserved;
	__u32 reserved_too;
	__aligned_u64 moment;	/* moment at which this place was written */
	__u8 source[16];	/* IPv4: the first four bytes */
	__u8 destination[16];
	__aligned_u64 spare;
};

#define PIE_RECORDED_FLOWS 1024

/* programs of 32 and of 64 bits read the same bytes */
_Static_assert(sizeof(struct pie_recorded_flow) == 64, "a flow has 64 bytes");
_Static_assert(sizeof(struct tc_pie_recorded_xstats) == 128, "the statistics have 128 bytes");

#endif
