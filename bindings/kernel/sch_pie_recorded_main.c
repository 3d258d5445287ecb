// SPDX-License-Identifier: GPL-2.0 OR MIT
/*
 * The queue discipline pie_recorded: PIE (RFC 8033), decided by the proved calls of pie.h. This
 * file handles the packets, the clock, the random words and the timer, and contains no rule of
 * PIE. It writes each event to a flight recorder (pie_flight.h), whose memory user space can map.
 */

#include <linux/anon_inodes.h>
#include <linux/atomic.h>
#include <linux/capability.h>
#include <linux/cred.h>
#include <linux/ethtool.h>
#include <linux/file.h>
#include <linux/fs.h>
#include <linux/hrtimer.h>
#include <linux/math64.h>
#include <linux/mm.h>
#include <linux/module.h>
#include <linux/net.h>
#include <linux/proc_fs.h>
#include <linux/random.h>
#include <linux/sched/signal.h>
#include <linux/sched/user.h>
#include <linux/skbuff.h>
#include <linux/string.h>
#include <linux/user_namespace.h>
#include <linux/version.h>
#include <linux/vmalloc.h>
#include <net/inet_ecn.h>
#include <net/net_namespace.h>
#include <net/netlink.h>
#include <net/netns/generic.h>
#include <net/pkt_sched.h>
#if __has_include(<net/gso.h>)
#include <net/gso.h>
#endif
#ifdef PR_HAS_QDISC_REASONS
#include <net/dropreason-qdisc.h>
#endif

#include "pie_flight.h"
#include "pie_random.h"
#include "pie_recorded.h"
#include "pie_flows.h"

/* The callers of the events. */
enum { PR_ENQUEUE = 1, PR_DEQUEUE = 2, PR_TIMER = 3, PR_PURGE = 4, PR_CHANGE = 5 };

#define PR_TUPDATE_MIN 100 /* us; a shorter t_update would only load the timer */
#define PR_TUPDATE_MIN_OTHERS 1000 /* us, without CAP_NET_ADMIN in the initial namespace */
#define PR_EVENTS_MAX BIT(24)
/* the default record: the events of eight full queues */
#define PR_EVENTS_OF_A_PACKET 16
#define PR_EVENTS_LEAST 4096
#define PR_EVENTS_MOST 65536
#define PR_PACKETS 1000 /* the limit of pie, for an unknown rate */
#define PR_PACKETS_MOST 65536 /* of the limit by the rate: a queued packet takes 24 bytes of the record */
#define PR_SEGMENT_MAX BIT(20) /* bytes of a segment, which a size table computes */
#define PR_PURGE_MOST 1024 /* packets that are purged in one section without an interruption */
#define PR_PURGE_OF_AN_ARRIVAL 64 /* packets that an arrival purges */
#define PR_BILLIONTH (PIE_ONE / NSEC_PER_SEC) /* a probability of 10^-9 */

static char *kind = "pie_recorded";
module_param(kind, charp, 0444);
MODULE_PARM_DESC(kind, "name of the queue discipline: pie_recorded, or pie in place of sch_pie");

static int events = -1;
module_param(events, int, 0644);
MODULE_PARM_DESC(events, "events that a new queue records, at most 2^24 (0: no record, -1: by its limit)");

static unsigned int memory = 256;
module_param(memory, uint, 0644);
MODULE_PARM_DESC(memory, "MiB that all records may take together; half of it without CAP_NET_ADMIN in the initial namespace");

static atomic_long_t pr_pages = ATOMIC_LONG_INIT(0); /* of all records */
static atomic_long_t pr_pages_of_others = ATOMIC_LONG_INIT(0); /* of those with a user */
static atomic_t pr_serial = ATOMIC_INIT(0);

/* The state of a network namespace: its folder /proc/net/pie_recorded. */
static unsigned int pr_net_id __read_mostly;

struct pr_net {
	struct proc_dir_entry *folder;
};

/*
 * A record: its memory with the recorder and the flows, which user space maps, and its file in
 * /proc. The queue and each mapping have a reference to `memory`, an anonymous file. Its last
 * reference releases the memory, which is counted until then.
 */
struct pr_record {
	void *words;
	size_t bytes;
	struct user_struct *user; /* whose locked memory it is; NULL: of the initial namespace */
	struct file *memory;
	struct proc_dir_entry *file;
};

/*
 * The private part of a queue. flight.packets and flight.bytes count the queued packets.
 * qstats.backlog does not: it also counts a packet that a parent peeked at, which has departed.
 * flight.stats has the statistics. These fields are used without a record too.
 */
struct pr_sched {
	/* `pie` is not first: its address, in a register between calls, would be the queue's */
	struct pr_random random;
	struct pie_state pie;
	struct pie_flight flight;
	/* the events of the present call; on the stack they would have to be zeroed */
	struct pie_event arrival;
	struct pie_event departure;
	struct pie_event other;
	u64 hash_key;
	u32 room;		/* capacity in packets */
	u32 next_tag;
	bool ecn;
	bool flows;
	u64 purged;
	u64 maxq;
	u32 refused;	/* packets that were dropped without a decision */
	struct sk_buff *purge; /* packets of a reset queue whose departures are not yet recorded */
	struct pie_state before; /* before the arrival of a packet whose data another one shares */
	struct hrtimer timer;
	spinlock_t lock; /* for the timer and a reset before destroy, without the tree's lock */
	struct Qdisc *sch;
	struct pr_record *record;
	struct pie_recorded_flow *places; /* the flows in the record */
	u64 rate;	/* in bytes per second, which chose the limits; 0: none */
	u32 events;	/* the options as tc gave them */
	u32 serial;
	u32 alpha;
	u32 beta;
	bool is_open;
};

/* The private data of a queued packet. Without a record only `since` and `size` are used. */
struct pr_cb {
	u64 since;	/* the moment of its arrival */
	u64 tag;
	u16 size;
	u8 ecn;		/* its ECN field on departure */
} __packed __aligned(4);

static struct pr_cb *pr_cb(const struct sk_buff *skb)
{
	qdisc_cb_private_validate(skb, sizeof(struct pr_cb));
	return (struct pr_cb *)qdisc_skb_cb(skb)->data;
}

/*
 * Returns the size of a packet, as it is decided and recorded. A full TCP segment over an MTU of
 * 65,522 bytes and more, as that of lo, has more bytes than an event can contain.
 */
static __always_inline u32 pr_size(const struct sk_buff *skb)
{
	u32 size = qdisc_pkt_len(skb);

	if (unlikely(size > PIE_MAX_SIZE)) {
		size = PIE_MAX_SIZE;
		OPTIMIZER_HIDE_VAR(size); /* a branch takes fewer instructions than a choice */
	}
	return size;
}

/*
 * Continues at the first place if the ring ended, and takes a snapshot if one is due, with the
 * statistics that are not counted at each event.
 */
static noinline void pr_at_limit(struct pr_sched *q)
{
	struct pie_flight *flight = &q->flight;
	struct pie_stats *stats = &flight->stats;

	if (flight->event == flight->events_end)
		flight->event = flight->events;
	if (pie_flight_is_due(flight)) {
		flight->came_so_far = stats->enqueued + stats->marked;
		stats->arrivals = flight->came_so_far + stats->early + stats->over_bytes +
				  stats->over_packets;
		stats->left = flight->came_so_far - flight->packets;
		pie_flight_snapshot(flight, &q->pie);
	}
	pie_flight_limit(flight);
}

/* Ends the recording of the event in the place `to`. */
static __always_inline void pr_kept(struct pr_sched *q, PIE_WORD *to)
{
	q->flight.event = to + PIE_FLIGHT_EVENT;
	PIE_STORE(q->flight.words[PIE_FLIGHT_KEPT], ++q->flight.count);
	if (unlikely(to + PIE_FLIGHT_EVENT == q->flight.limit))
		pr_at_limit(q);
}

/* Records q->arrival, the arrival of a packet with this tag. */
static __always_inline void pr_keep_arrival(struct pr_sched *q, u64 tag, u32 size, u32 ecn,
					    u32 verdict)
{
	PIE_WORD *to = q->flight.event;

	PIE_FLIGHT_FENCE();
	PIE_FLIGHT_PUT(to, q->arrival.moment, tag, q->arrival.word, size | (u64)verdict << 32,
		       pie_flight_about(PIE_EVENT_ARRIVE, (u8)ecn, PR_ENQUEUE));
	pr_kept(q, to);
}

/* Records q->departure, the departure of the packet with this private data. */
static __always_inline void pr_keep_departure(struct pr_sched *q, const struct pr_cb *cb,
					      u32 caller)
{
	const struct pie_event *event = &q->departure;
	struct pie_stats *stats = &q->flight.stats;
	u64 since = cb->since, waited = q->pie.moment - since;
	PIE_WORD *to = q->flight.event;

	stats->left_bytes += event->size;
	stats->waited += waited;
	stats->waited_high += stats->waited < waited;
	PIE_FLIGHT_FENCE();
	PIE_FLIGHT_PUT(to, event->moment, cb->tag, since, event->size,
		       pie_flight_about(PIE_EVENT_DEPART, (u8)cb->ecn, caller));
	pr_kept(q, to);
}

/* Counts and records q->other: an update, a reset or new parameters. */
static noinline void pr_keep_other(struct pr_sched *q)
{
	PIE_WORD *to = q->flight.event;

	if (q->other.answer > 100)
		return;
	pie_count_event(&q->flight.stats, &q->other, q->flight.bytes, 0);
	if (!q->record)
		return;
	PIE_FLIGHT_FENCE();
	pie_flight_put_other(to, &q->pie, &q->other);
	pr_kept(q, to);
}

/* Returns the bytes of a packet up to the end of its IP header without options; 0: no IP packet. */
static u32 pr_ip_end(const struct sk_buff *skb)
{
	switch (skb_protocol(skb, true)) {
	case htons(ETH_P_IP):
		return skb_network_offset(skb) + sizeof(struct iphdr);
	case htons(ETH_P_IPV6):
		return skb_network_offset(skb) + sizeof(struct ipv6hdr);
	default:
		return 0;
	}
}

/*
 * Returns what pr_ecn returns, for packets of any form. Keeps the controller's state if a mark must
 * copy the header of the packet first, which may fail.
 */
static noinline u32 pr_ecn_of_any(struct Qdisc *sch, struct sk_buff *skb)
{
	struct pr_sched *q = qdisc_priv(sch);
	u32 end = pr_ip_end(skb), ecn;

	if (!end || !pskb_may_pull(skb, end))
		return PIE_NOT_ECT;
	if (skb_protocol(skb, true) == htons(ETH_P_IP))
		ecn = ipv4_get_dsfield(ip_hdr(skb)) & INET_ECN_MASK;
	else
		ecn = ipv6_get_dsfield(ipv6_hdr(skb)) & INET_ECN_MASK;
	if (ecn != PIE_NOT_ECT && skb_cloned(skb))
		q->before = q->pie;
	return ecn;
}

/* Returns the packet's ECN field; Not-ECT if it has none. */
static __always_inline u32 pr_ecn(struct Qdisc *sch, struct sk_buff *skb)
{
	/* most packets: IPv4, with a header that no other packet shares */
	if (likely(skb->protocol == htons(ETH_P_IP) && !skb_cloned(skb) &&
		   pr_has_header(skb, sizeof(struct iphdr))))
		return ipv4_get_dsfield(ip_hdr(skb)) & INET_ECN_MASK;
	return pr_ecn_of_any(sch, skb);
}

/* Returns a packet's flow. Writes its addresses to the record, unless its place is taken. */
static __always_inline u32 pr_flow(struct pr_sched *q, struct sk_buff *skb)
{
	bool is_hashed = skb->l4_hash || skb->sw_hash;
	u32 flow = likely(is_hashed) ? skb->hash : pr_hash(skb, q->hash_key);
	struct pie_recorded_flow *place = &q->places[flow % PIE_RECORDED_FLOWS];

	if (unlikely(place->flow != flow))
		flow = pr_write_flow(place, skb, flow, q->arrival.moment);
	return flow;
}

/*
 * The kernel's reasons of a drop. Newer kernels keep a packet's reason in private data that
 * segmentation overwrites, so that each drop sets it.
 */
#if defined(PR_HAS_QDISC_REASONS)
#define pr_set_reason(skb, reason) tcf_set_qdisc_drop_reason(skb, QDISC_DROP_##reason)
#elif defined(PR_HAS_DROP_REASONS)
#define SKB_DROP_REASON_QDISC_GENERIC SKB_DROP_REASON_QDISC_DROP
#define pr_set_reason(skb, reason) tcf_set_drop_reason(skb, SKB_DROP_REASON_QDISC_##reason)
#else
#define pr_set_reason(skb, reason) do { } while (0)
#endif

#define pr_drop_because(skb, sch, to_free, reason) ({ \
	pr_set_reason(skb, reason); \
	qdisc_drop(skb, sch, to_free); \
})

/* Counts and records an arrival, and drops its packet. */
static noinline int pr_drop(struct sk_buff *skb, struct Qdisc *sch, struct sk_buff **to_free,
			    u32 verdict)
{
	struct pr_sched *q = qdisc_priv(sch);
	struct pie_stats *stats = &q->flight.stats;

	switch (verdict) {
	case PIE_EARLY:
		stats->early++;
		break;
	case PIE_BYTES:
		stats->over_bytes++;
		break;
	case PIE_PACKETS:
		stats->over_packets++;
		break;
	default:
		q->refused++;
		return pr_drop_because(skb, sch, to_free, GENERIC);
	}
	q->next_tag++;
	if (q->record)
		pr_keep_arrival(q, pr_cb(skb)->tag, q->arrival.size, q->arrival.ecn, verdict);
	if (verdict == PIE_EARLY)
		return pr_drop_because(skb, sch, to_free, CONGESTED);
	return pr_drop_because(skb, sch, to_free, OVERLIMIT);
}

/* Enqueues a packet, and records its arrival, q->arrival. */
static __always_inline int pr_queue(struct sk_buff *skb, struct Qdisc *sch, u32 verdict,
				    const bool is_recorded)
{
	struct pr_sched *q = qdisc_priv(sch);
	struct pie_stats *stats = &q->flight.stats;
	u32 size = q->arrival.size, ecn = q->arrival.ecn;
	u64 since = q->pie.moment;

	pr_cb(skb)->since = since;
	pr_cb(skb)->size = size;
	if (is_recorded) {
		u32 leaving = verdict == PIE_MARK ? (u32)PIE_CE : ecn;
		u64 tag = pr_cb(skb)->tag;

		q->next_tag++;
		pr_cb(skb)->ecn = leaving;
		pie_flight_came(&q->flight, tag, size, leaving, since);
		if (q->flight.bytes > stats->largest_queue)
			stats->largest_queue = q->flight.bytes;
	} else {
		q->flight.packets++;
		q->flight.bytes += size;
	}
	if (q->flight.packets > q->maxq)
		q->maxq = q->flight.packets;
	qdisc_enqueue_tail(skb, sch);
	if (is_recorded)
		pr_keep_arrival(q, pr_cb(skb)->tag, size, ecn, verdict);
	return NET_XMIT_SUCCESS;
}

/* Decides q->arrival. */
static __always_inline u32 pr_decide(struct pr_sched *q)
{
	return pie_arrive_event(&q->pie, q->flight.bytes, q->room - (u32)q->flight.packets,
				&q->arrival);
}

/*
 * Marks and enqueues a packet. Another packet may share its header, which is then copied. If there
 * is no memory for a copy, the packet is decided again, as one that cannot be marked.
 */
static noinline int pr_queue_marked(struct sk_buff *skb, struct Qdisc *sch,
				    struct sk_buff **to_free)
{
	struct pr_sched *q = qdisc_priv(sch);

	if (unlikely(skb_try_make_writable(skb, pr_ip_end(skb)))) {
		q->pie = q->before;
		q->arrival.ecn = PIE_NOT_ECT;
		return pr_drop(skb, sch, to_free, pr_decide(q));
	}
	INET_ECN_set_ce(skb);
	q->flight.stats.marked++;
	return pr_queue(skb, sch, PIE_MARK, q->record);
}

/* Enqueues or drops a packet that needs no segmentation. Only recorded packets need a tag. */
static __always_inline int pr_enqueue_one(struct sk_buff *skb, struct Qdisc *sch,
					  struct sk_buff **to_free, const bool is_recorded)
{
	struct pr_sched *q = qdisc_priv(sch);
	u32 verdict;

	q->arrival.moment = ktime_get_ns();
	q->arrival.size = pr_size(skb);
	q->arrival.ecn = q->ecn ? pr_ecn(sch, skb) : PIE_NOT_ECT;
	if (is_recorded) {
		u64 flow = q->flows ? pr_flow(q, skb) : 0;

		pr_cb(skb)->tag = flow << 32 | q->next_tag;
	}
	/* at the probability 0 the word has no effect; it is spread over its range nevertheless */
	q->arrival.word = q->pie.prob ? pr_word(&q->random, q->arrival.moment) :
					q->arrival.moment * GOLDEN_RATIO_64;
	verdict = pr_decide(q);
	if (likely(verdict == PIE_ENQUEUE)) {
		q->flight.stats.enqueued++;
		return pr_queue(skb, sch, PIE_ENQUEUE, is_recorded);
	}
	if (verdict == PIE_MARK)
		return pr_queue_marked(skb, sch, to_free);
	return pr_drop(skb, sch, to_free, verdict);
}

/* Makes and records the departure of a packet that was removed from the queue. */
static __always_inline void pr_left(struct pr_sched *q, const struct sk_buff *skb, u32 caller)
{
	const struct pr_cb *cb = pr_cb(skb);
	u32 answer;

	q->departure.moment = ktime_get_ns();
	q->departure.size = cb->size;
	q->flight.packets--;
	q->flight.bytes -= q->departure.size;
	answer = pie_depart_event(&q->pie, q->flight.bytes, cb->since, &q->departure);
	if (q->record && likely(answer == PIE_DONE))
		pr_keep_departure(q, cb, caller);
}

/*
 * Drops up to `most` of the packets that a reset left, and records their departures with the caller
 * PR_PURGE. Records a reset after the last one. Returns true if none is left.
 */
static noinline bool pr_purge(struct pr_sched *q, unsigned int most)
{
	struct sk_buff *skb;

	for (; q->purge && most; most--) {
		skb = q->purge;
		q->purge = skb->next;
		pr_left(q, skb, PR_PURGE);
		q->purged++;
		skb_mark_not_on_list(skb);
		kfree_skb(skb);
	}
	if (q->purge)
		return false;
	q->other.moment = ktime_get_ns();
	q->other.caller = PR_PURGE;
	pie_reset_event(&q->pie, &q->other);
	pr_keep_other(q);
	return true;
}

static int pr_enqueue(struct sk_buff *skb, struct Qdisc *sch, struct sk_buff **to_free);

/*
 * Returns the size of a segment of `bytes` bytes by the size table of the root, which had computed
 * that of the whole packet. No module can call the kernel's __qdisc_calculate_pkt_len.
 */
static unsigned int pr_segment_size(const struct Qdisc *sch, unsigned int bytes)
{
	const struct qdisc_size_table *stab = rcu_dereference_bh(qdisc_root_bh(sch)->stab);
	s64 size = bytes;
	u32 slot, count;

	if (!stab)
		return bytes;
	size += stab->szopts.overhead;
	count = stab->szopts.tsize;
	if (count) {
		slot = max_t(s64, size + stab->szopts.cell_align, 0) >> stab->szopts.cell_log;
		size = stab->data[slot % count];
		if (slot >= count)
			size += (u64)stab->data[count - 1] * (slot / count);
		size <<= stab->szopts.size_log;
	}
	return clamp_t(s64, size, 1, PR_SEGMENT_MAX);
}

/* Segments a GSO packet, and decides each segment. */
static noinline int pr_enqueue_gso(struct sk_buff *skb, struct Qdisc *sch, struct sk_buff **to_free)
{
	netdev_features_t features = netif_skb_features(skb);
	unsigned int before = qdisc_pkt_len(skb), after = 0;
	struct pr_sched *q = qdisc_priv(sch);
	struct sk_buff *segs, *next;
	int count = 0;

	segs = skb_gso_segment(skb, features & ~NETIF_F_GSO_MASK);
	if (IS_ERR_OR_NULL(segs)) {
		q->refused++;
		return pr_drop_because(skb, sch, to_free, GENERIC);
	}
	skb_list_walk_safe(segs, segs, next) {
		unsigned int size = pr_segment_size(sch, segs->len);

		skb_mark_not_on_list(segs);
		qdisc_skb_cb(segs)->pkt_len = size;
#ifdef PR_HAS_PKT_SEGS
		qdisc_skb_cb(segs)->pkt_segs = 1;
#endif
		if (pr_enqueue(segs, sch, to_free) == NET_XMIT_SUCCESS) {
			after += size;
			count++;
		}
	}
	if (!count) {
		/* a drop, not the end of a packet that was sent */
		pr_set_reason(skb, GENERIC);
		__qdisc_drop(skb, to_free);
		return NET_XMIT_DROP;
	}
	consume_skb(skb);
	/* the parents counted one packet */
	qdisc_tree_reduce_backlog(sch, 1 - count, before - after);
	return NET_XMIT_SUCCESS;
}

static noinline int pr_enqueue_recorded(struct sk_buff *skb, struct Qdisc *sch,
					struct sk_buff **to_free)
{
	return pr_enqueue_one(skb, sch, to_free, true);
}

static noinline int pr_enqueue_unrecorded(struct sk_buff *skb, struct Qdisc *sch,
					  struct sk_buff **to_free)
{
	return pr_enqueue_one(skb, sch, to_free, false);
}

/* Continues a purge, and refuses the packet unless the purge ends. */
static noinline int pr_enqueue_purging(struct sk_buff *skb, struct Qdisc *sch,
				       struct sk_buff **to_free)
{
	struct pr_sched *q = qdisc_priv(sch);

	if (pr_purge(q, PR_PURGE_OF_AN_ARRIVAL))
		return pr_enqueue(skb, sch, to_free);
	q->refused++;
	return pr_drop_because(skb, sch, to_free, GENERIC);
}

static int pr_enqueue(struct sk_buff *skb, struct Qdisc *sch, struct sk_buff **to_free)
{
	const struct pr_sched *q = qdisc_priv(sch);

	if (unlikely(skb_is_gso(skb)))
		return pr_enqueue_gso(skb, sch, to_free);
	if (unlikely(q->purge))
		return pr_enqueue_purging(skb, sch, to_free);
	if (q->record)
		return pr_enqueue_recorded(skb, sch, to_free);
	return pr_enqueue_unrecorded(skb, sch, to_free);
}

static struct sk_buff *pr_dequeue(struct Qdisc *sch)
{
	struct sk_buff *skb = qdisc_dequeue_head(sch);
	struct pr_sched *q = qdisc_priv(sch);

	if (unlikely(!skb))
		return skb;
	pr_left(q, skb, PR_DEQUEUE);
	return skb;
}

/* Returns the moment of the next update. */
static u64 pr_due(const struct pr_sched *q)
{
	return pie_due(&q->pie);
}

/*
 * Arms the timer for the next update, or in 1 ms if a purge is unfinished. The timer runs at least
 * 100 us from now, and at most ten seconds, the greatest t_update, whatever is due.
 */
static void pr_arm(struct pr_sched *q)
{
	u64 now = ktime_get_ns();
	u64 due = q->purge ? now + NSEC_PER_MSEC : pr_due(q);

	due = clamp_t(u64, due, now + PR_TUPDATE_MIN * NSEC_PER_USEC, now + 10ULL * NSEC_PER_SEC);
	hrtimer_start(&q->timer, ns_to_ktime(due), HRTIMER_MODE_ABS_SOFT);
}

/* Makes an update. */
static void pr_update(struct pr_sched *q, u64 fresh)
{
	struct pie_event *event = &q->other;

	event->moment = ktime_get_ns();
	event->caller = PR_TIMER;
	pie_update_event(&q->pie, q->flight.bytes, event);
	pr_keep_other(q);
	/* proved of the calls: after an update, also one that came too soon, the next is later */
	WARN_ON_ONCE(pr_due(q) <= event->moment);
	q->random.v[q->flight.stats.updates % 4] ^= fresh;
	if (q->record)
		pie_flight_clock(q->record->words, event->moment, ktime_get_real_ns());
}

/*
 * Makes an update, or continues a purge. Arms the timer by pr_arm, not by its return value:
 * `change` may have armed it.
 */
static enum hrtimer_restart pr_timer(struct hrtimer *timer)
{
	struct pr_sched *q = container_of(timer, struct pr_sched, timer);
	u64 fresh = get_random_u64();
	spinlock_t *root_lock; /* the lock of the tree of queues */

	rcu_read_lock();
	root_lock = qdisc_lock(qdisc_root_sleeping(q->sch));
	spin_lock(root_lock);
	/* the root may have been replaced before its lock was taken, also by this queue */
	while (unlikely(root_lock != qdisc_lock(qdisc_root_sleeping(q->sch)))) {
		spin_unlock(root_lock);
		root_lock = qdisc_lock(qdisc_root_sleeping(q->sch));
		spin_lock(root_lock);
	}
	spin_lock(&q->lock);
	if (unlikely(q->purge))
		pr_purge(q, PR_PURGE_MOST);
	else
		pr_update(q, fresh);
	pr_arm(q);
	spin_unlock(&q->lock);
	spin_unlock(root_lock);
	rcu_read_unlock();
	return HRTIMER_NORESTART;
}

static struct netlink_range_validation pr_rates = { .min = 1, .max = BIT_ULL(40) };

static const struct nla_policy pr_policy[TCA_PIE_RECORDED_MAX + 1] = {
	[TCA_PIE_TARGET] = { .type = NLA_U32 },
	[TCA_PIE_LIMIT] = { .type = NLA_U32 },
	[TCA_PIE_TUPDATE] = { .type = NLA_U32 },
	[TCA_PIE_ALPHA] = { .type = NLA_U32 },
	[TCA_PIE_BETA] = { .type = NLA_U32 },
	[TCA_PIE_ECN] = NLA_POLICY_RANGE(NLA_U32, 0, 1),
	[TCA_PIE_BYTEMODE] = NLA_POLICY_RANGE(NLA_U32, 0, 1),
	[TCA_PIE_DQ_RATE_ESTIMATOR] = NLA_POLICY_RANGE(NLA_U32, 0, 1),
	[TCA_PIE_RECORDED_MAX_BURST] = { .type = NLA_U32 },
	[TCA_PIE_RECORDED_MARK_ECNTH] = { .type = NLA_U32 },
	[TCA_PIE_RECORDED_DECAY] = NLA_POLICY_RANGE(NLA_U32, 0, 1),
	[TCA_PIE_RECORDED_EVENTS] = { .type = NLA_U32 },
	[TCA_PIE_RECORDED_FLOWS] = NLA_POLICY_RANGE(NLA_U32, 0, 1),
	[TCA_PIE_RECORDED_RATE] = NLA_POLICY_FULL_RANGE(NLA_U64, &pr_rates),
};

/* Returns true if the process has CAP_NET_ADMIN in the initial namespace. */
static bool pr_is_admin(void)
{
	return ns_capable_noaudit(&init_user_ns, CAP_NET_ADMIN);
}

/* Reads `tupdate`, in us. The timer of a short one loads the processor, which namespaces share. */
static int pr_tupdate(const struct nlattr *attr, u64 *t_update, struct netlink_ext_ack *extack)
{
	u32 value = nla_get_u32(attr);

	if (value < PR_TUPDATE_MIN) {
		NL_SET_ERR_MSG_ATTR(extack, attr, "tupdate is below 100us");
		return -EINVAL;
	}
	if (value < PR_TUPDATE_MIN_OTHERS && !pr_is_admin()) {
		NL_SET_ERR_MSG_ATTR(extack, attr,
				    "tupdate below 1ms needs CAP_NET_ADMIN in the initial namespace");
		return -EPERM;
	}
	*t_update = value * (u64)NSEC_PER_USEC;
	return 0;
}

/* Reads the options that may change at any time. tc's alpha and beta are sixteenths per second. */
static int pr_params(struct nlattr **tb, struct pie_params *params, u32 *alpha, u32 *beta,
		     struct netlink_ext_ack *extack)
{
	const struct nlattr *attr;
	int err;

	if (tb[TCA_PIE_TARGET])
		params->target = nla_get_u32(tb[TCA_PIE_TARGET]) * (u64)NSEC_PER_USEC;
	if (tb[TCA_PIE_TUPDATE]) {
		err = pr_tupdate(tb[TCA_PIE_TUPDATE], &params->t_update, extack);
		if (err)
			return err;
	}
	if (tb[TCA_PIE_ALPHA])
		*alpha = nla_get_u32(tb[TCA_PIE_ALPHA]);
	if (tb[TCA_PIE_BETA])
		*beta = nla_get_u32(tb[TCA_PIE_BETA]);
	params->alpha = *alpha * 1000ULL / 16;
	params->beta = *beta * 1000ULL / 16;
	attr = tb[TCA_PIE_RECORDED_MAX_BURST];
	if (attr)
		params->max_burst = nla_get_u32(attr) * (u64)NSEC_PER_USEC;
	attr = tb[TCA_PIE_RECORDED_MARK_ECNTH];
	if (attr)
		params->mark_ecnth = nla_get_u32(attr) * PR_BILLIONTH;
	switch (pie_check_params(params)) {
	case 0:
		return 0;
	case 1:
		NL_SET_ERR_MSG(extack, "target is outside 1us to 10s");
		return -EINVAL;
	case 2:
		NL_SET_ERR_MSG(extack, "tupdate is above 10s");
		return -EINVAL;
	case 3:
		NL_SET_ERR_MSG(extack, "max_burst is above 1000s");
		return -EINVAL;
	case 4:
	case 5:
		NL_SET_ERR_MSG(extack, "alpha or beta is above 16000");
		return -EINVAL;
	case 8:
		NL_SET_ERR_MSG(extack, "mark_ecnth is above 100%");
		return -EINVAL;
	default:
		NL_SET_ERR_MSG(extack, "a parameter is out of its range");
		return -EINVAL;
	}
}

static u32 pr_number(const struct nlattr *attr, u32 otherwise)
{
	return attr ? nla_get_u32(attr) : otherwise;
}

static bool pr_flag(const struct nlattr *attr, bool otherwise)
{
	return attr ? nla_get_u32(attr) != 0 : otherwise;
}

#define PR_FIXED(option) option " is fixed when the qdisc is added: delete it and add it again"

/* Refuses a change of an option that is fixed at the opening. */
static int pr_check_opening(const struct pr_sched *q, struct nlattr **tb,
			    struct netlink_ext_ack *extack)
{
	bool is_scaled = q->pie.choices & PIE_SIZE_SCALED;
	bool is_rate = !(q->pie.choices & PIE_DELAY_STAMP);
	bool is_half = q->pie.choices & PIE_DECAY_HALF;

	if (pr_number(tb[TCA_PIE_LIMIT], q->room) != q->room)
		NL_SET_ERR_MSG(extack, PR_FIXED("limit"));
	else if (tb[TCA_PIE_RECORDED_RATE] && nla_get_u64(tb[TCA_PIE_RECORDED_RATE]) != q->rate)
		NL_SET_ERR_MSG(extack, PR_FIXED("rate"));
	else if (pr_flag(tb[TCA_PIE_BYTEMODE], is_scaled) != is_scaled)
		NL_SET_ERR_MSG(extack, PR_FIXED("bytemode"));
	else if (pr_flag(tb[TCA_PIE_DQ_RATE_ESTIMATOR], is_rate) != is_rate)
		NL_SET_ERR_MSG(extack, PR_FIXED("dq_rate_estimator"));
	else if (pr_flag(tb[TCA_PIE_RECORDED_DECAY], is_half) != is_half)
		NL_SET_ERR_MSG(extack, PR_FIXED("decay"));
	else if (pr_number(tb[TCA_PIE_RECORDED_EVENTS], q->events) != q->events)
		NL_SET_ERR_MSG(extack, PR_FIXED("events"));
	else
		return 0;
	return -EOPNOTSUPP;
}

static int pr_change(struct Qdisc *sch, struct nlattr *opt, struct netlink_ext_ack *extack)
{
	struct pr_sched *q = qdisc_priv(sch);
	struct nlattr *tb[TCA_PIE_RECORDED_MAX + 1];
	struct pie_event *event = &q->other;
	struct pie_params params;
	u32 alpha, beta;
	int err;

	err = nla_parse_nested_deprecated(tb, TCA_PIE_RECORDED_MAX, opt, pr_policy, extack);
	if (err < 0)
		return err;
	err = pr_check_opening(q, tb, extack);
	if (err)
		return err;

	sch_tree_lock(sch);
	params = q->pie.params;
	alpha = q->alpha;
	beta = q->beta;
	err = pr_params(tb, &params, &alpha, &beta, extack);
	if (!err) {
		event->moment = ktime_get_ns();
		event->caller = PR_CHANGE;
		if (pie_set_params_event(&q->pie, &params, event) != PIE_DONE) {
			NL_SET_ERR_MSG(extack, "the controller refused the parameters");
			err = -EINVAL;
		}
	}
	if (!err) {
		pr_keep_other(q);
		WRITE_ONCE(q->alpha, alpha);
		WRITE_ONCE(q->beta, beta);
		WRITE_ONCE(q->ecn, pr_flag(tb[TCA_PIE_ECN], q->ecn));
		WRITE_ONCE(q->flows, pr_flag(tb[TCA_PIE_RECORDED_FLOWS], q->flows));
		pr_arm(q);
	}
	sch_tree_unlock(sch);
	return err;
}

/* Maps a page of a record at its first use, so that no request maps hundreds of MiB at once. */
static vm_fault_t pr_fault(struct vm_fault *vmf)
{
	const struct pr_record *record = vmf->vma->vm_file->private_data;
	unsigned long at = vmf->pgoff << PAGE_SHIFT;

	if (at >= record->bytes)
		return VM_FAULT_SIGBUS;
	vmf->page = vmalloc_to_page(record->words + at);
	get_page(vmf->page);
	return 0;
}

static const struct vm_operations_struct pr_vm_ops = {
	.fault = pr_fault,
};

static void pr_memory_free(struct pr_record *record)
{
	long pages = record->bytes >> PAGE_SHIFT;

	vfree(record->words);
	atomic_long_sub(pages, &pr_pages);
	if (record->user) {
		atomic_long_sub(pages, &pr_pages_of_others);
		atomic_long_sub(pages, &record->user->locked_vm);
		free_uid(record->user);
	}
	kfree(record);
}

static int pr_memory_release(struct inode *inode, struct file *memory)
{
	pr_memory_free(memory->private_data);
	return 0;
}

/* The owner keeps the module while a record is mapped. */
static const struct file_operations pr_memory_ops = {
	.owner = THIS_MODULE,
	.release = pr_memory_release,
};

/* Maps a record. A mapping keeps its memory, also after the queue was removed. */
static int pr_mmap(struct file *file, struct vm_area_struct *vma)
{
	struct pr_record *record = pde_data(file_inode(file));

	if (vma->vm_flags & (VM_WRITE | VM_EXEC))
		return -EPERM;
	if (vma->vm_pgoff + vma_pages(vma) > record->bytes >> PAGE_SHIFT)
		return -EINVAL;
#if LINUX_VERSION_CODE >= KERNEL_VERSION(6, 3, 0)
	vm_flags_mod(vma, VM_DONTEXPAND | VM_DONTDUMP, VM_MAYWRITE | VM_MAYEXEC);
#else
	vma->vm_flags |= VM_DONTEXPAND | VM_DONTDUMP;
	vma->vm_flags &= ~(VM_MAYWRITE | VM_MAYEXEC);
#endif
	vma->vm_ops = &pr_vm_ops;
	vma_set_file(vma, record->memory);
	return 0;
}

/* Sets the size, which an open between proc_create_data and proc_set_size would not have. */
static int pr_open(struct inode *inode, struct file *file)
{
	const struct pr_record *record = pde_data(inode);

	inode_lock(inode);
	i_size_write(inode, record->bytes);
	inode_unlock(inode);
	return 0;
}

static const struct proc_ops pr_file_ops = {
	.proc_open = pr_open,
	.proc_lseek = noop_llseek,
	.proc_mmap = pr_mmap,
};

/*
 * Counts the memory of a record. Without CAP_NET_ADMIN in the initial namespace it is locked memory
 * of the user (RLIMIT_MEMLOCK), as buffers of perf and of AF_XDP, and all such records together
 * take at most half of `memory`. If a limit is exceeded, pr_memory_free subtracts the pages again.
 */
static int pr_charge(struct pr_record *record, struct netlink_ext_ack *extack)
{
	long most = (long)READ_ONCE(memory) << (20 - PAGE_SHIFT);
	long pages = record->bytes >> PAGE_SHIFT;
	bool is_above = atomic_long_add_return(pages, &pr_pages) > most;

	if (!pr_is_admin()) {
		long locked, others = atomic_long_add_return(pages, &pr_pages_of_others);

		record->user = get_uid(current_user());
		locked = atomic_long_add_return(pages, &record->user->locked_vm);
		if ((unsigned long)locked > rlimit(RLIMIT_MEMLOCK) >> PAGE_SHIFT) {
			NL_SET_ERR_MSG(extack, "records would exceed RLIMIT_MEMLOCK of their user");
			return -ENOMEM;
		}
		if (others > most / 2) {
			NL_SET_ERR_MSG(extack,
				       "records of users would exceed half of the parameter memory");
			return -ENOMEM;
		}
	}
	if (!is_above)
		return 0;
	NL_SET_ERR_MSG(extack, "records would exceed the module's parameter memory");
	return -ENOMEM;
}

static void pr_record_close(struct pr_record *record)
{
	if (!record)
		return;
	proc_remove(record->file);
	fput(record->memory);
}

/* Gives a record its memory, with a recorder. */
static int pr_record_fill(struct pr_sched *q, const struct pie_opening *opening,
			  struct pr_record *record, struct netlink_ext_ack *extack)
{
	size_t flows_at = PAGE_ALIGN(pie_flight_bytes(q->events, opening->packets));
	int err;

	record->bytes = flows_at + PIE_RECORDED_FLOWS * sizeof(struct pie_recorded_flow);
	err = pr_charge(record, extack);
	if (err)
		return err;
	/* as vmalloc_user, but charged to the process's cgroup: a mapping may outlive the queue */
	record->words = __vmalloc(record->bytes, GFP_KERNEL_ACCOUNT | __GFP_ZERO |
				  __GFP_RETRY_MAYFAIL | __GFP_NOWARN);
	if (!record->words ||
	    !pie_flight_open(&q->flight, record->words, flows_at, q->events, opening, &q->pie))
		return -ENOMEM;
	record->memory = anon_inode_getfile("[pie_recorded]", &pr_memory_ops, record, O_RDONLY);
	if (IS_ERR(record->memory))
		return PTR_ERR(record->memory);
	q->places = record->words + flows_at;
	pie_flight_clock(record->words, opening->moment, ktime_get_real_ns());
	return 0;
}

/* Opens the record of a queue. */
static int pr_record_open(struct pr_sched *q, const struct pie_opening *opening,
			  struct netlink_ext_ack *extack)
{
	struct net_device *dev = qdisc_dev(q->sch);
	struct pr_net *net = net_generic(dev_net(dev), pr_net_id);
	struct pr_record *record = kzalloc(sizeof(*record), GFP_KERNEL);
	char name[64];
	int err;

	if (!record)
		return -ENOMEM;
	err = pr_record_fill(q, opening, record, extack);
	if (err) {
		pr_memory_free(record);
		return err;
	}
	q->serial = (u32)atomic_inc_return(&pr_serial);
	snprintf(name, sizeof(name), "%u-%x:%x-%x:%x-%u", dev->ifindex,
		 TC_H_MAJ(q->sch->handle) >> 16, TC_H_MIN(q->sch->handle),
		 TC_H_MAJ(q->sch->parent) >> 16, TC_H_MIN(q->sch->parent), q->serial);
	record->file = proc_create_data(name, 0400, net->folder, &pr_file_ops, record);
	if (!record->file) {
		pr_record_close(record);
		return -ENOMEM;
	}
	proc_set_size(record->file, record->bytes);
	q->record = record;
	return 0;
}

/* Returns the default of the option `events`: by the packets of mean size that the limits admit. */
static u32 pr_default_events(const struct pie_opening *opening)
{
	const struct pie_params *params = &opening->params;
	u64 packets = min_t(u64, opening->packets,
			    div64_u64(params->limit_bytes, params->mean_pkt));
	int chosen = READ_ONCE(events);

	if (chosen >= 0)
		return min_t(u32, chosen, PR_EVENTS_MAX);
	return clamp_t(u64, packets * PR_EVENTS_OF_A_PACKET, PR_EVENTS_LEAST, PR_EVENTS_MOST);
}

/*
 * Opens the record of a queue, unless the option `events` is 0. If the record that the option asks
 * for cannot be had, the queue is refused. If that of the default cannot be had, the queue works
 * without one: a queue that `default_qdisc` adds must not leave its device without a queue.
 */
static int pr_record_init(struct pr_sched *q, const struct pie_opening *opening,
			  struct nlattr **tb, struct netlink_ext_ack *extack)
{
	int err;

	q->events = pr_number(tb[TCA_PIE_RECORDED_EVENTS], pr_default_events(opening));
	q->flows = pr_flag(tb[TCA_PIE_RECORDED_FLOWS], q->events != 0);
	if (!q->events)
		return 0;
	if (q->events > PR_EVENTS_MAX) {
		NL_SET_ERR_MSG(extack, "events is above 2^24");
		return -EINVAL;
	}
	err = pr_record_open(q, opening, extack);
	if (!err || tb[TCA_PIE_RECORDED_EVENTS])
		return err;
	memset(&q->flight, 0, sizeof(q->flight));
	q->events = 0;
	q->flows = false;
	q->serial = 0;
	NL_SET_ERR_MSG(extack, "no memory for a record of the default size: the queue has none");
	net_warn_ratelimited("pie_recorded: a queue of %s has no record: the limits of memory leave none\n",
			     qdisc_dev(q->sch)->name);
	return 0;
}

/* Returns true if a parent other than mq may slow the queue down, so that its rate is not the device's. */
static bool pr_is_shaped(const struct Qdisc *sch)
{
	struct net_device *dev = qdisc_dev(sch);
	u32 handle = TC_H_MAJ(sch->parent);
	const struct Qdisc *above;

	/* while a device is activated, mq has no handle */
	if (sch->parent == TC_H_ROOT || !handle)
		return false;
	/* the table has no root, and mq is always one */
	hash_for_each_possible(dev->qdisc_hash, above, hash, handle)
		if (above->handle == handle)
			return true;
	above = rtnl_dereference(dev->qdisc);
	return above->handle == handle && !(above->flags & TCQ_F_MQROOT);
}

#ifdef PR_HAS_LOCKED_SETTINGS
#define pr_link_settings netif_get_link_ksettings
#else
#define pr_link_settings __ethtool_get_link_ksettings
#endif

/*
 * Returns the rate at which the device of a queue sends, in bytes per second; 0 if it is unknown.
 * Devices of software report speeds that limit nothing: veth 10 Gbit/s, tun 10 Mbit/s.
 */
static u64 pr_device_rate(const struct Qdisc *sch)
{
	struct net_device *dev = qdisc_dev(sch);
	struct ethtool_link_ksettings link;

	if (!dev->dev.parent || dev->priv_flags & IFF_NO_QUEUE || pr_is_shaped(sch) ||
	    pr_link_settings(dev, &link) || link.base.speed > INT_MAX)
		return 0;
	return link.base.speed * 125000ULL;
}

/*
 * Sets the limits of an opening. The option `limit` alone limits the packets, as that of pie.
 * Otherwise the rule of pie_default_opening does, for the option `rate` or for the device's rate.
 * Returns the rate in bytes per second; 0 if it is unknown.
 */
static u64 pr_limits(struct pr_sched *q, struct pie_opening *opening, struct nlattr **tb)
{
	const struct nlattr *limit = tb[TCA_PIE_LIMIT], *rate_of_link = tb[TCA_PIE_RECORDED_RATE];
	u64 rate = rate_of_link ? nla_get_u64(rate_of_link) : pr_device_rate(q->sch);

	pie_default_opening(opening, rate * BITS_PER_BYTE);
	opening->packets = pr_number(limit, PR_PACKETS);
	if (rate && !limit)
		opening->packets = min_t(u64, opening->params.limit_bytes / 64, PR_PACKETS_MOST);
	if (rate && (!limit || rate_of_link))
		q->rate = rate;
	else
		/* so large that only the limit in packets applies, up to 16384 packets */
		opening->params.limit_bytes = min_t(u64, opening->packets * PIE_MAX_SIZE,
						    PIE_MAX_BYTES);
	return rate;
}

/* Warns if packets of the MTU fill the queue before it is as long as PIE admits. */
static void pr_warn_of_limit(const struct pie_opening *opening, u64 rate,
			     struct netlink_ext_ack *extack)
{
	const struct pie_params *params = &opening->params;
	u64 admitted = mul_u64_u64_div_u64(rate, params->target + params->max_burst, NSEC_PER_SEC);

	if (opening->packets * params->mean_pkt < admitted)
		NL_SET_ERR_MSG(extack, "limit is below target + max_burst at the rate of the link");
}

static int pr_init(struct Qdisc *sch, struct nlattr *opt, struct netlink_ext_ack *extack)
{
	struct pr_sched *q = qdisc_priv(sch);
	struct nlattr *tb[TCA_PIE_RECORDED_MAX + 1] = {};
	struct pie_opening opening;
	u64 rate;
	int err;

	/* first, because destroy is called after a failure too */
	q->sch = sch;
	spin_lock_init(&q->lock);
#if LINUX_VERSION_CODE >= KERNEL_VERSION(6, 13, 0)
	hrtimer_setup(&q->timer, pr_timer, CLOCK_MONOTONIC, HRTIMER_MODE_ABS_SOFT);
#else
	hrtimer_init(&q->timer, CLOCK_MONOTONIC, HRTIMER_MODE_ABS_SOFT);
	q->timer.function = pr_timer;
#endif
	if (opt) {
		err = nla_parse_nested_deprecated(tb, TCA_PIE_RECORDED_MAX, opt, pr_policy, extack);
		if (err < 0)
			return err;
	}
	rate = pr_limits(q, &opening, tb);
	opening.choices = PIE_DELAY_STAMP;
	opening.moment = ktime_get_ns();
	opening.params.mean_pkt = clamp_t(u32, psched_mtu(qdisc_dev(sch)), 1, PIE_MAX_SIZE);
	opening.tail = 1 << 20;
	if (pr_flag(tb[TCA_PIE_DQ_RATE_ESTIMATOR], false))
		opening.choices &= ~(u64)PIE_DELAY_STAMP;
	if (pr_flag(tb[TCA_PIE_BYTEMODE], false))
		opening.choices |= PIE_SIZE_SCALED;
	if (pr_flag(tb[TCA_PIE_RECORDED_DECAY], false))
		opening.choices |= PIE_DECAY_HALF;
	q->alpha = 2;
	q->beta = 20;
	q->ecn = pr_flag(tb[TCA_PIE_ECN], false);
	if (opening.packets < 1 || opening.packets > 1 << 20) {
		NL_SET_ERR_MSG(extack, "limit is outside 1 to 1048576 packets");
		return -EINVAL;
	}
	err = pr_params(tb, &opening.params, &q->alpha, &q->beta, extack);
	if (err)
		return err;
	pr_warn_of_limit(&opening, rate, extack);
	if (pie_open(&q->pie, &opening) != PIE_DONE) {
		NL_SET_ERR_MSG(extack, "the controller refused the opening");
		return -EINVAL;
	}
	q->room = opening.packets;
	sch->limit = q->room;
	get_random_bytes(&q->random, sizeof(q->random));
	q->hash_key = get_random_u64();
	err = pr_record_init(q, &opening, tb, extack);
	if (err)
		return err;
	q->is_open = true;
	pr_arm(q);
	return 0;
}

/*
 * Drops all packets, the first PR_PURGE_MOST at once, and the others by the timer and by arrivals:
 * interrupts wait no longer for a long queue. An arrival meanwhile is refused. Before a queue is
 * destroyed, it is reset without the tree's lock, and its timer may run meanwhile.
 */
static void pr_reset(struct Qdisc *sch)
{
	struct pr_sched *q = qdisc_priv(sch);

	if (q->is_open) {
		spin_lock_bh(&q->lock);
		/* a device resets its root once for each transmit queue: the first reset purges */
		if (!q->purge) {
			q->purge = sch->q.head;
			sch->q.head = NULL;
			sch->q.tail = NULL;
			sch->q.qlen = 0;
			if (!pr_purge(q, PR_PURGE_MOST))
				pr_arm(q);
		}
		spin_unlock_bh(&q->lock);
	}
	qdisc_reset_queue(sch);
}

static void pr_destroy(struct Qdisc *sch)
{
	struct pr_sched *q = qdisc_priv(sch);

	hrtimer_cancel(&q->timer);
	while (q->purge && !pr_purge(q, PR_PURGE_MOST))
		cond_resched();
	pr_record_close(q->record);
}

static int pr_dump(struct Qdisc *sch, struct sk_buff *skb)
{
	struct pr_sched *q = qdisc_priv(sch);
	const struct pie_params *params = &q->pie.params;
	struct nlattr *opts = nla_nest_start_noflag(skb, TCA_OPTIONS);

	if (!opts)
		return -1;
	if (nla_put_u32(skb, TCA_PIE_TARGET, div_u64(READ_ONCE(params->target), NSEC_PER_USEC)) ||
	    nla_put_u32(skb, TCA_PIE_LIMIT, q->room) ||
	    nla_put_u32(skb, TCA_PIE_TUPDATE,
			div_u64(READ_ONCE(params->t_update), NSEC_PER_USEC)) ||
	    nla_put_u32(skb, TCA_PIE_ALPHA, READ_ONCE(q->alpha)) ||
	    nla_put_u32(skb, TCA_PIE_BETA, READ_ONCE(q->beta)) ||
	    nla_put_u32(skb, TCA_PIE_ECN, READ_ONCE(q->ecn)) ||
	    nla_put_u32(skb, TCA_PIE_BYTEMODE, !!(q->pie.choices & PIE_SIZE_SCALED)) ||
	    nla_put_u32(skb, TCA_PIE_DQ_RATE_ESTIMATOR, !(q->pie.choices & PIE_DELAY_STAMP)) ||
	    nla_put_u32(skb, TCA_PIE_RECORDED_MAX_BURST,
			div_u64(READ_ONCE(params->max_burst), NSEC_PER_USEC)) ||
	    nla_put_u32(skb, TCA_PIE_RECORDED_MARK_ECNTH,
			div_u64(READ_ONCE(params->mark_ecnth), PR_BILLIONTH)) ||
	    nla_put_u32(skb, TCA_PIE_RECORDED_DECAY, !!(q->pie.choices & PIE_DECAY_HALF)) ||
	    nla_put_u32(skb, TCA_PIE_RECORDED_EVENTS, q->events) ||
	    nla_put_u32(skb, TCA_PIE_RECORDED_FLOWS, READ_ONCE(q->flows)) ||
	    nla_put_u64_64bit(skb, TCA_PIE_RECORDED_RATE, q->rate, TCA_PIE_RECORDED_PAD)) {
		nla_nest_cancel(skb, opts);
		return -1;
	}
	return nla_nest_end(skb, opts);
}

static int pr_dump_stats(struct Qdisc *sch, struct gnet_dump *d)
{
	struct pr_sched *q = qdisc_priv(sch);
	const struct pie_stats *stats = &q->flight.stats;
	struct tc_pie_recorded_xstats xstats = {};

	sch_tree_lock(sch);
	xstats.pie.prob = mul_u64_u64_div_u64(q->pie.prob, U64_MAX, PIE_ONE);
	xstats.pie.delay = min_t(u64, div_u64(q->pie.old_delay, NSEC_PER_USEC), U32_MAX);
	xstats.pie.dq_rate_estimating = !(q->pie.choices & PIE_DELAY_STAMP);
	if (q->pie.average) {
		u64 rate = div64_u64(q->pie.params.dq_threshold * NSEC_PER_SEC, q->pie.average);

		xstats.pie.avg_dq_rate = min_t(u64, rate, U32_MAX);
	}
	xstats.pie.packets_in = stats->enqueued + stats->marked;
	xstats.pie.dropped = stats->early + stats->over_bytes + stats->over_packets + q->refused;
	xstats.pie.overlimit = stats->over_bytes + stats->over_packets;
	xstats.pie.maxq = q->maxq;
	xstats.pie.ecn_mark = stats->marked;
	xstats.burst = q->pie.burst;
	xstats.early = stats->early;
	xstats.over_bytes = stats->over_bytes;
	xstats.over_packets = stats->over_packets;
	xstats.refused = q->refused;
	xstats.purged = q->purged;
	xstats.updates = stats->updates;
	xstats.resets = stats->resets;
	xstats.changes = stats->changes;
	xstats.recorded = q->flight.count;
	xstats.serial = q->serial;
	sch_tree_unlock(sch);
	return gnet_stats_copy_app(d, &xstats, sizeof(xstats));
}

static struct Qdisc_ops pr_ops __read_mostly = {
	.id = "pie_recorded",
	.priv_size = sizeof(struct pr_sched),
	.enqueue = pr_enqueue,
	.dequeue = pr_dequeue,
	.peek = qdisc_peek_dequeued,
	.init = pr_init,
	.reset = pr_reset,
	.destroy = pr_destroy,
	.change = pr_change,
	.dump = pr_dump,
	.dump_stats = pr_dump_stats,
	.owner = THIS_MODULE,
};

static int __net_init pr_net_init(struct net *net)
{
	struct pr_net *mine = net_generic(net, pr_net_id);

	mine->folder = proc_net_mkdir(net, "pie_recorded", net->proc_net);
	return mine->folder ? 0 : -ENOMEM;
}

static void __net_exit pr_net_exit(struct net *net)
{
	struct pr_net *mine = net_generic(net, pr_net_id);

	proc_remove(mine->folder);
}

static struct pernet_operations pr_net_ops = {
	.init = pr_net_init,
	.exit = pr_net_exit,
	.id = &pr_net_id,
	.size = sizeof(struct pr_net),
};

static int __init pr_module_init(void)
{
	int err;

	if (strcmp(kind, "pie") && strcmp(kind, "pie_recorded"))
		return -EINVAL;
	strscpy(pr_ops.id, kind, sizeof(pr_ops.id));
	err = register_pernet_subsys(&pr_net_ops);
	if (err)
		return err;
	err = register_qdisc(&pr_ops);
	if (err)
		unregister_pernet_subsys(&pr_net_ops);
	return err;
}

static void __exit pr_module_exit(void)
{
	unregister_qdisc(&pr_ops);
	unregister_pernet_subsys(&pr_net_ops);
}

module_init(pr_module_init);
module_exit(pr_module_exit);

MODULE_DESCRIPTION("PIE (RFC 8033), decided by proved code, with every decision on record");
MODULE_ALIAS("net-sch-pie_recorded");
MODULE_LICENSE("Dual MIT/GPL");
