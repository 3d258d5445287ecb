// SPDX-License-Identifier: GPL-2.0 OR MIT
/*
 * Counts instructions of the root queue of a device: enqueue and dequeue of packets that this
 * module makes. Under qemu with -icount shift=0 the time stamp counter counts instructions. The
 * module prints its counts when it is loaded.
 *
 * usage: insmod pie_measure.ko dev=dummy0 name=TEXT [hashed=0] [size=1500] [words=1]
 */
#include <linux/etherdevice.h>
#include <linux/ip.h>
#include <linux/module.h>
#include <linux/netdevice.h>
#include <linux/random.h>
#include <linux/rtnetlink.h>
#include <linux/skbuff.h>
#include <net/net_namespace.h>
#include <net/pkt_sched.h>

#include "pie_random.h"

static char *dev = "dummy0";
module_param(dev, charp, 0444);
MODULE_PARM_DESC(dev, "device whose root queue is measured");

static char *name = "";
module_param(name, charp, 0444);
MODULE_PARM_DESC(name, "text that the output begins with");

static bool hashed = true;
module_param(hashed, bool, 0444);
MODULE_PARM_DESC(hashed, "packets have a flow hash, as from a local socket or a network card");

static unsigned int size = 1500;
module_param(size, uint, 0444);
MODULE_PARM_DESC(size, "bytes of a packet");

static bool words;
module_param(words, bool, 0444);
MODULE_PARM_DESC(words, "measure generators of random words too");

#define PACKETS 400
#define WAITING 100

struct counts {
	u64 enqueue;
	u64 dequeue;
	u32 arrivals;
	u32 drops;
	u32 departures;
};

static u64 empty; /* instructions between two readings of the counter without other work */

static struct sk_buff *make_packet(struct net_device *at, u32 number)
{
	struct sk_buff *skb = alloc_skb(size + 64, GFP_KERNEL);
	struct iphdr *ip;

	if (!skb)
		return NULL;
	skb_reserve(skb, 32);
	skb_reset_mac_header(skb);
	memset(skb_put(skb, size), 0, size);
	skb_set_network_header(skb, ETH_HLEN);
	ip = ip_hdr(skb);
	ip->version = 4;
	ip->ihl = 5;
	ip->protocol = IPPROTO_UDP;
	ip->tos = 2;
	ip->saddr = htonl(0x0a000001);
	ip->daddr = htonl(0x0a000002);
	ip->tot_len = htons(size - ETH_HLEN);
	skb->protocol = htons(ETH_P_IP);
	skb->dev = at;
	if (hashed)
		skb_set_hash(skb, 77 + number % 4, PKT_HASH_TYPE_L4);
	qdisc_skb_cb(skb)->pkt_len = size;
	return skb;
}

/* Enqueues a packet and counts it. */
static void put(struct Qdisc *sch, struct sk_buff *skb, struct counts *counts)
{
	struct sk_buff *to_free = NULL;
	unsigned long flags;
	u64 begun;
	int answer;

	spin_lock_bh(qdisc_lock(sch));
	local_irq_save(flags);
	begun = rdtsc_ordered();
	answer = sch->enqueue(skb, sch, &to_free);
	counts->enqueue += rdtsc_ordered() - begun - empty;
	local_irq_restore(flags);
	spin_unlock_bh(qdisc_lock(sch));
	counts->arrivals++;
	counts->drops += answer != NET_XMIT_SUCCESS;
	kfree_skb_list(to_free);
}

/* Dequeues a packet and counts it. */
static void take(struct Qdisc *sch, struct counts *counts)
{
	struct sk_buff *skb;
	unsigned long flags;
	u64 begun;

	spin_lock_bh(qdisc_lock(sch));
	local_irq_save(flags);
	begun = rdtsc_ordered();
	skb = sch->dequeue(sch);
	counts->dequeue += rdtsc_ordered() - begun - empty;
	local_irq_restore(flags);
	spin_unlock_bh(qdisc_lock(sch));
	counts->departures += !!skb;
	kfree_skb(skb);
}

/* Counts the instructions of one call of each generator. */
static void measure_words(void)
{
	struct pr_random random;
	siphash_key_t key;
	u64 begun, sum = 0;
	unsigned long flags;
	int i;

	get_random_bytes(&random, sizeof(random));
	get_random_bytes(&key, sizeof(key));
	local_irq_save(flags);
	begun = rdtsc_ordered();
	for (i = 0; i < 960; i++)
		sum += get_random_u64();
	pr_info("COUNT word get_random_u64 %llu\n", (rdtsc_ordered() - begun) / 960);
	begun = rdtsc_ordered();
	for (i = 0; i < 960; i++)
		sum += siphash_1u64(i, &key);
	pr_info("COUNT word siphash_1u64 %llu\n", (rdtsc_ordered() - begun) / 960);
	begun = rdtsc_ordered();
	for (i = 0; i < 960; i++)
		sum += pr_word(&random, sum);
	pr_info("COUNT word pr_word %llu\n", (rdtsc_ordered() - begun) / 960);
	begun = rdtsc_ordered();
	for (i = 0; i < 960; i++)
		sum += ktime_get_ns();
	pr_info("COUNT word ktime_get_ns %llu\n", (rdtsc_ordered() - begun) / 960);
	local_irq_restore(flags);
	pr_info("COUNT word (sum %llu)\n", sum);
}

static void print_counts(const char *what, const struct counts *counts)
{
	u64 enqueue = counts->enqueue * 10 / max(counts->arrivals, 1U);
	u64 dequeue = counts->dequeue * 10 / max(counts->departures, 1U);

	pr_info("COUNT %s %s enqueue %llu.%llu dequeue %llu.%llu drops %u of %u\n", name, what,
		enqueue / 10, enqueue % 10, dequeue / 10, dequeue % 10, counts->drops,
		counts->arrivals);
}

static void measure(struct net_device *at, struct Qdisc *sch)
{
	struct counts counts = {}, aside = {};
	struct sk_buff *skb;
	int i;

	/* a new queue has burst allowance */
	for (i = 0; i < PACKETS; i++) {
		skb = make_packet(at, i);
		if (skb)
			put(sch, skb, &counts);
		if (i >= WAITING)
			take(sch, &counts);
	}
	print_counts("burst", &counts);
	/* let packets wait longer than the target until updates have raised the probability */
	for (i = 0; i < 2000 && aside.drops < 3; i++) {
		skb = make_packet(at, i);
		if (skb)
			put(sch, skb, &aside);
		if (sch->q.qlen > WAITING)
			take(sch, &aside);
		usleep_range(1900, 2000);
	}
	memset(&counts, 0, sizeof(counts));
	for (i = 0; i < PACKETS; i++) {
		skb = make_packet(at, i);
		if (skb)
			put(sch, skb, &counts);
		if (sch->q.qlen > WAITING)
			take(sch, &counts);
	}
	print_counts("considered", &counts);
}

static int __init pie_measure_init(void)
{
	struct net_device *at = dev_get_by_name(&init_net, dev);
	struct Qdisc *sch;
	u64 begun;

	if (!at)
		return -ENODEV;
	begun = rdtsc_ordered();
	empty = rdtsc_ordered() - begun;
	if (words)
		measure_words();
	rtnl_lock();
	sch = rtnl_dereference(at->qdisc);
	rtnl_unlock();
	measure(at, sch);
	dev_put(at);
	return 0;
}

static void __exit pie_measure_exit(void)
{
}

module_init(pie_measure_init);
module_exit(pie_measure_exit);

MODULE_DESCRIPTION("Counts instructions of a queue discipline");
MODULE_LICENSE("Dual MIT/GPL");
