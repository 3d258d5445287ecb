// SPDX-License-Identifier: GPL-2.0 OR MIT
/*
 * Opens queues of pfifo, pie and pie_recorded outside a kernel, and passes packets to them, for
 * main.c. The objects of the queue disciplines are those that kbuild makes for a module. This file
 * has the kernel's functions that they call, as far as main.c has none of the same name.
 */
#include <linux/anon_inodes.h>
#include <linux/capability.h>
#include <linux/hrtimer.h>
#include <linux/netdevice.h>
#include <linux/proc_fs.h>
#include <linux/slab.h>
#include <linux/skbuff.h>
#include <net/netns/generic.h>
#include <net/pkt_sched.h>

/* Linux and pie.h have different structures of these names. */
#define pie_params linux_pie_params
#define pie_stats linux_pie_stats
#include <net/pie.h>
#undef pie_params
#undef pie_stats

#include "pie.h"
#include "pie_random.h"
#include "queues.h"

#define KINDS 4
#define PACKETS 1024
#define SIZE 1500

static struct Qdisc_ops *kinds[KINDS];
static struct net_device *dev;
static struct sk_buff *free_packets[PACKETS];
static unsigned int free_count;

/* ---- The kernel's functions */

int register_qdisc(struct Qdisc_ops *ops)
{
	unsigned int i = 0;

	while (kinds[i])
		i++;
	kinds[i] = ops;
	return 0;
}

int register_pernet_subsys(struct pernet_operations *ops)
{
	*ops->id = 3;
	return 0;
}

/* Stores pointers to the attributes by their types. */
int __nla_parse(struct nlattr **tb, int maxtype, const struct nlattr *head, int len,
		const struct nla_policy *policy, unsigned int validate,
		struct netlink_ext_ack *extack)
{
	const struct nlattr *it;
	int rest;

	memset(tb, 0, sizeof(*tb) * (maxtype + 1));
	nla_for_each_attr(it, head, len, rest)
		tb[nla_type(it)] = (struct nlattr *)it;
	return 0;
}

struct proc_dir_entry *proc_create_data(const char *name, umode_t mode,
					struct proc_dir_entry *parent, const struct proc_ops *ops,
					void *data)
{
	return (struct proc_dir_entry *)name;
}

struct file *anon_inode_getfile(const char *name, const struct file_operations *ops, void *data,
				int flags)
{
	return (struct file *)name;
}

bool ns_capable_noaudit(struct user_namespace *ns, int capability)
{
	return true;
}

ktime_t ktime_get(void)
{
	return user_clock();
}

ktime_t ktime_get_with_offset(enum tk_offsets offset)
{
	return 1767225600ULL * NSEC_PER_SEC;
}

void *kmalloc_trace(struct kmem_cache *s, gfp_t flags, size_t size)
{
	return user_memory(size);
}

void *__vmalloc(unsigned long size, gfp_t flags)
{
	return user_memory(size);
}

/* ---- Queues */

/* Makes a device, and packets: UDP over IPv4 with ECT(0), with a hash. */
void queues_begin(void)
{
	struct net_generic *generic = user_memory(4096);
	struct net *net = user_memory(sizeof(*net));
	unsigned int i;

	dev = user_memory(sizeof(*dev));
	generic->ptr[3] = user_memory(64);
	rcu_assign_pointer(net->gen, generic);
	dev_net_set(dev, net);
	dev->mtu = 1500;
	dev->hard_header_len = ETH_HLEN;
	dev->tx_queue_len = 1000;
	for (i = 0; i < PACKETS; i++) {
		struct sk_buff *skb = user_memory(sizeof(*skb));
		struct iphdr *ip;

		skb->head = user_memory(2048);
		skb->end = 1792;
		skb->data = skb->head + 32;
		skb->len = SIZE;
		skb_set_network_header(skb, ETH_HLEN);
		skb_set_tail_pointer(skb, SIZE);
		ip = ip_hdr(skb);
		ip->version = 4;
		ip->ihl = 5;
		ip->protocol = IPPROTO_UDP;
		ip->tos = 2;
		skb->protocol = htons(ETH_P_IP);
		skb->dev = dev;
		skb_set_hash(skb, 77 + i % 4, PKT_HASH_TYPE_L4);
		qdisc_skb_cb(skb)->pkt_len = SIZE;
		free_packets[free_count++] = skb;
	}
}

/* Opens a queue; `events` and `flows` are options of pie_recorded. */
void *queue_open(const char *kind, int events, int flows)
{
	struct netdev_queue *at = user_memory(sizeof(*at));
	struct Qdisc_ops *ops = &pfifo_qdisc_ops;
	struct Qdisc *sch;
	unsigned int i;
	struct {
		struct nlattr nest;
		struct nlattr events;
		u32 events_value;
		struct nlattr flows;
		u32 flows_value;
	} options = {
		.nest = { .nla_len = sizeof(options), .nla_type = 2 },
		.events = { .nla_len = 8, .nla_type = 19 },
		.events_value = events,
		.flows = { .nla_len = 8, .nla_type = 20 },
		.flows_value = flows,
	};

	for (i = 0; i < KINDS && kinds[i]; i++)
		if (!strcmp(kinds[i]->id, kind))
			ops = kinds[i];
	sch = user_memory(sizeof(*sch) + ops->priv_size);
	sch->ops = ops;
	sch->enqueue = ops->enqueue;
	sch->dequeue = ops->dequeue;
	sch->dev_queue = at;
	at->dev = dev;
	rcu_assign_pointer(at->qdisc_sleeping, sch);
	if (ops->init(sch, strcmp(kind, "pie_recorded") ? NULL : &options.nest, NULL))
		return NULL;
	return sch;
}

/*
 * Sets the state of a queue: without burst allowance, a probability of one per cent and a delay
 * above the target, or as after the opening.
 */
void queue_consider(void *queue, int is_considered)
{
	struct Qdisc *sch = queue;

	if (!strcmp(sch->ops->id, "pie")) {
		struct pie_vars *vars = qdisc_priv(sch);

		vars->burst_time = is_considered ? 0 : PSCHED_NS2TICKS(150 * NSEC_PER_MSEC);
		vars->prob = is_considered ? MAX_PROB / 100 : 0;
	} else if (!strcmp(sch->ops->id, "pie_recorded")) {
		/* the state follows the generator of random words in struct pr_sched */
		struct pie_state *pie = qdisc_priv(sch) + sizeof(struct pr_random);

		if (pie->params.target != 15 * NSEC_PER_MSEC)
			__builtin_trap();
		pie->burst = is_considered ? 0 : 150 * NSEC_PER_MSEC;
		pie->prob = is_considered ? PIE_ONE / 100 : 0;
		pie->old_delay = is_considered ? 20 * NSEC_PER_MSEC : 0;
	}
}

/* Enqueues up to `count` packets. Returns the number of dropped packets. */
unsigned int queue_put(void *queue, unsigned int count)
{
	struct Qdisc *sch = queue;
	struct sk_buff *to_free = NULL, *next;
	unsigned int drops = 0;

	while (count--)
		drops += sch->enqueue(free_packets[--free_count], sch, &to_free) != 0;
	for (; to_free; to_free = next) {
		next = to_free->next;
		free_packets[free_count++] = to_free;
	}
	return drops;
}

/* Dequeues up to `count` packets. Returns their number. */
unsigned int queue_take(void *queue, unsigned int count)
{
	struct Qdisc *sch = queue;
	unsigned int taken = 0;
	struct sk_buff *skb;

	while (taken < count && (skb = sch->dequeue(sch))) {
		free_packets[free_count++] = skb;
		taken++;
	}
	return taken;
}

MODULE_LICENSE("Dual MIT/GPL");
