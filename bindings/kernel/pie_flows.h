/* SPDX-License-Identifier: GPL-2.0 OR MIT */
/*
 * The flows of packets: the upper halves of their tags, and their addresses in the record.
 */
#ifndef PIE_FLOWS_H
#define PIE_FLOWS_H

#include <linux/hash.h>
#include <linux/skbuff.h>
#include <net/flow_dissector.h>
#include <net/ip.h>

#include "pie_recorded.h"

/* Returns true if the first `bytes` bytes of a packet's network header are in its linear part. */
static __always_inline bool pr_has_header(const struct sk_buff *skb, size_t bytes)
{
	size_t at = skb_network_header(skb) - skb->head;

	return at + bytes <= skb_tail_pointer(skb) - skb->head;
}

/*
 * Computes the hash of a packet that has none. The flow dissector takes 600 instructions, so this
 * function hashes the most common packets itself: TCP or UDP over IPv4 without options, no
 * fragment, with the ports in the linear part.
 */
static __always_inline u32 pr_hash(struct sk_buff *skb, u64 key)
{
	const struct iphdr *header = ip_hdr(skb);
	u32 ports, flow;
	u64 hash;

	if (unlikely(skb->protocol != htons(ETH_P_IP) ||
		     !pr_has_header(skb, sizeof(*header) + sizeof(ports)) ||
		     *(const u8 *)header != 0x45 || ip_is_fragment(header) ||
		     (header->protocol != IPPROTO_UDP && header->protocol != IPPROTO_TCP)))
		return skb_get_hash(skb);
	memcpy(&ports, header + 1, sizeof(ports));
	hash = (__force u32)header->saddr | (u64)(__force u32)header->daddr << 32;
	hash = (hash ^ key) * GOLDEN_RATIO_64;
	hash ^= hash >> 32 ^ (u64)header->protocol << 32;
	hash = (hash ^ ports) * GOLDEN_RATIO_64;
	flow = hash >> 32;
	return likely(flow) ? flow : 1;
}

/*
 * Writes the addresses of a packet's flow to its place, and returns the flow. A place is written at
 * most once a second, so that senders of many flows do not load the flow dissector.
 */
static noinline u32 pr_write_flow(struct pie_recorded_flow *to, const struct sk_buff *skb,
				  u32 flow, u64 now)
{
	struct flow_keys keys;

	if (to->flow && now - to->moment < NSEC_PER_SEC)
		return flow;
	if (!skb_flow_dissect_flow_keys(skb, &keys, 0))
		memset(&keys, 0, sizeof(keys));
	WRITE_ONCE(to->flow, 0);
	smp_wmb(); /* a reader of a new field below reads flow 0 or the new flow */
	to->moment = now;
	to->family = 0;
	to->protocol = keys.basic.ip_proto;
	to->ports[0] = keys.ports.src;
	to->ports[1] = keys.ports.dst;
	if (keys.control.addr_type == FLOW_DISSECTOR_KEY_IPV4_ADDRS) {
		to->family = 4;
		memcpy(to->source, &keys.addrs.v4addrs.src, 4);
		memcpy(to->destination, &keys.addrs.v4addrs.dst, 4);
	} else if (keys.control.addr_type == FLOW_DISSECTOR_KEY_IPV6_ADDRS) {
		to->family = 6;
		memcpy(to->source, &keys.addrs.v6addrs.src, 16);
		memcpy(to->destination, &keys.addrs.v6addrs.dst, 16);
	}
	smp_store_release(&to->flow, flow); /* a reader of the new flow reads the fields above */
	return flow;
}

#endif
