/* The fields of the kernel's structs that pie_qdisc.bpf.c uses. libbpf finds their places in the running kernel (CO-RE). */
#ifndef KERNEL_TYPES_H
#define KERNEL_TYPES_H

#include <stdint.h>

#define __VMLINUX__
typedef uint8_t __u8;
typedef uint16_t __u16, __be16;
typedef uint32_t __u32, __be32, __wsum;
typedef uint64_t __u64;
typedef int16_t __s16;
typedef int32_t __s32;
typedef int64_t __s64;

enum bpf_map_type { BPF_MAP_TYPE_ARRAY = 2, BPF_MAP_TYPE_ARRAY_OF_MAPS = 12, BPF_MAP_TYPE_RINGBUF = 27 };
enum { BPF_RB_NO_WAKEUP = 1, BPF_F_MMAPABLE = 1024 };
enum { NET_XMIT_SUCCESS = 0, NET_XMIT_DROP = 1 };

/* An iterator over numbers. */
struct bpf_iter_num {
    __u64 opaque[1];
} __attribute__((aligned(8)));

#pragma clang attribute push(__attribute__((preserve_access_index)), apply_to = record)

struct sk_buff {
    char cb[48];
};

struct ns_common {
    unsigned int inum;
};

struct net {
    struct ns_common ns;
};

typedef struct {
    struct net *net;
} possible_net_t;

struct net_device {
    int ifindex;
    possible_net_t nd_net;
};

struct netdev_queue {
    struct net_device *dev;
};

struct qdisc_skb_head {
    __u32 qlen;
};

struct gnet_stats_queue {
    __u32 qlen, backlog, drops, requeues, overlimits;
};

struct Qdisc {
    __u32 limit, handle, parent;
    struct netdev_queue *dev_queue;
    struct qdisc_skb_head q;
    struct gnet_stats_queue qstats;
};

struct nlattr;
struct netlink_ext_ack;

/* The list of packets that a queue discipline drops. */
struct bpf_sk_buff_ptr {
    struct sk_buff *skb;
};

#pragma clang attribute pop

struct Qdisc_ops {
    char id[16];
    int (*enqueue)(struct sk_buff *, struct Qdisc *, struct sk_buff **);
    struct sk_buff *(*dequeue)(struct Qdisc *);
    int (*init)(struct Qdisc *, struct nlattr *, struct netlink_ext_ack *);
    void (*reset)(struct Qdisc *);
    void (*destroy)(struct Qdisc *);
};

#endif
