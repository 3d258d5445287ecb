/* The fields of the kernel's structs that pie_watch.bpf.c reads. libbpf finds their places in the running kernel (CO-RE), so that one object serves
 * several kernels. watch_check.c compares their sizes before anything is loaded. */
#ifndef KERNEL_STRUCTS_H
#define KERNEL_STRUCTS_H

#define __VMLINUX__
typedef unsigned char u8;
typedef unsigned short u16;
typedef unsigned int u32;
typedef unsigned long long u64;
typedef u8 __u8;
typedef u16 __u16, __be16;
typedef u32 __u32, __be32, __wsum;
typedef u64 __u64;
typedef short __s16;
typedef int __s32;
typedef long long __s64;
typedef _Bool bool;
enum { false, true };

enum bpf_map_type { BPF_MAP_TYPE_HASH = 1, BPF_MAP_TYPE_ARRAY = 2, BPF_MAP_TYPE_RINGBUF = 27 };
enum { BPF_ANY, BPF_NOEXIST, BPF_F_NO_PREALLOC = 1 };
enum { BPF_RB_NO_WAKEUP = 1 };
enum { BPF_RB_AVAIL_DATA, BPF_RB_RING_SIZE };

#pragma clang attribute push(__attribute__((preserve_access_index)), apply_to = record)

struct list_head {
    struct list_head *next, *prev;
};

struct sk_buff {
    struct sk_buff *next;
    char cb[48];
    unsigned int len, data_len;
    u16 mac_len;
    u32 priority;
    u32 hash;
    u32 mark;
    __be16 protocol;
    u16 network_header;
    u32 tail;
    unsigned char *head, *data;
    unsigned int truesize;
};

struct qdisc_skb_cb {
    struct {
        unsigned int pkt_len;
    };
    unsigned char data[20];
};

struct pie_skb_cb {
    u64 enqueue_time;
    u32 mem_usage;
};

struct ns_common {
    unsigned int inum;
};

struct net {
    struct ns_common ns;
};

typedef struct {
    struct net *net;
} possible_net_t;

struct net_device {
    char name[16];
    int ifindex;
    unsigned int mtu;
    unsigned short hard_header_len;
    possible_net_t nd_net;
};

struct netdev_queue {
    struct net_device *dev;
};

struct qdisc_skb_head {
    struct sk_buff *head;
    u32 qlen;
};

struct sk_buff_head {
    struct sk_buff *next;
    u32 qlen;
};

struct gnet_stats_queue {
    u32 backlog;
};

struct Qdisc {
    u32 limit;
    u32 handle, parent;
    struct netdev_queue *dev_queue;
    struct sk_buff_head gso_skb, skb_bad_txq;
    struct qdisc_skb_head q;
    struct gnet_stats_queue qstats;
    long privdata[0];
};

struct pie_vars {
    u64 qdelay, qdelay_old, burst_time, dq_tstamp, prob, accu_prob, dq_count;
    u32 avg_dq_rate, backlog_old;
};

struct pie_params {
    u64 target;
    u32 tupdate, limit, alpha, beta;
    u8 ecn, bytemode, dq_rate_estimator;
};

struct pie_stats {
    u32 packets_in, dropped, overlimit, ecn_mark, maxq;
};

struct pie_sched_data {
    struct pie_vars vars;
    struct pie_params params;
    struct pie_stats stats;
};

struct timer_list {
    unsigned long expires;
};


struct fq_pie_flow {
    struct pie_vars vars;
    __s32 deficit;
    u32 backlog, qlen;
    struct list_head flowchain;
    struct sk_buff *head;
};

struct fq_pie_sched_data {
    struct fq_pie_flow *flows;
    struct list_head old_flows, new_flows;
    struct pie_params p_params;
    u32 ecn_prob, flows_cnt, flows_cursor, quantum, memory_limit, new_flow_count, memory_usage, overmemory;
    struct pie_stats stats;
    struct timer_list adapt_timer;
};

struct seq_file;
struct bpf_map;

struct bpf_iter_meta {
    struct seq_file *seq;
};

struct bpf_iter__bpf_map_elem {
    struct bpf_iter_meta *meta;
    struct bpf_map *map;
    void *key;
    void *value;
};

#pragma clang attribute pop

#endif
