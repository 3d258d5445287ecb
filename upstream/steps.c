/* Decides steps by the functions of Linux's sch_pie.c that check.sh cuts out of a kernel's source, with stand-ins for the kernel functions that they call.
 * Prints a line for each fault that is there. */
#include <stdbool.h>
#include <stdint.h>
#include <stdio.h>
#include <string.h>

typedef uint8_t u8;
typedef uint32_t u32;
typedef uint64_t u64;
typedef int64_t s64;
typedef u64 psched_time_t;
#define BITS_PER_BYTE 8
#define U64_MAX UINT64_MAX
#define NSEC_PER_MSEC 1000000ull
#define USEC_PER_MSEC 1000ull
#define PSCHED_NS2TICKS(x) ((x) >> 6)
#define PSCHED_TICKS_PER_SEC PSCHED_NS2TICKS(1000000000ull)
#define MTU 1514
#define usecs_to_jiffies(x) (x)
#define clamp_t(type, x, low, high) ((type)(x) < (low) ? (low) : (type)(x) > (high) ? (high) : (type)(x))
#define div_u64(x, y) ((u64)(x) / (u32)(y))
#define WRITE_ONCE(x, y) ((x) = (y))
#define READ_ONCE(x) (x)
#define psched_get_time() 0
#define psched_mtu(device) MTU
#define qdisc_dev(sch) 0
/* The greatest random word picks no packet. */
#define get_random_bytes(to, size) memset(to, 0xff, size)
#define qdisc_cb_private_validate(skb, size) ((void)(skb))
#define qdisc_skb_cb(skb) ((struct qdisc_skb_cb *)(skb)->cb)

struct sk_buff {
    u32 len;
    u8 cb[64];
};
struct qdisc_skb_cb {
    u8 data[48];
};
struct Qdisc;

#include "pie.h"
#include "sch_pie.c"

/* Returns the number of picked packets of 1000, after the accumulated probability of 0.05 for a packet has reached its upper bound: each of them is marked. */
static int picked_at_the_bound(void) {
    struct pie_params params;
    struct pie_vars vars = {0};
    int picked = 0;
    pie_params_init(&params);
    vars.prob = MAX_PROB / 20;
    vars.qdelay = params.target;
    vars.accu_prob = MAX_PROB / 2 * 17;
    for (int packet = 0; packet < 1000; packet++)
        picked += pie_drop_early(NULL, &params, &vars, 10 * MTU, MTU);
    return picked;
}

/* Returns the probability after 200 updates with a delay of 300 ms. */
static double greatest_probability(void) {
    struct pie_params params;
    struct pie_vars vars = {0};
    pie_params_init(&params);
    for (int update = 0; update < 200; update++) {
        vars.qdelay = PSCHED_NS2TICKS(300 * NSEC_PER_MSEC);
        pie_calculate_probability(&params, &vars, MTU);
    }
    return (double)vars.prob / MAX_PROB;
}

/* Returns the delay in ms of 20,000,000 bytes, which depart with 10 Gbit/s: 16 ms. */
static double delay_of_20_mb(void) {
    struct pie_params params;
    struct pie_vars vars = {0};
    pie_params_init(&params);
    params.dq_rate_estimator = true;
    vars.avg_dq_rate = (80 << PIE_SCALE); /* 80 bytes in a tick of 64 ns */
    pie_calculate_probability(&params, &vars, 20000000);
    return (double)vars.qdelay * 64 / 1e6;
}

int main(void) {
    int picked = picked_at_the_bound();
    double probability = greatest_probability(), delay = delay_of_20_mb();
    if (picked > 10)
        printf("4: %d of 1000 packets are marked after the upper bound of accu_prob\n", picked);
    if (probability > 1)
        printf("3: the probability is %.2f\n", probability);
    if (delay < 15.9 || delay > 16.1)
        printf("5: the delay of 20 MB at 10 Gbit/s is %.2f ms\n", delay);
    return 0;
}
