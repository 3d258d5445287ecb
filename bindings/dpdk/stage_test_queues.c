#include "stage_test.h"

#include "fwd_queues.h"

#include <rte_cycles.h>
#include <string.h>

#define BURST 32
#define SERVICE 0xb8 /* the DS field of the frames: class 5 */

/* Returns a frame of this class. */
static struct rte_mbuf *of_class(uint16_t size, uint8_t class) {
    struct rte_mbuf *mbuf = plain(size, PIE_ECT0);
    rte_pktmbuf_mtod(mbuf, uint8_t *)[15] = (uint8_t)(class << 5 | PIE_ECT0);
    return mbuf;
}

static void test_classes(void) {
    for (uint32_t count = 1; count <= FWD_QUEUES; count++) {
        uint32_t found[8];
        for (uint8_t class = 0; class < 8; class++) {
            struct rte_mbuf *mbuf = of_class(100, class);
            found[class] = fwd_queue_of(mbuf, count);
            EXPECT(found[class] < count && (class == 0 ? found[0] == 0 : found[class] - found[class - 1] <= 1));
            rte_pktmbuf_free(mbuf);
        }
        EXPECT(found[7] == count - 1);
        struct rte_mbuf *frames[] = {plain(100, PIE_NOT_ECT), ipv6(2), plain(20, PIE_NOT_ECT)}; // (the last is too short for an IP header)
        EXPECT(fwd_queue_of(frames[0], count) == found[SERVICE >> 5] && fwd_queue_of(frames[1], count) == found[SERVICE >> 5]);
        EXPECT(fwd_queue_of(frames[2], count) == 0);
        rte_pktmbuf_free_bulk(frames, 3);
    }
}

/* Sends this number of bytes, a few at a time as a link does, and counts the bytes of each queue,
 * whose packets have a size of their own. */
static void send_bytes(struct fwd_queues *queues, uint64_t bytes, const uint16_t *sizes, uint64_t *sent, uint64_t now) {
    struct rte_mbuf *out[BURST];
    for (uint64_t at = 0; at < bytes;) {
        uint32_t count = fwd_queues_dequeue(queues, out, BURST, 1 + at % 3000, now);
        EXPECT(count != 0);
        for (uint32_t i = 0; i < count; i++) {
            uint32_t size = rte_pktmbuf_pkt_len(out[i]), queue = 0;
            while (sizes[queue] != size)
                queue++;
            EXPECT(queue < queues->count && fwd_queue_of(out[i], queues->count) == queue);
            sent[queue] += size;
            at += size;
        }
        rte_pktmbuf_free_bulk(out, count);
    }
}

/* Tests that queues with packets of any sizes have equal shares, within a packet and a quantum, and that a queue saves
 * no credit while it is empty. */
static void test_shares(void) {
    static const uint16_t sizes[] = {1500, 64, 577, 999};
    struct pie_stage_params params;
    struct fwd_queues queues;
    struct rte_mbuf *mbufs[BURST];
    uint64_t now = rte_rdtsc(), sent[4] = {0};
    unrecorded(&params);
    EXPECT(fwd_queues_create(&queues, 4, "queues", &params));
    for (int round = 0; round < 40; round++) {
        for (int i = 0; i < BURST; i++)
            mbufs[i] = of_class(sizes[i % 4], (uint8_t)(i % 4 * 2));
        fwd_queues_enqueue(&queues, mbufs, BURST, now);
    }
    send_bytes(&queues, 60000, sizes, sent, now); // (the queue of small packets has 20480 bytes)
    for (int i = 0; i < 4; i++)
        EXPECT(sent[i] + 3500 > 15000 && sent[i] < 15000 + 3500);
    send_bytes(&queues, 24000, sizes, sent, now);
    EXPECT(sent[1] == 20480); // (this queue is empty, and remains so for a while)
    send_bytes(&queues, 300000, sizes, sent, now);
    for (int round = 0; round < 20; round++) {
        for (int i = 0; i < BURST; i++)
            mbufs[i] = of_class(sizes[i % 2], (uint8_t)(i % 2 * 2));
        fwd_queues_enqueue(&queues, mbufs, BURST, now);
    }
    uint64_t before[4];
    memcpy(before, sent, sizeof before);
    send_bytes(&queues, 60000, sizes, sent, now); // (the others have packets still)
    for (int i = 0; i < 4; i++)
        EXPECT(sent[i] - before[i] + 3500 > 15000 && sent[i] - before[i] < 15000 + 3500);
    fwd_queues_free(&queues);
    expect_all_back();
}

void test_queues(void) {
    test_classes();
    test_shares();
    printf("stage_test: queues of one sender\n");
}
